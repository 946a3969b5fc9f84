/* The rival, held to what it means, on random models from a fixed seed. Where a model is small and of whole numbers, so that ties are
 * common and no sum is rounded, every path is counted out. On every model, up to the largest, the rival is what wasnugram_viterbi finds
 * where the chosen state cannot emit at the index. All that is given and written is compared to the bit. After each case one thing is made
 * wrong, and the comparison has to see it. */
#include <stdio.h>
#include <string.h>
#include "models.h"

enum {
    SMALL_CASES = 20000,
    CASES = SMALL_CASES + 2000,
    SAMPLES = WASNUGRAM_MOST_SAMPLES,
    SURPLUS = 3,
    CELLS = STATES * SAMPLES + SURPLUS
};

/* The question. No sample is the last symbol, so that its emissions are free for the sample at which a state is barred. */
static double barred_emission[STATES * SYMBOLS];
static uint16_t samples[SAMPLES], barred_samples[SAMPLES];
static size_t length, asked;

/* All that a call gives and writes. */
struct outcome {
    wasnugram_rivalry rivalry;
    uint8_t path[SAMPLES + SURPLUS], rival_path[SAMPLES + SURPLUS], from[CELLS];
    double values[CELLS];
};

static struct outcome found, expected;
static const wasnugram_rivalry NO_RIVAL = { { WASNUGRAM_NO_RIVAL, 0, 0, MINUS_INFINITY }, 0, MINUS_INFINITY };

/* What counting out gives of a small model: a path and its score. */
struct counted {
    uint8_t path[8];
    double score;
};

static struct counted best, rival;

static uint64_t bits(double x) {
    uint64_t word;
    memcpy(&word, &x, sizeof word);
    return word;
}

static void set_samples(size_t n) {
    length = n, asked = below(n);
    for (size_t t = 0; t < n; t++) samples[t] = (uint16_t)below(shape.symbols - 1);
}

/* The i-th case: a small one of whole numbers, then any, and the largest at its first, a middle and its last sample. */
static void set_case(size_t i) {
    size_t from_last = CASES - 1 - i;
    if (from_last < 3) {
        set_model(STATES, SYMBOLS, from_last % 2 ? ANY : MODERATE);
        set_samples(SAMPLES);
        asked = from_last * (SAMPLES - 1) / 2;
    } else if (i < SMALL_CASES) {
        set_model(1 + below(4), 2 + below(3), WHOLE);
        set_samples(1 + below(5));
    } else {
        set_model(1 + below(below(4) ? 6 : STATES), 2 + below(below(4) ? 6 : SYMBOLS - 1), (enum kind)below(KINDS));
        set_samples(1 + below(40));
    }
}

/* Every byte that is to be written is 0xa5 before. */
static void clear(struct outcome *o) {
    size_t cells = length * shape.states + SURPLUS;
    memset(o->path, 0xa5, length + SURPLUS);
    memset(o->rival_path, 0xa5, length + SURPLUS);
    memset(o->from, 0xa5, cells);
    memset(o->values, 0xa5, cells * sizeof(double));
}

static void find(size_t index) {
    const wasnugram_model model = { shape, transition, emission, initial, end };
    const wasnugram_rival_outputs outputs = { length, found.path, found.rival_path, found.values, found.from };
    clear(&found);
    found.rivalry = wasnugram_rival_of(&model, samples, length, index, &outputs);
}

/* The walk of wasnugram_viterbi over these emissions and samples, its path in this buffer. */
static double walked(struct outcome *o, const double *emissions, const uint16_t *symbols, uint8_t *path) {
    const wasnugram_model model = { shape, transition, emissions, initial, end };
    const wasnugram_viterbi_outputs outputs = { length, path, o->values, o->from };
    return wasnugram_viterbi_of(&model, symbols, length, &outputs).value;
}

/* Lets the sample at the index be the last symbol, which each state emits as the sample's own, but the barred one cannot. */
static void bar(size_t state) {
    size_t symbols = shape.symbols, symbol = samples[asked];
    memcpy(barred_emission, emission, shape.states * symbols * sizeof(double));
    memcpy(barred_samples, samples, length * sizeof samples[0]);
    barred_samples[asked] = (uint16_t)(symbols - 1);
    for (size_t j = 0; j < shape.states; j++) {
        barred_emission[j * symbols + symbols - 1] = j == state ? MINUS_INFINITY : emission[j * symbols + symbol];
    }
}

/* The outcome by two walks. The best path's score, which a refusal hides, is given back. */
static double expect(void) {
    clear(&expected);
    double score = walked(&expected, emission, samples, expected.path);
    size_t chosen = expected.path[asked];
    bar(chosen);
    double value = walked(&expected, barred_emission, barred_samples, expected.rival_path);
    if (value > MINUS_INFINITY) {
        expected.rivalry = (wasnugram_rivalry){ { WASNUGRAM_DONE, 0, 0, value }, chosen, score };
    } else {
        clear(&expected);
        expected.rivalry = NO_RIVAL;
    }
    return score;
}

static int is_same_rivalry(wasnugram_rivalry a, wasnugram_rivalry b) {
    return a.answer.refusal == b.answer.refusal && a.answer.table == b.answer.table && a.answer.place == b.answer.place &&
           bits(a.answer.value) == bits(b.answer.value) && a.chosen == b.chosen && bits(a.best) == bits(b.best);
}

/* Whether all is as the two walks have it, surplus included. */
static int is_as_walked(void) {
    size_t cells = length * shape.states + SURPLUS;
    return is_same_rivalry(found.rivalry, expected.rivalry) && memcmp(found.path, expected.path, length + SURPLUS) == 0 &&
           memcmp(found.rival_path, expected.rival_path, length + SURPLUS) == 0 && memcmp(found.from, expected.from, cells) == 0 &&
           memcmp(found.values, expected.values, cells * sizeof(double)) == 0;
}

/* The score of a path, from the left. */
static double score_of(const uint8_t *path) {
    double sum = initial[path[0]] + emission[path[0] * shape.symbols + samples[0]];
    for (size_t t = 1; t < length; t++) {
        sum = sum + transition[path[t - 1] * shape.states + path[t]] + emission[path[t] * shape.symbols + samples[t]];
    }
    return shape.ends ? sum + end[path[length - 1]] : sum;
}

/* The next path, the last state being the last to move on; whether there is one. */
static int next(uint8_t *path) {
    size_t t = 0;
    while (t < length && path[t] + 1u == shape.states) path[t++] = 0;
    if (t < length) path[t]++;
    return t < length;
}

/* The best of all paths that do not have this state at the index, and of equal ones the last, or the first. As paths are counted out in the
 * order of their states from the end, the last is the one of the highest-numbered states from the end. */
static struct counted count_out(size_t barred, int is_first) {
    struct counted kept = { { 0 }, MINUS_INFINITY }, tried = { { 0 }, 0 };
    do {
        tried.score = score_of(tried.path);
        int is_better = tried.score > kept.score || (tried.score == kept.score && !is_first);
        if (tried.path[asked] != barred && is_better) kept = tried;
    } while (next(tried.path));
    return kept;
}

static int is_path(const uint8_t *path, const struct counted *counted) {
    return memcmp(path, counted->path, length) == 0;
}

/* Whether all but the rows is as counting out has it. */
static int is_as_counted(void) {
    wasnugram_rivalry done = { { WASNUGRAM_DONE, 0, 0, rival.score }, best.path[asked], best.score };
    if (rival.score == MINUS_INFINITY) return is_same_rivalry(found.rivalry, NO_RIVAL);
    return is_same_rivalry(found.rivalry, done) && is_path(found.path, &best) && is_path(found.rival_path, &rival);
}

/* What is made wrong after a case; the first three are what counting out tells. */
enum wrong { WRONG_CHOSEN, SCORES_EXCHANGED, PATHS_EXCHANGED, OTHER_INDEX, ROWS_OF_BEST, FLIPPED_BIT, WRONGS };

/* Exchanges two paths. */
static void exchange(uint8_t *first, uint8_t *second) {
    static uint8_t kept[SAMPLES];
    memcpy(kept, first, length);
    memcpy(first, second, length);
    memcpy(second, kept, length);
}

/* Flips a bit of what was lent. */
static void flip(void) {
    size_t cells = length * shape.states + SURPLUS, i = below(4);
    unsigned char *lent[] = { found.path, found.rival_path, found.from, (unsigned char *)found.values };
    const size_t size[] = { length + SURPLUS, length + SURPLUS, cells, cells * sizeof(double) };
    lent[i][below(size[i])] ^= (unsigned char)(1 << below(8));
}

/* Makes an outcome wrong that is done. Whether that is possible: two scores may be the same, and one sample has no other index. */
static int spoil_done(enum wrong wrong) {
    wasnugram_rivalry *r = &found.rivalry, right = *r;
    switch (wrong) {
    case WRONG_CHOSEN: r->chosen = found.rival_path[asked]; return 1;
    case SCORES_EXCHANGED: r->answer.value = right.best, r->best = right.answer.value; return bits(r->best) != bits(right.best);
    case PATHS_EXCHANGED: exchange(found.path, found.rival_path); return 1;
    case OTHER_INDEX: find((asked + 1) % length); return length > 1;
    case ROWS_OF_BEST: walked(&found, emission, samples, found.path); return 1;
    default: flip(); return 1;
    }
}

/* Makes an outcome wrong that is refused, which is possible in each way. */
static int spoil_refused(enum wrong wrong) {
    wasnugram_rivalry *r = &found.rivalry;
    switch (wrong) {
    case WRONG_CHOSEN: r->chosen = 1; return 1;
    case SCORES_EXCHANGED: r->best = -1; return 1;
    case PATHS_EXCHANGED: r->answer.refusal = WASNUGRAM_DONE; return 1;
    case OTHER_INDEX: r->answer.refusal = WASNUGRAM_BAD_INDEX; return 1;
    case ROWS_OF_BEST: walked(&found, emission, samples, found.path); return 1;
    default: flip(); return 1;
    }
}

/* How many cases there are of each kind that has to be met, and how many were made wrong in each way. */
static struct {
    size_t done, no_rival, no_path, ties_of_best, ties_of_rival, spoilt[WRONGS];
} met;
static size_t wrong, unseen;

/* Counts out both paths, and whether either has an equal that comes first. */
static void count_both(void) {
    best = count_out(STATES, 0);
    rival = count_out(best.path[asked], 0);
    struct counted first = count_out(STATES, 1), first_rival = count_out(best.path[asked], 1);
    met.ties_of_best += best.score > MINUS_INFINITY && !is_path(first.path, &best);
    met.ties_of_rival += rival.score > MINUS_INFINITY && !is_path(first_rival.path, &rival);
}

/* Makes the case wrong in one way: each comparison that can tell has to see it. */
static void try_wrong(int is_done, int is_counted) {
    enum wrong made = (enum wrong)below(WRONGS);
    int is_spoilt = is_done ? spoil_done(made) : spoil_refused(made);
    met.spoilt[made] += is_spoilt;
    unseen += is_spoilt && is_as_walked();
    unseen += is_spoilt && is_counted && made <= PATHS_EXCHANGED && is_as_counted();
}

static void compare(size_t i) {
    int is_counted = i < SMALL_CASES;
    set_case(i);
    find(asked);
    double score = expect();
    int is_done = expected.rivalry.answer.refusal == WASNUGRAM_DONE, is_possible = score > MINUS_INFINITY;
    met.done += is_done, met.no_rival += is_possible && !is_done, met.no_path += !is_possible;
    wrong += !is_as_walked() || (is_done && found.rivalry.best < found.rivalry.answer.value);
    if (is_counted) count_both();
    if (is_counted) wrong += !is_as_counted();
    try_wrong(is_done, is_counted);
}

/* Whether everything that has to be met was met, and each kind of wrong outcome made. */
static int is_all_met(void) {
    int so = met.done && met.no_rival && met.no_path && met.ties_of_best && met.ties_of_rival;
    for (size_t i = 0; i < WRONGS; i++) so &= met.spoilt[i] != 0;
    return so;
}

int main(void) {
    for (size_t i = 0; i < CASES; i++) compare(i);
    printf("%d rivals, %d of them counted out: %zu wrong; %zu wrong ones not seen\n", CASES, SMALL_CASES, wrong, unseen);
    printf("done %zu, no rival %zu, no path %zu; ties of the best path %zu, of the rival %zu\n", met.done, met.no_rival, met.no_path,
           met.ties_of_best, met.ties_of_rival);
    if (!is_all_met()) printf("a kind of case was not met\n");
    return wrong || unseen || !is_all_met();
}
