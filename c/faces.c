/* Wrong faces, and whether calls.c sees each: any two arguments of one type exchanged in an export, any two fields of a shape, an answer
 * or a rivalry, any two exports of one signature; a best path that ends in a wrong way; a wrong rival; and a wrong reader or writer of
 * model files. The linker puts these functions between calls.c and the archive (--wrap). */
#include <stdio.h>
#include <string.h>
#include "wasnugram.h"
#include "calls.h"
#include "layout.h"

/* What can be exchanged within: how many places each has. */
enum group {
    VITERBI_NUMBERS, VITERBI_BYTES, VITERBI_SHAPE, RIVAL_NUMBERS, RIVAL_BYTES, RIVAL_SHAPE, RIVAL_COUNTS, RIVALRY_COUNTS, RIVALRY_VALUES,
    FORWARD_NUMBERS, FORWARD_SHAPE, BACKWARD_NUMBERS, BACKWARD_SHAPE, PASS_NUMBERS, PASS_SHAPE, READ_NUMBERS, READ_SHAPE, WRITE_NUMBERS,
    WRITE_SHAPE, LENGTH_SHAPE, ADD_ARGUMENTS, SUB_ARGUMENTS, CAP_ARGUMENTS, CUMSUM_NUMBERS, ANSWER, WALKS, OF_ONE, OF_TWO, GROUPS
};

static const struct {
    const char *name;
    size_t places;
} GROUP[GROUPS] = {
    [VITERBI_NUMBERS] = { "doubles of viterbi", 5 },
    [VITERBI_BYTES] = { "bytes of viterbi", 2 },
    [VITERBI_SHAPE] = { "shape of viterbi", 3 },
    [RIVAL_NUMBERS] = { "doubles of rival", 5 },
    [RIVAL_BYTES] = { "bytes of rival", 3 },
    [RIVAL_SHAPE] = { "shape of rival", 3 },
    [RIVAL_COUNTS] = { "length of the samples and index of rival", 2 },
    [RIVALRY_COUNTS] = { "place and chosen of the rivalry", 2 },
    [RIVALRY_VALUES] = { "value and best of the rivalry", 2 },
    [FORWARD_NUMBERS] = { "doubles of forward", 5 },
    [FORWARD_SHAPE] = { "shape of forward", 3 },
    [BACKWARD_NUMBERS] = { "doubles of backward", 5 },
    [BACKWARD_SHAPE] = { "shape of backward", 3 },
    [PASS_NUMBERS] = { "doubles of baum_welch", 10 },
    [PASS_SHAPE] = { "shape of baum_welch", 3 },
    [READ_NUMBERS] = { "doubles of read_model", 4 },
    [READ_SHAPE] = { "shape that read_model gives", 3 },
    [WRITE_NUMBERS] = { "doubles of write_model", 4 },
    [WRITE_SHAPE] = { "shape of write_model", 3 },
    [LENGTH_SHAPE] = { "shape of model_file_length", 3 },
    [ADD_ARGUMENTS] = { "arguments of ln_add_exp", 2 },
    [SUB_ARGUMENTS] = { "arguments of ln_sub_exp", 2 },
    [CAP_ARGUMENTS] = { "arguments of cap_numerical_overshoot", 2 },
    [CUMSUM_NUMBERS] = { "doubles of ln_cumsum_exp", 2 },
    [ANSWER] = { "fields of the answer", 3 },
    [WALKS] = { "forward and backward", 2 },
    [OF_ONE] = { "exp, ln, ln_one_minus_exp", 3 },
    [OF_TWO] = { "ln_add_exp, ln_sub_exp, cap_numerical_overshoot", 3 },
};

static struct {
    enum group group;
    size_t first, second;
} exchanged = { GROUPS, 0, 0 };

/* Where the face that is tried finds what belongs at this place. */
static size_t place(enum group group, size_t i) {
    if (exchanged.group != group) return i;
    return i == exchanged.first ? exchanged.second : i == exchanged.second ? exchanged.first : i;
}

/* How the best path ends in the face that is tried. */
static enum way_out { RIGHT, LEFT_OUT, ALWAYS_ADDED, LOWEST_BIT, WAYS_OUT } way_out;
static const char *const WAY_OUT[WAYS_OUT] = {
    [LEFT_OUT] = "the end table left out",
    [ALWAYS_ADDED] = "+0.0 added where there is no end state",
    [LOWEST_BIT] = "the lowest bit taken for the end flag",
};

static uint8_t flag_of(uint8_t ends) {
    return way_out == LEFT_OUT ? 0 : way_out == ALWAYS_ADDED ? 1 : way_out == LOWEST_BIT ? ends & 1 : ends;
}

/* What is wrong with the rival in the face that is tried. */
static enum rivalling {
    TRUE_RIVALLING, INDEX_FROM_ONE, INDEX_IGNORED, HALF_AN_INDEX, PLACE_OF_INDEX, INDEX_FIRST, INDEX_LAST, NO_SAMPLES_REFUSED,
    NUMBERS_EXCHANGED, NO_RIVAL_DONE, CHOSEN_OF_NO_RIVAL, BEST_OF_NO_RIVAL, CLEARED_PATH, MARGIN_AS_VALUE, CHOSEN_OF_RIVAL, BEST_AS_RIVAL,
    ROWS_OF_BEST, SYMBOL_BARRED, ENDS_LEFT_OUT, ENDS_BY_LOWEST_BIT, RIVAL_LEFT_OUT, ADDED_TO_RIVAL, ADDED_TO_BEST, RIVALLINGS
} rivalling;
static const char *const RIVALLING[RIVALLINGS] = {
    [INDEX_FROM_ONE] = "the index counts from 1",
    [INDEX_IGNORED] = "the index is taken for 0 where it is good",
    [HALF_AN_INDEX] = "the index is taken for its lowest 32 bits",
    [PLACE_OF_INDEX] = "the place of 16 is the index",
    [INDEX_FIRST] = "16 is given before 8",
    [INDEX_LAST] = "16 is given after 15",
    [NO_SAMPLES_REFUSED] = "no samples are refused with 4",
    [NUMBERS_EXCHANGED] = "15 and 16 are exchanged",
    [NO_RIVAL_DONE] = "done with minus infinity for 15",
    [CHOSEN_OF_NO_RIVAL] = "15 gives the chosen state",
    [BEST_OF_NO_RIVAL] = "15 gives the best path's score",
    [CLEARED_PATH] = "15 clears the first state of the rival's path",
    [MARGIN_AS_VALUE] = "the value is the margin",
    [CHOSEN_OF_RIVAL] = "the chosen state is the rival's",
    [BEST_AS_RIVAL] = "the rival's path is the best one",
    [ROWS_OF_BEST] = "the rows are those of the best path's walk",
    [SYMBOL_BARRED] = "the chosen state is barred wherever the symbol comes",
    [ENDS_LEFT_OUT] = "rival leaves the end table out",
    [ENDS_BY_LOWEST_BIT] = "rival takes the lowest bit for the end flag",
    [RIVAL_LEFT_OUT] = "the end table is left out of the rival's score alone",
    [ADDED_TO_RIVAL] = "+0.0 is added to the rival's score",
    [ADDED_TO_BEST] = "+0.0 is added to the score of the best path beside the rival",
};

/* What is wrong with a model file in the face that is tried. */
static enum filing {
    TRUE_FILING, FLAG_OF_READING, SHAPE_OF_REFUSED, VALUE_OF_READING, CLEARED_TABLE, LEFT_OVER, LAST_SUM, ROOM_FIRST, ROUNDED_ADDRESS,
    PLACE_OF_STATES, INITIAL_UNCHECKED, NULL_TABLE, LAST_EMISSION, FLAG_OF_WRITER, VALUE_OF_WRITER, INITIAL_WRITTEN, FLAG_OF_LENGTH,
    FILINGS
} filing;
static const char *const FILING[FILINGS] = {
    [FLAG_OF_READING] = "the reader gives 255 for the end flag",
    [SHAPE_OF_REFUSED] = "the reader gives a shape where it refuses",
    [VALUE_OF_READING] = "the reader's value is -0.0",
    [CLEARED_TABLE] = "the reader clears an entry where it refuses",
    [LEFT_OVER] = "the reader lets bytes pass that are left over",
    [LAST_SUM] = "the reader does not compare the last table's sum",
    [ROOM_FIRST] = "the reader gives 6 before 14",
    [ROUNDED_ADDRESS] = "the reader rounds the file's address down to 8",
    [PLACE_OF_STATES] = "the reader's 1 is at place 0",
    [INITIAL_UNCHECKED] = "the reader gives no 7 in table 2",
    [NULL_TABLE] = "the reader gives 7 for a table that is null",
    [LAST_EMISSION] = "the reader gives another last emission",
    [FLAG_OF_WRITER] = "the writer takes the lowest bit for the end flag",
    [VALUE_OF_WRITER] = "the writer's value is -0.0",
    [INITIAL_WRITTEN] = "the writer writes -0.0 for an initial entry where there is no end state",
    [FLAG_OF_LENGTH] = "the file's length takes the lowest bit for the end flag",
};

/* The shape with its end flag's lowest bit alone, where that is the face that is tried. */
static wasnugram_shape lowest_bit_in(enum filing wrong, wasnugram_shape shape) {
    if (filing == wrong) shape.ends &= 1;
    return shape;
}

/* The answer with its zero negated, where that is the face that is tried. */
static wasnugram_answer negated_in(enum filing wrong, wasnugram_answer a) {
    if (filing == wrong && a.refusal == WASNUGRAM_DONE) a.value = -a.value;
    return a;
}

static wasnugram_shape shape_of(enum group group, wasnugram_shape shape) {
    size_t fields[] = { shape.states, shape.symbols, shape.ends };
    return (wasnugram_shape){ fields[place(group, 0)], fields[place(group, 1)], (uint8_t)fields[place(group, 2)] };
}

static wasnugram_answer answer_of(wasnugram_answer a) {
    size_t fields[] = { a.refusal, a.table, a.place };
    return (wasnugram_answer){ (uint8_t)fields[place(ANSWER, 0)], (uint8_t)fields[place(ANSWER, 1)], fields[place(ANSWER, 2)], a.value };
}

struct numbers {
    double *entries;
    size_t length;
};

struct bytes {
    uint8_t *entries;
    size_t length;
};

#define LENT(list, group, i) list[place(group, i)].entries, list[place(group, i)].length
#define TABLES(list, group) LENT(list, group, 0), LENT(list, group, 1), LENT(list, group, 2), LENT(list, group, 3)
#define MODEL_TABLE_LIST                                                                                                     \
    double *transition, size_t transition_length, double *emission, size_t emission_length,                                  \
        double *initial, size_t initial_length, double *end, size_t end_length
#define MODEL wasnugram_shape shape, MODEL_TABLE_LIST, uint16_t *samples, size_t samples_length
#define MODEL_TABLES { transition, transition_length }, { emission, emission_length }, { initial, initial_length }, { end, end_length }
#define PATH MODEL, uint8_t *path, size_t path_length, double *values, size_t values_length, uint8_t *from, size_t from_length
#define RIVAL                                                                                                                \
    MODEL, size_t index, uint8_t *path, size_t path_length, uint8_t *rival_path, size_t rival_path_length, double *values,   \
        size_t values_length, uint8_t *from, size_t from_length
#define WALK MODEL, double *values, size_t values_length
#define PASS                                                                                                                 \
    MODEL, double *new_transition, size_t new_transition_length, double *new_emission, size_t new_emission_length,           \
        double *new_initial, size_t new_initial_length, double *new_end, size_t new_end_length, double *alpha,               \
        size_t alpha_length, double *beta, size_t beta_length
#define READ uint8_t *file, size_t file_length, MODEL_TABLE_LIST
#define WRITE wasnugram_shape shape, MODEL_TABLE_LIST, uint8_t *file, size_t file_length
#define CUMSUM double *probs, size_t probs_length, double *sums, size_t sums_length

wasnugram_answer __real_wasnugram_viterbi(PATH), __real_wasnugram_forward(WALK), __real_wasnugram_backward(WALK);
wasnugram_answer __real_wasnugram_baum_welch(PASS), __real_wasnugram_ln_cumsum_exp(CUMSUM), __real_wasnugram_ln_sum_exp(double *, size_t);
wasnugram_rivalry __real_wasnugram_rival(RIVAL);
wasnugram_reading __real_wasnugram_read_model(READ);
wasnugram_answer __real_wasnugram_write_model(WRITE);
size_t __real_wasnugram_model_file_length(wasnugram_shape);
wasnugram_answer __real_wasnugram_exp(double), __real_wasnugram_ln(double), __real_wasnugram_ln_one_minus_exp(double);
wasnugram_answer __real_wasnugram_ln_add_exp(double, double), __real_wasnugram_ln_sub_exp(double, double);
wasnugram_answer __real_wasnugram_cap_numerical_overshoot(double, double);

static wasnugram_answer (*const WALK_CALL[])(WALK) = { __real_wasnugram_forward, __real_wasnugram_backward };
static wasnugram_answer (*const OF_ONE_CALL[])(double) = { __real_wasnugram_exp, __real_wasnugram_ln, __real_wasnugram_ln_one_minus_exp };
static wasnugram_answer (*const OF_TWO_CALL[])(double, double) = { __real_wasnugram_ln_add_exp, __real_wasnugram_ln_sub_exp,
                                                                  __real_wasnugram_cap_numerical_overshoot };

static wasnugram_answer viterbi(
    wasnugram_shape shape, const struct numbers *n, const struct bytes *b, uint16_t *samples, size_t samples_length) {
    return __real_wasnugram_viterbi(shape_of(VITERBI_SHAPE, shape), TABLES(n, VITERBI_NUMBERS), samples, samples_length,
                                    LENT(b, VITERBI_BYTES, 0), LENT(n, VITERBI_NUMBERS, 4), LENT(b, VITERBI_BYTES, 1));
}

/* A wrong way out is taken once the checks are passed, so that no refusal tells it. */
wasnugram_answer __wrap_wasnugram_viterbi(PATH) {
    static double zeros[WASNUGRAM_MOST_STATES];
    struct numbers n[] = { MODEL_TABLES, { values, values_length } };
    struct bytes b[] = { { path, path_length }, { from, from_length } };
    wasnugram_answer a = viterbi(shape, n, b, samples, samples_length);
    if (a.refusal == WASNUGRAM_DONE && way_out != RIGHT) {
        shape.ends = flag_of(shape.ends);
        if (!shape.ends) n[WASNUGRAM_END].entries = zeros;
        a = viterbi(shape, n, b, samples, samples_length);
    }
    return answer_of(a);
}

static wasnugram_rivalry rivalry_of(wasnugram_rivalry r) {
    size_t counts[] = { r.answer.place, r.chosen };
    double numbers[] = { r.answer.value, r.best };
    wasnugram_answer a = { r.answer.refusal, r.answer.table, counts[place(RIVALRY_COUNTS, 0)], numbers[place(RIVALRY_VALUES, 0)] };
    return (wasnugram_rivalry){ answer_of(a), counts[place(RIVALRY_COUNTS, 1)], numbers[place(RIVALRY_VALUES, 1)] };
}

/* What is lent to the rival: its doubles, its bytes (the best path, the rival's, the predecessors), its samples. */
struct rival_lent {
    wasnugram_shape shape;
    struct numbers n[5];
    struct bytes b[3];
    uint16_t *samples;
    size_t samples_length;
};

static wasnugram_rivalry rival(struct rival_lent *l, size_t index) {
    const struct numbers *n = l->n;
    const struct bytes *b = l->b;
    size_t counts[] = { l->samples_length, index };
    return __real_wasnugram_rival(shape_of(RIVAL_SHAPE, l->shape), TABLES(n, RIVAL_NUMBERS), l->samples, counts[place(RIVAL_COUNTS, 0)],
                                  counts[place(RIVAL_COUNTS, 1)], LENT(b, RIVAL_BYTES, 0), LENT(b, RIVAL_BYTES, 1),
                                  LENT(n, RIVAL_NUMBERS, 4), LENT(b, RIVAL_BYTES, 2));
}

/* The index, in the faces that take it for another one. */
static size_t index_of(size_t index, size_t samples_length) {
    if (rivalling == INDEX_FROM_ONE) return index - 1;
    if (rivalling == INDEX_IGNORED && index < samples_length) return 0;
    return rivalling == HALF_AN_INDEX ? (uint32_t)index : index;
}

/* The best path into this buffer, and its rows. */
static wasnugram_answer walk(struct rival_lent *l, const struct bytes *path) {
    const struct bytes b[] = { *path, l->b[2] };
    return viterbi(l->shape, l->n, b, l->samples, l->samples_length);
}

/* The walk where the chosen state cannot emit the symbol of the index, at any sample. */
static void bar_symbol(struct rival_lent *l, size_t index, wasnugram_rivalry *r) {
    static double emission[256];
    struct numbers *table = &l->n[WASNUGRAM_EMISSION], lent = *table;
    memcpy(emission, lent.entries, lent.length * sizeof(double));
    emission[r->chosen * l->shape.symbols + l->samples[index]] = -__builtin_inf();
    table->entries = emission;
    r->answer = walk(l, &l->b[1]);
    *table = lent;
}

/* The rival of the model without its end state. */
static void leave_ends_out(struct rival_lent *l, size_t index, wasnugram_rivalry *r) {
    static double zeros[WASNUGRAM_MOST_STATES];
    l->shape.ends = 0;
    l->n[WASNUGRAM_END].entries = zeros;
    *r = rival(l, index);
}

/* What a rival that is done gives, in the faces that end its path or the best one in a wrong way. */
static void rival_ended(struct rival_lent *l, size_t index, wasnugram_rivalry *r) {
    size_t last = l->samples_length - 1;
    int is_left_out = rivalling == ENDS_LEFT_OUT || (rivalling == ENDS_BY_LOWEST_BIT && l->shape.ends % 2 == 0);
    if (is_left_out) leave_ends_out(l, index, r);
    if (rivalling == RIVAL_LEFT_OUT) r->answer.value = l->n[4].entries[last * l->shape.states + l->b[1].entries[last]];
    if (rivalling == ADDED_TO_RIVAL) r->answer.value += 0.0;
    if (rivalling == ADDED_TO_BEST) r->best += 0.0;
}

/* What a rival that is done gives and writes, in the other faces where that is wrong. */
static void rival_found(struct rival_lent *l, size_t index, wasnugram_rivalry *r) {
    if (rivalling == MARGIN_AS_VALUE) r->answer.value = r->best - r->answer.value;
    if (rivalling == CHOSEN_OF_RIVAL) r->chosen = l->b[1].entries[index];
    if (rivalling == BEST_AS_RIVAL) memcpy(l->b[1].entries, l->b[0].entries, l->samples_length);
    if (rivalling == ROWS_OF_BEST) walk(l, &l->b[0]);
    if (rivalling == SYMBOL_BARRED) bar_symbol(l, index, r);
    rival_ended(l, index, r);
}

/* The same with outputs of our own, so that what was lent stays as it is. */
static struct rival_lent aside(struct rival_lent l) {
    static double values[16];
    static uint8_t bytes[3][16];
    l.n[4] = (struct numbers){ values, 16 };
    for (size_t i = 0; i < 3; i++) l.b[i] = (struct bytes){ bytes[i], 16 };
    return l;
}

/* What is said where there is no rival, in the faces where that is wrong. */
static void no_rival_found(struct rival_lent *l, size_t index, wasnugram_rivalry *r) {
    struct rival_lent own = aside(*l);
    double best = walk(&own, &own.b[0]).value;
    if (rivalling == NO_RIVAL_DONE) r->answer.refusal = WASNUGRAM_DONE;
    if (rivalling == CHOSEN_OF_NO_RIVAL) r->chosen = own.b[0].entries[index];
    if (rivalling == BEST_OF_NO_RIVAL) r->best = best;
    if (rivalling == CLEARED_PATH) l->b[1].entries[0] = 0;
}

/* The refusals, in the faces that give others or in another order. */
static void rival_refused(struct rival_lent *l, size_t index, wasnugram_rivalry *r) {
    struct rival_lent own = aside(*l);
    uint8_t *refusal = &r->answer.refusal;
    int is_bad = index >= l->samples_length, is_15 = *refusal == WASNUGRAM_NO_RIVAL, is_16 = *refusal == WASNUGRAM_BAD_INDEX;
    if (rivalling == PLACE_OF_INDEX && is_16) r->answer.place = index;
    if (rivalling == INDEX_FIRST && *refusal == WASNUGRAM_UNKNOWN_SYMBOL && is_bad) {
        r->answer = (wasnugram_answer){ WASNUGRAM_BAD_INDEX, 0, 0, r->answer.value };
    }
    if (rivalling == INDEX_LAST && is_16 && l->samples_length && rival(&own, 0).answer.refusal) *refusal = WASNUGRAM_NO_RIVAL;
    if (rivalling == NO_SAMPLES_REFUSED && is_16 && !l->samples_length) *refusal = WASNUGRAM_NO_SAMPLES;
    if (rivalling == NUMBERS_EXCHANGED && (is_15 || is_16)) *refusal = is_15 ? WASNUGRAM_BAD_INDEX : WASNUGRAM_NO_RIVAL;
}

wasnugram_rivalry __wrap_wasnugram_rival(RIVAL) {
    struct rival_lent l = { shape, { MODEL_TABLES, { values, values_length } },
                            { { path, path_length }, { rival_path, rival_path_length }, { from, from_length } }, samples, samples_length };
    wasnugram_rivalry r = rival(&l, index_of(index, samples_length));
    if (r.answer.refusal == WASNUGRAM_DONE) rival_found(&l, index, &r);
    else if (r.answer.refusal == WASNUGRAM_NO_RIVAL) no_rival_found(&l, index, &r);
    rival_refused(&l, index, &r);
    return rivalry_of(r);
}

wasnugram_answer __wrap_wasnugram_forward(WALK) {
    struct numbers n[] = { MODEL_TABLES, { values, values_length } };
    return answer_of(WALK_CALL[place(WALKS, 0)](shape_of(FORWARD_SHAPE, shape), TABLES(n, FORWARD_NUMBERS), samples, samples_length,
                                                LENT(n, FORWARD_NUMBERS, 4)));
}

wasnugram_answer __wrap_wasnugram_backward(WALK) {
    struct numbers n[] = { MODEL_TABLES, { values, values_length } };
    return answer_of(WALK_CALL[place(WALKS, 1)](shape_of(BACKWARD_SHAPE, shape), TABLES(n, BACKWARD_NUMBERS), samples, samples_length,
                                                LENT(n, BACKWARD_NUMBERS, 4)));
}

wasnugram_answer __wrap_wasnugram_baum_welch(PASS) {
    struct numbers n[] = { MODEL_TABLES, { new_transition, new_transition_length }, { new_emission, new_emission_length },
                           { new_initial, new_initial_length }, { new_end, new_end_length },
                           { alpha, alpha_length }, { beta, beta_length } };
    return answer_of(__real_wasnugram_baum_welch(shape_of(PASS_SHAPE, shape), TABLES(n, PASS_NUMBERS), samples, samples_length,
                                                 LENT(n, PASS_NUMBERS, 4), LENT(n, PASS_NUMBERS, 5), LENT(n, PASS_NUMBERS, 6),
                                                 LENT(n, PASS_NUMBERS, 7), LENT(n, PASS_NUMBERS, 8), LENT(n, PASS_NUMBERS, 9)));
}

/* A copy of a file with the last table's sum set right. */
static uint8_t *with_last_sum(const uint8_t *file, size_t length, wasnugram_shape shape) {
    static uint8_t copy[256];
    size_t table = tables_in(shape) - 1;
    uint64_t sum = 0;
    memcpy(copy, file, length);
    for (size_t at = body_offset(shape, table); at < length; at += 8) sum += word_at(copy + at);
    set_word(copy + sum_offset(table), sum);
    return copy;
}

/* The reader, in the faces that do not look at the whole file or not at the right one. */
static wasnugram_reading read_model(uint8_t *file, size_t file_length, const struct numbers *n) {
    wasnugram_shape shape = { 0, 0, 0 };
    if (file_length >= 8) shape = (wasnugram_shape){ file[0], file[2], file[4] == 1 };
    size_t length = __real_wasnugram_model_file_length(shape);
    if (filing == LEFT_OVER && length && length < file_length) file_length = length;
    if (filing == LAST_SUM && length && length == file_length) file = with_last_sum(file, length, shape);
    if (filing == ROUNDED_ADDRESS) file -= (uintptr_t)file % 8;
    return __real_wasnugram_read_model(file, file_length, TABLES(n, READ_NUMBERS));
}

/* The reader's answer, in the faces that give another one. An end table that is too short has one entry, or none. */
static wasnugram_answer read_answer(wasnugram_answer a, const struct numbers *n) {
    int is_short = n[WASNUGRAM_END].length < 2;
    if (filing == ROOM_FIRST && a.refusal == WASNUGRAM_BAD_SUM && is_short) a.refusal = WASNUGRAM_OUTPUT_TOO_SHORT;
    if (filing == PLACE_OF_STATES && a.refusal == WASNUGRAM_BAD_STATES) a.place = 0;
    if (filing == INITIAL_UNCHECKED && a.refusal == WASNUGRAM_NOT_GOOD && a.table == WASNUGRAM_INITIAL) a.refusal = WASNUGRAM_DONE;
    if (filing == NULL_TABLE && a.refusal == WASNUGRAM_OUTPUT_TOO_SHORT && !n[WASNUGRAM_END].entries) a.refusal = WASNUGRAM_NOT_GOOD;
    return negated_in(VALUE_OF_READING, a);
}

wasnugram_reading __wrap_wasnugram_read_model(READ) {
    struct numbers n[] = { MODEL_TABLES };
    wasnugram_reading r = read_model(file, file_length, n);
    int is_refused = r.answer.refusal != WASNUGRAM_DONE;
    if (filing == SHAPE_OF_REFUSED && is_refused) r.shape.states = 2;
    if (filing == CLEARED_TABLE && is_refused && transition_length) transition[0] = 0;
    if (filing == LAST_EMISSION && !is_refused) emission[words_in(r.shape, WASNUGRAM_EMISSION) - 1] = -0.0;
    if (filing == FLAG_OF_READING && r.shape.ends) r.shape.ends = 255;
    return (wasnugram_reading){ answer_of(read_answer(r.answer, n)), shape_of(READ_SHAPE, r.shape) };
}

wasnugram_answer __wrap_wasnugram_write_model(WRITE) {
    struct numbers n[] = { MODEL_TABLES };
    wasnugram_shape lent = shape_of(WRITE_SHAPE, lowest_bit_in(FLAG_OF_WRITER, shape));
    wasnugram_answer a = __real_wasnugram_write_model(lent, TABLES(n, WRITE_NUMBERS), file, file_length);
    int is_altered = filing == INITIAL_WRITTEN && a.refusal == WASNUGRAM_DONE && !shape.ends;
    if (is_altered) set_entry(file, shape, WASNUGRAM_INITIAL, 0, UINT64_C(1) << 63);
    return answer_of(negated_in(VALUE_OF_WRITER, a));
}

size_t __wrap_wasnugram_model_file_length(wasnugram_shape shape) {
    return __real_wasnugram_model_file_length(shape_of(LENGTH_SHAPE, lowest_bit_in(FLAG_OF_LENGTH, shape)));
}

wasnugram_answer __wrap_wasnugram_ln_cumsum_exp(CUMSUM) {
    struct numbers n[] = { { probs, probs_length }, { sums, sums_length } };
    return answer_of(__real_wasnugram_ln_cumsum_exp(LENT(n, CUMSUM_NUMBERS, 0), LENT(n, CUMSUM_NUMBERS, 1)));
}

wasnugram_answer __wrap_wasnugram_ln_sum_exp(double *probs, size_t probs_length) {
    return answer_of(__real_wasnugram_ln_sum_exp(probs, probs_length));
}

wasnugram_answer __wrap_wasnugram_exp(double d) {
    return answer_of(OF_ONE_CALL[place(OF_ONE, 0)](d));
}

wasnugram_answer __wrap_wasnugram_ln(double x) {
    return answer_of(OF_ONE_CALL[place(OF_ONE, 1)](x));
}

wasnugram_answer __wrap_wasnugram_ln_one_minus_exp(double p) {
    return answer_of(OF_ONE_CALL[place(OF_ONE, 2)](p));
}

/* One of the calls of two numbers, with its arguments as the face has them. */
static wasnugram_answer of_two(size_t call, enum group arguments, double x, double y) {
    double argument[] = { x, y };
    return answer_of(OF_TWO_CALL[place(OF_TWO, call)](argument[place(arguments, 0)], argument[place(arguments, 1)]));
}

wasnugram_answer __wrap_wasnugram_ln_add_exp(double p0, double p1) {
    return of_two(0, ADD_ARGUMENTS, p0, p1);
}

wasnugram_answer __wrap_wasnugram_ln_sub_exp(double p0, double p1) {
    return of_two(1, SUB_ARGUMENTS, p0, p1);
}

wasnugram_answer __wrap_wasnugram_cap_numerical_overshoot(double value, double epsilon) {
    return of_two(2, CAP_ARGUMENTS, value, epsilon);
}

static size_t tried, unseen;

/* Tries the wrong face that is set: whether it is taken for the right one. */
static int is_unseen(void) {
    int so = calls_wrong() == 0;
    tried++;
    unseen += so;
    return so;
}

/* Tries the face with two places exchanged. */
static void try_face(enum group group, size_t first, size_t second) {
    exchanged.group = group, exchanged.first = first, exchanged.second = second;
    if (is_unseen()) printf("a wrong face is not seen: %s, %zu and %zu exchanged\n", GROUP[group].name, first, second);
}

/* Tries every pair of places. */
static void try_group(enum group group) {
    size_t places = GROUP[group].places;
    for (size_t i = 0; i < places * places; i++) {
        if (i / places < i % places) try_face(group, i / places, i % places);
    }
}

static void try_ways_out(void) {
    for (way_out = RIGHT + 1; way_out < WAYS_OUT; way_out++) {
        if (is_unseen()) printf("a wrong face is not seen: %s\n", WAY_OUT[way_out]);
    }
    way_out = RIGHT;
}

static void try_rivallings(void) {
    for (rivalling = TRUE_RIVALLING + 1; rivalling < RIVALLINGS; rivalling++) {
        if (is_unseen()) printf("a wrong face is not seen: %s\n", RIVALLING[rivalling]);
    }
    rivalling = TRUE_RIVALLING;
}

static void try_filings(void) {
    for (filing = TRUE_FILING + 1; filing < FILINGS; filing++) {
        if (is_unseen()) printf("a wrong face is not seen: %s\n", FILING[filing]);
    }
    filing = TRUE_FILING;
}

int main(void) {
    if (calls_wrong()) {
        printf("the right face is taken for a wrong one, in line %d of c/calls.c\n", calls_first_wrong_line);
        return 1;
    }
    try_ways_out();
    try_rivallings();
    try_filings();
    for (enum group group = 0; group < GROUPS; group++) try_group(group);
    printf("%zu wrong faces tried, %zu not seen\n", tried, unseen);
    return unseen != 0;
}
