/* Every export of the archive, plainly and with structs, with good and bad arguments. Each argument and each field of an answer is told
 * from every other: c/faces.c exchanges any two of them and counts on this file to see it. No libc is needed here, so that the same file
 * is linked with and without one. */
#include "wasnugram.h"
#include "calls.h"
#include "layout.h"

#define MINUS_INFINITY (-__builtin_inf())
#define NOT_A_NUMBER __builtin_nan("")
#define LN_2 0.6931471805599453

/* What the exports in Rattle count on. */
_Static_assert(sizeof(wasnugram_shape) == 24 && offsetof(wasnugram_shape, symbols) == 8 && offsetof(wasnugram_shape, ends) == 16, "shape");
_Static_assert(sizeof(wasnugram_answer) == 24 && offsetof(wasnugram_answer, table) == 1 && offsetof(wasnugram_answer, place) == 8 &&
                   offsetof(wasnugram_answer, value) == 16, "answer");
_Static_assert(sizeof(wasnugram_reading) == 48 && offsetof(wasnugram_reading, shape) == 24, "reading");
_Static_assert(sizeof(wasnugram_rivalry) == 40 && offsetof(wasnugram_rivalry, chosen) == 24 && offsetof(wasnugram_rivalry, best) == 32,
               "rivalry");

/* The sizes that the header gives, at a gate of 12 states, 256 symbols and 240 samples. */
#define IS(size, entries) _Static_assert((size) == (entries), #size)
IS(WASNUGRAM_MODEL_TRANSITION(10 + 2), 144);
IS(WASNUGRAM_MODEL_EMISSION(10 + 2, 255 + 1), 3072);
IS(WASNUGRAM_MODEL_INITIAL(12), 12);
IS(WASNUGRAM_MODEL_END(12), 12);
IS(WASNUGRAM_MODEL_FILE(10 + 2, 255 + 1, 1 - 1), 25880);
IS(WASNUGRAM_MODEL_FILE(10 + 2, 255 + 1, 1 + 1), 25992);
IS(WASNUGRAM_VITERBI_PATH(240), 240);
IS(WASNUGRAM_VITERBI_VALUES(10 + 2, 239 + 1), 2880);
IS(WASNUGRAM_VITERBI_FROM(10 + 2, 239 + 1), 2880);
IS(WASNUGRAM_RIVAL_PATH(240), 240);
IS(WASNUGRAM_RIVAL_RIVAL_PATH(240), 240);
IS(WASNUGRAM_RIVAL_VALUES(10 + 2, 239 + 1), 2880);
IS(WASNUGRAM_RIVAL_FROM(10 + 2, 239 + 1), 2880);
IS(WASNUGRAM_FORWARD_VALUES(10 + 2, 239 + 1), 2880);
IS(WASNUGRAM_BACKWARD_VALUES(10 + 2, 239 + 1), 2880);
IS(WASNUGRAM_BAUM_WELCH_NEW_TRANSITION(10 + 2), 144);
IS(WASNUGRAM_BAUM_WELCH_NEW_EMISSION(10 + 2, 255 + 1), 3072);
IS(WASNUGRAM_BAUM_WELCH_NEW_INITIAL(12), 12);
IS(WASNUGRAM_BAUM_WELCH_NEW_END(12), 12);
IS(WASNUGRAM_BAUM_WELCH_ALPHA(10 + 2, 239 + 1), 2880);
IS(WASNUGRAM_BAUM_WELCH_BETA(10 + 2, 239 + 1), 2880);
IS(WASNUGRAM_LN_CUMSUM_EXP_SUMS(5), 5);

int calls_first_wrong_line;
static int wrong;

static void expect(int so, int line) {
    if (!so && wrong++ == 0) calls_first_wrong_line = line;
}

#define EXPECT(so) expect((so), __LINE__)

static uint64_t bits(double x) {
    union { double x; uint64_t b; } u = { x };
    return u.b;
}

static int is(wasnugram_answer a, uint8_t refusal, uint8_t table, size_t place, double value) {
    return a.refusal == refusal && a.table == table && a.place == place && bits(a.value) == bits(value);
}

static int is_done(wasnugram_answer a, double value) {
    return is(a, WASNUGRAM_DONE, 0, 0, value);
}

static int is_refused(wasnugram_answer a, uint8_t refusal, uint8_t table, size_t place) {
    return is(a, refusal, table, place, MINUS_INFINITY) && !wasnugram_is_possible(a);
}

/* All memory that is lent to the calls on a model, without padding, so that it can be compared byte by byte. */
enum { S = 2, M = 3, T = 2, MOST = 16, FILE_BYTES = 184, FILE_ROOM = 192 };

struct numbers {
    double entries[MOST];
    size_t length;
};

struct bytes {
    uint8_t entries[MOST];
    size_t length;
};

struct lent {
    struct numbers tables[4];
    uint16_t samples[4];
    size_t samples_length;
    struct bytes path, rival_path, from;
    struct {
        uint8_t entries[FILE_ROOM];
        size_t length;
    } file;
    struct numbers outputs[6]; /* the first is `values` where a call has that; a training pass takes all; the reader takes four */
};

static wasnugram_shape shape;
static size_t asked; /* the index at which a rival is asked for */
static struct lent lent, before;

static void copy(double *to, const double *entries, size_t n) {
    for (size_t i = 0; i < n; i++) to[i] = entries[i];
}

/* A chain: one way through two states, of weights that are powers of two, so that a sum tells what it is made of. Outputs are longer
 * than needed, and every byte of them is 0xa5. */
static void lend(void) {
    static const double transition[] = { MINUS_INFINITY, -2, MINUS_INFINITY, MINUS_INFINITY };
    static const double emission[] = { -4, -64, MINUS_INFINITY, MINUS_INFINITY, -128, -8 };
    static const double initial[] = { -1, MINUS_INFINITY }, end[] = { MINUS_INFINITY, -16 };
    static const size_t needed[] = { S * S, S * M, S, S, S * T, S * T };
    for (size_t i = 0; i < sizeof lent; i++) ((unsigned char *)&lent)[i] = 0xa5;
    shape = (wasnugram_shape){ S, M, 255 };
    copy(lent.tables[0].entries, transition, S * S);
    copy(lent.tables[1].entries, emission, S * M);
    copy(lent.tables[2].entries, initial, S);
    copy(lent.tables[3].entries, end, S);
    for (size_t i = 0; i < 4; i++) lent.tables[i].length = needed[i];
    lent.samples[0] = 0, lent.samples[1] = 2, lent.samples_length = T;
    lent.path.length = T + 1, lent.rival_path.length = T + 4, lent.from.length = S * T + 2, lent.file.length = FILE_BYTES + 5;
    for (size_t i = 0; i < 6; i++) lent.outputs[i].length = needed[i] + 3;
    asked = 1;
}

/* The chain with more ways, so that its state has a rival at each sample: state 1 may come first, and either state may stay. */
static void lend_fork(void) {
    lend();
    lent.tables[0].entries[0] = -2048, lent.tables[0].entries[3] = -1024;
    lent.tables[1].entries[2] = -4096, lent.tables[1].entries[3] = -256;
    lent.tables[2].entries[1] = -512;
    lent.tables[3].entries[0] = -8192;
}

static int untouched(void) {
    for (size_t i = 0; i < sizeof lent; i++) {
        if (((unsigned char *)&lent)[i] != ((unsigned char *)&before)[i]) return 0;
    }
    return 1;
}

#define LENT(buffer) (buffer).entries, (buffer).length
#define TABLES LENT(lent.tables[0]), LENT(lent.tables[1]), LENT(lent.tables[2]), LENT(lent.tables[3])
#define MODEL shape, TABLES, lent.samples, lent.samples_length

static wasnugram_answer viterbi(void) {
    return wasnugram_viterbi(MODEL, LENT(lent.path), LENT(lent.outputs[0]), LENT(lent.from));
}

static wasnugram_rivalry rival(void) {
    return wasnugram_rival(MODEL, asked, LENT(lent.path), LENT(lent.rival_path), LENT(lent.outputs[0]), LENT(lent.from));
}

/* The rival's answer. Where it is refused, no state is chosen and no path is best. */
static wasnugram_answer answer_in(wasnugram_rivalry r) {
    if (r.answer.refusal != WASNUGRAM_DONE) EXPECT(r.chosen == 0 && bits(r.best) == bits(MINUS_INFINITY));
    return r.answer;
}

static wasnugram_answer rival_answer(void) {
    return answer_in(rival());
}

static wasnugram_answer forward(void) {
    return wasnugram_forward(MODEL, LENT(lent.outputs[0]));
}

static wasnugram_answer backward(void) {
    return wasnugram_backward(MODEL, LENT(lent.outputs[0]));
}

static wasnugram_answer baum_welch(void) {
    return wasnugram_baum_welch(MODEL, LENT(lent.outputs[0]), LENT(lent.outputs[1]), LENT(lent.outputs[2]), LENT(lent.outputs[3]),
                                LENT(lent.outputs[4]), LENT(lent.outputs[5]));
}

static wasnugram_answer write_model(void) {
    return wasnugram_write_model(shape, TABLES, LENT(lent.file));
}

/* The same with structs; the room is in samples. */
static wasnugram_model model(void) {
    return (wasnugram_model){ shape, lent.tables[0].entries, lent.tables[1].entries, lent.tables[2].entries, lent.tables[3].entries };
}

static wasnugram_answer viterbi_of(size_t room) {
    wasnugram_model m = model();
    wasnugram_viterbi_outputs outputs = { room, lent.path.entries, lent.outputs[0].entries, lent.from.entries };
    return wasnugram_viterbi_of(&m, lent.samples, lent.samples_length, &outputs);
}

static wasnugram_answer rival_of(size_t room) {
    wasnugram_model m = model();
    wasnugram_rival_outputs outputs = { room, lent.path.entries, lent.rival_path.entries, lent.outputs[0].entries, lent.from.entries };
    return answer_in(wasnugram_rival_of(&m, lent.samples, lent.samples_length, asked, &outputs));
}

static wasnugram_answer forward_of(size_t room) {
    wasnugram_model m = model();
    wasnugram_likelihood_outputs outputs = { room, lent.outputs[0].entries };
    return wasnugram_forward_of(&m, lent.samples, lent.samples_length, &outputs);
}

static wasnugram_answer backward_of(size_t room) {
    wasnugram_model m = model();
    wasnugram_likelihood_outputs outputs = { room, lent.outputs[0].entries };
    return wasnugram_backward_of(&m, lent.samples, lent.samples_length, &outputs);
}

static wasnugram_answer baum_welch_of(size_t room) {
    wasnugram_model m = model();
    struct numbers *o = lent.outputs;
    wasnugram_baum_welch_outputs outputs = { room, o[0].entries, o[1].entries, o[2].entries, o[3].entries, o[4].entries, o[5].entries };
    return wasnugram_baum_welch_of(&m, lent.samples, lent.samples_length, &outputs);
}

/* A file has no samples: with room for T of them it has what it needs. */
static wasnugram_answer write_model_of(size_t room) {
    wasnugram_model m = model();
    return wasnugram_write_model_of(&m, lent.file.entries, FILE_BYTES - T + room);
}

/* A call on a model: what lends its model, and each of its outputs in order: where its length stands, and what is needed. The last takes no
 * samples. */
struct call {
    void (*lend)(void);
    wasnugram_answer (*plain)(void);
    wasnugram_answer (*of)(size_t room);
    double value;
    size_t outputs;
    struct {
        size_t *length;
        size_t needed;
    } output[6];
};

static const struct call CALLS[] = {
    { lend, viterbi, viterbi_of, -31, 3, { { &lent.path.length, T }, { &lent.outputs[0].length, S * T }, { &lent.from.length, S * T } } },
    { lend, forward, forward_of, -31, 1, { { &lent.outputs[0].length, S * T } } },
    { lend, backward, backward_of, -31, 1, { { &lent.outputs[0].length, S * T } } },
    { lend, baum_welch, baum_welch_of, -31, 6,
      { { &lent.outputs[0].length, S * S }, { &lent.outputs[1].length, S * M }, { &lent.outputs[2].length, S },
        { &lent.outputs[3].length, S }, { &lent.outputs[4].length, S * T }, { &lent.outputs[5].length, S * T } } },
    { lend_fork, rival_answer, rival_of, -14341, 4,
      { { &lent.path.length, T }, { &lent.rival_path.length, T }, { &lent.outputs[0].length, S * T }, { &lent.from.length, S * T } } },
    { lend, write_model, write_model_of, 0, 1, { { &lent.file.length, FILE_BYTES } } },
};
enum { ALL_CALLS = sizeof CALLS / sizeof CALLS[0], CALLS_ON_SAMPLES = ALL_CALLS - 1 };
static const struct call *const RIVAL = &CALLS[4];

/* The call is refused so, and no lent byte has changed. */
static void refused(const struct call *call, uint8_t refusal, uint8_t table, size_t place) {
    before = lent;
    EXPECT(is_refused(call->plain(), refusal, table, place));
    EXPECT(untouched());
}

/* A wrong length, a NaN and a smallest number above zero, in each table. */
static void tables_refused(const struct call *call) {
    for (uint8_t i = 0; i < 4; i++) {
        call->lend();
        lent.tables[i].length -= 1;
        refused(call, WASNUGRAM_WRONG_LENGTH, i, lent.tables[i].length);
        call->lend();
        lent.tables[i].entries[1] = NOT_A_NUMBER;
        refused(call, WASNUGRAM_NOT_GOOD, i, 1);
        call->lend();
        lent.tables[i].entries[0] = 0x1p-1074;
        refused(call, WASNUGRAM_NOT_GOOD, i, 0);
    }
}

/* Each output is one place too short. */
static void outputs_refused(const struct call *call) {
    for (uint8_t i = 0; i < call->outputs; i++) {
        call->lend();
        *call->output[i].length = call->output[i].needed - 1;
        refused(call, WASNUGRAM_OUTPUT_TOO_SHORT, 5 + i, call->output[i].needed - 1);
    }
}

static void sizes_refused(const struct call *call) {
    static const size_t bad_states[] = { 0, WASNUGRAM_MOST_STATES + 1 }, bad_symbols[] = { 0, WASNUGRAM_MOST_SYMBOLS + 1 };
    for (size_t i = 0; i < 2; i++) {
        call->lend();
        shape.states = bad_states[i];
        refused(call, WASNUGRAM_BAD_STATES, 0, bad_states[i]);
        call->lend();
        shape.symbols = bad_symbols[i];
        refused(call, WASNUGRAM_BAD_SYMBOLS, 0, bad_symbols[i]);
    }
}

static void samples_refused(const struct call *call) {
    call->lend();
    lent.samples_length = WASNUGRAM_MOST_SAMPLES + 1;
    refused(call, WASNUGRAM_TOO_MANY_SAMPLES, WASNUGRAM_SAMPLES, WASNUGRAM_MOST_SAMPLES + 1);
    call->lend();
    lent.samples[1] = M;
    refused(call, WASNUGRAM_UNKNOWN_SYMBOL, WASNUGRAM_SAMPLES, 1);
}

/* Without an end state the end table is +0.0 alone. */
static void end_refused(const struct call *call) {
    call->lend();
    shape.ends = 0;
    refused(call, WASNUGRAM_NOT_GOOD, WASNUGRAM_END, 0);
    lent.tables[3].entries[0] = 0, lent.tables[3].entries[1] = -0.0;
    refused(call, WASNUGRAM_NOT_GOOD, WASNUGRAM_END, 1);
}

/* The form with structs writes the same into the same memory, and refuses where the room is too small. */
static void same_with_structs(const struct call *call) {
    call->lend();
    EXPECT(is_done(call->plain(), call->value));
    before = lent;
    call->lend();
    wasnugram_answer a = call->of(T + 1);
    EXPECT(is_done(a, call->value) && wasnugram_is_possible(a) && untouched());
    call->lend();
    before = lent;
    a = call->of(T - 1);
    EXPECT(a.refusal == WASNUGRAM_OUTPUT_TOO_SHORT && untouched());
}

static void calls_on_a_model(void) {
    for (size_t i = 0; i < ALL_CALLS; i++) {
        tables_refused(&CALLS[i]);
        outputs_refused(&CALLS[i]);
        sizes_refused(&CALLS[i]);
        if (i < CALLS_ON_SAMPLES) samples_refused(&CALLS[i]);
        end_refused(&CALLS[i]);
        same_with_structs(&CALLS[i]);
    }
}

/* The needed part of an output holds these numbers, and its surplus is as it was. */
static int holds(const struct numbers *output, size_t needed, const double *expected) {
    for (size_t i = 0; i < MOST; i++) {
        if (bits(output->entries[i]) != (i < needed ? bits(expected[i]) : 0xa5a5a5a5a5a5a5a5)) return 0;
    }
    return 1;
}

static int holds_states(const struct bytes *output, size_t needed, const uint8_t *expected) {
    for (size_t i = 0; i < MOST; i++) {
        if (output->entries[i] != (i < needed ? expected[i] : 0xa5)) return 0;
    }
    return 1;
}

/* What the walks write of the chain. */
static void walks(void) {
    static const uint8_t path[] = { 0, 1 }, from[] = { 0, 1, 0, 0 };
    static const double best[] = { -5, MINUS_INFINITY, MINUS_INFINITY, -15 };
    static const double beta[] = { MINUS_INFINITY, -16, -26, MINUS_INFINITY };
    lend();
    EXPECT(is_done(viterbi(), -31));
    EXPECT(holds_states(&lent.path, T, path) && holds(&lent.outputs[0], S * T, best) && holds_states(&lent.from, S * T, from));
    lend();
    EXPECT(is_done(forward(), -31) && holds(&lent.outputs[0], S * T, best));
    lend();
    EXPECT(is_done(backward(), -31) && holds(&lent.outputs[0], S * T, beta));
}

/* How a best path ends, over one sample that both states emit alike. With the end flag, whatever its byte, the last state's end entry is
 * added last: it chooses the last state, the highest-numbered of the greatest sums, and may leave no path at all. Without it nothing is
 * added, so that -0.0 stays -0.0. */
static const struct ending {
    uint8_t ends;
    double initial[S], emission, end[S];
    uint8_t last;
    double value;
} ENDINGS[] = {
    { 0, { -1, -2 }, 0, { 0, 0 }, 0, -1 },
    { 1, { -1, -2 }, 0, { 0, 0 }, 0, -1 },
    { 1, { -1, -2 }, 0, { -3, -1 }, 1, -3 },
    { 2, { -1, -2 }, 0, { -3, -1 }, 1, -3 },
    { 1, { -1, -2 }, 0, { -1, 0 }, 1, -2 },
    { 1, { -1, -2 }, 0, { MINUS_INFINITY, MINUS_INFINITY }, 1, MINUS_INFINITY },
    { 0, { -0.0, -1 }, -0.0, { 0, 0 }, 0, -0.0 },
    { 1, { -0.0, -1 }, -0.0, { 0, 0 }, 0, 0 },
    { 1, { -0.0, -1 }, -0.0, { -0.0, 0 }, 0, -0.0 },
    { 0, { -0.0, -0.0 }, -0.0, { 0, 0 }, 1, -0.0 },
    { 2, { -0.0, -0.0 }, -0.0, { 0, 0 }, 1, 0 },
};

static void lend_ending(const struct ending *e) {
    const double zeros[S * S] = { 0 }, emission[] = { e->emission, e->emission };
    lend();
    shape = (wasnugram_shape){ S, 1, e->ends };
    copy(lent.tables[0].entries, zeros, S * S);
    copy(lent.tables[1].entries, emission, S);
    copy(lent.tables[2].entries, e->initial, S);
    copy(lent.tables[3].entries, e->end, S);
    lent.tables[1].length = S, lent.samples_length = 1;
}

/* Whether the answer and the path are as the ending says, and `values` and `from` hold nothing of the end table. */
static int ends_so(const struct ending *e, wasnugram_answer a) {
    static const uint8_t from[] = { 0, 1 };
    const double values[] = { e->initial[0] + e->emission, e->initial[1] + e->emission };
    int is_possible = e->value > MINUS_INFINITY;
    return is_done(a, e->value) && wasnugram_is_possible(a) == is_possible && holds_states(&lent.path, 1, &e->last) &&
           holds(&lent.outputs[0], S, values) && holds_states(&lent.from, S, from);
}

static void endings(void) {
    for (size_t i = 0; i < sizeof ENDINGS / sizeof ENDINGS[0]; i++) {
        lend_ending(&ENDINGS[i]);
        EXPECT(ends_so(&ENDINGS[i], viterbi()));
        lend_ending(&ENDINGS[i]);
        EXPECT(ends_so(&ENDINGS[i], viterbi_of(1)));
    }
}

/* What the rival is and writes of the fork, at each of its samples. */
static const struct {
    size_t chosen;
    double value, values[S * T];
    uint8_t rival_path[T], from[S * T];
} FORK[T] = {
    { 0, -1816, { MINUS_INFINITY, -768, MINUS_INFINITY, -1800 }, { 1, 1 }, { 0, 1, 1, 1 } },
    { 1, -14341, { -5, -768, -6149, MINUS_INFINITY }, { 0, 0 }, { 0, 1, 0, 0 } },
};

static int is_rival(wasnugram_rivalry r, double value, size_t chosen, double best) {
    return is_done(r.answer, value) && wasnugram_is_possible(r.answer) && r.chosen == chosen && bits(r.best) == bits(best);
}

static void rivals(void) {
    static const uint8_t path[] = { 0, 1 };
    for (size_t i = 0; i < T; i++) {
        lend_fork();
        asked = i;
        EXPECT(is_rival(rival(), FORK[i].value, FORK[i].chosen, -31));
        EXPECT(holds_states(&lent.path, T, path) && holds_states(&lent.rival_path, T, FORK[i].rival_path));
        EXPECT(holds(&lent.outputs[0], S * T, FORK[i].values) && holds_states(&lent.from, S * T, FORK[i].from));
    }
}

/* Over one sample the rival is the other state: its score ends as the best path's does, and where it is minus infinity there is none. */
static void rival_ends(const struct ending *e) {
    uint8_t other = 1 - e->last, from[] = { 0, 1 };
    double values[] = { MINUS_INFINITY, MINUS_INFINITY }, value;
    values[other] = e->initial[other] + e->emission;
    value = e->ends ? values[other] + e->end[other] : values[other];
    lend_ending(e);
    asked = 0;
    if (value == MINUS_INFINITY) {
        refused(RIVAL, WASNUGRAM_NO_RIVAL, 0, 0);
        return;
    }
    EXPECT(is_rival(rival(), value, e->last, e->value));
    EXPECT(holds_states(&lent.path, 1, &e->last) && holds_states(&lent.rival_path, 1, &other));
    EXPECT(holds(&lent.outputs[0], S, values) && holds_states(&lent.from, S, from));
}

static void rival_endings(void) {
    for (size_t i = 0; i < sizeof ENDINGS / sizeof ENDINGS[0]; i++) rival_ends(&ENDINGS[i]);
}

/* No rival: the chain has one way, at each of its samples; the fork has none where no path explains the samples, and none in one state. */
static void no_rival(void) {
    lend();
    refused(RIVAL, WASNUGRAM_NO_RIVAL, 0, 0);
    asked = 0;
    refused(RIVAL, WASNUGRAM_NO_RIVAL, 0, 0);
    lend_fork();
    lent.tables[2].entries[0] = MINUS_INFINITY, lent.tables[2].entries[1] = MINUS_INFINITY;
    refused(RIVAL, WASNUGRAM_NO_RIVAL, 0, 0);
    lend_fork();
    shape.states = 1;
    lent.tables[0].length = 1, lent.tables[1].length = M, lent.tables[2].length = 1, lent.tables[3].length = 1;
    refused(RIVAL, WASNUGRAM_NO_RIVAL, 0, 0);
}

/* An index outside of the samples, and of none. It is told after every fault of what is lent and before there is no rival. */
static void bad_index(void) {
    static const size_t bad[] = { T, T + 1, (size_t)1 << 32, SIZE_MAX };
    for (size_t i = 0; i < sizeof bad / sizeof bad[0]; i++) {
        lend();
        asked = bad[i];
        refused(RIVAL, WASNUGRAM_BAD_INDEX, 0, 0);
        lend_fork();
        asked = bad[i];
        refused(RIVAL, WASNUGRAM_BAD_INDEX, 0, 0);
        lent.samples[0] = M;
        refused(RIVAL, WASNUGRAM_UNKNOWN_SYMBOL, WASNUGRAM_SAMPLES, 0);
        lent.from.length = 0;
        refused(RIVAL, WASNUGRAM_OUTPUT_TOO_SHORT, 8, 0);
    }
    lend_fork();
    lent.samples_length = 0, asked = 0;
    refused(RIVAL, WASNUGRAM_BAD_INDEX, 0, 0);
}

/* What a training pass writes of the chain: the way through is certain. */
static void a_pass(void) {
    static const double transition[] = { MINUS_INFINITY, 0, MINUS_INFINITY, MINUS_INFINITY };
    static const double emission[] = { 0, MINUS_INFINITY, MINUS_INFINITY, MINUS_INFINITY, MINUS_INFINITY, 0 };
    static const double initial[] = { 0, MINUS_INFINITY }, end[] = { MINUS_INFINITY, 0 }, cleared[S * T];
    lend();
    EXPECT(is_done(baum_welch(), -31));
    EXPECT(holds(&lent.outputs[0], S * S, transition) && holds(&lent.outputs[1], S * M, emission));
    EXPECT(holds(&lent.outputs[2], S, initial) && holds(&lent.outputs[3], S, end));
    EXPECT(holds(&lent.outputs[4], S * T, cleared) && holds(&lent.outputs[5], S * T, cleared));
}

/* Zero mass: in the whole, where the way through is barred, and in state 1, where the passage ends before it. Scratch is cleared. */
static void zero_mass(void) {
    static const double cleared[S * T];
    lend();
    lent.tables[0].entries[1] = MINUS_INFINITY;
    EXPECT(is_refused(baum_welch(), WASNUGRAM_ZERO_MASS, 0, S) && holds(&lent.outputs[0], 0, cleared));
    EXPECT(holds(&lent.outputs[4], S * T, cleared) && holds(&lent.outputs[5], S * T, cleared));
    lend();
    lent.tables[3].entries[0] = -16, lent.samples_length = 1;
    EXPECT(is_refused(baum_welch(), WASNUGRAM_ZERO_MASS, 0, 1) && holds(&lent.outputs[3], 0, cleared));
    EXPECT(holds(&lent.outputs[4], S, cleared) && holds(&lent.outputs[5], S, cleared));
}

/* The chain's model file, with its end state and without one, by its 8-byte words, lowest byte first. */
#define HEAD(states, symbols, flag, entries) ((uint64_t)(entries) << 48 | (uint64_t)(flag) << 32 | (uint64_t)(symbols) << 16 | (states))
#define LABEL(number, offset) ((uint64_t)(offset) << 32 | (number))
#define NEVER UINT64_C(0xfff0000000000000)
#define TRANSITION_BODY NEVER, 0xc000000000000000, NEVER, NEVER
#define TRANSITION_SUM 0xbfd0000000000000
#define EMISSION_BODY 0xc010000000000000, 0xc050000000000000, NEVER, NEVER, 0xc060000000000000, 0xc020000000000000
#define EMISSION_SUM 0x00c0000000000000
#define INITIAL_BODY 0xbff0000000000000, NEVER
#define INITIAL_SUM 0xbfe0000000000000
#define END_BODY NEVER, 0xc030000000000000
#define END_SUM 0xc020000000000000

static const struct stored {
    uint8_t ends;
    uint8_t entries;
    size_t body[5]; /* where each body begins, and where the file ends */
    uint64_t words[FILE_BYTES / 8];
} STORED[] = {
    { 0, 3, { 56, 88, 136, 152, 152 },
      { HEAD(S, M, 0, 3), LABEL(0, 56), TRANSITION_SUM, LABEL(1, 88), EMISSION_SUM, LABEL(2, 136), INITIAL_SUM,
        TRANSITION_BODY, EMISSION_BODY, INITIAL_BODY } },
    { 1, 4, { 72, 104, 152, 168, 184 },
      { HEAD(S, M, 1, 4), LABEL(0, 72), TRANSITION_SUM, LABEL(1, 104), EMISSION_SUM, LABEL(2, 152), INITIAL_SUM, LABEL(3, 168), END_SUM,
        TRANSITION_BODY, EMISSION_BODY, INITIAL_BODY, END_BODY } },
};
enum { ENTRY = 16, SUM = 8 }; /* an entry of the contents, and where its sum is in it */

/* Sets an entry of the file's body, and the sum with it. */
static void set_lent_entry(const struct stored *f, size_t table, size_t i, uint64_t word) {
    set_entry(lent.file.entries, (wasnugram_shape){ S, M, f->ends }, table, i, word);
}

static void lend_file(const struct stored *f) {
    lend();
    lent.file.length = f->body[4];
    for (size_t i = 0; i < lent.file.length; i += 8) set_word(&lent.file.entries[i], f->words[i / 8]);
}

#define FOUR(list) LENT((list)[0]), LENT((list)[1]), LENT((list)[2]), LENT((list)[3])

static wasnugram_reading read_model(void) {
    return wasnugram_read_model(LENT(lent.file), FOUR(lent.outputs));
}

static int is_shape(wasnugram_shape a, size_t states, size_t symbols, uint8_t ends) {
    return a.states == states && a.symbols == symbols && a.ends == ends;
}

/* Whether the reader refuses so, gives no shape and changes no lent byte. */
static int not_read(uint8_t refusal, uint8_t table, size_t place) {
    before = lent;
    wasnugram_reading r = read_model();
    return is_refused(r.answer, refusal, table, place) && is_shape(r.shape, 0, 0, 0) && untouched();
}

/* Whether the outputs hold the chain's tables as this file has them, and their surplus is as it was. */
static int holds_chain(const struct stored *f) {
    static const double zeros[S];
    return holds(&lent.outputs[0], S * S, lent.tables[0].entries) && holds(&lent.outputs[1], S * M, lent.tables[1].entries) &&
           holds(&lent.outputs[2], S, lent.tables[2].entries) && holds(&lent.outputs[3], S, f->ends ? lent.tables[3].entries : zeros);
}

/* Whether the file holds these bytes, and its surplus is as it was. */
static int holds_file(const struct stored *f) {
    int so = 1;
    for (size_t i = 0; i < FILE_ROOM; i++) {
        so &= lent.file.entries[i] == (i < f->body[4] ? (uint8_t)(f->words[i / 8] >> i % 8 * 8) : 0xa5);
    }
    return so;
}

/* What is written, whatever byte says that there is an end state, and what is read of it. */
static void written_and_read(const struct stored *f) {
    static const uint8_t flags[] = { 1, 2, 255 };
    for (size_t i = 0; i < sizeof flags; i++) {
        lend();
        shape.ends = f->ends ? flags[i] : 0;
        if (!f->ends) lent.tables[3].entries[0] = 0, lent.tables[3].entries[1] = 0;
        EXPECT(is_done(write_model(), 0) && holds_file(f));
    }
    lend_file(f);
    wasnugram_reading r = read_model();
    EXPECT(is_done(r.answer, 0) && is_shape(r.shape, S, M, f->ends) && holds_chain(f));
}

/* Reading and writing at an address that is no multiple of 8. */
static void at_any_address(const struct stored *f) {
    static uint8_t bytes[8 + FILE_BYTES];
    for (size_t shift = 1; shift < 8; shift++) {
        lend();
        shape.ends = 1;
        EXPECT(is_done(wasnugram_write_model(shape, TABLES, bytes + shift, FILE_BYTES), 0));
        EXPECT(is_done(wasnugram_read_model(bytes + shift, FILE_BYTES, FOUR(lent.outputs)).answer, 0) && holds_chain(f));
    }
}

/* Whether the reader refuses this flip with the number, the table and the place that the byte tells. The first numbers are 1, 2 or 13. */
static int flip_refused(const struct stored *f, size_t byte, unsigned bit) {
    size_t contents = f->body[0], entry = byte < 8 ? 0 : (byte - 8) / ENTRY, in_entry = (byte - 8) % ENTRY;
    uint8_t table = byte < contents ? (uint8_t)entry : (uint8_t)((byte >= f->body[1]) + (byte >= f->body[2]) + (byte >= f->body[3]));
    lend_file(f);
    lent.file.entries[byte] ^= (uint8_t)(1u << bit);
    before = lent;
    wasnugram_reading r = read_model();
    int so = is_shape(r.shape, 0, 0, 0) && untouched();
    if (byte < 8) return so && (r.answer.refusal == 1 || r.answer.refusal == 2 || r.answer.refusal == WASNUGRAM_BAD_LAYOUT);
    if (byte < contents && in_entry < SUM) return so && is_refused(r.answer, WASNUGRAM_BAD_LAYOUT, 0, byte);
    return so && is_refused(r.answer, WASNUGRAM_BAD_SUM, table, 0);
}

static void every_flip(const struct stored *f) {
    for (size_t i = 0; i < 8 * f->body[4]; i++) EXPECT(flip_refused(f, i / 8, i % 8));
}

/* Every shorter file and every longer one that there is room for. */
static void every_length(const struct stored *f) {
    for (size_t length = 0; length <= FILE_ROOM; length++) {
        lend_file(f);
        lent.file.length = length;
        if (length != f->body[4]) EXPECT(not_read(WASNUGRAM_BAD_LAYOUT, 0, length < f->body[4] ? length : f->body[4]));
    }
}

/* The first numbers of a file with an end state, altered: which byte, what it becomes, and what is said of it. */
static const struct {
    uint8_t byte, becomes, refusal;
    size_t place;
} FIRST_NUMBERS[] = {
    { 0, 0, WASNUGRAM_BAD_STATES, 0 }, { 0, 65, WASNUGRAM_BAD_STATES, 65 }, { 1, 1, WASNUGRAM_BAD_STATES, 258 },
    { 1, 255, WASNUGRAM_BAD_STATES, 65282 }, { 2, 0, WASNUGRAM_BAD_SYMBOLS, 0 }, { 3, 1, WASNUGRAM_BAD_SYMBOLS, 259 },
    { 3, 255, WASNUGRAM_BAD_SYMBOLS, 65283 }, { 0, 1, WASNUGRAM_BAD_LAYOUT, 28 }, { 0, 34, WASNUGRAM_BAD_LAYOUT, 29 },
    { 0, 64, WASNUGRAM_BAD_LAYOUT, 28 }, { 2, 2, WASNUGRAM_BAD_LAYOUT, 44 }, { 2, 255, WASNUGRAM_BAD_LAYOUT, 44 },
    { 4, 0, WASNUGRAM_BAD_LAYOUT, 6 }, { 4, 2, WASNUGRAM_BAD_LAYOUT, 4 }, { 4, 255, WASNUGRAM_BAD_LAYOUT, 4 },
    { 5, 1, WASNUGRAM_BAD_LAYOUT, 5 }, { 6, 3, WASNUGRAM_BAD_LAYOUT, 6 }, { 7, 1, WASNUGRAM_BAD_LAYOUT, 7 },
};

static void first_numbers(const struct stored *f) {
    for (size_t i = 0; i < sizeof FIRST_NUMBERS / sizeof FIRST_NUMBERS[0]; i++) {
        lend_file(f);
        lent.file.entries[FIRST_NUMBERS[i].byte] = FIRST_NUMBERS[i].becomes;
        EXPECT(not_read(FIRST_NUMBERS[i].refusal, 0, FIRST_NUMBERS[i].place));
    }
}

/* A table that is lent too short, and each word at a border between good and bad, in each table that the file has. */
static void entries_read(const struct stored *f) {
    for (uint8_t i = 0; i < f->entries; i++) {
        lend_file(f);
        lent.outputs[i].length -= 4;
        EXPECT(not_read(WASNUGRAM_OUTPUT_TOO_SHORT, 6 + i, lent.outputs[i].length));
        lend_file(f);
        set_lent_entry(f, i, 1, 1);
        EXPECT(not_read(WASNUGRAM_NOT_GOOD, i, 1));
        set_lent_entry(f, i, 0, UINT64_C(0x7fffffffffffffff));
        EXPECT(not_read(WASNUGRAM_NOT_GOOD, i, 0));
        set_lent_entry(f, i, 0, NEVER + 1);
        EXPECT(not_read(WASNUGRAM_NOT_GOOD, i, 0));
        set_lent_entry(f, i, 0, bits(-0.0));
        set_lent_entry(f, i, 1, 0);
        EXPECT(is_done(read_model().answer, 0) && bits(lent.outputs[i].entries[0]) == bits(-0.0) && bits(lent.outputs[i].entries[1]) == 0);
    }
}

/* Of many faults the first in the order of the checks answers: each is taken away in turn. */
static void order_of_faults(const struct stored *f) {
    uint8_t *file = lent.file.entries;
    lend_file(f);
    set_lent_entry(f, 1, 0, 1), set_lent_entry(f, 0, 3, 1);
    lent.outputs[3].length = S - 1, lent.outputs[1].length = S * M - 1;
    file[8 + ENTRY + SUM] ^= 1, file[8 + SUM] ^= 1, file[28] ^= 1, file[12] ^= 1, file[5] = 1, file[2] = 0, file[0] = 0;
    EXPECT(not_read(WASNUGRAM_BAD_STATES, 0, 0)), file[0] = S;
    EXPECT(not_read(WASNUGRAM_BAD_SYMBOLS, 0, 0)), file[2] = M;
    EXPECT(not_read(WASNUGRAM_BAD_LAYOUT, 0, 5)), file[5] = 0;
    EXPECT(not_read(WASNUGRAM_BAD_LAYOUT, 0, 12)), file[12] ^= 1;
    EXPECT(not_read(WASNUGRAM_BAD_LAYOUT, 0, 28)), file[28] ^= 1;
    EXPECT(not_read(WASNUGRAM_BAD_SUM, 0, 0)), file[8 + SUM] ^= 1;
    EXPECT(not_read(WASNUGRAM_BAD_SUM, 1, 0)), file[8 + ENTRY + SUM] ^= 1;
    EXPECT(not_read(WASNUGRAM_OUTPUT_TOO_SHORT, 7, S * M - 1)), lent.outputs[1].length = S * M;
    EXPECT(not_read(WASNUGRAM_OUTPUT_TOO_SHORT, 9, S - 1)), lent.outputs[3].length = S;
    EXPECT(not_read(WASNUGRAM_NOT_GOOD, 0, 3)), set_lent_entry(f, 0, 3, 0);
    EXPECT(not_read(WASNUGRAM_NOT_GOOD, 1, 0)), set_lent_entry(f, 1, 0, 0);
    EXPECT(is_done(read_model().answer, 0));
}

/* The form with structs reads the same into the same memory and points there; where it refuses it leaves the model as it was. */
static void read_with_structs(const struct stored *f) {
    struct numbers *o = lent.outputs;
    wasnugram_model_room room = { S, M, o[0].entries, o[1].entries, o[2].entries, o[3].entries };
    wasnugram_model read = model();
    lend_file(f);
    EXPECT(is_done(wasnugram_read_model_of(LENT(lent.file), &room, &read), 0) && holds_chain(f) && is_shape(read.shape, S, M, f->ends));
    EXPECT(read.transition == room.transition && read.emission == room.emission && read.initial == room.initial && read.end == room.end);
    read = model(), room.symbols -= 1;
    lend_file(f);
    before = lent;
    EXPECT(is_refused(wasnugram_read_model_of(LENT(lent.file), &room, &read), WASNUGRAM_OUTPUT_TOO_SHORT, 7, S * M - S) && untouched());
    EXPECT(read.transition == lent.tables[0].entries && read.emission == lent.tables[1].entries && is_shape(read.shape, S, M, 255));
    EXPECT(read.initial == lent.tables[2].entries && read.end == lent.tables[3].entries);
}

/* Null with length 0 for the table of this number, and what is lent for every other. */
#define UNLESS(none, list, i) (none) == (i) ? 0 : (list)[i].entries, (none) == (i) ? 0 : (list)[i].length
#define FOUR_UNLESS(none, list) UNLESS(none, list, 0), UNLESS(none, list, 1), UNLESS(none, list, 2), UNLESS(none, list, 3)

static void null_in_each_role(const struct stored *f) {
    lend_file(f);
    EXPECT(is_refused(wasnugram_read_model(0, 0, 0, 0, 0, 0, 0, 0, 0, 0).answer, WASNUGRAM_BAD_LAYOUT, 0, 0));
    EXPECT(is_refused(wasnugram_read_model(0, 0, FOUR(lent.outputs)).answer, WASNUGRAM_BAD_LAYOUT, 0, 0));
    EXPECT(is_refused(wasnugram_write_model(shape, TABLES, 0, 0), WASNUGRAM_OUTPUT_TOO_SHORT, 5, 0));
    for (uint8_t i = 0; i < 4; i++) {
        wasnugram_answer a = wasnugram_read_model(LENT(lent.file), FOUR_UNLESS(i, lent.outputs)).answer;
        EXPECT(is_refused(a, WASNUGRAM_OUTPUT_TOO_SHORT, 6 + i, 0));
        EXPECT(is_refused(wasnugram_write_model(shape, FOUR_UNLESS(i, lent.tables), LENT(lent.file)), WASNUGRAM_WRONG_LENGTH, i, 0));
    }
}

static size_t file_length(size_t states, size_t symbols, uint8_t ends) {
    return wasnugram_model_file_length((wasnugram_shape){ states, symbols, ends });
}

/* The length of every shape's file, and of no others. */
static void file_lengths(void) {
    enum { COLUMNS = WASNUGRAM_MOST_SYMBOLS + 2 };
    EXPECT(file_length(2, 2, 0) == 136 && file_length(12, 256, 0) == 25880 && file_length(64, 256, 255) == 164936);
    EXPECT(file_length(SIZE_MAX, 2, 0) == 0 && file_length(2, SIZE_MAX, 0) == 0 && file_length((size_t)1 << 32 | 2, 2, 0) == 0);
    EXPECT(file_length(2, (size_t)1 << 32 | 2, 1) == 0 && file_length(S, M, 2) == FILE_BYTES);
    for (size_t i = 0; i < (WASNUGRAM_MOST_STATES + 2) * COLUMNS; i++) {
        size_t states = i / COLUMNS, symbols = i % COLUMNS;
        int is_shaped = states - 1 < WASNUGRAM_MOST_STATES && symbols - 1 < WASNUGRAM_MOST_SYMBOLS;
        EXPECT(file_length(states, symbols, 0) == (is_shaped ? WASNUGRAM_MODEL_FILE(states, symbols, 0) : 0));
        EXPECT(file_length(states, symbols, 1) == (is_shaped ? WASNUGRAM_MODEL_FILE(states, symbols, 1) : 0));
    }
}

static void model_files(void) {
    const struct stored *with_end = &STORED[1];
    for (const struct stored *f = STORED; f <= with_end; f++) {
        written_and_read(f);
        every_flip(f);
        every_length(f);
        entries_read(f);
        read_with_structs(f);
        null_in_each_role(f);
    }
    at_any_address(with_end);
    first_numbers(with_end);
    order_of_faults(with_end);
    file_lengths();
}

/* No samples, and null wherever a length is 0. */
static void nothing_lent(void) {
    lend();
    lent.samples_length = 0;
    refused(&CALLS[1], WASNUGRAM_NO_SAMPLES, WASNUGRAM_SAMPLES, 0);
    refused(&CALLS[3], WASNUGRAM_NO_SAMPLES, WASNUGRAM_SAMPLES, 0);
    EXPECT(is_done(viterbi(), MINUS_INFINITY) && is_done(backward(), MINUS_INFINITY) && untouched());
    wasnugram_answer a = wasnugram_viterbi(shape, 0, 0, 0, 0, 0, 0, 0, 0, 0, 0, 0, 0, 0, 0, 0, 0);
    EXPECT(is_refused(a, WASNUGRAM_WRONG_LENGTH, 0, 0));
    a = wasnugram_baum_welch(shape, TABLES, lent.samples, 1, 0, 0, 0, 0, 0, 0, 0, 0, 0, 0, 0, 0);
    EXPECT(is_refused(a, WASNUGRAM_OUTPUT_TOO_SHORT, 5, 0));
    a = answer_in(wasnugram_rival(shape, 0, 0, 0, 0, 0, 0, 0, 0, 0, 0, 0, 0, 0, 0, 0, 0, 0, 0, 0));
    EXPECT(is_refused(a, WASNUGRAM_WRONG_LENGTH, 0, 0));
    a = answer_in(wasnugram_rival(shape, TABLES, 0, 0, 0, 0, 0, 0, 0, 0, 0, 0, 0));
    EXPECT(is_refused(a, WASNUGRAM_BAD_INDEX, 0, 0));
    a = answer_in(wasnugram_rival(shape, TABLES, lent.samples, 1, 0, 0, 0, 0, 0, 0, 0, 0, 0));
    EXPECT(is_refused(a, WASNUGRAM_OUTPUT_TOO_SHORT, 5, 0));
    wasnugram_model m = model();
    EXPECT(is_done(wasnugram_check_of(&m), MINUS_INFINITY));
    lent.tables[1].entries[5] = 1;
    EXPECT(is_refused(wasnugram_check_of(&m), WASNUGRAM_NOT_GOOD, WASNUGRAM_EMISSION, 5));
}

/* The gate-post examples P1, Z1 and Z3: a plain passage, a tie that the highest-numbered state wins, and a passage that no path explains,
 * which is done. */
static void gate_posts(void) {
    static const double p[] = { -1, -2, -2, -1 }, emission[] = { -1, -3, -3, -1 }, zeros[9];
    static const double never[] = { MINUS_INFINITY, MINUS_INFINITY, MINUS_INFINITY };
    static const uint16_t passage[] = { 0, 1, 1 }, still[] = { 0, 0 };
    uint8_t path[4], from[12];
    double values[12];
    wasnugram_viterbi_outputs outputs = { 4, path, values, from };
    wasnugram_model models[] = { { { 2, 2, 0 }, p, emission, p, zeros }, { { 2, 2, 0 }, zeros, zeros, zeros, zeros },
                                 { { 3, 2, 0 }, zeros, zeros, never, zeros } };
    EXPECT(is_done(wasnugram_viterbi_of(&models[0], passage, 3, &outputs), -7) && path[0] == 0 && path[1] == 1 && path[2] == 1);
    EXPECT(is_done(wasnugram_viterbi_of(&models[1], still, 2, &outputs), 0) && path[0] == 1 && path[1] == 1);
    wasnugram_answer a = wasnugram_viterbi_of(&models[2], still, 2, &outputs);
    EXPECT(is_done(a, MINUS_INFINITY) && path[0] == 2 && path[1] == 2 && !wasnugram_is_possible(a));
}

/* The rivals at each sample of P1, whose last is a tie of two predecessors, and of Z1 with a sample more, where all paths tie. */
static void rivals_of_gate_posts(void) {
    static const double p[] = { -1, -2, -2, -1 }, emission[] = { -1, -3, -3, -1 }, zeros[4];
    static const uint16_t passage[] = { 0, 1, 1 }, still[] = { 0, 0, 0 };
    static const uint8_t expected[2][3][3] = { { { 1, 1, 1 }, { 0, 0, 1 }, { 0, 1, 0 } }, { { 0, 1, 1 }, { 1, 0, 1 }, { 1, 1, 0 } } };
    static const double value[2][3] = { { -9, -9, -10 }, { 0, 0, 0 } };
    uint8_t path[4], rival_path[4], from[8];
    double values[8];
    const wasnugram_rival_outputs outputs = { 4, path, rival_path, values, from };
    const wasnugram_model models[] = { { { 2, 2, 0 }, p, emission, p, zeros }, { { 2, 2, 0 }, zeros, zeros, zeros, zeros } };
    for (size_t i = 0; i < 2 * 3; i++) {
        size_t post = i / 3, index = i % 3;
        const uint8_t *states = expected[post][index];
        wasnugram_rivalry r = wasnugram_rival_of(&models[post], post ? still : passage, 3, index, &outputs);
        EXPECT(path[0] == post && path[1] == 1 && path[2] == 1 && is_rival(r, value[post][index], path[index], post ? 0 : -7));
        EXPECT(rival_path[0] == states[0] && rival_path[1] == states[1] && rival_path[2] == states[2]);
    }
}

/* Possible is done and above minus infinity, and both are asked. */
static void possible(void) {
    EXPECT(wasnugram_is_possible((wasnugram_answer){ WASNUGRAM_DONE, 0, 0, -__DBL_MAX__ }));
    EXPECT(!wasnugram_is_possible((wasnugram_answer){ WASNUGRAM_DONE, 0, 0, MINUS_INFINITY }));
    EXPECT(!wasnugram_is_possible((wasnugram_answer){ WASNUGRAM_NOT_GOOD, 0, 0, -1 }));
}

static void kernels(void) {
    EXPECT(is_done(wasnugram_exp(0), 1));
    EXPECT(is_done(wasnugram_exp(MINUS_INFINITY), 0));
    EXPECT(is_refused(wasnugram_exp(1), WASNUGRAM_NOT_GOOD, 0, 0));
    EXPECT(is_done(wasnugram_ln(1), 0));
    EXPECT(is_done(wasnugram_ln(2), LN_2));
    EXPECT(is_done(wasnugram_ln(0.5), -LN_2));
    EXPECT(is_refused(wasnugram_ln(-1), WASNUGRAM_NOT_GOOD, 0, 0));
    EXPECT(is_done(wasnugram_ln_one_minus_exp(MINUS_INFINITY), 0));
    EXPECT(is_done(wasnugram_ln_one_minus_exp(0), MINUS_INFINITY));
    EXPECT(is_refused(wasnugram_ln_one_minus_exp(NOT_A_NUMBER), WASNUGRAM_NOT_GOOD, 0, 0));
}

static void leaves(void) {
    static const double zeros[3];
    EXPECT(is_done(wasnugram_ln_sum_exp(zeros, 2), LN_2));
    EXPECT(is_done(wasnugram_ln_sum_exp(0, 0), MINUS_INFINITY));
    EXPECT(is_refused(wasnugram_ln_sum_exp((double[]){ -1, NOT_A_NUMBER, -1 }, 3), WASNUGRAM_NOT_GOOD, 0, 1));
    EXPECT(is_done(wasnugram_ln_add_exp(0, 0), LN_2));
    EXPECT(is_refused(wasnugram_ln_add_exp(0, NOT_A_NUMBER), WASNUGRAM_NOT_GOOD, 0, 1));
    EXPECT(is_done(wasnugram_ln_sub_exp(-1, MINUS_INFINITY), -1));
    EXPECT(is_done(wasnugram_ln_sub_exp(-1, -1), MINUS_INFINITY));
    EXPECT(is_refused(wasnugram_ln_sub_exp(-2, -1), WASNUGRAM_NEGATIVE_DIFFERENCE, 0, 0));
    EXPECT(is_done(wasnugram_cap_numerical_overshoot(0x1p-52, 0x1p-51), 0));
    EXPECT(is_done(wasnugram_cap_numerical_overshoot(-1, 0.5), -1));
    EXPECT(is_refused(wasnugram_cap_numerical_overshoot(1, 0.5), WASNUGRAM_OVERSHOOT, 0, 0));
}

static void running_sums(void) {
    static double probs[2], sums[WASNUGRAM_LN_CUMSUM_EXP_SUMS(2) + 2];
    for (size_t i = 0; i < 4; i++) sums[i] = 77;
    EXPECT(is_refused(wasnugram_ln_cumsum_exp(probs, 2, sums, 1), WASNUGRAM_OUTPUT_TOO_SHORT, 5, 1) && sums[0] == 77);
    EXPECT(is_done(wasnugram_ln_cumsum_exp(probs, 2, sums, 4), LN_2));
    EXPECT(bits(sums[0]) == 0 && bits(sums[1]) == bits(LN_2) && sums[2] == 77 && sums[3] == 77);
    EXPECT(is_done(wasnugram_ln_cumsum_exp(0, 0, 0, 0), MINUS_INFINITY));
}

int calls_wrong(void) {
    wrong = 0;
    calls_on_a_model();
    walks();
    endings();
    rivals();
    rival_endings();
    no_rival();
    bad_index();
    a_pass();
    zero_mass();
    model_files();
    nothing_lent();
    gate_posts();
    rivals_of_gate_posts();
    possible();
    kernels();
    leaves();
    running_sums();
    return wrong;
}
