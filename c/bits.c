/* Random bits in every lent buffer, payloads of NaN included, and every byte compared. A refused call leaves every byte alone; refusal 9
 * makes the needed scratch +0.0 and leaves the rest alone; a done call leaves its inputs and every surplus alone. All buffers of a case
 * lie in one arena with gaps between them, which must not change either. After each case one bit that must stay is flipped, and the
 * comparison has to see it. */
#include <stdio.h>
#include <stdlib.h>
#include <string.h>
#include "wasnugram.h"
#include "layout.h"
#include "random.h"

enum { CASES = 250000, ARENA = 4096, OUTPUT = 5, BUFFERS = 11, REFUSALS = 17 };
enum call { VITERBI, RIVAL, FORWARD, BACKWARD, BAUM_WELCH, WRITE_MODEL, READ_MODEL, LN_SUM_EXP, LN_CUMSUM_EXP, CALLS };

/* The refusals that each call has to meet, done among them. */
static const struct {
    const char *name;
    unsigned refusals;
} CALL[CALLS] = {
    [VITERBI] = { "viterbi", 0x1ef },
    [RIVAL] = { "rival", 0x181ef },
    [FORWARD] = { "forward", 0x1ff },
    [BACKWARD] = { "backward", 0x1ef },
    [BAUM_WELCH] = { "baum_welch", 0x3ff },
    [WRITE_MODEL] = { "write_model", 0xe7 },
    [READ_MODEL] = { "read_model", 0x60c7 },
    [LN_SUM_EXP] = { "ln_sum_exp", 0x81 },
    [LN_CUMSUM_EXP] = { "ln_cumsum_exp", 0xc1 },
};

/* A buffer by its number; `needed` is how many entries an output must have. */
struct buffer {
    size_t start, entry, length, needed;
};

static struct buffer buffers[BUFFERS];
static _Alignas(8) unsigned char arena[ARENA], before[ARENA];
static size_t used;
static wasnugram_shape shape;
static size_t samples_length, asked;

/* Sets a buffer out after a gap. */
static void place(size_t number, size_t entry, size_t length, size_t needed) {
    used = (used + 1 + below(24) + entry - 1) / entry * entry;
    buffers[number] = (struct buffer){ used, entry, length, needed };
    used += length * entry;
    if (used + 64 > ARENA) exit(2);
}

static void place_output(size_t number, size_t entry, size_t needed) {
    place(number, entry, needed + below(4), needed);
}

/* The outputs of the best path, or those of the rival, which has a path more. */
static void place_paths(size_t paths, size_t states, size_t samples) {
    size_t cells = states * samples;
    for (size_t i = 0; i < paths; i++) place_output(OUTPUT + i, 1, samples);
    place_output(OUTPUT + paths, sizeof(double), cells);
    place_output(OUTPUT + paths + 1, 1, cells);
}

static void place_outputs(enum call call, size_t states, size_t symbols, size_t samples) {
    size_t cells = states * samples;
    const size_t pass[] = { states * states, states * symbols, states, states, cells, cells };
    if (call == VITERBI || call == RIVAL) {
        place_paths(call == RIVAL ? 2 : 1, states, samples);
    } else if (call == BAUM_WELCH) {
        for (size_t i = 0; i < 6; i++) place_output(OUTPUT + i, sizeof(double), pass[i]);
    } else if (call == WRITE_MODEL) {
        place_output(OUTPUT, 1, WASNUGRAM_MODEL_FILE(states, symbols, shape.ends));
    } else {
        place_output(OUTPUT, sizeof(double), cells);
    }
}

static void *at(size_t number, size_t i) {
    return arena + buffers[number].start + i * buffers[number].entry;
}

#define LENT(number) at(number, 0), buffers[number].length

static void set_buffer(size_t number, size_t i, uint64_t bits) {
    memcpy(at(number, i), &bits, buffers[number].entry);
}

/* Makes every entry of a table good. */
static void repair(size_t number) {
    int is_zero = number == WASNUGRAM_END && !shape.ends;
    for (size_t i = 0; i < buffers[number].length; i++) set_buffer(number, i, is_zero ? 0 : good_bits());
}

static void repair_model(void) {
    for (size_t number = 0; number < 4; number++) repair(number);
    for (size_t i = 0; i < buffers[4].length; i++) set_buffer(4, i, below(shape.symbols));
}

/* Random bits, half of them a NaN with a payload of its own. */
static uint64_t bad_bits(void) {
    uint64_t bits = random_bits();
    return below(2) ? bits : bits | UINT64_C(0x7ff0000000000001);
}

static void damage(size_t number) {
    if (buffers[number].length) set_buffer(number, below(buffers[number].length), bad_bits());
}

/* How many outputs are set out. */
static size_t outputs(void) {
    size_t number = OUTPUT;
    while (number < BUFFERS && buffers[number].entry) number++;
    return number - OUTPUT;
}

/* What is wrong with a case on a model, by the number of the refusal that it asks for; 15 and 16 come without asking. */
static void spoil(unsigned fault) {
    size_t table = below(4), output = OUTPUT + below(outputs());
    switch (fault) {
    case 1: shape.states = below(2) ? 0 : 65 + below(SIZE_MAX >> 12); break;
    case 2: shape.symbols = below(2) ? 0 : 257 + below(SIZE_MAX >> 12); break;
    case 3: samples_length = 4097 + below(SIZE_MAX >> 12); break;
    case 5: buffers[table].length += below(2) ? 1 : (size_t)-1; break;
    case 6: buffers[output].length = buffers[output].needed ? below(buffers[output].needed) : 0; break;
    case 7: damage(table); break;
    case 8: damage(4); break;
    case 9: for (size_t i = 0; i < buffers[2].length; i++) set_buffer(2, i, UINT64_C(0xfff0000000000000));
    }
}

/* The tables of a model of some shape, and samples. */
static void place_model(size_t samples) {
    size_t states = 1 + below(4), symbols = 1 + below(5);
    shape = (wasnugram_shape){ states, symbols, (uint8_t)(below(2) ? random_bits() : 0) };
    samples_length = samples;
    asked = samples && below(4) ? below(samples) : samples + below(3);
    for (size_t i = 0; i < 4; i++) place(i, sizeof(double), words_in(shape, i), 0);
    place(4, sizeof(uint16_t), samples, 0);
}

/* A case on a model: random bits, repaired and then spoilt, or left as they are. */
static void set_model(enum call call) {
    unsigned fault = (unsigned)below(12);
    place_model(fault == 4 ? 0 : below(8));
    place_outputs(call, shape.states, shape.symbols, samples_length);
    if (fault != 11) repair_model();
    spoil(fault);
}

/* What is wrong with a model file, or with the tables that it is read into, by the number of the refusal that it asks for; 12 cuts it. */
static void spoil_file(unsigned fault) {
    uint8_t *file = at(OUTPUT, 0);
    size_t table = below(tables_in(shape)), output = OUTPUT + 1 + below(4), body = body_offset(shape, 0), length = buffers[OUTPUT].length;
    switch (fault) {
    case 1: file[0] = 0, file[1] = (uint8_t)below(256); break;
    case 2: file[2] = 0, file[3] = (uint8_t)below(256); break;
    case 6: buffers[output].length = below(buffers[output].needed); break;
    case 7: set_entry(file, shape, table, below(words_in(shape, table)), bad_bits()); break;
    case 12: buffers[OUTPUT].length = below(length); break;
    case 13: file[4 + below(4)] ^= 1 << below(8); break;
    case 14: file[body + below(length - body)] ^= 1 << below(8);
    }
}

/* A case on a model file: that of a good model, spoilt, or random bits. It is an input: none of it may be written. */
static void set_file(void) {
    unsigned fault = (unsigned)below(16);
    place_model(0);
    repair_model();
    place(OUTPUT, 1, WASNUGRAM_MODEL_FILE(shape.states, shape.symbols, shape.ends), 0);
    for (size_t i = 0; i < 4; i++) place_output(OUTPUT + 1 + i, sizeof(double), words_in(shape, i));
    if (fault == 15) return;
    if (wasnugram_write_model(shape, LENT(0), LENT(1), LENT(2), LENT(3), LENT(OUTPUT)).refusal != WASNUGRAM_DONE) exit(2);
    spoil_file(fault);
}

/* A case on a slice: half of the time with a NaN, and now and then with too short an output. */
static void set_slice(enum call call) {
    size_t length = below(12);
    place(0, sizeof(double), length, 0);
    repair(0);
    if (below(2)) damage(0);
    if (call == LN_SUM_EXP) return;
    place_output(OUTPUT, sizeof(double), length);
    if (length && below(3) == 0) buffers[OUTPUT].length = below(length);
}

static void set_case(enum call call) {
    memset(buffers, 0, sizeof buffers);
    used = 0;
    for (size_t i = 0; i < ARENA; i += 8) {
        uint64_t bits = random_bits();
        memcpy(arena + i, &bits, 8);
    }
    if (call < READ_MODEL) set_model(call);
    else if (call == READ_MODEL) set_file();
    else set_slice(call);
    memcpy(before, arena, ARENA);
}

#define MODEL shape, LENT(0), LENT(1), LENT(2), LENT(3), at(4, 0), samples_length

static wasnugram_answer made(enum call call) {
    switch (call) {
    case VITERBI: return wasnugram_viterbi(MODEL, LENT(5), LENT(6), LENT(7));
    case RIVAL: return wasnugram_rival(MODEL, asked, LENT(5), LENT(6), LENT(7), LENT(8)).answer;
    case FORWARD: return wasnugram_forward(MODEL, LENT(5));
    case BACKWARD: return wasnugram_backward(MODEL, LENT(5));
    case BAUM_WELCH: return wasnugram_baum_welch(MODEL, LENT(5), LENT(6), LENT(7), LENT(8), LENT(9), LENT(10));
    case WRITE_MODEL: return wasnugram_write_model(shape, LENT(0), LENT(1), LENT(2), LENT(3), LENT(5));
    case READ_MODEL: return wasnugram_read_model(LENT(5), LENT(6), LENT(7), LENT(8), LENT(9)).answer;
    case LN_SUM_EXP: return wasnugram_ln_sum_exp(LENT(0));
    default: return wasnugram_ln_cumsum_exp(LENT(0), LENT(5));
    }
}

/* Whether a call with this answer may change an output, or must clear it. */
static int is_written(enum call call, size_t number, uint8_t refusal) {
    int is_scratch = call == BAUM_WELCH && number >= OUTPUT + 4;
    return buffers[number].entry && (refusal == WASNUGRAM_DONE || (refusal == WASNUGRAM_ZERO_MASS && is_scratch));
}

/* What memory has to be after the call: as it was, but what may be written is as it is, and what must be cleared is zero. */
static void expect(enum call call, uint8_t refusal, unsigned char *expected) {
    memcpy(expected, before, ARENA);
    for (size_t number = OUTPUT; number < BUFFERS; number++) {
        const struct buffer *b = &buffers[number];
        if (!is_written(call, number, refusal)) continue;
        if (call == BAUM_WELCH && number >= OUTPUT + 4) memset(expected + b->start, 0, b->needed * b->entry);
        else memcpy(expected + b->start, arena + b->start, b->needed * b->entry);
    }
}

static int is_as_expected(enum call call, uint8_t refusal) {
    static unsigned char expected[ARENA];
    expect(call, refusal, expected);
    return memcmp(arena, expected, ARENA) == 0;
}

/* Whether this byte has to stay as it was. */
static int stays(enum call call, uint8_t refusal, size_t byte) {
    for (size_t number = OUTPUT; number < BUFFERS; number++) {
        const struct buffer *b = &buffers[number];
        if (is_written(call, number, refusal) && byte >= b->start && byte - b->start < b->needed * b->entry) return 0;
    }
    return 1;
}

/* Flips a bit that has to stay: whether the comparison sees it. */
static int sees_a_flip(enum call call, uint8_t refusal) {
    size_t byte = below(used);
    if (!stays(call, refusal, byte)) return 1;
    arena[byte] ^= (unsigned char)(1 << below(8));
    return !is_as_expected(call, refusal);
}

/* A line for each call: each refusal that was met, 0 for done, and how often. How many were never met that should have been. */
static int print(size_t met[CALLS][REFUSALS]) {
    int missing = 0;
    for (size_t i = 0; i < CALLS * REFUSALS; i++) {
        size_t call = i / REFUSALS, refusal = i % REFUSALS;
        if (refusal == 0) printf("%s%s, refusals met:", call ? "\n" : "", CALL[call].name);
        if (met[call][refusal]) printf(" %zu (%zu times)", refusal, met[call][refusal]);
        if ((CALL[call].refusals >> refusal & 1) != (met[call][refusal] != 0)) missing++;
    }
    printf("\n");
    return missing;
}

int main(void) {
    static size_t met[CALLS][REFUSALS];
    size_t wrong = 0, unseen = 0;
    for (size_t i = 0; i < CASES; i++) {
        enum call call = (enum call)below(CALLS);
        set_case(call);
        wasnugram_answer a = made(call);
        if (a.refusal >= REFUSALS) return 1;
        met[call][a.refusal]++;
        wrong += !is_as_expected(call, a.refusal);
        unseen += !sees_a_flip(call, a.refusal);
    }
    int missing = print(met);
    printf("%d cases of random bits: a byte that should stay changed in %zu, a flip was not seen in %zu\n", CASES, wrong, unseen);
    if (missing) printf("%d kinds of refusal were not met, or met and not expected\n", missing);
    return wrong || unseen || missing;
}
