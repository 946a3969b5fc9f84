/* Wasnugram: a hidden-Markov decoder whose every answer is proved. This header is the manual.
 *
 * LENGTHS COUNT ENTRIES, NEVER BYTES. Each buffer is a pointer and a length. A table of 24 doubles has the length 24, not sizeof. A call
 * believes its lengths: one that is too large makes it read and write what is not yours. The macros below give every length. (A model
 * file is a buffer of bytes: its entries are its bytes.)
 *
 * Linking. `c/archive` builds target/staticlib/libwasnugram.a, for x86-64 Linux and the System V calling convention, on every
 * such processor. The archive needs memcpy and memset and nothing else: no heap, no statics, no libc.
 *
 * Floating point. Numbers are IEEE doubles, rounded to nearest, with subnormal numbers kept and exceptions masked, as a process starts.
 * So never link with -ffast-math or -Ofast: that makes the processor take subnormal numbers for zero (DAZ, FTZ) in all code, ours too,
 * and no promise on an answer holds. (The check of the entries looks at their bits: it refuses +2^-1074 there too.)
 *
 * Threads and interrupts. A call keeps nothing, so it may run beside any other, in a thread or a signal handler, as long as nothing that
 * one of them writes is lent to another. An interrupt handler saves the floating-point registers before it calls.
 *
 * Memory. The caller lends everything. A pointer may be null only where its length is 0. Doubles are aligned to 8 bytes, uint16_t to 2; a
 * model file may lie at any address.
 * An output may not overlap another output or an input; inputs may overlap each other. Inputs are never written: they may lie in ROM.
 * Nothing is read or written past a length. An output may be longer than needed: its surplus never changes.
 *
 * Flipped bits. Keep the model as a model file and read it at power-up (wasnugram_read_model): the reader is proved to refuse the file with
 * any single bit flipped, wherever it is. After that the tables are in RAM. Each call checks every entry before it decodes. A flip that
 * makes an entry NaN or lifts it above 0 is refused; one between that check and the entry's use is seen by the next call only. A flip that
 * leaves an entry at most 0 makes another good model, which no call can tell: read the file again from time to time.
 *
 * A model of S states and M symbols is four tables of doubles, natural logarithms of probabilities, each at most 0 and not NaN
 * (-0.0 and minus infinity are good):
 *
 *   table 0  transition  S*S entries   entry k*S + j: from state k to state j
 *   table 1  emission    S*M entries   entry j*M + x: symbol x in state j
 *   table 2  initial     S entries
 *   table 3  end         S entries     entry j: from state j to the end state; without one every entry must be +0.0
 *
 * S is 1 to 64, M 1 to 256. Table 4 is the samples, T of them, 0 to 4,096, each below M. What else is lent is numbered from 5 in argument
 * order: outputs, but that the reader's 5 is the file that it reads.
 *
 * Answers. `refusal` is WASNUGRAM_DONE, or it says what is wrong; then `table` and `place` say where, `value` is minus infinity, and
 * nothing that was lent has changed (WASNUGRAM_ZERO_MASS clears scratch). Checks run in the order of their numbers, tables and outputs
 * by number, places upward; the first fault answers. Two calls have another order: the reader looks at the whole file first, and
 * wasnugram_rival looks at the index (16) before it looks for a rival (15).
 *
 * DONE WITH MINUS INFINITY MEANS THAT NO PATH EXPLAINS THE SAMPLES, the way out included where there is an end state. The path that was
 * written means nothing then: charge no fare from it. Ask wasnugram_is_possible before you use a path.
 *
 * Example 1. At power-up the model is checked; then passages are decoded. Each buffer has room for 240 samples:
 *
 *     #include <math.h>
 *     #include <stdio.h>
 *     #include "wasnugram.h"
 *
 *     enum { S = 2, M = 3, ROOM = 240 };
 *     static const double transition[WASNUGRAM_MODEL_TRANSITION(S)] = { -1, -2, -2, -1 };
 *     static const double emission[WASNUGRAM_MODEL_EMISSION(S, M)] = { -1, -3, -INFINITY, -3, -1, -INFINITY };
 *     static const double initial[WASNUGRAM_MODEL_INITIAL(S)] = { -1, -2 };
 *     static const double end[WASNUGRAM_MODEL_END(S)] = { 0, 0 };
 *     static const wasnugram_model model = { { S, M, 0 }, transition, emission, initial, end };
 *
 *     static uint8_t path[WASNUGRAM_VITERBI_PATH(ROOM)];
 *     static double values[WASNUGRAM_VITERBI_VALUES(S, ROOM)];
 *     static uint8_t from[WASNUGRAM_VITERBI_FROM(S, ROOM)];
 *     static const wasnugram_viterbi_outputs outputs = { ROOM, path, values, from };
 *
 *     static void decode(const uint16_t *samples, size_t samples_length) {
 *         wasnugram_answer a = wasnugram_viterbi_of(&model, samples, samples_length, &outputs);
 *         if (a.refusal != WASNUGRAM_DONE) {
 *             printf("refusal %d, table %d, place %zu\n", a.refusal, a.table, a.place);
 *         } else if (!wasnugram_is_possible(a)) {
 *             printf("no path explains these samples: no fare\n");
 *         } else {
 *             printf("value %g, last state %d\n", a.value, path[samples_length - 1]);
 *         }
 *     }
 *
 *     int main(void) {
 *         const uint16_t adult[] = { 0, 1, 1 }, impossible[] = { 0, 2, 1 }, dirty[] = { 0, 1, 3 };
 *         if (wasnugram_check_of(&model).refusal != WASNUGRAM_DONE) return 1;
 *         decode(adult, 3);
 *         decode(impossible, 3);
 *         decode(dirty, 3);
 *         return 0;
 *     }
 *
 * It prints:
 *
 *     value -7, last state 1
 *     no path explains these samples: no fare
 *     refusal 8, table 4, place 2
 *
 * Example 2. The same without the structs, where every length is said, and a damaged model:
 *
 *     #include <stdio.h>
 *     #include "wasnugram.h"
 *
 *     enum { S = 2, M = 2, T = 3 };
 *
 *     int main(void) {
 *         const wasnugram_shape shape = { S, M, 0 };
 *         const double transition[WASNUGRAM_MODEL_TRANSITION(S)] = { -1, -2, -2, -1 };
 *         const double emission[WASNUGRAM_MODEL_EMISSION(S, M)] = { -1, -3, -3, +1 };
 *         const double initial[WASNUGRAM_MODEL_INITIAL(S)] = { -1, -2 };
 *         const double end[WASNUGRAM_MODEL_END(S)] = { 0, 0 };
 *         const uint16_t samples[T] = { 0, 1, 1 };
 *         uint8_t path[WASNUGRAM_VITERBI_PATH(T)], from[WASNUGRAM_VITERBI_FROM(S, T)];
 *         double values[WASNUGRAM_VITERBI_VALUES(S, T)];
 *         wasnugram_answer a = wasnugram_viterbi(
 *             shape,
 *             transition, WASNUGRAM_MODEL_TRANSITION(S),
 *             emission, WASNUGRAM_MODEL_EMISSION(S, M),
 *             initial, WASNUGRAM_MODEL_INITIAL(S),
 *             end, WASNUGRAM_MODEL_END(S),
 *             samples, T,
 *             path, WASNUGRAM_VITERBI_PATH(T),
 *             values, WASNUGRAM_VITERBI_VALUES(S, T),
 *             from, WASNUGRAM_VITERBI_FROM(S, T));
 *         if (wasnugram_is_possible(a)) {
 *             printf("value %g, last state %d\n", a.value, path[T - 1]);
 *         } else if (a.refusal == WASNUGRAM_NOT_GOOD && a.table == WASNUGRAM_EMISSION) {
 *             printf("the emission of symbol %zu in state %zu is damaged\n", a.place % M, a.place / M);
 *         }
 *         return 0;
 *     }
 *
 * It prints:
 *
 *     the emission of symbol 1 in state 1 is damaged
 *
 * Example 3. The model is kept as a model file in flash. At power-up it is read into tables, and a passage is decoded; then a bit flips:
 *
 *     #include <stdio.h>
 *     #include "wasnugram.h"
 *
 *     enum { S = 2, M = 2, T = 3 };
 *     static uint8_t flash[WASNUGRAM_MODEL_FILE(S, M, 0)];
 *
 *     static double transition[WASNUGRAM_MODEL_TRANSITION(S)], emission[WASNUGRAM_MODEL_EMISSION(S, M)];
 *     static double initial[WASNUGRAM_MODEL_INITIAL(S)], end[WASNUGRAM_MODEL_END(S)];
 *     static const wasnugram_model_room room = { S, M, transition, emission, initial, end };
 *
 *     static int write_flash(void) {
 *         static const double two[] = { -1, -2, -2, -1 }, three[] = { -1, -3, -3, -1 }, one[] = { -1, -2 }, none[] = { 0, 0 };
 *         const wasnugram_model model = { { S, M, 0 }, two, three, one, none };
 *         return wasnugram_write_model_of(&model, flash, sizeof flash).refusal == WASNUGRAM_DONE;
 *     }
 *
 *     static void power_up(void) {
 *         const uint16_t samples[T] = { 0, 1, 1 };
 *         uint8_t path[WASNUGRAM_VITERBI_PATH(T)], from[WASNUGRAM_VITERBI_FROM(S, T)];
 *         double values[WASNUGRAM_VITERBI_VALUES(S, T)];
 *         const wasnugram_viterbi_outputs outputs = { T, path, values, from };
 *         wasnugram_model model;
 *         wasnugram_answer a = wasnugram_read_model_of(flash, sizeof flash, &room, &model);
 *         if (a.refusal != WASNUGRAM_DONE) {
 *             printf("the model file is damaged: refusal %d, table %d, place %zu\n", a.refusal, a.table, a.place);
 *             return;
 *         }
 *         a = wasnugram_viterbi_of(&model, samples, T, &outputs);
 *         if (wasnugram_is_possible(a)) printf("value %g, last state %d\n", a.value, path[T - 1]);
 *     }
 *
 *     int main(void) {
 *         if (!write_flash()) return 1;
 *         power_up();
 *         flash[88] ^= 1; // the lowest bit of the body of table 1
 *         power_up();
 *         flash[12] ^= 1; // and one of the contents, which comes first in the file
 *         power_up();
 *         return 0;
 *     }
 *
 * It prints:
 *
 *     value -7, last state 1
 *     the model file is damaged: refusal 14, table 1, place 0
 *     the model file is damaged: refusal 13, table 0, place 12
 *
 * Example 4. Someone at the gate asks "why not child?" of a passage that was taken for an adult's. Symbol 2 is one that no child gives:
 *
 *     #include <math.h>
 *     #include <stdio.h>
 *     #include "wasnugram.h"
 *
 *     enum { S = 2, M = 3, T = 3 };
 *     static const char *const name[S] = { "adult", "child" };
 *     static const double transition[WASNUGRAM_MODEL_TRANSITION(S)] = { -0.1, -2.5, -2.5, -0.1 };
 *     static const double emission[WASNUGRAM_MODEL_EMISSION(S, M)] = { -0.5, -1, -4, -0.8, -0.32, -INFINITY };
 *     static const double initial[WASNUGRAM_MODEL_INITIAL(S)] = { -0.5, -1 };
 *     static const double end[WASNUGRAM_MODEL_END(S)] = { 0, 0 };
 *     static const wasnugram_model model = { { S, M, 0 }, transition, emission, initial, end };
 *
 *     static uint8_t path[WASNUGRAM_RIVAL_PATH(T)], rival_path[WASNUGRAM_RIVAL_RIVAL_PATH(T)], from[WASNUGRAM_RIVAL_FROM(S, T)];
 *     static double values[WASNUGRAM_RIVAL_VALUES(S, T)];
 *     static const wasnugram_rival_outputs outputs = { T, path, rival_path, values, from };
 *
 *     static void explain(const uint16_t *samples, size_t index) {
 *         wasnugram_rivalry r = wasnugram_rival_of(&model, samples, T, index, &outputs);
 *         if (r.answer.refusal == WASNUGRAM_NO_RIVAL) {
 *             printf("sample %zu: every path with another state there is impossible\n", index);
 *         } else if (r.answer.refusal != WASNUGRAM_DONE) {
 *             printf("sample %zu: refusal %d\n", index, r.answer.refusal);
 *         } else {
 *             double margin = r.best - r.answer.value, times = 1 / wasnugram_exp(-margin).value;
 *             printf("sample %zu: %s, not %s: margin %.2f, ", index, name[r.chosen], name[rival_path[index]], margin);
 *             printf("%.2f times as likely\n", times);
 *         }
 *     }
 *
 *     int main(void) {
 *         const uint16_t doubtful[T] = { 0, 1, 0 }, plain[T] = { 0, 2, 0 };
 *         explain(doubtful, 1);
 *         explain(plain, 0);
 *         explain(plain, 1);
 *         explain(plain, T);
 *         return 0;
 *     }
 *
 * It prints:
 *
 *     sample 1: adult, not child: margin 0.42, 1.52 times as likely
 *     sample 0: adult, not child: margin 3.20, 24.53 times as likely
 *     sample 1: every path with another state there is impossible
 *     sample 3: refusal 16
 */
#ifndef WASNUGRAM_H
#define WASNUGRAM_H

#include <stddef.h>
#include <stdint.h>

#ifdef __cplusplus
extern "C" {
#endif

#define WASNUGRAM_VERSION "0.1.0"
#define WASNUGRAM_VERSION_MAJOR 0
#define WASNUGRAM_VERSION_MINOR 1
#define WASNUGRAM_VERSION_PATCH 0

/* The most that a call takes. */
#define WASNUGRAM_MOST_STATES 64
#define WASNUGRAM_MOST_SYMBOLS 256
#define WASNUGRAM_MOST_SAMPLES 4096

/* How many entries (never bytes) each buffer needs, for S states, M symbols and T samples. A model's tables have exactly so many. */
#define WASNUGRAM_MODEL_TRANSITION(S) ((size_t)(S) * (size_t)(S))
#define WASNUGRAM_MODEL_EMISSION(S, M) ((size_t)(S) * (size_t)(M))
#define WASNUGRAM_MODEL_INITIAL(S) ((size_t)(S))
#define WASNUGRAM_MODEL_END(S) ((size_t)(S))

/* How many bytes a model file has, where ENDS is as in the shape: 8, and 16 for each table of the file, and 8 for each entry of those. An
 * end table is in the file only with an end state. S is 1 to 64 and M 1 to 256: wasnugram_model_file_length gives 0 for any other shape. */
#define WASNUGRAM_MODEL_FILE(S, M, ENDS) \
    ((size_t)((ENDS) ? 72 : 56) + \
     8 * (WASNUGRAM_MODEL_TRANSITION(S) + WASNUGRAM_MODEL_EMISSION(S, M) + WASNUGRAM_MODEL_INITIAL(S) + \
          ((ENDS) ? WASNUGRAM_MODEL_END(S) : 0)))

/* Outputs have at least so many entries. */
#define WASNUGRAM_VITERBI_PATH(T) ((size_t)(T))
#define WASNUGRAM_VITERBI_VALUES(S, T) ((size_t)(S) * (size_t)(T))
#define WASNUGRAM_VITERBI_FROM(S, T) ((size_t)(S) * (size_t)(T))
#define WASNUGRAM_RIVAL_PATH(T) ((size_t)(T))
#define WASNUGRAM_RIVAL_RIVAL_PATH(T) ((size_t)(T))
#define WASNUGRAM_RIVAL_VALUES(S, T) ((size_t)(S) * (size_t)(T))
#define WASNUGRAM_RIVAL_FROM(S, T) ((size_t)(S) * (size_t)(T))
#define WASNUGRAM_FORWARD_VALUES(S, T) ((size_t)(S) * (size_t)(T))
#define WASNUGRAM_BACKWARD_VALUES(S, T) ((size_t)(S) * (size_t)(T))
#define WASNUGRAM_BAUM_WELCH_NEW_TRANSITION(S) WASNUGRAM_MODEL_TRANSITION(S)
#define WASNUGRAM_BAUM_WELCH_NEW_EMISSION(S, M) WASNUGRAM_MODEL_EMISSION(S, M)
#define WASNUGRAM_BAUM_WELCH_NEW_INITIAL(S) WASNUGRAM_MODEL_INITIAL(S)
#define WASNUGRAM_BAUM_WELCH_NEW_END(S) WASNUGRAM_MODEL_END(S)
#define WASNUGRAM_BAUM_WELCH_ALPHA(S, T) ((size_t)(S) * (size_t)(T))
#define WASNUGRAM_BAUM_WELCH_BETA(S, T) ((size_t)(S) * (size_t)(T))

/* So many sums for N log-probabilities. */
#define WASNUGRAM_LN_CUMSUM_EXP_SUMS(N) ((size_t)(N))

/* What an answer's `refusal` says, and which table and place it names. 12 is never given. A later version may add numbers. */
typedef enum {
    WASNUGRAM_DONE = 0,
    WASNUGRAM_BAD_STATES = 1,           /* S is 0 or above 64: place S */
    WASNUGRAM_BAD_SYMBOLS = 2,          /* M is 0 or above 256: place M */
    WASNUGRAM_TOO_MANY_SAMPLES = 3,     /* T is above 4,096: table 4, place T */
    WASNUGRAM_NO_SAMPLES = 4,           /* T is 0, in forward or a training pass: table 4, place 0 */
    WASNUGRAM_WRONG_LENGTH = 5,         /* a model table has a wrong length: its table, place its length */
    WASNUGRAM_OUTPUT_TOO_SHORT = 6,     /* an output or scratch is too short: its number, place its length */
    WASNUGRAM_NOT_GOOD = 7,             /* an entry is not good, or an argument is outside its domain: its table, the first such place */
    WASNUGRAM_UNKNOWN_SYMBOL = 8,       /* a sample is M or more: table 4, the first such place */
    WASNUGRAM_ZERO_MASS = 9,            /* a training pass meets zero mass: place the state, or S for the whole */
    WASNUGRAM_NEGATIVE_DIFFERENCE = 10, /* wasnugram_ln_sub_exp with p0 < p1 */
    WASNUGRAM_OVERSHOOT = 11,           /* wasnugram_cap_numerical_overshoot: above 0 by more than epsilon, or a NaN */
    WASNUGRAM_BAD_LAYOUT = 13,          /* no model file: place the first wrong byte, or the shorter length if the length is wrong */
    WASNUGRAM_BAD_SUM = 14,             /* a body of a model file has another sum than the file says: its table, place 0 */
    WASNUGRAM_NO_RIVAL = 15,            /* every path with another state at the index scores minus infinity */
    WASNUGRAM_BAD_INDEX = 16            /* the index is T or more */
} wasnugram_refusal;

/* What an answer's `table` says of a call on a model: these, or an output's number, from 5. */
typedef enum {
    WASNUGRAM_TRANSITION = 0,
    WASNUGRAM_EMISSION = 1,
    WASNUGRAM_INITIAL = 2,
    WASNUGRAM_END = 3,
    WASNUGRAM_SAMPLES = 4
} wasnugram_table;

typedef struct {
    size_t states;
    size_t symbols;
    uint8_t ends; /* 0: no end state; anything else: an end state; the reader gives 0 or 1 */
} wasnugram_shape;

typedef struct {
    uint8_t refusal; /* a wasnugram_refusal */
    uint8_t table;   /* a wasnugram_table, or an output's number; 0 where none is named */
    size_t place;    /* counts entries, and a model file's bytes; 0 where none is named */
    double value;
} wasnugram_answer;

/* What the reader of a model file gives. */
typedef struct {
    wasnugram_answer answer;
    wasnugram_shape shape; /* the shape of the model that was read; where the reader refuses, 0 states, 0 symbols and no end state */
} wasnugram_reading;

/* What wasnugram_rival gives. */
typedef struct {
    wasnugram_answer answer; /* its value is the rival's score */
    size_t chosen;           /* the state of the best path at the index; 0 where the call is refused */
    double best;             /* the best path's score; minus infinity where the call is refused */
} wasnugram_rivalry;

/* Whether a call is done and its value is above minus infinity: only then does a path explain the samples. It looks at the value's bits,
 * so that -ffast-math in the code that asks does not mislead it. */
static inline int wasnugram_is_possible(wasnugram_answer answer) {
    union {
        double value;
        uint64_t bits;
    } value = { answer.value };
    return answer.refusal == WASNUGRAM_DONE && value.bits != UINT64_C(0xfff0000000000000);
}

/* The best path. Writes, all lengths in entries and not in bytes:
 *
 *   output 5  path    T      the state at each sample
 *   output 6  values  T*S    entry t*S + j: the value of state j at sample t
 *   output 7  from    T*S    entry t*S + j: the state before it on the best way there; state j itself in the first row
 *
 * The value is the best path's score: the sum from the left of initial, emission, transition, emission and so on. With an end state the
 * last state's end entry is added last: the way out counts, as in forward, backward and a training pass. Without one nothing is added, so
 * that -0.0 stays -0.0. `values` and `from` hold nothing of the end table. The Rust crate bio 4.2.2 differs, whose Viterbi leaves the end
 * table out: with initial (-1, -2), end (-3, -1), an end state and all else 0, one sample is state 1 here and state 0 there. So set `ends`
 * only where each passage is lent to its end: one that was cut off is bent towards a state in which passages end.
 *
 * Ties. The highest-numbered of the best wins, among predecessors as for the last state. A predecessor at minus infinity ranks below
 * every other one; the rest rank by value + transition. Last states rank by value, with an end state by value + end.
 *
 * No samples: done, nothing written, minus infinity. So a call without samples and outputs checks a model (wasnugram_check_of). */
wasnugram_answer wasnugram_viterbi(
    wasnugram_shape shape,
    const double *transition, size_t transition_length,
    const double *emission, size_t emission_length,
    const double *initial, size_t initial_length,
    const double *end, size_t end_length,
    const uint16_t *samples, size_t samples_length,
    uint8_t *path, size_t path_length,
    double *values, size_t values_length,
    uint8_t *from, size_t from_length);

/* The strongest rival of the best path at one sample: the best of the paths that have another state there than the best path has, which is
 * the chosen state. It is for the person at the gate who asks "why not child?" of a passage that was decoded: ask then, and not for every
 * passage, since it takes about as long as four calls of wasnugram_viterbi. `index` says which sample and counts from 0. Writes, all
 * lengths in entries and not in bytes:
 *
 *   output 5  path        T      the best path, as wasnugram_viterbi writes it: path[index] is the chosen state
 *   output 6  rival_path  T      the rival: rival_path[index] is another state
 *   output 7  values      T*S    entry t*S + j: the value of state j at sample t on the rival's walk
 *   output 8  from        T*S    entry t*S + j: the state before it on the best way there; state j itself in the first row
 *
 * The rival's walk is the one of wasnugram_viterbi where the chosen state cannot emit at the index: its emission there, and nowhere else,
 * is taken for minus infinity. So the rows before the index are those of the best path's walk, and the chosen state's value at the index
 * is minus infinity. `best` is the best path's score and the answer's value is the rival's, each as wasnugram_viterbi works it out, the
 * end entry included where there is an end state. No path with another state at the index scores higher than the rival.
 *
 * Margin. best - answer.value is a difference of log-probabilities, at least 0. A margin of 0.42 says that the best path is
 * exp(0.42) = 1.52 times as likely as the rival, under the model; it does not say that the model is right. A margin of 0 is a tie. Look at
 * the refusal first: where the call is refused both are minus infinity, their difference is NaN, and a chosen state of 0 means nothing. The
 * margin at each sample of a passage takes a call for each.
 *
 * Ties. Both paths follow the rule of wasnugram_viterbi, the rival's among the states that are left.
 *
 * Once checks 1 to 8 are passed, an index of T or more is refused with 16, and so is every index where there are no samples. Last comes
 * 15: every path with another state at the index scores minus infinity. A model of one state is always refused so, and so are samples that
 * no path explains; wasnugram_viterbi tells these from a state that has no rival. 15 too leaves all that was lent as it was. A call that is
 * done has a value above minus infinity. */
wasnugram_rivalry wasnugram_rival(
    wasnugram_shape shape,
    const double *transition, size_t transition_length,
    const double *emission, size_t emission_length,
    const double *initial, size_t initial_length,
    const double *end, size_t end_length,
    const uint16_t *samples, size_t samples_length,
    size_t index,
    uint8_t *path, size_t path_length,
    uint8_t *rival_path, size_t rival_path_length,
    double *values, size_t values_length,
    uint8_t *from, size_t from_length);

/* How likely the samples are. Writes, the length in entries and not in bytes:
 *
 *   output 5  values  T*S    entry t*S + j: alpha of state j at sample t
 *
 * The value is the likelihood's logarithm; minus infinity: the model cannot give these samples. No samples are refused with 4.
 *
 * The best path's share. On the same tables and samples the value of a done call is never under wasnugram_viterbi's, and no cell (an entry
 * of `values`) is under Viterbi's cell of the same sample and state, with an end state or without; they may be equal. So
 * e^(Viterbi's value - this one), the best path's share of the likelihood, is at most 1, but for the last rounding of your exp. Where both
 * are minus infinity there is no share: their difference is NaN. */
wasnugram_answer wasnugram_forward(
    wasnugram_shape shape,
    const double *transition, size_t transition_length,
    const double *emission, size_t emission_length,
    const double *initial, size_t initial_length,
    const double *end, size_t end_length,
    const uint16_t *samples, size_t samples_length,
    double *values, size_t values_length);

/* The same from the end. Writes, the length in entries and not in bytes:
 *
 *   output 5  values  T*S    entry i*S + j: beta of state j at sample T-1-i, so that the last sample comes first
 *
 * No samples: done, nothing written, minus infinity. What wasnugram_forward promises beside wasnugram_viterbi is not promised here: this
 * call adds from the other end, and its rounded value may be under Viterbi's. */
wasnugram_answer wasnugram_backward(
    wasnugram_shape shape,
    const double *transition, size_t transition_length,
    const double *emission, size_t emission_length,
    const double *initial, size_t initial_length,
    const double *end, size_t end_length,
    const uint16_t *samples, size_t samples_length,
    double *values, size_t values_length);

/* One training pass (Baum and Welch): the model that makes the samples likelier. Writes, all lengths in entries and not in bytes:
 *
 *   output 5   new_transition  S*S
 *   output 6   new_emission    S*M
 *   output 7   new_initial     S
 *   output 8   new_end         S
 *   output 9   alpha           T*S    scratch: all +0.0 in its needed part once the pass is done or refused with 9
 *   output 10  beta            T*S    scratch, the same
 *
 * The value is the likelihood's logarithm under the model that was lent. No samples are refused with 4. */
wasnugram_answer wasnugram_baum_welch(
    wasnugram_shape shape,
    const double *transition, size_t transition_length,
    const double *emission, size_t emission_length,
    const double *initial, size_t initial_length,
    const double *end, size_t end_length,
    const uint16_t *samples, size_t samples_length,
    double *new_transition, size_t new_transition_length,
    double *new_emission, size_t new_emission_length,
    double *new_initial, size_t new_initial_length,
    double *new_end, size_t new_end_length,
    double *alpha, size_t alpha_length,
    double *beta, size_t beta_length);

/* How many bytes the model file of this shape has; 0 where S is not 1 to 64 or M not 1 to 256. */
size_t wasnugram_model_file_length(wasnugram_shape shape);

/* Reads a model file, whose bytes docs/MODEL-FILE.md gives. Writes, all lengths in entries, of the file in bytes:
 *
 *   input 5   file        exactly as many bytes as its model needs
 *   output 6  transition  S*S
 *   output 7  emission    S*M
 *   output 8  initial     S
 *   output 9  end         S    +0.0 where the model has no end state
 *
 * S, M and the end flag come from the file, so a caller who does not know them lends tables for the most that it takes. The value is +0.0.
 *
 * The checks, in this order: fewer than 8 bytes are refused with 13; then 1 and 2; 13, where any byte but those of the sums and bodies is
 * another than this S, M and flag ask for, or the length is; 14, tables upward; 6, a table is lent too short; 7, a word of a body is no
 * good entry: its table from 0 to 3, the place in it. Nothing is written before the last check is passed.
 *
 * It is proved that a file that is written is read as it was, bit for bit, that two files that are read alike are the same bytes, and
 * that a file with a bit flipped, bytes cut off or bytes added is refused. Two flipped bits may cancel in a sum. */
wasnugram_reading wasnugram_read_model(
    const uint8_t *file, size_t file_length,
    double *transition, size_t transition_length,
    double *emission, size_t emission_length,
    double *initial, size_t initial_length,
    double *end, size_t end_length);

/* Writes a model file. The length of the file is in bytes:
 *
 *   output 5  file  wasnugram_model_file_length(shape), which is WASNUGRAM_MODEL_FILE(S, M, ENDS)
 *
 * The value is +0.0. Checks 1, 2, 5, 6 and 7, as in every call on a model. Without an end state the file has no end table. */
wasnugram_answer wasnugram_write_model(
    wasnugram_shape shape,
    const double *transition, size_t transition_length,
    const double *emission, size_t emission_length,
    const double *initial, size_t initial_length,
    const double *end, size_t end_length,
    uint8_t *file, size_t file_length);

/* The kernels: exp(d) for d at most 0, ln(x) for x at least 0; and ln(1 - exp(p)) for p at most 0. Else 7, table 0, place 0. */
wasnugram_answer wasnugram_exp(double d);
wasnugram_answer wasnugram_ln(double x);
wasnugram_answer wasnugram_ln_one_minus_exp(double p);

/* Sums of log-probabilities: ln of the sum of exp over probs_length entries (not bytes), ln(exp(p0) + exp(p1)), ln(exp(p0) - exp(p1)).
 * A NaN is 7; its place is the argument's number from 0, or the index in the slice. */
wasnugram_answer wasnugram_ln_sum_exp(const double *probs, size_t probs_length);
wasnugram_answer wasnugram_ln_add_exp(double p0, double p1);
wasnugram_answer wasnugram_ln_sub_exp(double p0, double p1);

/* Output 5: the running sums, one for each entry; both lengths count entries and not bytes. The value is the last sum, minus infinity if
 * there is none. */
wasnugram_answer wasnugram_ln_cumsum_exp(const double *probs, size_t probs_length, double *sums, size_t sums_length);

/* The value, or 0.0 where it is above 0 by at most epsilon. */
wasnugram_answer wasnugram_cap_numerical_overshoot(double value, double epsilon);

/* The calls on a model again, with structs in place of lengths. Every length is worked out from the model's shape, so that no length in
 * bytes can be lent: each table must have the entries that its macro gives. No pointer to a struct may be null. */
typedef struct {
    wasnugram_shape shape;
    const double *transition; /* WASNUGRAM_MODEL_TRANSITION(states) entries */
    const double *emission;   /* WASNUGRAM_MODEL_EMISSION(states, symbols) entries */
    const double *initial;    /* WASNUGRAM_MODEL_INITIAL(states) entries */
    const double *end;        /* WASNUGRAM_MODEL_END(states) entries */
} wasnugram_model;

/* Tables for the reader, with room for a model of so many states and symbols. A model that needs more is refused with 6. */
typedef struct {
    size_t states;
    size_t symbols;
    double *transition; /* WASNUGRAM_MODEL_TRANSITION(states) entries */
    double *emission;   /* WASNUGRAM_MODEL_EMISSION(states, symbols) entries */
    double *initial;    /* WASNUGRAM_MODEL_INITIAL(states) entries */
    double *end;        /* WASNUGRAM_MODEL_END(states) entries */
} wasnugram_model_room;

/* Outputs with room for so many samples of the model that they are lent with. More samples than that are refused with 6. */
typedef struct {
    size_t room;    /* in samples */
    uint8_t *path;  /* WASNUGRAM_VITERBI_PATH(room) entries */
    double *values; /* WASNUGRAM_VITERBI_VALUES(states, room) entries */
    uint8_t *from;  /* WASNUGRAM_VITERBI_FROM(states, room) entries */
} wasnugram_viterbi_outputs;

typedef struct {
    size_t room;         /* in samples */
    uint8_t *path;       /* WASNUGRAM_RIVAL_PATH(room) entries */
    uint8_t *rival_path; /* WASNUGRAM_RIVAL_RIVAL_PATH(room) entries */
    double *values;      /* WASNUGRAM_RIVAL_VALUES(states, room) entries */
    uint8_t *from;       /* WASNUGRAM_RIVAL_FROM(states, room) entries */
} wasnugram_rival_outputs;

/* The output of forward or backward. */
typedef struct {
    size_t room;    /* in samples */
    double *values; /* WASNUGRAM_FORWARD_VALUES(states, room) entries, which are as many as WASNUGRAM_BACKWARD_VALUES(states, room) */
} wasnugram_likelihood_outputs;

typedef struct {
    size_t room;            /* in samples */
    double *new_transition; /* WASNUGRAM_BAUM_WELCH_NEW_TRANSITION(states) entries */
    double *new_emission;   /* WASNUGRAM_BAUM_WELCH_NEW_EMISSION(states, symbols) entries */
    double *new_initial;    /* WASNUGRAM_BAUM_WELCH_NEW_INITIAL(states) entries */
    double *new_end;        /* WASNUGRAM_BAUM_WELCH_NEW_END(states) entries */
    double *alpha;          /* WASNUGRAM_BAUM_WELCH_ALPHA(states, room) entries */
    double *beta;           /* WASNUGRAM_BAUM_WELCH_BETA(states, room) entries */
} wasnugram_baum_welch_outputs;

/* wasnugram_viterbi on a model. samples_length counts entries, not bytes. */
static inline wasnugram_answer wasnugram_viterbi_of(
    const wasnugram_model *model, const uint16_t *samples, size_t samples_length, const wasnugram_viterbi_outputs *outputs) {
    size_t states = model->shape.states, room = outputs->room;
    return wasnugram_viterbi(
        model->shape,
        model->transition, WASNUGRAM_MODEL_TRANSITION(states),
        model->emission, WASNUGRAM_MODEL_EMISSION(states, model->shape.symbols),
        model->initial, WASNUGRAM_MODEL_INITIAL(states),
        model->end, WASNUGRAM_MODEL_END(states),
        samples, samples_length,
        outputs->path, WASNUGRAM_VITERBI_PATH(room),
        outputs->values, WASNUGRAM_VITERBI_VALUES(states, room),
        outputs->from, WASNUGRAM_VITERBI_FROM(states, room));
}

/* Whether a model is good, at power-up or whenever flash may have suffered: WASNUGRAM_DONE, or what is wrong and where. It is
 * wasnugram_viterbi with no samples, so that its value is minus infinity in any case. */
static inline wasnugram_answer wasnugram_check_of(const wasnugram_model *model) {
    wasnugram_viterbi_outputs none = { 0, NULL, NULL, NULL };
    return wasnugram_viterbi_of(model, NULL, 0, &none);
}

/* wasnugram_rival on a model, at the sample of this index, which counts from 0. samples_length counts entries, not bytes. */
static inline wasnugram_rivalry wasnugram_rival_of(
    const wasnugram_model *model, const uint16_t *samples, size_t samples_length, size_t index, const wasnugram_rival_outputs *outputs) {
    size_t states = model->shape.states, room = outputs->room;
    return wasnugram_rival(
        model->shape,
        model->transition, WASNUGRAM_MODEL_TRANSITION(states),
        model->emission, WASNUGRAM_MODEL_EMISSION(states, model->shape.symbols),
        model->initial, WASNUGRAM_MODEL_INITIAL(states),
        model->end, WASNUGRAM_MODEL_END(states),
        samples, samples_length,
        index,
        outputs->path, WASNUGRAM_RIVAL_PATH(room),
        outputs->rival_path, WASNUGRAM_RIVAL_RIVAL_PATH(room),
        outputs->values, WASNUGRAM_RIVAL_VALUES(states, room),
        outputs->from, WASNUGRAM_RIVAL_FROM(states, room));
}

/* wasnugram_forward on a model. samples_length counts entries, not bytes. */
static inline wasnugram_answer wasnugram_forward_of(
    const wasnugram_model *model, const uint16_t *samples, size_t samples_length, const wasnugram_likelihood_outputs *outputs) {
    size_t states = model->shape.states;
    return wasnugram_forward(
        model->shape,
        model->transition, WASNUGRAM_MODEL_TRANSITION(states),
        model->emission, WASNUGRAM_MODEL_EMISSION(states, model->shape.symbols),
        model->initial, WASNUGRAM_MODEL_INITIAL(states),
        model->end, WASNUGRAM_MODEL_END(states),
        samples, samples_length,
        outputs->values, WASNUGRAM_FORWARD_VALUES(states, outputs->room));
}

/* wasnugram_backward on a model. samples_length counts entries, not bytes. */
static inline wasnugram_answer wasnugram_backward_of(
    const wasnugram_model *model, const uint16_t *samples, size_t samples_length, const wasnugram_likelihood_outputs *outputs) {
    size_t states = model->shape.states;
    return wasnugram_backward(
        model->shape,
        model->transition, WASNUGRAM_MODEL_TRANSITION(states),
        model->emission, WASNUGRAM_MODEL_EMISSION(states, model->shape.symbols),
        model->initial, WASNUGRAM_MODEL_INITIAL(states),
        model->end, WASNUGRAM_MODEL_END(states),
        samples, samples_length,
        outputs->values, WASNUGRAM_BACKWARD_VALUES(states, outputs->room));
}

/* wasnugram_baum_welch on a model. samples_length counts entries, not bytes. */
static inline wasnugram_answer wasnugram_baum_welch_of(
    const wasnugram_model *model, const uint16_t *samples, size_t samples_length, const wasnugram_baum_welch_outputs *outputs) {
    size_t states = model->shape.states, symbols = model->shape.symbols, room = outputs->room;
    return wasnugram_baum_welch(
        model->shape,
        model->transition, WASNUGRAM_MODEL_TRANSITION(states),
        model->emission, WASNUGRAM_MODEL_EMISSION(states, symbols),
        model->initial, WASNUGRAM_MODEL_INITIAL(states),
        model->end, WASNUGRAM_MODEL_END(states),
        samples, samples_length,
        outputs->new_transition, WASNUGRAM_BAUM_WELCH_NEW_TRANSITION(states),
        outputs->new_emission, WASNUGRAM_BAUM_WELCH_NEW_EMISSION(states, symbols),
        outputs->new_initial, WASNUGRAM_BAUM_WELCH_NEW_INITIAL(states),
        outputs->new_end, WASNUGRAM_BAUM_WELCH_NEW_END(states),
        outputs->alpha, WASNUGRAM_BAUM_WELCH_ALPHA(states, room),
        outputs->beta, WASNUGRAM_BAUM_WELCH_BETA(states, room));
}

/* wasnugram_read_model into a room. Once it is done, *model has the shape that was read and lies in the room's tables; where it refuses,
 * *model and the tables are as they were. file_length counts bytes. */
static inline wasnugram_answer wasnugram_read_model_of(
    const uint8_t *file, size_t file_length, const wasnugram_model_room *room, wasnugram_model *model) {
    wasnugram_reading reading = wasnugram_read_model(
        file, file_length,
        room->transition, WASNUGRAM_MODEL_TRANSITION(room->states),
        room->emission, WASNUGRAM_MODEL_EMISSION(room->states, room->symbols),
        room->initial, WASNUGRAM_MODEL_INITIAL(room->states),
        room->end, WASNUGRAM_MODEL_END(room->states));
    if (reading.answer.refusal == WASNUGRAM_DONE) {
        model->shape = reading.shape;
        model->transition = room->transition;
        model->emission = room->emission;
        model->initial = room->initial;
        model->end = room->end;
    }
    return reading.answer;
}

/* wasnugram_write_model of a model. file_length counts bytes. */
static inline wasnugram_answer wasnugram_write_model_of(const wasnugram_model *model, uint8_t *file, size_t file_length) {
    size_t states = model->shape.states;
    return wasnugram_write_model(
        model->shape,
        model->transition, WASNUGRAM_MODEL_TRANSITION(states),
        model->emission, WASNUGRAM_MODEL_EMISSION(states, model->shape.symbols),
        model->initial, WASNUGRAM_MODEL_INITIAL(states),
        model->end, WASNUGRAM_MODEL_END(states),
        file, file_length);
}

#ifdef __cplusplus
}
#endif

#endif
