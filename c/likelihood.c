/* The likelihood beside the best path, on model A of docs/RULES.md and on small random models from a fixed seed: wasnugram_forward's answer
 * is never under wasnugram_viterbi's value, and none of its cells under Viterbi's cell of the same sample and state. On model A the two
 * answers are equal, and wasnugram_backward's is under them. A build that is told what to make WRONG has to fail. */
#include <stdio.h>
#include "models.h"

enum { MODELS = 30000, MOST_STATES = 6, MOST_SYMBOLS = 4, MOST_SAMPLES = 20, CELLS = MOST_STATES * MOST_SAMPLES };

/* Nothing is wrong; backward's answer stands for forward's; or one of forward's cells is one step lower. */
enum { NOTHING, ANSWER_OF_BACKWARD, LOWERED_CELL };
#ifndef WRONG
#define WRONG NOTHING
#endif

static uint16_t samples[MOST_SAMPLES];
static size_t length;

/* What the calls answer and write of a case. */
static double best, likelihood;
static double best_cells[CELLS], cells[CELLS];
static uint8_t path[MOST_SAMPLES];

static wasnugram_model model(void) {
    return (wasnugram_model){ shape, transition, emission, initial, end };
}

static double backward(void) {
    static double rows[CELLS];
    const wasnugram_model m = model();
    const wasnugram_likelihood_outputs outputs = { length, rows };
    return wasnugram_backward_of(&m, samples, length, &outputs).value;
}

/* Every cell is NaN before, which is not at least anything: so a call that is refused, or leaves a cell out, is seen. */
static void decode(void) {
    static uint8_t from[CELLS];
    const wasnugram_model m = model();
    const wasnugram_viterbi_outputs best_outputs = { length, path, best_cells, from };
    const wasnugram_likelihood_outputs outputs = { length, cells };
    memset(path, 0xff, sizeof path);
    memset(best_cells, 0xff, sizeof best_cells);
    memset(cells, 0xff, sizeof cells);
    best = wasnugram_viterbi_of(&m, samples, length, &best_outputs).value;
    likelihood = wasnugram_forward_of(&m, samples, length, &outputs).value;
    if (WRONG == ANSWER_OF_BACKWARD) likelihood = backward();
}

/* Of one state, and a sum with -1 rounds what it adds: from the left nothing is left of the small entries. */
static void set_model_a(void) {
    shape = (wasnugram_shape){ 1, 1, 0 };
    initial[0] = -1, transition[0] = -0x1p-53, emission[0] = -0x1p-53, end[0] = 0;
    samples[0] = 0, samples[1] = 0, length = 2;
}

static int is_model_a_right(void) {
    return best == -1 && path[0] == 0 && path[1] == 0 && likelihood == -1 && backward() == -1 - 0x1p-51;
}

/* One draw a statement: in which order arguments are worked out is up to the compiler, and the cases are not. */
static void set_case(void) {
    size_t states = 1 + below(MOST_STATES);
    size_t symbols = 1 + below(MOST_SYMBOLS);
    set_model(states, symbols, (enum kind)below(KINDS));
    length = 1 + below(MOST_SAMPLES);
    for (size_t t = 0; t < length; t++) samples[t] = (uint16_t)below(symbols);
}

/* What was met; of the answers that are equal, how many are minus infinity. */
static struct {
    size_t models, cells, answers_under, cells_under, equal, impossible;
    double least, greatest;
} met = { .least = __builtin_inf() };

/* How far the likelihood is above the best path: 0 where both are minus infinity. */
static double gap(void) {
    return likelihood == best ? 0 : likelihood - best;
}

static void compare(void) {
    size_t needed = shape.states * length;
    for (size_t i = 0; i < needed; i++) met.cells_under += !(cells[i] >= best_cells[i]);
    met.models++, met.cells += needed;
    met.answers_under += !(likelihood >= best);
    met.equal += likelihood == best;
    met.impossible += likelihood == MINUS_INFINITY;
    if (gap() < met.least) met.least = gap();
    if (gap() > met.greatest) met.greatest = gap();
}

/* Whether answers were met that are above, equal, and equal at minus infinity. */
static int is_all_met(void) {
    return met.greatest > 0 && met.equal > met.impossible && met.impossible;
}

int main(void) {
    set_model_a();
    decode();
    int is_right = is_model_a_right();
    if (WRONG == LOWERED_CELL) cells[1] -= 0x1p-52;
    compare();
    for (size_t i = 0; i < MODELS; i++) {
        set_case();
        decode();
        compare();
    }
    printf("model A is %s; %zu models, %zu cells; answers under: %zu, cells under: %zu; ", is_right ? "right" : "wrong", met.models,
           met.cells, met.answers_under, met.cells_under);
    printf("answers equal: %zu, %zu of them minus infinity; gaps from %g to %g\n", met.equal, met.impossible, met.least, met.greatest);
    return !is_right || met.answers_under || met.cells_under || !is_all_met();
}
