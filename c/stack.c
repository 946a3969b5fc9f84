/* How many bytes of stack each call of the archive uses, as a table: the high-water mark on a painted stack (Linux on x86-64).
 *
 * A thread runs on memory of its own. Before a call that memory is painted from its bottom up to the stack pointer, with one byte; after
 * the call the lowest byte that has changed is the mark, and the figure is its distance from that stack pointer. So a figure includes the
 * call's return address, its arguments and its answer on the stack and all that it calls, memcpy and memset too. The first row is a
 * function that does nothing: what measuring itself adds. A byte that a call sets to the paint's own value goes unseen, so there are two
 * paints, and the greater mark counts. Room that a call sets aside below its last write and never touches goes unseen too. */
#include <pthread.h>
#include <stdint.h>
#include <stdio.h>
#include <stdlib.h>
#include <sys/mman.h>
#include "wasnugram.h"

enum {
    STACK = 1 << 20,
    STATES = WASNUGRAM_MOST_STATES,
    SYMBOLS = WASNUGRAM_MOST_SYMBOLS,
    SAMPLES = WASNUGRAM_MOST_SAMPLES
};

static wasnugram_shape shape;
static size_t samples_length;
static double transition[STATES * STATES], emission[STATES * SYMBOLS], initial[STATES], end[STATES];
static double new_transition[STATES * STATES], new_emission[STATES * SYMBOLS], new_initial[STATES], new_end[STATES];
static double alpha[SAMPLES * STATES], beta[SAMPLES * STATES];
static uint16_t samples[SAMPLES];
static uint8_t path[SAMPLES], rival_path[SAMPLES], from[SAMPLES * STATES], file[WASNUGRAM_MODEL_FILE(STATES, SYMBOLS, 0)];
static wasnugram_answer answer;

/* Four tables of a model, each with its length; and the model's own with the samples. */
#define TABLES(transition, emission, initial, end)                                                                     \
    transition, WASNUGRAM_MODEL_TRANSITION(shape.states), emission, WASNUGRAM_MODEL_EMISSION(shape.states, SYMBOLS),   \
        initial, WASNUGRAM_MODEL_INITIAL(shape.states), end, WASNUGRAM_MODEL_END(shape.states)
#define MODEL shape, TABLES(transition, emission, initial, end), samples, samples_length

static void nothing(void) {}

static void viterbi(void) {
    size_t cells = shape.states * samples_length;
    answer = wasnugram_viterbi(MODEL, path, samples_length, alpha, cells, from, cells);
}

static void rival(void) {
    size_t cells = shape.states * samples_length, index = samples_length / 2;
    answer = wasnugram_rival(MODEL, index, path, samples_length, rival_path, samples_length, alpha, cells, from, cells).answer;
}

static void forward(void) {
    answer = wasnugram_forward(MODEL, alpha, shape.states * samples_length);
}

static void backward(void) {
    answer = wasnugram_backward(MODEL, beta, shape.states * samples_length);
}

static void baum_welch(void) {
    size_t cells = shape.states * samples_length;
    answer = wasnugram_baum_welch(MODEL, TABLES(new_transition, new_emission, new_initial, new_end), alpha, cells, beta, cells);
}

static void write_model(void) {
    size_t length = WASNUGRAM_MODEL_FILE(shape.states, SYMBOLS, 0);
    answer = wasnugram_write_model(shape, TABLES(transition, emission, initial, end), file, length);
}

static void read_model(void) {
    size_t length = WASNUGRAM_MODEL_FILE(shape.states, SYMBOLS, 0);
    answer = wasnugram_read_model(file, length, TABLES(new_transition, new_emission, new_initial, new_end)).answer;
}

static void model_file_length(void) { answer.place = wasnugram_model_file_length(shape); }

static void exp_kernel(void) { answer = wasnugram_exp(-1.25); }
static void ln_kernel(void) { answer = wasnugram_ln(0.3); }
static void ln_one_minus_exp(void) { answer = wasnugram_ln_one_minus_exp(-1.25); }
static void ln_sum_exp(void) { answer = wasnugram_ln_sum_exp(initial, shape.states); }
static void ln_add_exp(void) { answer = wasnugram_ln_add_exp(-1.25, -2.5); }
static void ln_sub_exp(void) { answer = wasnugram_ln_sub_exp(-1.25, -2.5); }
static void ln_cumsum_exp(void) { answer = wasnugram_ln_cumsum_exp(initial, shape.states, alpha, shape.states); }
static void cap_numerical_overshoot(void) { answer = wasnugram_cap_numerical_overshoot(0x1p-52, 0x1p-52); }

static const struct {
    const char *name;
    void (*call)(void);
} CALLS[] = {
    { "nothing", nothing },
    { "`viterbi`", viterbi },
    { "`rival`", rival },
    { "`forward`", forward },
    { "`backward`", backward },
    { "`baum_welch`", baum_welch },
    { "`write_model`", write_model },
    { "`read_model`", read_model },
    { "`model_file_length`", model_file_length },
    { "`exp`", exp_kernel },
    { "`ln`", ln_kernel },
    { "`ln_one_minus_exp`", ln_one_minus_exp },
    { "`ln_sum_exp`", ln_sum_exp },
    { "`ln_add_exp`", ln_add_exp },
    { "`ln_sub_exp`", ln_sub_exp },
    { "`ln_cumsum_exp`", ln_cumsum_exp },
    { "`cap_numerical_overshoot`", cap_numerical_overshoot },
};

static unsigned char *stack;

struct run {
    void (*call)(void);
    unsigned char paint;
    size_t used;
};

/* Paints what is free of the stack, makes the call and looks for the mark. Nothing else is called in between. */
static void *measured(void *argument) {
    struct run *run = argument;
    volatile unsigned char *pointer, *byte;
    __asm__ volatile("mov %%rsp, %0" : "=r"(pointer));
    for (byte = stack; byte < pointer; byte++) *byte = run->paint;
    run->call();
    for (byte = stack; byte < pointer && *byte == run->paint; byte++) {}
    run->used = (size_t)(pointer - byte);
    return NULL;
}

/* The bytes that a call uses, on a thread whose stack is ours; all of it, where the call is refused. */
static size_t used(void (*call)(void), unsigned char paint) {
    struct run run = { call, paint, 0 };
    pthread_attr_t attributes;
    pthread_t thread;
    answer.refusal = WASNUGRAM_DONE;
    if (pthread_attr_init(&attributes) || pthread_attr_setstack(&attributes, stack, STACK)) exit(2);
    if (pthread_create(&thread, &attributes, measured, &run) || pthread_join(thread, NULL)) exit(2);
    pthread_attr_destroy(&attributes);
    return answer.refusal == WASNUGRAM_DONE ? run.used : STACK;
}

/* The greater mark of a call's two paints. The reader has a file of this shape. */
static size_t mark(void (*call)(void), size_t states, size_t length) {
    shape = (wasnugram_shape){ states, SYMBOLS, 0 };
    samples_length = length;
    write_model();
    size_t first = used(call, 0xa5), second = used(call, 0x5a);
    return first > second ? first : second;
}

/* Entries from -1 to -4 and an end table of +0.0, so that no call is refused. */
static void fill(double *table, size_t length) {
    for (size_t i = 0; i < length; i++) table[i] = -1.0 - (double)(i * 7 % 13) / 4;
}

int main(void) {
    stack = mmap(NULL, STACK, PROT_READ | PROT_WRITE, MAP_PRIVATE | MAP_ANONYMOUS, -1, 0);
    if (stack == MAP_FAILED) return 2;
    fill(transition, STATES * STATES);
    fill(emission, STATES * SYMBOLS);
    fill(initial, STATES);
    for (size_t t = 0; t < SAMPLES; t++) samples[t] = (uint16_t)(t * 31 % SYMBOLS);
    printf("| bytes of stack | 12 states, 240 samples | 64 states, 4,096 samples |\n|---|---|---|\n");
    for (size_t i = 0; i < sizeof CALLS / sizeof CALLS[0]; i++) {
        size_t small = mark(CALLS[i].call, 12, 240), large = mark(CALLS[i].call, STATES, SAMPLES);
        if (small == STACK || large == STACK) return 1;
        printf("| %s | %zu | %zu |\n", CALLS[i].name, small, large);
    }
    return 0;
}
