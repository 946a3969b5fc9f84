/* What the forms that take structs lend: functions of our own stand in for the exports and note the shape and every pointer and length. */
#include <stdio.h>
#include "wasnugram.h"

enum { S = 2, M = 3, T = 4, ROOM = 5, MOST = 11 };

struct slice {
    const void *entries;
    size_t length;
};

static struct slice noted[MOST];
static size_t noted_length, noted_index;
static wasnugram_shape noted_shape;
static const wasnugram_answer ANSWER = { WASNUGRAM_ZERO_MASS, 1, 2, 3 };

static wasnugram_answer note(wasnugram_shape shape, const struct slice *slices, size_t length) {
    noted_shape = shape;
    noted_length = length;
    for (size_t i = 0; i < length; i++) noted[i] = slices[i];
    return ANSWER;
}

#define TABLES                                                                                                               \
    wasnugram_shape shape, const double *transition, size_t transition_length, const double *emission,                       \
        size_t emission_length, const double *initial, size_t initial_length, const double *end, size_t end_length
#define MODEL TABLES, const uint16_t *samples, size_t samples_length
#define TABLE_SLICES { transition, transition_length }, { emission, emission_length }, { initial, initial_length }, { end, end_length }
#define MODEL_SLICES TABLE_SLICES, { samples, samples_length }

wasnugram_answer wasnugram_viterbi(
    MODEL, uint8_t *path, size_t path_length, double *values, size_t values_length, uint8_t *from, size_t from_length) {
    struct slice slices[] = { MODEL_SLICES, { path, path_length }, { values, values_length }, { from, from_length } };
    return note(shape, slices, sizeof slices / sizeof slices[0]);
}

wasnugram_rivalry wasnugram_rival(
    MODEL, size_t index, uint8_t *path, size_t path_length, uint8_t *rival_path, size_t rival_path_length,
    double *values, size_t values_length, uint8_t *from, size_t from_length) {
    struct slice slices[] = { MODEL_SLICES, { path, path_length }, { rival_path, rival_path_length }, { values, values_length },
                              { from, from_length } };
    noted_index = index;
    return (wasnugram_rivalry){ note(shape, slices, sizeof slices / sizeof slices[0]), 4, 5 };
}

wasnugram_answer wasnugram_forward(MODEL, double *values, size_t values_length) {
    struct slice slices[] = { MODEL_SLICES, { values, values_length } };
    return note(shape, slices, sizeof slices / sizeof slices[0]);
}

wasnugram_answer wasnugram_backward(MODEL, double *values, size_t values_length) {
    return wasnugram_forward(shape, transition, transition_length, emission, emission_length, initial, initial_length, end, end_length,
                             samples, samples_length, values, values_length);
}

wasnugram_answer wasnugram_baum_welch(
    MODEL, double *new_transition, size_t new_transition_length, double *new_emission, size_t new_emission_length,
    double *new_initial, size_t new_initial_length, double *new_end, size_t new_end_length,
    double *alpha, size_t alpha_length, double *beta, size_t beta_length) {
    struct slice slices[] = { MODEL_SLICES, { new_transition, new_transition_length }, { new_emission, new_emission_length },
                              { new_initial, new_initial_length }, { new_end, new_end_length },
                              { alpha, alpha_length }, { beta, beta_length } };
    return note(shape, slices, sizeof slices / sizeof slices[0]);
}

wasnugram_answer wasnugram_write_model(TABLES, uint8_t *file, size_t file_length) {
    struct slice slices[] = { TABLE_SLICES, { file, file_length } };
    return note(shape, slices, sizeof slices / sizeof slices[0]);
}

/* What the reader that stands in gives. */
static wasnugram_reading given;

wasnugram_reading wasnugram_read_model(
    const uint8_t *file, size_t file_length, double *transition, size_t transition_length, double *emission, size_t emission_length,
    double *initial, size_t initial_length, double *end, size_t end_length) {
    struct slice slices[] = { TABLE_SLICES, { file, file_length } };
    given.answer = note(given.shape, slices, sizeof slices / sizeof slices[0]);
    given.answer.refusal = given.shape.states ? WASNUGRAM_DONE : ANSWER.refusal;
    return given;
}

/* Only their addresses matter. */
static double table[4], number[6];
static uint8_t byte[3];
static uint16_t samples[T];
static const wasnugram_model model = { { S, M, 1 }, &table[0], &table[1], &table[2], &table[3] };

static int is_slice(struct slice a, const void *entries, size_t length) {
    return a.entries == entries && a.length == length;
}

static int is_shape(wasnugram_shape a, wasnugram_shape b) {
    return a.states == b.states && a.symbols == b.symbols && a.ends == b.ends;
}

/* Whether the answer is handed on, and four tables of a model, or of room for one, and these bytes or samples were lent after them. */
static int lends_tables(wasnugram_answer a, uint8_t refusal, const double *tables, const void *entries, size_t length) {
    static const size_t needed[] = { S * S, S * M, S, S };
    int so = a.refusal == refusal && a.table == ANSWER.table && a.place == ANSWER.place && a.value == ANSWER.value;
    for (size_t i = 0; i < 4; i++) so &= is_slice(noted[i], &tables[i], needed[i]);
    return so && is_slice(noted[4], entries, length);
}

/* Whether the answer is handed on, and the model and these samples and outputs were lent. */
static int lends(wasnugram_answer a, const void *lent_samples, size_t samples_length, const struct slice *outputs, size_t length) {
    int so = lends_tables(a, ANSWER.refusal, table, lent_samples, samples_length) && is_shape(noted_shape, model.shape);
    for (size_t i = 0; i < length; i++) so &= is_slice(noted[5 + i], outputs[i].entries, outputs[i].length);
    return so && noted_length == 5 + length;
}

/* Whether the model, the samples, the outputs and the index are lent to the rival, and all that it gives is handed on. */
static int lends_to_rival(size_t index) {
    const wasnugram_rival_outputs outputs = { ROOM, &byte[0], &byte[1], &number[0], &byte[2] };
    const struct slice slices[] = { { &byte[0], ROOM }, { &byte[1], ROOM }, { &number[0], S * ROOM }, { &byte[2], S * ROOM } };
    wasnugram_rivalry r = wasnugram_rival_of(&model, samples, T, index, &outputs);
    return lends(r.answer, samples, T, slices, 4) && noted_index == index && r.chosen == 4 && r.best == 5;
}

/* Whether the room and the file are lent to the reader, and the model is in the room where that is done and as it was where it is not. */
static int reads(wasnugram_shape shape) {
    const wasnugram_model_room room = { S, M, &number[0], &number[1], &number[2], &number[3] };
    wasnugram_model read = model;
    given.shape = shape;
    wasnugram_answer a = wasnugram_read_model_of(byte, ROOM, &room, &read);
    int is_done = shape.states != 0;
    const double *tables = is_done ? number : table;
    return lends_tables(a, is_done ? WASNUGRAM_DONE : ANSWER.refusal, number, byte, ROOM) && noted_length == 5 &&
           is_shape(read.shape, is_done ? shape : model.shape) && read.transition == &tables[0] && read.emission == &tables[1] &&
           read.initial == &tables[2] && read.end == &tables[3];
}

int main(void) {
    const wasnugram_viterbi_outputs path = { ROOM, &byte[0], &number[0], &byte[1] };
    const wasnugram_likelihood_outputs values = { ROOM, &number[0] };
    const wasnugram_baum_welch_outputs pass = { ROOM, &number[0], &number[1], &number[2], &number[3], &number[4], &number[5] };
    const struct slice none[3] = { { NULL, 0 }, { NULL, 0 }, { NULL, 0 } };
    const struct slice path_slices[] = { { &byte[0], ROOM }, { &number[0], S * ROOM }, { &byte[1], S * ROOM } };
    const struct slice pass_slices[] = { { &number[0], S * S }, { &number[1], S * M }, { &number[2], S }, { &number[3], S },
                                         { &number[4], S * ROOM }, { &number[5], S * ROOM } };
    int so = lends(wasnugram_viterbi_of(&model, samples, T, &path), samples, T, path_slices, 3);
    so &= lends(wasnugram_check_of(&model), NULL, 0, none, 3);
    so &= lends_to_rival(0) && lends_to_rival(T);
    so &= lends(wasnugram_forward_of(&model, samples, T, &values), samples, T, &path_slices[1], 1);
    so &= lends(wasnugram_backward_of(&model, samples, T, &values), samples, T, &path_slices[1], 1);
    so &= lends(wasnugram_baum_welch_of(&model, samples, T, &pass), samples, T, pass_slices, 6);
    so &= lends(wasnugram_write_model_of(&model, byte, ROOM), byte, ROOM, NULL, 0);
    so &= reads((wasnugram_shape){ 1, S, 0 }) && reads((wasnugram_shape){ 0, 0, 0 });
    if (!so) printf("a form that takes structs lends something else\n");
    return !so;
}
