/* What docs/MODEL-FILE.md shows, made by the archive, so that what is shown is what is so.
 *
 *   page 1 | page 2    the bytes of the page's first or second model file
 *   page               what the reader says of the first one damaged, a line for each damage
 */
#include <stdio.h>
#include <string.h>
#include "wasnugram.h"

enum { S = 2, M = 2, LENGTH = WASNUGRAM_MODEL_FILE(S, M, 0), ERASED = LENGTH };

static const double TRANSITION[] = { -1, -2, -2, -1 }, EMISSION[] = { -1, -3, -3, -1 }, INITIAL[] = { -1, -2 }, NO_END[] = { 0, 0 };
static const double ONE_TRANSITION[] = { -0.5 }, ONE_EMISSION[] = { -0.0, -__builtin_inf() }, ONE_INITIAL[] = { 0 }, ONE_END[] = { -0.75 };
static const wasnugram_model MODELS[] = {
    { { S, M, 0 }, TRANSITION, EMISSION, INITIAL, NO_END },
    { { 1, 2, 1 }, ONE_TRANSITION, ONE_EMISSION, ONE_INITIAL, ONE_END },
};

/* One byte becomes another, or all of them where the byte is ERASED; or the file has another length. */
static const struct {
    const char *what;
    size_t byte;
    uint8_t becomes;
    size_t length;
} DAMAGES[] = {
    { "byte 0 becomes 00", 0, 0x00, LENGTH },
    { "byte 0 becomes 03", 0, 0x03, LENGTH },
    { "byte 2 becomes 00", 2, 0x00, LENGTH },
    { "byte 4 becomes 01", 4, 0x01, LENGTH },
    { "byte 4 becomes 02", 4, 0x02, LENGTH },
    { "byte 6 becomes 04", 6, 0x04, LENGTH },
    { "byte 12 becomes 39", 12, 0x39, LENGTH },
    { "byte 16 becomes 01", 16, 0x01, LENGTH },
    { "byte 24 becomes 00", 24, 0x00, LENGTH },
    { "byte 88 becomes 01", 88, 0x01, LENGTH },
    { "byte 135 becomes 40", 135, 0x40, LENGTH },
    { "every byte becomes ff", ERASED, 0xff, LENGTH },
    { "every byte becomes 00", ERASED, 0x00, LENGTH },
    { "no byte is left", 0, S, 0 },
    { "7 bytes are left", 0, S, 7 },
    { "100 bytes are left", 0, S, 100 },
    { "a byte is added", 0, S, LENGTH + 1 },
};

/* The bytes of one of the files, and how many they are. */
static size_t written(const wasnugram_model *model, uint8_t *file, size_t room) {
    return wasnugram_write_model_of(model, file, room).refusal == WASNUGRAM_DONE ? wasnugram_model_file_length(model->shape) : 0;
}

static int print_damages(void) {
    double transition[S * S], emission[S * M], initial[S], end[S];
    const wasnugram_model_room room = { S, M, transition, emission, initial, end };
    wasnugram_model model;
    for (size_t i = 0; i < sizeof DAMAGES / sizeof DAMAGES[0]; i++) {
        uint8_t file[LENGTH + 1] = { 0 };
        if (!written(&MODELS[0], file, LENGTH)) return 1;
        if (DAMAGES[i].byte == ERASED) memset(file, DAMAGES[i].becomes, LENGTH);
        else file[DAMAGES[i].byte] = DAMAGES[i].becomes;
        wasnugram_answer a = wasnugram_read_model_of(file, DAMAGES[i].length, &room, &model);
        printf("%-24srefusal %d, table %d, place %zu\n", DAMAGES[i].what, a.refusal, a.table, a.place);
    }
    return 0;
}

int main(int argc, char **argv) {
    uint8_t file[LENGTH];
    if (argc == 1) return print_damages();
    size_t length = written(&MODELS[argv[1][0] == '2'], file, sizeof file);
    return length == 0 || fwrite(file, 1, length, stdout) != length;
}
