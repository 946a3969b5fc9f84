/* A million files of random bytes, from nothing right to all right, through the reader of model files. Whatever it answers must be allowed
 * for that kind of file, and each answer that is allowed must be met. A file that is read is written again, to the same bytes; one that is
 * refused leaves every table as it was. After each file one bit is flipped, and the comparison has to see it.
 *
 * The archive has no instruments of its own, so every buffer has exactly its length and touches a page that may not be touched, at its end
 * or at its beginning: an access outside of it ends the program. That those pages do so is tried first, and now and then beside a file. */
#define _DEFAULT_SOURCE 1
#include <setjmp.h>
#include <signal.h>
#include <stdio.h>
#include <stdlib.h>
#include <string.h>
#include <sys/mman.h>
#include "wasnugram.h"
#include "layout.h"
#include "random.h"

enum { FILES = 1000000, PAGE = 4096, SURPLUS = 64, AREA = 41 * PAGE, TABLES = 4, REFUSALS = 15 };
enum kind {
    RANDOM_BYTES, RIGHT_HEAD, RIGHT_CONTENTS, RIGHT_SUMS, GOOD_MODEL, ONE_FLIP, TWO_FLIPS, OVERWRITTEN, CUT_SHORT, BYTES_ADDED, KINDS
};

#define ANSWER(refusal) (1u << (refusal))
#define FIRST_NUMBERS (ANSWER(WASNUGRAM_BAD_STATES) | ANSWER(WASNUGRAM_BAD_SYMBOLS) | ANSWER(WASNUGRAM_BAD_LAYOUT))
#define GOOD_FILE (ANSWER(WASNUGRAM_DONE) | ANSWER(WASNUGRAM_OUTPUT_TOO_SHORT))

/* The answers that each kind of file has to meet, and no others. */
static const struct {
    const char *name;
    unsigned answers;
} KIND[KINDS] = {
    [RANDOM_BYTES] = { "random bytes", FIRST_NUMBERS },
    [RIGHT_HEAD] = { "random bytes after the first four numbers", ANSWER(WASNUGRAM_BAD_LAYOUT) },
    [RIGHT_CONTENTS] = { "random bodies, and a random sum", ANSWER(WASNUGRAM_BAD_SUM) },
    [RIGHT_SUMS] = { "random bodies with their sums", GOOD_FILE | ANSWER(WASNUGRAM_NOT_GOOD) },
    [GOOD_MODEL] = { "good models", GOOD_FILE },
    [ONE_FLIP] = { "one bit flipped", FIRST_NUMBERS | ANSWER(WASNUGRAM_BAD_SUM) },
    [TWO_FLIPS] = { "one bit flipped in two words", GOOD_FILE | ANSWER(WASNUGRAM_NOT_GOOD) | ANSWER(WASNUGRAM_BAD_SUM) },
    [OVERWRITTEN] = { "a run of bytes overwritten", FIRST_NUMBERS | GOOD_FILE | ANSWER(WASNUGRAM_BAD_SUM) },
    [CUT_SHORT] = { "cut short", ANSWER(WASNUGRAM_BAD_LAYOUT) },
    [BYTES_ADDED] = { "bytes added", ANSWER(WASNUGRAM_BAD_LAYOUT) },
};

/* The file of a case, and the shape of the model that it was made from. */
static uint8_t file[WASNUGRAM_MODEL_FILE(WASNUGRAM_MOST_STATES, WASNUGRAM_MOST_SYMBOLS, 1) + SURPLUS];
static size_t file_length;
static wasnugram_shape shape;

/* Where the file and the tables are lent and the file is written again: AREA bytes between two pages that may not be touched. */
static uint8_t *file_area, *written_area, *table_area[TABLES];
static double *tables[TABLES];
static size_t table_length[TABLES];

static uint8_t *area(void) {
    uint8_t *start = mmap(NULL, AREA + 2 * PAGE, PROT_NONE, MAP_PRIVATE | MAP_ANONYMOUS, -1, 0);
    if (start == MAP_FAILED || mprotect(start + PAGE, AREA, PROT_READ | PROT_WRITE)) exit(2);
    return start + PAGE;
}

/* So many bytes at the end of an area, or at its beginning. */
static void *within(uint8_t *start, size_t bytes) {
    return start + (below(2) ? AREA - bytes : 0);
}

static sigjmp_buf trapped;

static void trap(int number) {
    (void)number;
    siglongjmp(trapped, 1);
}

/* Whether it traps to read this byte, or to write it. */
static int traps(volatile uint8_t *byte, int is_written) {
    struct sigaction ours = { .sa_handler = trap, .sa_flags = SA_NODEFER }, before;
    volatile int so = 1;
    sigaction(SIGSEGV, &ours, &before);
    if (sigsetjmp(trapped, 1) == 0) {
        if (is_written) *byte = 0;
        else (void)*byte;
        so = 0;
    }
    sigaction(SIGSEGV, &before, NULL);
    return so;
}

/* Whether an area can be touched from its first byte to its last, and no further. */
static int is_guarded(uint8_t *start) {
    int within_traps = traps(start, 0) || traps(start, 1) || traps(start + AREA - 1, 0) || traps(start + AREA - 1, 1);
    return !within_traps && traps(start - 1, 0) && traps(start - 1, 1) && traps(start + AREA, 0) && traps(start + AREA, 1);
}

static int make_areas(void) {
    int so = 1;
    file_area = area(), written_area = area();
    for (size_t i = 0; i < TABLES; i++) {
        table_area[i] = area();
        so &= is_guarded(table_area[i]);
    }
    return so && is_guarded(file_area) && is_guarded(written_area);
}

static void fill(size_t from, size_t to) {
    for (size_t i = from; i < to; i++) file[i] = (uint8_t)random_bits();
}

/* Sets every word of a body, and the sum with it. */
static void fill_body(size_t table, int is_good) {
    for (size_t i = 0; i < words_in(shape, table); i++) set_entry(file, shape, table, i, is_good ? good_bits() : random_bits());
}

/* A small shape; a large one now and then. */
static void choose_shape(void) {
    int is_large = below(2000) == 0;
    shape.states = 1 + below(is_large ? WASNUGRAM_MOST_STATES : 4);
    shape.symbols = 1 + below(is_large ? WASNUGRAM_MOST_SYMBOLS : 5);
    shape.ends = (uint8_t)below(2);
    file_length = wasnugram_model_file_length(shape);
}

/* The file of a model of zeros, as the writer makes it. */
static void write_zeros(void) {
    static const double zeros[WASNUGRAM_MODEL_EMISSION(WASNUGRAM_MOST_STATES, WASNUGRAM_MOST_SYMBOLS)];
    wasnugram_model model = { shape, zeros, zeros, zeros, zeros };
    if (wasnugram_write_model_of(&model, file, file_length).refusal != WASNUGRAM_DONE) exit(2);
}

static void flip(size_t byte, size_t bit) {
    file[byte] ^= (uint8_t)(1u << bit);
}

/* Flips one bit in two words of one body, or twice in one word. */
static void flip_two(void) {
    size_t table = below(tables_in(shape)), words = words_in(shape, table), bit = below(64);
    flip(body_offset(shape, table) + 8 * below(words) + bit / 8, bit % 8);
    flip(body_offset(shape, table) + 8 * below(words) + bit / 8, bit % 8);
}

/* Overwrites up to 16 bytes as an erased, a cleared or a dying flash would. */
static void overwrite(void) {
    size_t from = below(file_length), to = from + 1 + below(16), how = below(3);
    if (to > file_length) to = file_length;
    if (how == 2) fill(from, to);
    else memset(file + from, how ? 0xff : 0, to - from);
}

/* Damages the file of a good model. */
static void damage(enum kind kind) {
    size_t length = file_length;
    switch (kind) {
    case RANDOM_BYTES: file_length = below(300); fill(0, file_length); break;
    case RIGHT_HEAD: file_length = 8 + below(300); fill(8, file_length); break;
    case RIGHT_CONTENTS: set_word(file + sum_offset(below(tables_in(shape))), random_bits()); break;
    case ONE_FLIP: flip(below(length), below(8)); break;
    case TWO_FLIPS: flip_two(); break;
    case OVERWRITTEN: overwrite(); break;
    case CUT_SHORT: file_length = below(length); break;
    case BYTES_ADDED: file_length += 1 + below(SURPLUS); fill(length, file_length); break;
    default: break;
    }
}

static void make_file(enum kind kind) {
    choose_shape();
    write_zeros();
    for (size_t table = 0; table < tables_in(shape); table++) fill_body(table, kind != RIGHT_CONTENTS && kind != RIGHT_SUMS);
    damage(kind);
}

/* Lends tables of exactly the model's lengths, every byte of them 0xa5; one of them is too short now and then. */
static void lend_tables(void) {
    size_t short_table = below(8 * TABLES);
    for (size_t i = 0; i < TABLES; i++) {
        table_length[i] = i == short_table ? below(words_in(shape, i)) : words_in(shape, i);
        tables[i] = within(table_area[i], table_length[i] * sizeof(double));
        memset(tables[i], 0xa5, table_length[i] * sizeof(double));
    }
}

/* Whether every byte of the tables is as it was. */
static int tables_untouched(void) {
    int so = 1;
    for (size_t i = 0; i < TABLES; i++) {
        const uint8_t *bytes = (const uint8_t *)tables[i];
        size_t size = table_length[i] * sizeof(double);
        so &= size == 0 || (bytes[0] == 0xa5 && memcmp(bytes, bytes + 1, size - 1) == 0);
    }
    return so;
}

#define LENT(i) tables[i], table_length[i]
#define ALL_TABLES LENT(0), LENT(1), LENT(2), LENT(3)

/* Whether a model that was read has the file's shape, and is written to the same bytes. */
static int is_written_again(wasnugram_reading r) {
    uint8_t *written = within(written_area, file_length);
    int is_of_file = r.shape.states == shape.states && r.shape.symbols == shape.symbols && r.shape.ends == shape.ends;
    memset(written, 0xa5, file_length);
    wasnugram_answer a = wasnugram_write_model(r.shape, ALL_TABLES, written, file_length);
    return is_of_file && a.refusal == WASNUGRAM_DONE && memcmp(written, file, file_length) == 0;
}

static int is_refused(wasnugram_reading r) {
    return r.answer.value == -__builtin_inf() && r.shape.states == 0 && r.shape.symbols == 0 && r.shape.ends == 0 && tables_untouched();
}

static int is_as_it_should(wasnugram_reading r) {
    return r.answer.refusal == WASNUGRAM_DONE ? is_written_again(r) : is_refused(r);
}

/* Flips a bit of the file where it was read, of a table where it was refused: whether that is seen. */
static int sees_a_flip(wasnugram_reading r) {
    size_t table = below(TABLES), size = table_length[table] * sizeof(double);
    if (r.answer.refusal == WASNUGRAM_DONE) flip(below(file_length), below(8));
    else if (size) ((uint8_t *)tables[table])[below(size)] ^= (uint8_t)(1u << below(8));
    else return 1;
    return !is_as_it_should(r);
}

/* How many readings are wrong, how many flips were not seen, and how many files were found to trap before their first byte and after
 * their last. */
static size_t wrong, unseen, trap_before, trap_after;
/* How often each kind of file was given each answer. */
static size_t met[KINDS][REFUSALS];

/* Makes a file and reads it. */
static void try_file(enum kind kind) {
    make_file(kind);
    lend_tables();
    uint8_t *lent = within(file_area, file_length);
    memcpy(lent, file, file_length);
    wasnugram_reading r = wasnugram_read_model(lent, file_length, ALL_TABLES);
    if (r.answer.refusal >= REFUSALS) exit(1);
    met[kind][r.answer.refusal]++;
    wrong += memcmp(lent, file, file_length) != 0 || !is_as_it_should(r);
    if (below(1000) == 0) trap_before += traps(lent - 1, 0), trap_after += traps(lent + file_length, 0);
    unseen += !sees_a_flip(r);
}

/* A line for each kind of file: each answer that was met, 0 for done, and how often. How many were met and should not, or not met. */
static int print(void) {
    int unexpected = 0;
    for (size_t i = 0; i < KINDS * REFUSALS; i++) {
        size_t kind = i / REFUSALS, refusal = i % REFUSALS;
        if (refusal == 0) printf("%s%s:", kind ? "\n" : "", KIND[kind].name);
        if (met[kind][refusal]) printf(" %zu (%zu times)", refusal, met[kind][refusal]);
        unexpected += (KIND[kind].answers >> refusal & 1) != (met[kind][refusal] != 0);
    }
    printf("\n");
    return unexpected;
}

int main(void) {
    if (!make_areas()) {
        printf("an access outside of a buffer does not trap\n");
        return 1;
    }
    for (size_t i = 0; i < FILES; i++) try_file((enum kind)below(KINDS));
    int unexpected = print();
    printf("%d files: the reader did as it should not in %zu, a flip was not seen in %zu\n", FILES, wrong, unseen);
    printf("of some that were tried %zu trap before the first byte, %zu after the last\n", trap_before, trap_after);
    if (unexpected) printf("%d answers were met that should not be, or not met\n", unexpected);
    return wrong || unseen || unexpected || !trap_before || !trap_after;
}
