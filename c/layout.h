/* Where the words of a model file are, as docs/MODEL-FILE.md has them. */
#ifndef LAYOUT_H
#define LAYOUT_H

#include "wasnugram.h"

static inline uint64_t word_at(const uint8_t *bytes) {
    uint64_t word = 0;
    for (size_t i = 8; i-- > 0;) word = word << 8 | bytes[i];
    return word;
}

static inline void set_word(uint8_t *bytes, uint64_t word) {
    for (size_t i = 0; i < 8; i++) bytes[i] = (uint8_t)(word >> 8 * i);
}

/* How many tables the file has. */
static inline size_t tables_in(wasnugram_shape shape) {
    return shape.ends ? 4 : 3;
}

/* How many words the body of a table has. */
static inline size_t words_in(wasnugram_shape shape, size_t table) {
    return shape.states * (table == WASNUGRAM_TRANSITION ? shape.states : table == WASNUGRAM_EMISSION ? shape.symbols : 1);
}

/* Where the sum of a table is. */
static inline size_t sum_offset(size_t table) {
    return 16 + 16 * table;
}

/* Where the body of a table begins. */
static inline size_t body_offset(wasnugram_shape shape, size_t table) {
    size_t offset = 8 + 16 * tables_in(shape);
    for (size_t i = 0; i < table; i++) offset += 8 * words_in(shape, i);
    return offset;
}

/* Sets a word of a body, and the sum with it. */
static inline void set_entry(uint8_t *file, wasnugram_shape shape, size_t table, size_t i, uint64_t word) {
    uint8_t *entry = file + body_offset(shape, table) + 8 * i, *sum = file + sum_offset(table);
    set_word(sum, word_at(sum) + word - word_at(entry));
    set_word(entry, word);
}

#endif
