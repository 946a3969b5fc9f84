/* A random model, with room for the largest, for a program that makes calls on many. */
#ifndef MODELS_H
#define MODELS_H

#include <string.h>
#include "wasnugram.h"
#include "random.h"

#define MINUS_INFINITY (-__builtin_inf())

enum { STATES = WASNUGRAM_MOST_STATES, SYMBOLS = WASNUGRAM_MOST_SYMBOLS };

/* What the entries of a model are. */
enum kind {
    WHOLE,    /* small whole numbers, zeros of both signs and minus infinity: ties are common, and no sum is rounded */
    MODERATE, /* numbers from -8 to 0, and minus infinity */
    ANY,      /* any good bits */
    TINY,     /* -1, and numbers that a sum with -1 rounds or loses, zeros of both signs among them */
    KINDS
};

static wasnugram_shape shape;
static double transition[STATES * STATES], emission[STATES * SYMBOLS], initial[STATES], end[STATES];

static double number(enum kind kind) {
    static const double whole[] = { 0, -0.0, -1, -1, -2, -3, MINUS_INFINITY, -1 };
    static const double tiny[] = { 0, -0.0, -1, -1, -0x1p-52, -0x1p-53, -0x1p-54, -0x1p-1074 };
    if (kind == WHOLE) return whole[below(8)];
    if (kind == MODERATE) return below(16) ? -(double)(random_bits() >> 12) * 0x1p-49 : MINUS_INFINITY;
    if (kind == TINY) return tiny[below(8)];
    uint64_t word = good_bits();
    double x;
    memcpy(&x, &word, sizeof x);
    return x;
}

static void fill(double *table, size_t entries, enum kind kind) {
    for (size_t i = 0; i < entries; i++) table[i] = number(kind);
}

/* A model of this many states and symbols, of entries of this kind; half of them with an end state. */
static void set_model(size_t states, size_t symbols, enum kind kind) {
    shape = (wasnugram_shape){ states, symbols, (uint8_t)(below(2) ? 1 + below(255) : 0) };
    fill(transition, states * states, kind);
    fill(emission, states * symbols, kind);
    fill(initial, states, kind);
    memset(end, 0, sizeof end);
    if (shape.ends) fill(end, states, kind);
}

#endif
