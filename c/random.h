/* Random bits from a fixed seed (Marsaglia's xorshift), so that every run is the same. */
#ifndef RANDOM_H
#define RANDOM_H

#include <stddef.h>
#include <stdint.h>

static uint64_t random_state = 20240101;

static inline uint64_t random_bits(void) {
    random_state ^= random_state << 13;
    random_state ^= random_state >> 7;
    random_state ^= random_state << 17;
    return random_state;
}

static inline size_t below(size_t n) {
    return (size_t)((random_bits() >> 11) % n);
}

/* A number's bits at most 0 and not NaN: minus infinity now and then. */
static inline uint64_t good_bits(void) {
    uint64_t bits = random_bits() | UINT64_C(1) << 63, infinity = UINT64_C(0xfff0000000000000);
    if (below(16) == 0) return infinity;
    return (bits & infinity) == infinity ? bits ^ UINT64_C(1) << 52 : bits;
}

#endif
