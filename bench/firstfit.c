// A block, with its size a multiple of 8 and its lowest bit set where it is held, in a tag at either end:
//
//     +0     tag
//     +4     payload
//     -4     tag
//
// The first block, a held one of 8 bytes, and the held tag of size 0 at the end spare every walk a test for the edges.
#include "firstfit.h"
#include <string.h>

enum { FIRST = 4, TAGS = 8, LEAST = 16 };

static inline uint32_t tag(const uint8_t *heap, uint32_t at) {
    uint32_t v;
    memcpy(&v, heap + at, 4);
    return v;
}

static inline void put(uint8_t *heap, uint32_t at, uint32_t v) { memcpy(heap + at, &v, 4); }

static inline uint32_t size_of(uint32_t t) { return t & ~7u; }

static inline uint32_t held(uint32_t t) { return t & 1; }

static inline void put_block(uint8_t *heap, uint32_t q, uint32_t size, uint32_t is_held) {
    put(heap, q, size | is_held);
    put(heap, q + size - 4, size | is_held);
}

void firstfit_lay_out(uint8_t *heap, size_t n) {
    put(heap, 0, 0);
    put_block(heap, FIRST, TAGS, 1);
    put_block(heap, FIRST + TAGS, n - FIRST - TAGS - 4, 0);
    put(heap, n - 4, 1);
}

uint32_t firstfit_take(uint8_t *heap, uint32_t size) {
    uint32_t b = (size + TAGS + 7) / 8 * 8, q = FIRST, t;
    if (b < LEAST)
        b = LEAST;
    while (held(t = tag(heap, q)) || size_of(t) < b) {
        if (size_of(t) == 0)
            return 0;
        q += size_of(t);
    }
    uint32_t z = size_of(t);
    if (z - b < LEAST) {
        put_block(heap, q, z, 1);
    } else {
        put_block(heap, q, b, 1);
        put_block(heap, q + b, z - b, 0);
    }
    return q + 4;
}

void firstfit_give_back(uint8_t *heap, uint32_t offset) {
    uint32_t q = offset - 4, z = size_of(tag(heap, q)), below = tag(heap, q - 4), above = tag(heap, q + z);
    if (!held(above))
        z += size_of(above);
    if (!held(below)) {
        q -= size_of(below);
        z += size_of(below);
    }
    put_block(heap, q, z, 0);
}

int firstfit_ok(const uint8_t *heap, size_t n) {
    uint32_t before = 1, q = FIRST;
    while (q + 4 < n) {
        uint32_t t = tag(heap, q), z = size_of(t);
        if (z < TAGS || z > n - 4 - q || tag(heap, q + z - 4) != t || !(held(t) || held(before)))
            return 0;
        before = t;
        q += z;
    }
    return q + 4 == n && tag(heap, q) == 1;
}
