// Pools are built by the plain pool's own calls; only a free block at E, which no call leaves there, is written word by word.
#include "homes.h"
#include "plain.h"
#include <stdlib.h>
#include <string.h>

static uint32_t offsets[LARGEST / 8];

static uint32_t word(const uint8_t *pool, uint32_t at) {
    uint32_t v;
    memcpy(&v, pool + at, 4);
    return v;
}

static void put(uint8_t *pool, uint32_t at, uint32_t v) { memcpy(pool + at, &v, 4); }

uint32_t edge_of(const uint8_t *pool) { return word(pool, 24); }

void stay_at_edge(uint8_t *pool) {
    uint32_t at = edge_of(pool), size = word(pool, at) / 4, bin = 24 + size;
    put(pool, at, 4 * size + 2);
    put(pool, at + 4, word(pool, bin));
    put(pool, bin, at);
    put(pool, 0, word(pool, 0) + size);
}

static int take(uint8_t *pool, uint32_t size, uint32_t *offset) {
    uint64_t answer = plain_take_unchecked(pool, LARGEST, size);
    *offset = (uint32_t)answer;
    return answer >> 32 == 0;
}

static void give_back_in_no_order(uint8_t *pool, uint32_t *list, uint32_t count) {
    shuffle(list, count);
    for (uint32_t i = 0; i < count; i++)
        if (plain_give_back_unchecked(pool, LARGEST, list[i]) >> 32)
            abort();
}

// Short messages that were all given back: free blocks of all eight sizes in no order, three of four of 8 bytes, since 4,000 must have room; at E a
// held one of 8 bytes.
static void of_all_sizes(uint8_t *pool) {
    seed(7);
    plain_lay_out(pool, LARGEST, 1);
    for (uint32_t i = 0; i < MANY; i++)
        if (!take(pool, i % 4 == 0 && i > 0 ? 4 + 8 * random_below(8) : 4, &offsets[i]))
            abort();
    give_back_in_no_order(pool, offsets, MANY - 1);
}

// The dearest for so many blocks: the pool is full of 8-byte blocks, free but for the one at E and the one that stops them. What goes home and what stays is
// one list in no order, the longest that there can be, and about a quarter of its links must change.
static void half_of_a_list(uint8_t *pool) {
    uint32_t count = 0;
    seed(8);
    plain_lay_out(pool, LARGEST, 1);
    while (take(pool, 4, &offsets[count]))
        count++;
    // the last taken stands at E: it stays, and so does the one that ends the run
    offsets[count - 1 - MANY] = offsets[count - 2];
    give_back_in_no_order(pool, offsets, count - 2);
}

static void full(uint8_t *pool) { shapes[1].build(pool, LARGEST); }
static void console(uint8_t *pool) { shapes[4].build(pool, LARGEST); }

const struct home homes[HOMES] = {
    {"4,000 blocks of all sizes", of_all_sizes, MANY},
    {"4,000 of 8,168 blocks in one list", half_of_a_list, MANY},
    {"full of 8-byte blocks", full, 1},
    {"mixed console", console, 1},
};
