// Pools are built by the plain pool's own calls, so that both libraries meet the same bytes.
#include "shapes.h"
#include "plain.h"
#include <stdlib.h>

enum { ROOM = 16384 };
static uint32_t offsets[ROOM];

static uint32_t state;

void seed(uint32_t from) { state = from; }

uint32_t random_below(uint32_t bound) {
    state = state * 1664525 + 1013904223;
    return (uint32_t)((uint64_t)(state >> 8) * bound >> 24);
}

static int take(uint8_t *pool, size_t n, uint32_t size, uint32_t *offset) {
    uint64_t answer = plain_take_unchecked(pool, n, size);
    *offset = (uint32_t)answer;
    return answer >> 32 == 0;
}

static void give_back(uint8_t *pool, size_t n, uint32_t offset) {
    if (plain_give_back_unchecked(pool, n, offset) >> 32)
        abort();
}

void shuffle(uint32_t *list, uint32_t count) {
    for (uint32_t i = count; i > 1; i--) {
        uint32_t j = random_below(i), kept = list[j];
        list[j] = list[i - 1];
        list[i - 1] = kept;
    }
}

// A record of an organ console: mostly a piston's tabs (a bit or a byte each) and short names, some crescendo tables
// and sequences.
static uint32_t record_size(void) {
    uint32_t kind = random_below(10);
    if (kind < 4)
        return 8 + random_below(17);
    if (kind < 7)
        return 32 + random_below(29);
    if (kind < 9)
        return 72 + random_below(57);
    return 160 + random_below(241);
}

// ---- the shapes

static void fresh(uint8_t *pool, size_t n) { plain_lay_out(pool, n, 1); }

static void full(uint8_t *pool, size_t n) {
    uint32_t offset;
    plain_lay_out(pool, n, 1);
    while (take(pool, n, 4, &offset))
        continue;
}

// Small blocks of all eight sizes, three of four given back in no order; those at E go home.
static void free_small(uint8_t *pool, size_t n) {
    uint32_t count = 0;
    seed(3);
    plain_lay_out(pool, n, 1);
    while (take(pool, n, 4 + 8 * random_below(8), &offsets[count]))
        count++;
    shuffle(offsets, count);
    for (uint32_t i = 0; i < count / 4 * 3; i++)
        give_back(pool, n, offsets[i]);
}

// A free large block of each size from 72 on, as many as there is room for, each above a held one of 72 bytes.
static void bins_in(uint8_t *pool, size_t n, uint32_t layout) {
    uint32_t count = 0, guard;
    seed(4);
    plain_lay_out(pool, n, layout);
    while (take(pool, n, 68, &guard) && take(pool, n, 68 + 8 * count, &offsets[count]))
        count++;
    take(pool, n, 68, &guard);
    shuffle(offsets, count);
    for (uint32_t i = 0; i < count; i++)
        give_back(pool, n, offsets[i]);
}

static void many_bins(uint8_t *pool, size_t n) { bins_in(pool, n, 1); }
static void many_bins_2(uint8_t *pool, size_t n) { bins_in(pool, n, 2); }

// 168 bytes, the free blocks and the held one below each, one held at the top, and a remainder of 8.
void build_bins(uint8_t *pool, size_t *n, uint32_t bins, uint32_t layout) {
    uint32_t figures[7];
    *n = 168 + 72 + 8;
    for (uint32_t i = 0; i < bins; i++)
        *n += 72 + 72 + 8 * i;
    bins_in(pool, *n, layout);
    if (plain_figures(pool, *n, figures, 7) >> 32 || figures[3] != bins || figures[4] != 8)
        abort();
}

// Records come and go until three quarters of the pool were once used.
static void console(uint8_t *pool, size_t n) {
    uint32_t count = 0, figures[7];
    seed(5);
    plain_lay_out(pool, n, 1);
    do {
        if (count > 2 && random_below(5) < 2) {
            uint32_t i = random_below(count);
            give_back(pool, n, offsets[i]);
            offsets[i] = offsets[--count];
        } else if (take(pool, n, record_size(), &offsets[count])) {
            count++;
        }
        plain_figures(pool, n, figures, 7);
    } while (figures[4] > n / 4);
}

const struct shape shapes[SHAPES] = {
    {"fresh", fresh},
    {"full of 8-byte blocks", full},
    {"many free small blocks", free_small},
    {"many free large bins", many_bins},
    {"mixed console", console},
    {"many free large bins, layout 2", many_bins_2},
};

// ---- the operations

static uint32_t word(const uint8_t *pool, uint32_t at) {
    return pool[at] | pool[at + 1] << 8 | pool[at + 2] << 16 | (uint32_t)pool[at + 3] << 24;
}

// The held block nearest to the middle of the run from `from` to `to`.
static uint32_t middle(const uint8_t *pool, uint32_t from, uint32_t to) {
    uint32_t at = from, found = 0;
    while (at < to && (at < (from + to) / 2 || found == 0)) {
        if (word(pool, at) & 1)
            found = at;
        at += word(pool, at) / 4;
    }
    return found + 4;
}

static uint32_t size_12(uint8_t *pool, size_t n) { return (void)pool, (void)n, 12; }
static uint32_t size_100(uint8_t *pool, size_t n) { return (void)pool, (void)n, 100; }
static uint32_t size_200(uint8_t *pool, size_t n) { return (void)pool, (void)n, 200; }
static uint32_t size_480(uint8_t *pool, size_t n) { return (void)pool, (void)n, 480 - 4; }

// Between the bins of 472 and 488 bytes: that of 480 is used up first, so a larger block is split.
static uint32_t size_480_again(uint8_t *pool, size_t n) {
    uint32_t offset;
    if (!take(pool, n, 480 - 4, &offset))
        abort();
    return 480 - 4;
}

static uint32_t middle_small(uint8_t *pool, size_t n) { return middle(pool, word(pool, 24), n); }
static uint32_t middle_large(uint8_t *pool, size_t n) { return (void)n, middle(pool, 168, word(pool, 16)); }

const struct operation operations[OPERATIONS] = {
    {"take 12, cut from the remainder", 0, 0, size_12},
    {"take 100, cut from the remainder", 0, 0, size_100},
    {"take 12, refused", 1, 0, size_12},
    {"give back in the middle", 1, 1, middle_small},
    {"take 12, a bin's first", 2, 0, size_12},
    {"take 476, a bin of its size", 3, 0, size_480},
    {"take 476, a larger block split", 3, 0, size_480_again},
    {"give back, joined below and above", 3, 1, middle_large},
    {"take 12", 4, 0, size_12},
    {"take 200", 4, 0, size_200},
    {"give back a small record", 4, 1, middle_small},
    {"give back a large record", 4, 1, middle_large},
    {"take 476, a bin of its size", 5, 0, size_480},
    {"take 476, a larger block split", 5, 0, size_480_again},
    {"give back, joined below and above", 5, 1, middle_large},
};

// ---- requests for every allocator

void make_requests(struct request *requests) {
    uint8_t in_use[RECORDS] = {0};
    seed(6);
    for (uint32_t i = 0; i < REQUESTS; i++) {
        uint32_t record = random_below(RECORDS);
        requests[i] = (struct request){record, in_use[record] ? 0 : record_size()};
        in_use[record] = !in_use[record];
    }
}

const struct call worked_tape[13] = {
    {'L', 1024, 1024}, {'T', 10, 1012}, {'T', 100, 172}, {'T', 61, 276}, {'T', 200, 348}, {'G', 172, 100}, {'T', 32, 972},
    {'T', 72, 556}, {'G', 172, 0}, {'G', 276, 68}, {'T', 100, 172}, {'G', 556, 76}, {'S', 0, 0},
};
