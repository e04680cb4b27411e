// The pools that are measured, the operations on them, and the run of requests that every allocator serves.
#ifndef SHAPES_H
#define SHAPES_H
#include <stddef.h>
#include <stdint.h>

enum { SHAPES = 6, OF_LAYOUT_1 = 5, OPERATIONS = 15, REQUESTS = 4000, RECORDS = 200, LARGEST = 65536 };

struct shape {
    const char *name;
    void (*build)(uint8_t *pool, size_t n);
};
extern const struct shape shapes[SHAPES]; // those of layout 1 come first

// A take or a give-back on a shape. `argument` finds the size or the offset, and may change the pool first.
struct operation {
    const char *name;
    int shape;
    int gives;
    uint32_t (*argument)(uint8_t *pool, size_t n);
};
extern const struct operation operations[OPERATIONS];

// A pool of just so many free large bins, one free block in each, whose remainder is too small to give anything; its length goes to *n. The
// bins' sizes are 72, 80, 88 and so on.
void build_bins(uint8_t *pool, size_t *n, uint32_t bins, uint32_t layout);

// A fixed sequence from a start, the same on every run: a number below a bound, and a list in no order.
void seed(uint32_t from);
uint32_t random_below(uint32_t bound);
void shuffle(uint32_t *list, uint32_t count);

// Request i takes `size` bytes for its record, or gives the record back where the size is 0.
struct request {
    uint32_t record, size;
};
void make_requests(struct request *requests);

// The worked tape's calls: kind L, T, G or S and its number. Laying out is done with either layout.
struct call {
    char kind;
    uint32_t number, value;
};
extern const struct call worked_tape[13];
#endif
