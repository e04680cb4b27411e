// Random requests of the first-fit list: its blocks stay in order, and no two payloads share a byte.
#include "firstfit.h"
#include <stdio.h>
#include <string.h>

enum { N = 4096, RECORDS = 60, STEPS = 100000 };
static uint8_t heap[N];
static struct {
    uint32_t offset, size;
} records[RECORDS];
static uint32_t state = 1;

static uint32_t random_below(uint32_t bound) {
    state = state * 1664525 + 1013904223;
    return (uint32_t)((uint64_t)(state >> 8) * bound >> 24);
}

// Whether every byte of the record is its own still.
static int kept(int i) {
    for (uint32_t k = 0; k < records[i].size; k++)
        if (heap[records[i].offset + k] != i + 1)
            return 0;
    return 1;
}

int main(void) {
    unsigned good = 0, bad = 0, refusals = 0;
    firstfit_lay_out(heap, N);
    for (int step = 0; step < STEPS; step++) {
        int i = random_below(RECORDS), fine = 1;
        if (records[i].offset != 0) {
            fine = kept(i);
            firstfit_give_back(heap, records[i].offset);
            records[i].offset = 0;
        } else {
            records[i].size = 1 + random_below(150);
            records[i].offset = firstfit_take(heap, records[i].size);
            refusals += records[i].offset == 0;
            if (records[i].offset != 0)
                memset(heap + records[i].offset, i + 1, records[i].size);
        }
        fine &= firstfit_ok(heap, N);
        good += fine;
        bad += !fine;
    }
    // a list that never runs full would test little
    if (refusals == 0 || refusals > STEPS / 2)
        bad++;
    printf("%u passed, %u failed\n", good, bad);
    return bad != 0;
}
