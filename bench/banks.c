// The pistons are set by the proved library's calls, once: each library then gets a copy, so that both meet the same bytes.
#include "banks.h"
#include "../include/bank.h"
#include "plain.h"
#include <stdlib.h>
#include <string.h>

const struct console consoles[CONSOLES] = {
    {"mixed console", 4, LARGEST},
    {"mixed console", 4, 4096},
    {"the bank alone", 0, 2048},
};

uint8_t kind_of(uint32_t piston) { return 1 + piston % 3; }

size_t length_of(uint32_t piston) { return (size_t)4 << kind_of(piston); }

const uint8_t *body_of(uint32_t piston) {
    static uint8_t body[32];
    memset(body, 0x40 + (int)piston, sizeof body);
    return body;
}

// The piston whose record is nearest to the pool's end: it is looked up past all other small blocks, so no piston's calls cost more.
static uint32_t farthest(const uint32_t *bank) {
    uint32_t found = 0;
    for (uint32_t p = 1; p < PISTONS; p++)
        if (bank[p] > bank[found])
            found = p;
    return found;
}

static void as_they_are(struct pistons *p) { (void)p; }

static void one_empty(struct pistons *p) {
    if (bank_clear(p->pool, p->n, p->bank, p->piston) != p->n)
        abort();
}

// All that is free is taken, the largest grant first.
static void no_room(struct pistons *p) {
    uint32_t figures[7];
    while (plain_figures(p->pool, p->n, figures, 7), figures[6] != 0)
        if (plain_take_unchecked(p->pool, p->n, figures[6]) >> 32)
            abort();
}

// In the bank's first number and its last, so that it is found as late as can be.
static void named_twice(struct pistons *p) { p->bank[PISTONS - 1] = p->bank[0]; }

const struct bank_call bank_calls[BANK_CALLS] = {
    {"set a piston again, with the same kind", SET, as_they_are, 0},
    {"clear a piston", CLEAR, as_they_are, 0},
    {"recall a piston", RECALL, as_they_are, 0},
    {"set an empty piston", SET, one_empty, 0},
    {"clear an empty piston", CLEAR, one_empty, 0},
    {"recall an empty piston", RECALL, one_empty, 0},
    {"set, refused with 4: no room", SET, no_room, 4},
    {"set, refused with 12: an offset named twice", SET, named_twice, 12},
};

void set_pistons(struct pistons *p, const struct console *console, const struct bank_call *call) {
    memset(p, 0, sizeof *p);
    p->n = console->n;
    shapes[console->shape].build(p->pool, p->n);
    for (uint32_t i = 0; i < PISTONS; i++)
        if (bank_set(p->pool, p->n, p->bank, i, kind_of(i), body_of(i), length_of(i)) != p->n)
            abort();
    p->piston = farthest(p->bank);
    call->prepare(p);
}
