// The stack that each public call of the proved library uses: it runs on a painted stack of its own, on every shape (a call of the
// bank on every console), and the paint that is gone afterwards is counted. What an empty call uses there is taken off.
#include "measure.h"
#include <stdio.h>
#include <string.h>
#include <ucontext.h>

enum { DEPTH = 65536, PAINT = 0xA5, FALSE_LEVEL = 108, CALLS = 9, OF_BANK = 3 };
static uint8_t ground[DEPTH] __attribute__((aligned(16))), pool[LARGEST], image[LARGEST];
static ucontext_t here, there;
static uint32_t argument, counts[53];
static struct pistons met;
static const uint8_t *body;
static size_t length;
static uint8_t kind;

static void empty(void) {}
static void lay_out(void) { pool_lay_out(pool, LARGEST, 2); }
static void convert(void) { pool_convert(pool, LARGEST, pool[FALSE_LEVEL] == 1 ? POOL_LAYOUT_1 : POOL_LAYOUT_2); }
static void bring_in(void) { pool_bring_in(pool, LARGEST); }
static void inspect(void) { pool_inspect(pool, LARGEST); }
static void take(void) { pool_take(pool, LARGEST, argument); }
static void give_back(void) { pool_give_back(pool, LARGEST, argument); }
static void ask(void) { pool_ask(pool, LARGEST, argument); }
static void figures(void) { pool_figures(pool, LARGEST, counts, 7); }
static void class_count(void) { pool_class_count(pool, LARGEST, counts, 53); }

static void set(void) { bank_set(met.pool, met.n, met.bank, met.piston, kind, body, length); }
static void clear(void) { bank_clear(met.pool, met.n, met.bank, met.piston); }
static void recall(void) { bank_recall(met.pool, met.n, met.bank, met.piston); }

struct called {
    const char *name;
    void (*call)(void);
};
static const struct called calls[CALLS] = {
    {"pool_lay_out", lay_out}, {"pool_convert", convert}, {"pool_bring_in", bring_in}, {"pool_inspect", inspect}, {"pool_take", take},
    {"pool_give_back", give_back}, {"pool_ask", ask}, {"pool_figures", figures}, {"pool_class_count", class_count},
};
static const struct called of_bank[OF_BANK] = {{"bank_set", set}, {"bank_clear", clear}, {"bank_recall", recall}};

static size_t depth_of(void (*call)(void)) {
    size_t untouched = 0;
    memset(ground, PAINT, sizeof ground);
    getcontext(&there);
    there.uc_stack.ss_sp = ground;
    there.uc_stack.ss_size = sizeof ground;
    there.uc_link = &here;
    makecontext(&there, call, 0);
    swapcontext(&here, &there);
    while (untouched < sizeof ground && ground[untouched] == PAINT)
        untouched++;
    return sizeof ground - untouched;
}

static size_t greater(size_t a, size_t b) { return a > b ? a : b; }

static size_t deepest(void (*call)(void)) {
    size_t most = 0;
    for (int o = 0; o < OPERATIONS; o++) {
        shapes[operations[o].shape].build(image, LARGEST);
        argument = operations[o].argument(image, LARGEST);
        memcpy(pool, image, LARGEST);
        most = greater(most, depth_of(call));
    }
    // pools that send blocks home, and for bringing in what they were by the old rule
    for (int h = 0; h < HOMES; h++) {
        homes[h].build(pool);
        argument = edge_of(pool) + 4;
        if (call == bring_in)
            stay_at_edge(pool);
        most = greater(most, depth_of(call));
    }
    return most;
}

static size_t deepest_of_bank(void (*call)(void)) {
    size_t most = 0;
    for (int c = 0; c < CONSOLES; c++)
        for (int b = 0; b < BANK_CALLS; b++) {
            set_pistons(&met, &consoles[c], &bank_calls[b]);
            kind = kind_of(met.piston), body = body_of(met.piston), length = length_of(met.piston);
            most = greater(most, depth_of(call));
        }
    return most;
}

void stack(void) {
    size_t base = depth_of(empty);
    for (int c = 0; c < CALLS; c++)
        printf("stack | %s | %zu\n", calls[c].name, deepest(calls[c].call) - base);
    for (int c = 0; c < OF_BANK; c++)
        printf("stack | %s | %zu\n", of_bank[c].name, deepest_of_bank(of_bank[c].call) - base);
}
