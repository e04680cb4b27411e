/* Cuts changes off at every store, as a reset would, and looks at what stands there then: with copies.h it is always the old or the
   new records, in pool and bank; one pool alone is often refused. The processor's trap flag stops the program after every instruction;
   where the memory has changed since the one before, that is a place to cut. The last line is `N passed, M failed`. */
#define _POSIX_C_SOURCE 200809L
#include <signal.h>
#include <stdio.h>
#include <string.h>

#include "../../bench/trap.h"
#include "copies.h"

static struct copies memory, seen;          /* the memory that keeps its bytes, and what stood there after the last instruction */
static struct copy before, after;
static unsigned cuts, old_ones, new_ones, wrong, lone_cuts, lone_refused;
static int updated; /* from version 0.5: the console brings in before it believes */
static unsigned update_cuts, latest_ones;

static int same(const struct copy *a, const struct copy *b) {
    return !memcmp(a->bank, b->bank, sizeof a->bank) && !memcmp(a->pool, b->pool, sizeof a->pool);
}

/* What a console does after a reset: on a copy of the memory, since the change goes on here. */
static void after_a_reset(void) {
    static struct copies found;
    static unsigned char scratch[POOL_BYTES];
    struct copy *copy;
    memcpy(&found, &memory, sizeof found);
    if (updated) bring_in_last(&found, scratch);
    copy = believed(&found);
    if (updated) {
        update_cuts++;
        if (copy && same(copy, &after)) latest_ones++;
        return;
    }
    cuts++;
    if (copy && same(copy, &before)) old_ones++;
    else if (copy && same(copy, &after)) new_ones++;
    else wrong++;
}

static struct copy lone, lone_seen;

/* Some emulators enter a handler with a stack that is not aligned as a call's is, and a library may rely on that. */
__attribute__((force_align_arg_pointer)) static void one_step(int number) {
    (void)number;
    if (memcmp(&seen, &memory, sizeof seen)) {
        memcpy(&seen, &memory, sizeof seen);
        after_a_reset();
    }
    if (!same(&lone_seen, &lone)) {
        memcpy(&lone_seen, &lone, sizeof lone);
        lone_cuts++;
        if (pool_refusal(pool_inspect(lone.pool, sizeof lone.pool))) lone_refused++;
    }
}

/* Each change: takes a block of so many bytes and fills it; gives back what the change of that number took; sets that piston to a record of
   that kind; clears it; or moves the pool to the layout that it has not. */
enum what { TAKE, GIVE, SET, CLEAR, MOVE };
static const struct change { enum what what; uint32_t number; uint8_t kind; } changes[] = {
    {TAKE, 100, 0}, {TAKE, 10, 0}, {TAKE, 72, 0}, {TAKE, 200, 0}, {TAKE, 10, 0}, {GIVE, 0, 0},  {GIVE, 2, 0}, {TAKE, 60, 0},
    {GIVE, 3, 0},   {TAKE, 90, 0}, {GIVE, 9, 0},  {GIVE, 1, 0},   {GIVE, 4, 0},  {TAKE, 300, 0}, {SET, 3, 1},  {SET, 5, 3},
    {SET, 3, 2},    {SET, 5, 3},   {SET, 0, 1},   {CLEAR, 3, 0},  {SET, 5, 2},   {CLEAR, 5, 0}, {GIVE, 13, 0},
    /* three bins, which reach 2, 3 and 5 levels of the index */
    {TAKE, 76, 0},  {TAKE, 68, 0}, {TAKE, 92, 0}, {TAKE, 68, 0},  {TAKE, 124, 0}, {TAKE, 68, 0}, {GIVE, 23, 0}, {GIVE, 25, 0}, {GIVE, 27, 0},
    {MOVE, 0, 0},   {SET, 7, 3},   {TAKE, 92, 0}, {MOVE, 0, 0},
};
enum { CHANGES = sizeof changes / sizeof changes[0], LEVEL_WORD = 108 /* tells the layout */ };
static uint32_t offsets[CHANGES];

static void make(struct copy *copy, int i) {
    static const size_t BODY[] = {0, 8, 16, 32}; /* by the kind */
    const struct change *c = &changes[i];
    unsigned char tabs[32];
    uint64_t r;
    memset(tabs, 'a' + i, sizeof tabs);
    switch (c->what) {
    case TAKE: r = pool_take(copy->pool, POOL_BYTES, c->number); break;
    case GIVE: r = pool_give_back(copy->pool, POOL_BYTES, offsets[c->number]); break;
    case SET: r = bank_set(copy->pool, POOL_BYTES, copy->bank, c->number, c->kind, tabs, BODY[c->kind]); break;
    case MOVE: r = pool_convert(copy->pool, POOL_BYTES, copy->pool[LEVEL_WORD] == 1 ? POOL_LAYOUT_1 : POOL_LAYOUT_2); break;
    default: r = bank_clear(copy->pool, POOL_BYTES, copy->bank, c->number);
    }
    if (pool_refusal(r)) {
        wrong++;
    } else if (c->what == TAKE) {
        offsets[i] = pool_value(r);
        memset(copy->pool + offsets[i], 'a' + i, c->number);
    }
}

/* A small give-back as version 0.5 did it: the block comes to the front of its bin, and stays there. */
static void give_back_as_before(unsigned char *pool, uint32_t offset) {
    uint32_t start = offset - 4, size = (pool[start] + 256u * pool[start + 1]) / 4, bin = 24 + size;
    uint32_t free_word = pool[0] + 256u * pool[1] + size;
    pool[start] -= 1; /* held no more */
    memcpy(pool + offset, pool + bin, 4);
    memset(pool + bin, 0, 8);
    pool[bin] = (unsigned char)start, pool[bin + 1] = (unsigned char)(start >> 8);
    pool[0] = (unsigned char)free_word, pool[1] = (unsigned char)(free_word >> 8);
}

/* Version 0.5 gave three short records back, and then the update came. The copy that it completed last is brought in, cut off after every store:
   after a reset it is brought in once more, and has its latest records, never those of the other copy. */
static void update(void) {
    static unsigned char scratch[POOL_BYTES];
    struct copy *last = begin(&memory);
    uint32_t offset[4];
    for (int i = 0; i < 4; i++) offset[i] = pool_value(pool_take(last->pool, sizeof last->pool, i == 1 ? 60 : 12));
    complete(&memory, last);
    for (int i = 1; i < 4; i++) give_back_as_before(last->pool, offset[i]);
    if (pool_refusal(pool_inspect(last->pool, sizeof last->pool)) != POOL_NOT_SOUND || !believed(&memory)) wrong++;

    memcpy(&after, last, sizeof after);
    if (pool_bring_in(after.pool, sizeof after.pool) != 3) wrong++;
    memcpy(&seen, &memory, sizeof seen);
    updated = 1;
    TRAP_ON;
    bring_in_last(&memory, scratch);
    TRAP_OFF;
    updated = 0;
    if (!same(believed(&memory), &after)) wrong++;
    memcpy(&seen, &memory, sizeof seen);
    bring_in_last(&memory, scratch); /* twice is once */
    if (memcmp(&seen, &memory, sizeof seen)) wrong++;
}

static void run(uint32_t layout) {
    memset(&memory, 0, sizeof memory);
    memset(&lone, 0, sizeof lone);
    lay_out_first(&memory, layout);
    pool_lay_out(lone.pool, sizeof lone.pool, layout);
    for (int i = 0; i < CHANGES; i++) {
        struct copy *change;
        memcpy(&before, believed(&memory), sizeof before);
        memcpy(&after, &before, sizeof after);
        make(&after, i);
        memcpy(&seen, &memory, sizeof seen);
        memcpy(&lone_seen, &lone, sizeof lone);

        TRAP_ON;
        change = begin(&memory);
        make(change, i);
        complete(&memory, change);
        TRAP_OFF;
        if (!same(believed(&memory), &after)) wrong++;

        TRAP_ON;
        make(&lone, i);
        TRAP_OFF;
    }
    update();
}

int main(void) {
    sigaction(SIGTRAP, &(struct sigaction){.sa_handler = one_step}, NULL);
    run(POOL_LAYOUT_1);
    run(POOL_LAYOUT_2);
    printf("two copies on each layout, %d changes cut off after each of %u stores: %u times the old records, %u times the new ones, %u times neither\n",
        2 * (int)CHANGES, cuts, old_ones, new_ones, wrong);
    printf("two copies that version 0.5 left, brought in and cut off after each of %u stores: %u times the latest records\n", update_cuts, latest_ones);
    printf("one pool and bank alone, cut off after each of %u stores: %u times every later call refuses it\n", lone_cuts, lone_refused);
    /* every change has been seen before and after its last store, and the lone copy is there to show that there is something to lose */
    int good = !wrong && old_ones && new_ones >= 2 * CHANGES && update_cuts && latest_ones == update_cuts && lone_refused;
    printf("%d passed, %d failed\n", good, !good);
    return !good;
}
