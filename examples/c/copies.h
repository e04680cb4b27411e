/* Records that outlive a reset in the middle of a call: two copies of one pool and its piston bank, changed in turn.

   A call that is cut off between two of its stores may leave a pool that every later call refuses with POOL_NOT_SOUND, or a bank that does
   not belong to its pool. So calls are made on the copy that is not believed, and one store of one word makes it the believed one. Both
   copies stand in the memory that keeps its bytes, and `completed` is aligned, so that the word is stored whole or not at all:

       struct copy *change = begin(&memory);            the other copy, with what the believed one has
       r = bank_set(change->pool, sizeof change->pool, change->bank, 3, BANK_EIGHT, tabs, sizeof tabs);
       complete(&memory, change);                       from here on the change holds

   A move to the other layout (pool_convert) is such a change too. Move back before older firmware comes on the board: it refuses the copy of
   layout 2, and would believe the other one, with the records of before.

   After an update from version 0.5 or before, call bring_in_last(&memory, scratch) before the first believed(&memory): inspection may refuse the
   copy that was completed last, since it has free blocks at E, and the other one has the records of before. A second time does no harm.

   After a reset believed(&memory) has pool and bank as they were before the change or as they were after it. It is NULL in memory that was
   never laid out: call lay_out_first then, with the layout's number, before the first begin. Where stores wait in a cache, `in_order` has to push them out too. */
#ifndef COPIES_H
#define COPIES_H

#include <stdatomic.h>
#include <string.h>

#include "bank.h"

enum { POOL_BYTES = 1024 };
struct copy {
    volatile uint32_t completed; /* when, as a count of changes; 0 while it is changed */
    uint32_t bank[BANK_PISTONS];
    unsigned char pool[POOL_BYTES];
};
struct copies {
    struct copy copy[2];
};

static inline void in_order(void) { atomic_signal_fence(memory_order_seq_cst); }

/* Of the copies that were completed and that inspection accepts, the one that was completed last. */
static inline struct copy *believed(struct copies *c) {
    struct copy *last = NULL;
    for (struct copy *one = c->copy; one < c->copy + 2; one++)
        if (one->completed && !pool_refusal(pool_inspect(one->pool, sizeof one->pool)) && (!last || last->completed < one->completed))
            last = one;
    return last;
}

/* The other copy, with what this one has. */
static inline struct copy *begin_with(struct copies *c, struct copy *from) {
    struct copy *to = &c->copy[from == c->copy];
    to->completed = 0;
    in_order();
    memcpy(to->bank, from->bank, sizeof to->bank);
    memcpy(to->pool, from->pool, sizeof to->pool);
    return to;
}

static inline struct copy *begin(struct copies *c) { return begin_with(c, believed(c)); }

static inline void complete(struct copies *c, struct copy *changed) {
    in_order();
    changed->completed = c->copy[changed == c->copy].completed + 1;
}

/* Of the copies that were completed and that can be brought in, the one that was completed last is brought in, as a change of its own, if it has
   to be. Which can be is tried in `scratch`, any other memory, so that no copy is lost for one that is damaged. */
static inline void bring_in_last(struct copies *c, unsigned char scratch[POOL_BYTES]) {
    struct copy *last = NULL, *change;
    for (struct copy *one = c->copy; one < c->copy + 2; one++) {
        memcpy(scratch, one->pool, POOL_BYTES);
        if (one->completed && !pool_refusal(pool_bring_in(scratch, POOL_BYTES)) && (!last || last->completed < one->completed))
            last = one;
    }
    if (!last || last == believed(c)) return;
    change = begin_with(c, last);
    pool_bring_in(change->pool, sizeof change->pool);
    complete(c, change);
}

/* Once in a memory's life, where believed() is NULL and nothing is to be saved. */
static inline void lay_out_first(struct copies *c, uint32_t layout) {
    c->copy[0].completed = c->copy[1].completed = 0;
    in_order();
    memset(c->copy[0].bank, 0, sizeof c->copy[0].bank);
    pool_lay_out(c->copy[0].pool, sizeof c->copy[0].pool, layout);
    in_order();
    c->copy[0].completed = 1;
}
#endif
