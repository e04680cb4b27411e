/* A memory pool for records that must not be lost, in a buffer of yours. Every call is proved to answer as written here, whatever
   bytes the buffer has (docs/PROMISES.md). Compile c/pool.c with your program, for any processor (docs/BOARD.md). Or, on x86-64, build the
   archive with tools/library, and link target/staticlib/libboard.a, or have tools/install put both where your build looks; of the C
   library it calls memset alone.

       static unsigned char pool[1024];
       uint64_t r = pool_lay_out(pool, sizeof pool, POOL_LAYOUT_1);
       r = pool_take(pool, sizeof pool, 100);
       if (pool_refusal(r) == POOL_NO_ROOM) return;
       unsigned char *record = pool + pool_value(r);
       memset(record, 'x', 100);
       r = pool_give_back(pool, sizeof pool, pool_value(r));
       r = pool_give_back(pool, sizeof pool, (uint32_t)(record - pool));
       if (pool_refusal(r) == POOL_NOT_HELD) puts("it was given back already");

   A pool has one of two layouts, which the laying out names. Every call serves both and gives the same answers. Layout 2 has an index over the
   free large blocks: it finds one faster where many different sizes are free, and its bytes are not for firmware that knows layout 1 alone.
   pool_convert moves a pool from one to the other in the same bytes, and every payload stays as it is and where it is.

   A free small block at E goes home: it joins the remainder, so that the room of short records can serve long ones again. Up to version 0.5 it
   stayed where it was, so a pool that was stored then may have free blocks at E. Every call but two refuses such a pool with POOL_NOT_SOUND and
   changes no byte of it; pool_lay_out would forget its records, and pool_bring_in takes it. So bring a stored pool in once, after the update,
   before its first other call:

       if (pool_refusal(pool_bring_in(pool, sizeof pool)) == POOL_NOT_SOUND) call_for_help();

   The bytes of a pool of n bytes; words are little-endian, of 8 bytes in the header and of 4 elsewhere (docs/FORMAT.md has every word):

       0      free word: all free sizes, less 4
       8      96
       16     R, where the remainder starts
       24     E, where it ends
       32     first block of the small bin 8, or 0; then those of 16, 24, .. 64
       96     the false block: 0, but for its level word (+12; 1 in layout 1, 13 in layout 2) and where the lists of free large
              blocks start (+64; in layout 2 from +16 to +64)
       168    large blocks (72 bytes and more), end to end, held or free
       R      the remainder, free
       E      small blocks (8 to 64 bytes), end to end, held or free; the one at E is held
       n

   A block is a head of 4 bytes, then its payload; its size, head included, is a multiple of 8. An offset counts from the
   pool's first byte and means the payload. So a payload starts 4 bytes past a multiple of 8: in a pool that is aligned to 8 it
   is aligned to 4, and never to 8.

   What you owe, since C cannot check it:
   - `pool` points to n bytes of one object. pool_lay_out, pool_take, pool_give_back, pool_convert and pool_bring_in write them, the others
     only read. They have been written before (any value will do), and `pool` needs no alignment.
   - `figures` and `counts` point to `count` numbers of one array of uint32_t, aligned as such, that have been written before
     and that share no byte with the pool.
   - Nobody else writes these bytes during the call; while a call writes, nobody else reads them.
   - Of an empty pool or list (n = 0, count = 0) nothing is read or written, and any pointer will do, NULL too.
   No other rule: any n, count, size, offset and bytes get an answer. What you write into a payload that you hold never harms
   the pool. What you write elsewhere may spoil the pool's own words: then the next call says POOL_NOT_SOUND, unless the bytes
   are a sound pool by chance.

   What a call costs: every call but pool_lay_out walks the whole pool first, and looks at each block (README.md has a table). It
   needs 1.5 KiB of stack, no heap and no global state: any number of pools, each by itself. Two contexts (threads, an interrupt,
   DMA) must not be in one pool at once: nothing here locks.

   A call that is cut off midway (a reset, the power, a watchdog) may have made some of its stores and not the others. Where that leaves
   a pool that is not sound, every later call says POOL_NOT_SOUND, and no call can mend it. Records that must outlive this are kept in two copies
   that are changed in turn: examples/c/copies.h has it, in 60 lines, tried with a cut after every store. Or make the calls
   where they cannot be cut off.

   There is no pool_lend: after `r = pool_ask(pool, n, offset)` is done, the payload is the pool_value(r) bytes at pool + offset.

   The piston bank, a product above the pool, has its calls in bank.h. */
#ifndef POOL_H
#define POOL_H

/* What changed with each version: docs/CHANGES.md. */
#define POOL_VERSION "0.6.0"

#include <stddef.h>
#include <stdint.h>

#ifdef __cplusplus
extern "C" {
#endif

/* The refusals' numbers, and 0. Each call asks for its own in the order in which it names them. A refusal changes no byte of the pool and of
   the list. */
enum {
    POOL_DONE = 0,
    POOL_NOT_ALLOWED = 1,  /* n is not a multiple of 8 from 176 to 65,536 */
    POOL_NOT_SOUND = 2,    /* the bytes are no pool that honest calls made; or version 0.5 made them, and pool_bring_in takes them */
    POOL_SIZE_ZERO = 3,    /* the size is 0 */
    POOL_NO_ROOM = 4,      /* no room by the grant rule */
    POOL_NOT_HELD = 5,     /* the offset is not the start of a held payload */
    POOL_LIST_LENGTH = 6,  /* the list has not 7 figures, or not 53 counters */
    POOL_NO_LAYOUT = 8,    /* the layout's number is neither 1 nor 2 */
    POOL_OTHER_LAYOUT = 13 /* the pool has not the layout that was named as its old one */
};

/* Every call returns one number: the refusal in its upper 32 bits, the value in its lower 32 bits. Done, the refusal is 0; refused, the
   value is 0. */
static inline uint32_t pool_refusal(uint64_t result) { return (uint32_t)(result >> 32); }
static inline uint32_t pool_value(uint64_t result) { return (uint32_t)(result & 0xFFFFFFFFu); }

/* The layouts' numbers. */
enum { POOL_LAYOUT_1 = 1, POOL_LAYOUT_2 = 2 };

/* Lays the buffer out as a fresh pool of that layout, whatever stands there. Value: n. Refused: 1, 8. */
uint64_t pool_lay_out(unsigned char *pool, size_t n, uint32_t layout);

/* Whether the pool is sound. Value: n. Refused: 1, 2. */
uint64_t pool_inspect(const unsigned char *pool, size_t n);

/* Grants a payload of at least `size` bytes; they are not cleared. Value: its offset. Refused: 1, 2, 3, 4. */
uint64_t pool_take(unsigned char *pool, size_t n, uint32_t size);

/* Takes the payload at `offset` back. Value: how many bytes it had. Refused: 1, 2, 5.
   A small block then waits in the list of its size; but as long as the block at E is free, it leaves its list and joins the remainder. */
uint64_t pool_give_back(unsigned char *pool, size_t n, uint32_t offset);

/* Asks about the payload at `offset`. Value: how many bytes it has. Refused: 1, 2, 5. */
uint64_t pool_ask(const unsigned char *pool, size_t n, uint32_t offset);

/* Moves the pool from the layout `old` to the other one, in the same bytes. Value: n. Refused: 1, 8, 2, 13.
   Blocks, held payloads and the order of every list stay, so every offset means what it meant. Moved back, a pool that began in layout 2 has all
   its bytes again. One that began in layout 1 differs at most in words that layout 1 leaves unused: +16 to +60 of a free large block that
   comes first in its list (docs/FORMAT.md). */
uint64_t pool_convert(unsigned char *pool, size_t n, uint32_t old);

/* Brings in a pool that was stored by version 0.5 or before: as long as the block at E is free, it leaves its list and joins the remainder.
   Value: how many blocks went home. Refused: 1, and 2 if the pool was not sound for version 0.5 either.
   Held payloads stay as they are and where they are, and so does the order of every list. A pool that is sound already answers 0, and no byte of
   it changes: a second time does no harm. Both layouts. */
uint64_t pool_bring_in(unsigned char *pool, size_t n);

/* The figures' places in the list. */
enum {
    POOL_HELD_BLOCKS = 0,
    POOL_HELD_BYTES = 1, /* block sizes, heads included */
    POOL_FREE_SMALL = 2, /* free small blocks */
    POOL_FREE_LARGE = 3, /* free large blocks */
    POOL_REMAINDER = 4,  /* the remainder's size */
    POOL_FREE_WORD = 5,  /* all free sizes, less 4: held bytes + free word + 172 = n */
    POOL_LARGEST = 6,    /* the greatest size that pool_take would grant now, 0 if there is none */
    POOL_FIGURES = 7     /* how many figures there are */
};

/* Fills the list of 7 figures. Value: how many blocks are held. Refused: 1, 2, 6.
   The last one is a promise, until the next take, give-back or laying out is done: a take of that size is granted if it is not 0, and
   every greater size is refused with 4. */
uint64_t pool_figures(const unsigned char *pool, size_t n, uint32_t *figures, size_t count);

/* How many size classes there are: class k has size (4 + k % 4) << (k / 4 + 1), which is 8, 10, 12, 14, 16, 20, .. 65,536. */
enum { POOL_CLASSES = 53 };

/* Fills the list of 53 counters: each held block counts in the least class whose size is at least its payload.
   Value: how many blocks are held. Refused: 1, 2, 6. */
uint64_t pool_class_count(const unsigned char *pool, size_t n, uint32_t *counts, size_t count);

#ifdef __cplusplus
}
#endif

#endif
