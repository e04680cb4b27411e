/* A piston bank: 32 pistons, each empty or naming one record of a pool (pool.h). Every call is proved to answer as written here, whatever
   the pool's bytes and the bank's numbers are (docs/BANK.md). It is in the same C file and archive as the pool.

       static unsigned char pool[1024];
       static uint32_t bank[BANK_PISTONS];               zeros: every piston is empty
       unsigned char tabs[16] = {0};

       uint64_t r = pool_lay_out(pool, sizeof pool, POOL_LAYOUT_1);
       r = bank_set(pool, sizeof pool, bank, 3, BANK_SIXTEEN, tabs, sizeof tabs);
       if (pool_refusal(r) == POOL_NO_ROOM) puts("what piston 3 had before, it still has");
       r = bank_recall(pool, sizeof pool, bank, 3);
       if (!pool_refusal(r) && pool_value(r)) {
           const unsigned char *record = pool + bank[3];
           if (record[0] == BANK_SIXTEEN) memcpy(tabs, record + 1, sizeof tabs);
       }
       r = bank_clear(pool, sizeof pool, bank, 3);

   The bank is 32 numbers: 0 for an empty piston, else the offset of the record's payload. The record stands at the payload's start:

       0      the kind: 1, 2 or 3
       1      the body: 8, 16 or 32 bytes of tab bits, by the kind; the bank does not ask what they mean
       then   the payload's other bytes, if there are any: they keep what they had

   A set takes a new block, writes the record there, and then gives the old block back. So old and new need room at once; with no room the
   old setting stays. From zeros and a sound pool on, whatever calls are made, each piston shows its latest accepted setting, and no call is
   refused with 2 or 12. That holds beside other users of the pool too, as long as they write inside payloads of their own alone and
   give back none that a piston names.

   What you owe, since C cannot check it, beside what pool.h asks of the pool:
   - `bank` points to 32 numbers of one array of uint32_t, aligned as such, that have been written before (any value will do) and that
     share no byte with the pool. No length is passed. bank_set and bank_clear write both, bank_recall only reads.
   - `body` points to `length` bytes of one object, which have been written before and which share no byte with pool and bank: a recalled
     record is copied out of the pool before it is set again. Of an empty body (length 0) nothing is read, and NULL will do.
   - Nobody else writes these bytes during the call; while a call writes, nobody else reads them.
   - Pool and bank belong together: both stand in the battery-backed memory, and are saved and brought back as one. A pool that pool_convert
     has moved or pool_bring_in has brought in is still the same pool, and the numbers stay good.
   No other rule: any n, numbers, piston, kind and length get an answer, and a refusal changes no byte of pool and bank.

   What 12 (BANK_NOT_NAMED) means: somebody else has been at the pool or at the bank, or they are of different times. There are two cases:
   - The bank names an offset that is not held, or one offset twice. Every call refuses it, whichever piston is meant. Bring back a copy of
     both, if you kept one. If not, make the false numbers 0: those pistons are empty then, and the others show what they showed.

         for (i = 0; i < BANK_PISTONS; i++)
             if (bank[i] && pool_refusal(pool_ask(pool, n, bank[i]))) bank[i] = 0;

     Of pistons that name one offset, make all but one 0: which one is right only the organist knows.
   - The record of the recalled piston does not read: its kind is another than 1, 2 and 3, or says more bytes than the payload has. That
     refuses the recall of this piston alone. Set it anew, or clear it.
   A bank without a 12 need not be right: an offset that somebody else holds by now, or tab bits that fell over, no call can see.

   A call that is cut off midway may have made some of its stores to pool and bank and not the others. Then later calls may be refused with
   2 or 12; or none is, and a block is held that no piston names, which pool_figures counts. Settings that must outlive this are kept in two
   copies of pool and bank that are changed in turn: examples/c/copies.h has it.

   What a call costs: on a large pool a set some 4 inspections of the pool, a clear 3, a recall 2; a little more on a small one
   (docs/BENCH.md). And 2.5 KiB of stack in the archive, 1.6 KiB in the C file on a Cortex-M (docs/BOARD.md). No heap, no global state: any
   number of banks, several on one pool too. Nothing here locks. */
#ifndef BANK_H
#define BANK_H

#include "pool.h"

#ifdef __cplusplus
extern "C" {
#endif

/* How many pistons there are: 0 to 31. */
enum { BANK_PISTONS = 32 };

/* The kinds of a record. */
enum {
    BANK_EIGHT = 1,     /* a body of 8 bytes, a record of 9 */
    BANK_SIXTEEN = 2,   /* a body of 16 bytes, a record of 17 */
    BANK_THIRTY_TWO = 3 /* a body of 32 bytes, a record of 33 */
};

/* The bank's own refusals, beside POOL_NOT_ALLOWED (1), POOL_NOT_SOUND (2) and POOL_NO_ROOM (4). They are asked in the order
   1, 2, 10, 12, 11, 4. A result is taken apart by pool_refusal and pool_value. */
enum {
    BANK_NO_PISTON = 10, /* the piston is above 31 */
    BANK_NO_RECORD = 11, /* the kind is unknown, or the body has another length than its kind says */
    BANK_NOT_NAMED = 12  /* the bank names an offset that is not held, or one offset twice; or the recalled record does not read */
};

/* Sets the piston to a record of this kind and body. Value: n. Refused: 1, 2, 10, 12, 11, 4. */
uint64_t bank_set(unsigned char *pool, size_t n, uint32_t bank[BANK_PISTONS], uint32_t piston, uint8_t kind,
                  const unsigned char *body, size_t length);

/* Empties the piston, and gives its block back. Of an empty one nothing changes. Value: n. Refused: 1, 2, 10, 12. */
uint64_t bank_clear(unsigned char *pool, size_t n, uint32_t bank[BANK_PISTONS], uint32_t piston);

/* Recalls the piston. Value: how many bytes its record has, the byte of kind included: 9, 17 or 33. They stand at pool + bank[piston], until
   the piston is set or cleared. The value is 0 where the piston is empty. Refused: 1, 2, 10, 12. */
uint64_t bank_recall(const unsigned char *pool, size_t n, const uint32_t bank[BANK_PISTONS], uint32_t piston);

#ifdef __cplusplus
}
#endif

#endif
