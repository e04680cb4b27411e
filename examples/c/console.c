/* A console with a piston bank: settings are stored, recalled and replaced, the pool runs full, and every refusal of the bank is met. */
#include <stdio.h>

#include "bank.h"

/* On a board both stand in the battery-backed memory, together. The pool is a small one, so that it is full soon. */
static unsigned char pool[320];
static uint32_t bank[BANK_PISTONS]; /* zeros: every piston is empty */

static const char *in_words(uint32_t refusal) {
    switch (refusal) {
    case POOL_NOT_ALLOWED: return "the length is not allowed";
    case POOL_NOT_SOUND: return "the pool is not sound";
    case POOL_NO_ROOM: return "there is no room";
    case BANK_NO_PISTON: return "there is no such piston";
    case BANK_NO_RECORD: return "no record has that kind and length";
    case BANK_NOT_NAMED: return "what the bank names is not held, or named twice, or no record";
    default: return "no answer of this bank";
    }
}

static void say(uint64_t result) {
    uint32_t refusal = pool_refusal(result);
    if (refusal)
        printf("refused with %u, %s\n", (unsigned)refusal, in_words(refusal));
    else
        puts("done");
}

static void set(uint32_t piston, uint8_t kind, const unsigned char *tabs, size_t length) {
    printf("set piston %u, kind %u, %u bytes: ", (unsigned)piston, (unsigned)kind, (unsigned)length);
    say(bank_set(pool, sizeof pool, bank, piston, kind, tabs, length));
}

static void clear(uint32_t piston) {
    printf("clear piston %u: ", (unsigned)piston);
    say(bank_clear(pool, sizeof pool, bank, piston));
}

/* The record is a part of the pool: its byte of kind, then the tab bits. */
static void recall(uint32_t piston) {
    uint64_t result = bank_recall(pool, sizeof pool, bank, piston);
    printf("recall piston %u: ", (unsigned)piston);
    if (pool_refusal(result)) {
        say(result);
    } else if (pool_value(result) == 0) {
        puts("empty");
    } else {
        const unsigned char *record = pool + bank[piston], *end = record + pool_value(result);
        printf("kind %u, ", (unsigned)*record);
        while (++record < end) printf("%02x", (unsigned)*record);
        puts("");
    }
}

/* After a 12: empties each piston that names what is not held, or what a piston before it names. */
static void mend(void) {
    int i, k, wrong;
    for (i = 0; i < BANK_PISTONS; i++) {
        wrong = bank[i] && pool_refusal(pool_ask(pool, sizeof pool, bank[i]));
        for (k = 0; k < i; k++) wrong |= bank[i] && bank[k] == bank[i];
        if (wrong) {
            bank[i] = 0;
            printf("mend: piston %d is empty now\n", i);
        }
    }
}

int main(void) {
    static const unsigned char flutes[8] = {0x81, 0x02}, strings[16] = {0x18, 0x00, 0x40}, reeds[32] = {0x0f, 0xf0}, tutti[32] = {0xff, 0xff, 0xff};

    printf("lay out %u bytes: ", (unsigned)sizeof pool);
    say(pool_lay_out(pool, sizeof pool, POOL_LAYOUT_1));

    puts("-- three settings, one of each kind");
    set(0, BANK_EIGHT, flutes, sizeof flutes);
    set(1, BANK_SIXTEEN, strings, sizeof strings);
    set(2, BANK_THIRTY_TWO, reeds, sizeof reeds);
    recall(0);
    recall(1);
    recall(2);
    recall(3);

    puts("-- piston 0 is set anew; then the pool is full, and piston 2 keeps its old setting");
    set(0, BANK_SIXTEEN, strings, sizeof strings);
    recall(0);
    set(3, BANK_THIRTY_TWO, reeds, sizeof reeds);
    set(2, BANK_THIRTY_TWO, tutti, sizeof tutti);
    recall(2);

    puts("-- clearing makes room; to clear an empty piston is no fault");
    clear(3);
    clear(3);
    recall(3);
    set(2, BANK_THIRTY_TWO, tutti, sizeof tutti);
    recall(2);

    puts("-- a wrong piston, kind, length of a body, length of a pool");
    set(32, BANK_EIGHT, flutes, sizeof flutes);
    set(0, 4, flutes, sizeof flutes);
    set(0, BANK_EIGHT, strings, sizeof strings);
    printf("recall in %u bytes: ", (unsigned)sizeof pool - 1);
    say(bank_recall(pool, sizeof pool - 1, bank, 0));

    puts("-- somebody gives the block of piston 1 back: every call is refused until the bank is mended");
    pool_give_back(pool, sizeof pool, bank[1]);
    recall(0);
    mend();
    recall(0);

    puts("-- pistons 2 and 31 name one record");
    bank[31] = bank[2];
    clear(0);
    mend();
    clear(0);

    puts("-- the record of piston 2 does not read: another kind, then one that is longer than its payload");
    pool[bank[2]] = 4;
    recall(2);
    set(2, BANK_EIGHT, flutes, sizeof flutes);
    recall(2);
    pool[bank[2]] = BANK_THIRTY_TWO;
    recall(2);
    clear(2);

    puts("-- a bit falls over in the battery-backed memory");
    pool[0] ^= 1;
    recall(2);
    return 0;
}
