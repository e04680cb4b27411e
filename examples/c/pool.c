/* The pool alone, without the bank: two texts are kept in it. Lay out, take, write, give back, give back once too often; and move to the other
   layout and bring in, as an update of the firmware does. */
#include <stdio.h>
#include <string.h>

#include "pool.h"

static unsigned char pool[1024];

static const char *in_words(uint32_t refusal) {
    switch (refusal) {
    case POOL_DONE: return "done";
    case POOL_NOT_ALLOWED: return "the length is not allowed";
    case POOL_NOT_SOUND: return "the pool is not sound";
    case POOL_SIZE_ZERO: return "the size is 0";
    case POOL_NO_ROOM: return "there is no room";
    case POOL_NOT_HELD: return "no held payload starts there";
    case POOL_LIST_LENGTH: return "the list has the wrong length";
    case POOL_NO_LAYOUT: return "no layout has this number";
    case POOL_OTHER_LAYOUT: return "the pool has the other layout";
    default: return "no answer of this pool";
    }
}

static uint32_t say(const char *what, uint64_t result) {
    uint32_t refusal = pool_refusal(result), value = pool_value(result);
    if (refusal)
        printf("%s: refused with %u, %s\n", what, (unsigned)refusal, in_words(refusal));
    else
        printf("%s: %s, %u\n", what, in_words(refusal), (unsigned)value);
    return value;
}

/* Takes room for a text and writes it there. */
static uint32_t keep(const char *what, const char *text) {
    uint32_t offset = say(what, pool_take(pool, sizeof pool, (uint32_t)strlen(text) + 1));
    if (offset) strcpy((char *)pool + offset, text);
    return offset;
}

int main(void) {
    uint32_t great, swell, figures[POOL_FIGURES];

    say("lay out with layout 3", pool_lay_out(pool, sizeof pool, 3));
    say("lay out", pool_lay_out(pool, sizeof pool, POOL_LAYOUT_1));
    great = keep("take for the great", "Principal 8, Octave 4, Mixture IV, and all the reeds of the great organ, as the bishop likes it");
    swell = keep("take for the swell", "Gamba 8");
    say("ask about the great", pool_ask(pool, sizeof pool, great));
    printf("the great has: %s\n", (char *)pool + great);
    printf("the swell has: %s\n", (char *)pool + swell);

    say("give the great back", pool_give_back(pool, sizeof pool, great));
    say("give the great back again", pool_give_back(pool, sizeof pool, great));
    printf("the swell has: %s\n", (char *)pool + swell);
    say("take 2,000 bytes", pool_take(pool, sizeof pool, 2000));

    say("move from layout 1 to layout 2", pool_convert(pool, sizeof pool, POOL_LAYOUT_1));
    say("move from layout 1 once more", pool_convert(pool, sizeof pool, POOL_LAYOUT_1));
    say("ask about the swell", pool_ask(pool, sizeof pool, swell));
    printf("the swell has: %s\n", (char *)pool + swell);
    say("move back from layout 2", pool_convert(pool, sizeof pool, POOL_LAYOUT_2));
    say("bring in", pool_bring_in(pool, sizeof pool)); /* no block goes home: only version 0.5 left some */

    say("figures", pool_figures(pool, sizeof pool, figures, POOL_FIGURES));
    printf("held bytes %u, free word %u, largest grant %u\n", (unsigned)figures[POOL_HELD_BYTES], (unsigned)figures[POOL_FREE_WORD],
           (unsigned)figures[POOL_LARGEST]);
    say("take one byte more than the largest grant", pool_take(pool, sizeof pool, figures[POOL_LARGEST] + 1));
    say("take the largest grant", pool_take(pool, sizeof pool, figures[POOL_LARGEST]));

    pool[0] ^= 1; /* a bit falls over in the battery-backed memory */
    say("inspect", pool_inspect(pool, sizeof pool));
    return 0;
}
