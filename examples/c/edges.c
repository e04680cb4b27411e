/* Every call of pool.h, at both sides of its edges and on both layouts: the answer is the expected one, and a refusal changes no byte of the
   pool, of the list, and of what stands around them. The last line is `N passed, M failed`. */
#include <stdio.h>
#include <string.h>

#include "pool.h"

enum { ROOM = 65544, AROUND = 16, LIST = 56 };
enum call { LAY_OUT, CONVERT, BRING_IN, INSPECT, TAKE, GIVE_BACK, ASK, FIGURES, CLASS_COUNT };
static const char *const NAMES[] = {"lay_out", "convert", "bring_in", "inspect", "take", "give_back", "ask", "figures", "class_count"};

static unsigned char bytes[AROUND + ROOM + AROUND], kept[sizeof bytes];
static uint32_t list[LIST + 4], kept_list[LIST + 4];
static unsigned char *pool = bytes + AROUND; /* where the pool stands: one round at an odd address */
static uint32_t layout, other; /* the round's layout, and the one that it is not */
static unsigned passed, failed;

static void expect(int holds, const char *what) {
    if (holds) {
        passed++;
    } else {
        failed++;
        printf("failed: %s\n", what);
    }
}

static uint64_t make(enum call call, size_t n, uint32_t number, size_t count) {
    unsigned char *at = n ? pool : NULL;
    uint32_t *numbers = count ? list : NULL;
    switch (call) {
    case LAY_OUT: return pool_lay_out(at, n, number);
    case CONVERT: return pool_convert(at, n, number);
    case BRING_IN: return pool_bring_in(at, n);
    case INSPECT: return pool_inspect(at, n);
    case TAKE: return pool_take(at, n, number);
    case GIVE_BACK: return pool_give_back(at, n, number);
    case ASK: return pool_ask(at, n, number);
    case FIGURES: return pool_figures(at, n, numbers, count);
    default: return pool_class_count(at, n, numbers, count);
    }
}

static uint64_t with(enum call call, size_t n, uint32_t number, size_t count, uint32_t refusal, uint32_t value) {
    char what[120];
    uint64_t result;
    memcpy(kept, bytes, sizeof bytes);
    memcpy(kept_list, list, sizeof list);
    result = make(call, n, number, count);
    sprintf(what, "%s of n %lu, number %lu, count %lu: %lu %lu and not %lu %lu", NAMES[call], (unsigned long)n, (unsigned long)number,
            (unsigned long)count, (unsigned long)pool_refusal(result), (unsigned long)pool_value(result), (unsigned long)refusal,
            (unsigned long)value);
    expect(pool_refusal(result) == refusal && pool_value(result) == value, what);
    if (refusal) {
        expect(!memcmp(kept, bytes, sizeof bytes), "a refusal changes no byte of the pool");
        expect(!memcmp(kept_list, list, sizeof list), "a refusal changes no number of the list");
    } else {
        size_t start = (size_t)(pool - bytes), end = start + n;
        expect(!memcmp(kept, bytes, start) && !memcmp(kept + end, bytes + end, sizeof bytes - end), "nothing changes around the pool");
        expect(!memcmp(kept_list + count, list + count, (LIST + 4 - count) * sizeof *list), "nothing changes past the list");
    }
    return result;
}

static void done(enum call call, size_t n, uint32_t number, size_t count, uint32_t value) { with(call, n, number, count, POOL_DONE, value); }
static void refused(enum call call, size_t n, uint32_t number, size_t count, uint32_t refusal) { with(call, n, number, count, refusal, 0); }

enum { FALSE_BLOCK = 96 };
static const uint32_t NO_LAYOUT[] = {0, 3, 4, 8, 13, 256, 257, 258, 65537, 65538, 0x80000001u, 0xFFFFFFFFu};
enum { NO_LAYOUTS = sizeof NO_LAYOUT / sizeof *NO_LAYOUT };

/* A word of the pool, as a signed number. */
static int32_t word(uint32_t at) {
    uint32_t v = pool[at] | (uint32_t)pool[at + 1] << 8 | (uint32_t)pool[at + 2] << 16 | (uint32_t)pool[at + 3] << 24;
    return v < 0x80000000u ? (int32_t)v : -(int32_t)(0xFFFFFFFFu - v) - 1;
}

/* The least class whose size is at least the payload. */
static unsigned class_of(unsigned payload) {
    unsigned k = 0;
    while ((4u + k % 4) << (k / 4 + 1) < payload) k++;
    return k;
}

static void lengths(void) {
    static const size_t WRONG[] = {0, 8, 168, 175, 177, 65535, 65544}, RIGHT[] = {176, 184, 65536};
    size_t i;
    int call;
    for (i = 0; i < sizeof WRONG / sizeof *WRONG; i++)
        for (call = LAY_OUT; call <= CLASS_COUNT; call++) {
            refused((enum call)call, WRONG[i], 0, 0, POOL_NOT_ALLOWED);
            refused((enum call)call, WRONG[i], 100, call == FIGURES ? 7 : 53, POOL_NOT_ALLOWED);
            refused((enum call)call, WRONG[i], layout, 0, POOL_NOT_ALLOWED);
        }
    for (i = 0; i < sizeof RIGHT / sizeof *RIGHT; i++) {
        uint32_t n = (uint32_t)RIGHT[i], largest;
        refused(LAY_OUT, n, 0, 0, POOL_NO_LAYOUT);
        done(LAY_OUT, n, layout, 0, n);
        refused(CONVERT, n, other, 0, POOL_OTHER_LAYOUT);
        done(CONVERT, n, layout, 0, n);
        refused(CONVERT, n, layout, 0, POOL_OTHER_LAYOUT);
        done(CONVERT, n, other, 0, n);
        done(BRING_IN, n, 0, 0, 0);
        expect(!memcmp(kept, bytes, sizeof bytes), "a fresh pool is brought in, and no byte changes");
        done(INSPECT, n, 0, 0, n);
        done(FIGURES, n, 0, 7, 0);
        largest = n == 176 ? 0 : n - 180; /* the remainder less the 8 bytes that it keeps, less 4 for the head */
        expect(list[POOL_REMAINDER] == n - 168 && list[POOL_FREE_WORD] == n - 172 && list[POOL_LARGEST] == largest, "figures of a fresh pool");
        refused(TAKE, n, largest + 1, 0, POOL_NO_ROOM);
        if (largest) done(TAKE, n, largest, 0, n == 184 ? 180 : 172);
    }
}

/* A pool that is not sound, by the rule of before either, is not moved: 2 is asked before 13, but after 8. And it is not brought in. */
static void not_sound(void) {
    refused(INSPECT, 1024, 0, 0, POOL_NOT_SOUND);
    refused(BRING_IN, 1024, 0, 0, POOL_NOT_SOUND);
    refused(CONVERT, 1024, 3, 0, POOL_NO_LAYOUT);
    refused(CONVERT, 1024, POOL_LAYOUT_1, 0, POOL_NOT_SOUND);
    refused(CONVERT, 1024, POOL_LAYOUT_2, 0, POOL_NOT_SOUND);
}

static void unsound(void) {
    int call;
    memset(pool, 0, 1024);
    not_sound();
    for (call = INSPECT; call <= CLASS_COUNT; call++) refused((enum call)call, 1024, 0, 0, POOL_NOT_SOUND);
    done(LAY_OUT, 1024, layout, 0, 1024);
    done(TAKE, 1024, 100, 0, 172);
    pool[168] ^= 1; /* the head says free, and no bin has it */
    not_sound();
    for (call = INSPECT; call <= CLASS_COUNT; call++) refused((enum call)call, 1024, 172, 53, POOL_NOT_SOUND);
    pool[168] ^= 1;
    done(INSPECT, 1024, 0, 0, 1024);
}

/* The paper's worked tape, and what stands in the pool at its end. */
static void worked(void) {
    static const struct { enum call call; uint32_t number, refusal, value; } TAPE[] = {
        {TAKE, 10, 0, 1012}, {TAKE, 100, 0, 172},   {TAKE, 61, 0, 276},      {TAKE, 200, 0, 348}, {GIVE_BACK, 172, 0, 100}, {TAKE, 32, 0, 972},
        {TAKE, 72, 0, 556},  {GIVE_BACK, 172, 5, 0}, {GIVE_BACK, 276, 0, 68}, {TAKE, 100, 0, 172}, {GIVE_BACK, 556, 0, 76}};
    static const uint32_t FIGURES_THEN[7] = {4, 368, 0, 1, 416, 484, 404}, HELD[4][2] = {{172, 100}, {348, 204}, {972, 36}, {1012, 12}};
    uint32_t counts[POOL_CLASSES] = {0};
    size_t i;
    done(LAY_OUT, 1024, layout, 0, 1024);
    for (i = 0; i < sizeof TAPE / sizeof *TAPE; i++) with(TAPE[i].call, 1024, TAPE[i].number, 0, TAPE[i].refusal, TAPE[i].value);
    done(FIGURES, 1024, 0, 7, 4);
    expect(!memcmp(list, FIGURES_THEN, sizeof FIGURES_THEN), "the seven figures of the worked tape");
    for (i = 0; i < 4; i++) {
        done(ASK, 1024, HELD[i][0], 0, HELD[i][1]);
        memset(pool + HELD[i][0], (int)(0xA0 + i), HELD[i][1]); /* through the pointer: all of the payload is the holder's */
        counts[class_of(HELD[i][1])]++;
    }
    done(INSPECT, 1024, 0, 0, 1024);
    done(CLASS_COUNT, 1024, 0, 53, 4);
    expect(!memcmp(list, counts, sizeof counts), "the 53 counters of the worked tape");
}

/* The refusals of a call's own, on the worked pool. */
static void refusals(void) {
    static const uint32_t NOT_HELD[] = {0, 4, 168, 171, 173, 176, 276, 556, 1008, 1020, 1024, 1028, 0x80000000u, 0xFFFFFFFFu};
    static const size_t NOT_7[] = {0, 1, 6, 8, 53}, NOT_53[] = {0, 7, 52, 54};
    size_t i;
    for (i = 0; i < NO_LAYOUTS; i++) refused(LAY_OUT, 1024, NO_LAYOUT[i], 0, POOL_NO_LAYOUT);
    refused(TAKE, 1024, 0, 0, POOL_SIZE_ZERO);
    refused(TAKE, 1024, 405, 0, POOL_NO_ROOM);
    refused(TAKE, 1024, 65536, 0, POOL_NO_ROOM);
    refused(TAKE, 1024, 0xFFFFFFFFu, 0, POOL_NO_ROOM);
    for (i = 0; i < sizeof NOT_HELD / sizeof *NOT_HELD; i++) {
        refused(GIVE_BACK, 1024, NOT_HELD[i], 0, POOL_NOT_HELD);
        refused(ASK, 1024, NOT_HELD[i], 0, POOL_NOT_HELD);
    }
    for (i = 0; i < sizeof NOT_7 / sizeof *NOT_7; i++) refused(FIGURES, 1024, 0, NOT_7[i], POOL_LIST_LENGTH);
    for (i = 0; i < sizeof NOT_53 / sizeof *NOT_53; i++) refused(CLASS_COUNT, 1024, 0, NOT_53[i], POOL_LIST_LENGTH);
    done(TAKE, 1024, 404, 0, 556);
}

/* Free large blocks of 72, 80, 96 and 128 bytes, which reach 1, 2, 3 and 5 levels of the index of layout 2: each level word, and each index
   word, from the lowest at +64 upwards. One of them spoiled is found; what stands above a height is not asked. */
static void levels(void) {
    static const uint32_t SIZES[] = {68, 68, 76, 68, 92, 68, 124, 68}, BINS[4] = {168, 312, 464, 632}, HEIGHTS[4] = {1, 2, 3, 5};
    static const int32_t FIRST[13] = {72, 216, 368, 536, 536}, NEXT[4] = {144, 152, 168, 0};
    uint32_t at, i, k;
    done(LAY_OUT, 1024, layout, 0, 1024);
    for (i = 0, at = 172; i < 8; at += SIZES[i++] + 4) done(TAKE, 1024, SIZES[i], 0, at);
    for (i = 0; i < 4; i++) done(GIVE_BACK, 1024, BINS[i] + 4, 0, SIZES[2 * i]);
    expect(word(108) == (layout == POOL_LAYOUT_1 ? 1 : 13), "the false block's level word");
    for (k = 0; k < 13; k++) expect(word(160 - 4 * k) == (layout == POOL_LAYOUT_1 && k ? 0 : FIRST[k]), "the false block's index words");
    for (i = 0; i < 4; i++) {
        uint32_t height = layout == POOL_LAYOUT_1 ? 1 : HEIGHTS[i];
        expect(word(BINS[i] + 12) == (int32_t)height, "a first block's level word");
        for (k = 0; k < height; k++) expect(word(BINS[i] + 64 - 4 * k) == NEXT[i], "a first block's index words");
        for (k = 0; k < 13; k++) {
            pool[BINS[i] + 64 - 4 * k] ^= 8;
            if (k < height) not_sound();
            else done(INSPECT, 1024, 0, 0, 1024);
            pool[BINS[i] + 64 - 4 * k] ^= 8;
        }
    }
    for (i = 0; i < 72; i++) { /* every byte of the false block */
        pool[96 + i] ^= 1;
        not_sound();
        pool[96 + i] ^= 1;
    }
    done(INSPECT, 1024, 0, 0, 1024);
    done(TAKE, 1024, 92, 0, 468);
    expect(word(FALSE_BLOCK + 56) == (layout == POOL_LAYOUT_1 ? 0 : 536), "level 3 leads past the bin that is gone");
}

/* A bin, by its first block. */
struct bin { uint32_t start, size; };

static void put(unsigned char *in, uint32_t at, uint32_t value) {
    int i;
    for (i = 0; i < 4; i++) in[at + (uint32_t)i] = (unsigned char)(value >> 8 * i);
}

static uint32_t height(uint32_t size) {
    uint32_t h = 1;
    for (size /= 8; size % 2 == 0 && h < 13; size /= 2) h++;
    return h;
}

static unsigned char before[ROOM], image[ROOM];

/* Writes the index of these bins into the image, as layout `to` has it, and no other byte: the words of levels that are not reached stay. */
static void write_index(uint32_t to, const struct bin *bins, int count) {
    uint32_t levels = to == POOL_LAYOUT_1 ? 1 : 13, level;
    int i;
    put(image, FALSE_BLOCK + 12, levels);
    for (i = 0; i < count; i++) put(image, bins[i].start + 12, to == POOL_LAYOUT_1 ? 1 : height(bins[i].size));
    for (level = 1; level <= 13; level++) {
        uint32_t at = FALSE_BLOCK, in_block = 64 - 4 * (level - 1);
        for (i = 0; i < count; i++)
            if (level <= levels && level <= height(bins[i].size)) {
                put(image, at + in_block, bins[i].start - at);
                at = bins[i].start;
            }
        put(image, at + in_block, 0);
    }
}

/* The refusals on a sound pool, a move to the other layout and one back: each time the index is the new one, and every other byte stays. */
static void there_and_back(uint32_t n, const struct bin *bins, int count) {
    uint32_t level;
    int i;
    memcpy(before, pool, n);
    memcpy(image, pool, n);
    for (i = 0; i < NO_LAYOUTS; i++) refused(CONVERT, n, NO_LAYOUT[i], 0, POOL_NO_LAYOUT);
    refused(CONVERT, n, other, 0, POOL_OTHER_LAYOUT);
    done(CONVERT, n, layout, 0, n);
    write_index(other, bins, count);
    expect(!memcmp(pool, image, n), "moved, the pool has the other layout's index, and its old bytes elsewhere");
    done(INSPECT, n, 0, 0, n);
    refused(CONVERT, n, layout, 0, POOL_OTHER_LAYOUT);
    done(CONVERT, n, other, 0, n);
    write_index(layout, bins, count);
    expect(!memcmp(pool, image, n), "moved back, the pool has the old layout's index, and its old bytes elsewhere");
    done(INSPECT, n, 0, 0, n);
    /* what layout 2 wrote above level 1 is left in a pool of layout 1, which does not govern it */
    for (i = 0; i < count && layout == POOL_LAYOUT_1; i++)
        for (level = 2; level <= height(bins[i].size); level++) {
            uint32_t at = bins[i].start + 64 - 4 * (level - 1);
            memcpy(image + at, before + at, 4);
        }
    expect(!memcmp(before, image, n), "there and back, nothing else differs");
}

/* Takes payloads of these sizes, which get these offsets, and writes them full. */
static void take_all(uint32_t n, const uint32_t (*blocks)[2], size_t count) {
    size_t i;
    for (i = 0; i < count; i++) {
        done(TAKE, n, blocks[i][0], 0, blocks[i][1]);
        memset(pool + blocks[i][1], (int)(0xB0 + i), blocks[i][0]);
    }
}

/* Free blocks of 80, 96 (two of them) and 128 bytes, and two small ones, with held ones in between and at E. */
static void moves(void) {
    static const uint32_t BLOCKS[][2] = {{92, 172}, {68, 268}, {76, 340}, {68, 420},  {124, 492}, {68, 620},
                                         {92, 692}, {68, 788}, {12, 1012}, {60, 948}, {12, 932}, {4, 924}};
    static const uint32_t BACK[][2] = {{172, 92}, {692, 92}, {340, 76}, {492, 124}, {1012, 12}, {932, 12}};
    static const uint32_t HELD[][2] = {{268, 68}, {420, 68}, {620, 68}, {788, 68}, {948, 60}, {924, 4}};
    static const uint32_t FIGURES_THEN[7] = {6, 360, 2, 4, 64, 492, 124};
    static const struct bin BINS[] = {{336, 80}, {168, 96}, {488, 128}}, LEFT[] = {{336, 80}, {488, 128}};
    size_t i;
    done(LAY_OUT, 1024, layout, 0, 1024);
    take_all(1024, BLOCKS, sizeof BLOCKS / sizeof *BLOCKS);
    for (i = 0; i < sizeof BACK / sizeof *BACK; i++) done(GIVE_BACK, 1024, BACK[i][0], 0, BACK[i][1]);
    there_and_back(1024, BINS, 3);
    done(CONVERT, 1024, layout, 0, 1024);
    for (i = 0; i < sizeof HELD / sizeof *HELD; i++) done(ASK, 1024, HELD[i][0], 0, HELD[i][1]);
    for (i = 0; i < sizeof BACK / sizeof *BACK; i++) refused(ASK, 1024, BACK[i][0], 0, POOL_NOT_HELD);
    done(FIGURES, 1024, 0, 7, 6);
    expect(!memcmp(list, FIGURES_THEN, sizeof FIGURES_THEN), "the seven figures of a pool that was moved");
    done(TAKE, 1024, 92, 0, 692); /* the second of its bin, as in the old layout */
    done(TAKE, 1024, 92, 0, 172);
    done(CONVERT, 1024, other, 0, 1024);
    there_and_back(1024, LEFT, 2);
}

/* The greatest pool, with bins up to all thirteen levels. */
static void all_levels(void) {
    enum { N = 65536 };
    static const uint32_t BLOCKS[][2] = {{68, 172},    {68, 244},     {1020, 316},    {68, 1340},     {8188, 1412},
                                         {68, 9604},   {16380, 9676}, {68, 26060},    {32764, 26132}, {68, 58900}};
    static const struct bin BINS[] = {{168, 72}, {312, 1024}, {1408, 8192}, {9672, 16384}, {26128, 32768}};
    int i;
    done(LAY_OUT, N, layout, 0, N);
    take_all(N, BLOCKS, sizeof BLOCKS / sizeof *BLOCKS);
    for (i = 4; i >= 0; i--) done(GIVE_BACK, N, BINS[i].start + 4, 0, BINS[i].size - 4);
    there_and_back(N, BINS, 5);
}

enum { FREE_WORD = 0, REST_END = 24, BIN_8 = 32, BIN_16 = 40, BIN_24 = 48 };

/* A small give-back as version 0.5 did it: the block comes to the front of its bin, and stays there. */
static void give_back_as_before(uint32_t offset) {
    uint32_t start = offset - 4, size = (uint32_t)word(start) / 4;
    put(pool, start, 4 * size + 2);
    put(pool, offset, (uint32_t)word(24 + size));
    put(pool, 24 + size, start);
    put(pool, FREE_WORD, (uint32_t)word(FREE_WORD) + size);
}

/* Small blocks of 16, 8, 16, 24 and 16 bytes, from the pool's end down to E at 944, and a free large one. */
static void short_records(void) {
    static const uint32_t BLOCKS[][2] = {{12, 1012}, {4, 1004}, {12, 988}, {20, 964}, {12, 948}, {100, 172}, {68, 276}};
    done(LAY_OUT, 1024, layout, 0, 1024);
    take_all(1024, BLOCKS, sizeof BLOCKS / sizeof *BLOCKS);
    done(GIVE_BACK, 1024, 172, 0, 100);
}

/* A pool that version 0.5 stored, with three free blocks at E and one behind a held block: every call refuses it, until it is brought in. */
static void brought_in(void) {
    static const uint32_t FIGURES_THEN[7] = {2, 80, 1, 1, 656, 772, 644};
    int call;
    short_records();
    give_back_as_before(988);
    give_back_as_before(1012);
    give_back_as_before(948);
    give_back_as_before(964);
    for (call = INSPECT; call <= CLASS_COUNT; call++) refused((enum call)call, 1024, 276, call == FIGURES ? 7 : 53, POOL_NOT_SOUND);
    refused(CONVERT, 1024, 3, 0, POOL_NO_LAYOUT);
    refused(CONVERT, 1024, layout, 0, POOL_NOT_SOUND);
    refused(CONVERT, 1024, other, 0, POOL_NOT_SOUND);
    pool[FREE_WORD] ^= 8; /* one wrong word, and it is no pool of version 0.5 either */
    not_sound();
    pool[FREE_WORD] ^= 8;

    memcpy(image, pool, 1024);
    put(image, REST_END, 1000);
    put(image, 344, 4 * (1000 - 344) + 2); /* the remainder's head */
    put(image, BIN_16, 1008);              /* before it stood 944, and behind it 984 */
    put(image, 1012, 0);
    put(image, BIN_24, 0);
    done(BRING_IN, 1024, 0, 0, 3);
    expect(!memcmp(pool, image, 1024), "brought in, the header, the lists and the remainder's head are new, and every other byte stays");
    done(BRING_IN, 1024, 0, 0, 0);
    expect(!memcmp(pool, image, 1024), "twice is once");
    done(INSPECT, 1024, 0, 0, 1024);
    done(FIGURES, 1024, 0, 7, 2);
    expect(!memcmp(list, FIGURES_THEN, sizeof FIGURES_THEN), "the seven figures of a pool that was brought in");
    done(TAKE, 1024, 12, 0, 1012);
    done(TAKE, 1024, 644, 0, 348);
}

/* A give-back at E takes the free blocks behind it home too, and no byte of theirs changes: not even the head of the one that is given back. */
static void goes_home(void) {
    short_records();
    done(GIVE_BACK, 1024, 988, 0, 12);
    done(GIVE_BACK, 1024, 1012, 0, 12);
    done(GIVE_BACK, 1024, 964, 0, 20);
    memcpy(image, pool, 1024);
    put(image, FREE_WORD, (uint32_t)word(FREE_WORD) + 16);
    put(image, REST_END, 1000);
    put(image, 344, 4 * (1000 - 344) + 2);
    put(image, BIN_24, 0);
    put(image, 1012, 0); /* 984 stood there */
    done(GIVE_BACK, 1024, 948, 0, 12);
    expect(!memcmp(pool, image, 1024), "at E three blocks go home, up to the held one");
    refused(GIVE_BACK, 1024, 948, 0, POOL_NOT_HELD);
    put(image, FREE_WORD, (uint32_t)word(FREE_WORD) + 8);
    put(image, REST_END, 1024);
    put(image, 344, 4 * (1024 - 344) + 2);
    put(image, BIN_16, 0);
    done(GIVE_BACK, 1024, 1004, 0, 4);
    expect(!memcmp(pool, image, 1024), "the last one takes the block behind it home, and E is n");
    expect(word(BIN_8) == 0, "and never stood in its bin");
    done(INSPECT, 1024, 0, 0, 1024);
    done(BRING_IN, 1024, 0, 0, 0);
    expect(!memcmp(pool, image, 1024), "a sound pool is brought in, and no byte changes");
}

int main(void) {
    int round;
    for (round = 0; round < 4; round++) {
        memset(bytes, 0x5A, sizeof bytes);
        memset(list, 0x5A, sizeof list);
        pool = bytes + AROUND - round % 2;
        layout = round < 2 ? POOL_LAYOUT_1 : POOL_LAYOUT_2;
        other = round < 2 ? POOL_LAYOUT_2 : POOL_LAYOUT_1;
        lengths();
        unsound();
        worked();
        refusals();
        levels();
        moves();
        all_levels();
        brought_in();
        goes_home();
    }
    printf("%u passed, %u failed\n", passed, failed);
    return failed != 0;
}
