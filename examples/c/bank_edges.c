/* Every call of bank.h, at both sides of its edges: the answer is the expected one; a refusal changes no byte of the pool and no number of
   the bank; what is done changes them as the pool's own calls would, one by one; and nothing changes around them. The last line is
   `N passed, M failed`. */
#include <stdio.h>
#include <string.h>

#include "bank.h"

enum { ROOM = 65544, AROUND = 16, BEFORE = 4, LONGEST = 64 };
enum call { SET, CLEAR, RECALL };
static const char *const NAMES[] = {"set", "clear", "recall"};
static const size_t BODY[] = {0, 8, 16, 32}; /* by the kind */
static const unsigned KINDS[] = {0, 1, 2, 3, 4, 5, 128, 254, 255};
enum { ALL_KINDS = sizeof KINDS / sizeof *KINDS };
static int known(unsigned kind) { return kind >= 1 && kind <= 3; }

static unsigned char bytes[AROUND + ROOM + AROUND], kept[sizeof bytes];
static uint32_t numbers[BEFORE + BANK_PISTONS + BEFORE], kept_numbers[sizeof numbers / sizeof *numbers];
static unsigned char bodies[1 + LONGEST], kept_body[sizeof bodies];
static unsigned char *pool = bytes + AROUND, *body = bodies; /* one round at an odd address */
static uint32_t *const bank = numbers + BEFORE;
static uint32_t layout; /* of the pools that are laid out */
static unsigned passed, failed;

static void expect(int holds, const char *what) {
    if (holds) {
        passed++;
    } else {
        failed++;
        printf("failed: %s\n", what);
    }
}

/* A body that is told apart by its first byte. */
static void write_body(unsigned first) {
    unsigned i;
    for (i = 0; i < LONGEST; i++) body[i] = (unsigned char)(first + 7 * i);
}

/* By the pool's calls alone, on `kept` and `kept_numbers`: what a call that is done leaves. */
static void give_old_back(size_t n, uint32_t piston) {
    unsigned char *copy = kept + (pool - bytes);
    uint32_t *number = kept_numbers + BEFORE + piston;
    if (*number) expect(!pool_refusal(pool_give_back(copy, n, *number)), "what a piston named is held");
    *number = 0;
}

static void store(size_t n, uint32_t piston, uint8_t kind, size_t length) {
    unsigned char *copy = kept + (pool - bytes);
    uint32_t offset = pool_value(pool_take(copy, n, (uint32_t)length + 1));
    copy[offset] = kind;
    memcpy(copy + offset + 1, body, length);
    give_old_back(n, piston);
    kept_numbers[BEFORE + piston] = offset;
}

static void with(enum call call, size_t n, uint32_t piston, unsigned kind, size_t length, uint32_t refusal, uint32_t value) {
    char what[160];
    uint64_t result;
    unsigned char *at = n ? pool : NULL, *from = length ? body : NULL;
    memcpy(kept, bytes, sizeof bytes);
    memcpy(kept_numbers, numbers, sizeof numbers);
    memcpy(kept_body, bodies, sizeof bodies);
    if (call == SET)
        result = bank_set(at, n, bank, piston, (uint8_t)kind, from, length);
    else if (call == CLEAR)
        result = bank_clear(at, n, bank, piston);
    else
        result = bank_recall(at, n, bank, piston);
    sprintf(what, "%s of n %lu, piston %lu, kind %u, length %lu: %lu %lu and not %lu %lu", NAMES[call], (unsigned long)n,
            (unsigned long)piston, kind, (unsigned long)length, (unsigned long)pool_refusal(result), (unsigned long)pool_value(result),
            (unsigned long)refusal, (unsigned long)value);
    expect(pool_refusal(result) == refusal && pool_value(result) == value, what);
    if (!refusal && call == SET) store(n, piston, (uint8_t)kind, length);
    if (!refusal && call == CLEAR) give_old_back(n, piston);
    /* the bytes around pool and bank, and the body, are the same in any case */
    expect(!memcmp(kept, bytes, sizeof bytes), refusal ? "a refusal changes no byte of the pool" : "the pool is as the pool's calls leave it");
    expect(!memcmp(kept_numbers, numbers, sizeof numbers), refusal ? "a refusal changes no number" : "the bank has the new number, and no other");
    expect(!memcmp(kept_body, bodies, sizeof bodies), "the body is only read");
}

static void set(size_t n, uint32_t piston, unsigned kind) { with(SET, n, piston, kind, BODY[kind], 0, (uint32_t)n); }
static void clear(size_t n, uint32_t piston) { with(CLEAR, n, piston, 0, 0, 0, (uint32_t)n); }

/* The three calls are refused alike; the set has a record, or none where that is asked later. */
static void all_refused(size_t n, uint32_t piston, uint32_t refusal) {
    with(SET, n, piston, 1, 8, refusal, 0);
    with(SET, n, piston, 4, 0, refusal, 0);
    with(CLEAR, n, piston, 0, 0, refusal, 0);
    with(RECALL, n, piston, 0, 0, refusal, 0);
}

static void shows(size_t n, uint32_t piston, unsigned kind, unsigned first) {
    unsigned char *record = pool + bank[piston];
    with(RECALL, n, piston, 0, 0, 0, (uint32_t)BODY[kind] + 1);
    write_body(first);
    expect(*record == kind && !memcmp(record + 1, body, BODY[kind]), "the record is its kind and its body");
}

static void empty(size_t n, uint32_t piston) { with(RECALL, n, piston, 0, 0, 0, 0); }

static void fresh(size_t n) {
    memset(pool, 0x5A, n);
    memset(bank, 0, BANK_PISTONS * sizeof *bank);
    pool_lay_out(pool, n, layout);
}

/* 1 is asked before all others: piston, bank and record are wrong too. */
static void lengths(void) {
    static const size_t WRONG[] = {0, 8, 168, 175, 177, 319, 321, 65535, 65544};
    size_t i;
    fresh(320);
    bank[7] = 4;
    for (i = 0; i < sizeof WRONG / sizeof *WRONG; i++) {
        all_refused(WRONG[i], 0, POOL_NOT_ALLOWED);
        all_refused(WRONG[i], 32, POOL_NOT_ALLOWED);
    }
    fresh(176); /* the least pool has no room for any record */
    with(SET, 176, 0, 1, 8, POOL_NO_ROOM, 0);
    clear(176, 0);
    empty(176, 0);
    fresh(192);
    set(192, 0, 1);
    with(SET, 192, 0, 1, 8, POOL_NO_ROOM, 0);
    clear(192, 0);
    set(192, 31, 1);
}

static void unsound(void) {
    memset(pool, 0, 1024);
    memset(bank, 0, BANK_PISTONS * sizeof *bank);
    all_refused(1024, 0, POOL_NOT_SOUND);
    fresh(1024);
    set(1024, 3, 2);
    pool[0] ^= 1;
    all_refused(1024, 3, POOL_NOT_SOUND);
    all_refused(1024, 32, POOL_NOT_SOUND);
    bank[7] = 4;
    all_refused(1024, 3, POOL_NOT_SOUND);
    all_refused(1024, 32, POOL_NOT_SOUND);
    bank[7] = 0;
    pool[0] ^= 1;
    clear(1024, 3);
}

static void pistons(void) {
    static const uint32_t ABOVE[] = {32, 33, 63, 64, 255, 256, 65536, 0x80000000u, 0xFFFFFFFFu};
    size_t i;
    fresh(1024);
    write_body(1);
    set(1024, 0, 1);
    set(1024, 31, 3);
    shows(1024, 0, 1, 1);
    shows(1024, 31, 3, 1);
    for (i = 0; i < sizeof ABOVE / sizeof *ABOVE; i++) {
        all_refused(1024, ABOVE[i], BANK_NO_PISTON);
        bank[7] = 4; /* 10 is asked before 12 */
        all_refused(1024, ABOVE[i], BANK_NO_PISTON);
        bank[7] = 0;
    }
}

/* 12, of the whole bank: whichever piston is wrong, and whichever is meant. It is asked before 11. */
static void naming(void) {
    static const uint32_t PLACES[] = {0, 7, 31};
    uint32_t wrong[] = {1, 4, 168, 171, 173, 176, 1020, 1024, 1028, 0x80000000u, 0xFFFFFFFFu, 0, 0};
    size_t i, k;
    fresh(1024);
    write_body(2);
    set(1024, 9, 3);
    set(1024, 10, 2);
    set(1024, 11, 1);
    wrong[11] = bank[10]; /* given back below */
    wrong[12] = bank[9] + 65536;
    clear(1024, 10);
    for (i = 0; i < sizeof wrong / sizeof *wrong; i++)
        for (k = 0; k < 3; k++) {
            bank[PLACES[k]] = wrong[i];
            all_refused(1024, PLACES[k], BANK_NOT_NAMED);
            all_refused(1024, 11, BANK_NOT_NAMED);
            bank[PLACES[k]] = 0;
        }
    for (k = 0; k < 3; k++) { /* one offset twice */
        bank[PLACES[k]] = bank[9];
        all_refused(1024, PLACES[k], BANK_NOT_NAMED);
        all_refused(1024, 9, BANK_NOT_NAMED);
        all_refused(1024, 11, BANK_NOT_NAMED);
        all_refused(1024, 20, BANK_NOT_NAMED);
        bank[PLACES[k]] = 0;
    }
    shows(1024, 9, 3, 2);
    shows(1024, 11, 1, 2);
}

/* 11: of the kinds and lengths, three pairs are records. */
static void records(void) {
    static const size_t LENGTHS[] = {0, 1, 7, 8, 9, 12, 15, 16, 17, 20, 31, 32, 33, 36, 64};
    static const size_t POOLS[] = {192, 1024}; /* 11 is asked before 4: the pool of 192 bytes is full */
    size_t i, k, p;
    for (p = 0; p < 2; p++) {
        size_t n = POOLS[p];
        fresh(n);
        write_body(3);
        set(n, 5, 1);
        for (i = 0; i < ALL_KINDS; i++)
            for (k = 0; k < sizeof LENGTHS / sizeof *LENGTHS; k++) {
                int is = known(KINDS[i]) && BODY[KINDS[i]] == LENGTHS[k];
                if (!is)
                    with(SET, n, 5, KINDS[i], LENGTHS[k], BANK_NO_RECORD, 0);
                else if (n == 192)
                    with(SET, n, 5, KINDS[i], LENGTHS[k], POOL_NO_ROOM, 0);
                else
                    set(n, 5, KINDS[i]);
            }
        shows(n, 5, n == 192 ? 1 : 3, 3);
    }
}

/* The payload's other bytes keep what they had: all of a fresh pool's free bytes are 0x5A. */
static void payloads(void) {
    unsigned kind;
    uint32_t size, i;
    fresh(1024);
    for (kind = 1; kind <= 3; kind++) {
        write_body(kind);
        set(1024, kind, kind);
        size = pool_value(pool_ask(pool, 1024, bank[kind]));
        expect(BODY[kind] + 1 < size, "the payload has more bytes than the record");
        for (i = (uint32_t)BODY[kind] + 1; i < size; i++) expect(pool[bank[kind] + i] == 0x5A, "the payload's other bytes are kept");
    }
}

/* A recalled record that does not read: another kind, or longer than its payload. It refuses the recall of its piston alone. */
static void reading(void) {
    static const uint32_t SIZES[] = {1, 12, 20, 28, 36, 100}, PAYLOADS[] = {4, 12, 20, 28, 36, 100};
    unsigned i, k;
    for (i = 0; i < sizeof SIZES / sizeof *SIZES; i++)
        for (k = 0; k < ALL_KINDS; k++) {
            unsigned kind = KINDS[k];
            int reads = known(kind) && BODY[kind] + 1 <= PAYLOADS[i];
            fresh(1024);
            write_body(i);
            set(1024, 0, 2);
            bank[1] = pool_value(pool_take(pool, 1024, SIZES[i])); /* a block that the caller took is as good as the bank's own */
            expect(pool_value(pool_ask(pool, 1024, bank[1])) == PAYLOADS[i], "the payload has the size that is meant");
            pool[bank[1]] = (unsigned char)kind;
            with(RECALL, 1024, 1, 0, 0, reads ? 0 : BANK_NOT_NAMED, reads ? (uint32_t)BODY[kind] + 1 : 0);
            shows(1024, 0, 2, i);
            set(1024, 2, 1);
            if (i % 2) {
                set(1024, 1, 3);
                shows(1024, 1, 3, i);
            } else {
                clear(1024, 1);
                empty(1024, 1);
            }
        }
}

static unsigned kind_of(uint32_t piston) { return piston % 3 + 1; }

/* All 32 pistons. 1,016 bytes are just enough for them, and for nothing else. */
static void all_pistons(void) {
    static const size_t ENOUGH[] = {1016, 1024, 2048, 65536};
    uint32_t figures[POOL_FIGURES], i;
    size_t k, n;
    for (k = 0; k < sizeof ENOUGH / sizeof *ENOUGH; k++) {
        n = ENOUGH[k];
        fresh(n);
        for (i = 0; i < BANK_PISTONS; i++) {
            empty(n, i);
            write_body(i);
            set(n, i, kind_of(i));
        }
        for (i = 0; i < BANK_PISTONS; i++) shows(n, i, kind_of(i), i);
        for (i = 0; i < BANK_PISTONS; i++) {
            write_body(100 + i);
            if (n == 1016) {
                with(SET, n, i, kind_of(i), BODY[kind_of(i)], POOL_NO_ROOM, 0);
                shows(n, i, kind_of(i), i);
            } else if (n > 1024) {
                set(n, i, kind_of(i + 1));
                shows(n, i, kind_of(i + 1), 100 + i);
            }
        }
        pool_figures(pool, n, figures, POOL_FIGURES);
        expect(figures[POOL_HELD_BLOCKS] == BANK_PISTONS, "a block is held for each piston, and no other");
        for (i = 0; i < BANK_PISTONS; i++) {
            clear(n, i);
            empty(n, i);
            clear(n, i);
        }
        pool_figures(pool, n, figures, POOL_FIGURES);
        expect(figures[POOL_HELD_BLOCKS] == 0, "no block is held for an empty bank");
    }
    fresh(1008);
    for (i = 0; i + 1 < BANK_PISTONS; i++) set(1008, i, kind_of(i));
    with(SET, 1008, 31, kind_of(31), BODY[kind_of(31)], POOL_NO_ROOM, 0);
    empty(1008, 31);
}

/* Numbers that look random, the same in every run. */
static uint32_t below(uint32_t n) {
    static uint32_t state = 0x9E3779B9u;
    state ^= state << 13;
    state ^= state >> 17;
    state ^= state << 5;
    return state % n;
}

/* Sets, clears and recalls as they come, beside somebody else who takes and gives back: each piston shows its latest accepted setting. */
static void long_run(void) {
    unsigned kinds[BANK_PISTONS] = {0}, firsts[BANK_PISTONS] = {0}, turn, no_room = 0;
    uint32_t other = 0, i;
    fresh(1024);
    for (turn = 0; turn < 1000; turn++) {
        uint32_t piston = below(BANK_PISTONS), what = below(10);
        if (what < 6) {
            unsigned kind = 1 + below(3);
            uint64_t room;
            write_body(turn);
            memcpy(kept, pool, 1024);
            room = pool_take(kept, 1024, (uint32_t)BODY[kind] + 1);
            with(SET, 1024, piston, kind, BODY[kind], pool_refusal(room), pool_refusal(room) ? 0 : 1024);
            if (pool_refusal(room)) {
                no_room++;
            } else {
                kinds[piston] = kind;
                firsts[piston] = turn;
            }
        } else if (what < 8) {
            clear(1024, piston);
            kinds[piston] = 0;
        } else if (what < 9) {
            if (other) pool_give_back(pool, 1024, other);
            other = pool_value(pool_take(pool, 1024, 1 + below(120)));
            if (other) pool[other] = 0xEE;
        }
        /* that piston, and from time to time all of them */
        for (i = turn % 100 ? piston : 0; i < (turn % 100 ? piston + 1 : BANK_PISTONS); i++) {
            if (kinds[i]) shows(1024, i, kinds[i], firsts[i]);
            else empty(1024, i);
        }
    }
    expect(50 < no_room && no_room < 500, "the long run has met a full pool, and others");
}

int main(void) {
    int round;
    for (round = 0; round < 4; round++) {
        memset(bytes, 0x5A, sizeof bytes);
        memset(numbers, 0x5A, sizeof numbers);
        pool = bytes + AROUND - round % 2;
        body = bodies + round % 2;
        layout = round < 2 ? POOL_LAYOUT_1 : POOL_LAYOUT_2;
        write_body(0);
        lengths();
        unsound();
        pistons();
        naming();
        records();
        payloads();
        reading();
        all_pistons();
        long_run();
    }
    printf("%u passed, %u failed\n", passed, failed);
    return failed != 0;
}
