// Speaks for a C library as `tape_main` and `probe` do for the proved crates, so that the second program can be held
// against it: `speak tape` or `speak probe`, input and output on the standard streams.
#include "calls.h"
#include <stdio.h>
#include <stdlib.h>
#include <string.h>

enum { LONGEST = 32768, ROOM = 65536, LIST = 64 };

static uint8_t pool[ROOM];
static size_t n;

static unsigned number_of(uint64_t answer) { return answer >> 32; }

static unsigned value_of(uint64_t answer) { return (uint32_t)answer; }

static void line(char letter, uint64_t answer) { printf("%c %u %u", letter, number_of(answer), value_of(answer)); }

static void figures(void) {
    uint32_t f[7] = {0};
    uint64_t answer = CALL(figures)(pool, n, f, 7);
    if (number_of(answer)) {
        printf("S %u 0", number_of(answer));
        return;
    }
    printf("S 0");
    for (int i = 0; i < 7; i++)
        printf(" %u", f[i]);
}

// Whether `count` bytes came.
static int bytes(uint8_t *to, size_t count) { return fread(to, 1, count, stdin) == count; }

static int number(uint32_t *v) {
    uint8_t b[4];
    if (!bytes(b, 4))
        return 0;
    *v = b[0] | b[1] << 8 | b[2] << 16 | (uint32_t)b[3] << 24;
    return 1;
}

// ---- the tape

static int record(uint8_t kind) {
    uint32_t v;
    if (kind == 4) {
        figures();
        return 1;
    }
    if (kind < 1 || kind > 5 || !number(&v))
        return 0;
    if (kind == 2)
        line('T', CALL(take)(pool, n, v));
    if (kind == 3)
        line('G', CALL(give_back)(pool, n, v));
    if (kind == 1 || kind == 5) {
        // a refused L or M keeps the old pool
        uint64_t answer = v <= ROOM ? CALL(lay_out)(pool, v, kind == 1 ? 1 : 2) : (uint64_t)1 << 32;
        n = number_of(answer) ? n : v;
        line(kind == 1 ? 'L' : 'M', answer);
    }
    return 1;
}

static void tape(void) {
    static uint8_t whole[LONGEST + 1];
    size_t length = fread(whole, 1, sizeof whole, stdin);
    if (length > LONGEST) {
        puts("0 X 7 0");
        return;
    }
    if (length == 0 || (stdin = fmemopen(whole, length, "r")) == NULL)
        return;
    int kind;
    for (unsigned count = 1; (kind = getchar()) != EOF; count++) {
        printf("%u ", count);
        int read = record(kind);
        puts(read ? "" : "X 7 0");
        if (!read)
            return;
    }
}

// ---- the probe

static void hex(const uint8_t *from, size_t count) {
    putchar(' ');
    if (count == 0)
        putchar('-');
    for (size_t i = 0; i < count; i++)
        printf("%02x", from[i]);
}

#ifndef POOL_ALONE

enum { BODY = 64, PISTONS = 32 };

static uint32_t bank[PISTONS];

static int given_bank(void) {
    for (int i = 0; i < PISTONS; i++)
        if (!number(&bank[i]))
            return 0;
    printf("B 0 %u", PISTONS);
    return 1;
}

static void show_bank(void) {
    printf("V 0 %u", PISTONS);
    for (int i = 0; i < PISTONS; i++)
        printf(" %u", bank[i]);
}

static int set(void) {
    uint32_t piston, k;
    uint8_t kind, body[BODY];
    if (!number(&piston) || !bytes(&kind, 1) || !number(&k) || k > BODY || !bytes(body, k))
        return 0;
    line('K', BANK(set)(pool, n, bank, piston, kind, body, k));
    return 1;
}

// The record stands where the bank says; of an empty piston and where recall is refused there is none.
static void recall(uint32_t piston) {
    uint64_t answer = BANK(recall)(pool, n, bank, piston);
    line('R', answer);
    hex(pool + (value_of(answer) ? bank[piston] : 0), value_of(answer));
}

// The bank's commands; 0 for another letter, and where the body is not whole.
static int of_bank(int letter) {
    uint32_t v;
    switch (letter) {
    case 'B': return given_bank();
    case 'V': show_bank(); return 1;
    case 'K': return set();
    }
    if ((letter != 'Q' && letter != 'R') || !number(&v))
        return 0;
    if (letter == 'Q')
        line('Q', BANK(clear)(pool, n, bank, v));
    else
        recall(v);
    return 1;
}

#else

static int of_bank(int letter) {
    (void)letter;
    return 0;
}

#endif

static int command(int letter) {
    static uint8_t body[ROOM];
    uint32_t v, k = 0, counts[LIST];
    switch (letter) {
    case 'I':
        if (!number(&v) || v > ROOM || !bytes(pool, v))
            return 0;
        n = v;
        printf("I 0 %u", v);
        return 1;
    case 'L': line('L', CALL(lay_out)(pool, n, 1)); return 1;
    case 'H': line('H', CALL(bring_in)(pool, n)); return 1;
    case 'N': line('N', CALL(inspect)(pool, n)); return 1;
    case 'S': figures(); return 1;
    case 'D':
        printf("D 0 %zu", n);
        hex(pool, n);
        return 1;
    case 'B':
    case 'V':
    case 'K':
    case 'Q':
    case 'R': return of_bank(letter);
    case 'C':
        if (!number(&k) || k > LIST)
            return 0;
        for (unsigned i = 0; i < k; i++)
            counts[i] = 7;
        line('C', CALL(class_count)(pool, n, counts, k));
        for (unsigned i = 0; i < k; i++)
            printf(" %u", counts[i]);
        return 1;
    }
    if (letter == 0 || !strchr("MYTGAPW", letter) || !number(&v))
        return 0;
    switch (letter) {
    case 'M': line('M', CALL(lay_out)(pool, n, v)); return 1;
    case 'Y': line('Y', CALL(convert)(pool, n, v)); return 1;
    case 'T': line('T', CALL(take)(pool, n, v)); return 1;
    case 'G': line('G', CALL(give_back)(pool, n, v)); return 1;
    case 'A': line('A', CALL(ask)(pool, n, v)); return 1;
    case 'W':
        if (!number(&k) || k > ROOM || !bytes(body, k))
            return 0;
    }
    // a part is what asking answers: that many bytes from the offset on, none where it is refused
    uint64_t answer = CALL(ask)(pool, n, v);
    line(letter, answer);
    printf(" %u", value_of(answer));
    if (letter == 'P')
        hex(pool + (value_of(answer) ? v : 0), value_of(answer));
    else
        memcpy(pool + (value_of(answer) ? v : 0), body, k < value_of(answer) ? k : value_of(answer));
    return 1;
}

static void probe(void) {
    int letter;
    while ((letter = getchar()) != EOF) {
        int read = command(letter);
        puts(read ? "" : "X 7 0");
        if (!read)
            return;
    }
}

int main(int argc, char **argv) {
    if (argc != 2)
        return 2;
    if (!strcmp(argv[1], "tape"))
        tape();
    else
        probe();
    return 0;
}
