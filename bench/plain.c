// The pool and the piston bank in plain C. The bytes of both layouts are drawn in docs/FORMAT.md.
//
// Inspection believes nothing before it was tested, so the calls after it read and write without a test of their own.
#include "plain.h"
#include <stdbool.h>
#include <string.h>

#if __BYTE_ORDER__ != __ORDER_LITTLE_ENDIAN__
#error "a pool's words are little-endian, and so must the machine's be here"
#endif

enum { FREE_WORD = 0, FALSE_WORD = 8, START = 16, END = 24, SMALL_BINS = 24, FALSE_BLOCK = 96, BLOCKS = 168 };
enum { SMALL_NEXT = 4, PREVIOUS = 4, NEXT = 8, LEVEL = 12, CHAIN = 64, LARGE = 72, LEVELS = 13 };
enum { NOT_ALLOWED = 1, NOT_SOUND, NO_SIZE, NO_ROOM, NOT_HELD, LIST_LENGTH, NO_LAYOUT = 8 };
enum { NO_PISTON = 10, NO_RECORD, NOT_NAMED, OTHER_LAYOUT };
enum { HELD = 1, P = 2, LEAST_POOL = 176, GREATEST_POOL = 65536, CLASSES = 53, PISTONS = 32 };

static inline uint32_t word(const uint8_t *pool, uint32_t at) {
    uint32_t v;
    memcpy(&v, pool + at, 4);
    return v;
}

static inline void put(uint8_t *pool, uint32_t at, uint32_t v) { memcpy(pool + at, &v, 4); }

static inline uint64_t refused(uint32_t number) { return (uint64_t)number << 32; }

// ---- the index over the bins: of one level in layout 1, of thirteen in layout 2

// The false block's level word, which tells the layouts apart.
static inline uint32_t levels_of(const uint8_t *pool) { return word(pool, FALSE_BLOCK + LEVEL); }

// How many levels a bin of this size reaches.
static inline uint32_t height(uint32_t levels, uint32_t size) {
    uint32_t h = 1 + (uint32_t)__builtin_ctz(size / 8);
    return h < levels ? h : levels;
}

// Where the index word of a level, counted from 0, stands in a block: each higher one 4 bytes before.
static inline uint32_t index_word(uint32_t level) { return CHAIN - 4 * level; }

// ---- inspection

static bool allowed(size_t n) { return n >= LEAST_POOL && n <= GREATEST_POOL && n % 8 == 0; }

// One bit for each 8 bytes: the starts of blocks that no list has named yet. Inspection marks the free blocks, and asking about a list of
// offsets the held ones.
struct marks {
    uint64_t bits[GREATEST_POOL / 8 / 64];
};

static inline void no_marks(struct marks *m, size_t n) { memset(m, 0, (n + 511) / 512 * 8); }

static inline void mark(struct marks *m, uint32_t q) { m->bits[q / 512] |= (uint64_t)1 << q / 8 % 64; }

// Whether q was marked, and no longer is. So no block is met twice, and no ring is followed for ever.
static inline bool unmark(struct marks *m, size_t n, uint32_t q) {
    if (q >= n || q % 8 != 0)
        return false;
    uint64_t *w = &m->bits[q / 512], bit = (uint64_t)1 << q / 8 % 64;
    if (!(*w & bit))
        return false;
    *w &= ~bit;
    return true;
}

// What the words from `from` to `to`, `step` apart, have in them; 0 where all are 0.
static inline uint32_t any(const uint8_t *pool, uint32_t from, uint32_t to, uint32_t step) {
    uint32_t bits = 0;
    for (uint32_t at = from; at < to; at += step)
        bits |= word(pool, at);
    return bits;
}

// The words at fixed places.
static bool header_ok(const uint8_t *pool, size_t n) {
    uint32_t start = word(pool, START), end = word(pool, END);
    if (start < BLOCKS || start % 8 != 0 || end % 8 != 0 || end > n || end < 8 || end - 8 < start)
        return false;
    if (word(pool, start) != 4 * (end - start) + P)
        return false;
    if (word(pool, FALSE_WORD) != FALSE_BLOCK || (levels_of(pool) != 1 && levels_of(pool) != LEVELS))
        return false;
    // in layout 2 the words from +16 on are the index's
    uint32_t reserved = levels_of(pool) == 1 ? any(pool, FALSE_BLOCK + LEVEL + 4, FALSE_BLOCK + CHAIN, 4) : 0;
    return !(any(pool, 4, FALSE_BLOCK, 8) | any(pool, FALSE_BLOCK, FALSE_BLOCK + LEVEL, 4) | reserved | word(pool, FALSE_BLOCK + CHAIN + 4));
}

// What the free blocks of the runs come to.
struct seen {
    uint32_t count, sum;
};

// The large blocks from 168 to R.
static bool scan_large(const uint8_t *pool, struct marks *m, uint32_t end, struct seen *seen) {
    uint32_t due = P;
    for (uint32_t p = BLOCKS; p != end;) {
        uint32_t w = word(pool, p), z = w / 4;
        if (z < LARGE || z % 8 != 0 || z > end - p)
            return false;
        if (w % 4 == (due | HELD)) {
            due = P;
        } else {
            if (due != P || w % 4 != P || word(pool, p + z - 4) != w)
                return false;
            mark(m, p);
            seen->count++;
            seen->sum += z;
            due = 0;
        }
        p += z;
    }
    return due == P;
}

// The small blocks from E to n.
static bool scan_small(const uint8_t *pool, struct marks *m, uint32_t from, uint32_t end, struct seen *seen) {
    for (uint32_t p = from; p != end;) {
        uint32_t w = word(pool, p), z = w / 4;
        if (z < 8 || z >= LARGE || z % 8 != 0 || z > end - p)
            return false;
        if (w % 4 == P) {
            mark(m, p);
            seen->count++;
            seen->sum += z;
        } else if (w % 4 != (P | HELD)) {
            return false;
        }
        p += z;
    }
    return true;
}

static bool small_bins_ok(const uint8_t *pool, size_t n, struct marks *m, uint32_t *left) {
    for (uint32_t z = 8; z < LARGE; z += 8)
        for (uint32_t q = word(pool, SMALL_BINS + z); q != 0; q = word(pool, q + SMALL_NEXT)) {
            if (!unmark(m, n, q) || word(pool, q) / 4 != z)
                return false;
            --*left;
        }
    return true;
}

// A bin of blocks of size z from `first` on, which is marked.
static bool large_bin_ok(const uint8_t *pool, size_t n, struct marks *m, uint32_t z, uint32_t first, uint32_t *left) {
    uint32_t q = first, back = 0;
    for (;;) {
        if (!unmark(m, n, q) || word(pool, q) / 4 != z || word(pool, q + PREVIOUS) != back)
            return false;
        --*left;
        uint32_t on = word(pool, q + NEXT);
        if (on == 0)
            return true;
        q += on;
        back = -on;
    }
}

// What the index word of a block at a level leads to, 0 for none; false where it leads to 0.
static inline bool due_after(const uint8_t *pool, uint32_t f, uint32_t level, uint32_t *due) {
    uint32_t on = word(pool, f + index_word(level));
    *due = on ? f + on : 0;
    return f + on != 0;
}

// Along the lowest level. For each level above, `due` has the start that must come next there: a first block must be the one that is due at all
// levels that it reaches, and says what is due then.
static bool large_bins_ok(const uint8_t *pool, size_t n, struct marks *m, uint32_t *left) {
    uint32_t due[LEVELS], levels = levels_of(pool), f = FALSE_BLOCK, below = LARGE - 1;
    for (uint32_t level = 1; level < levels; level++)
        if (!due_after(pool, f, level, &due[level]))
            return false;
    for (uint32_t on = word(pool, f + CHAIN); on != 0; on = word(pool, f + CHAIN)) {
        f += on;
        // a start that is not marked could have words past the pool's end
        if (f >= n || f % 8 != 0 || !(m->bits[f / 512] >> f / 8 % 64 & 1))
            return false;
        uint32_t z = word(pool, f) / 4, h = levels == 1 ? 1 : height(levels, z);
        if (z <= below || word(pool, f + LEVEL) != h || !large_bin_ok(pool, n, m, z, f, left))
            return false;
        for (uint32_t level = 1; level < h; level++)
            if (due[level] != f || !due_after(pool, f, level, &due[level]))
                return false;
        below = z;
    }
    for (uint32_t level = 1; level < levels; level++)
        if (due[level] != 0)
            return false;
    return true;
}

// By the rule before small blocks went home: a free block may stand at E.
static bool sound_by_old_rule(const uint8_t *pool, size_t n) {
    if (!header_ok(pool, n))
        return false;
    uint32_t start = word(pool, START), end = word(pool, END);
    struct marks m;
    no_marks(&m, n);
    struct seen seen = {0, 0};
    if (!scan_large(pool, &m, start, &seen) || !scan_small(pool, &m, end, n, &seen))
        return false;
    if (word(pool, FREE_WORD) != seen.sum + (end - start) - 4)
        return false;
    uint32_t left = seen.count;
    return small_bins_ok(pool, n, &m, &left) && large_bins_ok(pool, n, &m, &left) && left == 0;
}

// Whether a free small block starts at a place of the run from E to n, or at its end, where none does.
static inline bool free_at(const uint8_t *pool, size_t n, uint32_t at) { return at != n && !(word(pool, at) & HELD); }

static bool sound(const uint8_t *pool, size_t n) { return sound_by_old_rule(pool, n) && !free_at(pool, n, word(pool, END)); }

static uint32_t refusal(const uint8_t *pool, size_t n) {
    return !allowed(n) ? NOT_ALLOWED : !sound(pool, n) ? NOT_SOUND : 0;
}

uint64_t plain_inspect(const uint8_t *pool, size_t n) {
    uint32_t why = refusal(pool, n);
    return why ? refused(why) : n;
}

// ---- words of a pool that was inspected

static inline uint32_t size_at(const uint8_t *pool, uint32_t q) { return word(pool, q) / 4; }

static inline uint32_t linked(const uint8_t *pool, uint32_t q, uint32_t field) {
    uint32_t distance = word(pool, q + field);
    return distance ? q + distance : 0;
}

// The word of a link, 0 where it leads nowhere.
static inline uint32_t link_word(uint32_t from, uint32_t to) { return to ? to - from : 0; }

static inline void add_free(uint8_t *pool, uint32_t size) { put(pool, FREE_WORD, word(pool, FREE_WORD) + size); }

static inline void put_free(uint8_t *pool, uint32_t q, uint32_t size) {
    put(pool, q, 4 * size + P);
    put(pool, q + size - 4, 4 * size + P);
}

// ---- the bins of large blocks

// The first block of the smallest bin of `size` or more, 0 where there is none. For each level the last block before it goes to `before`: the
// false block, or the first block of a bin that is smaller. From the top down, along each level as far as bins are smaller; on a level that
// only greater sizes reach there is none to pass. It starts at `at`, which is the false block, or in layout 1 a smaller bin.
static uint32_t find(const uint8_t *pool, uint32_t at, uint32_t size, uint32_t before[LEVELS]) {
    uint32_t next = 0, level = levels_of(pool), reached = 32 - (uint32_t)__builtin_clz(size / 8);
    while (level > reached)
        before[--level] = FALSE_BLOCK;
    while (level-- > 0) {
        while ((next = linked(pool, at, index_word(level))) != 0 && size_at(pool, next) < size)
            at = next;
        before[level] = at;
    }
    return next;
}

// Puts q, the first block of a bin, into the index in the place of `old`, which led on from there; where `old` is 0, between each of
// `before` and what it led to.
static void put_first(uint8_t *pool, uint32_t q, uint32_t size, uint32_t old, const uint32_t before[LEVELS]) {
    uint32_t h = height(levels_of(pool), size);
    put(pool, q + LEVEL, h);
    for (uint32_t level = 0; level < h; level++) {
        uint32_t at = index_word(level);
        put(pool, q + at, link_word(q, linked(pool, old ? old : before[level], at)));
        put(pool, before[level] + at, q - before[level]);
    }
}

static void enter(uint8_t *pool, uint32_t q, uint32_t size) {
    uint32_t before[LEVELS], first = find(pool, FALSE_BLOCK, size, before);
    if (first != 0 && size_at(pool, first) == size) {
        uint32_t next = linked(pool, first, NEXT);
        put(pool, first + NEXT, q - first);
        put(pool, q + PREVIOUS, first - q);
        put(pool, q + NEXT, link_word(q, next));
        if (next != 0)
            put(pool, next + PREVIOUS, q - next);
        return;
    }
    put(pool, q + PREVIOUS, 0);
    put(pool, q + NEXT, 0);
    put_first(pool, q, size, 0, before);
}

static void leave_later(uint8_t *pool, uint32_t previous, uint32_t q) {
    uint32_t next = linked(pool, q, NEXT);
    put(pool, previous + NEXT, link_word(previous, next));
    if (next != 0)
        put(pool, next + PREVIOUS, previous - next);
}

static void leave_first(uint8_t *pool, const uint32_t before[LEVELS], uint32_t q) {
    uint32_t second = linked(pool, q, NEXT), size = size_at(pool, q);
    if (second != 0) {
        put(pool, second + PREVIOUS, 0);
        put_first(pool, second, size, q, before);
        return;
    }
    uint32_t h = height(levels_of(pool), size);
    for (uint32_t level = 0; level < h; level++) {
        uint32_t at = index_word(level);
        put(pool, before[level] + at, link_word(before[level], linked(pool, q, at)));
    }
}

static void leave(uint8_t *pool, uint32_t q) {
    uint32_t before[LEVELS], previous = linked(pool, q, PREVIOUS);
    if (previous != 0) {
        leave_later(pool, previous, q);
        return;
    }
    find(pool, FALSE_BLOCK, size_at(pool, q), before);
    leave_first(pool, before, q);
}

// ---- taking

static uint64_t take_small(uint8_t *pool, uint32_t b) {
    uint32_t q = word(pool, SMALL_BINS + b);
    if (q != 0) {
        put(pool, SMALL_BINS + b, word(pool, q + SMALL_NEXT));
    } else {
        uint32_t start = word(pool, START), end = word(pool, END);
        if (end - start < b + 8)
            return refused(NO_ROOM);
        q = end - b;
        put(pool, END, q);
        put(pool, start, 4 * (q - start) + P);
    }
    put(pool, q, 4 * b + P + HELD);
    add_free(pool, -b);
    return q + 4;
}

// The block of the bin at `first` that is used, taken out of it: the second, where there is one.
static uint32_t leave_bin(uint8_t *pool, const uint32_t before[LEVELS], uint32_t first) {
    uint32_t second = linked(pool, first, NEXT);
    if (second != 0) {
        leave_later(pool, first, second);
        return second;
    }
    leave_first(pool, before, first);
    return first;
}

static uint64_t take_large(uint8_t *pool, uint32_t b) {
    uint32_t before[LEVELS], q, first = find(pool, FALSE_BLOCK, b, before);
    if (first != 0 && size_at(pool, first) == b) {
        q = leave_bin(pool, before, first);
        put(pool, q + b, word(pool, q + b) | P);
    } else if (first != 0 && (first = find(pool, levels_of(pool) == 1 ? before[0] : (uint32_t)FALSE_BLOCK, b + LARGE, before)) != 0) {
        uint32_t z = size_at(pool, first);
        q = leave_bin(pool, before, first);
        put_free(pool, q + b, z - b);
        enter(pool, q + b, z - b);
    } else {
        uint32_t end = word(pool, END);
        q = word(pool, START);
        if (end - q < b + 8)
            return refused(NO_ROOM);
        put(pool, START, q + b);
        put(pool, q + b, 4 * (end - q - b) + P);
    }
    put(pool, q, 4 * b + P + HELD);
    add_free(pool, -b);
    return q + 4;
}

uint64_t plain_take_unchecked(uint8_t *pool, size_t n, uint32_t size) {
    (void)n;
    if (size == 0)
        return refused(NO_SIZE);
    if (size > GREATEST_POOL - 4)
        return refused(NO_ROOM);
    uint32_t b = (size + 4 + 7) / 8 * 8;
    return b < LARGE ? take_small(pool, b) : take_large(pool, b);
}

uint64_t plain_take(uint8_t *pool, size_t n, uint32_t size) {
    uint32_t why = refusal(pool, n);
    return why ? refused(why) : plain_take_unchecked(pool, n, size);
}

// ---- giving back

// The size of the held block whose payload starts at `offset`, 0 where there is none: only a start in the walk counts.
static uint32_t held_at(const uint8_t *pool, size_t n, uint32_t offset) {
    if (offset < 4 || offset - 4 >= n)
        return 0;
    uint32_t at = offset - 4, start = word(pool, START), p = at < start ? (uint32_t)BLOCKS : word(pool, END);
    while (p < at)
        p += size_at(pool, p);
    if (p != at)
        return 0;
    uint32_t w = word(pool, p);
    return w & HELD ? w / 4 : 0;
}

// The remainder ends at the new edge. Its free word is the caller's: what only goes home was free before.
static void move_edge(uint8_t *pool, uint32_t edge) {
    uint32_t start = word(pool, START);
    put(pool, END, edge);
    put(pool, start, 4 * (edge - start) + P);
}

// Where the free blocks from `at` on end, each counted: at a held block, or at n.
static uint32_t past_free(const uint8_t *pool, size_t n, uint32_t at, uint32_t *count) {
    for (; free_at(pool, n, at); ++*count)
        at += size_at(pool, at);
    return at;
}

// Once along each list of small blocks: what lies below the edge leaves it. Only a bin's word or the link of a block that stays is stored into, so
// that the others keep all their bytes.
static void leave_below(uint8_t *pool, uint32_t edge) {
    for (uint32_t z = 8; z < LARGE; z += 8) {
        uint32_t at = SMALL_BINS + z;
        for (uint32_t q = word(pool, at); q != 0; q = word(pool, q + SMALL_NEXT))
            if (q >= edge) {
                put(pool, at, q);
                at = q + SMALL_NEXT;
            }
        put(pool, at, 0);
    }
}

// At E it goes home, without a word of its own being touched, and with it the free blocks above; elsewhere it is put in front of its bin, and the
// block at E is held.
static void give_back_small(uint8_t *pool, size_t n, uint32_t q, uint32_t z) {
    if (q == word(pool, END)) {
        uint32_t above = 0, edge = past_free(pool, n, q + z, &above);
        if (above)
            leave_below(pool, edge);
        move_edge(pool, edge);
        return;
    }
    put(pool, q, 4 * z + P);
    put(pool, q + SMALL_NEXT, word(pool, SMALL_BINS + z));
    put(pool, SMALL_BINS + z, q);
}

// Both neighbours leave. The one that leaves first may store into the other, whose words are no longer governed
// afterwards and must stay as they were.
static void leave_both(uint8_t *pool, uint32_t below, uint32_t above) {
    uint8_t links[CHAIN + 4 - PREVIOUS];
    memcpy(links, pool + above + PREVIOUS, sizeof links);
    leave(pool, below);
    leave(pool, above);
    memcpy(pool + above + PREVIOUS, links, sizeof links);
}

static void give_back_large(uint8_t *pool, uint32_t q, uint32_t z) {
    uint32_t from = word(pool, q) & P ? q : q - size_at(pool, q - 4), to = q + z;
    if (to == word(pool, START)) {
        if (from != q)
            leave(pool, from);
        put(pool, START, from);
        put(pool, from, 4 * (word(pool, END) - from) + P);
        return;
    }
    uint32_t above = word(pool, to);
    if (above & HELD) {
        if (from != q)
            leave(pool, from);
        put(pool, to, above & ~(uint32_t)P);
    } else {
        if (from != q)
            leave_both(pool, from, to);
        else
            leave(pool, to);
        to += above / 4;
    }
    put_free(pool, from, to - from);
    enter(pool, from, to - from);
}

uint64_t plain_give_back_unchecked(uint8_t *pool, size_t n, uint32_t offset) {
    uint32_t z = held_at(pool, n, offset);
    if (z == 0)
        return refused(NOT_HELD);
    if (z < LARGE)
        give_back_small(pool, n, offset - 4, z);
    else
        give_back_large(pool, offset - 4, z);
    add_free(pool, z);
    return z - 4;
}

uint64_t plain_give_back(uint8_t *pool, size_t n, uint32_t offset) {
    uint32_t why = refusal(pool, n);
    return why ? refused(why) : plain_give_back_unchecked(pool, n, offset);
}

// ---- the other calls

uint64_t plain_lay_out(uint8_t *pool, size_t n, uint32_t layout) {
    if (!allowed(n))
        return refused(NOT_ALLOWED);
    if (layout != 1 && layout != 2)
        return refused(NO_LAYOUT);
    uint32_t rest = n - BLOCKS;
    memset(pool, 0, BLOCKS);
    put(pool, FREE_WORD, rest - 4);
    put(pool, FALSE_WORD, FALSE_BLOCK);
    put(pool, START, BLOCKS);
    put(pool, END, n);
    put(pool, FALSE_BLOCK + LEVEL, layout == 1 ? 1 : LEVELS);
    put(pool, BLOCKS, 4 * rest + P);
    return n;
}

// Along the chain once. For each level above the lowest, `last` has the block that leads on from there: to the next first block that reaches
// the level, or nowhere. Words that layout 1 leaves to chance are written, never read.
static void to_layout_2(uint8_t *pool) {
    uint32_t last[LEVELS], f = FALSE_BLOCK;
    put(pool, f + LEVEL, LEVELS);
    for (uint32_t level = 1; level < LEVELS; level++)
        last[level] = f;
    for (uint32_t on = word(pool, f + CHAIN); on != 0; on = word(pool, f + CHAIN)) {
        f += on;
        uint32_t h = height(LEVELS, size_at(pool, f));
        put(pool, f + LEVEL, h);
        for (uint32_t level = 1; level < h; level++) {
            put(pool, last[level] + index_word(level), f - last[level]);
            last[level] = f;
        }
    }
    for (uint32_t level = 1; level < LEVELS; level++)
        put(pool, last[level] + index_word(level), 0);
}

// Of a first block only the level word changes: its upper words are no longer governed, and stay. Those of the false block must be 0.
static void to_layout_1(uint8_t *pool) {
    uint32_t f = FALSE_BLOCK;
    put(pool, f + LEVEL, 1);
    memset(pool + f + LEVEL + 4, 0, CHAIN - LEVEL - 4);
    for (uint32_t on = word(pool, f + CHAIN); on != 0; on = word(pool, f + CHAIN)) {
        f += on;
        put(pool, f + LEVEL, 1);
    }
}

// From the layout that is named as old to the other.
uint64_t plain_convert(uint8_t *pool, size_t n, uint32_t old) {
    if (!allowed(n))
        return refused(NOT_ALLOWED);
    if (old != 1 && old != 2)
        return refused(NO_LAYOUT);
    if (!sound(pool, n))
        return refused(NOT_SOUND);
    if (levels_of(pool) != (old == 1 ? 1 : LEVELS))
        return refused(OTHER_LAYOUT);
    if (old == 1)
        to_layout_2(pool);
    else
        to_layout_1(pool);
    return n;
}

// A pool that is sound by the old rule: the free blocks at E go home. How many they were.
uint64_t plain_bring_in(uint8_t *pool, size_t n) {
    if (!allowed(n))
        return refused(NOT_ALLOWED);
    if (!sound_by_old_rule(pool, n))
        return refused(NOT_SOUND);
    uint32_t count = 0, edge = past_free(pool, n, word(pool, END), &count);
    if (count) {
        leave_below(pool, edge);
        move_edge(pool, edge);
    }
    return count;
}

uint64_t plain_ask(const uint8_t *pool, size_t n, uint32_t offset) {
    uint32_t why = refusal(pool, n);
    if (why)
        return refused(why);
    uint32_t z = held_at(pool, n, offset);
    return z ? z - 4 : refused(NOT_HELD);
}

static void mark_held(const uint8_t *pool, struct marks *m, uint32_t from, uint32_t to) {
    for (uint32_t w, p = from; p < to; p += w / 4) {
        w = word(pool, p);
        if (w & HELD)
            mark(m, p);
    }
}

// The bytes of the payload whose offset stands at a place of the list, 0 where none does; refused unless each offset that is not 0 is that of a
// held payload, and stands in the list once. A start that was marked has a head to be believed.
uint64_t plain_ask_all(const uint8_t *pool, size_t n, const uint32_t *offsets, size_t count, uint32_t place) {
    uint32_t why = refusal(pool, n);
    if (why)
        return refused(why);
    struct marks m;
    no_marks(&m, n);
    mark_held(pool, &m, BLOCKS, word(pool, START));
    mark_held(pool, &m, word(pool, END), n);
    for (size_t i = 0; i < count; i++)
        if (offsets[i] != 0 && !unmark(&m, n, offsets[i] - 4))
            return refused(NOT_HELD);
    uint32_t offset = place < count ? offsets[place] : 0;
    return offset ? word(pool, offset - 4) / 4 - 4 : 0;
}

// Figures: held blocks, held bytes, free small, free large, remainder, free word, largest grant.
static void tally(const uint8_t *pool, uint32_t from, uint32_t to, uint32_t *figures) {
    for (uint32_t w, p = from; p < to; p += w / 4) {
        w = word(pool, p);
        if (w & HELD) {
            figures[0]++;
            figures[1] += w / 4;
        } else {
            figures[w / 4 < LARGE ? 2 : 3]++;
            if (figures[6] < w / 4)
                figures[6] = w / 4;
        }
    }
}

uint64_t plain_figures(const uint8_t *pool, size_t n, uint32_t *figures, size_t count) {
    uint32_t why = refusal(pool, n);
    if (why || count != 7)
        return refused(why ? why : LIST_LENGTH);
    uint32_t start = word(pool, START), end = word(pool, END);
    memset(figures, 0, 7 * sizeof *figures);
    figures[4] = end - start;
    figures[6] = end - start - 8; // the remainder keeps 8 bytes
    figures[5] = word(pool, FREE_WORD);
    tally(pool, BLOCKS, start, figures);
    tally(pool, end, n, figures);
    if (figures[6])
        figures[6] -= 4;
    return figures[0];
}

// The least class of a payload: class k has size (4 + k mod 4) × 2^(k div 4 + 1). The three top bits of payload - 1 and their place name the
// last class that is too small.
static uint32_t class_of(uint32_t payload) {
    if (payload <= 8)
        return 0;
    uint32_t place = 29 - (uint32_t)__builtin_clz(payload - 1);
    return 4 * place + ((payload - 1) >> place) - 7;
}

static uint32_t count_run(const uint8_t *pool, uint32_t from, uint32_t to, uint32_t *counts) {
    uint32_t held = 0;
    for (uint32_t w, p = from; p < to; p += w / 4) {
        w = word(pool, p);
        if (w & HELD) {
            counts[class_of(w / 4 - 4)]++;
            held++;
        }
    }
    return held;
}

uint64_t plain_class_count(const uint8_t *pool, size_t n, uint32_t *counts, size_t count) {
    uint32_t why = refusal(pool, n);
    if (why)
        return refused(why);
    if (count != CLASSES)
        return refused(LIST_LENGTH);
    memset(counts, 0, CLASSES * sizeof *counts);
    uint32_t low = count_run(pool, BLOCKS, word(pool, START), counts);
    return low + count_run(pool, word(pool, END), n, counts);
}

// ---- the piston bank, which knows no more of the pool than its calls answer

// How many bytes a record has, its byte of kind included: a body of 8, 16 or 32 bytes by its kind. 0 for an unknown kind.
static uint32_t record_size(uint8_t kind) { return kind >= 1 && kind <= 3 ? 1 + (4u << kind) : 0; }

// What is asked for every call: the first of 1, 2, 10 and 12 that refuses, or the bytes of the payload that the piston names, 0 where it is empty.
static uint64_t bank_asked(const uint8_t *pool, size_t n, const uint32_t *bank, uint32_t piston) {
    uint64_t asked = plain_ask_all(pool, n, bank, PISTONS, piston);
    uint32_t why = asked >> 32;
    if (why && why != NOT_HELD)
        return asked;
    return piston >= PISTONS ? refused(NO_PISTON) : why ? refused(NOT_NAMED) : asked;
}

// The new record is written while the old one is still held, so that with no room the old setting stays.
uint64_t plain_bank_set(uint8_t *pool, size_t n, uint32_t bank[32], uint32_t piston, uint8_t kind, const uint8_t *body, size_t length) {
    uint64_t asked = bank_asked(pool, n, bank, piston);
    if (asked >> 32)
        return asked;
    uint32_t size = record_size(kind);
    if (size == 0 || length != size - 1)
        return refused(NO_RECORD);
    uint64_t taken = plain_take(pool, n, size);
    if (taken >> 32)
        return taken;
    uint32_t offset = taken, old = bank[piston];
    pool[offset] = kind;
    memcpy(pool + offset + 1, body, length);
    bank[piston] = offset;
    if (old != 0)
        plain_give_back(pool, n, old);
    return n;
}

uint64_t plain_bank_clear(uint8_t *pool, size_t n, uint32_t bank[32], uint32_t piston) {
    uint64_t asked = bank_asked(pool, n, bank, piston);
    if (asked >> 32)
        return asked;
    uint32_t old = bank[piston];
    bank[piston] = 0;
    if (old != 0)
        plain_give_back(pool, n, old);
    return n;
}

uint64_t plain_bank_recall(const uint8_t *pool, size_t n, const uint32_t bank[32], uint32_t piston) {
    uint64_t asked = bank_asked(pool, n, bank, piston);
    if (asked == 0 || asked >> 32)
        return asked;
    uint32_t size = record_size(pool[bank[piston]]);
    return size == 0 || size > asked ? refused(NOT_NAMED) : size;
}
