/* The pool and the piston bank for any processor: C99 for a compiler that has <stddef.h> and <stdint.h>, and no library.

   Made by tools/c99 from the checked MIR of the proved crates, with a function for each of theirs: do not edit it, edit the crates. What is
   proved is that program. That this file does the same is tested, not proved: docs/BOARD.md says how, and how to use the file.

   Names say where a function comes from: bins_enter is `enter` of the crate bins; runs_scan_Small is its `scan` for the type `Small`, and
   Option_u32 a u32 that may be absent. A slice of Rattle's is a pointer and a length, NAME and
   NAME_len; its usize is uint64_t, since the proofs are about 64 bits, whatever size_t is here. Every number is unsigned: a signed
   distance is its two's complement. A truth is 0 or 1. Bytes of the pool are read and written one by one, so neither its alignment nor
   the machine's byte order matters.

   With POOL_ALONE defined the piston bank is left out, and bank.h is not needed. */

#ifdef POOL_ALONE
#include "pool.h"
#else
#include "bank.h"
#endif
#include <stddef.h>
#include <stdint.h>

// Not to be written into its caller, whose call before it needs the most stack.
#if defined(__GNUC__)
#define APART __attribute__((noinline))
#else
#define APART
#endif

#define WORDS_U32_WIDTH 4u
#define WORDS_U64_WIDTH 8u
#define HEADS_HELD_ABOVE_FREE 1u
#define HEADS_FREE 2u
#define HEADS_HELD 3u
#define CLASSES_LEAST 8u
#define CLASSES_CLASSES 53u
#define CLASSES_GREATEST 65536u
#define PAPER_FREE_WORD 0u
#define PAPER_PREVIOUS 4u
#define PAPER_SMALL_NEXT 4u
#define PAPER_FALSE_WORD 8u
#define PAPER_NEXT 8u
#define PAPER_LEVEL 12u
#define PAPER_LEVELS 13u
#define PAPER_START 16u
#define PAPER_END 24u
#define PAPER_SMALL_BINS 24u
#define PAPER_CHAIN 64u
#define PAPER_LARGE 72u
#define PAPER_FALSE_BLOCK 96u
#define PAPER_BLOCKS 168u

typedef struct {
    uint32_t size;
    int p;
    int held;
} heads_Head;

// Both words of a link between two blocks: there, and back by the negated distance.
typedef struct {
    uint32_t there;
    uint32_t home;
} heads_Pair;

// Why a call is refused. Each has a number, which a caller in C and the lines of a program tell.
enum { PAPER_REFUSAL_NOT_ALLOWED, PAPER_REFUSAL_NOT_SOUND, PAPER_REFUSAL_NO_SIZE, PAPER_REFUSAL_NO_ROOM, PAPER_REFUSAL_NOT_HELD,
       PAPER_REFUSAL_LIST_LENGTH, PAPER_REFUSAL_UNREADABLE, PAPER_REFUSAL_NO_LAYOUT, PAPER_REFUSAL_NO_PISTON,
       PAPER_REFUSAL_NO_RECORD, PAPER_REFUSAL_NOT_NAMED, PAPER_REFUSAL_OTHER_LAYOUT };
typedef struct {
    uint8_t tag;
} paper_Refusal;

// A value that may be absent.
enum { OPTION_U32_NONE, OPTION_U32_SOME };
typedef struct {
    uint8_t tag;
    union {
        uint32_t Some;
    } as;
} Option_u32;

// How many free blocks there were, and the sum of their sizes.
typedef struct {
    uint64_t count;
    uint64_t sum;
} runs_Seen;

// A value that may be absent.
enum { OPTION_SEEN_NONE, OPTION_SEEN_SOME };
typedef struct {
    uint8_t tag;
    union {
        runs_Seen Some;
    } as;
} Option_Seen;

// A value that may be absent.
enum { OPTION_U64_NONE, OPTION_U64_SOME };
typedef struct {
    uint8_t tag;
    union {
        uint64_t Some;
    } as;
} Option_u64;

// What was found for a size on a level of the index: the last block there that is smaller, the next one, and the size of that. Where there is
// no next one, the last two are 0. Other crates pass it on, and ask whether there is one and its size.
// No Option of the two: 0 is the pool's own word for none, `along` compares `first` with each link that it reads, and the models say so.
typedef struct {
    uint32_t level;
    uint32_t before;
    uint32_t first;
    uint32_t size;
} bins_Bin;

typedef struct {
    uint32_t start;
    uint32_t end;
    uint32_t size;
} choosing_Rest;

// A value, or why there is none.
enum { RESULT_REST_REFUSAL_OK, RESULT_REST_REFUSAL_ERR };
typedef struct {
    uint8_t tag;
    union {
        choosing_Rest Ok;
        paper_Refusal Err;
    } as;
} Result_Rest_Refusal;

// One case for each clause of the rule. Each carries what carrying it out needs, and last the size of the block, so nothing is looked
// for twice: the first block of a small bin; the remainder, for its high end; a bin of exactly that size; a larger one, for the
// low end of a block; the remainder, for its low end.
enum { CHOOSING_CHOICE_FIRST_OF_BIN, CHOOSING_CHOICE_HIGH_END, CHOOSING_CHOICE_EXACT_BIN, CHOOSING_CHOICE_LARGER_BIN,
       CHOOSING_CHOICE_LOW_END };
typedef struct {
    uint8_t tag;
    union {
        struct { uint32_t f0; uint32_t f1; } FirstOfBin;
        struct { choosing_Rest f0; uint32_t f1; } HighEnd;
        struct { bins_Bin f0; uint32_t f1; } ExactBin;
        struct { bins_Bin f0; uint32_t f1; } LargerBin;
        struct { choosing_Rest f0; uint32_t f1; } LowEnd;
    } as;
} choosing_Choice;

// A value, or why there is none.
enum { RESULT_CHOICE_REFUSAL_OK, RESULT_CHOICE_REFUSAL_ERR };
typedef struct {
    uint8_t tag;
    union {
        choosing_Choice Ok;
        paper_Refusal Err;
    } as;
} Result_Choice_Refusal;

// A value, or why there is none.
enum { RESULT_U32_REFUSAL_OK, RESULT_U32_REFUSAL_ERR };
typedef struct {
    uint8_t tag;
    union {
        uint32_t Ok;
        paper_Refusal Err;
    } as;
} Result_u32_Refusal;

// The blocks that start from `at` on and below `end`. One of size 0, which no sound pool has, ends them.
typedef struct {
    const unsigned char *pool;
    size_t pool_len;
    uint64_t at;
    uint64_t end;
} walk_Blocks;

// The block that an address is in, by its kind, with its start and its size; or nothing, outside the blocks.
enum { PAPER_FOUND_HELD, PAPER_FOUND_FREE, PAPER_FOUND_REMAINDER, PAPER_FOUND_NOTHING };
typedef struct {
    uint8_t tag;
    union {
        struct { uint32_t f0; uint32_t f1; } Held;
        struct { uint32_t f0; uint32_t f1; } Free;
        struct { uint32_t f0; uint32_t f1; } Remainder;
    } as;
} paper_Found;

// The seven figures of a pool. `largest` is the greatest payload that a take would be granted.
typedef struct {
    uint32_t held_blocks;
    uint32_t held_bytes;
    uint32_t free_small;
    uint32_t free_large;
    uint32_t remainder;
    uint32_t free_word;
    uint32_t largest;
} paper_Figures;

// Free blocks end to end: where they end, and how many they are.
typedef struct {
    uint32_t end;
    uint32_t blocks;
} homing_Run;

// A value, or why there is none.
enum { RESULT_VOID_REFUSAL_OK, RESULT_VOID_REFUSAL_ERR };
typedef struct {
    uint8_t tag;
    union {
        paper_Refusal Err;
    } as;
} Result_void_Refusal;

// A value, or why there is none.
enum { RESULT_FIGURES_REFUSAL_OK, RESULT_FIGURES_REFUSAL_ERR };
typedef struct {
    uint8_t tag;
    union {
        paper_Figures Ok;
        paper_Refusal Err;
    } as;
} Result_Figures_Refusal;

// One member of a union is set, and maybe not the widest: gcc warns of that as of a value that was not set.
#if defined(__GNUC__) && !defined(__clang__)
#pragma GCC diagnostic push
#pragma GCC diagnostic ignored "-Wmaybe-uninitialized"
#endif

static inline heads_Head heads_Head_of(uint32_t size, int p, int held)
{
    heads_Head made;
    made.size = size;
    made.p = p;
    made.held = held;
    return made;
}

static inline heads_Pair heads_Pair_of(uint32_t there, uint32_t home)
{
    heads_Pair made;
    made.there = there;
    made.home = home;
    return made;
}

static inline paper_Refusal paper_Refusal_NotAllowed(void)
{
    paper_Refusal made;
    made.tag = PAPER_REFUSAL_NOT_ALLOWED;
    return made;
}

static inline paper_Refusal paper_Refusal_NotSound(void)
{
    paper_Refusal made;
    made.tag = PAPER_REFUSAL_NOT_SOUND;
    return made;
}

static inline paper_Refusal paper_Refusal_NoSize(void)
{
    paper_Refusal made;
    made.tag = PAPER_REFUSAL_NO_SIZE;
    return made;
}

static inline paper_Refusal paper_Refusal_NoRoom(void)
{
    paper_Refusal made;
    made.tag = PAPER_REFUSAL_NO_ROOM;
    return made;
}

static inline paper_Refusal paper_Refusal_NotHeld(void)
{
    paper_Refusal made;
    made.tag = PAPER_REFUSAL_NOT_HELD;
    return made;
}

static inline paper_Refusal paper_Refusal_ListLength(void)
{
    paper_Refusal made;
    made.tag = PAPER_REFUSAL_LIST_LENGTH;
    return made;
}

static inline paper_Refusal paper_Refusal_NoLayout(void)
{
    paper_Refusal made;
    made.tag = PAPER_REFUSAL_NO_LAYOUT;
    return made;
}

static inline paper_Refusal paper_Refusal_OtherLayout(void)
{
    paper_Refusal made;
    made.tag = PAPER_REFUSAL_OTHER_LAYOUT;
    return made;
}

static inline Option_u32 Option_u32_None(void)
{
    Option_u32 made;
    made.tag = OPTION_U32_NONE;
    return made;
}

static inline Option_u32 Option_u32_Some(uint32_t f0)
{
    Option_u32 made;
    made.tag = OPTION_U32_SOME;
    made.as.Some = f0;
    return made;
}

static inline runs_Seen runs_Seen_of(uint64_t count, uint64_t sum)
{
    runs_Seen made;
    made.count = count;
    made.sum = sum;
    return made;
}

static inline Option_Seen Option_Seen_None(void)
{
    Option_Seen made;
    made.tag = OPTION_SEEN_NONE;
    return made;
}

static inline Option_Seen Option_Seen_Some(runs_Seen f0)
{
    Option_Seen made;
    made.tag = OPTION_SEEN_SOME;
    made.as.Some = f0;
    return made;
}

static inline Option_u64 Option_u64_None(void)
{
    Option_u64 made;
    made.tag = OPTION_U64_NONE;
    return made;
}

static inline Option_u64 Option_u64_Some(uint64_t f0)
{
    Option_u64 made;
    made.tag = OPTION_U64_SOME;
    made.as.Some = f0;
    return made;
}

static inline bins_Bin bins_Bin_of(uint32_t level, uint32_t before, uint32_t first, uint32_t size)
{
    bins_Bin made;
    made.level = level;
    made.before = before;
    made.first = first;
    made.size = size;
    return made;
}

static inline choosing_Rest choosing_Rest_of(uint32_t start, uint32_t end, uint32_t size)
{
    choosing_Rest made;
    made.start = start;
    made.end = end;
    made.size = size;
    return made;
}

static inline Result_Rest_Refusal Result_Rest_Refusal_Ok(choosing_Rest f0)
{
    Result_Rest_Refusal made;
    made.tag = RESULT_REST_REFUSAL_OK;
    made.as.Ok = f0;
    return made;
}

static inline Result_Rest_Refusal Result_Rest_Refusal_Err(paper_Refusal f0)
{
    Result_Rest_Refusal made;
    made.tag = RESULT_REST_REFUSAL_ERR;
    made.as.Err = f0;
    return made;
}

static inline choosing_Choice choosing_Choice_FirstOfBin(uint32_t f0, uint32_t f1)
{
    choosing_Choice made;
    made.tag = CHOOSING_CHOICE_FIRST_OF_BIN;
    made.as.FirstOfBin.f0 = f0;
    made.as.FirstOfBin.f1 = f1;
    return made;
}

static inline choosing_Choice choosing_Choice_HighEnd(choosing_Rest f0, uint32_t f1)
{
    choosing_Choice made;
    made.tag = CHOOSING_CHOICE_HIGH_END;
    made.as.HighEnd.f0 = f0;
    made.as.HighEnd.f1 = f1;
    return made;
}

static inline choosing_Choice choosing_Choice_ExactBin(bins_Bin f0, uint32_t f1)
{
    choosing_Choice made;
    made.tag = CHOOSING_CHOICE_EXACT_BIN;
    made.as.ExactBin.f0 = f0;
    made.as.ExactBin.f1 = f1;
    return made;
}

static inline choosing_Choice choosing_Choice_LargerBin(bins_Bin f0, uint32_t f1)
{
    choosing_Choice made;
    made.tag = CHOOSING_CHOICE_LARGER_BIN;
    made.as.LargerBin.f0 = f0;
    made.as.LargerBin.f1 = f1;
    return made;
}

static inline choosing_Choice choosing_Choice_LowEnd(choosing_Rest f0, uint32_t f1)
{
    choosing_Choice made;
    made.tag = CHOOSING_CHOICE_LOW_END;
    made.as.LowEnd.f0 = f0;
    made.as.LowEnd.f1 = f1;
    return made;
}

static inline Result_Choice_Refusal Result_Choice_Refusal_Ok(choosing_Choice f0)
{
    Result_Choice_Refusal made;
    made.tag = RESULT_CHOICE_REFUSAL_OK;
    made.as.Ok = f0;
    return made;
}

static inline Result_Choice_Refusal Result_Choice_Refusal_Err(paper_Refusal f0)
{
    Result_Choice_Refusal made;
    made.tag = RESULT_CHOICE_REFUSAL_ERR;
    made.as.Err = f0;
    return made;
}

static inline Result_u32_Refusal Result_u32_Refusal_Ok(uint32_t f0)
{
    Result_u32_Refusal made;
    made.tag = RESULT_U32_REFUSAL_OK;
    made.as.Ok = f0;
    return made;
}

static inline Result_u32_Refusal Result_u32_Refusal_Err(paper_Refusal f0)
{
    Result_u32_Refusal made;
    made.tag = RESULT_U32_REFUSAL_ERR;
    made.as.Err = f0;
    return made;
}

static inline walk_Blocks walk_Blocks_of(const unsigned char *pool, size_t pool_len, uint64_t at, uint64_t end)
{
    walk_Blocks made;
    made.pool = pool;
    made.pool_len = pool_len;
    made.at = at;
    made.end = end;
    return made;
}

static inline paper_Found paper_Found_Held(uint32_t f0, uint32_t f1)
{
    paper_Found made;
    made.tag = PAPER_FOUND_HELD;
    made.as.Held.f0 = f0;
    made.as.Held.f1 = f1;
    return made;
}

static inline paper_Found paper_Found_Free(uint32_t f0, uint32_t f1)
{
    paper_Found made;
    made.tag = PAPER_FOUND_FREE;
    made.as.Free.f0 = f0;
    made.as.Free.f1 = f1;
    return made;
}

static inline paper_Found paper_Found_Remainder(uint32_t f0, uint32_t f1)
{
    paper_Found made;
    made.tag = PAPER_FOUND_REMAINDER;
    made.as.Remainder.f0 = f0;
    made.as.Remainder.f1 = f1;
    return made;
}

static inline paper_Found paper_Found_Nothing(void)
{
    paper_Found made;
    made.tag = PAPER_FOUND_NOTHING;
    return made;
}

static inline paper_Figures paper_Figures_of(uint32_t held_blocks, uint32_t held_bytes, uint32_t free_small, uint32_t free_large,
        uint32_t remainder, uint32_t free_word, uint32_t largest)
{
    paper_Figures made;
    made.held_blocks = held_blocks;
    made.held_bytes = held_bytes;
    made.free_small = free_small;
    made.free_large = free_large;
    made.remainder = remainder;
    made.free_word = free_word;
    made.largest = largest;
    return made;
}

static inline homing_Run homing_Run_of(uint32_t end, uint32_t blocks)
{
    homing_Run made;
    made.end = end;
    made.blocks = blocks;
    return made;
}

static inline Result_void_Refusal Result_void_Refusal_Ok(void)
{
    Result_void_Refusal made;
    made.tag = RESULT_VOID_REFUSAL_OK;
    return made;
}

static inline Result_void_Refusal Result_void_Refusal_Err(paper_Refusal f0)
{
    Result_void_Refusal made;
    made.tag = RESULT_VOID_REFUSAL_ERR;
    made.as.Err = f0;
    return made;
}

static inline Result_Figures_Refusal Result_Figures_Refusal_Ok(paper_Figures f0)
{
    Result_Figures_Refusal made;
    made.tag = RESULT_FIGURES_REFUSAL_OK;
    made.as.Ok = f0;
    return made;
}

static inline Result_Figures_Refusal Result_Figures_Refusal_Err(paper_Refusal f0)
{
    Result_Figures_Refusal made;
    made.tag = RESULT_FIGURES_REFUSAL_ERR;
    made.as.Err = f0;
    return made;
}

#if defined(__GNUC__) && !defined(__clang__)
#pragma GCC diagnostic pop
#endif

// How many zero bits stand above the highest bit of x that is set; 32 where none is.
static inline uint32_t leading_zeros(uint32_t x)
{
    uint32_t zeros = 32u;
    if (x >> 16 != 0u) {
        zeros -= 16u;
        x >>= 16;
    }
    if (x >> 8 != 0u) {
        zeros -= 8u;
        x >>= 8;
    }
    if (x >> 4 != 0u) {
        zeros -= 4u;
        x >>= 4;
    }
    if (x >> 2 != 0u) {
        zeros -= 2u;
        x >>= 2;
    }
    return x >> 1 != 0u ? zeros - 2u : zeros - x;
}

// How many zero bits stand below the lowest bit of x that is set; 32 where none is.
static inline uint32_t trailing_zeros(uint32_t x)
{
    uint32_t zeros = 0u;
    if ((x & 0xffffu) == 0u) {
        zeros += 16u;
        x >>= 16;
    }
    if ((x & 0xffu) == 0u) {
        zeros += 8u;
        x >>= 8;
    }
    if ((x & 0xfu) == 0u) {
        zeros += 4u;
        x >>= 4;
    }
    if ((x & 0x3u) == 0u) {
        zeros += 2u;
        x >>= 2;
    }
    if ((x & 0x1u) != 0u) {
        return zeros;
    }
    return x != 0u ? zeros + 1u : zeros + 2u;
}

// ---- core: the kit that the crates are written with

// `core::int::i32::cast_unsigned` of the kit's own library.
static inline uint32_t core_i32_cast_unsigned(uint32_t a)
{
    if ((a ^ 0x80000000u) < (0u ^ 0x80000000u)) {
        return 0xffffffffu - (uint32_t)~a;
    }
    return a;
}

// `core::int::u32::cast_signed` of the kit's own library.
static inline uint32_t core_u32_cast_signed(uint32_t a)
{
    if (a <= 2147483647u) {
        return a;
    }
    return (uint32_t)~(0xffffffffu - a);
}

// `core::int::u32::min` of the kit's own library.
static inline uint32_t core_u32_min(uint32_t a, uint32_t b)
{
    if (b < a) {
        return b;
    }
    return a;
}

// `core::int::usize::min` of the kit's own library.
static inline uint64_t core_usize_min(uint64_t a, uint64_t b)
{
    if (b < a) {
        return b;
    }
    return a;
}

// `core::int::u32::max` of the kit's own library.
static inline uint32_t core_u32_max(uint32_t a, uint32_t b)
{
    if (b < a) {
        return a;
    }
    return b;
}

// `core::int::u32::saturating_sub` of the kit's own library.
static inline uint32_t core_u32_saturating_sub(uint32_t a, uint32_t b)
{
    if (b <= a) {
        return a - b;
    }
    return 0u;
}

// ---- words: little-endian words in a list of bytes, the laws once over the width; parts of such a list

// Whether a word of this width at `at` is wholly in the bytes. The first difference is the same for every read of a pool, so a read costs one test.
static inline int words_is_within(const unsigned char *s, size_t s_len, uint64_t at, uint64_t width)
{
    (void)s;
    uint64_t n = s_len;
    if (n < width) {
        return 0;
    }
    return at <= n - width;
}

static inline uint32_t words_u32_read(const unsigned char *s, size_t s_len, uint64_t at)
{
    if (!words_is_within(s, s_len, at, WORDS_U32_WIDTH)) {
        return 0u;
    }
    const unsigned char *s_at = s + at;
    return (uint32_t)s_at[0u] + ((uint32_t)s_at[1u] << 8) + ((uint32_t)s_at[2u] << 16) + ((uint32_t)s_at[3u] << 24);
}

// The word at `at`, of the width that is asked for.
static inline uint32_t words_get_u32(const unsigned char *s, size_t s_len, uint64_t at)
{
    return words_u32_read(s, s_len, at);
}

// The word of 4 bytes, `offset` bytes past the position `at`.
static inline uint32_t words_field(const unsigned char *s, size_t s_len, uint32_t at, uint32_t offset)
{
    return words_get_u32(s, s_len, (uint64_t)at + (uint64_t)offset);
}

static inline uint32_t words_minus(uint32_t a, uint32_t b)
{
    return (uint32_t)(a - b);
}

static inline uint32_t words_plus(uint32_t a, uint32_t b)
{
    return (uint32_t)(a + b);
}

static inline void words_u32_write(uint32_t self, unsigned char *s, size_t s_len, uint64_t at)
{
    if (!words_is_within(s, s_len, at, WORDS_U32_WIDTH)) {
        return;
    }
    unsigned char *s_at = s + at;
    s_at[0u] = (uint8_t)(self % 256u);
    s_at[1u] = (uint8_t)((self >> 8) % 256u);
    s_at[2u] = (uint8_t)((self >> 16) % 256u);
    s_at[3u] = (uint8_t)((self >> 24) % 256u);
}

// Stores the word at `at`.
static inline void words_put_u32(unsigned char *s, size_t s_len, uint64_t at, uint32_t v)
{
    words_u32_write(v, s, s_len, at);
}

// Stores the word of 4 bytes, `offset` bytes past the position `at`.
static inline void words_put_field(unsigned char *s, size_t s_len, uint32_t at, uint32_t offset, uint32_t v)
{
    words_put_u32(s, s_len, (uint64_t)at + (uint64_t)offset, v);
}

static inline void words_u64_write(uint64_t self, unsigned char *s, size_t s_len, uint64_t at)
{
    if (!words_is_within(s, s_len, at, WORDS_U64_WIDTH)) {
        return;
    }
    words_u32_write((uint32_t)(self % 0x100000000u), s, s_len, at);
    words_u32_write((uint32_t)(self >> 32), s, s_len, at + 4u);
}

// Stores the word at `at`.
static inline void words_put_u64(unsigned char *s, size_t s_len, uint64_t at, uint64_t v)
{
    words_u64_write(v, s, s_len, at);
}

// ---- heads: the head word taken apart and put together, block sizes, signed links

static inline heads_Head heads_Head_from_u32(uint32_t w)
{
    return heads_Head_of(w >> 2u, ((w >> 1u) & 1u) == 1u, (w & 1u) == 1u);
}

static inline uint32_t heads_u32_from_Head(heads_Head h)
{
    return ((h.size << 2u) | ((uint32_t)h.p << 1u)) | (uint32_t)h.held;
}

// The head of a free block; a free block never stands above a free large one.
static inline uint32_t heads_free_head(uint32_t size)
{
    return heads_u32_from_Head(heads_Head_of(size, 1, 0));
}

// The size alone.
static inline uint32_t heads_size_of(uint32_t w)
{
    return w >> 2u;
}

// Both flags in one number, 2 x P + a, for one test of both.
static inline uint32_t heads_flags_of(uint32_t w)
{
    return w & 3u;
}

// Where a link word leads; 0 where it leads nowhere.
static inline uint32_t heads_follow(uint32_t from, uint32_t word)
{
    if (word == 0u) {
        return 0u;
    }
    return (uint32_t)(from + core_i32_cast_unsigned(core_u32_cast_signed(word)));
}

// The signed distance from one start to another.
static inline uint32_t heads_distance(uint32_t from, uint32_t to)
{
    return core_u32_cast_signed(words_minus(to, from));
}

// The link word from a block to another; 0 where there is none.
static inline uint32_t heads_link_word(uint32_t from, uint32_t to)
{
    if (to == 0u) {
        return 0u;
    }
    return core_i32_cast_unsigned(heads_distance(from, to));
}

static inline heads_Pair heads_both_ways(uint32_t from, uint32_t to)
{
    uint32_t there = heads_distance(from, to);
    return heads_Pair_of(core_i32_cast_unsigned(there), core_i32_cast_unsigned((uint32_t)(0u - there)));
}

// The same head with another P, for the block above one that changed.
static inline uint32_t heads_with_p(uint32_t w, int p)
{
    heads_Head value = heads_Head_from_u32(w);
    return heads_u32_from_Head(heads_Head_of(value.size, p, value.held));
}

// The block size for a payload of s bytes: exact for every s, so it may need 33 bits.
static inline uint64_t heads_block_size(uint32_t s)
{
    return (((uint64_t)s + 4u + 7u) >> 3) << 3;
}

// The head of a held block above no free large block. It and `free_head` differ in a flag alone, and stay two: `true` at a call would say less.
static inline uint32_t heads_held_head(uint32_t size)
{
    return heads_u32_from_Head(heads_Head_of(size, 1, 1));
}

// ---- classes: the class of a payload, and the 53 class sizes that it is held to

// The least class whose size is at least the payload. Above 8, let top be the three top bits of payload - 1, and place how many bits are
// below them: class 4 x place + top - 8 has top x 2^place bytes, just too few, and the next one has (top + 1) x 2^place, which is enough.
// Payload 100: 99 is 110 0011 in bits, so top is 6 and place is 4; class 14 has 96 bytes, and class 15 has 112.
static inline uint32_t classes_class_of(uint32_t payload)
{
    if (payload <= CLASSES_LEAST) {
        return 0u;
    }
    if (CLASSES_GREATEST < payload) {
        return CLASSES_CLASSES;
    }
    uint32_t less_one = payload - 1u;
    uint32_t place = 29u - leading_zeros(less_one);
    uint32_t top = less_one >> place;
    return (place << 2) + top - 7u;
}

// ---- paper: what a reader must believe (specs): blocks, governed words, sound, the rules, the answers; and the laws of states and sheets (proofs)

static inline uint8_t paper_u8_from_Refusal(paper_Refusal refusal)
{
    if (refusal.tag == PAPER_REFUSAL_NOT_ALLOWED) {
        return 1u;
    } else if (refusal.tag == PAPER_REFUSAL_NOT_SOUND) {
        return 2u;
    } else if (refusal.tag == PAPER_REFUSAL_NO_SIZE) {
        return 3u;
    } else if (refusal.tag == PAPER_REFUSAL_NO_ROOM) {
        return 4u;
    } else if (refusal.tag == PAPER_REFUSAL_NOT_HELD) {
        return 5u;
    } else if (refusal.tag == PAPER_REFUSAL_LIST_LENGTH) {
        return 6u;
    } else if (refusal.tag == PAPER_REFUSAL_UNREADABLE) {
        return 7u;
    } else if (refusal.tag == PAPER_REFUSAL_NO_LAYOUT) {
        return 8u;
    } else if (refusal.tag == PAPER_REFUSAL_NO_PISTON) {
        return 10u;
    } else if (refusal.tag == PAPER_REFUSAL_NO_RECORD) {
        return 11u;
    } else if (refusal.tag == PAPER_REFUSAL_NOT_NAMED) {
        return 12u;
    } else {
        return 13u;
    }
}

// ---- levels: how high the index over the bins is, and up to which level a bin stands in it

// How high the pool's index is, which tells its layout: 13 where the false block's level word says so, else 1.
static inline uint32_t levels_top(const unsigned char *pool, size_t pool_len)
{
    if (words_field(pool, pool_len, PAPER_FALSE_BLOCK, PAPER_LEVEL) == PAPER_LEVELS) {
        return PAPER_LEVELS;
    }
    return 1u;
}

// Where the word of a level stands in a first block: level 1's is the chain word, and each higher one 4 bytes before. No level is above 17.
static inline uint32_t levels_word(uint32_t level)
{
    if (17u < level) {
        return 0u;
    }
    return (uint32_t)PAPER_CHAIN + 4u - (level << 2);
}

// Up to which level the bin of a size stands in an index `top` high: 1 and the trailing zero bits of size / 8, at most `top`.
static inline uint32_t levels_height(uint32_t top, uint32_t size)
{
    if (top == 1u) {
        return 1u;
    }
    return core_u32_min(top, trailing_zeros(size >> 3) + 1u);
}

// The level to look for a bin from: the least size on level j is 8 x 2^(j - 1), so no smaller bin stands higher.
static inline uint32_t levels_start(uint32_t top, uint32_t size)
{
    if (top == 1u) {
        return 1u;
    }
    uint32_t bits = 32u - leading_zeros(size >> 3);
    if (bits == 0u) {
        return top;
    }
    return core_u32_min(top, bits);
}

// ---- laying: a buffer is laid out, in either layout

// How high the index of a layout is, of layout 1 and of layout 2; no other number names one.
static inline Option_u32 laying_top_of(uint32_t layout)
{
    if (layout == 1u) {
        return Option_u32_Some(1u);
    } else if (layout == 2u) {
        return Option_u32_Some(PAPER_LEVELS);
    } else {
        return Option_u32_None();
    }
}

// The header and the false block are zeros.
static inline void laying_clear(unsigned char *pool, size_t pool_len)
{
    for (uint64_t k = 0u; k < 42u; k++) {
        words_put_u32(pool, pool_len, k << 2, 0u);
    }
}

// Lays the buffer out as a fresh pool of n bytes, its own length, which is allowed, with an index `top` high: after the zeros, the words that
// are not 0. There is no bin yet, so the index words of either layout are 0.
static inline void laying_lay_out(unsigned char *pool, size_t pool_len, uint32_t n, uint32_t top)
{
    uint32_t rest = words_minus(n, PAPER_BLOCKS);
    laying_clear(pool, pool_len);
    words_put_u64(pool, pool_len, PAPER_FREE_WORD, (uint64_t)words_minus(rest, 4u));
    words_put_u64(pool, pool_len, PAPER_FALSE_WORD, (uint64_t)PAPER_FALSE_BLOCK);
    words_put_u64(pool, pool_len, PAPER_START, (uint64_t)PAPER_BLOCKS);
    words_put_u64(pool, pool_len, PAPER_END, (uint64_t)n);
    words_put_field(pool, pool_len, PAPER_FALSE_BLOCK, PAPER_LEVEL, top);
    words_put_u32(pool, pool_len, (uint64_t)PAPER_BLOCKS, heads_free_head(rest));
}

// ---- marks: a set of places as bits

// Sets bit i.
static inline void marks_put_in(uint64_t *s, size_t s_len, uint64_t i)
{
    uint64_t q = i >> 6;
    if (q < s_len) {
        s[q] = s[q] | ((uint64_t)1u << (i % 64u));
    }
}

// Marks the start q.
static inline void marks_mark(uint64_t *m, size_t m_len, uint32_t q)
{
    marks_put_in(m, m_len, (uint64_t)(q >> 3));
}

// Whether bit i is set.
static inline int marks_has(const uint64_t *s, size_t s_len, uint64_t i)
{
    uint64_t q = i >> 6;
    int value = q < s_len;
    if (value) {
        value = (s[q] >> (i % 64u)) % 2u == 1u;
    }
    return value;
}

// Whether the start q is marked.
static inline int marks_marked(const uint64_t *m, size_t m_len, uint32_t q)
{
    int value = q % 8u == 0u;
    if (value) {
        value = marks_has(m, m_len, (uint64_t)(q >> 3));
    }
    return value;
}

// Clears bit i.
static inline void marks_take_out(uint64_t *s, size_t s_len, uint64_t i)
{
    uint64_t q = i >> 6;
    if (q < s_len) {
        s[q] = s[q] - (s[q] & ((uint64_t)1u << (i % 64u)));
    }
}

// Takes the mark of the start q away.
static inline void marks_unmark(uint64_t *m, size_t m_len, uint32_t q)
{
    marks_take_out(m, m_len, (uint64_t)(q >> 3));
}

// ---- header: the words at fixed places: the header, the false block, the head of the remainder

// The remainder from a to b, which are the header's R and E.
static inline int header_remainder_ok(const unsigned char *pool, size_t pool_len, uint32_t a, uint32_t b)
{
    if (a < PAPER_BLOCKS) {
        return 0;
    }
    if (b < 8u) {
        return 0;
    }
    if (b - 8u < a) {
        return 0;
    }
    if (pool_len < (uint64_t)b) {
        return 0;
    }
    if (a % 8u != 0u) {
        return 0;
    }
    if (b % 8u != 0u) {
        return 0;
    }
    return words_get_u32(pool, pool_len, (uint64_t)a) == heads_free_head(b - a);
}

// Whether k words from `from` on, `step` bytes apart, are 0: one test for all of them.
static inline int header_zeros(const unsigned char *pool, size_t pool_len, uint32_t k, uint32_t step, uint32_t from)
{
    uint32_t all = 0u;
    for (uint32_t i = 0u; i < k; i++) {
        all = all | words_get_u32(pool, pool_len, (uint64_t)from + (uint64_t)i * (uint64_t)step);
    }
    return all == 0u;
}

// The level word tells the layout: in layout 1 the twelve words between it and the chain word are 0, in layout 2 they are index words.
static inline int header_reserved_ok(const unsigned char *pool, size_t pool_len)
{
    uint32_t level = words_field(pool, pool_len, PAPER_FALSE_BLOCK, 12u);
    if (level == PAPER_LEVELS) {
        return 1;
    }
    if (level != 1u) {
        return 0;
    }
    return header_zeros(pool, pool_len, 12u, 4u, (uint32_t)PAPER_FALSE_BLOCK + 16u);
}

// The header's second word, the high half of all twelve, and the false block: zero, but for its level word and its index words.
// The first test is for the machine: with it, no place below, which are all constants, asks one. So are the loops early: what stands behind many
// tests for 0 counts as rare, and would be called, with tests of its own.
static inline int header_false_block_ok(const unsigned char *pool, size_t pool_len)
{
    if (pool_len < (uint64_t)PAPER_BLOCKS) {
        return 0;
    }
    if (words_get_u32(pool, pool_len, 8u) != PAPER_FALSE_BLOCK) {
        return 0;
    }
    if (words_field(pool, pool_len, PAPER_FALSE_BLOCK, (uint32_t)PAPER_CHAIN + 4u) != 0u) {
        return 0;
    }
    if (!header_zeros(pool, pool_len, 12u, 8u, 4u)) {
        return 0;
    }
    if (!header_zeros(pool, pool_len, 3u, 4u, PAPER_FALSE_BLOCK)) {
        return 0;
    }
    return header_reserved_ok(pool, pool_len);
}

// The word w at q is a distance as it is written; another word could lead to 0, which is no block.
static inline int header_link_ok(uint32_t q, uint32_t w)
{
    if (w == 0u) {
        return 1;
    }
    return heads_follow(q, w) != 0u;
}

// ---- runs: along the blocks, large and small; the free ones are marked

static inline int runs_Large_has(uint32_t z)
{
    return PAPER_LARGE <= z;
}

// A block of size z at p, in a run that ends at e.
static inline int runs_fits_Large(uint32_t z, uint32_t e, uint32_t p)
{
    if (!runs_Large_has(z)) {
        return 0;
    }
    if (z % 8u != 0u) {
        return 0;
    }
    return (uint64_t)p + (uint64_t)z <= (uint64_t)e;
}

static inline int runs_Large_ends(const unsigned char *pool, size_t pool_len, uint32_t w, uint32_t p)
{
    uint32_t z = heads_size_of(w);
    return words_field(pool, pool_len, p, words_minus(z, 4u)) == w;
}

// The head w at p of a block that is not held, of a size of its kind, where the flags `due` were.
static inline int runs_free_ok_Large(const unsigned char *pool, size_t pool_len, uint32_t w, uint32_t due, uint32_t p)
{
    if (due != HEADS_HELD) {
        return 0;
    }
    if (heads_flags_of(w) != HEADS_FREE) {
        return 0;
    }
    return runs_Large_ends(pool, pool_len, w, p);
}

static inline uint32_t runs_Large_above_free(void)
{
    return HEADS_HELD_ABOVE_FREE;
}

// The blocks of one kind from `from` to e; n0 and sum0 are what was seen before them. `due` is what the flags of a held block must be here. A free block
// needs them to have P, so no two free ones touch. Among small blocks each has P: there `due` is a constant, as are the bounds of a size, and this
// loop is what an inspection mostly does.
static inline Option_Seen runs_scan_Large(const unsigned char *pool, size_t pool_len, uint64_t *m, size_t m_len, uint32_t from,
        uint32_t e, uint32_t n0, uint32_t sum0)
{
    uint32_t p = from;
    uint32_t due = HEADS_HELD;
    runs_Seen seen = runs_Seen_of((uint64_t)n0, (uint64_t)sum0);
    while (p != e) {
        uint32_t w = words_get_u32(pool, pool_len, (uint64_t)p);
        uint32_t z = heads_size_of(w);
        if (!runs_fits_Large(z, e, p)) {
            return Option_Seen_None();
        }
        if (heads_flags_of(w) == due) {
            due = HEADS_HELD;
        } else {
            if (!runs_free_ok_Large(pool, pool_len, w, due, p)) {
                return Option_Seen_None();
            }
            marks_mark(m, m_len, p);
            seen.count = seen.count + 1u;
            seen.sum = seen.sum + (uint64_t)z;
            due = runs_Large_above_free();
        }
        p = p + z;
    }
    if (due != HEADS_HELD) {
        return Option_Seen_None();
    }
    return Option_Seen_Some(seen);
}

static inline int runs_Small_has(uint32_t z)
{
    if (z < 8u) {
        return 0;
    }
    return z < PAPER_LARGE;
}

// A block of size z at p, in a run that ends at e.
static inline int runs_fits_Small(uint32_t z, uint32_t e, uint32_t p)
{
    if (!runs_Small_has(z)) {
        return 0;
    }
    if (z % 8u != 0u) {
        return 0;
    }
    return (uint64_t)p + (uint64_t)z <= (uint64_t)e;
}

static inline int runs_Small_ends(const unsigned char *_pool, size_t _pool_len, uint32_t _w, uint32_t _p)
{
    (void)_pool;
    (void)_pool_len;
    (void)_w;
    (void)_p;
    return 1;
}

// The head w at p of a block that is not held, of a size of its kind, where the flags `due` were.
static inline int runs_free_ok_Small(const unsigned char *pool, size_t pool_len, uint32_t w, uint32_t due, uint32_t p)
{
    if (due != HEADS_HELD) {
        return 0;
    }
    if (heads_flags_of(w) != HEADS_FREE) {
        return 0;
    }
    return runs_Small_ends(pool, pool_len, w, p);
}

static inline uint32_t runs_Small_above_free(void)
{
    return HEADS_HELD;
}

// The blocks of one kind from `from` to e; n0 and sum0 are what was seen before them. `due` is what the flags of a held block must be here. A free block
// needs them to have P, so no two free ones touch. Among small blocks each has P: there `due` is a constant, as are the bounds of a size, and this
// loop is what an inspection mostly does.
static inline Option_Seen runs_scan_Small(const unsigned char *pool, size_t pool_len, uint64_t *m, size_t m_len, uint32_t from,
        uint32_t e, uint32_t n0, uint32_t sum0)
{
    uint32_t p = from;
    uint32_t due = HEADS_HELD;
    runs_Seen seen = runs_Seen_of((uint64_t)n0, (uint64_t)sum0);
    while (p != e) {
        uint32_t w = words_get_u32(pool, pool_len, (uint64_t)p);
        uint32_t z = heads_size_of(w);
        if (!runs_fits_Small(z, e, p)) {
            return Option_Seen_None();
        }
        if (heads_flags_of(w) == due) {
            due = HEADS_HELD;
        } else {
            if (!runs_free_ok_Small(pool, pool_len, w, due, p)) {
                return Option_Seen_None();
            }
            marks_mark(m, m_len, p);
            seen.count = seen.count + 1u;
            seen.sum = seen.sum + (uint64_t)z;
            due = runs_Small_above_free();
        }
        p = p + z;
    }
    if (due != HEADS_HELD) {
        return Option_Seen_None();
    }
    return Option_Seen_Some(seen);
}

// The large blocks up to a, then the small ones from b to e.
static inline Option_Seen runs_scan_both(const unsigned char *pool, size_t pool_len, uint64_t *m, size_t m_len, uint32_t a,
        uint32_t b, uint32_t e)
{
    Option_Seen value = runs_scan_Large(pool, pool_len, m, m_len, PAPER_BLOCKS, a, 0u, 0u);
    if (value.tag != OPTION_SEEN_SOME) {
        return Option_Seen_None();
    }
    runs_Seen low = value.as.Some;
    return runs_scan_Small(pool, pool_len, m, m_len, b, e, (uint32_t)low.count, (uint32_t)low.sum);
}

// ---- lists: along the lists of the bins; each member loses its mark

// The size of the block at q, by its head.
static inline uint32_t lists_size_at(const unsigned char *pool, size_t pool_len, uint32_t q)
{
    return heads_size_of(words_get_u32(pool, pool_len, (uint64_t)q));
}

// A member of a small bin has its bin's size.
static inline int lists_Small_member_ok(const unsigned char *pool, size_t pool_len, uint32_t z, uint32_t _p, uint32_t q)
{
    (void)_p;
    return lists_size_at(pool, pool_len, q) == z;
}

static inline uint32_t lists_Small_next(const unsigned char *pool, size_t pool_len, uint32_t q)
{
    return words_field(pool, pool_len, q, PAPER_SMALL_NEXT);
}

// The bin of size z from `first` on, where k starts are marked: how many are left; p is the member before q, 0 before the first.
static inline Option_u64 lists_follow_Small(const unsigned char *pool, size_t pool_len, uint64_t *m, size_t m_len, uint64_t k,
        uint32_t z, uint32_t first)
{
    uint64_t left = k;
    uint32_t p = 0u;
    uint32_t q = first;
    while (q != 0u) {
        if (left == 0u) {
            return Option_u64_None();
        }
        if (!marks_marked(m, m_len, q)) {
            return Option_u64_None();
        }
        if (!lists_Small_member_ok(pool, pool_len, z, p, q)) {
            return Option_u64_None();
        }
        marks_unmark(m, m_len, q);
        left = left - 1u;
        p = q;
        q = lists_Small_next(pool, pool_len, q);
    }
    return Option_u64_Some(left);
}

// The eight small bins, whose first blocks stand in the header.
static inline Option_u64 lists_small_bins(const unsigned char *pool, size_t pool_len, uint64_t *m, size_t m_len, uint64_t k)
{
    uint64_t left = k;
    for (uint32_t z = 8u; z < PAPER_LARGE; z += 8u) {
        uint32_t f = words_field(pool, pool_len, z, PAPER_SMALL_BINS);
        Option_u64 value = lists_follow_Small(pool, pool_len, m, m_len, left, z, f);
        if (value.tag != OPTION_U64_SOME) {
            return Option_u64_None();
        }
        left = value.as.Some;
    }
    return Option_u64_Some(left);
}

// Levels 2 to h: each awaits the block f, whose word there is a link to the next. No level is above 13.
// (`2..=h` would ask once more on each level: 0.8 in 100 instructions of an inspection where many bins are in layout 2.)
static inline int lists_higher_ok(const unsigned char *pool, size_t pool_len, uint32_t waits[12], uint32_t h, uint32_t f)
{
    if (PAPER_LEVELS < h) {
        return 0;
    }
    uint32_t level = 2u;
    while (level < h + 1u) {
        uint64_t i = (uint64_t)(level - 2u);
        if (waits[i] != f) {
            return 0;
        }
        uint32_t w = words_field(pool, pool_len, f, levels_word(level));
        if (!header_link_ok(f, w)) {
            return 0;
        }
        waits[i] = heads_follow(f, w);
        level = level + 1u;
    }
    return 1;
}

// The index words of the block f, which is h levels high and awaited on level 1: its chain word and, where there are any, the others.
static inline int lists_index_ok(const unsigned char *pool, size_t pool_len, uint32_t waits[12], uint32_t h, uint32_t f)
{
    if (!header_link_ok(f, words_field(pool, pool_len, f, PAPER_CHAIN))) {
        return 0;
    }
    if (h == 1u) {
        return 1;
    }
    return lists_higher_ok(pool, pool_len, waits, h, f);
}

// The first block f, of size z, of the bin after size y, in an index `top` high: its size, its level word and its index words.
static inline int lists_first_ok(const unsigned char *pool, size_t pool_len, uint32_t waits[12], uint32_t top, uint32_t y,
        uint32_t z, uint32_t f)
{
    if (z <= y) {
        return 0;
    }
    uint32_t h = levels_height(top, z);
    if (words_field(pool, pool_len, f, PAPER_LEVEL) != h) {
        return 0;
    }
    return lists_index_ok(pool, pool_len, waits, h, f);
}

// A member of a large bin: its head, its link back and its link on, each read when the one before has passed.
static inline int lists_Large_member_ok(const unsigned char *pool, size_t pool_len, uint32_t z, uint32_t p, uint32_t q)
{
    if (lists_size_at(pool, pool_len, q) != z) {
        return 0;
    }
    if (words_field(pool, pool_len, q, PAPER_PREVIOUS) != heads_link_word(q, p)) {
        return 0;
    }
    return header_link_ok(q, words_field(pool, pool_len, q, PAPER_NEXT));
}

static inline uint32_t lists_Large_next(const unsigned char *pool, size_t pool_len, uint32_t q)
{
    return heads_follow(q, words_field(pool, pool_len, q, PAPER_NEXT));
}

// The bin of size z from `first` on, where k starts are marked: how many are left; p is the member before q, 0 before the first.
static inline Option_u64 lists_follow_Large(const unsigned char *pool, size_t pool_len, uint64_t *m, size_t m_len, uint64_t k,
        uint32_t z, uint32_t first)
{
    uint64_t left = k;
    uint32_t p = 0u;
    uint32_t q = first;
    while (q != 0u) {
        if (left == 0u) {
            return Option_u64_None();
        }
        if (!marks_marked(m, m_len, q)) {
            return Option_u64_None();
        }
        if (!lists_Large_member_ok(pool, pool_len, z, p, q)) {
            return Option_u64_None();
        }
        marks_unmark(m, m_len, q);
        left = left - 1u;
        p = q;
        q = lists_Large_next(pool, pool_len, q);
    }
    return Option_u64_Some(left);
}

// Whether no level from 2 on awaits anything.
static inline int lists_none_awaited(const uint32_t waits[12])
{
    for (uint64_t i = 0u; i < 12u; i++) {
        uint32_t start = waits[i];
        if (start != 0u) {
            return 0;
        }
    }
    return 1;
}

// At the end no level awaits anything; an index one level high has no others.
static inline int lists_ended_ok(const uint32_t waits[12], uint32_t top)
{
    if (top == 1u) {
        return 1;
    }
    return lists_none_awaited(waits);
}

// The large bins, from the first block f0 on, which level 1 of the index awaits; `waits` is what the others do. Sizes rise, and at the end no
// mark is left and nothing is awaited.
static inline int lists_large_bins(const unsigned char *pool, size_t pool_len, uint64_t *m, size_t m_len, uint32_t waits[12],
        uint64_t k, uint32_t top, uint32_t f0)
{
    uint64_t left = k;
    uint32_t y = 64u;
    uint32_t f = f0;
    while (f != 0u) {
        uint32_t z = lists_size_at(pool, pool_len, f);
        if (!lists_first_ok(pool, pool_len, waits, top, y, z, f)) {
            return 0;
        }
        Option_u64 value = lists_follow_Large(pool, pool_len, m, m_len, left, z, f);
        if (value.tag != OPTION_U64_SOME) {
            return 0;
        }
        uint64_t rest = value.as.Some;
        left = rest;
        y = z;
        f = heads_follow(f, words_field(pool, pool_len, f, 64u));
    }
    if (left != 0u) {
        return 0;
    }
    return lists_ended_ok(waits, top);
}

// All the lists, where k starts are marked: at the end no mark is left. At first every level of the index awaits the false block.
static inline int lists_all_listed(const unsigned char *pool, size_t pool_len, uint64_t *m, size_t m_len, uint64_t k)
{
    Option_u64 value = lists_small_bins(pool, pool_len, m, m_len, k);
    if (value.tag != OPTION_U64_SOME) {
        return 0;
    }
    uint64_t left = value.as.Some;
    uint32_t top = levels_top(pool, pool_len);
    uint32_t waits[12];
    for (size_t each = 0u; each < 12u; each++) {
        waits[each] = PAPER_FALSE_BLOCK;
    }
    if (!lists_index_ok(pool, pool_len, waits, top, PAPER_FALSE_BLOCK)) {
        return 0;
    }
    uint32_t f = heads_follow(PAPER_FALSE_BLOCK, words_field(pool, pool_len, PAPER_FALSE_BLOCK, PAPER_CHAIN));
    return lists_large_bins(pool, pool_len, m, m_len, waits, left, top, f);
}

// ---- inspect: whether a pool is sound

// Whether a pool may have n bytes.
static inline int inspect_allowed(uint64_t n)
{
    if (n < 176u) {
        return 0;
    }
    if (65536u < n) {
        return 0;
    }
    return n % 8u == 0u;
}

// Whether the pool ends at E or the block there is held (request 2026-06): of a pool that is sound by the old rule, exactly whether it is sound.
static inline int inspect_edge_held(const unsigned char *pool, size_t pool_len)
{
    uint64_t e = (uint64_t)words_get_u32(pool, pool_len, PAPER_END);
    if (e == pool_len) {
        return 1;
    }
    return heads_Head_from_u32(words_get_u32(pool, pool_len, e)).held;
}

// The tests of the old rule, the cheap ones first. A mark is one bit for each 8 bytes of the pool.
static inline int inspect_inspect(const unsigned char *pool, size_t pool_len)
{
    if (!inspect_allowed(pool_len)) {
        return 0;
    }
    uint32_t a = words_get_u32(pool, pool_len, PAPER_START);
    uint32_t b = words_get_u32(pool, pool_len, PAPER_END);
    if (!header_remainder_ok(pool, pool_len, a, b)) {
        return 0;
    }
    if (!header_false_block_ok(pool, pool_len)) {
        return 0;
    }
    uint64_t m[128];
    for (size_t each = 0u; each < 128u; each++) {
        m[each] = 0u;
    }
    Option_Seen value = runs_scan_both(pool, pool_len, m, 128u, a, b, (uint32_t)pool_len);
    if (value.tag != OPTION_SEEN_SOME) {
        return 0;
    }
    runs_Seen seen = value.as.Some;
    if ((uint64_t)words_get_u32(pool, pool_len, 0u) != seen.sum + (uint64_t)(b - a) - 4u) {
        return 0;
    }
    return lists_all_listed(pool, pool_len, m, 128u, seen.count);
}

// Whether the pool is sound by the old rule, under which a free block could stand at E: exactly that. The rule in force asks one thing more.
static inline int inspect_sound_by_old_rule(const unsigned char *pool, size_t pool_len)
{
    return inspect_inspect(pool, pool_len);
}

// ---- bins: the lists of free large blocks: finding a bin, taking a block out, leaving, entering

// The block that the link word at `offset` in the block at q leads to, 0 where to none.
static inline uint32_t bins_linked(const unsigned char *pool, size_t pool_len, uint32_t q, uint32_t offset)
{
    return heads_follow(q, words_field(pool, pool_len, q, offset));
}

// The block q, which stands after `previous`.
static inline void bins_leave_later(unsigned char *pool, size_t pool_len, uint32_t previous, uint32_t q)
{
    uint32_t next = bins_linked(pool, pool_len, q, PAPER_NEXT);
    if (next == 0u) {
        words_put_field(pool, pool_len, previous, PAPER_NEXT, 0u);
        return;
    }
    heads_Pair link = heads_both_ways(previous, next);
    words_put_field(pool, pool_len, previous, PAPER_NEXT, link.there);
    words_put_field(pool, pool_len, next, PAPER_PREVIOUS, link.home);
}

// The size in the head of the block at q.
static inline uint32_t bins_size_of(const unsigned char *pool, size_t pool_len, uint32_t q)
{
    return heads_Head_from_u32(words_get_u32(pool, pool_len, (uint64_t)q)).size;
}

static inline bins_Bin bins_Bin_bare(uint32_t level, uint32_t before)
{
    return bins_Bin_of(level, before, 0u, 0u);
}

// Along one level, from where the one above was left: up to the last bin that is smaller than `least`. What came next there comes next here
// too, unless another bin stands before it. In a sound pool the sizes rise; where they do not, the walk ends.
static inline bins_Bin bins_along(const unsigned char *pool, size_t pool_len, uint32_t level, bins_Bin bin, uint32_t least)
{
    uint32_t index = levels_word(level);
    uint32_t stop = bin.first;
    uint32_t before = bin.before;
    uint32_t below = 0u;
    uint32_t first = bins_linked(pool, pool_len, before, index);
    while (first != stop) {
        uint32_t size = bins_size_of(pool, pool_len, first);
        if (least <= size) {
            return bins_Bin_of(level, before, first, size);
        }
        if (size <= below) {
            return bins_Bin_bare(level, before);
        }
        before = first;
        below = size;
        first = bins_linked(pool, pool_len, first, index);
    }
    return bins_Bin_of(level, before, stop, bin.size);
}

// The same level by level, down to the level `to`.
static inline bins_Bin bins_down(const unsigned char *pool, size_t pool_len, bins_Bin bin, uint32_t to, uint32_t least)
{
    bins_Bin at = bin;
    uint32_t level = bin.level;
    while (to < level) {
        level = level - 1u;
        at = bins_along(pool, pool_len, level, at, least);
    }
    return at;
}

// From the block `before`, which stands on a level, down to the level `to`.
static inline bins_Bin bins_search(const unsigned char *pool, size_t pool_len, uint32_t level, uint32_t before, uint32_t to,
        uint32_t least)
{
    bins_Bin at = bins_along(pool, pool_len, level, bins_Bin_bare(level, before), least);
    return bins_down(pool, pool_len, at, to, least);
}

// The bin of a size, or where it would stand, on the highest level that it reaches.
static inline bins_Bin bins_exact(const unsigned char *pool, size_t pool_len, uint32_t size)
{
    uint32_t top = levels_top(pool, pool_len);
    return bins_search(pool, pool_len, levels_start(top, size), PAPER_FALSE_BLOCK, levels_height(top, size), size);
}

// What comes past a bin on a level: past its first block `old`, or past `before` where it has none, which 0 says.
static inline uint32_t bins_after(const unsigned char *pool, size_t pool_len, uint32_t index, uint32_t before, uint32_t old)
{
    if (old == 0u) {
        return bins_linked(pool, pool_len, before, index);
    }
    return bins_linked(pool, pool_len, old, index);
}

// On one level `new` takes the place of `old`, and 0 stands for none; `before` stands before it.
static inline void bins_relink(unsigned char *pool, size_t pool_len, uint32_t level, uint32_t before, uint32_t old, uint32_t new_)
{
    uint32_t index = levels_word(level);
    uint32_t next = bins_after(pool, pool_len, index, before, old);
    if (new_ == 0u) {
        words_put_field(pool, pool_len, before, index, heads_link_word(before, next));
        return;
    }
    words_put_field(pool, pool_len, new_, index, heads_link_word(new_, next));
    words_put_field(pool, pool_len, before, index, heads_link_word(before, new_));
}

// The bin of a size is headed by `new` and no longer by `old`, on each level from that of `bin` down; `bin` tells what stands before it there.
// On each level the walk goes on from where it stands.
static inline void bins_rehead(unsigned char *pool, size_t pool_len, bins_Bin bin, uint32_t size, uint32_t old, uint32_t new_)
{
    uint32_t before = bin.before;
    uint32_t level = bin.level;
    while (1u < level) {
        level = level - 1u;
        bins_relink(pool, pool_len, level + 1u, before, old, new_);
        bins_Bin from = bins_Bin_of(level, before, old, size);
        before = bins_along(pool, pool_len, level, from, size).before;
    }
    bins_relink(pool, pool_len, 1u, before, old, new_);
}

// The first block q of a bin, found on its highest level: the second becomes first, with a level word of its own, or the index passes over.
static inline void bins_leave_first(unsigned char *pool, size_t pool_len, bins_Bin bin, uint32_t size, uint32_t q)
{
    uint32_t second = bins_linked(pool, pool_len, q, PAPER_NEXT);
    if (second == 0u) {
        bins_rehead(pool, pool_len, bin, size, q, 0u);
        return;
    }
    words_put_field(pool, pool_len, second, PAPER_PREVIOUS, 0u);
    words_put_field(pool, pool_len, second, PAPER_LEVEL, bin.level);
    bins_rehead(pool, pool_len, bin, size, q, second);
}

// The block q, wherever it stands.
static inline void bins_leave(unsigned char *pool, size_t pool_len, uint32_t q)
{
    uint32_t previous = bins_linked(pool, pool_len, q, PAPER_PREVIOUS);
    if (previous != 0u) {
        bins_leave_later(pool, pool_len, previous, q);
        return;
    }
    uint32_t size = bins_size_of(pool, pool_len, q);
    bins_Bin bin = bins_exact(pool, pool_len, size);
    bins_leave_first(pool, pool_len, bin, size, q);
}

// The head of a free block, at its start and again in its last 4 bytes.
static inline void bins_make_free(unsigned char *pool, size_t pool_len, uint32_t q, uint32_t size)
{
    uint32_t head = heads_free_head(size);
    uint32_t foot = words_minus(words_plus(q, size), 4u);
    words_put_u32(pool, pool_len, (uint64_t)q, head);
    words_put_u32(pool, pool_len, (uint64_t)foot, head);
}

// The block q becomes the second of the bin that `first` heads.
static inline void bins_enter_second(unsigned char *pool, size_t pool_len, uint32_t first, uint32_t q)
{
    uint32_t next = bins_linked(pool, pool_len, first, PAPER_NEXT);
    heads_Pair link = heads_both_ways(first, q);
    words_put_field(pool, pool_len, first, PAPER_NEXT, link.there);
    words_put_field(pool, pool_len, q, PAPER_PREVIOUS, link.home);
    if (next == 0u) {
        words_put_field(pool, pool_len, q, PAPER_NEXT, 0u);
        return;
    }
    heads_Pair on = heads_both_ways(q, next);
    words_put_field(pool, pool_len, q, PAPER_NEXT, on.there);
    words_put_field(pool, pool_len, next, PAPER_PREVIOUS, on.home);
}

// The block q becomes the only one of its bin, whose place is known on its highest level.
static inline void bins_enter_only(unsigned char *pool, size_t pool_len, bins_Bin bin, uint32_t size, uint32_t q)
{
    words_put_field(pool, pool_len, q, PAPER_PREVIOUS, 0u);
    words_put_field(pool, pool_len, q, PAPER_NEXT, 0u);
    words_put_field(pool, pool_len, q, PAPER_LEVEL, bin.level);
    bins_rehead(pool, pool_len, bin, size, 0u, q);
}

// The free block q enters the bin of its size.
static inline void bins_enter_bin(unsigned char *pool, size_t pool_len, uint32_t q, uint32_t size)
{
    bins_Bin bin = bins_exact(pool, pool_len, size);
    if (bin.size == size) {
        bins_enter_second(pool, pool_len, bin.first, q);
        return;
    }
    bins_enter_only(pool, pool_len, bin, size, q);
}

// The bytes from q on are a free block of that size, which enters its bin.
static inline void bins_enter(unsigned char *pool, size_t pool_len, uint32_t q, uint32_t size)
{
    bins_make_free(pool, pool_len, q, size);
    bins_enter_bin(pool, pool_len, q, size);
}

// The words from `offset` on in the block at q, as many as the list is long.
static inline void bins_keep(const unsigned char *pool, size_t pool_len, uint32_t q, uint32_t offset, uint32_t *kept,
        size_t kept_len)
{
    uint32_t at = offset;
    for (uint64_t i = 0u; i < kept_len; i++) {
        uint32_t *word = kept + i;
        *word = words_field(pool, pool_len, q, at);
        at = words_plus(at, 4u);
    }
}

static inline void bins_put_back(unsigned char *pool, size_t pool_len, uint32_t q, uint32_t offset, const uint32_t *kept,
        size_t kept_len)
{
    uint32_t at = offset;
    for (uint64_t i = 0u; i < kept_len; i++) {
        const uint32_t *word = kept + i;
        words_put_field(pool, pool_len, q, at, *word);
        at = words_plus(at, 4u);
    }
}

// Two blocks, of which the second is to keep its bytes. They may stand next to each other in one list, or before one another in the index,
// and then the first to leave stores into the second: its words are kept, and put back. An index word past its height is never stored to.
static inline void bins_leave_both(unsigned char *pool, size_t pool_len, uint32_t below, uint32_t above)
{
    uint32_t height = levels_height(levels_top(pool, pool_len), bins_size_of(pool, pool_len, above));
    uint32_t index = levels_word(height);
    uint32_t links[3];
    for (size_t each = 0u; each < 3u; each++) {
        links[each] = 0u;
    }
    uint32_t index_words[13];
    for (size_t each = 0u; each < 13u; each++) {
        index_words[each] = 0u;
    }
    bins_keep(pool, pool_len, above, PAPER_PREVIOUS, links, 3u);
    bins_keep(pool, pool_len, above, index, index_words, (size_t)(uint64_t)height);
    bins_leave(pool, pool_len, below);
    bins_leave(pool, pool_len, above);
    bins_put_back(pool, pool_len, above, PAPER_PREVIOUS, links, 3u);
    bins_put_back(pool, pool_len, above, index, index_words, (size_t)(uint64_t)height);
}

// There is no bin: on the lowest level nothing comes past the false block.
static inline int bins_empty(const unsigned char *pool, size_t pool_len)
{
    return bins_linked(pool, pool_len, PAPER_FALSE_BLOCK, PAPER_CHAIN) == 0u;
}

// The size of the bin that was found, 0 where there is none.
static inline uint32_t bins_Bin_size(bins_Bin self)
{
    return self.size;
}

// The smallest bin of at least a size, where `bin` was found for a smaller one: the way up to that is not walked again.
static inline bins_Bin bins_find_on(const unsigned char *pool, size_t pool_len, bins_Bin bin, uint32_t least)
{
    uint32_t level = bin.level;
    if (level == 1u) {
        if (bin.first == 0u) {
            return bin;
        }
    }
    return bins_search(pool, pool_len, level, bin.before, 1u, least);
}

// No bin was found.
static inline int bins_Bin_is_none(bins_Bin self)
{
    return self.first == 0u;
}

// The only block of a bin: the index passes over it. A bin that was found below its highest level is looked for once more.
static inline void bins_pass_over(unsigned char *pool, size_t pool_len, bins_Bin bin)
{
    uint32_t first = bin.first;
    uint32_t size = bin.size;
    if (bin.level == levels_height(levels_top(pool, pool_len), size)) {
        bins_rehead(pool, pool_len, bin, size, first, 0u);
        return;
    }
    bins_Bin again = bins_exact(pool, pool_len, size);
    bins_rehead(pool, pool_len, again, size, first, 0u);
}

// The block of a bin that is used, the second where there is one, else the first.
static inline uint32_t bins_take_out(unsigned char *pool, size_t pool_len, bins_Bin bin)
{
    uint32_t first = bin.first;
    uint32_t second = bins_linked(pool, pool_len, first, PAPER_NEXT);
    if (second == 0u) {
        bins_pass_over(pool, pool_len, bin);
        return first;
    }
    bins_leave_later(pool, pool_len, first, second);
    return second;
}

// ---- moving: a sound pool gets an index of another height, in its own bytes

// The first block f, h levels high: its level word; and on each of its levels from 2 on the last one leads to it, and it is the last one now.
static inline void moving_stand(unsigned char *pool, size_t pool_len, uint32_t lasts[12], uint32_t h, uint32_t f)
{
    if (PAPER_LEVELS < h) {
        return;
    }
    words_put_field(pool, pool_len, f, PAPER_LEVEL, h);
    uint32_t level = 2u;
    while (level < h + 1u) {
        uint64_t i = (uint64_t)(level - 2u);
        uint32_t last = lasts[i];
        words_put_field(pool, pool_len, last, levels_word(level), heads_link_word(last, f));
        lasts[i] = f;
        level = level + 1u;
    }
}

// From bin to bin along level 1. In a sound pool the sizes rise; where they do not, the pass ends.
static inline void moving_pass(unsigned char *pool, size_t pool_len, uint32_t lasts[12], uint32_t top)
{
    uint32_t y = 64u;
    uint32_t f = bins_linked(pool, pool_len, PAPER_FALSE_BLOCK, 64u);
    while (f != 0u) {
        uint32_t z = bins_size_of(pool, pool_len, f);
        if (z <= y) {
            return;
        }
        moving_stand(pool, pool_len, lasts, levels_height(top, z), f);
        y = z;
        f = bins_linked(pool, pool_len, f, 64u);
    }
}

// On each level from 2 on nothing comes past the last one.
static inline void moving_close(unsigned char *pool, size_t pool_len, const uint32_t lasts[12])
{
    for (uint32_t level = 2u; level <= PAPER_LEVELS; level++) {
        words_put_field(pool, pool_len, lasts[(uint64_t)(level - 2u)], levels_word(level), 0u);
    }
}

// Moves a sound pool to an index `top` high, 1 or 13. The false block's level word is last, so until then the pool says what it was.
static inline void moving_move_to(unsigned char *pool, size_t pool_len, uint32_t top)
{
    uint32_t lasts[12];
    for (size_t each = 0u; each < 12u; each++) {
        lasts[each] = PAPER_FALSE_BLOCK;
    }
    moving_pass(pool, pool_len, lasts, top);
    moving_close(pool, pool_len, lasts);
    words_put_field(pool, pool_len, PAPER_FALSE_BLOCK, PAPER_LEVEL, top);
}

// ---- choosing: where a block for a payload would come from; nothing is stored

static inline choosing_Rest choosing_remainder(const unsigned char *pool, size_t pool_len)
{
    uint32_t start = words_get_u32(pool, pool_len, PAPER_START);
    uint32_t end = words_get_u32(pool, pool_len, PAPER_END);
    return choosing_Rest_of(start, end, words_minus(end, start));
}

// The remainder, if 8 bytes are left of it.
static inline Result_Rest_Refusal choosing_room(const unsigned char *pool, size_t pool_len, uint32_t b)
{
    choosing_Rest rest = choosing_remainder(pool, pool_len);
    if ((uint64_t)rest.size < (uint64_t)b + 8u) {
        return Result_Rest_Refusal_Err(paper_Refusal_NoRoom());
    }
    return Result_Rest_Refusal_Ok(rest);
}

static inline Result_Choice_Refusal choosing_choose_small(const unsigned char *pool, size_t pool_len, uint32_t b)
{
    uint32_t first = words_field(pool, pool_len, PAPER_SMALL_BINS, b);
    if (first == 0u) {
        Result_Rest_Refusal value = choosing_room(pool, pool_len, b);
        if (value.tag != RESULT_REST_REFUSAL_OK) {
            return Result_Choice_Refusal_Err(value.as.Err);
        }
        return Result_Choice_Refusal_Ok(choosing_Choice_HighEnd(value.as.Ok, b));
    }
    return Result_Choice_Refusal_Ok(choosing_Choice_FirstOfBin(first, b));
}

// `exact` is not of exactly b: the smallest bin of at least b + 72, else the remainder.
static inline Result_Choice_Refusal choosing_choose_larger(const unsigned char *pool, size_t pool_len, bins_Bin exact, uint32_t b)
{
    bins_Bin larger = bins_find_on(pool, pool_len, exact, words_plus(b, PAPER_LARGE));
    if (bins_Bin_is_none(larger)) {
        Result_Rest_Refusal value = choosing_room(pool, pool_len, b);
        if (value.tag != RESULT_REST_REFUSAL_OK) {
            return Result_Choice_Refusal_Err(value.as.Err);
        }
        return Result_Choice_Refusal_Ok(choosing_Choice_LowEnd(value.as.Ok, b));
    }
    return Result_Choice_Refusal_Ok(choosing_Choice_LargerBin(larger, b));
}

// The bin of exactly b, or a larger one. Where there is no bin at all, the remainder.
static inline Result_Choice_Refusal choosing_choose_large(const unsigned char *pool, size_t pool_len, uint32_t b)
{
    if (bins_empty(pool, pool_len)) {
        Result_Rest_Refusal value = choosing_room(pool, pool_len, b);
        if (value.tag != RESULT_REST_REFUSAL_OK) {
            return Result_Choice_Refusal_Err(value.as.Err);
        }
        return Result_Choice_Refusal_Ok(choosing_Choice_LowEnd(value.as.Ok, b));
    }
    bins_Bin exact = bins_exact(pool, pool_len, b);
    if (bins_Bin_size(exact) == b) {
        return Result_Choice_Refusal_Ok(choosing_Choice_ExactBin(exact, b));
    }
    return choosing_choose_larger(pool, pool_len, exact, b);
}

// For a payload of s bytes.
static inline Result_Choice_Refusal choosing_choose(const unsigned char *pool, size_t pool_len, uint32_t s)
{
    if (s == 0u) {
        return Result_Choice_Refusal_Err(paper_Refusal_NoSize());
    }
    uint64_t b = heads_block_size(s);
    if (65536u < b) {
        return Result_Choice_Refusal_Err(paper_Refusal_NoRoom());
    }
    if (b < (uint64_t)PAPER_LARGE) {
        return choosing_choose_small(pool, pool_len, (uint32_t)b);
    }
    return choosing_choose_large(pool, pool_len, (uint32_t)b);
}

// ---- grant: carrying out what was chosen: a block is taken

// The free word falls by b, and the answer is where the payload of the block at q starts.
static inline uint32_t grant_granted(unsigned char *pool, size_t pool_len, uint32_t q, uint32_t b)
{
    uint32_t free = words_get_u32(pool, pool_len, PAPER_FREE_WORD);
    words_put_u32(pool, pool_len, PAPER_FREE_WORD, words_minus(free, b));
    return words_plus(q, 4u);
}

// The first block q of the bin of size b leaves it and is held.
static inline uint32_t grant_take_first(unsigned char *pool, size_t pool_len, uint32_t q, uint32_t b)
{
    uint32_t next = words_field(pool, pool_len, q, PAPER_SMALL_NEXT);
    words_put_field(pool, pool_len, PAPER_SMALL_BINS, b, next);
    words_put_u32(pool, pool_len, (uint64_t)q, heads_held_head(b));
    return grant_granted(pool, pool_len, q, b);
}

// The remainder gives its last b bytes.
static inline uint32_t grant_cut_high(unsigned char *pool, size_t pool_len, choosing_Rest rest, uint32_t b)
{
    uint32_t q = words_minus(rest.end, b);
    uint32_t head = heads_free_head(words_minus(rest.size, b));
    words_put_u32(pool, pool_len, PAPER_END, q);
    words_put_u32(pool, pool_len, (uint64_t)rest.start, head);
    words_put_u32(pool, pool_len, (uint64_t)q, heads_held_head(b));
    return grant_granted(pool, pool_len, q, b);
}

// The block q of b bytes is held, which the block above it is told.
static inline void grant_hold(unsigned char *pool, size_t pool_len, uint32_t q, uint32_t b)
{
    words_put_u32(pool, pool_len, (uint64_t)q, heads_held_head(b));
    uint32_t above = words_plus(q, b);
    uint32_t head = words_get_u32(pool, pool_len, (uint64_t)above);
    words_put_u32(pool, pool_len, (uint64_t)above, heads_with_p(head, 1));
}

// A block of a bin of exactly b.
static inline uint32_t grant_take_whole(unsigned char *pool, size_t pool_len, bins_Bin bin, uint32_t b)
{
    uint32_t q = bins_take_out(pool, pool_len, bin);
    grant_hold(pool, pool_len, q, b);
    return grant_granted(pool, pool_len, q, b);
}

// Of the block q, z bytes long, the low b are held and the rest is a free block.
static inline void grant_split(unsigned char *pool, size_t pool_len, uint32_t q, uint32_t z, uint32_t b)
{
    uint32_t rest = words_plus(q, b);
    uint32_t size = words_minus(z, b);
    words_put_u32(pool, pool_len, (uint64_t)q, heads_held_head(b));
    bins_enter(pool, pool_len, rest, size);
}

// The low end of a block of a larger bin.
static inline uint32_t grant_take_part(unsigned char *pool, size_t pool_len, bins_Bin bin, uint32_t b)
{
    uint32_t q = bins_take_out(pool, pool_len, bin);
    grant_split(pool, pool_len, q, bins_Bin_size(bin), b);
    return grant_granted(pool, pool_len, q, b);
}

// The remainder gives its first b bytes.
static inline uint32_t grant_cut_low(unsigned char *pool, size_t pool_len, choosing_Rest rest, uint32_t b)
{
    uint32_t above = words_plus(rest.start, b);
    uint32_t head = heads_free_head(words_minus(rest.size, b));
    words_put_u32(pool, pool_len, PAPER_START, above);
    words_put_u32(pool, pool_len, (uint64_t)rest.start, heads_held_head(b));
    words_put_u32(pool, pool_len, (uint64_t)above, head);
    return grant_granted(pool, pool_len, rest.start, b);
}

// What was chosen is done, on the pool that it was chosen for; answers where the payload starts.
static inline uint32_t grant_carry(unsigned char *pool, size_t pool_len, choosing_Choice choice)
{
    if (choice.tag == CHOOSING_CHOICE_FIRST_OF_BIN) {
        uint32_t q = choice.as.FirstOfBin.f0;
        uint32_t b = choice.as.FirstOfBin.f1;
        return grant_take_first(pool, pool_len, q, b);
    } else if (choice.tag == CHOOSING_CHOICE_HIGH_END) {
        choosing_Rest rest = choice.as.HighEnd.f0;
        uint32_t b = choice.as.HighEnd.f1;
        return grant_cut_high(pool, pool_len, rest, b);
    } else if (choice.tag == CHOOSING_CHOICE_EXACT_BIN) {
        bins_Bin bin = choice.as.ExactBin.f0;
        uint32_t b = choice.as.ExactBin.f1;
        return grant_take_whole(pool, pool_len, bin, b);
    } else if (choice.tag == CHOOSING_CHOICE_LARGER_BIN) {
        bins_Bin bin = choice.as.LargerBin.f0;
        uint32_t b = choice.as.LargerBin.f1;
        return grant_take_part(pool, pool_len, bin, b);
    } else {
        choosing_Rest rest = choice.as.LowEnd.f0;
        uint32_t b = choice.as.LowEnd.f1;
        return grant_cut_low(pool, pool_len, rest, b);
    }
}

// The same of a choice or the refusal in its place, of whatever kind: it is handed on, and nothing is done.
static inline Result_u32_Refusal grant_carry_out_Refusal(unsigned char *pool, size_t pool_len, Result_Choice_Refusal choice)
{
    Result_Choice_Refusal value = choice;
    if (value.tag != RESULT_CHOICE_REFUSAL_OK) {
        return Result_u32_Refusal_Err(value.as.Err);
    }
    return Result_u32_Refusal_Ok(grant_carry(pool, pool_len, value.as.Ok));
}

// Grants a block for a payload of s bytes; answers where the payload starts.
static APART Result_u32_Refusal grant_take(unsigned char *pool, size_t pool_len, uint32_t s)
{
    Result_Choice_Refusal choice = choosing_choose(pool, pool_len, s);
    return grant_carry_out_Refusal(pool, pool_len, choice);
}

// ---- walk: along the blocks: looking an offset up, the figures, the class count

// Those that start below `to`.
static inline walk_Blocks walk_Blocks_below(const unsigned char *pool, size_t pool_len, uint32_t from, uint32_t to)
{
    return walk_Blocks_of(pool, pool_len, (uint64_t)from, (uint64_t)to);
}

// Where the pool ends, as a position; no pool is longer than 65,536 bytes.
static inline uint32_t walk_pool_end(const unsigned char *pool, size_t pool_len)
{
    (void)pool;
    return (uint32_t)core_usize_min(pool_len, 65536u);
}

// Those that start at `last` or below, and in any case the first.
static inline walk_Blocks walk_Blocks_up_to(const unsigned char *pool, size_t pool_len, uint32_t from, uint32_t last)
{
    return walk_Blocks_of(pool, pool_len, (uint64_t)from, (uint64_t)core_u32_max(from, last) + 1u);
}

// The block whose head stands at `at`.
static inline paper_Found walk_found_at(heads_Head head, uint32_t at)
{
    if (head.held) {
        return paper_Found_Held(at, head.size);
    }
    return paper_Found_Free(at, head.size);
}

// The block that `address` is in, in the walk from `from`, which is not above it.
static inline paper_Found walk_block_at(const unsigned char *pool, size_t pool_len, uint32_t from, uint32_t address)
{
    walk_Blocks value = walk_Blocks_up_to(pool, pool_len, from, address);
    for (;;) {
        if (value.end <= value.at) {
            break;
        }
        uint64_t start = value.at;
        heads_Head head = heads_Head_from_u32(words_get_u32(value.pool, value.pool_len, value.at));
        if (head.size == 0u) {
            break;
        }
        value.at = value.at + (uint64_t)head.size;
        if ((uint64_t)address < start + (uint64_t)head.size) {
            return walk_found_at(head, (uint32_t)start);
        }
    }
    return paper_Found_Nothing();
}

// The block that `address` is in: of the large ones below R, the remainder up to E, or of the small ones from there.
static inline paper_Found walk_look_up(const unsigned char *pool, size_t pool_len, uint32_t address)
{
    if (address < PAPER_BLOCKS) {
        return paper_Found_Nothing();
    }
    uint32_t start = words_get_u32(pool, pool_len, PAPER_START);
    if (address < start) {
        return walk_block_at(pool, pool_len, PAPER_BLOCKS, address);
    }
    uint32_t end = words_get_u32(pool, pool_len, PAPER_END);
    if (address < end) {
        return paper_Found_Remainder(start, words_minus(end, start));
    }
    return walk_block_at(pool, pool_len, end, address);
}

// One more in class k.
static inline void walk_bump(uint32_t *counts, size_t counts_len, uint32_t k)
{
    uint64_t i = (uint64_t)k;
    if (i < counts_len) {
        counts[i] = words_plus(counts[i], 1u);
    }
}

// The held blocks from `from` to `to` are counted, after `already` others; answers how many there are now.
static inline uint32_t walk_count_run(const unsigned char *pool, size_t pool_len, uint32_t *counts, size_t counts_len,
        uint32_t from, uint32_t to, uint32_t already)
{
    uint32_t held = already;
    walk_Blocks value = walk_Blocks_below(pool, pool_len, from, to);
    for (;;) {
        if (value.end <= value.at) {
            break;
        }
        heads_Head head = heads_Head_from_u32(words_get_u32(value.pool, value.pool_len, value.at));
        if (head.size == 0u) {
            break;
        }
        value.at = value.at + (uint64_t)head.size;
        if (head.held) {
            walk_bump(counts, counts_len, classes_class_of(words_minus(head.size, 4u)));
            held = words_plus(held, 1u);
        }
    }
    return held;
}

// Fills the counters, and answers how many blocks are held.
static inline uint32_t walk_count_classes(const unsigned char *pool, size_t pool_len, uint32_t *counts, size_t counts_len)
{
    for (uint64_t i = 0u; i < counts_len; i++) {
        counts[i] = 0u;
    }
    uint32_t start = words_get_u32(pool, pool_len, PAPER_START);
    uint32_t end = words_get_u32(pool, pool_len, PAPER_END);
    uint32_t low = walk_count_run(pool, pool_len, counts, counts_len, PAPER_BLOCKS, start, 0u);
    return walk_count_run(pool, pool_len, counts, counts_len, end, walk_pool_end(pool, pool_len), low);
}

// With one block more. `largest` is the greatest block that can be given, until all are counted.
static inline paper_Figures walk_counted(paper_Figures t, heads_Head head)
{
    paper_Figures next = t;
    if (head.held) {
        next.held_blocks = words_plus(t.held_blocks, 1u);
        next.held_bytes = words_plus(t.held_bytes, head.size);
        return next;
    }
    next.largest = core_u32_max(t.largest, head.size);
    if (head.size < PAPER_LARGE) {
        next.free_small = words_plus(t.free_small, 1u);
        return next;
    }
    next.free_large = words_plus(t.free_large, 1u);
    return next;
}

// With the blocks from `from` to `to`.
static inline paper_Figures walk_tally_run(const unsigned char *pool, size_t pool_len, uint32_t from, uint32_t to,
        paper_Figures first)
{
    paper_Figures t = first;
    walk_Blocks value = walk_Blocks_below(pool, pool_len, from, to);
    for (;;) {
        if (value.end <= value.at) {
            break;
        }
        heads_Head head = heads_Head_from_u32(words_get_u32(value.pool, value.pool_len, value.at));
        if (head.size == 0u) {
            break;
        }
        value.at = value.at + (uint64_t)head.size;
        t = walk_counted(t, head);
    }
    return t;
}

// The payload of a block; 0 where there is none.
static inline uint32_t walk_payload_of(uint32_t size)
{
    return core_u32_saturating_sub(size, 4u);
}

// The remainder gives all but the 8 bytes that it keeps; a free block is given whole.
static APART paper_Figures walk_tally(const unsigned char *pool, size_t pool_len)
{
    uint32_t start = words_get_u32(pool, pool_len, PAPER_START);
    uint32_t end = words_get_u32(pool, pool_len, PAPER_END);
    uint32_t remainder = words_minus(end, start);
    paper_Figures none = paper_Figures_of(0u, 0u, 0u, 0u, remainder, 0u, words_minus(remainder, 8u));
    paper_Figures low = walk_tally_run(pool, pool_len, PAPER_BLOCKS, start, none);
    paper_Figures all = walk_tally_run(pool, pool_len, end, walk_pool_end(pool, pool_len), low);
    all.free_word = words_get_u32(pool, pool_len, 0u);
    all.largest = walk_payload_of(all.largest);
    return all;
}

// ---- homing: the free small blocks at the edge leave their bins and join the remainder

// The free blocks from `from` on. A block of size 0, which no sound pool has, ends them.
static inline homing_Run homing_free_run(const unsigned char *pool, size_t pool_len, uint32_t from)
{
    homing_Run run = homing_Run_of(from, 0u);
    walk_Blocks value = walk_Blocks_below(pool, pool_len, from, walk_pool_end(pool, pool_len));
    for (;;) {
        if (value.end <= value.at) {
            break;
        }
        uint64_t start = value.at;
        heads_Head head = heads_Head_from_u32(words_get_u32(value.pool, value.pool_len, value.at));
        if (head.size == 0u) {
            break;
        }
        value.at = value.at + (uint64_t)head.size;
        if (head.held) {
            return run;
        }
        run.end = words_plus((uint32_t)start, head.size);
        run.blocks = words_plus(run.blocks, 1u);
    }
    return run;
}

// The word at `at` leads to q; it is stored only where it does not yet.
static inline void homing_lead(unsigned char *pool, size_t pool_len, uint32_t at, uint32_t q)
{
    if (words_get_u32(pool, pool_len, (uint64_t)at) == q) {
        return;
    }
    words_put_u32(pool, pool_len, (uint64_t)at, q);
}

// The list whose first member stands at `first`, without what lies below `edge`. `at` is the word that leads on from what stays so far.
// No list has as many members as the pool has words of 8 bytes.
static inline void homing_prune(unsigned char *pool, size_t pool_len, uint32_t first, uint32_t edge)
{
    uint32_t at = first;
    uint32_t q = words_get_u32(pool, pool_len, (uint64_t)first);
    uint64_t value = 0u;
    while (value < ((uint64_t)pool_len >> 3)) {
        if (q == 0u) {
            homing_lead(pool, pool_len, at, 0u);
            return;
        }
        uint32_t next = words_field(pool, pool_len, q, PAPER_SMALL_NEXT);
        if (edge <= q) {
            homing_lead(pool, pool_len, at, q);
            at = words_plus(q, PAPER_SMALL_NEXT);
        }
        q = next;
        value = value + 1u;
    }
}

// The eight small bins, whose first blocks stand in the header, without what lies below `edge`.
static inline void homing_prune_all(unsigned char *pool, size_t pool_len, uint32_t edge)
{
    for (uint32_t first = (uint32_t)PAPER_SMALL_BINS + 8u; first < PAPER_FALSE_BLOCK; first += 8u) {
        homing_prune(pool, pool_len, first, edge);
    }
}

// All up to the end of the free blocks from `from` on is the remainder. Answers how many these are.
static inline uint32_t homing_go_home(unsigned char *pool, size_t pool_len, uint32_t from)
{
    homing_Run run = homing_free_run(pool, pool_len, from);
    if (run.blocks != 0u) {
        homing_prune_all(pool, pool_len, run.end);
    }
    uint32_t start = words_get_u32(pool, pool_len, PAPER_START);
    words_put_u32(pool, pool_len, PAPER_END, run.end);
    words_put_u32(pool, pool_len, (uint64_t)start, heads_free_head(words_minus(run.end, start)));
    return run.blocks;
}

// ---- giveback: giving a block back

// It is the first of its bin.
static inline void giveback_at_front(unsigned char *pool, size_t pool_len, uint32_t q, uint32_t z)
{
    uint32_t first = words_field(pool, pool_len, PAPER_SMALL_BINS, z);
    words_put_u32(pool, pool_len, (uint64_t)q, heads_free_head(z));
    words_put_field(pool, pool_len, q, PAPER_SMALL_NEXT, first);
    words_put_field(pool, pool_len, PAPER_SMALL_BINS, z, q);
}

// In a sound pool the block at E was held, so only the one that comes back can be free there.
static inline void giveback_give_back_small(unsigned char *pool, size_t pool_len, uint32_t q, uint32_t z)
{
    if (q == words_get_u32(pool, pool_len, PAPER_END)) {
        (void)homing_go_home(pool, pool_len, words_plus(q, z));
        return;
    }
    giveback_at_front(pool, pool_len, q, z);
}

// Where the run starts: at the free large block below, whose size its footer tells, or at q.
static inline uint32_t giveback_run_start(const unsigned char *pool, size_t pool_len, uint32_t q)
{
    heads_Head head = heads_Head_from_u32(words_get_u32(pool, pool_len, (uint64_t)q));
    if (head.p) {
        return q;
    }
    uint32_t foot = words_get_u32(pool, pool_len, (uint64_t)words_minus(q, 4u));
    return words_minus(q, heads_Head_from_u32(foot).size);
}

// The free block at `start`, if it is another than q, leaves its bin.
static inline void giveback_leave_below(unsigned char *pool, size_t pool_len, uint32_t start, uint32_t q)
{
    if (start == q) {
        return;
    }
    bins_leave(pool, pool_len, start);
}

// The run touches the remainder, which then starts where the run starts.
static inline void giveback_join_rest(unsigned char *pool, size_t pool_len, uint32_t start, uint32_t q)
{
    giveback_leave_below(pool, pool_len, start, q);
    uint32_t end = words_get_u32(pool, pool_len, PAPER_END);
    words_put_u32(pool, pool_len, PAPER_START, start);
    words_put_u32(pool, pool_len, (uint64_t)start, heads_free_head(words_minus(end, start)));
}

// The bytes from `start` to `end` are one free block, and it enters its bin.
static inline void giveback_settle(unsigned char *pool, size_t pool_len, uint32_t start, uint32_t end)
{
    bins_enter(pool, pool_len, start, words_minus(end, start));
}

// The run ends at `top`, or past the free block there.
static inline void giveback_join_run(unsigned char *pool, size_t pool_len, uint32_t start, uint32_t q, uint32_t top)
{
    uint32_t word = words_get_u32(pool, pool_len, (uint64_t)top);
    heads_Head above = heads_Head_from_u32(word);
    if (above.held) {
        giveback_leave_below(pool, pool_len, start, q);
        words_put_u32(pool, pool_len, (uint64_t)top, heads_with_p(word, 0));
        giveback_settle(pool, pool_len, start, top);
        return;
    }
    uint32_t end = words_plus(top, above.size);
    if (start == q) {
        bins_leave(pool, pool_len, top);
        giveback_settle(pool, pool_len, start, end);
        return;
    }
    bins_leave_both(pool, pool_len, start, top);
    giveback_settle(pool, pool_len, start, end);
}

static inline void giveback_give_back_large(unsigned char *pool, size_t pool_len, uint32_t q, uint32_t z)
{
    uint32_t start = giveback_run_start(pool, pool_len, q);
    uint32_t top = words_plus(q, z);
    if (top == words_get_u32(pool, pool_len, PAPER_START)) {
        giveback_join_rest(pool, pool_len, start, q);
        return;
    }
    giveback_join_run(pool, pool_len, start, q, top);
}

// The block at q, z bytes long, is free, in a bin or in the remainder.
static inline void giveback_put_back(unsigned char *pool, size_t pool_len, uint32_t q, uint32_t z)
{
    if (z < PAPER_LARGE) {
        giveback_give_back_small(pool, pool_len, q, z);
        return;
    }
    giveback_give_back_large(pool, pool_len, q, z);
}

// The free word rises by z.
static inline void giveback_earn(unsigned char *pool, size_t pool_len, uint32_t z)
{
    uint32_t free = words_get_u32(pool, pool_len, PAPER_FREE_WORD);
    words_put_u32(pool, pool_len, PAPER_FREE_WORD, words_plus(free, z));
}

// The held block at q, z bytes long, comes back.
static inline void giveback_give_back(unsigned char *pool, size_t pool_len, uint32_t q, uint32_t z)
{
    giveback_put_back(pool, pool_len, q, z);
    giveback_earn(pool, pool_len, z);
}

// ---- reading: what a call finds when it reads the pool, and the number that it is refused with

// The old rule asks nothing of the block at E.
static inline int reading_edge_ok(const unsigned char *pool, size_t pool_len, int old)
{
    if (old) {
        return 1;
    }
    return inspect_edge_held(pool, pool_len);
}

// By the old rule or by the one in force. Both have the same tests but one, and one function has them all: the compiler puts the inspection into its
// only caller, and keeps what is the same for every block in registers there.
static inline Result_void_Refusal reading_check_by(const unsigned char *pool, size_t pool_len, int old)
{
    if (!inspect_allowed(pool_len)) {
        return Result_void_Refusal_Err(paper_Refusal_NotAllowed());
    }
    if (!reading_edge_ok(pool, pool_len, old)) {
        return Result_void_Refusal_Err(paper_Refusal_NotSound());
    }
    if (!inspect_sound_by_old_rule(pool, pool_len)) {
        return Result_void_Refusal_Err(paper_Refusal_NotSound());
    }
    return Result_void_Refusal_Ok();
}

// Refused where n is not allowed, and where the pool is not sound.
static inline Result_void_Refusal reading_check(const unsigned char *pool, size_t pool_len)
{
    return reading_check_by(pool, pool_len, 0);
}

// The same by the old rule, under which a free block could stand at E. For bring-in alone.
static inline Result_void_Refusal reading_check_by_old_rule(const unsigned char *pool, size_t pool_len)
{
    return reading_check_by(pool, pool_len, 1);
}

// ---- serving: the calls on a pool that is known to be sound

// The size of the held block whose payload starts at `offset`, by the block that the offset is in; or the refusal.
static inline Result_u32_Refusal serving_held_there(paper_Found found, uint32_t offset)
{
    if (found.tag != PAPER_FOUND_HELD) {
        return Result_u32_Refusal_Err(paper_Refusal_NotHeld());
    }
    uint32_t start = found.as.Held.f0;
    uint32_t size = found.as.Held.f1;
    if ((uint64_t)offset != (uint64_t)start + 4u) {
        return Result_u32_Refusal_Err(paper_Refusal_NotHeld());
    }
    return Result_u32_Refusal_Ok(size);
}

// The bytes of the payload at `offset`.
static inline Result_u32_Refusal serving_ask(const unsigned char *pool, size_t pool_len, uint32_t offset)
{
    Result_u32_Refusal value = serving_held_there(walk_look_up(pool, pool_len, offset), offset);
    if (value.tag != RESULT_U32_REFUSAL_OK) {
        return Result_u32_Refusal_Err(value.as.Err);
    }
    uint32_t z = value.as.Ok;
    return Result_u32_Refusal_Ok(words_minus(z, 4u));
}

// Takes the block of the payload at `offset` back; answers the payload's bytes.
static inline Result_u32_Refusal serving_give_back(unsigned char *pool, size_t pool_len, uint32_t offset)
{
    Result_u32_Refusal value = serving_held_there(walk_look_up(pool, pool_len, offset), offset);
    if (value.tag != RESULT_U32_REFUSAL_OK) {
        return Result_u32_Refusal_Err(value.as.Err);
    }
    uint32_t z = value.as.Ok;
    giveback_give_back(pool, pool_len, words_minus(offset, 4u), z);
    return Result_u32_Refusal_Ok(words_minus(z, 4u));
}

// Fills the 53 counters with the held blocks by size class; answers how many are held.
static inline Result_u32_Refusal serving_class_count(const unsigned char *pool, size_t pool_len, uint32_t *counts,
        size_t counts_len)
{
    if (counts_len != 53u) {
        return Result_u32_Refusal_Err(paper_Refusal_ListLength());
    }
    return Result_u32_Refusal_Ok(walk_count_classes(pool, pool_len, counts, counts_len));
}

// ---- pool: the public calls

// Takes the block of the payload at `offset` back; answers the payload's bytes.
static inline Result_u32_Refusal pool_lib_give_back(unsigned char *pool, size_t pool_len, uint32_t offset)
{
    Result_void_Refusal value = reading_check(pool, pool_len);
    if (value.tag != RESULT_VOID_REFUSAL_OK) {
        return Result_u32_Refusal_Err(value.as.Err);
    }
    return serving_give_back(pool, pool_len, offset);
}

// Grants a block for a payload of `size` bytes; answers where the payload starts.
static inline Result_u32_Refusal pool_lib_take(unsigned char *pool, size_t pool_len, uint32_t size)
{
    Result_void_Refusal value = reading_check(pool, pool_len);
    if (value.tag != RESULT_VOID_REFUSAL_OK) {
        return Result_u32_Refusal_Err(value.as.Err);
    }
    return grant_take(pool, pool_len, size);
}

// The bytes of the payload at `offset`.
static inline Result_u32_Refusal pool_lib_ask(const unsigned char *pool, size_t pool_len, uint32_t offset)
{
    Result_void_Refusal value = reading_check(pool, pool_len);
    if (value.tag != RESULT_VOID_REFUSAL_OK) {
        return Result_u32_Refusal_Err(value.as.Err);
    }
    return serving_ask(pool, pool_len, offset);
}

// Fills the 53 counters with the held blocks by size class; answers how many are held.
static inline Result_u32_Refusal pool_lib_class_count(const unsigned char *pool, size_t pool_len, uint32_t *counts,
        size_t counts_len)
{
    Result_void_Refusal value = reading_check(pool, pool_len);
    if (value.tag != RESULT_VOID_REFUSAL_OK) {
        return Result_u32_Refusal_Err(value.as.Err);
    }
    return serving_class_count(pool, pool_len, counts, counts_len);
}

// Whether the pool is sound; answers its length.
static inline Result_u32_Refusal pool_lib_inspect(const unsigned char *pool, size_t pool_len)
{
    Result_void_Refusal value = reading_check(pool, pool_len);
    if (value.tag != RESULT_VOID_REFUSAL_OK) {
        return Result_u32_Refusal_Err(value.as.Err);
    }
    return Result_u32_Refusal_Ok((uint32_t)pool_len);
}

// Lays the buffer out as a fresh pool, in layout 1 or 2; answers its length.
static inline Result_u32_Refusal pool_lib_lay_out(unsigned char *pool, size_t pool_len, uint32_t layout)
{
    uint64_t n = pool_len;
    if (!inspect_allowed(n)) {
        return Result_u32_Refusal_Err(paper_Refusal_NotAllowed());
    }
    Option_u32 value = laying_top_of(layout);
    if (value.tag != OPTION_U32_SOME) {
        return Result_u32_Refusal_Err(paper_Refusal_NoLayout());
    }
    uint32_t top = value.as.Some;
    laying_lay_out(pool, pool_len, (uint32_t)n, top);
    return Result_u32_Refusal_Ok((uint32_t)n);
}

// The seven figures.
static inline Result_Figures_Refusal pool_lib_figures(const unsigned char *pool, size_t pool_len)
{
    Result_void_Refusal value = reading_check(pool, pool_len);
    if (value.tag != RESULT_VOID_REFUSAL_OK) {
        return Result_Figures_Refusal_Err(value.as.Err);
    }
    return Result_Figures_Refusal_Ok(walk_tally(pool, pool_len));
}

// ---- convert: a pool moves from one layout to the other, a call above the pool

// Why the call is refused, in the order 1, 8, 2, 13.
static inline Result_void_Refusal convert_check(const unsigned char *pool, size_t pool_len, uint32_t old)
{
    if (!inspect_allowed(pool_len)) {
        return Result_void_Refusal_Err(paper_Refusal_NotAllowed());
    }
    Option_u32 value = laying_top_of(old);
    if (value.tag != OPTION_U32_SOME) {
        return Result_void_Refusal_Err(paper_Refusal_NoLayout());
    }
    uint32_t named = value.as.Some;
    Result_void_Refusal value2 = reading_check(pool, pool_len);
    if (value2.tag == RESULT_VOID_REFUSAL_ERR) {
        paper_Refusal why = value2.as.Err;
        return Result_void_Refusal_Err(why);
    } else {
        if (levels_top(pool, pool_len) != named) {
            return Result_void_Refusal_Err(paper_Refusal_OtherLayout());
        }
        return Result_void_Refusal_Ok();
    }
}

// How high the index of the other layout is.
static inline uint32_t convert_other_top(uint32_t old)
{
    if (old == 1u) {
        return PAPER_LEVELS;
    }
    return 1u;
}

// Moves the pool from the layout `old` to the other one; answers its length.
static inline Result_u32_Refusal convert_convert(unsigned char *pool, size_t pool_len, uint32_t old)
{
    Result_void_Refusal value = convert_check(pool, pool_len, old);
    if (value.tag != RESULT_VOID_REFUSAL_OK) {
        return Result_u32_Refusal_Err(value.as.Err);
    }
    moving_move_to(pool, pool_len, convert_other_top(old));
    return Result_u32_Refusal_Ok((uint32_t)pool_len);
}

// ---- bringing: a pool that was stored under the old rule is brought in, a call above the pool

// Answers how many blocks went home: 0 of a pool that is sound by the rule in force, and no byte of it changes.
static inline Result_u32_Refusal bringing_bring_in(unsigned char *pool, size_t pool_len)
{
    Result_void_Refusal read = reading_check_by_old_rule(pool, pool_len);
    Result_void_Refusal value = read;
    if (value.tag != RESULT_VOID_REFUSAL_OK) {
        return Result_u32_Refusal_Err(value.as.Err);
    }
    uint32_t edge = words_get_u32(pool, pool_len, PAPER_END);
    return Result_u32_Refusal_Ok(homing_go_home(pool, pool_len, edge));
}

// ---- board: the public calls for C

// The refusal's number in the upper half, the value in the lower half.
static inline uint64_t board_of(Result_u32_Refusal a)
{
    if (a.tag == RESULT_U32_REFUSAL_OK) {
        uint32_t v = a.as.Ok;
        return (uint64_t)v;
    } else {
        paper_Refusal k = a.as.Err;
        return (uint64_t)paper_u8_from_Refusal(k) << 32;
    }
}

// The bytes of the payload at `offset`.
uint64_t pool_ask(const unsigned char *pool, size_t pool_len, uint32_t offset)
{
    return board_of(pool_lib_ask(pool, pool_len, offset));
}

// Brings in a pool that was stored under the rule before 2026-06; answers how many blocks went home.
uint64_t pool_bring_in(unsigned char *pool, size_t pool_len)
{
    return board_of(bringing_bring_in(pool, pool_len));
}

// Fills the 53 counters with the held blocks by size class; answers how many are held.
uint64_t pool_class_count(const unsigned char *pool, size_t pool_len, uint32_t *counts, size_t counts_len)
{
    return board_of(pool_lib_class_count(pool, pool_len, counts, counts_len));
}

// Moves the pool from the layout `old` to the other one; answers its length.
uint64_t pool_convert(unsigned char *pool, size_t pool_len, uint32_t old)
{
    return board_of(convert_convert(pool, pool_len, old));
}

// Takes the block of the payload at `offset` back; answers the payload's bytes.
uint64_t pool_give_back(unsigned char *pool, size_t pool_len, uint32_t offset)
{
    return board_of(pool_lib_give_back(pool, pool_len, offset));
}

// Whether the pool is sound; answers its length.
uint64_t pool_inspect(const unsigned char *pool, size_t pool_len)
{
    return board_of(pool_lib_inspect(pool, pool_len));
}

// Lays the buffer out as a fresh pool, in layout 1 or 2; answers its length.
uint64_t pool_lay_out(unsigned char *pool, size_t pool_len, uint32_t layout)
{
    return board_of(pool_lib_lay_out(pool, pool_len, layout));
}

// Grants a block for a payload of `size` bytes; answers where the payload starts.
uint64_t pool_take(unsigned char *pool, size_t pool_len, uint32_t size)
{
    return board_of(pool_lib_take(pool, pool_len, size));
}

// The seven figures, in the paper's order; answers the first. Another list than one of seven numbers stays as it is, and is refused
// by its length, as the class count refuses one that has not 53.
static inline Result_u32_Refusal board_counted(paper_Figures f, uint32_t *list, size_t list_len)
{
    if (list_len != 7u) {
        return Result_u32_Refusal_Err(paper_Refusal_ListLength());
    }
    list[0u] = f.held_blocks;
    list[1u] = f.held_bytes;
    list[2u] = f.free_small;
    list[3u] = f.free_large;
    list[4u] = f.remainder;
    list[5u] = f.free_word;
    list[6u] = f.largest;
    return Result_u32_Refusal_Ok(f.held_blocks);
}

// Refused figures leave the list as it is.
static inline Result_u32_Refusal board_tallied(Result_Figures_Refusal t, uint32_t *list, size_t list_len)
{
    Result_Figures_Refusal value = t;
    if (value.tag != RESULT_FIGURES_REFUSAL_OK) {
        return Result_u32_Refusal_Err(value.as.Err);
    }
    return board_counted(value.as.Ok, list, list_len);
}

// Fills the list with the seven figures; answers the first, how many blocks are held.
uint64_t pool_figures(const unsigned char *pool, size_t pool_len, uint32_t *figures, size_t figures_len)
{
    return board_of(board_tallied(pool_lib_figures(pool, pool_len), figures, figures_len));
}

#ifndef POOL_ALONE

// ---- What only the piston bank needs

// A value that may be absent.
enum { OPTION_REF_U32_NONE, OPTION_REF_U32_SOME };
typedef struct {
    uint8_t tag;
    union {
        const uint32_t *Some;
    } as;
} Option_ref_u32;

// A value that may be absent.
enum { OPTION_REF_U8_NONE, OPTION_REF_U8_SOME };
typedef struct {
    uint8_t tag;
    union {
        const unsigned char *Some;
    } as;
} Option_ref_u8;

// A value that may be absent.
enum { OPTION_REFUSAL_NONE, OPTION_REFUSAL_SOME };
typedef struct {
    uint8_t tag;
    union {
        paper_Refusal Some;
    } as;
} Option_Refusal;

// Where a record starts and ends in the pool, and why recalling it is refused, if it is. No Result: a refused recall has a part too, the
// empty one at the pool's end (theorem refused-recall).
typedef struct {
    Option_Refusal refusal;
    uint64_t from;
    uint64_t to;
} bank_Place;

enum { BANK_KIND_EIGHT, BANK_KIND_SIXTEEN, BANK_KIND_THIRTY_TWO };
typedef struct {
    uint8_t tag;
} bank_Kind;

// A byte that names no kind.
typedef struct {
    uint8_t f0;
} bank_UnknownKind;

// A value, or why there is none.
enum { RESULT_KIND_UNKNOWNKIND_OK, RESULT_KIND_UNKNOWNKIND_ERR };
typedef struct {
    uint8_t tag;
    union {
        bank_Kind Ok;
        bank_UnknownKind Err;
    } as;
} Result_Kind_UnknownKind;

// One member of a union is set, and maybe not the widest: gcc warns of that as of a value that was not set.
#if defined(__GNUC__) && !defined(__clang__)
#pragma GCC diagnostic push
#pragma GCC diagnostic ignored "-Wmaybe-uninitialized"
#endif

static inline paper_Refusal paper_Refusal_NoPiston(void)
{
    paper_Refusal made;
    made.tag = PAPER_REFUSAL_NO_PISTON;
    return made;
}

static inline paper_Refusal paper_Refusal_NoRecord(void)
{
    paper_Refusal made;
    made.tag = PAPER_REFUSAL_NO_RECORD;
    return made;
}

static inline paper_Refusal paper_Refusal_NotNamed(void)
{
    paper_Refusal made;
    made.tag = PAPER_REFUSAL_NOT_NAMED;
    return made;
}

static inline Option_ref_u32 Option_ref_u32_None(void)
{
    Option_ref_u32 made;
    made.tag = OPTION_REF_U32_NONE;
    return made;
}

static inline Option_ref_u32 Option_ref_u32_Some(const uint32_t *f0)
{
    Option_ref_u32 made;
    made.tag = OPTION_REF_U32_SOME;
    made.as.Some = f0;
    return made;
}

static inline Option_ref_u8 Option_ref_u8_None(void)
{
    Option_ref_u8 made;
    made.tag = OPTION_REF_U8_NONE;
    return made;
}

static inline Option_ref_u8 Option_ref_u8_Some(const unsigned char *f0)
{
    Option_ref_u8 made;
    made.tag = OPTION_REF_U8_SOME;
    made.as.Some = f0;
    return made;
}

static inline Option_Refusal Option_Refusal_None(void)
{
    Option_Refusal made;
    made.tag = OPTION_REFUSAL_NONE;
    return made;
}

static inline Option_Refusal Option_Refusal_Some(paper_Refusal f0)
{
    Option_Refusal made;
    made.tag = OPTION_REFUSAL_SOME;
    made.as.Some = f0;
    return made;
}

static inline bank_Place bank_Place_of(Option_Refusal refusal, uint64_t from, uint64_t to)
{
    bank_Place made;
    made.refusal = refusal;
    made.from = from;
    made.to = to;
    return made;
}

static inline bank_Kind bank_Kind_Eight(void)
{
    bank_Kind made;
    made.tag = BANK_KIND_EIGHT;
    return made;
}

static inline bank_Kind bank_Kind_Sixteen(void)
{
    bank_Kind made;
    made.tag = BANK_KIND_SIXTEEN;
    return made;
}

static inline bank_Kind bank_Kind_ThirtyTwo(void)
{
    bank_Kind made;
    made.tag = BANK_KIND_THIRTY_TWO;
    return made;
}

static inline bank_UnknownKind bank_UnknownKind_of(uint8_t f0)
{
    bank_UnknownKind made;
    made.f0 = f0;
    return made;
}

static inline Result_Kind_UnknownKind Result_Kind_UnknownKind_Ok(bank_Kind f0)
{
    Result_Kind_UnknownKind made;
    made.tag = RESULT_KIND_UNKNOWNKIND_OK;
    made.as.Ok = f0;
    return made;
}

static inline Result_Kind_UnknownKind Result_Kind_UnknownKind_Err(bank_UnknownKind f0)
{
    Result_Kind_UnknownKind made;
    made.tag = RESULT_KIND_UNKNOWNKIND_ERR;
    made.as.Err = f0;
    return made;
}

#if defined(__GNUC__) && !defined(__clang__)
#pragma GCC diagnostic pop
#endif

// ---- core: the kit that the crates are written with

// `core::option::Option::unwrap_or<u32>` of the kit's own library.
static inline uint32_t core_Option_unwrap_or_u32(Option_u32 a, uint32_t b)
{
    if (a.tag == OPTION_U32_SOME) {
        return a.as.Some;
    } else {
        return b;
    }
}

// `core::option::more::Option+ref+T::copied<u32>` of the kit's own library.
static inline Option_u32 core_Option_copied_u32(Option_ref_u32 a)
{
    if (a.tag == OPTION_REF_U32_SOME) {
        return Option_u32_Some(a.as.Some[0u]);
    } else {
        return Option_u32_None();
    }
}

// `core::slice::index::UsizeSliceIndexRefSlice::pick<u32>` of the kit's own library.
static inline Option_ref_u32 core_UsizeSliceIndexRefSlice_pick_u32(uint64_t a, const uint32_t *b, size_t b_len)
{
    if (a < b_len) {
        return Option_ref_u32_Some(b + a);
    }
    return Option_ref_u32_None();
}

// `core::slice::index::UsizeSliceIndexRefSlice::pick<u8>` of the kit's own library.
static inline Option_ref_u8 core_UsizeSliceIndexRefSlice_pick_u8(uint64_t a, const unsigned char *b, size_t b_len)
{
    if (a < b_len) {
        return Option_ref_u8_Some(b + (a << 0));
    }
    return Option_ref_u8_None();
}

// ---- asking: about a list of offsets at one walk

// Marks the held blocks from `from` to `to`.
static inline void asking_mark_run(const unsigned char *pool, size_t pool_len, uint64_t *m, size_t m_len, uint32_t from,
        uint32_t to)
{
    walk_Blocks value = walk_Blocks_below(pool, pool_len, from, to);
    for (;;) {
        if (value.end <= value.at) {
            break;
        }
        uint64_t start = value.at;
        heads_Head head = heads_Head_from_u32(words_get_u32(value.pool, value.pool_len, value.at));
        if (head.size == 0u) {
            break;
        }
        value.at = value.at + (uint64_t)head.size;
        if (head.held) {
            marks_mark(m, m_len, (uint32_t)start);
        }
    }
}

// Each offset that is not 0 uses up the mark of the block that starts 4 below it.
static inline int asking_used_up(uint64_t *m, size_t m_len, const uint32_t *offsets, size_t offsets_len)
{
    for (uint64_t i = 0u; i < offsets_len; i++) {
        uint32_t offset = offsets[i];
        if (offset == 0u) {
            continue;
        }
        uint32_t start = words_minus(offset, 4u);
        if (!marks_marked(m, m_len, start)) {
            return 0;
        }
        marks_unmark(m, m_len, start);
    }
    return 1;
}

// Whether every offset of the list that is not 0 is that of a held payload, and stands in it once.
static inline int asking_all_held(const unsigned char *pool, size_t pool_len, const uint32_t *offsets, size_t offsets_len)
{
    uint64_t m[128];
    for (size_t each = 0u; each < 128u; each++) {
        m[each] = 0u;
    }
    uint32_t start = words_get_u32(pool, pool_len, PAPER_START);
    uint32_t end = words_get_u32(pool, pool_len, PAPER_END);
    asking_mark_run(pool, pool_len, m, 128u, PAPER_BLOCKS, start);
    asking_mark_run(pool, pool_len, m, 128u, end, walk_pool_end(pool, pool_len));
    return asking_used_up(m, 128u, offsets, offsets_len);
}

// ---- pool: the public calls

// The number at a place; 0 past the end, as the call that asks about the list is defined (`ask_all_call`).
static inline uint32_t pool_number_at(const uint32_t *list, size_t list_len, uint32_t place)
{
    return core_Option_unwrap_or_u32(core_Option_copied_u32(core_UsizeSliceIndexRefSlice_pick_u32((uint64_t)place, list, list_len)), 0u);
}

// The bytes of the payload whose offset stands at `place` of the list, 0 where none does. The whole list is asked, at one reading: each of
// its offsets but 0 must be that of a held payload, and stand there once.
static inline Result_u32_Refusal pool_ask_all(const unsigned char *pool, size_t pool_len, const uint32_t *offsets,
        size_t offsets_len, uint32_t place)
{
    Result_void_Refusal value = reading_check(pool, pool_len);
    if (value.tag != RESULT_VOID_REFUSAL_OK) {
        return Result_u32_Refusal_Err(value.as.Err);
    }
    if (!asking_all_held(pool, pool_len, offsets, offsets_len)) {
        return Result_u32_Refusal_Err(paper_Refusal_NotHeld());
    }
    uint32_t offset = pool_number_at(offsets, offsets_len, place);
    if (offset == 0u) {
        return Result_u32_Refusal_Ok(0u);
    }
    return serving_ask(pool, pool_len, offset);
}

// ---- bank: the piston bank, a product above the pool

// Refused for a piston above 31.
static inline Result_void_Refusal bank_check(uint32_t piston)
{
    if (piston < BANK_PISTONS) {
        return Result_void_Refusal_Ok();
    }
    return Result_void_Refusal_Err(paper_Refusal_NoPiston());
}

// What is asked of the pool for a call, at one reading: the bytes of the payload that the piston names, 0 where it is empty; or the first of
// 1, 2, 10 and 12 that refuses. A piston above 31 is told before a bank that names what is not held.
static inline Result_u32_Refusal bank_asked(const unsigned char *pool, size_t pool_len, const uint32_t bank[32], uint32_t piston)
{
    Result_u32_Refusal value = pool_ask_all(pool, pool_len, bank, 32u, piston);
    if (value.tag == RESULT_U32_REFUSAL_OK) {
        uint32_t long_ = value.as.Ok;
        Result_void_Refusal value2 = bank_check(piston);
        if (value2.tag != RESULT_VOID_REFUSAL_OK) {
            return Result_u32_Refusal_Err(value2.as.Err);
        }
        return Result_u32_Refusal_Ok(long_);
    } else {
        if (value.as.Err.tag == PAPER_REFUSAL_NOT_HELD) {
            Result_void_Refusal value2 = bank_check(piston);
            if (value2.tag != RESULT_VOID_REFUSAL_OK) {
                return Result_u32_Refusal_Err(value2.as.Err);
            }
            return Result_u32_Refusal_Err(paper_Refusal_NotNamed());
        } else {
            paper_Refusal why = value.as.Err;
            return Result_u32_Refusal_Err(why);
        }
    }
}

// Gives the block of a piston's old setting back, if it had one. It is held, since the bank names it, so its bytes are all that is answered.
static inline void bank_release(unsigned char *pool, size_t pool_len, uint32_t old)
{
    if (old != 0u) {
        (void)pool_lib_give_back(pool, pool_len, old);
    }
}

// Clears a piston; one that is empty stays as it is. Answers n.
static inline Result_u32_Refusal bank_lib_clear(unsigned char *pool, size_t pool_len, uint32_t bank[32], uint32_t piston)
{
    Result_u32_Refusal value = bank_asked(pool, pool_len, bank, piston);
    if (value.tag != RESULT_U32_REFUSAL_OK) {
        return Result_u32_Refusal_Err(value.as.Err);
    }
    uint64_t at = (uint64_t)piston;
    uint32_t offset = bank[at];
    bank[at] = 0u;
    bank_release(pool, pool_len, offset);
    return Result_u32_Refusal_Ok((uint32_t)pool_len);
}

// The empty part at the pool's end.
static inline bank_Place bank_nothing(const unsigned char *pool, size_t pool_len, Option_Refusal refusal)
{
    (void)pool;
    uint64_t end = pool_len;
    return bank_Place_of(refusal, end, end);
}

static inline Result_Kind_UnknownKind bank_Kind_try_from(uint8_t number)
{
    if (number == 1u) {
        return Result_Kind_UnknownKind_Ok(bank_Kind_Eight());
    } else if (number == 2u) {
        return Result_Kind_UnknownKind_Ok(bank_Kind_Sixteen());
    } else if (number == 3u) {
        return Result_Kind_UnknownKind_Ok(bank_Kind_ThirtyTwo());
    } else {
        return Result_Kind_UnknownKind_Err(bank_UnknownKind_of(number));
    }
}

static inline uint32_t bank_Kind_body(bank_Kind self)
{
    if (self.tag == BANK_KIND_EIGHT) {
        return 8u;
    } else if (self.tag == BANK_KIND_SIXTEEN) {
        return 16u;
    } else {
        return 32u;
    }
}

// How many bytes of the payload are its record; nothing where none reads.
static inline Option_u32 bank_record_in(const unsigned char *payload, size_t payload_len)
{
    Option_ref_u8 value = core_UsizeSliceIndexRefSlice_pick_u8(0u, payload, payload_len);
    if (value.tag != OPTION_REF_U8_SOME) {
        return Option_u32_None();
    }
    uint8_t number = value.as.Some[0u];
    Result_Kind_UnknownKind value2 = bank_Kind_try_from(number);
    if (value2.tag != RESULT_KIND_UNKNOWNKIND_OK) {
        return Option_u32_None();
    }
    bank_Kind kind = value2.as.Ok;
    uint32_t size = 1u + bank_Kind_body(kind);
    if (payload_len < (uint64_t)size) {
        return Option_u32_None();
    }
    return Option_u32_Some(size);
}

// Where the record of a piston stands.
static inline bank_Place bank_find(const unsigned char *pool, size_t pool_len, const uint32_t bank[32], uint32_t piston)
{
    Result_u32_Refusal value = bank_asked(pool, pool_len, bank, piston);
    if (value.tag != RESULT_U32_REFUSAL_OK) {
        paper_Refusal why = value.as.Err;
        return bank_nothing(pool, pool_len, Option_Refusal_Some(why));
    }
    uint32_t long2 = value.as.Ok;
    uint32_t long_ = long2;
    uint64_t at = (uint64_t)piston;
    uint32_t offset = bank[at];
    if (offset == 0u) {
        return bank_nothing(pool, pool_len, Option_Refusal_None());
    }
    uint64_t from = (uint64_t)offset;
    uint64_t end = from + (uint64_t)long_;
    Option_u32 value2 = bank_record_in(pool + from, (size_t)(end - from));
    if (value2.tag != OPTION_U32_SOME) {
        return bank_nothing(pool, pool_len, Option_Refusal_Some(paper_Refusal_NotNamed()));
    }
    uint32_t size = value2.as.Some;
    return bank_Place_of(Option_Refusal_None(), from, from + (uint64_t)size);
}

// How many bytes the record of a piston has, its byte of kind included, 0 where it is empty: for a caller who has the bank, and so knows
// that the record starts at the piston's offset.
static inline Result_u32_Refusal bank_ask(const unsigned char *pool, size_t pool_len, const uint32_t bank[32], uint32_t piston)
{
    bank_Place place = bank_find(pool, pool_len, bank, piston);
    if (place.refusal.tag == OPTION_REFUSAL_SOME) {
        paper_Refusal why = place.refusal.as.Some;
        return Result_u32_Refusal_Err(why);
    }
    return Result_u32_Refusal_Ok((uint32_t)(place.to - place.from));
}

// Refused where a kind and a body make no record.
static inline Result_void_Refusal bank_records_check(uint8_t kind, const unsigned char *body, size_t body_len)
{
    (void)body;
    Result_Kind_UnknownKind value = bank_Kind_try_from(kind);
    if (value.tag != RESULT_KIND_UNKNOWNKIND_OK) {
        return Result_void_Refusal_Err(paper_Refusal_NoRecord());
    }
    bank_Kind known = value.as.Ok;
    if (body_len != (uint64_t)bank_Kind_body(known)) {
        return Result_void_Refusal_Err(paper_Refusal_NoRecord());
    }
    return Result_void_Refusal_Ok();
}

// Puts the byte of kind, then the body, at the start of a part.
static inline void bank_write(unsigned char *part, size_t part_len, uint8_t kind, const unsigned char *body, size_t body_len)
{
    if (part_len != 1u + (uint64_t)body_len) {
        return;
    }
    part[0u] = kind;
    for (uint64_t i = 0u; i < body_len; i++) {
        part[i + 1u] = body[i];
    }
}

// Sets a piston: a new block has the record, then the old one is given back. With no room the old setting stays. Answers n.
static inline Result_u32_Refusal bank_lib_set(unsigned char *pool, size_t pool_len, uint32_t bank[32], uint32_t piston,
        uint8_t kind, const unsigned char *body, size_t body_len)
{
    Result_u32_Refusal value = bank_asked(pool, pool_len, bank, piston);
    if (value.tag != RESULT_U32_REFUSAL_OK) {
        return Result_u32_Refusal_Err(value.as.Err);
    }
    Result_void_Refusal value2 = bank_records_check(kind, body, body_len);
    if (value2.tag != RESULT_VOID_REFUSAL_OK) {
        return Result_u32_Refusal_Err(value2.as.Err);
    }
    uint64_t size = (uint64_t)body_len + 1u;
    Result_u32_Refusal value3 = pool_lib_take(pool, pool_len, (uint32_t)size);
    if (value3.tag != RESULT_U32_REFUSAL_OK) {
        return Result_u32_Refusal_Err(value3.as.Err);
    }
    uint32_t offset = value3.as.Ok;
    uint64_t from = (uint64_t)offset;
    uint64_t to = from + size;
    bank_write(pool + from, (size_t)(to - from), kind, body, body_len);
    uint64_t at = (uint64_t)piston;
    uint32_t old = bank[at];
    bank[at] = offset;
    bank_release(pool, pool_len, old);
    return Result_u32_Refusal_Ok((uint32_t)pool_len);
}

// ---- board: the public calls for C

// Clears a piston; answers the pool's length.
uint64_t bank_clear(unsigned char *pool, size_t pool_len, uint32_t bank[32], uint32_t piston)
{
    return board_of(bank_lib_clear(pool, pool_len, bank, piston));
}

// Recalls a piston; answers how many bytes the record has. It starts at the piston's offset, which C reads from the bank.
uint64_t bank_recall(const unsigned char *pool, size_t pool_len, const uint32_t bank[32], uint32_t piston)
{
    return board_of(bank_ask(pool, pool_len, bank, piston));
}

// Sets a piston; answers the pool's length.
uint64_t bank_set(unsigned char *pool, size_t pool_len, uint32_t bank[32], uint32_t piston, uint8_t kind,
        const unsigned char *body, size_t body_len)
{
    return board_of(bank_lib_set(pool, pool_len, bank, piston, kind, body, body_len));
}

#endif
