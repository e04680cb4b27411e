// The pool and the piston bank in plain C, to be measured against: the same bytes, the same calls and the same tests as the proved
// library.
//
// An answer is one number: the refusal in the upper 32 bits, the value in the lower. Every call but laying out inspects the
// pool first, bringing in by the rule before small blocks went home. The forms `_unchecked` leave that out, and nothing else: a give-back still looks its offset up.
#ifndef PLAIN_H
#define PLAIN_H
#include <stddef.h>
#include <stdint.h>

uint64_t plain_lay_out(uint8_t *pool, size_t n, uint32_t layout);
uint64_t plain_convert(uint8_t *pool, size_t n, uint32_t old);
uint64_t plain_bring_in(uint8_t *pool, size_t n);
uint64_t plain_inspect(const uint8_t *pool, size_t n);
uint64_t plain_take(uint8_t *pool, size_t n, uint32_t size);
uint64_t plain_give_back(uint8_t *pool, size_t n, uint32_t offset);
uint64_t plain_ask(const uint8_t *pool, size_t n, uint32_t offset);
uint64_t plain_ask_all(const uint8_t *pool, size_t n, const uint32_t *offsets, size_t count, uint32_t place);
uint64_t plain_figures(const uint8_t *pool, size_t n, uint32_t *figures, size_t count);
uint64_t plain_class_count(const uint8_t *pool, size_t n, uint32_t *counts, size_t count);

// The piston bank, over the calls above: a bank is asked as a whole at one walk, and each call of the pool inspects for itself.
uint64_t plain_bank_set(uint8_t *pool, size_t n, uint32_t bank[32], uint32_t piston, uint8_t kind, const uint8_t *body, size_t length);
uint64_t plain_bank_clear(uint8_t *pool, size_t n, uint32_t bank[32], uint32_t piston);
uint64_t plain_bank_recall(const uint8_t *pool, size_t n, const uint32_t bank[32], uint32_t piston);

uint64_t plain_take_unchecked(uint8_t *pool, size_t n, uint32_t size);
uint64_t plain_give_back_unchecked(uint8_t *pool, size_t n, uint32_t offset);
#endif
