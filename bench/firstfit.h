// The textbook's list of blocks without links: first fit, boundary tags, joining at once. It inspects nothing and
// believes every offset it is given.
#ifndef FIRSTFIT_H
#define FIRSTFIT_H
#include <stddef.h>
#include <stdint.h>

void firstfit_lay_out(uint8_t *heap, size_t n);
// Where the payload starts, 0 where no block is large enough.
uint32_t firstfit_take(uint8_t *heap, uint32_t size);
void firstfit_give_back(uint8_t *heap, uint32_t offset);
// Whether the blocks are end to end, with equal tags at both ends and no two free ones side by side.
int firstfit_ok(const uint8_t *heap, size_t n);
#endif
