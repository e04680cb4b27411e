// The libraries' calls under one face, so that each is called in the same way.
#ifndef MEASURE_H
#define MEASURE_H
#include "../include/pool.h"
#include "../include/bank.h"
#include "banks.h"
#include "firstfit.h"
#include "homes.h"
#include "plain.h"
#include "shapes.h"

struct library {
    const char *name;
    uint64_t (*lay_out)(uint8_t *, size_t, uint32_t);
    uint64_t (*convert)(uint8_t *, size_t, uint32_t);
    uint64_t (*bring_in)(uint8_t *, size_t);
    uint64_t (*inspect)(const uint8_t *, size_t);
    uint64_t (*take)(uint8_t *, size_t, uint32_t);
    uint64_t (*give_back)(uint8_t *, size_t, uint32_t);
    uint64_t (*ask)(const uint8_t *, size_t, uint32_t);
    uint64_t (*figures)(const uint8_t *, size_t, uint32_t *, size_t);
    uint64_t (*class_count)(const uint8_t *, size_t, uint32_t *, size_t);
    uint64_t (*bank_set)(uint8_t *, size_t, uint32_t *, uint32_t, uint8_t, const uint8_t *, size_t);
    uint64_t (*bank_clear)(uint8_t *, size_t, uint32_t *, uint32_t);
    uint64_t (*bank_recall)(const uint8_t *, size_t, const uint32_t *, uint32_t);
};
extern const struct library proved, plain, file;
enum { TIMED = 2, LIBRARIES = 3 };
extern const struct library *const libraries[LIBRARIES]; // those that are timed come first

// The C file's calls: bench/run compiles c/pool.c with other names, since the archive has those.
uint64_t file_pool_lay_out(uint8_t *, size_t, uint32_t);
uint64_t file_pool_convert(uint8_t *, size_t, uint32_t);
uint64_t file_pool_bring_in(uint8_t *, size_t);
uint64_t file_pool_inspect(const uint8_t *, size_t);
uint64_t file_pool_take(uint8_t *, size_t, uint32_t);
uint64_t file_pool_give_back(uint8_t *, size_t, uint32_t);
uint64_t file_pool_ask(const uint8_t *, size_t, uint32_t);
uint64_t file_pool_figures(const uint8_t *, size_t, uint32_t *, size_t);
uint64_t file_pool_class_count(const uint8_t *, size_t, uint32_t *, size_t);
uint64_t file_bank_set(uint8_t *, size_t, uint32_t *, uint32_t, uint8_t, const uint8_t *, size_t);
uint64_t file_bank_clear(uint8_t *, size_t, uint32_t *, uint32_t);
uint64_t file_bank_recall(const uint8_t *, size_t, const uint32_t *, uint32_t);

// One call of the worked tape on a pool of 1,024 bytes and of that layout; the value is compared, so that no measurement is of a wrong run.
void serve(const struct library *library, uint8_t *pool, uint32_t layout, const struct call *call);

// What is measured, each in a file of its own.
void count(void);
void timing(void);
void stack(void);
#endif
