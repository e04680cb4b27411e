// Pools with 32 pistons set, and the bank's calls that are measured on them.
#ifndef BANKS_H
#define BANKS_H
#include "shapes.h"

enum { PISTONS = 32, CONSOLES = 3, BANK_CALLS = 8, MAIN_BANK_CALLS = 3 };

// What the pool was before its pistons were set.
struct console {
    const char *name;
    int shape;
    size_t n;
};
// The first is the one that the demand is about.
extern const struct console consoles[CONSOLES];

// A console's bytes, its bank, and the piston that a call is about.
struct pistons {
    size_t n;
    uint8_t pool[LARGEST];
    uint32_t bank[PISTONS], piston;
};

// A call, what is done to the pistons before it, and the refusal that it must end with, 0 for none.
struct bank_call {
    const char *name;
    enum { SET, CLEAR, RECALL } kind;
    void (*prepare)(struct pistons *pistons);
    uint32_t refusal;
};
// The first three are those that are counted on every console.
extern const struct bank_call bank_calls[BANK_CALLS];

// The pistons as the call meets them.
void set_pistons(struct pistons *pistons, const struct console *console, const struct bank_call *call);

// What a piston is set to: kinds 1, 2 and 3 in turn, and a body that no other piston has.
uint8_t kind_of(uint32_t piston);
size_t length_of(uint32_t piston);
const uint8_t *body_of(uint32_t piston);
#endif
