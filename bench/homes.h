// Pools from which small blocks go home, and what they were by the rule before small blocks went home.
#ifndef HOMES_H
#define HOMES_H
#include "shapes.h"

enum { HOMES = 4, MANY = 4000 };

// A pool of LARGEST bytes whose block at E is held. So many blocks go home when that one comes back, itself included.
struct home {
    const char *name;
    void (*build)(uint8_t *pool);
    uint32_t blocks;
};
extern const struct home homes[HOMES];

// E, where the remainder ends.
uint32_t edge_of(const uint8_t *pool);

// The block at E is given back by the old rule: it is put in front of its bin, and stays.
void stay_at_edge(uint8_t *pool);
#endif
