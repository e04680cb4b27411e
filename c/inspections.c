/* inspections N SHAPE K: inspects a pool of N bytes of that shape (bench/shapes.c) K times. c/cross counts the instructions of one as the
   difference of two runs. */
#include "../bench/shapes.h"
#include "../include/pool.h"
#include <stdlib.h>

static unsigned char pool[LARGEST];

int main(int argc, char **argv) {
    if (argc != 4)
        return 2;
    size_t n = (size_t)atoi(argv[1]);
    shapes[atoi(argv[2])].build(pool, n);
    for (int k = atoi(argv[3]); k > 0; k--)
        if (pool_refusal(pool_inspect(pool, n)))
            return 1;
    return 0;
}
