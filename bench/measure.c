// measure count | time | stack: prints one measurement a line, `KIND | NAME | .. | NUMBER`.
#include "measure.h"
#include <stdio.h>
#include <stdlib.h>
#include <string.h>

const struct library proved = {
    "proved", pool_lay_out, pool_convert, pool_bring_in, pool_inspect, pool_take, pool_give_back, pool_ask, pool_figures, pool_class_count,
    bank_set, bank_clear, bank_recall,
};
const struct library plain = {
    "plain", plain_lay_out, plain_convert, plain_bring_in, plain_inspect, plain_take, plain_give_back, plain_ask, plain_figures, plain_class_count,
    plain_bank_set, plain_bank_clear, plain_bank_recall,
};
const struct library file = {
    "file", file_pool_lay_out, file_pool_convert, file_pool_bring_in, file_pool_inspect, file_pool_take, file_pool_give_back, file_pool_ask,
    file_pool_figures, file_pool_class_count, file_bank_set, file_bank_clear, file_bank_recall,
};
const struct library *const libraries[LIBRARIES] = {&proved, &plain, &file};

void serve(const struct library *library, uint8_t *pool, uint32_t layout, const struct call *call) {
    uint32_t figures[7];
    uint64_t answer = 0;
    switch (call->kind) {
    case 'L': answer = library->lay_out(pool, call->number, layout); break;
    case 'T': answer = library->take(pool, 1024, call->number); break;
    case 'G': answer = library->give_back(pool, 1024, call->number); break;
    case 'S': library->figures(pool, 1024, figures, 7); return;
    }
    if ((uint32_t)answer != call->value)
        abort();
}

int main(int argc, char **argv) {
    if (argc == 2 && !strcmp(argv[1], "count"))
        count();
    else if (argc == 2 && !strcmp(argv[1], "time"))
        timing();
    else if (argc == 2 && !strcmp(argv[1], "stack"))
        stack();
    else
        return 2;
    return 0;
}
