// Executed instructions, counted between two requests of this program; `counting.h` says by whom. Each measurement has a
// name, under which `bench/table.py` finds its number. What the two requests themselves cost is measured too.
#include "counting.h"
#include "measure.h"
#include <stdio.h>
#include <stdlib.h>
#include <string.h>

static uint8_t image[LARGEST], pool[LARGEST];

#define COUNTED(call) \
    do {              \
        COUNT_ON;     \
        call;         \
        COUNT_OFF;    \
    } while (0)

// Ends a measurement of `calls` calls: it has the counted instructions since the last one.
static void done(const char *kind, const char *name, const char *more, unsigned calls) {
    char text[200];
    snprintf(text, sizeof text, "%s | %s | %s | %u", kind, name, more, calls);
    COUNTED_AS(text);
}

static uint64_t nothing(const uint8_t *at, size_t n) { return at ? n : 0; }

// What every measurement below has on top: a call through a pointer, and the requests.
static void requests_alone(void) {
    uint64_t (*volatile call)(const uint8_t *, size_t) = nothing;
    COUNTED(call(pool, LARGEST));
    done("requests", "", "", 1);
}

static void inspections(size_t n) {
    char more[50];
    for (int s = 0; s < SHAPES; s++) {
        shapes[s].build(pool, n);
        for (int l = 0; l < LIBRARIES; l++) {
            uint64_t answer;
            COUNTED(answer = libraries[l]->inspect(pool, n));
            if (answer != n)
                abort();
            snprintf(more, sizeof more, "%zu | %s", n, libraries[l]->name);
            done("inspect", shapes[s].name, more, 1);
        }
    }
}

// A move to the other layout, beside an inspection of the pool that it meets: a shape of layout 1, or what a move has made of it.
static void one_conversion(const struct shape *shape, size_t n, uint32_t old) {
    static uint8_t after[LARGEST];
    char more[100];
    shape->build(image, n);
    if (old == 2 && plain_convert(image, n, 1) != n)
        abort();
    for (int l = 0; l < LIBRARIES; l++) {
        uint64_t answer;
        memcpy(pool, image, n);
        COUNTED(libraries[l]->inspect(pool, n));
        snprintf(more, sizeof more, "%zu | %u | %s inspection", n, old, libraries[l]->name);
        done("conversion", shape->name, more, 1);
        COUNTED(answer = libraries[l]->convert(pool, n, old));
        snprintf(more, sizeof more, "%zu | %u | %s", n, old, libraries[l]->name);
        done("conversion", shape->name, more, 1);
        if (l == 0)
            memcpy(after, pool, n);
        if (answer != n || memcmp(pool, after, n))
            abort();
    }
}

static void conversions(size_t n) {
    for (uint32_t old = 1; old <= 2; old++)
        for (int s = 0; s < OF_LAYOUT_1; s++)
            one_conversion(&shapes[s], n, old);
}

// What sends small blocks home, beside an inspection of the same pool with the block at E held: the give-back of that block; bringing in what the pool
// is when that block was given back by the old rule; and bringing in the pool as it is, which sends nothing home.
enum { GIVES, BRINGS, BRINGS_NONE, WAYS };
static const char *const ways[WAYS] = {"give back at E", "bring in", "bring in, none at E"};

static uint64_t go_home(const struct library *library, int way) {
    uint64_t answer;
    if (way == BRINGS)
        stay_at_edge(pool);
    if (way == GIVES)
        COUNTED(answer = library->give_back(pool, LARGEST, edge_of(image) + 4));
    else
        COUNTED(answer = library->bring_in(pool, LARGEST));
    return answer;
}

static void one_home(const struct home *home) {
    static uint8_t after[LARGEST];
    char more[100];
    home->build(image);
    for (int way = 0; way < WAYS; way++)
        for (int l = 0; l < LIBRARIES; l++) {
            memcpy(pool, image, LARGEST);
            COUNTED(libraries[l]->inspect(pool, LARGEST));
            snprintf(more, sizeof more, "%s | %s inspection", home->name, libraries[l]->name);
            done("home", ways[way], more, 1);
            uint64_t answer = go_home(libraries[l], way);
            snprintf(more, sizeof more, "%s | %s", home->name, libraries[l]->name);
            done("home", ways[way], more, 1);
            if (l == 0)
                memcpy(after, pool, LARGEST);
            if (answer >> 32 || (way != GIVES && answer != (way == BRINGS ? home->blocks : 0)) || memcmp(pool, after, LARGEST))
                abort();
        }
}

static uint64_t operate(const struct operation *o, const struct library *library, uint32_t argument) {
    uint64_t answer;
    memcpy(pool, image, LARGEST);
    if (o->gives)
        COUNTED(answer = library->give_back(pool, LARGEST, argument));
    else
        COUNTED(answer = library->take(pool, LARGEST, argument));
    return answer;
}

static void one_operation(const struct operation *o) {
    char more[100];
    shapes[o->shape].build(image, LARGEST);
    uint32_t argument = o->argument(image, LARGEST);
    uint64_t answers[LIBRARIES], answer;
    for (int l = 0; l < LIBRARIES; l++) {
        answers[l] = operate(o, libraries[l], argument);
        snprintf(more, sizeof more, "%s | %s", shapes[o->shape].name, libraries[l]->name);
        done("operation", o->name, more, 1);
        memcpy(pool, image, LARGEST);
        COUNTED(libraries[l]->inspect(pool, LARGEST));
        snprintf(more, sizeof more, "%s | %s inspection", shapes[o->shape].name, libraries[l]->name);
        done("operation", o->name, more, 1);
    }
    memcpy(pool, image, LARGEST);
    if (o->gives)
        COUNTED(answer = plain_give_back_unchecked(pool, LARGEST, argument));
    else
        COUNTED(answer = plain_take_unchecked(pool, LARGEST, argument));
    snprintf(more, sizeof more, "%s | plain unchecked", shapes[o->shape].name);
    done("operation", o->name, more, 1);
    for (int l = 0; l < LIBRARIES; l++)
        if (answers[l] != answer)
            abort();
}

// The calls that count, which go along all blocks of the pool.
static void countings(void) {
    char more[100];
    uint32_t list[53];
    for (int s = 0; s < SHAPES; s++) {
        shapes[s].build(pool, LARGEST);
        for (int l = 0; l < LIBRARIES; l++) {
            uint64_t figures, classes;
            snprintf(more, sizeof more, "%s | %s", shapes[s].name, libraries[l]->name);
            COUNTED(figures = libraries[l]->figures(pool, LARGEST, list, 7));
            done("counting", "figures", more, 1);
            COUNTED(classes = libraries[l]->class_count(pool, LARGEST, list, 53));
            done("counting", "class count", more, 1);
            if (figures >> 32 || classes >> 32)
                abort();
        }
    }
}

// The bank's calls, each beside an inspection of the pool that it meets.
static void one_bank_call(const struct console *console, const struct bank_call *call) {
    static struct pistons before, after[LIBRARIES];
    char more[100];
    set_pistons(&before, console, call);
    uint32_t piston = before.piston;
    uint8_t kind = kind_of(piston);
    const uint8_t *body = body_of(piston);
    size_t length = length_of(piston);
    uint64_t answers[LIBRARIES];
    for (int l = 0; l < LIBRARIES; l++) {
        const struct library *library = libraries[l];
        struct pistons *p = &after[l];
        memcpy(p, &before, sizeof before);
        COUNTED(library->inspect(p->pool, p->n));
        snprintf(more, sizeof more, "%s | %zu | %s inspection", console->name, console->n, library->name);
        done("bank", call->name, more, 1);
        switch (call->kind) {
        case SET: COUNTED(answers[l] = library->bank_set(p->pool, p->n, p->bank, piston, kind, body, length)); break;
        case CLEAR: COUNTED(answers[l] = library->bank_clear(p->pool, p->n, p->bank, piston)); break;
        case RECALL: COUNTED(answers[l] = library->bank_recall(p->pool, p->n, p->bank, piston)); break;
        }
        snprintf(more, sizeof more, "%s | %zu | %s", console->name, console->n, library->name);
        done("bank", call->name, more, 1);
    }
    for (int l = 0; l < LIBRARIES; l++)
        if (answers[l] >> 32 != call->refusal || answers[l] != answers[0] || memcmp(&after[l], &after[0], sizeof before))
            abort();
}

static void banks(void) {
    for (int c = 0; c < CONSOLES; c++)
        for (int b = 0; b < (c == 0 ? BANK_CALLS : MAIN_BANK_CALLS); b++)
            one_bank_call(&consoles[c], &bank_calls[b]);
}

static void tape(uint32_t layout) {
    for (int l = 0; l < LIBRARIES; l++) {
        memset(pool, 0, sizeof pool);
        for (int i = 0; i < 13; i++)
            COUNTED(serve(libraries[l], pool, layout, &worked_tape[i]));
        done("tape", layout == 1 ? "layout 1" : "layout 2", libraries[l]->name, 13);
    }
}

// A take that looks for a bin, beside an inspection of the pool that it meets: of a size above all bins, which nothing gives, and of the
// middle bin's size, which that bin gives.
static void one_find(uint32_t bins, uint32_t layout, const char *what, uint32_t size, uint32_t refusal) {
    char more[100];
    size_t n;
    build_bins(image, &n, bins, layout);
    for (int l = 0; l < LIBRARIES; l++) {
        uint64_t answer;
        memcpy(pool, image, n);
        COUNTED(libraries[l]->inspect(pool, n));
        snprintf(more, sizeof more, "%u | %u | %s inspection", bins, layout, libraries[l]->name);
        done("find", what, more, 1);
        COUNTED(answer = libraries[l]->take(pool, n, size));
        snprintf(more, sizeof more, "%u | %u | %s", bins, layout, libraries[l]->name);
        done("find", what, more, 1);
        if (answer >> 32 != refusal)
            abort();
    }
}

static void finds(void) {
    static const uint32_t counts[] = {10, 50, 111};
    for (int c = 0; c < 3; c++)
        for (uint32_t layout = 1; layout <= 2; layout++) {
            one_find(counts[c], layout, "past all bins, refused", 68 + 8 * counts[c], POOL_NO_ROOM);
            one_find(counts[c], layout, "the middle bin, taken", 68 + 8 * (counts[c] / 2), POOL_DONE);
        }
}

// ---- the requests of a console, served by four allocators; takes and give-backs are counted apart

static struct request requests[REQUESTS];
static uint32_t offsets[RECORDS];
static void *places[RECORDS];
enum { OF_ALL, OF_TAKES, OF_GIVE_BACKS };

static int counts(int part, const struct request *r) { return (part == OF_TAKES) == (r->size != 0); }

// The proved library's call, or where `inspection` is set only the inspection that it begins with.
static void by_proved(int part, int inspection) {
    pool_lay_out(pool, LARGEST, 1);
    for (int i = 0; i < REQUESTS; i++) {
        const struct request *r = &requests[i];
        uint64_t answer;
        if (inspection && counts(part, r))
            COUNTED(pool_inspect(pool, LARGEST));
        if (inspection || !counts(part, r))
            answer = r->size ? plain_take_unchecked(pool, LARGEST, r->size)
                             : plain_give_back_unchecked(pool, LARGEST, offsets[r->record]);
        else if (r->size)
            COUNTED(answer = pool_take(pool, LARGEST, r->size));
        else
            COUNTED(answer = pool_give_back(pool, LARGEST, offsets[r->record]));
        if (answer >> 32)
            abort();
        offsets[r->record] = (uint32_t)answer;
    }
}

static void by_plain(int part) {
    plain_lay_out(pool, LARGEST, 1);
    for (int i = 0; i < REQUESTS; i++) {
        const struct request *r = &requests[i];
        uint64_t answer;
        if (!counts(part, r))
            answer = r->size ? plain_take_unchecked(pool, LARGEST, r->size)
                             : plain_give_back_unchecked(pool, LARGEST, offsets[r->record]);
        else if (r->size)
            COUNTED(answer = plain_take_unchecked(pool, LARGEST, r->size));
        else
            COUNTED(answer = plain_give_back_unchecked(pool, LARGEST, offsets[r->record]));
        if (answer >> 32)
            abort();
        offsets[r->record] = (uint32_t)answer;
    }
}

static void by_firstfit(int part) {
    firstfit_lay_out(pool, LARGEST);
    for (int i = 0; i < REQUESTS; i++) {
        const struct request *r = &requests[i];
        uint32_t *offset = &offsets[r->record];
        if (r->size && part == OF_TAKES)
            COUNTED(*offset = firstfit_take(pool, r->size));
        else if (r->size)
            *offset = firstfit_take(pool, r->size);
        else if (part == OF_GIVE_BACKS)
            COUNTED(firstfit_give_back(pool, *offset));
        else
            firstfit_give_back(pool, *offset);
        if (*offset == 0)
            abort();
    }
}

static void by_malloc(int part) {
    for (int i = 0; i < REQUESTS; i++) {
        const struct request *r = &requests[i];
        void **place = &places[r->record];
        if (r->size && part == OF_TAKES)
            COUNTED(*place = malloc(r->size));
        else if (r->size)
            *place = malloc(r->size);
        else if (part == OF_GIVE_BACKS)
            COUNTED(free(*place));
        else
            free(*place);
        if (!r->size)
            *place = NULL;
    }
    for (int i = 0; i < RECORDS; i++) {
        free(places[i]);
        places[i] = NULL;
    }
}

static void served(void) {
    make_requests(requests);
    unsigned takes = 0;
    for (int i = 0; i < REQUESTS; i++)
        takes += requests[i].size != 0;
    for (int part = OF_TAKES; part <= OF_GIVE_BACKS; part++) {
        const char *name = part == OF_TAKES ? "take" : "give back";
        unsigned calls = part == OF_TAKES ? takes : REQUESTS - takes;
        by_proved(part, 0);
        done("served", name, "proved", calls);
        by_proved(part, 1);
        done("served", name, "proved inspection", calls);
        by_plain(part);
        done("served", name, "plain unchecked", calls);
        by_firstfit(part);
        done("served", name, "first fit", calls);
        by_malloc(part);
        done("served", name, "malloc", calls);
    }
}

void count(void) {
    // a call of each library first, so that the loader's work is done
    for (int l = 0; l < LIBRARIES; l++)
        libraries[l]->inspect(pool, libraries[l]->lay_out(pool, LARGEST, 1));
    COUNT_FROM_HERE;
    requests_alone();
    inspections(LARGEST);
    inspections(1024);
    for (int o = 0; o < OPERATIONS; o++)
        one_operation(&operations[o]);
    countings();
    finds();
    conversions(LARGEST);
    conversions(1024);
    for (int h = 0; h < HOMES; h++)
        one_home(&homes[h]);
    banks();
    tape(1);
    tape(2);
    served();
}
