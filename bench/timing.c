// Times in nanoseconds a call. The libraries take turns in every round, so that both meet the same state of the machine;
// the median of the rounds is printed.
#include "measure.h"
#include <stdio.h>
#include <stdlib.h>
#include <string.h>
#include <time.h>

enum { ROUNDS = 41 };
static uint8_t pool[LARGEST], images[2][LARGEST];

static double now(void) {
    struct timespec t;
    clock_gettime(CLOCK_MONOTONIC, &t);
    return 1e9 * t.tv_sec + t.tv_nsec;
}

static int by_value(const void *a, const void *b) {
    double x = *(const double *)a, y = *(const double *)b;
    return (x > y) - (x < y);
}

static void print_median(const char *kind, const char *name, double *rounds) {
    qsort(rounds, ROUNDS, sizeof *rounds, by_value);
    printf("%s | %s | %.1f\n", kind, name, rounds[ROUNDS / 2]);
}

// A pair is a take and the give-back of what was taken.
struct pair {
    const char *name;
    int shape;
    uint32_t size;
};
static const struct pair pairs[4] = {
    {"fresh | take 12 and give it back", 0, 12},
    {"fresh | take 100 and give it back", 0, 100},
    {"mixed console | take 12 and give it back", 4, 12},
    {"mixed console | take 200 and give it back", 4, 200},
};

static void inspect_times(const struct library *l, uint8_t *at, int times) {
    for (int i = 0; i < times; i++)
        if (l->inspect(at, LARGEST) != LARGEST)
            abort();
}

static void pair_times(const struct library *l, uint8_t *at, uint32_t size, int times) {
    for (int i = 0; i < times; i++) {
        uint64_t taken = l->take(at, LARGEST, size);
        if (taken >> 32 || l->give_back(at, LARGEST, taken) >> 32)
            abort();
    }
}

static void tape_times(const struct library *l, uint8_t *at, int times) {
    for (int i = 0; i < times; i++)
        for (int c = 0; c < 13; c++)
            serve(l, at, 1, &worked_tape[c]);
}

// How many calls take about a millisecond, by the plain library.
static int enough(double ns) { return ns > 5e5 ? 2 : (int)(1e6 / ns) + 1; }

static void inspections(void) {
    char name[100];
    double rounds[2][ROUNDS];
    for (int s = 0; s < SHAPES; s++) {
        shapes[s].build(pool, LARGEST);
        double from = now();
        inspect_times(&plain, pool, 8);
        int times = enough((now() - from) / 8);
        for (int r = 0; r < ROUNDS; r++)
            for (int l = 0; l < TIMED; l++) {
                from = now();
                inspect_times(libraries[l], pool, times);
                rounds[l][r] = (now() - from) / times;
            }
        for (int l = 0; l < TIMED; l++) {
            snprintf(name, sizeof name, "%s | %s", shapes[s].name, libraries[l]->name);
            print_median("inspect", name, rounds[l]);
        }
    }
}

static void both(void) {
    char name[100];
    double rounds[2][ROUNDS];
    for (int p = 0; p < 4; p++) {
        for (int l = 0; l < TIMED; l++)
            shapes[pairs[p].shape].build(images[l], LARGEST);
        double from = now();
        pair_times(&plain, images[1], pairs[p].size, 8);
        int times = enough((now() - from) / 8);
        for (int r = 0; r < ROUNDS; r++)
            for (int l = 0; l < TIMED; l++) {
                from = now();
                pair_times(libraries[l], images[l], pairs[p].size, times);
                rounds[l][r] = (now() - from) / times;
            }
        for (int l = 0; l < TIMED; l++) {
            snprintf(name, sizeof name, "%s | %s", pairs[p].name, libraries[l]->name);
            print_median("pair", name, rounds[l]);
        }
    }
}

static void tape(void) {
    double rounds[2][ROUNDS];
    for (int r = 0; r < ROUNDS; r++)
        for (int l = 0; l < TIMED; l++) {
            double from = now();
            tape_times(libraries[l], pool, 200);
            rounds[l][r] = (now() - from) / 200;
        }
    for (int l = 0; l < TIMED; l++)
        print_median("tape", libraries[l]->name, rounds[l]);
}

// ---- the requests of a console, without inspection: a nanosecond figure for each request

static struct request requests[REQUESTS];
static uint32_t offsets[RECORDS];
static void *places[RECORDS];

static void by_plain(void) {
    plain_lay_out(pool, LARGEST, 1);
    for (int i = 0; i < REQUESTS; i++) {
        uint32_t *offset = &offsets[requests[i].record];
        *offset = requests[i].size ? plain_take_unchecked(pool, LARGEST, requests[i].size)
                                   : plain_give_back_unchecked(pool, LARGEST, *offset);
    }
}

static void by_firstfit(void) {
    firstfit_lay_out(pool, LARGEST);
    for (int i = 0; i < REQUESTS; i++) {
        uint32_t *offset = &offsets[requests[i].record];
        if (requests[i].size)
            *offset = firstfit_take(pool, requests[i].size);
        else
            firstfit_give_back(pool, *offset);
    }
}

static void by_malloc(void) {
    memset(places, 0, sizeof places);
    for (int i = 0; i < REQUESTS; i++) {
        void **place = &places[requests[i].record];
        if (requests[i].size) {
            *place = malloc(requests[i].size);
        } else {
            free(*place);
            *place = NULL;
        }
    }
    for (int i = 0; i < RECORDS; i++)
        free(places[i]);
}

static void served(void) {
    static const char *const names[3] = {"plain unchecked", "first fit", "malloc"};
    static void (*const ways[3])(void) = {by_plain, by_firstfit, by_malloc};
    double rounds[3][ROUNDS];
    make_requests(requests);
    for (int r = 0; r < ROUNDS; r++)
        for (int w = 0; w < 3; w++) {
            double from = now();
            ways[w]();
            rounds[w][r] = (now() - from) / REQUESTS;
        }
    for (int w = 0; w < 3; w++)
        print_median("served", names[w], rounds[w]);
}

void timing(void) {
    inspections();
    both();
    tape();
    served();
}
