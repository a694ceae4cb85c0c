/* Times the state check of the port's compiled code at each of the places that tools/placements.py puts it in memory: one library file for each place. The state has one table of 64 pages, full but for
 * 16 slots, 4,000 objects and 16 rows, as that of the benchmark (docs/performance.md). Prints a line for each library: the time below which a hundredth of its runs lie, and that below which half do, in
 * nanoseconds.
 *
 *   placements (one | turn) ROUNDS LIBRARY..      the handles are all of object 0, or of all objects in turn */
#define _POSIX_C_SOURCE 200809L
#include <dlfcn.h>
#include <inttypes.h>
#include <stdio.h>
#include <stdlib.h>
#include <string.h>
#include <time.h>

#include "gurtxozal_calls.h"

enum { PAGES = 64, FREE = 16, SPARE = 2, OBJECTS = 4000, ROWS = 16, SLOTS = 64 * PAGES - FREE };
enum { STATE = GURTXOZAL_STATE_WORDS(1, PAGES + SPARE, PAGES + SPARE, OBJECTS, ROWS), RUNS = 21, PAGE = 4096, MOST = 256 };
typedef uint64_t (*call)(uint64_t *, size_t, const uint64_t *, size_t, uint64_t *, size_t);

static uint64_t state[STATE];
static uint64_t list[64];
static uint64_t answers[2 * GURTXOZAL_ANSWER_WORDS];

static void must(int right, const char *what) {
    if (!right) {
        fprintf(stderr, "placements: %s\n", what);
        exit(1);
    }
}

/* Runs a list of `used` words; its first answer. */
static const uint64_t *run(size_t used) {
    must(gurtxozal_run(state, STATE, list, used, answers, sizeof answers / sizeof *answers) == GURTXOZAL_DONE && answers[0] == GURTXOZAL_DONE, "a request is refused");
    return answers;
}

static void create(void) {
    static uint64_t words[6 + 6 * OBJECTS];
    const size_t room = sizeof words / sizeof *words;
    size_t used = gurtxozal_put_creation_counts(words, room, 1, PAGES + SPARE, OBJECTS, ROWS);
    used += gurtxozal_put_creation_table(words + used, room - used, PAGES + SPARE, 0);
    for (uint64_t number = 0; number < OBJECTS; number++) {
        used += gurtxozal_put_creation_object(words + used, room - used, 1000 + number, 7, GURTXOZAL_CLASS_LEAF, UINT64_MAX, 1, UINT32_MAX);
    }
    must(gurtxozal_create(state, STATE, words, used) == GURTXOZAL_DONE, "the creation is refused");
}

/* Fills the slots: of object 0 each, or of the objects in turn. */
static void fill(int turn) {
    static uint64_t values[OBJECTS];
    for (uint64_t slot = 0; slot < SLOTS; slot++) {
        const uint64_t object = turn ? slot % OBJECTS : 0;
        const size_t room = sizeof list / sizeof *list;
        const size_t made = slot == object ? gurtxozal_put_new_object(list, room, object, UINT64_MAX, 0) : gurtxozal_put_duplicate(list, room, 0, values[object], UINT64_MAX);
        const uint64_t parcel = run(made)[1];
        const struct gurtxozal_reserve_answer row = gurtxozal_read_reserve(run(gurtxozal_put_reserve(list, room, 0, 1)));
        if (slot == object) {
            values[object] = row.values[0];
        }
        size_t used = gurtxozal_put_publish(list, room, 1, row.id);
        used += gurtxozal_put_parcel_item(list + used, room - used, parcel);
        run(used);
    }
}

static double now(void) {
    struct timespec time;
    clock_gettime(CLOCK_MONOTONIC, &time);
    return (double)time.tv_sec * 1e9 + (double)time.tv_nsec;
}

static int order(const void *a, const void *b) {
    const double x = *(const double *)a, y = *(const double *)b;
    return (x > y) - (x < y);
}

int main(int count, char **words) {
    must(count > 3 && count - 3 <= MOST, "placements (one | turn) ROUNDS LIBRARY..");
    const long rounds = strtol(words[2], NULL, 10);
    const int libraries = count - 3;
    must(rounds > 0, "no rounds");
    create();
    fill(strcmp(words[1], "turn") == 0);
    call calls[MOST];
    for (int l = 0; l < libraries; l++) {
        void *const library = dlopen(words[3 + l], RTLD_NOW | RTLD_LOCAL);
        must(library != NULL, "a library cannot be opened");
        *(void **)&calls[l] = dlsym(library, "gurtxozal_run");
        must(calls[l] != NULL, "a library has no gurtxozal_run");
    }
    double *const times = malloc(sizeof *times * (size_t)libraries * (size_t)rounds * RUNS);
    char *const memory = malloc(sizeof state + 65 * PAGE);
    must(times != NULL && memory != NULL, "no memory");
    /* In each round the words lie elsewhere, and another library begins, so that what else the machine does falls on all alike. */
    for (long round = 0; round < rounds; round++) {
        uint64_t *const copy = (uint64_t *)(memory + (size_t)(rand() % 64) * PAGE);
        for (int turn = 0; turn < libraries; turn++) {
            const int l = (turn + (int)(round % libraries)) % libraries;
            for (int k = 0; k < RUNS; k++) {
                memcpy(copy, state, sizeof state);
                const double from = now();
                const uint64_t number = calls[l](copy, STATE, NULL, 0, NULL, 0);
                times[((size_t)l * (size_t)rounds + (size_t)round) * RUNS + (size_t)k] = now() - from;
                must(number == GURTXOZAL_DONE, "the state check refuses");
            }
        }
    }
    for (int l = 0; l < libraries; l++) {
        const size_t all = (size_t)rounds * RUNS;
        double *const of = times + (size_t)l * all;
        qsort(of, all, sizeof *of, order);
        printf("%.0f %.0f\n", of[all / 100], of[all / 2]);
    }
    return 0;
}
