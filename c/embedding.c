/* Tries what docs/embedding.md says of the calls: where lent words may stand, which are written, and how many are needed. Prints a line for each; the status
 * is 0 only if all hold. */
#define _GNU_SOURCE
#include <signal.h>
#include <stdbool.h>
#include <stdio.h>
#include <stdlib.h>
#include <string.h>
#include <sys/mman.h>
#include <sys/wait.h>
#include <unistd.h>

#include "gurtxozal_calls.h"

enum { TABLES = 1, PAGES = 2, FRAMES = 2, OBJECTS = 2, ROWS = 2, WORDS = GURTXOZAL_STATE_WORDS(TABLES, TABLES *PAGES, FRAMES, OBJECTS, ROWS), ANSWER = GURTXOZAL_ANSWER_WORDS };
static const uint64_t parameters[] = {TABLES, FRAMES, OBJECTS, ROWS, PAGES, 77, 1, 7, 0, 15, 1, 10, 2, 7, 0, 15, 1, 10};
enum { PARAMETERS = sizeof parameters / sizeof *parameters };
static int failed;

static void expect(bool holds, const char *what) {
    printf("%s %s\n", holds ? "ok   " : "WRONG", what);
    failed |= !holds;
}

/* Whole pages of their own, which can be protected. */
static uint64_t *pages(size_t words) {
    void *at = mmap(NULL, words * sizeof(uint64_t), PROT_READ | PROT_WRITE, MAP_PRIVATE | MAP_ANONYMOUS, -1, 0);
    if (at == MAP_FAILED) {
        exit(2);
    }
    return at;
}
static void protect(uint64_t *at, size_t words, bool writable) {
    if (mprotect(at, words * sizeof(uint64_t), writable ? PROT_READ | PROT_WRITE : PROT_READ) != 0) {
        exit(2);
    }
}

/* A call in a process of its own: its result, or STOPPED where it writes to what cannot be written. */
enum { STOPPED = 255 };
static uint64_t apart(uint64_t *state, const uint64_t *list, size_t words, uint64_t *answers, size_t room) {
    fflush(stdout);
    const pid_t child = fork();
    if (child == 0) {
        _exit((int)gurtxozal_run(state, WORDS, list, words, answers, room));
    }
    int status = 0;
    if (child < 0 || waitpid(child, &status, 0) != child || (!WIFEXITED(status) && WTERMSIG(status) != SIGSEGV)) {
        exit(2);
    }
    return WIFEXITED(status) ? (uint64_t)WEXITSTATUS(status) : STOPPED;
}

int main(void) {
    uint64_t *state = pages(WORDS + 1), *list = pages(64), *answers = pages(4 * ANSWER), *given = pages(64);
    memcpy(given, parameters, sizeof parameters);
    protect(given, 64, false);

    protect(state, WORDS, false);
    expect(gurtxozal_create(state, WORDS - 1, given, PARAMETERS) == GURTXOZAL_MISUSE, "creation in a word too few gives 18 and does not write the state");
    expect(gurtxozal_create(state, WORDS, given, PARAMETERS - 1) == GURTXOZAL_MISUSE, "creation with a parameter too few gives 18 and does not write the state");
    protect(state, WORDS, true);
    state[WORDS] = 4711;
    expect(gurtxozal_create(state, WORDS, given, PARAMETERS) == GURTXOZAL_DONE && state[WORDS] == 4711, "creation takes as many words as the formula says, and only reads its parameters");

    expect(gurtxozal_run(state, WORDS, NULL, 0, NULL, 0) == GURTXOZAL_DONE, "an empty list and no answer words, by NULL: the call checks the state and gives 0");
    const size_t words = gurtxozal_put_new_object(list, 64, 0, 15, 0);
    protect(list, 64, false);
    protect(answers, 4 * ANSWER, false);
    expect(gurtxozal_run(state, WORDS, list, words, answers, ANSWER - 1) == GURTXOZAL_ANSWER_SHORT, "71 answer words for a request give 20, and none is written");
    expect(gurtxozal_run(state, WORDS, list, words - 1, answers, ANSWER) == GURTXOZAL_MALFORMED, "a list that ends inside a record gives 19, and no answer word is written");
    protect(answers, 4 * ANSWER, true);
    memset(answers, 0xA5, 4 * ANSWER * sizeof *answers);
    expect(gurtxozal_run(state, WORDS + 1, list, words, answers, 4 * ANSWER) == GURTXOZAL_DONE && answers[ANSWER] == 0xA5A5A5A5A5A5A5A5u && state[WORDS] == 4711,
           "the list is only read; slices may be longer, and words past the state and past the last answer stay");

    expect(apart(state, list, words - 1, answers, ANSWER) == GURTXOZAL_MALFORMED, "with a handle in a parcel, the cut list gives 19 again");
    protect(state, WORDS, false);
    expect(apart(state, list, words - 1, answers, ANSWER) == STOPPED, "but not where the state cannot be written: its check writes object counts and restores them");
    protect(state, WORDS, true);

    /* 8 bytes off 16, for each slice */
    uint64_t *odd = pages(WORDS + 1), *odd_list = pages(65), *odd_answers = pages(4 * ANSWER + 1);
    memcpy(odd_list + 1, list, words * sizeof *list);
    odd_list[1 + 2] = 1; /* the other object */
    memcpy(odd + 1, state, WORDS * sizeof *state);
    memcpy(list = pages(64), odd_list + 1, words * sizeof *list);
    const uint64_t here = gurtxozal_run(state, WORDS, list, words, answers, ANSWER), there = gurtxozal_run(odd + 1, WORDS, odd_list + 1, words, odd_answers + 1, ANSWER);
    expect(here == GURTXOZAL_DONE && answers[0] == GURTXOZAL_DONE && there == here && memcmp(state, odd + 1, WORDS * sizeof *state) == 0
               && memcmp(answers, odd_answers + 1, ANSWER * sizeof *answers) == 0,
           "an alignment of 8 is enough for every slice");

    /* in the place of the two parcels, two plans that hold all there is; one is used, which makes the other stale */
    uint64_t *many = pages(5 * ANSWER);
    size_t used = gurtxozal_put_release_parcel(list, 64, 1);
    used += gurtxozal_put_release_parcel(list + used, 64 - used, 2);
    used += gurtxozal_put_make_plan(list + used, 64 - used, 0, 1);
    used += gurtxozal_put_make_plan(list + used, 64 - used, 0, 1);
    used += gurtxozal_put_reserve(list + used, 64 - used, 0, 1);
    const uint64_t planned = gurtxozal_run(state, WORDS, list, used, many, 5 * ANSWER);
    const struct gurtxozal_make_plan_answer first = gurtxozal_read_make_plan(gurtxozal_answer(many, 2)), second = gurtxozal_read_make_plan(gurtxozal_answer(many, 3));
    expect(planned == GURTXOZAL_DONE && first.frames == 1 && second.frames == 1 && gurtxozal_read_reserve(gurtxozal_answer(many, 4)).number == GURTXOZAL_ALLOCATION,
           "two plans hold both frames and both rows, and a reservation gets none");
    used = gurtxozal_put_use_plan(list, 64, first.id);
    used += gurtxozal_put_use_plan(list + used, 64 - used, second.id);
    used += gurtxozal_put_drop_plan(list + used, 64 - used, second.id);
    used += gurtxozal_put_make_plan(list + used, 64 - used, 0, GURTXOZAL_MAX_BATCH);
    const uint64_t ran = gurtxozal_run(state, WORDS, list, used, many, 5 * ANSWER);
    expect(ran == GURTXOZAL_DONE && gurtxozal_read_use_plan(gurtxozal_answer(many, 0)).number == GURTXOZAL_DONE, "a plan is used where no frame and no row is free");
    expect(gurtxozal_read_use_plan(gurtxozal_answer(many, 1)).number == GURTXOZAL_STALE_PLAN && gurtxozal_read_drop_plan(gurtxozal_answer(many, 2)).number == GURTXOZAL_DONE
               && gurtxozal_read_make_plan(gurtxozal_answer(many, 3)).frames == 1,
           "the other plan is stale then, and its frame is free once it is dropped");
    return failed;
}
