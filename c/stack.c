/* How much stack the calls use: each runs on a stack of its own that was filled with a pattern, and what has changed afterwards is counted:
 * the bytes down to the lowest that has, and the words that were written. Every request is measured accepted, with 64 items or handles where it
 * can have them. Prints the most; the status is 0 only if that is below the bound of 4,096 bytes, and if a publish and a direct commit have no
 * array of handles on the stack (`straight`). */
#define _GNU_SOURCE
#include <inttypes.h>
#include <stdbool.h>
#include <stdio.h>
#include <stdlib.h>
#include <string.h>
#include <ucontext.h>

#include "gurtxozal.h"

enum { STACK = 1 << 18, BOUND = 4096, TABLES = 4, PAGES = 8, FRAMES = 16, OBJECTS = 2, ROWS = 80, BATCH = GURTXOZAL_MAX_BATCH };

static const unsigned char pattern[sizeof(uint64_t)] = {0xC3, 0xC3, 0xC3, 0xC3, 0xC3, 0xC3, 0xC3, 0xC3};
static unsigned char *stack;
static ucontext_t here, there;
static uint64_t *state;
static size_t state_words;
static uint64_t list[1000], answers[GURTXOZAL_ANSWER_WORDS], result;
static size_t used;
/* What a call takes of the stack. */
struct stack_use {
    size_t bytes, words;
};
static struct stack_use empty, taken;
static size_t most;
static const char *deepest = "none";
static bool measured[GURTXOZAL_OP_JUDGE_TRANSFER + 1];

static const uint64_t parameters[] = {TABLES, FRAMES, OBJECTS, ROWS, PAGES, 0, PAGES, 77, PAGES, 78, PAGES, 79, 1, 7, 0, 15, 1, 1000, 2, 7, 0, 15, 1, 1000};

static void create(void) {
    result = gurtxozal_create(state, state_words, parameters, sizeof parameters / sizeof *parameters);
}
static void run(void) {
    result = gurtxozal_run(state, state_words, list, used, answers, GURTXOZAL_ANSWER_WORDS);
}
static void nothing(void) {
    result = 0;
}

static struct stack_use touched(void (*call)(void)) {
    memset(stack, 0xC3, STACK);
    getcontext(&there);
    there.uc_stack.ss_sp = stack;
    there.uc_stack.ss_size = STACK;
    there.uc_link = &here;
    makecontext(&there, call, 0);
    swapcontext(&here, &there);
    size_t low = 0, words = 0;
    while (low < STACK && stack[low] == 0xC3) {
        low++;
    }
    for (size_t at = 0; at < STACK; at += sizeof(uint64_t)) {
        words += memcmp(stack + at, pattern, sizeof pattern) != 0;
    }
    return (struct stack_use){STACK - low, words};
}

/* Runs a call: what it takes is kept. Without a name it only makes ready. */
static void measure(const char *name, void (*call)(void)) {
    taken = touched(call);
    taken.bytes -= empty.bytes;
    taken.words -= empty.words;
    if (result != 0 || (call == run && used > 0 && answers[GURTXOZAL_ANSWER_NUMBER] != GURTXOZAL_DONE)) {
        printf("%s: the result is %" PRIu64 ", the number %" PRIu64 "\n", name ? name : "making ready", result, answers[GURTXOZAL_ANSWER_NUMBER]);
        exit(1);
    }
    if (name == NULL) {
        return;
    }
    printf("%-40s %5zu bytes, %3zu words written\n", name, taken.bytes, taken.words);
    if (call == run && used > 0) {
        measured[list[1]] = true;
    }
    if (taken.bytes > most) {
        most = taken.bytes;
        deepest = name;
    }
}

/* A record by its map and words, put after what the list has. */
static void put(uint64_t map, size_t n, const uint64_t *words) {
    list[used++] = map;
    memcpy(list + used, words, n * sizeof *words);
    used += n;
}
#define PUT(map, ...)                                           \
    do {                                                        \
        const uint64_t words_[] = {__VA_ARGS__};                \
        put((map), sizeof words_ / sizeof *words_, words_);     \
    } while (0)
/* A request without items: its name and its fields after the op. */
#define REQUEST(name, op, ...)                                                  \
    do {                                                                        \
        used = 0;                                                               \
        PUT(GURTXOZAL_MUST_##op, GURTXOZAL_OP_##op, __VA_ARGS__);               \
        measure((name), run);                                                   \
    } while (0)

static uint64_t values[BATCH];
/* A reservation in a table: its id; its values are kept where they are asked for. */
static uint64_t reserve(const char *name, uint64_t table, size_t n, bool kept) {
    REQUEST(name, RESERVE, table, n);
    if (kept) {
        memcpy(values, answers + GURTXOZAL_ANSWER_BATCH_VALUES, n * sizeof *values);
    }
    return answers[GURTXOZAL_ANSWER_ID];
}
/* The record of a transfer of the first handles of those values, with every field that it may carry. */
static void put_transfer(uint64_t op, uint64_t table, size_t n, uint64_t operation) {
    used = 0;
    PUT(GURTXOZAL_MUST_PREPARE_TRANSFER | GURTXOZAL_MAY_PREPARE_TRANSFER, op, table, n, GURTXOZAL_ROUTE_STAGED_STARTUP, 99, 99);
    for (size_t i = 0; i < n; i++) {
        PUT(GURTXOZAL_MUST_TRANSFER_ITEM | GURTXOZAL_MAY_TRANSFER_ITEM, operation, values[i], 15, 15, 7, 7);
    }
}
/* That transfer prepared: the claim. */
static uint64_t transfer(const char *name, uint64_t table, size_t n, uint64_t operation) {
    put_transfer(GURTXOZAL_OP_PREPARE_TRANSFER, table, n, operation);
    measure(name, run);
    return answers[GURTXOZAL_ANSWER_ID];
}
/* That transfer judged: it would be accepted, so that every item and every copy is looked at. */
static void judge(const char *name, uint64_t table, size_t n, uint64_t operation) {
    put_transfer(GURTXOZAL_OP_JUDGE_TRANSFER, table, n, operation);
    measure(name, run);
    if (answers[GURTXOZAL_ANSWER_JUDGED_NUMBER] != GURTXOZAL_DONE) {
        printf("%s: judged with %" PRIu64 " at position %" PRIu64 "\n", name, answers[GURTXOZAL_ANSWER_JUDGED_NUMBER], answers[GURTXOZAL_ANSWER_JUDGED_POSITION]);
        exit(1);
    }
}
/* Publishes parcels: what that takes. */
static struct stack_use publish(const char *name, uint64_t row, size_t n, const uint64_t *parcels) {
    used = 0;
    PUT(GURTXOZAL_MUST_PUBLISH, GURTXOZAL_OP_PUBLISH, n, row);
    for (size_t i = 0; i < n; i++) {
        PUT(GURTXOZAL_MUST_PARCEL_ITEM, 0, parcels[i]);
    }
    measure(name, run);
    return taken;
}
/* Publishes a parcel of copies of the first handles of table 0 in the last table: what the publish takes. */
static struct stack_use publish_copies(const char *name, size_t n) {
    uint64_t claim = transfer(NULL, 0, n, GURTXOZAL_COPY);
    REQUEST(NULL, COMMIT, claim);
    return publish(name, reserve(NULL, TABLES - 1, n, false), 1, &claim);
}
/* Moves the first handles of one table straight to another, or within it: what the direct commit takes. */
static struct stack_use direct(const char *name, uint64_t from, uint64_t to, size_t n) {
    uint64_t claim = transfer(NULL, from, n, GURTXOZAL_MOVE);
    uint64_t row = reserve(NULL, to, n, true);
    REQUEST(name, DIRECT_COMMIT, claim, row);
    return taken;
}

/* Document 02, 3: "write the handles from their rows straight into the slots, with no buffer or array of handles between". An array that grows
 * with the handles would show in the bytes: 64 may take no more than 1. One of fixed size would not. All requests are compiled into one function
 * (`serve`), so that it would stand in the stack of each of them, or where another request has an array. But it would be written, if only by what
 * it begins with: at a word a handle 64 words, of which at most 20 can lie where the state check has written before (an empty list takes 704
 * bytes, more than 536 of which are the frame of `gurtxozal_run`). So the words written are counted, and compared with those of an abort of 64,
 * which finds its row, goes over 64 slots and closes the row too: fewer than ROOM more, which is less than 64 without those 20. That such an array
 * is seen is tried on the scan, whose answer is an array of 8 entries of 5 words: it must write ROOM words more than the abort. */
enum { ROOM = 32 };
static bool array(struct stack_use is, struct stack_use abort_64) {
    return is.words >= abort_64.words + ROOM;
}
static bool straight(const char *what, struct stack_use one, struct stack_use all, struct stack_use abort_64) {
    if (all.bytes > one.bytes) {
        printf("%s takes %zu bytes of stack, with 1 handle %zu\n", what, all.bytes, one.bytes);
        return false;
    }
    if (array(all, abort_64)) {
        printf("%s writes %zu words of stack, an abort of 64 %zu: there may be an array of handles\n", what, all.words, abort_64.words);
        return false;
    }
    return true;
}

int main(void) {
    state_words = GURTXOZAL_STATE_WORDS(TABLES, TABLES * PAGES, FRAMES, OBJECTS, ROWS);
    state = malloc(state_words * sizeof *state);
    stack = malloc(STACK);
    if (state == NULL || stack == NULL) {
        return 2;
    }
    uint64_t parcels[BATCH], row, claim, other;
    empty = touched(nothing);
    measure("creation", create);
    measure("an empty list", run);
    REQUEST("new object", NEW_OBJECT, 0, 15, 0);
    parcels[0] = answers[GURTXOZAL_ANSWER_ID];
    REQUEST(NULL, RESERVE, 0, 1);
    uint64_t first = answers[GURTXOZAL_ANSWER_BATCH_VALUES];
    publish(NULL, answers[GURTXOZAL_ANSWER_ID], 1, parcels);
    for (int i = 0; i < BATCH; i++) {
        REQUEST(i == 0 ? "duplicate" : NULL, DUPLICATE, 0, first, 15);
        parcels[i] = answers[GURTXOZAL_ANSWER_ID];
    }
    row = reserve("reserve 64, a page more", 0, BATCH, true);
    struct stack_use from_64 = publish("publish of 64 from 64 parcels", row, BATCH, parcels);
    struct stack_use publish_1 = publish_copies("publish of 1 from a parcel", 1);
    publish_copies("publish of 8 from a parcel", 8);
    REQUEST("get_info", GET_INFO, 0, values[0]);
    REQUEST("resolve", RESOLVE, 0, values[0], 1, 7);
    REQUEST("scan_handles, 8 entries", SCAN_HANDLES, 0, 0);
    struct stack_use scan = taken;
    REQUEST("replace", REPLACE, 0, first, 15);
    first = answers[GURTXOZAL_ANSWER_NEW_VALUE];

    judge("judge transfer of 1 move", 0, 1, GURTXOZAL_MOVE);
    judge("judge transfer of 1 copy", 0, 1, GURTXOZAL_COPY);
    judge("judge transfer of 64 moves", 0, BATCH, GURTXOZAL_MOVE);
    judge("judge transfer of 64 copies", 0, BATCH, GURTXOZAL_COPY);
    claim = transfer("prepare transfer of 64 copies", 0, BATCH, GURTXOZAL_COPY);
    REQUEST("rollback of 64 copies", ROLLBACK, claim);
    claim = transfer("prepare transfer of 64 moves", 0, BATCH, GURTXOZAL_MOVE);
    REQUEST("get_info of the last of 64 moves", GET_INFO, 0, values[BATCH - 1]);
    REQUEST("rollback of 64 moves", ROLLBACK, claim);
    claim = transfer(NULL, 0, BATCH, GURTXOZAL_MOVE);
    REQUEST("commit of 64 moves", COMMIT, claim);
    row = reserve(NULL, 1, BATCH, true);
    struct stack_use from_1 = publish("publish of 64 from a parcel", row, 1, &claim);
    claim = transfer(NULL, 1, BATCH, GURTXOZAL_MOVE);
    row = reserve(NULL, 1, BATCH, false);
    REQUEST("direct rollback of 64, one table", DIRECT_ROLLBACK, claim, row);
    claim = transfer(NULL, 1, BATCH, GURTXOZAL_MOVE);
    row = reserve(NULL, 0, BATCH, false);
    REQUEST("direct rollback of 64, two tables", DIRECT_ROLLBACK, claim, row);
    struct stack_use within_1 = direct("direct commit of 1, one table", 1, 1, 1);
    struct stack_use within = direct("direct commit of 64, one table", 1, 1, BATCH);
    struct stack_use across_1 = direct("direct commit of 1, two tables", 1, 0, 1);
    direct(NULL, 0, 1, 1);
    struct stack_use across = direct("direct commit of 64, two tables", 1, 0, BATCH);
    claim = transfer(NULL, 0, BATCH, GURTXOZAL_COPY);
    REQUEST("commit of 64 copies", COMMIT, claim);
    REQUEST("release of a parcel of 64", RELEASE_PARCEL, claim);
    REQUEST("prepare consumption", PREPARE_CONSUMPTION, 0, first, 15, 7, 1);
    claim = answers[GURTXOZAL_ANSWER_ID];
    REQUEST("get_info of a consumption", GET_INFO, 0, first);
    REQUEST("rollback of a consumption", ROLLBACK, claim);
    row = reserve(NULL, 1, BATCH, false);
    REQUEST("trim of 64 to 1", TRIM, 1, row);
    REQUEST("abort", ABORT, row);
    row = reserve(NULL, 1, BATCH, false);
    REQUEST("abort of 64", ABORT, row);
    struct stack_use abort_64 = taken;
    REQUEST("take_empty_page", TAKE_EMPTY_PAGE, 1);
    /* in a table without pages, so that a plan of 64 holds a frame */
    REQUEST("make plan of 64, a page more", MAKE_PLAN, 2, BATCH);
    REQUEST("drop plan of 64", DROP_PLAN, answers[GURTXOZAL_ANSWER_ID]);
    REQUEST(NULL, MAKE_PLAN, 2, BATCH);
    REQUEST("use plan of 64, a page more", USE_PLAN, answers[GURTXOZAL_ANSWER_ID]);
    REQUEST(NULL, ABORT, answers[GURTXOZAL_ANSWER_ID]);
    REQUEST("close", CLOSE, 0, first);
    REQUEST("remove_stopping_owner", REMOVE_STOPPING_OWNER, 0, 0);
    other = answers[GURTXOZAL_ANSWER_REMOVED];
    REQUEST("retire object", RETIRE_OBJECT, 1);
    REQUEST("teardown start", TEARDOWN_START, 0);
    for (int i = 1; i < BATCH; i++) {
        REQUEST(i == 1 ? "teardown step" : NULL, TEARDOWN_STEP, 0);
        other += answers[GURTXOZAL_ANSWER_STEP_REMOVED];
    }
    REQUEST("the last teardown step", TEARDOWN_STEP, 0);
    REQUEST("teardown finish", TEARDOWN_FINISH, 0);
    if (other != BATCH) {
        printf("%" PRIu64 " handles were removed, not 64\n", other);
        return 1;
    }
    for (int op = 1; op <= GURTXOZAL_OP_JUDGE_TRANSFER; op++) {
        if (!measured[op]) {
            printf("op %d was not measured\n", op);
            return 1;
        }
    }
    printf("the most: %zu bytes (%s); bound %d\n", most, deepest, BOUND);
    free(stack);
    free(state);
    if (!array(scan, abort_64)) {
        printf("the scan writes %zu words of stack, an abort of 64 %zu: its array is not seen\n", scan.words, abort_64.words);
        return 1;
    }
    if (!straight("publish of 64 from a parcel", publish_1, from_1, abort_64) || !straight("publish of 64 from 64 parcels", publish_1, from_64, abort_64)
        || !straight("direct commit of 64 in one table", within_1, within, abort_64) || !straight("direct commit of 64 in two tables", across_1, across, abort_64)) {
        return 1;
    }
    return most >= BOUND;
}
