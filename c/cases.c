/* P6, P7 and P9 to P12 of document 01, transfers, judgings of them, looks at what is moved, teardown, plans and the other requests, through the C calls. Prints a line for
 * each case; the status is 0 only if all hold. */
#include <inttypes.h>
#include <stdbool.h>
#include <stdio.h>
#include <stdlib.h>
#include <string.h>

#include "gurtxozal.h"

enum { TABLES = 2, PAGES = 8, PAGES_THERE = 2, FRAMES = 10, OBJECTS = 4, ROWS = 8 };

static uint64_t *state, *before; /* the state, and its words as `keep` found them */
static size_t state_words;
static uint64_t list[600];
static size_t used;
static uint64_t answer[GURTXOZAL_ANSWER_WORDS + 1];
static int failed;
static bool good;

static const uint64_t RIGHTS = GURTXOZAL_RIGHT_DUPLICATE | GURTXOZAL_RIGHT_TRANSFER | 64;
static const uint64_t KOID = 4711, KIND = 7;
/* object 2 rides Rendezvous and StagedStartup only, and has at most nine handles; object 3 is never transferred */
static const uint64_t FEW = 9, MASK = 5;

static void expect(const char *what, uint64_t found, uint64_t wanted) {
    if (found != wanted) {
        printf("  %s: %" PRIx64 ", not %" PRIx64 "\n", what, found, wanted);
        good = false;
    }
}

static void fresh(void) {
    const uint64_t parameters[] = {TABLES, FRAMES, OBJECTS, ROWS, PAGES, 0, PAGES_THERE, MASK, KOID, KIND, 0, RIGHTS | 4, 1, 1000, 4712, 8, 0,
                                   RIGHTS, 1,      1000,    4713, 9,     1, RIGHTS, 1,    FEW,  4714, 10, 2, RIGHTS, 1, 1000};
    good = true;
    memset(state, 0x5A, state_words * sizeof *state);
    expect("creation", gurtxozal_create(state, state_words, parameters, sizeof parameters / sizeof *parameters), GURTXOZAL_DONE);
}

static void keep(void) {
    memcpy(before, state, state_words * sizeof *state);
}
static void kept(void) {
    expect("the state", (uint64_t)(memcmp(before, state, state_words * sizeof *state) != 0), 0);
}

struct field {
    int bit;
    uint64_t word;
};
/* A record: its map, which must be the op's, then the fields' words by rising bit. */
static void record(uint64_t must, size_t count, const struct field *fields) {
    uint64_t map = 0;
    for (size_t i = 0; i < count; i++) {
        map |= GURTXOZAL_BIT(fields[i].bit);
    }
    expect("a record's map", map, must);
    list[used++] = map;
    for (int bit = 0; bit < 64; bit++) {
        for (size_t i = 0; i < count; i++) {
            if (fields[i].bit == bit) {
                list[used++] = fields[i].word;
            }
        }
    }
}
#define RECORD(must, ...)                                                                       \
    do {                                                                                        \
        const struct field fields_[] = {__VA_ARGS__};                                           \
        record((must), sizeof fields_ / sizeof *fields_, fields_);                              \
    } while (0)
#define FIELD(name, word) {GURTXOZAL_FIELD_##name, (word)}

/* Runs the list; its one answer is left in `answer`. The word after it must stay. */
static uint64_t run(void) {
    memset(answer, 0xA5, sizeof answer);
    uint64_t result = gurtxozal_run(state, state_words, list, used, answer, GURTXOZAL_ANSWER_WORDS);
    expect("the call", result, GURTXOZAL_DONE);
    expect("the word after the answer", answer[GURTXOZAL_ANSWER_WORDS], UINT64_C(0xA5A5A5A5A5A5A5A5));
    uint64_t others = 0;
    for (size_t i = 1; i < GURTXOZAL_ANSWER_WORDS; i++) {
        others |= answer[i];
    }
    if (answer[GURTXOZAL_ANSWER_NUMBER] != GURTXOZAL_DONE) {
        expect("the words after a refusal's number", others, 0);
    }
    used = 0;
    return answer[GURTXOZAL_ANSWER_NUMBER];
}

/* The value of a slot and generation in table 0, mask 0, and in table 1. */
static uint64_t value(uint64_t slot, uint64_t generation) {
    return GURTXOZAL_PREFIX | generation << 24 | (slot + 1);
}
static uint64_t value_there(uint64_t slot, uint64_t generation) {
    return GURTXOZAL_PREFIX | ((generation << 24 | (slot + 1)) ^ MASK);
}

static uint64_t reserve_in(uint64_t table, uint64_t count) {
    RECORD(GURTXOZAL_MUST_RESERVE, FIELD(OP, GURTXOZAL_OP_RESERVE), FIELD(TABLE, table), FIELD(COUNT, count));
    return run();
}
static uint64_t reserve(uint64_t count) {
    return reserve_in(0, count);
}
static void abort_row(uint64_t id) {
    RECORD(GURTXOZAL_MUST_ABORT, FIELD(OP, GURTXOZAL_OP_ABORT), FIELD(ID, id));
    expect("abort", run(), GURTXOZAL_DONE);
}
/* A first handle of object 0, published in a slot of its own. */
static uint64_t publish_first(void) {
    expect("reserve", reserve(1), GURTXOZAL_DONE);
    uint64_t row = answer[GURTXOZAL_ANSWER_ID], first = answer[GURTXOZAL_ANSWER_BATCH_VALUES];
    RECORD(GURTXOZAL_MUST_NEW_OBJECT, FIELD(OP, GURTXOZAL_OP_NEW_OBJECT), FIELD(OBJECT, 0), FIELD(RIGHTS, RIGHTS), FIELD(FLAGS, 1));
    expect("new object", run(), GURTXOZAL_DONE);
    uint64_t parcel = answer[GURTXOZAL_ANSWER_ID];
    RECORD(GURTXOZAL_MUST_PUBLISH, FIELD(OP, GURTXOZAL_OP_PUBLISH), FIELD(COUNT, 1), FIELD(ID, row));
    RECORD(GURTXOZAL_MUST_PARCEL_ITEM, FIELD(OP, 0), FIELD(ID, parcel));
    expect("publish", run(), GURTXOZAL_DONE);
    return first;
}
static uint64_t close_value(uint64_t handle) {
    RECORD(GURTXOZAL_MUST_CLOSE, FIELD(OP, GURTXOZAL_OP_CLOSE), FIELD(TABLE, 0), FIELD(VALUE, handle));
    return run();
}
/* A scan, and what its first words must be. */
static void scan(uint64_t cursor, uint64_t length, uint64_t has_next, uint64_t next, uint64_t examined) {
    RECORD(GURTXOZAL_MUST_SCAN_HANDLES, FIELD(OP, GURTXOZAL_OP_SCAN_HANDLES), FIELD(TABLE, 0), FIELD(CURSOR, cursor));
    expect("scan_handles", run(), GURTXOZAL_DONE);
    expect("the length", answer[GURTXOZAL_ANSWER_SCAN_LENGTH], length);
    expect("whether there is a next", answer[GURTXOZAL_ANSWER_SCAN_HAS_NEXT], has_next);
    expect("the next cursor", answer[GURTXOZAL_ANSWER_SCAN_NEXT], next);
    expect("examined", answer[GURTXOZAL_ANSWER_SCAN_EXAMINED], examined);
}

/* P6 fresh, reserve 3: slots 63, 62, 61, generation 1. */
static uint64_t p6(void) {
    fresh();
    expect("reserve 3", reserve(3), GURTXOZAL_DONE);
    expect("the id", answer[GURTXOZAL_ANSWER_ID], 1);
    expect("the count", answer[GURTXOZAL_ANSWER_BATCH_COUNT], 3);
    for (uint64_t i = 0; i < 3; i++) {
        expect("the value", answer[GURTXOZAL_ANSWER_BATCH_VALUES + i], value(63 - i, 1));
    }
    expect("the word after the values", answer[GURTXOZAL_ANSWER_BATCH_VALUES + 3], 0);
    return answer[GURTXOZAL_ANSWER_ID];
}

/* P7 abort those, reserve 1: slot 61, generation 2. */
static void p7(void) {
    abort_row(p6());
    expect("reserve 1", reserve(1), GURTXOZAL_DONE);
    expect("the value", answer[GURTXOZAL_ANSWER_BATCH_VALUES], value(61, 2));
}

/* 64 slots, occupied 0 to 8: all 64 get a handle, slots 63 to 9 are closed again. */
static void nine_occupied(void) {
    fresh();
    uint64_t first = publish_first(), parcels[63];
    expect("the first handle's value", first, value(63, 1));
    for (int i = 0; i < 63; i++) {
        expect("reserve 1", reserve(1), GURTXOZAL_DONE);
        uint64_t row = answer[GURTXOZAL_ANSWER_ID];
        RECORD(GURTXOZAL_MUST_DUPLICATE, FIELD(OP, GURTXOZAL_OP_DUPLICATE), FIELD(TABLE, 0), FIELD(VALUE, first), FIELD(RIGHTS, 64));
        expect("duplicate", run(), GURTXOZAL_DONE);
        parcels[i] = answer[GURTXOZAL_ANSWER_ID];
        RECORD(GURTXOZAL_MUST_PUBLISH, FIELD(OP, GURTXOZAL_OP_PUBLISH), FIELD(COUNT, 1), FIELD(ID, row));
        RECORD(GURTXOZAL_MUST_PARCEL_ITEM, FIELD(OP, 0), FIELD(ID, parcels[i]));
        expect("publish", run(), GURTXOZAL_DONE);
    }
    for (uint64_t slot = 63; slot > 8; slot--) {
        expect("close", close_value(value(slot, 1)), GURTXOZAL_DONE);
        expect("its koid", answer[GURTXOZAL_ANSWER_INFO_KOID], KOID);
        expect("its kind", answer[GURTXOZAL_ANSWER_INFO_KIND], KIND);
        expect("its rights", answer[GURTXOZAL_ANSWER_INFO_RIGHTS], slot == 63 ? RIGHTS : 64);
        expect("its flags", answer[GURTXOZAL_ANSWER_INFO_FLAGS], 1);
    }
}

static void entry(uint64_t i, uint64_t slot) {
    const uint64_t *e = answer + GURTXOZAL_ANSWER_SCAN_ENTRIES + i * GURTXOZAL_SCAN_ENTRY_WORDS;
    expect("an entry's value", e[GURTXOZAL_SCAN_ENTRY_VALUE], value(slot, 1));
    expect("an entry's koid", e[GURTXOZAL_SCAN_ENTRY_KOID], KOID);
    expect("an entry's kind", e[GURTXOZAL_SCAN_ENTRY_KIND], KIND);
    expect("an entry's rights", e[GURTXOZAL_SCAN_ENTRY_RIGHTS], 64);
    expect("an entry's flags", e[GURTXOZAL_SCAN_ENTRY_FLAGS], 1);
}

/* P9 64 slots, occupied 0 to 8, scan from 0: 8 entries, next 8, examined 8. */
static void p9(void) {
    nine_occupied();
    scan(0, 8, 1, 8, 8);
    for (uint64_t i = 0; i < 8; i++) {
        entry(i, i);
    }
}

/* P10 from 8: one entry, no next, examined 56. */
static void p10(void) {
    nine_occupied();
    scan(8, 1, 0, 0, 56);
    entry(0, 8);
    expect("the word after the entry", answer[GURTXOZAL_ANSWER_SCAN_ENTRIES + GURTXOZAL_SCAN_ENTRY_WORDS], 0);
}

/* P11 320 slots, none occupied: no entry, next 256. */
static void p11(void) {
    fresh();
    uint64_t rows[5];
    for (int i = 0; i < 5; i++) {
        expect("reserve 64", reserve(64), GURTXOZAL_DONE);
        rows[i] = answer[GURTXOZAL_ANSWER_ID];
    }
    for (int i = 0; i < 5; i++) {
        abort_row(rows[i]);
    }
    scan(0, 0, 1, 256, 256);
    /* the page that fell empty last is taken first */
    RECORD(GURTXOZAL_MUST_TAKE_EMPTY_PAGE, FIELD(OP, GURTXOZAL_OP_TAKE_EMPTY_PAGE), FIELD(TABLE, 0));
    expect("take_empty_page", run(), GURTXOZAL_DONE);
    expect("the page", answer[GURTXOZAL_ANSWER_TAKEN_PAGE], 4);
}

/* P12 fresh: publish in 63, close, take the page, reserve 1: slot 63, generation 3. */
static void p12(void) {
    fresh();
    uint64_t first = publish_first();
    expect("the value", first, value(63, 1));
    RECORD(GURTXOZAL_MUST_GET_INFO, FIELD(OP, GURTXOZAL_OP_GET_INFO), FIELD(TABLE, 0), FIELD(VALUE, first));
    expect("get_info", run(), GURTXOZAL_DONE);
    expect("its koid", answer[GURTXOZAL_ANSWER_INFO_KOID], KOID);
    RECORD(GURTXOZAL_MUST_RESOLVE, FIELD(OP, GURTXOZAL_OP_RESOLVE), FIELD(TABLE, 0), FIELD(VALUE, first), FIELD(RIGHTS, 64), FIELD(KIND, KIND));
    expect("resolve", run(), GURTXOZAL_DONE);
    expect("its object", answer[GURTXOZAL_ANSWER_RESOLVED_OBJECT], 0);
    expect("its koid", answer[GURTXOZAL_ANSWER_RESOLVED_KOID], KOID);
    expect("its rights", answer[GURTXOZAL_ANSWER_RESOLVED_RIGHTS], RIGHTS);
    expect("close", close_value(first), GURTXOZAL_DONE);
    expect("the closed value", close_value(first), GURTXOZAL_INVALID_HANDLE);
    RECORD(GURTXOZAL_MUST_TAKE_EMPTY_PAGE, FIELD(OP, GURTXOZAL_OP_TAKE_EMPTY_PAGE), FIELD(TABLE, 0));
    expect("take_empty_page", run(), GURTXOZAL_DONE);
    expect("whether a page was taken", answer[GURTXOZAL_ANSWER_TAKEN], 1);
    expect("the page", answer[GURTXOZAL_ANSWER_TAKEN_PAGE], 0);
    expect("reserve 1", reserve(1), GURTXOZAL_DONE);
    expect("the value", answer[GURTXOZAL_ANSWER_BATCH_VALUES], value(63, 3));
}

/* The other requests, once each, and a refusal of each number that needs no long way. */
static void others(void) {
    fresh();
    uint64_t first = publish_first();
    RECORD(GURTXOZAL_MUST_REPLACE, FIELD(OP, GURTXOZAL_OP_REPLACE), FIELD(TABLE, 0), FIELD(VALUE, first), FIELD(RIGHTS, 65));
    expect("replace", run(), GURTXOZAL_DONE);
    expect("the new value", answer[GURTXOZAL_ANSWER_NEW_VALUE], value(63, 2));
    uint64_t second = answer[GURTXOZAL_ANSWER_NEW_VALUE];
    RECORD(GURTXOZAL_MUST_REPLACE, FIELD(OP, GURTXOZAL_OP_REPLACE), FIELD(TABLE, 0), FIELD(VALUE, second), FIELD(RIGHTS, 2));
    expect("replace with a right that is lacking", run(), GURTXOZAL_ACCESS_DENIED);
    expect("reserve 0", reserve(0), GURTXOZAL_EMPTY_RESERVATION);
    expect("reserve 65", reserve(GURTXOZAL_MAX_BATCH + 1), GURTXOZAL_RESERVATION_TOO_LARGE);
    expect("reserve 64", reserve(GURTXOZAL_MAX_BATCH), GURTXOZAL_DONE);
    uint64_t row = answer[GURTXOZAL_ANSWER_ID];
    RECORD(GURTXOZAL_MUST_TRIM, FIELD(OP, GURTXOZAL_OP_TRIM), FIELD(COUNT, 0), FIELD(ID, row));
    expect("trim to 0", run(), GURTXOZAL_MISUSE);
    RECORD(GURTXOZAL_MUST_TRIM, FIELD(OP, GURTXOZAL_OP_TRIM), FIELD(COUNT, 1), FIELD(ID, row));
    expect("trim to 1", run(), GURTXOZAL_DONE);
    RECORD(GURTXOZAL_MUST_DUPLICATE, FIELD(OP, GURTXOZAL_OP_DUPLICATE), FIELD(TABLE, 0), FIELD(VALUE, second), FIELD(RIGHTS, 64));
    expect("duplicate", run(), GURTXOZAL_DONE);
    uint64_t parcel = answer[GURTXOZAL_ANSWER_ID];
    RECORD(GURTXOZAL_MUST_RELEASE_PARCEL, FIELD(OP, GURTXOZAL_OP_RELEASE_PARCEL), FIELD(ID, parcel));
    expect("release parcel", run(), GURTXOZAL_DONE);
    RECORD(GURTXOZAL_MUST_RESOLVE, FIELD(OP, GURTXOZAL_OP_RESOLVE), FIELD(TABLE, 0), FIELD(VALUE, second), FIELD(RIGHTS, 64), FIELD(KIND, KIND + 1));
    expect("resolve as another kind", run(), GURTXOZAL_WRONG_OBJECT_TYPE);
    RECORD(GURTXOZAL_MUST_NEW_OBJECT, FIELD(OP, GURTXOZAL_OP_NEW_OBJECT), FIELD(OBJECT, 0), FIELD(RIGHTS, 0), FIELD(FLAGS, 0));
    expect("an active object", run(), GURTXOZAL_OBJECT_ALREADY_ACTIVE);
    RECORD(GURTXOZAL_MUST_NEW_OBJECT, FIELD(OP, GURTXOZAL_OP_NEW_OBJECT), FIELD(OBJECT, 1), FIELD(RIGHTS, 4), FIELD(FLAGS, 0));
    expect("rights outside the object's", run(), GURTXOZAL_UNSUPPORTED_RIGHTS);
    RECORD(GURTXOZAL_MUST_NEW_OBJECT, FIELD(OP, GURTXOZAL_OP_NEW_OBJECT), FIELD(OBJECT, 1), FIELD(RIGHTS, 1), FIELD(FLAGS, 4));
    expect("an unknown flag", run(), GURTXOZAL_UNSUPPORTED_FLAGS);
    RECORD(GURTXOZAL_MUST_RETIRE_OBJECT, FIELD(OP, GURTXOZAL_OP_RETIRE_OBJECT), FIELD(OBJECT, 0));
    expect("retire object", run(), GURTXOZAL_DONE);
    RECORD(GURTXOZAL_MUST_DUPLICATE, FIELD(OP, GURTXOZAL_OP_DUPLICATE), FIELD(TABLE, 0), FIELD(VALUE, second), FIELD(RIGHTS, 64));
    expect("duplicate of a retired object", run(), GURTXOZAL_OBJECT_RETIRED);
    for (int i = 0; i < ROWS - 1; i++) {
        expect("reserve 1", reserve(1), GURTXOZAL_DONE);
    }
    expect("no free row", reserve(1), GURTXOZAL_ALLOCATION);
}

/* No page and no id left. */
static void ends(void) {
    fresh();
    expect("reserve 64", reserve_in(1, 64), GURTXOZAL_DONE);
    expect("reserve 64", reserve_in(1, 64), GURTXOZAL_DONE);
    expect("pages beyond the limit", reserve_in(1, 1), GURTXOZAL_TABLE_FULL);
    state[5] = UINT64_MAX - 1; /* the next id (docs/formats.md) */
    expect("reserve 1", reserve(1), GURTXOZAL_DONE);
    expect("the last id", answer[GURTXOZAL_ANSWER_ID], UINT64_MAX - 1);
    expect("no id left", reserve(1), GURTXOZAL_RESERVATION_ID_EXHAUSTED);
}

/* A parcel's handle, published in a slot of its own: its value. */
static uint64_t place(uint64_t table, uint64_t parcel) {
    expect("reserve", reserve_in(table, 1), GURTXOZAL_DONE);
    uint64_t row = answer[GURTXOZAL_ANSWER_ID], handle = answer[GURTXOZAL_ANSWER_BATCH_VALUES];
    RECORD(GURTXOZAL_MUST_PUBLISH, FIELD(OP, GURTXOZAL_OP_PUBLISH), FIELD(COUNT, 1), FIELD(ID, row));
    RECORD(GURTXOZAL_MUST_PARCEL_ITEM, FIELD(OP, 0), FIELD(ID, parcel));
    expect("publish", run(), GURTXOZAL_DONE);
    return handle;
}
static uint64_t new_handle(uint64_t object) {
    RECORD(GURTXOZAL_MUST_NEW_OBJECT, FIELD(OP, GURTXOZAL_OP_NEW_OBJECT), FIELD(OBJECT, object), FIELD(RIGHTS, RIGHTS), FIELD(FLAGS, 2));
    expect("new object", run(), GURTXOZAL_DONE);
    return place(0, answer[GURTXOZAL_ANSWER_ID]);
}
static uint64_t duplicate(uint64_t handle, uint64_t rights) {
    RECORD(GURTXOZAL_MUST_DUPLICATE, FIELD(OP, GURTXOZAL_OP_DUPLICATE), FIELD(TABLE, 0), FIELD(VALUE, handle), FIELD(RIGHTS, rights));
    return run();
}
static uint64_t release(uint64_t parcel) {
    RECORD(GURTXOZAL_MUST_RELEASE_PARCEL, FIELD(OP, GURTXOZAL_OP_RELEASE_PARCEL), FIELD(ID, parcel));
    return run();
}
static uint64_t info(uint64_t table, uint64_t handle) {
    RECORD(GURTXOZAL_MUST_GET_INFO, FIELD(OP, GURTXOZAL_OP_GET_INFO), FIELD(TABLE, table), FIELD(VALUE, handle));
    return run();
}
/* A handle of an object: those of object 0 have flags 1 here, the others 2. */
static void shows(uint64_t table, uint64_t handle, uint64_t object, uint64_t rights) {
    expect("get_info", info(table, handle), GURTXOZAL_DONE);
    expect("the koid", answer[GURTXOZAL_ANSWER_INFO_KOID], KOID + object);
    expect("the kind", answer[GURTXOZAL_ANSWER_INFO_KIND], KIND + object);
    expect("the rights", answer[GURTXOZAL_ANSWER_INFO_RIGHTS], rights);
    expect("the flags", answer[GURTXOZAL_ANSWER_INFO_FLAGS], object == 0 ? 1 : 2);
    expect("the word after", answer[GURTXOZAL_ANSWER_INFO_FLAGS + 1], 0);
}
static void has(uint64_t table, uint64_t handle, uint64_t rights) {
    shows(table, handle, 0, rights);
}
static uint64_t replace(uint64_t handle, uint64_t rights) {
    RECORD(GURTXOZAL_MUST_REPLACE, FIELD(OP, GURTXOZAL_OP_REPLACE), FIELD(TABLE, 0), FIELD(VALUE, handle), FIELD(RIGHTS, rights));
    return run();
}
static uint64_t resolve(uint64_t handle, uint64_t rights, uint64_t kind) {
    RECORD(GURTXOZAL_MUST_RESOLVE, FIELD(OP, GURTXOZAL_OP_RESOLVE), FIELD(TABLE, 0), FIELD(VALUE, handle), FIELD(RIGHTS, rights), FIELD(KIND, kind));
    return run();
}

/* The head of a transfer from table 0, and a plain item. */
static void transfer_of(uint64_t count, uint64_t route) {
    RECORD(GURTXOZAL_MUST_PREPARE_TRANSFER, FIELD(OP, GURTXOZAL_OP_PREPARE_TRANSFER), FIELD(TABLE, 0), FIELD(COUNT, count), FIELD(ROUTE, route));
}
static void transfer_item(uint64_t operation, uint64_t handle, uint64_t rights) {
    RECORD(GURTXOZAL_MUST_TRANSFER_ITEM, FIELD(OP, operation), FIELD(VALUE, handle), FIELD(RIGHTS, rights));
}
static uint64_t prepare(uint64_t operation, uint64_t handle, uint64_t rights) {
    transfer_of(1, GURTXOZAL_ROUTE_BUFFERED);
    transfer_item(operation, handle, rights);
    return run();
}
static uint64_t consume(uint64_t handle, uint64_t rights, uint64_t kind, uint64_t koid) {
    RECORD(GURTXOZAL_MUST_PREPARE_CONSUMPTION, FIELD(OP, GURTXOZAL_OP_PREPARE_CONSUMPTION), FIELD(TABLE, 0), FIELD(VALUE, handle), FIELD(RIGHTS, rights), FIELD(KIND, kind), FIELD(KOID, koid));
    return run();
}
static uint64_t rollback(uint64_t id) {
    RECORD(GURTXOZAL_MUST_ROLLBACK, FIELD(OP, GURTXOZAL_OP_ROLLBACK), FIELD(ID, id));
    return run();
}
static uint64_t commit(uint64_t id) {
    RECORD(GURTXOZAL_MUST_COMMIT, FIELD(OP, GURTXOZAL_OP_COMMIT), FIELD(ID, id));
    return run();
}
static uint64_t direct_commit(uint64_t claim, uint64_t reservation) {
    RECORD(GURTXOZAL_MUST_DIRECT_COMMIT, FIELD(OP, GURTXOZAL_OP_DIRECT_COMMIT), FIELD(ID, claim), FIELD(DESTINATION, reservation));
    return run();
}
static uint64_t direct_rollback(uint64_t claim, uint64_t reservation) {
    RECORD(GURTXOZAL_MUST_DIRECT_ROLLBACK, FIELD(OP, GURTXOZAL_OP_DIRECT_ROLLBACK), FIELD(ID, claim), FIELD(DESTINATION, reservation));
    return run();
}

/* Every call that names a moved value but get_info is Busy. The two transfers spend an id each. */
static void busy(uint64_t handle, uint64_t object) {
    expect("resolve while held", resolve(handle, 0, KIND + object), GURTXOZAL_BUSY);
    expect("duplicate while held", duplicate(handle, 2), GURTXOZAL_BUSY);
    expect("replace while held", replace(handle, 0), GURTXOZAL_BUSY);
    expect("close while held", close_value(handle), GURTXOZAL_BUSY);
    expect("consumption while held", consume(handle, 0, KIND + object, KOID + object), GURTXOZAL_BUSY);
    expect("a second move while held", prepare(GURTXOZAL_MOVE, handle, 2), GURTXOZAL_BUSY);
    expect("a copy while held", prepare(GURTXOZAL_COPY, handle, 2), GURTXOZAL_BUSY);
}

/* A move: while it is held get_info shows the handle, and every other call is Busy; rolled back, it has its own rights, not the receiver's. */
static void held_and_rolled_back(void) {
    fresh();
    uint64_t first = publish_first();
    expect("prepare transfer", prepare(GURTXOZAL_MOVE, first, 64), GURTXOZAL_DONE);
    uint64_t claim = answer[GURTXOZAL_ANSWER_ID];
    expect("its id", claim, 3);
    has(0, first, RIGHTS);
    busy(first, 0);
    scan(0, 0, 0, 0, 64);
    expect("reserve 1", reserve(1), GURTXOZAL_DONE);
    expect("the id after the two refused transfers'", answer[GURTXOZAL_ANSWER_ID], 6);
    abort_row(6);
    expect("rollback of another id", rollback(6), GURTXOZAL_MISUSE);
    expect("rollback", rollback(claim), GURTXOZAL_DONE);
    has(0, first, RIGHTS);
    expect("rollback again", rollback(claim), GURTXOZAL_MISUSE);
    expect("commit after the rollback", commit(claim), GURTXOZAL_MISUSE);
}

/* Committed, the handle stands in a parcel of the claim's id with the receiver's rights, and is published in another table. */
static void committed(void) {
    fresh();
    uint64_t first = publish_first();
    expect("prepare transfer", prepare(GURTXOZAL_MOVE, first, 66), GURTXOZAL_DONE);
    uint64_t claim = answer[GURTXOZAL_ANSWER_ID];
    expect("release of a claim", release(claim), GURTXOZAL_MISUSE);
    expect("commit", commit(claim), GURTXOZAL_DONE);
    expect("the value moved away", info(0, first), GURTXOZAL_INVALID_HANDLE);
    expect("commit again", commit(claim), GURTXOZAL_MISUSE);
    uint64_t there = place(1, claim);
    expect("its value there", there, value_there(63, 1));
    has(1, there, 66);
    expect("the vacated slot is first in the free order", (reserve(1), answer[GURTXOZAL_ANSWER_BATCH_VALUES]), value(63, 2));
    /* two moves: both slots fall vacant, in the transfer's order */
    fresh();
    first = publish_first();
    expect("duplicate", duplicate(first, 3), GURTXOZAL_DONE);
    uint64_t second = place(0, answer[GURTXOZAL_ANSWER_ID]);
    transfer_of(2, GURTXOZAL_ROUTE_BUFFERED);
    transfer_item(GURTXOZAL_MOVE, first, 64);
    transfer_item(GURTXOZAL_MOVE, second, 1);
    expect("two moves", run(), GURTXOZAL_DONE);
    claim = answer[GURTXOZAL_ANSWER_ID];
    expect("commit", commit(claim), GURTXOZAL_DONE);
    expect("the first value moved away", info(0, first), GURTXOZAL_INVALID_HANDLE);
    expect("the second value moved away", info(0, second), GURTXOZAL_INVALID_HANDLE);
    expect("reserve 2", reserve(2), GURTXOZAL_DONE);
    expect("the slot vacated last is first", answer[GURTXOZAL_ANSWER_BATCH_VALUES], value(62, 2));
    expect("the slot vacated first comes next", answer[GURTXOZAL_ANSWER_BATCH_VALUES + 1], value(63, 2));
    uint64_t row = answer[GURTXOZAL_ANSWER_ID];
    RECORD(GURTXOZAL_MUST_PUBLISH, FIELD(OP, GURTXOZAL_OP_PUBLISH), FIELD(COUNT, 1), FIELD(ID, row));
    RECORD(GURTXOZAL_MUST_PARCEL_ITEM, FIELD(OP, 0), FIELD(ID, claim));
    expect("publish the parcel of two", run(), GURTXOZAL_DONE);
    has(0, value(62, 2), 64);
    has(0, value(63, 2), 1);
}

/* A copy raises its object's count; its source stays in use, and a rollback releases it. A refused fifth copy leaves the counts, and spends one id. */
static void copies(void) {
    fresh();
    uint64_t first = publish_first();
    expect("prepare a copy", prepare(GURTXOZAL_COPY, first, 64), GURTXOZAL_DONE);
    uint64_t claim = answer[GURTXOZAL_ANSWER_ID];
    has(0, first, RIGHTS);
    expect("commit", commit(claim), GURTXOZAL_DONE);
    uint64_t copy = place(1, claim);
    has(1, copy, 64);
    has(0, first, RIGHTS);

    uint64_t handles[5];
    handles[0] = new_handle(2);
    for (int i = 1; i < 5; i++) {
        expect("duplicate", duplicate(handles[0], RIGHTS), GURTXOZAL_DONE);
        handles[i] = place(0, answer[GURTXOZAL_ANSWER_ID]);
    }
    transfer_of(4, GURTXOZAL_ROUTE_RENDEZVOUS);
    for (int i = 0; i < 4; i++) {
        transfer_item(GURTXOZAL_COPY, handles[i], 64);
    }
    expect("four copies", run(), GURTXOZAL_DONE);
    claim = answer[GURTXOZAL_ANSWER_ID];
    expect("a duplicate at the limit", duplicate(handles[0], 64), GURTXOZAL_ACTIVE_HANDLE_LIMIT);
    expect("rollback", rollback(claim), GURTXOZAL_DONE);
    transfer_of(5, GURTXOZAL_ROUTE_STAGED_STARTUP);
    for (int i = 0; i < 5; i++) {
        transfer_item(GURTXOZAL_COPY, handles[i], 64);
    }
    expect("five copies", run(), GURTXOZAL_ACTIVE_HANDLE_LIMIT);
    for (int i = 0; i < 4; i++) {
        expect("duplicate", duplicate(handles[i], 64), GURTXOZAL_DONE);
        expect("its id: one was spent", answer[GURTXOZAL_ANSWER_ID], claim + 2 + (uint64_t)i);
    }
    expect("a fifth duplicate", duplicate(handles[4], 64), GURTXOZAL_ACTIVE_HANDLE_LIMIT);
}

/* A transfer's refusals, by each of its fields. */
static void refused_transfers(void) {
    fresh();
    uint64_t first = publish_first(), shy = new_handle(2), never = new_handle(3);
    expect("what an item may carry", GURTXOZAL_MAY_TRANSFER_ITEM, GURTXOZAL_BIT(GURTXOZAL_FIELD_OFFERED_RIGHTS) | GURTXOZAL_BIT(GURTXOZAL_FIELD_OFFERED_KIND) | GURTXOZAL_BIT(GURTXOZAL_FIELD_EXPECTED_KIND));
    expect("what a transfer may carry", GURTXOZAL_MAY_PREPARE_TRANSFER, GURTXOZAL_BIT(GURTXOZAL_FIELD_FORBIDDEN_OBJECT) | GURTXOZAL_BIT(GURTXOZAL_FIELD_FORBIDDEN_KIND));
    expect("what a parcel's item may carry", GURTXOZAL_MAY_PARCEL_ITEM, 0);
    transfer_of(0, 0);
    expect("no item", run(), GURTXOZAL_EMPTY_RESERVATION);
    transfer_of(GURTXOZAL_MAX_BATCH + 1, 0);
    for (int i = 0; i < GURTXOZAL_MAX_BATCH + 1; i++) {
        transfer_item(GURTXOZAL_MOVE, first, 0);
    }
    expect("65 items", run(), GURTXOZAL_RESERVATION_TOO_LARGE);
    transfer_of(2, 0);
    transfer_item(GURTXOZAL_MOVE, first, 0);
    transfer_item(GURTXOZAL_COPY, first, 0);
    expect("a value listed twice", run(), GURTXOZAL_INVALID_HANDLE);
    expect("rights that the handle lacks", prepare(GURTXOZAL_MOVE, first, 4), GURTXOZAL_ACCESS_DENIED);
    expect("Buffered bars object 2", prepare(GURTXOZAL_MOVE, shy, 64), GURTXOZAL_UNSUPPORTED_TRANSFER);
    transfer_of(1, GURTXOZAL_ROUTE_STAGED_STARTUP);
    transfer_item(GURTXOZAL_MOVE, never, 64);
    expect("every route bars object 3", run(), GURTXOZAL_UNSUPPORTED_TRANSFER);
    const struct {
        const char *what;
        uint64_t offered_rights, offered_kind, expected_kind, number;
    } items[] = {
        {"offered beyond the handle's rights", RIGHTS | 4, KIND, KIND, GURTXOZAL_ACCESS_DENIED},
        {"asked beyond the offered rights", 2, KIND, KIND, GURTXOZAL_ACCESS_DENIED},
        {"another kind offered", 64, KIND + 1, KIND, GURTXOZAL_WRONG_OBJECT_TYPE},
        {"another kind expected", 64, KIND, KIND + 1, GURTXOZAL_WRONG_OBJECT_TYPE},
    };
    for (size_t i = 0; i < sizeof items / sizeof *items; i++) {
        transfer_of(1, GURTXOZAL_ROUTE_BUFFERED);
        RECORD(GURTXOZAL_MUST_TRANSFER_ITEM | GURTXOZAL_MAY_TRANSFER_ITEM, FIELD(OP, GURTXOZAL_MOVE), FIELD(VALUE, first), FIELD(RIGHTS, 64), FIELD(OFFERED_RIGHTS, items[i].offered_rights), FIELD(OFFERED_KIND, items[i].offered_kind),
               FIELD(EXPECTED_KIND, items[i].expected_kind));
        expect(items[i].what, run(), items[i].number);
    }
    const struct {
        const char *what;
        uint64_t object, kind, number;
    } heads[] = {
        {"a forbidden object", KOID, KIND + 1, GURTXOZAL_ACCESS_DENIED},
        {"a forbidden kind", KOID + 1, KIND, GURTXOZAL_UNSUPPORTED_TRANSFER},
        {"another object and another kind forbidden", KOID + 1, KIND + 1, GURTXOZAL_DONE},
    };
    for (size_t i = 0; i < sizeof heads / sizeof *heads; i++) {
        RECORD(GURTXOZAL_MUST_PREPARE_TRANSFER | GURTXOZAL_MAY_PREPARE_TRANSFER, FIELD(OP, GURTXOZAL_OP_PREPARE_TRANSFER), FIELD(TABLE, 0), FIELD(COUNT, 1), FIELD(ROUTE, GURTXOZAL_ROUTE_BUFFERED), FIELD(FORBIDDEN_OBJECT, heads[i].object),
               FIELD(FORBIDDEN_KIND, heads[i].kind));
        RECORD(GURTXOZAL_MUST_TRANSFER_ITEM | GURTXOZAL_MAY_TRANSFER_ITEM, FIELD(OP, GURTXOZAL_MOVE), FIELD(VALUE, first), FIELD(RIGHTS, 64), FIELD(OFFERED_RIGHTS, 66), FIELD(OFFERED_KIND, KIND), FIELD(EXPECTED_KIND, KIND));
        expect(heads[i].what, run(), heads[i].number);
    }
    expect("rollback", rollback(answer[GURTXOZAL_ANSWER_ID]), GURTXOZAL_DONE);
    has(0, first, RIGHTS);
    /* two moves and a copy between them: each handle goes back to its own slot */
    expect("a duplicate", duplicate(first, 3), GURTXOZAL_DONE);
    uint64_t second = place(0, answer[GURTXOZAL_ANSWER_ID]);
    transfer_of(3, GURTXOZAL_ROUTE_RENDEZVOUS);
    transfer_item(GURTXOZAL_MOVE, first, 64);
    transfer_item(GURTXOZAL_COPY, shy, 64);
    transfer_item(GURTXOZAL_MOVE, second, 0);
    expect("two moves and a copy", run(), GURTXOZAL_DONE);
    expect("rollback", rollback(answer[GURTXOZAL_ANSWER_ID]), GURTXOZAL_DONE);
    has(0, first, RIGHTS);
    has(0, second, 3);
}

/* A consumption: refusals spend no id; the handle keeps its rights. */
static void consumption(void) {
    fresh();
    uint64_t first = publish_first();
    expect("rights that the handle lacks", consume(first, 4, KIND, KOID), GURTXOZAL_ACCESS_DENIED);
    expect("another kind", consume(first, 64, KIND + 1, KOID), GURTXOZAL_WRONG_OBJECT_TYPE);
    expect("another koid", consume(first, 64, KIND, KOID + 1), GURTXOZAL_INVALID_HANDLE);
    expect("prepare consumption", consume(first, 64, KIND, KOID), GURTXOZAL_DONE);
    uint64_t claim = answer[GURTXOZAL_ANSWER_ID];
    expect("its id: none was spent", claim, 3);
    has(0, first, RIGHTS);
    busy(first, 0);
    expect("rollback", rollback(claim), GURTXOZAL_DONE);
    has(0, first, RIGHTS);
    expect("prepare consumption", consume(first, 64, KIND, KOID), GURTXOZAL_DONE);
    claim = answer[GURTXOZAL_ANSWER_ID];
    expect("commit", commit(claim), GURTXOZAL_DONE);
    expect("the value consumed", info(0, first), GURTXOZAL_INVALID_HANDLE);
    has(1, place(1, claim), RIGHTS);
}

/* Looks at what is being moved (document 02, 2): koid, kind, rights and flags as they were before, by the item's position with copies between, in the claim that has marked the slot. */
static void looked_at(void) {
    fresh();
    uint64_t first = publish_first(), shy = new_handle(2), old = new_handle(1);
    expect("replace", replace(old, 66), GURTXOZAL_DONE);
    uint64_t other = answer[GURTXOZAL_ANSWER_NEW_VALUE];
    expect("its value", other, value(61, 2));
    expect("reserve 1", reserve(1), GURTXOZAL_DONE);
    uint64_t row = answer[GURTXOZAL_ANSWER_ID], future = answer[GURTXOZAL_ANSWER_BATCH_VALUES];
    transfer_of(3, GURTXOZAL_ROUTE_RENDEZVOUS);
    transfer_item(GURTXOZAL_MOVE, first, 64);
    transfer_item(GURTXOZAL_COPY, shy, 64);
    transfer_item(GURTXOZAL_MOVE, other, 2);
    expect("two moves and a copy", run(), GURTXOZAL_DONE);
    uint64_t claim = answer[GURTXOZAL_ANSWER_ID];
    keep();
    shows(0, first, 0, RIGHTS);
    shows(0, other, 1, 66);
    shows(0, shy, 2, RIGHTS); /* copied, and in its slot */
    expect("an earlier generation", info(0, old), GURTXOZAL_INVALID_HANDLE);
    expect("a later generation", info(0, value(61, 3)), GURTXOZAL_INVALID_HANDLE);
    expect("generation 0", info(0, value(61, 0)), GURTXOZAL_INVALID_HANDLE);
    expect("another prefix", info(0, first ^ GURTXOZAL_PREFIX), GURTXOZAL_INVALID_HANDLE);
    expect("a Reserved slot's future value", info(0, future), GURTXOZAL_INVALID_HANDLE);
    expect("the number in another table", info(1, first), GURTXOZAL_INVALID_HANDLE);
    expect("an unknown table", info(TABLES, first), GURTXOZAL_MISUSE);
    kept();
    busy(first, 0);
    busy(other, 1);
    /* a consumption takes the place of a row that goes, so that the rows' places and ranks differ */
    abort_row(row);
    expect("prepare consumption", consume(shy, 64, KIND + 2, KOID + 2), GURTXOZAL_DONE);
    uint64_t consumed = answer[GURTXOZAL_ANSWER_ID];
    RECORD(GURTXOZAL_MUST_RETIRE_OBJECT, FIELD(OP, GURTXOZAL_OP_RETIRE_OBJECT), FIELD(OBJECT, 1));
    expect("retire object", run(), GURTXOZAL_DONE);
    keep();
    shows(0, first, 0, RIGHTS);
    shows(0, other, 1, 66); /* a retired object's handle */
    shows(0, shy, 2, RIGHTS);
    kept();
    busy(shy, 2);
    expect("rollback", rollback(claim), GURTXOZAL_DONE);
    shows(0, first, 0, RIGHTS);
    shows(0, other, 1, 66);
    shows(0, shy, 2, RIGHTS);
    transfer_of(2, GURTXOZAL_ROUTE_BUFFERED);
    transfer_item(GURTXOZAL_MOVE, other, 0);
    transfer_item(GURTXOZAL_MOVE, first, 0);
    expect("two moves", run(), GURTXOZAL_DONE);
    claim = answer[GURTXOZAL_ANSWER_ID];
    shows(0, first, 0, RIGHTS);
    shows(0, other, 1, 66);
    expect("commit", commit(claim), GURTXOZAL_DONE);
    expect("the first value moved away", info(0, first), GURTXOZAL_INVALID_HANDLE);
    expect("the other value moved away", info(0, other), GURTXOZAL_INVALID_HANDLE);
    shows(0, shy, 2, RIGHTS);
    expect("commit of the consumption", commit(consumed), GURTXOZAL_DONE);
    expect("the value consumed", info(0, shy), GURTXOZAL_INVALID_HANDLE);
}

/* 64 handles of table 0: the first of object 0, duplicates of it with rights 66 and 3 by turns, and last one of object 1. */
enum { LAST = GURTXOZAL_MAX_BATCH - 1 };
static void all_shown(const uint64_t *handles) {
    keep();
    for (uint64_t i = 0; i < LAST; i++) {
        has(0, handles[i], i == 0 ? RIGHTS : i % 2 ? 66 : 3);
    }
    shows(0, handles[LAST], 1, RIGHTS);
    kept();
}
/* Looks at all 64 items of a claim: every second one a copy, then moves alone. Both times position 63 is a move. */
static void looked_at_64(void) {
    fresh();
    uint64_t handles[GURTXOZAL_MAX_BATCH];
    handles[0] = publish_first();
    for (uint64_t i = 1; i < LAST; i++) {
        expect("duplicate", duplicate(handles[0], i % 2 ? 66 : 3), GURTXOZAL_DONE);
        handles[i] = place(0, answer[GURTXOZAL_ANSWER_ID]);
    }
    handles[LAST] = new_handle(1);
    for (int copies = 1; copies >= 0; copies--) {
        transfer_of(GURTXOZAL_MAX_BATCH, GURTXOZAL_ROUTE_BUFFERED);
        for (uint64_t i = 0; i < GURTXOZAL_MAX_BATCH; i++) {
            transfer_item(copies && i % 2 == 0 ? GURTXOZAL_COPY : GURTXOZAL_MOVE, handles[i], 2);
        }
        expect("64 items", run(), GURTXOZAL_DONE);
        uint64_t claim = answer[GURTXOZAL_ANSWER_ID];
        all_shown(handles);
        busy(handles[LAST], 1);
        expect("rollback, or commit", copies ? rollback(claim) : commit(claim), GURTXOZAL_DONE);
        if (copies) {
            all_shown(handles);
        }
    }
    for (uint64_t i = 0; i < GURTXOZAL_MAX_BATCH; i++) {
        expect("a value moved away", info(0, handles[i]), GURTXOZAL_INVALID_HANDLE);
    }
}

/* Direct commit and rollback, from table 0 to a table. */
static void direct(uint64_t table) {
    fresh();
    uint64_t first = publish_first();
    expect("prepare transfer", prepare(GURTXOZAL_MOVE, first, 66), GURTXOZAL_DONE);
    uint64_t claim = answer[GURTXOZAL_ANSWER_ID];
    expect("reserve 2", reserve_in(table, 2), GURTXOZAL_DONE);
    uint64_t row = answer[GURTXOZAL_ANSWER_ID], there = answer[GURTXOZAL_ANSWER_BATCH_VALUES];
    expect("lengths differ", direct_commit(claim, row), GURTXOZAL_MISUSE);
    expect("lengths differ", direct_rollback(claim, row), GURTXOZAL_MISUSE);
    RECORD(GURTXOZAL_MUST_TRIM, FIELD(OP, GURTXOZAL_OP_TRIM), FIELD(COUNT, 1), FIELD(ID, row));
    expect("trim", run(), GURTXOZAL_DONE);
    expect("the rows named the other way round", direct_rollback(row, claim), GURTXOZAL_MISUSE);
    expect("direct rollback", direct_rollback(claim, row), GURTXOZAL_DONE);
    has(0, first, RIGHTS);
    expect("the reserved slot is vacant", info(table, there), GURTXOZAL_INVALID_HANDLE);
    expect("both rows are gone", direct_rollback(claim, row), GURTXOZAL_MISUSE);
    expect("prepare transfer", prepare(GURTXOZAL_MOVE, first, 66), GURTXOZAL_DONE);
    claim = answer[GURTXOZAL_ANSWER_ID];
    expect("reserve 1", reserve_in(table, 1), GURTXOZAL_DONE);
    row = answer[GURTXOZAL_ANSWER_ID], there = answer[GURTXOZAL_ANSWER_BATCH_VALUES];
    expect("the slot given back, its generation one higher", there, table == 0 ? value(62, 2) : value_there(63, 2));
    expect("direct commit", direct_commit(claim, row), GURTXOZAL_DONE);
    has(table, there, 66);
    expect("the value moved away", info(0, first), GURTXOZAL_INVALID_HANDLE);
    expect("both rows are gone", direct_commit(claim, row), GURTXOZAL_MISUSE);
    expect("the vacated slot is first in the free order", (reserve(1), answer[GURTXOZAL_ANSWER_BATCH_VALUES]), value(63, 2));
}

static void stopping(uint64_t cursor, uint64_t removed, uint64_t left, uint64_t handle) {
    RECORD(GURTXOZAL_MUST_REMOVE_STOPPING_OWNER, FIELD(OP, GURTXOZAL_OP_REMOVE_STOPPING_OWNER), FIELD(TABLE, 0), FIELD(CURSOR, cursor));
    expect("remove_stopping_owner", run(), GURTXOZAL_DONE);
    expect("whether a handle was removed", answer[GURTXOZAL_ANSWER_REMOVED], removed);
    expect("the cursor as left", answer[GURTXOZAL_ANSWER_REMOVED_CURSOR], left);
    expect("the value", answer[GURTXOZAL_ANSWER_REMOVED_VALUE], handle);
    expect("the koid", answer[GURTXOZAL_ANSWER_REMOVED_KOID], removed ? KOID : 0);
    expect("the kind", answer[GURTXOZAL_ANSWER_REMOVED_KIND], removed ? KIND : 0);
    expect("the rights", answer[GURTXOZAL_ANSWER_REMOVED_RIGHTS], !removed ? 0 : handle == value(63, 1) ? RIGHTS : 3);
    expect("the flags", answer[GURTXOZAL_ANSWER_REMOVED_FLAGS], removed);
}
static uint64_t teardown(uint64_t op, uint64_t must) {
    RECORD(must, FIELD(OP, op), FIELD(TABLE, 0));
    return run();
}
#define TEARDOWN(part) teardown(GURTXOZAL_OP_TEARDOWN_##part, GURTXOZAL_MUST_TEARDOWN_##part)
static void step(uint64_t removed, uint64_t rights) {
    expect("teardown step", TEARDOWN(STEP), GURTXOZAL_DONE);
    expect("whether a handle was removed", answer[GURTXOZAL_ANSWER_STEP_REMOVED], removed);
    expect("the koid", answer[GURTXOZAL_ANSWER_STEP_KOID], removed ? KOID : 0);
    expect("the kind", answer[GURTXOZAL_ANSWER_STEP_KIND], removed ? KIND : 0);
    expect("the rights", answer[GURTXOZAL_ANSWER_STEP_RIGHTS], rights);
    expect("the flags", answer[GURTXOZAL_ANSWER_STEP_FLAGS], removed);
}
/* Handles in slots 63, 62 and 61 of table 0. */
static uint64_t three_handles(void) {
    fresh();
    uint64_t first = publish_first();
    for (int i = 0; i < 2; i++) {
        expect("duplicate", duplicate(first, 3), GURTXOZAL_DONE);
        place(0, answer[GURTXOZAL_ANSWER_ID]);
    }
    return first;
}

/* The walk for a stopping owner, and its cursor; the last handle removed retires its object. */
static void stopping_owner(void) {
    three_handles();
    stopping(62, 1, 63, value(62, 1));
    stopping(63, 1, 64, value(63, 1));
    stopping(64, 0, 0, 0);
    stopping(UINT64_MAX, 0, 0, 0);
    stopping(0, 1, 62, value(61, 1));
    stopping(0, 0, 0, 0);
    RECORD(GURTXOZAL_MUST_NEW_OBJECT, FIELD(OP, GURTXOZAL_OP_NEW_OBJECT), FIELD(OBJECT, 0), FIELD(RIGHTS, 0), FIELD(FLAGS, 0));
    expect("the object is retired", run(), GURTXOZAL_OBJECT_RETIRED);
    expect("the slot vacated last is first", (reserve(1), answer[GURTXOZAL_ANSWER_BATCH_VALUES]), value(61, 2));
}

static void torn_down(void) {
    uint64_t first = three_handles();
    expect("a step before the start", TEARDOWN(STEP), GURTXOZAL_MISUSE);
    expect("a finish before the start", TEARDOWN(FINISH), GURTXOZAL_MISUSE);
    expect("prepare transfer", prepare(GURTXOZAL_MOVE, first, 64), GURTXOZAL_DONE);
    uint64_t claim = answer[GURTXOZAL_ANSWER_ID];
    expect("start with an open claim", TEARDOWN(START), GURTXOZAL_OUTSTANDING_RESERVATION);
    expect("rollback", rollback(claim), GURTXOZAL_DONE);
    expect("reserve 1", reserve(1), GURTXOZAL_DONE);
    uint64_t row = answer[GURTXOZAL_ANSWER_ID];
    expect("start with an open reservation", TEARDOWN(START), GURTXOZAL_OUTSTANDING_RESERVATION);
    abort_row(row);
    expect("start", TEARDOWN(START), GURTXOZAL_DONE);
    expect("start again", TEARDOWN(START), GURTXOZAL_TABLE_RETIRED);
    expect("reserve in it", reserve(1), GURTXOZAL_TABLE_RETIRED);
    expect("get_info in it", info(0, first), GURTXOZAL_TABLE_RETIRED);
    stopping(7, 0, 7, 0);
    step(1, 3);
    step(1, 3);
    expect("finish with an occupied slot", TEARDOWN(FINISH), GURTXOZAL_MISUSE);
    step(1, RIGHTS);
    step(0, 0);
    expect("finish", TEARDOWN(FINISH), GURTXOZAL_DONE);
    expect("start on a retired table", TEARDOWN(START), GURTXOZAL_TABLE_RETIRED);
    expect("a step on a retired table", TEARDOWN(STEP), GURTXOZAL_MISUSE);
    expect("a finish on a retired table", TEARDOWN(FINISH), GURTXOZAL_MISUSE);
    expect("prepare transfer in a retired table", prepare(GURTXOZAL_MOVE, first, 64), GURTXOZAL_TABLE_RETIRED);
    expect("close in a retired table", close_value(first), GURTXOZAL_TABLE_RETIRED);
    RECORD(GURTXOZAL_MUST_TAKE_EMPTY_PAGE, FIELD(OP, GURTXOZAL_OP_TAKE_EMPTY_PAGE), FIELD(TABLE, 0));
    expect("take_empty_page", run(), GURTXOZAL_DONE);
    expect("whether a page was taken", answer[GURTXOZAL_ANSWER_TAKEN], 0);
    expect("the other table is in use", reserve_in(1, 1), GURTXOZAL_DONE);
}

static uint64_t make_plan(uint64_t table, uint64_t count) {
    RECORD(GURTXOZAL_MUST_MAKE_PLAN, FIELD(OP, GURTXOZAL_OP_MAKE_PLAN), FIELD(TABLE, table), FIELD(COUNT, count));
    return run();
}
static uint64_t use_plan(uint64_t id) {
    RECORD(GURTXOZAL_MUST_USE_PLAN, FIELD(OP, GURTXOZAL_OP_USE_PLAN), FIELD(ID, id));
    return run();
}
static uint64_t drop_plan(uint64_t id) {
    RECORD(GURTXOZAL_MUST_DROP_PLAN, FIELD(OP, GURTXOZAL_OP_DROP_PLAN), FIELD(ID, id));
    return run();
}
/* A plan, and how many frames it must hold: its id. */
static uint64_t planned(uint64_t table, uint64_t count, uint64_t frames) {
    expect("make plan", make_plan(table, count), GURTXOZAL_DONE);
    expect("its count", answer[GURTXOZAL_ANSWER_PLAN_COUNT], count);
    expect("the frames that it holds", answer[GURTXOZAL_ANSWER_PLAN_FRAMES], frames);
    expect("the word after", answer[GURTXOZAL_ANSWER_PLAN_FRAMES + 1], 0);
    return answer[GURTXOZAL_ANSWER_ID];
}
/* A plan used: the reservation's id, count and first value. */
static void used_plan(uint64_t plan, uint64_t id, uint64_t count, uint64_t handle) {
    expect("use plan", use_plan(plan), GURTXOZAL_DONE);
    expect("the reservation's id", answer[GURTXOZAL_ANSWER_ID], id);
    expect("its count", answer[GURTXOZAL_ANSWER_BATCH_COUNT], count);
    expect("its first value", answer[GURTXOZAL_ANSWER_BATCH_VALUES], handle);
    expect("the word after its values", answer[GURTXOZAL_ANSWER_BATCH_VALUES + count], 0);
    expect("the plan is gone", use_plan(plan), GURTXOZAL_MISUSE);
}

/* Frames set aside: table 0 takes all but two, which two plans hold. The pool is dry then, and a plan's use goes through; the other plan, stale, keeps its frame until it is dropped. */
static void frames_set_aside(void) {
    fresh();
    for (int i = 0; i < PAGES; i++) {
        expect("reserve 64", reserve(64), GURTXOZAL_DONE);
    }
    for (uint64_t id = 1; id <= PAGES; id++) {
        abort_row(id);
    }
    uint64_t plan = planned(1, 3, 1), other = planned(1, 64, 1);
    expect("a plan of a table with free slots holds no frame", planned(0, 64, 0), other + 1);
    expect("no frame left", reserve_in(1, 1), GURTXOZAL_ALLOCATION);
    expect("no frame left for a plan", make_plan(1, 1), GURTXOZAL_ALLOCATION);
    used_plan(plan, other + 2, 3, value_there(63, 1));
    expect("a plan of a table that has changed", use_plan(other), GURTXOZAL_STALE_PLAN);
    expect("it keeps its frame", reserve_in(1, 64), GURTXOZAL_ALLOCATION);
    expect("drop plan", drop_plan(other), GURTXOZAL_DONE);
    expect("drop plan again", drop_plan(other), GURTXOZAL_MISUSE);
    expect("its frame is free", reserve_in(1, 64), GURTXOZAL_DONE);
    expect("the next id", answer[GURTXOZAL_ANSWER_ID], other + 3);
    expect("a page beyond the limit", make_plan(1, 64), GURTXOZAL_TABLE_FULL);
}

/* A plan's refusals, and what it does not stop; a plan is fresh again where its table is as it was, and a held transfer leaves it so. */
static void plans(void) {
    fresh();
    expect("an unknown table", make_plan(TABLES, 1), GURTXOZAL_MISUSE);
    expect("a plan of 0", make_plan(0, 0), GURTXOZAL_EMPTY_RESERVATION);
    expect("a plan of 65", make_plan(0, GURTXOZAL_MAX_BATCH + 1), GURTXOZAL_RESERVATION_TOO_LARGE);
    uint64_t first = publish_first(), plan = planned(0, 2, 0);
    expect("reserve 1", reserve(1), GURTXOZAL_DONE);
    uint64_t row = answer[GURTXOZAL_ANSWER_ID];
    expect("use of a reservation", use_plan(row), GURTXOZAL_MISUSE);
    expect("drop of a reservation", drop_plan(row), GURTXOZAL_MISUSE);
    expect("rollback of a plan", rollback(plan), GURTXOZAL_MISUSE);
    expect("release of a plan", release(plan), GURTXOZAL_MISUSE);
    abort_row(row);
    uint64_t kept = planned(0, 64, 1);
    expect("reserve 1", reserve(1), GURTXOZAL_DONE);
    row = answer[GURTXOZAL_ANSWER_ID];
    expect("a free slot less", use_plan(plan), GURTXOZAL_STALE_PLAN);
    abort_row(row);
    expect("prepare transfer", prepare(GURTXOZAL_MOVE, first, 64), GURTXOZAL_DONE);
    uint64_t claim = answer[GURTXOZAL_ANSWER_ID];
    used_plan(plan, claim + 1, 2, value(62, 3)); /* as many free slots as before, and the transfer changes none */
    abort_row(claim + 1);
    expect("rollback", rollback(claim), GURTXOZAL_DONE);
    has(0, first, RIGHTS);
    expect("close", close_value(first), GURTXOZAL_DONE);
    expect("a free slot more", use_plan(kept), GURTXOZAL_STALE_PLAN);
    expect("start with a plan open", TEARDOWN(START), GURTXOZAL_DONE);
    expect("use in a table that is torn down, though the plan is stale", use_plan(kept), GURTXOZAL_TABLE_RETIRED);
    expect("a plan in it", make_plan(0, 1), GURTXOZAL_TABLE_RETIRED);
    expect("finish", TEARDOWN(FINISH), GURTXOZAL_DONE);
    expect("drop in a retired table", drop_plan(kept), GURTXOZAL_DONE);
    /* no row and no id left */
    fresh();
    for (uint64_t i = 0; i < ROWS; i++) {
        expect("a plan's id", planned(0, 1, 1), i + 1);
    }
    expect("no free row", make_plan(0, 1), GURTXOZAL_ALLOCATION);
    used_plan(1, ROWS + 1, 1, value(63, 1));
    expect("another plan of the table", use_plan(ROWS), GURTXOZAL_STALE_PLAN);
    expect("drop plan", drop_plan(ROWS), GURTXOZAL_DONE);
    state[5] = UINT64_MAX - 1; /* the next id (docs/formats.md) */
    plan = planned(1, 1, 1);
    expect("the last id", plan, UINT64_MAX - 1);
    expect("no id left for its use", use_plan(plan), GURTXOZAL_RESERVATION_ID_EXHAUSTED);
    expect("no id left, and stale", use_plan(2), GURTXOZAL_STALE_PLAN);
    expect("drop plan", drop_plan(plan), GURTXOZAL_DONE);
    expect("no id left for a plan", make_plan(1, 1), GURTXOZAL_RESERVATION_ID_EXHAUSTED);
}

/* The head of a judging from a table; its items are those of a transfer. */
static void judging_of(uint64_t table, uint64_t count, uint64_t route) {
    RECORD(GURTXOZAL_MUST_JUDGE_TRANSFER, FIELD(OP, GURTXOZAL_OP_JUDGE_TRANSFER), FIELD(TABLE, table), FIELD(COUNT, count), FIELD(ROUTE, route));
}
/* Judges what the list has, twice: the same words, and no word of the state changes. Then it is prepared: the same number. A claim is rolled back. */
static void judged(const char *what, uint64_t number, uint64_t position, uint64_t place) {
    uint64_t words[sizeof list / sizeof *list], first[GURTXOZAL_ANSWER_WORDS];
    const size_t n = used;
    memcpy(words, list, n * sizeof *list);
    keep();
    for (int again = 0; again < 2; again++) {
        memcpy(list, words, n * sizeof *list);
        used = n;
        expect("a judging", run(), GURTXOZAL_DONE);
        expect(what, answer[GURTXOZAL_ANSWER_JUDGED_NUMBER], number);
        expect("the position", answer[GURTXOZAL_ANSWER_JUDGED_POSITION], position);
        expect("the place", answer[GURTXOZAL_ANSWER_JUDGED_PLACE], place);
        for (size_t i = GURTXOZAL_ANSWER_JUDGED_PLACE + 1; i < GURTXOZAL_ANSWER_WORDS; i++) {
            expect("a word after the place", answer[i], 0);
        }
        kept();
        if (again) {
            expect("the answer to the second judging", (uint64_t)(memcmp(first, answer, sizeof first) != 0), 0);
        }
        memcpy(first, answer, sizeof first);
    }
    memcpy(list, words, n * sizeof *list);
    list[1] = GURTXOZAL_OP_PREPARE_TRANSFER;
    used = n;
    expect(what, run(), number);
    if (number == GURTXOZAL_DONE) {
        expect("rollback", rollback(answer[GURTXOZAL_ANSWER_ID]), GURTXOZAL_DONE);
    }
}

/* Five items, moves and copies by turns; the one at a position is another, with every field that it may carry. */
struct judged_item {
    const char *what;
    uint64_t operation, handle, rights, offered_rights, kind, offered_kind, number, place;
};
static void judged_five(const uint64_t *handles, const struct judged_item *item, uint64_t position, uint64_t route) {
    judging_of(0, 5, route);
    for (uint64_t i = 0; i < 5; i++) {
        if (i == position) {
            RECORD(GURTXOZAL_MUST_TRANSFER_ITEM | GURTXOZAL_MAY_TRANSFER_ITEM, FIELD(OP, item->operation), FIELD(VALUE, item->handle), FIELD(RIGHTS, item->rights), FIELD(OFFERED_RIGHTS, item->offered_rights),
                   FIELD(OFFERED_KIND, item->offered_kind), FIELD(EXPECTED_KIND, item->kind));
        } else {
            transfer_item(i % 2 ? GURTXOZAL_COPY : GURTXOZAL_MOVE, handles[i], 64);
        }
    }
    judged(item->what, item->number, item->number == GURTXOZAL_DONE ? 0 : position, item->place);
}
static uint64_t another(uint64_t handle, uint64_t rights) {
    expect("duplicate", duplicate(handle, rights), GURTXOZAL_DONE);
    return place(0, answer[GURTXOZAL_ANSWER_ID]);
}

/* Each place from 6 to 17, at the first, the middle and the last of five items, with copies between. */
static void judged_items(void) {
    fresh();
    const uint64_t own = publish_first(), shy = new_handle(2), other = new_handle(1), never = new_handle(3);
    expect("what a judging may carry", GURTXOZAL_MAY_JUDGE_TRANSFER, GURTXOZAL_BIT(GURTXOZAL_FIELD_FORBIDDEN_OBJECT) | GURTXOZAL_BIT(GURTXOZAL_FIELD_FORBIDDEN_KIND));
    uint64_t five[5];
    for (int i = 0; i < 5; i++) {
        five[i] = another(own, RIGHTS);
    }
    const uint64_t keeps = another(own, 65), alone = another(own, 66), few = another(own, 3), held = another(own, 3);
    expect("prepare transfer", prepare(GURTXOZAL_MOVE, held, 2), GURTXOZAL_DONE);
    const struct judged_item items[] = {
        {"accepted", GURTXOZAL_MOVE, few, 1, 3, KIND, KIND, GURTXOZAL_DONE, 0},
        {"accepted, and no DUPLICATE is needed", GURTXOZAL_MOVE, alone, 66, 66, KIND, KIND, GURTXOZAL_DONE, 0},
        {"a value that names no slot", GURTXOZAL_MOVE, value(40, 1), 0, 0, KIND, KIND, GURTXOZAL_INVALID_HANDLE, GURTXOZAL_PLACE_LOOKUP},
        {"a value that is being moved", GURTXOZAL_COPY, held, 0, 0, KIND, KIND, GURTXOZAL_BUSY, GURTXOZAL_PLACE_LOOKUP},
        {"a move without TRANSFER", GURTXOZAL_MOVE, keeps, 4, 6, 0, 0, GURTXOZAL_ACCESS_DENIED, GURTXOZAL_PLACE_LACKS_TRANSFER},
        {"a copy without TRANSFER", GURTXOZAL_COPY, keeps, 0, 0, KIND, KIND, GURTXOZAL_ACCESS_DENIED, GURTXOZAL_PLACE_LACKS_TRANSFER},
        {"a copy without DUPLICATE", GURTXOZAL_COPY, alone, 4, 6, 0, 0, GURTXOZAL_ACCESS_DENIED, GURTXOZAL_PLACE_COPY_LACKS_DUPLICATE},
        {"offered beyond the source's", GURTXOZAL_MOVE, few, 4, RIGHTS, 0, 0, GURTXOZAL_ACCESS_DENIED, GURTXOZAL_PLACE_OFFERED_BEYOND_SOURCE},
        {"requested beyond the offered", GURTXOZAL_COPY, few, 2, 1, 0, 0, GURTXOZAL_ACCESS_DENIED, GURTXOZAL_PLACE_REQUESTED_BEYOND_OFFERED},
        {"every route bars object 3", GURTXOZAL_MOVE, never, 0, 0, 0, 0, GURTXOZAL_UNSUPPORTED_TRANSFER, GURTXOZAL_PLACE_ROUTE_BARS_CLASS},
        {"another kind offered", GURTXOZAL_MOVE, few, 0, 0, KIND, KIND + 1, GURTXOZAL_WRONG_OBJECT_TYPE, GURTXOZAL_PLACE_OTHER_KIND},
        {"another kind expected", GURTXOZAL_COPY, few, 0, 0, KIND + 1, KIND, GURTXOZAL_WRONG_OBJECT_TYPE, GURTXOZAL_PLACE_OTHER_KIND},
    };
    for (size_t i = 0; i < sizeof items / sizeof *items; i++) {
        for (uint64_t position = 0; position < 5; position += 2) {
            judged_five(five, items + i, position, GURTXOZAL_ROUTE_RENDEZVOUS);
        }
    }
    const struct judged_item barred = {"Buffered bars object 2", GURTXOZAL_MOVE, shy, 0, 0, KIND + 2, KIND + 2, GURTXOZAL_UNSUPPORTED_TRANSFER, GURTXOZAL_PLACE_ROUTE_BARS_CLASS};
    for (uint64_t position = 0; position < 5; position += 2) {
        judged_five(five, &barred, position, GURTXOZAL_ROUTE_BUFFERED);
        if (position > 0) {
            const struct judged_item twice = {"a value listed twice", GURTXOZAL_MOVE, five[position - 1], 0, 0, 0, 0, GURTXOZAL_INVALID_HANDLE, GURTXOZAL_PLACE_LISTED_TWICE};
            judged_five(five, &twice, position, GURTXOZAL_ROUTE_STAGED_STARTUP);
        }
        /* the kind, then the object, then the route, all of one item */
        for (int forbidden = 0; forbidden < 3; forbidden++) {
            RECORD(GURTXOZAL_MUST_JUDGE_TRANSFER | GURTXOZAL_MAY_JUDGE_TRANSFER, FIELD(OP, GURTXOZAL_OP_JUDGE_TRANSFER), FIELD(TABLE, 0), FIELD(COUNT, 5), FIELD(ROUTE, GURTXOZAL_ROUTE_BUFFERED),
                   FIELD(FORBIDDEN_OBJECT, forbidden < 2 ? KOID + 2 : 1), FIELD(FORBIDDEN_KIND, forbidden < 1 ? KIND + 2 : 1));
            for (uint64_t at = 0; at < 5; at++) {
                transfer_item(at % 2 ? GURTXOZAL_COPY : GURTXOZAL_MOVE, at == position ? shy : five[at], 0);
            }
            judged("forbidden", forbidden == 1 ? GURTXOZAL_ACCESS_DENIED : GURTXOZAL_UNSUPPORTED_TRANSFER, position,
                   forbidden == 0 ? GURTXOZAL_PLACE_FORBIDDEN_KIND : forbidden == 1 ? GURTXOZAL_PLACE_FORBIDDEN_OBJECT : GURTXOZAL_PLACE_ROUTE_BARS_CLASS);
        }
    }
    /* copies: those of object 2, of which nine handles may be; the copies before one of them count, and items at fault come first */
    uint64_t shys[8] = {shy};
    for (int i = 1; i < 8; i++) {
        shys[i] = another(shy, RIGHTS);
    }
    judging_of(0, 4, GURTXOZAL_ROUTE_RENDEZVOUS);
    transfer_item(GURTXOZAL_MOVE, five[0], 0);
    transfer_item(GURTXOZAL_COPY, shys[0], 0);
    transfer_item(GURTXOZAL_MOVE, shys[1], 0);
    transfer_item(GURTXOZAL_COPY, shys[2], 0);
    judged("a second copy", GURTXOZAL_ACTIVE_HANDLE_LIMIT, 3, GURTXOZAL_PLACE_COPY_AT_LIMIT);
    another(shy, 0);
    RECORD(GURTXOZAL_MUST_RETIRE_OBJECT, FIELD(OP, GURTXOZAL_OP_RETIRE_OBJECT), FIELD(OBJECT, 1));
    expect("retire object", run(), GURTXOZAL_DONE);
    const struct judged_item copies_of[] = {
        {"a copy at the limit", GURTXOZAL_COPY, shy, 0, 0, KIND + 2, KIND + 2, GURTXOZAL_ACTIVE_HANDLE_LIMIT, GURTXOZAL_PLACE_COPY_AT_LIMIT},
        {"a move at the limit", GURTXOZAL_MOVE, shy, 0, 0, KIND + 2, KIND + 2, GURTXOZAL_DONE, 0},
        {"a copy of a retired object", GURTXOZAL_COPY, other, 0, 0, KIND + 1, KIND + 1, GURTXOZAL_OBJECT_RETIRED, GURTXOZAL_PLACE_COPY_OF_RETIRED},
        {"a move of a retired object", GURTXOZAL_MOVE, other, 0, 0, KIND + 1, KIND + 1, GURTXOZAL_DONE, 0},
    };
    for (size_t i = 0; i < sizeof copies_of / sizeof *copies_of; i++) {
        for (uint64_t position = 0; position < 5; position++) {
            judged_five(five, copies_of + i, position, GURTXOZAL_ROUTE_RENDEZVOUS);
        }
    }
    judging_of(0, 3, GURTXOZAL_ROUTE_RENDEZVOUS);
    transfer_item(GURTXOZAL_COPY, other, 0);
    transfer_item(GURTXOZAL_COPY, shy, 0);
    transfer_item(GURTXOZAL_MOVE, five[0], 4);
    judged("an item at fault behind copies at fault", GURTXOZAL_ACCESS_DENIED, 2, GURTXOZAL_PLACE_REQUESTED_BEYOND_OFFERED);
}

/* The places before any item is looked at, and what refuses the judging itself. */
static void judged_whole(void) {
    fresh();
    const uint64_t first = publish_first();
    judging_of(0, 0, 0);
    judged("no item", GURTXOZAL_EMPTY_RESERVATION, GURTXOZAL_NO_ITEM, GURTXOZAL_PLACE_EMPTY_RESERVATION);
    judging_of(0, GURTXOZAL_MAX_BATCH + 1, 0);
    for (int i = 0; i < GURTXOZAL_MAX_BATCH + 1; i++) {
        transfer_item(GURTXOZAL_MOVE, first, 0);
    }
    judged("65 items", GURTXOZAL_RESERVATION_TOO_LARGE, GURTXOZAL_NO_ITEM, GURTXOZAL_PLACE_RESERVATION_TOO_LARGE);
    judging_of(0, GURTXOZAL_MAX_BATCH, 0);
    for (int i = 0; i < GURTXOZAL_MAX_BATCH; i++) {
        transfer_item(GURTXOZAL_MOVE, first, 0);
    }
    judged("64 items", GURTXOZAL_INVALID_HANDLE, 1, GURTXOZAL_PLACE_LISTED_TWICE);
    keep();
    judging_of(TABLES, 1, 0);
    transfer_item(GURTXOZAL_MOVE, first, 0);
    expect("an unknown table", run(), GURTXOZAL_MISUSE);
    kept();
    const uint64_t next = state[5]; /* the next id (docs/formats.md) */
    state[5] = UINT64_MAX;
    judging_of(0, 1, 0);
    transfer_item(GURTXOZAL_MOVE, 0, 0);
    judged("no id left", GURTXOZAL_RESERVATION_ID_EXHAUSTED, GURTXOZAL_NO_ITEM, GURTXOZAL_PLACE_NO_ID);
    state[5] = next;
    uint64_t rows[ROWS];
    for (int i = 0; i < ROWS; i++) {
        expect("reserve 1", reserve(1), GURTXOZAL_DONE);
        rows[i] = answer[GURTXOZAL_ANSWER_ID];
    }
    judging_of(0, 1, 0);
    transfer_item(GURTXOZAL_MOVE, first, 0);
    judged("no free row", GURTXOZAL_ALLOCATION, GURTXOZAL_NO_ITEM, GURTXOZAL_PLACE_NO_ROW);
    for (int i = 0; i < ROWS; i++) {
        abort_row(rows[i]);
    }
    expect("start", TEARDOWN(START), GURTXOZAL_DONE);
    judging_of(0, 0, 0);
    judged("a table that is torn down", GURTXOZAL_TABLE_RETIRED, GURTXOZAL_NO_ITEM, GURTXOZAL_PLACE_TABLE_RETIRED);
}

/* The whole call's numbers, and no word changed by them. */
static void whole_call(void) {
    fresh();
    keep();
    const uint64_t unknown[] = {3, GURTXOZAL_OP_JUDGE_TRANSFER + 1, 0}, cut[] = {GURTXOZAL_MUST_RESERVE, GURTXOZAL_OP_RESERVE, 0};
    const uint64_t whole[] = {GURTXOZAL_MUST_RESERVE, GURTXOZAL_OP_RESERVE, 0, 1};
    memset(answer, 0xA5, sizeof answer);
    expect("an unknown op", gurtxozal_run(state, state_words, unknown, 3, answer, 72), GURTXOZAL_MALFORMED);
    expect("a list cut off", gurtxozal_run(state, state_words, cut, 3, answer, 72), GURTXOZAL_MALFORMED);
    expect("a short answer", gurtxozal_run(state, state_words, whole, 4, answer, 71), GURTXOZAL_ANSWER_SHORT);
    expect("a state cut off", gurtxozal_run(state, state_words - 1, whole, 4, answer, 72), GURTXOZAL_MISUSE);
    expect("an empty list", gurtxozal_run(state, state_words, NULL, 0, NULL, 0), GURTXOZAL_DONE);
    kept();
    for (size_t i = 0; i < GURTXOZAL_ANSWER_WORDS + 1; i++) {
        expect("an answer word", answer[i], UINT64_C(0xA5A5A5A5A5A5A5A5));
    }
}

static void shown(const char *name) {
    printf("%s %s\n", good ? "ok   " : "WRONG", name);
    failed += !good;
}

int main(void) {
    state_words = GURTXOZAL_STATE_WORDS(TABLES, PAGES + PAGES_THERE, FRAMES, OBJECTS, ROWS);
    state = malloc(state_words * sizeof *state);
    before = malloc(state_words * sizeof *before);
    if (state == NULL || before == NULL) {
        return 2;
    }
    p6(), shown("P6 fresh, reserve 3: slots 63, 62, 61, generation 1");
    p7(), shown("P7 abort those, reserve 1: slot 61, generation 2");
    p9(), shown("P9 64 slots, occupied 0 to 8, scan from 0: 8 entries, next 8, examined 8");
    p10(), shown("P10 from 8: one entry, no next, examined 56");
    p11(), shown("P11 320 slots, none occupied: no entry, next 256");
    p12(), shown("P12 fresh: publish in 63, close, take the page, reserve 1: slot 63, generation 3");
    others(), shown("the other requests, and refusals by their numbers");
    ends(), shown("a table without a page left, and the last id");
    held_and_rolled_back(), shown("a move is shown to get_info and Busy to every other call while held, and rolled back has its own rights");
    committed(), shown("a move committed is a parcel with the receiver's rights, published in another table");
    copies(), shown("copies raise the count and a rollback releases them; a refused fifth copy leaves the counts and spends one id");
    refused_transfers(), shown("a transfer's refusals, and a rollback with a copy between two moves");
    consumption(), shown("consumption");
    looked_at(), shown("looks at what is moved: its own rights, with a copy between, a consumption, two claims, refusals, after a rollback and a commit");
    looked_at_64(), shown("looks at all 64 items of a claim, with copies between and moves alone; after a rollback and a commit");
    direct(0), shown("direct commit and rollback in one table");
    direct(1), shown("direct commit and rollback between two tables");
    stopping_owner(), shown("remove_stopping_owner and its cursor");
    torn_down(), shown("teardown: start, steps, finish");
    frames_set_aside(), shown("frames set aside: a dry pool does not stop a plan's use; a stale plan keeps its frame until it is dropped");
    plans(), shown("a plan's refusals, fresh again, a held transfer, teardown, no row and no id left");
    judged_items(), shown("a transfer judged: each place at the first, middle and last of five items, copies between; then prepared, the same number");
    judged_whole(), shown("a transfer judged: the places before any item, and an unknown table");
    whole_call(), shown("18, 19 and 20 change no word; an empty list is accepted");
    free(state);
    free(before);
    return failed != 0;
}
