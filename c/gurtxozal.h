/* The till's handle tables: two calls over lent words. Every word is an unsigned 64-bit number; docs/formats.md has the words of a
 * state, of a list, of an answer and of creation's parameters, and document 01 the rules. Both calls take any words and any lengths. The
 * lent slices must not overlap; the state must be writable even where a call is refused, since its check writes object counts and puts
 * them back; nobody may read or write a lent word during a call. Link with libcreate.a and librunner.a; docs/embedding.md has the rest. */
#ifndef GURTXOZAL_H
#define GURTXOZAL_H

#include <stddef.h>
#include <stdint.h>

#ifdef __cplusplus
extern "C" {
#endif

/* Creation. Its result is 0, or 18 and no word has changed. */
uint64_t gurtxozal_create(uint64_t *state, size_t state_words, const uint64_t *parameters, size_t parameter_words);

/* Runs a list of requests. Its result is 18, 19 or 20, and no word has changed; or 0, and every request has run. */
uint64_t gurtxozal_run(uint64_t *state, size_t state_words, const uint64_t *list, size_t list_words, uint64_t *answers, size_t answer_words);

/* The numbers of document 01, and 21 of document 02: a call's result, and the first of an answer's words. */
enum {
    GURTXOZAL_DONE = 0,
    GURTXOZAL_ALLOCATION = 1,
    GURTXOZAL_INVALID_HANDLE = 2,
    GURTXOZAL_BUSY = 3,
    GURTXOZAL_WRONG_OBJECT_TYPE = 4,
    GURTXOZAL_ACCESS_DENIED = 5,
    GURTXOZAL_UNSUPPORTED_RIGHTS = 6,
    GURTXOZAL_UNSUPPORTED_FLAGS = 7,
    GURTXOZAL_UNSUPPORTED_TRANSFER = 8,
    GURTXOZAL_OBJECT_RETIRED = 9,
    GURTXOZAL_OBJECT_ALREADY_ACTIVE = 10,
    GURTXOZAL_ACTIVE_HANDLE_LIMIT = 11,
    GURTXOZAL_RESERVATION_ID_EXHAUSTED = 12,
    GURTXOZAL_RESERVATION_TOO_LARGE = 13,
    GURTXOZAL_OUTSTANDING_RESERVATION = 14,
    GURTXOZAL_TABLE_FULL = 15,
    GURTXOZAL_TABLE_RETIRED = 16,
    GURTXOZAL_EMPTY_RESERVATION = 17,
    GURTXOZAL_MISUSE = 18,
    GURTXOZAL_MALFORMED = 19,
    GURTXOZAL_ANSWER_SHORT = 20,
    GURTXOZAL_STALE_PLAN = 21
};

/* Ops. Every other op is unknown (19). */
enum {
    GURTXOZAL_OP_NEW_OBJECT = 1,
    GURTXOZAL_OP_DUPLICATE = 2,
    GURTXOZAL_OP_RELEASE_PARCEL = 3,
    GURTXOZAL_OP_RETIRE_OBJECT = 4,
    GURTXOZAL_OP_RESERVE = 5,
    GURTXOZAL_OP_TRIM = 6,
    GURTXOZAL_OP_ABORT = 7,
    GURTXOZAL_OP_PUBLISH = 8,
    GURTXOZAL_OP_GET_INFO = 9,
    GURTXOZAL_OP_RESOLVE = 10,
    GURTXOZAL_OP_REPLACE = 11,
    GURTXOZAL_OP_CLOSE = 12,
    GURTXOZAL_OP_SCAN_HANDLES = 13,
    GURTXOZAL_OP_PREPARE_TRANSFER = 14,
    GURTXOZAL_OP_PREPARE_CONSUMPTION = 15,
    GURTXOZAL_OP_ROLLBACK = 16,
    GURTXOZAL_OP_COMMIT = 17,
    GURTXOZAL_OP_DIRECT_COMMIT = 18,
    GURTXOZAL_OP_DIRECT_ROLLBACK = 19,
    GURTXOZAL_OP_REMOVE_STOPPING_OWNER = 20,
    GURTXOZAL_OP_TEARDOWN_START = 21,
    GURTXOZAL_OP_TEARDOWN_STEP = 22,
    GURTXOZAL_OP_TEARDOWN_FINISH = 23,
    GURTXOZAL_OP_TAKE_EMPTY_PAGE = 24,
    GURTXOZAL_OP_MAKE_PLAN = 25,
    GURTXOZAL_OP_USE_PLAN = 26,
    GURTXOZAL_OP_DROP_PLAN = 27,
    GURTXOZAL_OP_JUDGE_TRANSFER = 28
};

/* Fields of a record, by bit. A record is its bit map, then one word for each bit that stands, lowest first. */
enum {
    GURTXOZAL_FIELD_OP = 0,
    GURTXOZAL_FIELD_TABLE = 1,
    GURTXOZAL_FIELD_OBJECT = 2,
    GURTXOZAL_FIELD_COUNT = 3,
    GURTXOZAL_FIELD_VALUE = 4,
    GURTXOZAL_FIELD_RIGHTS = 5,
    GURTXOZAL_FIELD_FLAGS = 6,
    GURTXOZAL_FIELD_ID = 7,
    GURTXOZAL_FIELD_DESTINATION = 8,
    GURTXOZAL_FIELD_KIND = 9,
    GURTXOZAL_FIELD_KOID = 10,
    GURTXOZAL_FIELD_CURSOR = 11,
    GURTXOZAL_FIELD_ROUTE = 12,
    GURTXOZAL_FIELD_OFFERED_RIGHTS = 13,
    GURTXOZAL_FIELD_OFFERED_KIND = 14,
    GURTXOZAL_FIELD_EXPECTED_KIND = 15,
    GURTXOZAL_FIELD_FORBIDDEN_OBJECT = 16,
    GURTXOZAL_FIELD_FORBIDDEN_KIND = 17
};

/* The fields that each op must carry, as bit maps, and what a transfer, prepared or judged, may carry besides. */
#define GURTXOZAL_BIT(field) (UINT64_C(1) << (field))
#define GURTXOZAL_MUST_NEW_OBJECT UINT64_C(101)
#define GURTXOZAL_MUST_DUPLICATE UINT64_C(51)
#define GURTXOZAL_MUST_RELEASE_PARCEL UINT64_C(129)
#define GURTXOZAL_MUST_RETIRE_OBJECT UINT64_C(5)
#define GURTXOZAL_MUST_RESERVE UINT64_C(11)
#define GURTXOZAL_MUST_TRIM UINT64_C(137)
#define GURTXOZAL_MUST_ABORT UINT64_C(129)
#define GURTXOZAL_MUST_PUBLISH UINT64_C(137)
#define GURTXOZAL_MUST_GET_INFO UINT64_C(19)
#define GURTXOZAL_MUST_RESOLVE UINT64_C(563)
#define GURTXOZAL_MUST_REPLACE UINT64_C(51)
#define GURTXOZAL_MUST_CLOSE UINT64_C(19)
#define GURTXOZAL_MUST_SCAN_HANDLES UINT64_C(2051)
#define GURTXOZAL_MUST_PREPARE_TRANSFER UINT64_C(4107)
#define GURTXOZAL_MAY_PREPARE_TRANSFER UINT64_C(196608)
#define GURTXOZAL_MUST_PREPARE_CONSUMPTION UINT64_C(1587)
#define GURTXOZAL_MUST_ROLLBACK UINT64_C(129)
#define GURTXOZAL_MUST_COMMIT UINT64_C(129)
#define GURTXOZAL_MUST_DIRECT_COMMIT UINT64_C(385)
#define GURTXOZAL_MUST_DIRECT_ROLLBACK UINT64_C(385)
#define GURTXOZAL_MUST_REMOVE_STOPPING_OWNER UINT64_C(2051)
#define GURTXOZAL_MUST_TEARDOWN_START UINT64_C(3)
#define GURTXOZAL_MUST_TEARDOWN_STEP UINT64_C(3)
#define GURTXOZAL_MUST_TEARDOWN_FINISH UINT64_C(3)
#define GURTXOZAL_MUST_TAKE_EMPTY_PAGE UINT64_C(3)
#define GURTXOZAL_MUST_MAKE_PLAN UINT64_C(11)
#define GURTXOZAL_MUST_USE_PLAN UINT64_C(129)
#define GURTXOZAL_MUST_DROP_PLAN UINT64_C(129)
#define GURTXOZAL_MUST_JUDGE_TRANSFER UINT64_C(4107)
#define GURTXOZAL_MAY_JUDGE_TRANSFER UINT64_C(196608)
#define GURTXOZAL_MUST_TRANSFER_ITEM UINT64_C(49)
#define GURTXOZAL_MAY_TRANSFER_ITEM UINT64_C(57344)
#define GURTXOZAL_MUST_PARCEL_ITEM UINT64_C(129)
#define GURTXOZAL_MAY_PARCEL_ITEM UINT64_C(0)

/* Answers: 72 words each; word 0 is the number. */
enum {
    GURTXOZAL_ANSWER_WORDS = 72,
    GURTXOZAL_ANSWER_NUMBER = 0,
    /* new object, duplicate, reserve, both preparations, make plan, use plan */
    GURTXOZAL_ANSWER_ID = 1,
    /* reserve, use plan */
    GURTXOZAL_ANSWER_BATCH_COUNT = 2,
    GURTXOZAL_ANSWER_BATCH_VALUES = 3,
    /* get_info, close. While a transfer or a consumption holds a handle, get_info gives what it had before, its own rights included;
     * every other request that looks its value up gives GURTXOZAL_BUSY. */
    GURTXOZAL_ANSWER_INFO_KOID = 1,
    GURTXOZAL_ANSWER_INFO_KIND = 2,
    GURTXOZAL_ANSWER_INFO_RIGHTS = 3,
    GURTXOZAL_ANSWER_INFO_FLAGS = 4,
    /* resolve */
    GURTXOZAL_ANSWER_RESOLVED_OBJECT = 1,
    GURTXOZAL_ANSWER_RESOLVED_KOID = 2,
    GURTXOZAL_ANSWER_RESOLVED_RIGHTS = 3,
    /* replace */
    GURTXOZAL_ANSWER_NEW_VALUE = 1,
    /* scan_handles */
    GURTXOZAL_ANSWER_SCAN_LENGTH = 1,
    GURTXOZAL_ANSWER_SCAN_HAS_NEXT = 2,
    GURTXOZAL_ANSWER_SCAN_NEXT = 3,
    GURTXOZAL_ANSWER_SCAN_EXAMINED = 4,
    GURTXOZAL_ANSWER_SCAN_ENTRIES = 5,
    GURTXOZAL_SCAN_ENTRY_WORDS = 5,
    GURTXOZAL_SCAN_ENTRY_VALUE = 0,
    GURTXOZAL_SCAN_ENTRY_KOID = 1,
    GURTXOZAL_SCAN_ENTRY_KIND = 2,
    GURTXOZAL_SCAN_ENTRY_RIGHTS = 3,
    GURTXOZAL_SCAN_ENTRY_FLAGS = 4,
    /* remove_stopping_owner */
    GURTXOZAL_ANSWER_REMOVED = 1,
    GURTXOZAL_ANSWER_REMOVED_CURSOR = 2,
    GURTXOZAL_ANSWER_REMOVED_VALUE = 3,
    GURTXOZAL_ANSWER_REMOVED_KOID = 4,
    GURTXOZAL_ANSWER_REMOVED_KIND = 5,
    GURTXOZAL_ANSWER_REMOVED_RIGHTS = 6,
    GURTXOZAL_ANSWER_REMOVED_FLAGS = 7,
    /* teardown step */
    GURTXOZAL_ANSWER_STEP_REMOVED = 1,
    GURTXOZAL_ANSWER_STEP_KOID = 2,
    GURTXOZAL_ANSWER_STEP_KIND = 3,
    GURTXOZAL_ANSWER_STEP_RIGHTS = 4,
    GURTXOZAL_ANSWER_STEP_FLAGS = 5,
    /* take_empty_page */
    GURTXOZAL_ANSWER_TAKEN = 1,
    GURTXOZAL_ANSWER_TAKEN_PAGE = 2,
    /* make plan */
    GURTXOZAL_ANSWER_PLAN_COUNT = 2,
    GURTXOZAL_ANSWER_PLAN_FRAMES = 3,
    /* judge transfer: the number that preparing would give, GURTXOZAL_DONE if it would be accepted; the position of the item at fault, or GURTXOZAL_NO_ITEM; the
     * place of the rule, see below. Of a transfer that would be accepted all three are 0. */
    GURTXOZAL_ANSWER_JUDGED_NUMBER = 1,
    GURTXOZAL_ANSWER_JUDGED_POSITION = 2,
    GURTXOZAL_ANSWER_JUDGED_PLACE = 3
};

/* The position where no item of a judged transfer is at fault, and the places of the rules in the order in which they are looked at. */
enum {
    GURTXOZAL_NO_ITEM = 64,
    GURTXOZAL_PLACE_TABLE_RETIRED = 1,
    GURTXOZAL_PLACE_EMPTY_RESERVATION = 2,
    GURTXOZAL_PLACE_RESERVATION_TOO_LARGE = 3,
    GURTXOZAL_PLACE_NO_ROW = 4,
    GURTXOZAL_PLACE_NO_ID = 5,
    GURTXOZAL_PLACE_LISTED_TWICE = 6,
    GURTXOZAL_PLACE_LOOKUP = 7,
    GURTXOZAL_PLACE_LACKS_TRANSFER = 8,
    GURTXOZAL_PLACE_COPY_LACKS_DUPLICATE = 9,
    GURTXOZAL_PLACE_OFFERED_BEYOND_SOURCE = 10,
    GURTXOZAL_PLACE_REQUESTED_BEYOND_OFFERED = 11,
    GURTXOZAL_PLACE_FORBIDDEN_KIND = 12,
    GURTXOZAL_PLACE_FORBIDDEN_OBJECT = 13,
    GURTXOZAL_PLACE_ROUTE_BARS_CLASS = 14,
    GURTXOZAL_PLACE_OTHER_KIND = 15,
    GURTXOZAL_PLACE_COPY_OF_RETIRED = 16,
    GURTXOZAL_PLACE_COPY_AT_LIMIT = 17
};

/* A transfer's routes, and its items' operations. */
enum { GURTXOZAL_ROUTE_BUFFERED = 0, GURTXOZAL_ROUTE_RENDEZVOUS = 1, GURTXOZAL_ROUTE_STAGED_STARTUP = 2 };
enum { GURTXOZAL_MOVE = 0, GURTXOZAL_COPY = 1 };

/* Handle values, rights and limits. */
#define GURTXOZAL_PREFIX_MASK UINT64_C(0xFF00000000000000)
#define GURTXOZAL_PREFIX UINT64_C(0x4800000000000000)
#define GURTXOZAL_SLOT_LIMIT UINT64_C(16777214)
#define GURTXOZAL_GENERATION_LIMIT UINT64_C(4294967295)
#define GURTXOZAL_RIGHT_DUPLICATE UINT64_C(1)
#define GURTXOZAL_RIGHT_TRANSFER UINT64_C(2)
enum {
    GURTXOZAL_MAX_TABLES = 16,
    GURTXOZAL_MAX_PAGES = 262144,
    GURTXOZAL_MAX_FRAMES = 65535,
    GURTXOZAL_MAX_OBJECTS = 4096,
    GURTXOZAL_MAX_ROWS = 256,
    GURTXOZAL_MAX_BATCH = 64
};

/* How many words a state has: tables, the sum of their page limits, frames, objects, rows. */
#define GURTXOZAL_STATE_WORDS(tables, pages, frames, objects, rows)                                                              \
    (UINT64_C(16) + 16 * (uint64_t)(tables) + 5 * (uint64_t)(pages) + (uint64_t)(frames) + ((uint64_t)(frames) + 15) / 16        \
     + ((uint64_t)(frames) + 255) / 256 + ((uint64_t)(frames) + 4095) / 4096 + 384 * (uint64_t)(frames) + 8 * (uint64_t)(objects) \
     + 392 * (uint64_t)(rows))

#ifdef __cplusplus
}
#endif
#endif
