/* Requests and answers of the till's handle tables, a function for each. Made by c/make_calls.py from the tables of docs/formats.md.
 *
 * gurtxozal_put_NAME writes a request's record into lent words and gives how many it has written; where `room` words are too few it writes none and gives 0.
 * Its fields stand in the order of the record's. Fields that a record may carry besides are lent in a struct whose `map` has the bits
 * (GURTXOZAL_BIT(GURTXOZAL_FIELD_..)) of those that are given; NULL gives none, and with any other bit nothing is written and the result is 0. The items of a publish or of a transfer are written behind it, as many as its `count` says.
 *
 * gurtxozal_read_NAME reads the answer to a request from its 72 words; `number` is GURTXOZAL_DONE or the refusal, and after a refusal the rest is 0. The `values` of a
 * reservation, and of a plan that is used, point into those words. */
#ifndef GURTXOZAL_CALLS_H
#define GURTXOZAL_CALLS_H

#include "gurtxozal.h"

#ifdef __cplusplus
extern "C" {
#endif

/* The answer to request n (from 0) of a list. */
static inline const uint64_t *gurtxozal_answer(const uint64_t *answers, size_t n) {
    return answers + n * GURTXOZAL_ANSWER_WORDS;
}

/* Classes of objects; gurtxozal.h has a transfer's routes and its items' operations. */
enum {
    GURTXOZAL_CLASS_LEAF = 0,
    GURTXOZAL_CLASS_RENDEZVOUS_ONLY = 1,
    GURTXOZAL_CLASS_NEVER = 2
};

/* Creation's parameters: the counts, then each table, then each object. */
static inline size_t gurtxozal_put_creation_counts(uint64_t *words, size_t room, uint64_t tables, uint64_t frames, uint64_t objects, uint64_t rows) {
    if (room < 4) {
        return 0;
    }
    words[0] = tables;
    words[1] = frames;
    words[2] = objects;
    words[3] = rows;
    return 4;
}
static inline size_t gurtxozal_put_creation_table(uint64_t *words, size_t room, uint64_t pages, uint64_t seed) {
    if (room < 2) {
        return 0;
    }
    words[0] = pages;
    words[1] = seed;
    return 2;
}
static inline size_t gurtxozal_put_creation_object(uint64_t *words, size_t room, uint64_t koid, uint64_t kind, uint64_t class_, uint64_t supported_rights, uint64_t exportable, uint64_t limit) {
    if (room < 6) {
        return 0;
    }
    words[0] = koid;
    words[1] = kind;
    words[2] = class_;
    words[3] = supported_rights;
    words[4] = exportable;
    words[5] = limit;
    return 6;
}

/* 1: new object: op, object, rights, flags. */
static inline size_t gurtxozal_put_new_object(uint64_t *words, size_t room, uint64_t object, uint64_t rights, uint64_t flags) {
    if (room < 5) {
        return 0;
    }
    words[0] = GURTXOZAL_MUST_NEW_OBJECT;
    words[1] = GURTXOZAL_OP_NEW_OBJECT;
    words[2] = object;
    words[3] = rights;
    words[4] = flags;
    return 5;
}
/* Its answer: 1 the new parcel's id. */
struct gurtxozal_new_object_answer {
    uint64_t number;
    uint64_t id;
};
static inline struct gurtxozal_new_object_answer gurtxozal_read_new_object(const uint64_t *answer) {
    const struct gurtxozal_new_object_answer read = {answer[0], answer[1]};
    return read;
}

/* 2: duplicate: op, table, value, rights. */
static inline size_t gurtxozal_put_duplicate(uint64_t *words, size_t room, uint64_t table, uint64_t value, uint64_t rights) {
    if (room < 5) {
        return 0;
    }
    words[0] = GURTXOZAL_MUST_DUPLICATE;
    words[1] = GURTXOZAL_OP_DUPLICATE;
    words[2] = table;
    words[3] = value;
    words[4] = rights;
    return 5;
}
/* Its answer: 1 the new parcel's id. */
struct gurtxozal_duplicate_answer {
    uint64_t number;
    uint64_t id;
};
static inline struct gurtxozal_duplicate_answer gurtxozal_read_duplicate(const uint64_t *answer) {
    const struct gurtxozal_duplicate_answer read = {answer[0], answer[1]};
    return read;
}

/* 3: release parcel: op, id. */
static inline size_t gurtxozal_put_release_parcel(uint64_t *words, size_t room, uint64_t id) {
    if (room < 3) {
        return 0;
    }
    words[0] = GURTXOZAL_MUST_RELEASE_PARCEL;
    words[1] = GURTXOZAL_OP_RELEASE_PARCEL;
    words[2] = id;
    return 3;
}
/* Its answer: none. */
struct gurtxozal_release_parcel_answer {
    uint64_t number;
};
static inline struct gurtxozal_release_parcel_answer gurtxozal_read_release_parcel(const uint64_t *answer) {
    const struct gurtxozal_release_parcel_answer read = {answer[0]};
    return read;
}

/* 4: retire object: op, object. */
static inline size_t gurtxozal_put_retire_object(uint64_t *words, size_t room, uint64_t object) {
    if (room < 3) {
        return 0;
    }
    words[0] = GURTXOZAL_MUST_RETIRE_OBJECT;
    words[1] = GURTXOZAL_OP_RETIRE_OBJECT;
    words[2] = object;
    return 3;
}
/* Its answer: none. */
struct gurtxozal_retire_object_answer {
    uint64_t number;
};
static inline struct gurtxozal_retire_object_answer gurtxozal_read_retire_object(const uint64_t *answer) {
    const struct gurtxozal_retire_object_answer read = {answer[0]};
    return read;
}

/* 5: reserve: op, table, count. */
static inline size_t gurtxozal_put_reserve(uint64_t *words, size_t room, uint64_t table, uint64_t count) {
    if (room < 4) {
        return 0;
    }
    words[0] = GURTXOZAL_MUST_RESERVE;
    words[1] = GURTXOZAL_OP_RESERVE;
    words[2] = table;
    words[3] = count;
    return 4;
}
/* Its answer: 1 the reservation's id, 2 the count, 3 to 66 the future values, in the order in which a publish fills them. */
struct gurtxozal_reserve_answer {
    uint64_t number;
    uint64_t id;
    uint64_t count;
    const uint64_t *values;
};
static inline struct gurtxozal_reserve_answer gurtxozal_read_reserve(const uint64_t *answer) {
    const struct gurtxozal_reserve_answer read = {answer[0], answer[1], answer[2], answer + 3};
    return read;
}

/* 6: trim: op, count, id. */
static inline size_t gurtxozal_put_trim(uint64_t *words, size_t room, uint64_t count, uint64_t id) {
    if (room < 4) {
        return 0;
    }
    words[0] = GURTXOZAL_MUST_TRIM;
    words[1] = GURTXOZAL_OP_TRIM;
    words[2] = count;
    words[3] = id;
    return 4;
}
/* Its answer: none. */
struct gurtxozal_trim_answer {
    uint64_t number;
};
static inline struct gurtxozal_trim_answer gurtxozal_read_trim(const uint64_t *answer) {
    const struct gurtxozal_trim_answer read = {answer[0]};
    return read;
}

/* 7: abort: op, id. */
static inline size_t gurtxozal_put_abort(uint64_t *words, size_t room, uint64_t id) {
    if (room < 3) {
        return 0;
    }
    words[0] = GURTXOZAL_MUST_ABORT;
    words[1] = GURTXOZAL_OP_ABORT;
    words[2] = id;
    return 3;
}
/* Its answer: none. */
struct gurtxozal_abort_answer {
    uint64_t number;
};
static inline struct gurtxozal_abort_answer gurtxozal_read_abort(const uint64_t *answer) {
    const struct gurtxozal_abort_answer read = {answer[0]};
    return read;
}

/* 8: publish: op, count, id; then `count` parcel items. */
static inline size_t gurtxozal_put_publish(uint64_t *words, size_t room, uint64_t count, uint64_t id) {
    if (room < 4) {
        return 0;
    }
    words[0] = GURTXOZAL_MUST_PUBLISH;
    words[1] = GURTXOZAL_OP_PUBLISH;
    words[2] = count;
    words[3] = id;
    return 4;
}
/* Its answer: none. */
struct gurtxozal_publish_answer {
    uint64_t number;
};
static inline struct gurtxozal_publish_answer gurtxozal_read_publish(const uint64_t *answer) {
    const struct gurtxozal_publish_answer read = {answer[0]};
    return read;
}

/* 9: get_info: op, table, value. */
static inline size_t gurtxozal_put_get_info(uint64_t *words, size_t room, uint64_t table, uint64_t value) {
    if (room < 4) {
        return 0;
    }
    words[0] = GURTXOZAL_MUST_GET_INFO;
    words[1] = GURTXOZAL_OP_GET_INFO;
    words[2] = table;
    words[3] = value;
    return 4;
}
/* Its answer: 1 koid, 2 kind, 3 rights, 4 flags. */
struct gurtxozal_get_info_answer {
    uint64_t number;
    uint64_t koid;
    uint64_t kind;
    uint64_t rights;
    uint64_t flags;
};
static inline struct gurtxozal_get_info_answer gurtxozal_read_get_info(const uint64_t *answer) {
    const struct gurtxozal_get_info_answer read = {answer[0], answer[1], answer[2], answer[3], answer[4]};
    return read;
}

/* 10: resolve: op, table, value, rights, kind. */
static inline size_t gurtxozal_put_resolve(uint64_t *words, size_t room, uint64_t table, uint64_t value, uint64_t rights, uint64_t kind) {
    if (room < 6) {
        return 0;
    }
    words[0] = GURTXOZAL_MUST_RESOLVE;
    words[1] = GURTXOZAL_OP_RESOLVE;
    words[2] = table;
    words[3] = value;
    words[4] = rights;
    words[5] = kind;
    return 6;
}
/* Its answer: 1 the object's number, 2 koid, 3 rights. */
struct gurtxozal_resolve_answer {
    uint64_t number;
    uint64_t object;
    uint64_t koid;
    uint64_t rights;
};
static inline struct gurtxozal_resolve_answer gurtxozal_read_resolve(const uint64_t *answer) {
    const struct gurtxozal_resolve_answer read = {answer[0], answer[1], answer[2], answer[3]};
    return read;
}

/* 11: replace: op, table, value, rights. */
static inline size_t gurtxozal_put_replace(uint64_t *words, size_t room, uint64_t table, uint64_t value, uint64_t rights) {
    if (room < 5) {
        return 0;
    }
    words[0] = GURTXOZAL_MUST_REPLACE;
    words[1] = GURTXOZAL_OP_REPLACE;
    words[2] = table;
    words[3] = value;
    words[4] = rights;
    return 5;
}
/* Its answer: 1 the new value. */
struct gurtxozal_replace_answer {
    uint64_t number;
    uint64_t value;
};
static inline struct gurtxozal_replace_answer gurtxozal_read_replace(const uint64_t *answer) {
    const struct gurtxozal_replace_answer read = {answer[0], answer[1]};
    return read;
}

/* 12: close: op, table, value. */
static inline size_t gurtxozal_put_close(uint64_t *words, size_t room, uint64_t table, uint64_t value) {
    if (room < 4) {
        return 0;
    }
    words[0] = GURTXOZAL_MUST_CLOSE;
    words[1] = GURTXOZAL_OP_CLOSE;
    words[2] = table;
    words[3] = value;
    return 4;
}
/* Its answer: 1 koid, 2 kind, 3 rights, 4 flags. */
struct gurtxozal_close_answer {
    uint64_t number;
    uint64_t koid;
    uint64_t kind;
    uint64_t rights;
    uint64_t flags;
};
static inline struct gurtxozal_close_answer gurtxozal_read_close(const uint64_t *answer) {
    const struct gurtxozal_close_answer read = {answer[0], answer[1], answer[2], answer[3], answer[4]};
    return read;
}

/* 13: scan_handles: op, table, cursor. */
static inline size_t gurtxozal_put_scan_handles(uint64_t *words, size_t room, uint64_t table, uint64_t cursor) {
    if (room < 4) {
        return 0;
    }
    words[0] = GURTXOZAL_MUST_SCAN_HANDLES;
    words[1] = GURTXOZAL_OP_SCAN_HANDLES;
    words[2] = table;
    words[3] = cursor;
    return 4;
}
/* Its answer: 1 the length (0 to 8), 2 whether there is a next cursor (0 or 1), 3 the next cursor, 4 examined, then from word 5 for each entry: value, koid, kind, rights, flags. */
struct gurtxozal_scan_handles_answer {
    uint64_t number;
    uint64_t length;
    uint64_t has_next;
    uint64_t next;
    uint64_t examined;
};
static inline struct gurtxozal_scan_handles_answer gurtxozal_read_scan_handles(const uint64_t *answer) {
    const struct gurtxozal_scan_handles_answer read = {answer[0], answer[1], answer[2], answer[3], answer[4]};
    return read;
}
/* Entry n of the answer's `length`, from 0. */
struct gurtxozal_scan_handles_entry {
    uint64_t value;
    uint64_t koid;
    uint64_t kind;
    uint64_t rights;
    uint64_t flags;
};
static inline struct gurtxozal_scan_handles_entry gurtxozal_read_scan_handles_entry(const uint64_t *answer, size_t n) {
    const uint64_t *entry = answer + 5 + 5 * n;
    const struct gurtxozal_scan_handles_entry read = {entry[0], entry[1], entry[2], entry[3], entry[4]};
    return read;
}

/* 14: prepare transfer: op, table, count, route; then `count` transfer items. */
/* What a prepare transfer may carry besides. */
struct gurtxozal_prepare_transfer_may {
    uint64_t map;
    uint64_t forbidden_object;
    uint64_t forbidden_kind;
};
static inline size_t gurtxozal_put_prepare_transfer(uint64_t *words, size_t room, uint64_t table, uint64_t count, uint64_t route, const struct gurtxozal_prepare_transfer_may *may) {
    const uint64_t map = may == NULL ? 0 : may->map;
    const size_t needed = 5 + (size_t)(map >> GURTXOZAL_FIELD_FORBIDDEN_OBJECT & 1) + (size_t)(map >> GURTXOZAL_FIELD_FORBIDDEN_KIND & 1);
    if (room < needed || (map & ~GURTXOZAL_MAY_PREPARE_TRANSFER) != 0) {
        return 0;
    }
    words[0] = GURTXOZAL_MUST_PREPARE_TRANSFER | map;
    words[1] = GURTXOZAL_OP_PREPARE_TRANSFER;
    words[2] = table;
    words[3] = count;
    words[4] = route;
    size_t at = 5;
    if (map >> GURTXOZAL_FIELD_FORBIDDEN_OBJECT & 1) {
        words[at++] = may->forbidden_object;
    }
    if (map >> GURTXOZAL_FIELD_FORBIDDEN_KIND & 1) {
        words[at++] = may->forbidden_kind;
    }
    return needed;
}
/* Its answer: 1 the claim's id. */
struct gurtxozal_prepare_transfer_answer {
    uint64_t number;
    uint64_t id;
};
static inline struct gurtxozal_prepare_transfer_answer gurtxozal_read_prepare_transfer(const uint64_t *answer) {
    const struct gurtxozal_prepare_transfer_answer read = {answer[0], answer[1]};
    return read;
}

/* 15: prepare consumption: op, table, value, rights, kind, koid. */
static inline size_t gurtxozal_put_prepare_consumption(uint64_t *words, size_t room, uint64_t table, uint64_t value, uint64_t rights, uint64_t kind, uint64_t koid) {
    if (room < 7) {
        return 0;
    }
    words[0] = GURTXOZAL_MUST_PREPARE_CONSUMPTION;
    words[1] = GURTXOZAL_OP_PREPARE_CONSUMPTION;
    words[2] = table;
    words[3] = value;
    words[4] = rights;
    words[5] = kind;
    words[6] = koid;
    return 7;
}
/* Its answer: 1 the claim's id. */
struct gurtxozal_prepare_consumption_answer {
    uint64_t number;
    uint64_t id;
};
static inline struct gurtxozal_prepare_consumption_answer gurtxozal_read_prepare_consumption(const uint64_t *answer) {
    const struct gurtxozal_prepare_consumption_answer read = {answer[0], answer[1]};
    return read;
}

/* 16: rollback: op, id. */
static inline size_t gurtxozal_put_rollback(uint64_t *words, size_t room, uint64_t id) {
    if (room < 3) {
        return 0;
    }
    words[0] = GURTXOZAL_MUST_ROLLBACK;
    words[1] = GURTXOZAL_OP_ROLLBACK;
    words[2] = id;
    return 3;
}
/* Its answer: none. */
struct gurtxozal_rollback_answer {
    uint64_t number;
};
static inline struct gurtxozal_rollback_answer gurtxozal_read_rollback(const uint64_t *answer) {
    const struct gurtxozal_rollback_answer read = {answer[0]};
    return read;
}

/* 17: commit: op, id. */
static inline size_t gurtxozal_put_commit(uint64_t *words, size_t room, uint64_t id) {
    if (room < 3) {
        return 0;
    }
    words[0] = GURTXOZAL_MUST_COMMIT;
    words[1] = GURTXOZAL_OP_COMMIT;
    words[2] = id;
    return 3;
}
/* Its answer: none. */
struct gurtxozal_commit_answer {
    uint64_t number;
};
static inline struct gurtxozal_commit_answer gurtxozal_read_commit(const uint64_t *answer) {
    const struct gurtxozal_commit_answer read = {answer[0]};
    return read;
}

/* 18: direct commit: op, id (the claim), destination (the reservation). */
static inline size_t gurtxozal_put_direct_commit(uint64_t *words, size_t room, uint64_t id, uint64_t destination) {
    if (room < 4) {
        return 0;
    }
    words[0] = GURTXOZAL_MUST_DIRECT_COMMIT;
    words[1] = GURTXOZAL_OP_DIRECT_COMMIT;
    words[2] = id;
    words[3] = destination;
    return 4;
}
/* Its answer: none. */
struct gurtxozal_direct_commit_answer {
    uint64_t number;
};
static inline struct gurtxozal_direct_commit_answer gurtxozal_read_direct_commit(const uint64_t *answer) {
    const struct gurtxozal_direct_commit_answer read = {answer[0]};
    return read;
}

/* 19: direct rollback: op, id (the claim), destination (the reservation). */
static inline size_t gurtxozal_put_direct_rollback(uint64_t *words, size_t room, uint64_t id, uint64_t destination) {
    if (room < 4) {
        return 0;
    }
    words[0] = GURTXOZAL_MUST_DIRECT_ROLLBACK;
    words[1] = GURTXOZAL_OP_DIRECT_ROLLBACK;
    words[2] = id;
    words[3] = destination;
    return 4;
}
/* Its answer: none. */
struct gurtxozal_direct_rollback_answer {
    uint64_t number;
};
static inline struct gurtxozal_direct_rollback_answer gurtxozal_read_direct_rollback(const uint64_t *answer) {
    const struct gurtxozal_direct_rollback_answer read = {answer[0]};
    return read;
}

/* 20: remove_stopping_owner: op, table, cursor. */
static inline size_t gurtxozal_put_remove_stopping_owner(uint64_t *words, size_t room, uint64_t table, uint64_t cursor) {
    if (room < 4) {
        return 0;
    }
    words[0] = GURTXOZAL_MUST_REMOVE_STOPPING_OWNER;
    words[1] = GURTXOZAL_OP_REMOVE_STOPPING_OWNER;
    words[2] = table;
    words[3] = cursor;
    return 4;
}
/* Its answer: 1 whether a handle was removed (0 or 1), 2 the cursor as left, 3 value, 4 koid, 5 kind, 6 rights, 7 flags. */
struct gurtxozal_remove_stopping_owner_answer {
    uint64_t number;
    uint64_t removed;
    uint64_t cursor;
    uint64_t value;
    uint64_t koid;
    uint64_t kind;
    uint64_t rights;
    uint64_t flags;
};
static inline struct gurtxozal_remove_stopping_owner_answer gurtxozal_read_remove_stopping_owner(const uint64_t *answer) {
    const struct gurtxozal_remove_stopping_owner_answer read = {answer[0], answer[1], answer[2], answer[3], answer[4], answer[5], answer[6], answer[7]};
    return read;
}

/* 21: teardown start: op, table. */
static inline size_t gurtxozal_put_teardown_start(uint64_t *words, size_t room, uint64_t table) {
    if (room < 3) {
        return 0;
    }
    words[0] = GURTXOZAL_MUST_TEARDOWN_START;
    words[1] = GURTXOZAL_OP_TEARDOWN_START;
    words[2] = table;
    return 3;
}
/* Its answer: none. */
struct gurtxozal_teardown_start_answer {
    uint64_t number;
};
static inline struct gurtxozal_teardown_start_answer gurtxozal_read_teardown_start(const uint64_t *answer) {
    const struct gurtxozal_teardown_start_answer read = {answer[0]};
    return read;
}

/* 22: teardown step: op, table. */
static inline size_t gurtxozal_put_teardown_step(uint64_t *words, size_t room, uint64_t table) {
    if (room < 3) {
        return 0;
    }
    words[0] = GURTXOZAL_MUST_TEARDOWN_STEP;
    words[1] = GURTXOZAL_OP_TEARDOWN_STEP;
    words[2] = table;
    return 3;
}
/* Its answer: 1 whether a handle was removed (0 or 1), 2 koid, 3 kind, 4 rights, 5 flags. */
struct gurtxozal_teardown_step_answer {
    uint64_t number;
    uint64_t removed;
    uint64_t koid;
    uint64_t kind;
    uint64_t rights;
    uint64_t flags;
};
static inline struct gurtxozal_teardown_step_answer gurtxozal_read_teardown_step(const uint64_t *answer) {
    const struct gurtxozal_teardown_step_answer read = {answer[0], answer[1], answer[2], answer[3], answer[4], answer[5]};
    return read;
}

/* 23: teardown finish: op, table. */
static inline size_t gurtxozal_put_teardown_finish(uint64_t *words, size_t room, uint64_t table) {
    if (room < 3) {
        return 0;
    }
    words[0] = GURTXOZAL_MUST_TEARDOWN_FINISH;
    words[1] = GURTXOZAL_OP_TEARDOWN_FINISH;
    words[2] = table;
    return 3;
}
/* Its answer: none. */
struct gurtxozal_teardown_finish_answer {
    uint64_t number;
};
static inline struct gurtxozal_teardown_finish_answer gurtxozal_read_teardown_finish(const uint64_t *answer) {
    const struct gurtxozal_teardown_finish_answer read = {answer[0]};
    return read;
}

/* 24: take_empty_page: op, table. */
static inline size_t gurtxozal_put_take_empty_page(uint64_t *words, size_t room, uint64_t table) {
    if (room < 3) {
        return 0;
    }
    words[0] = GURTXOZAL_MUST_TAKE_EMPTY_PAGE;
    words[1] = GURTXOZAL_OP_TAKE_EMPTY_PAGE;
    words[2] = table;
    return 3;
}
/* Its answer: 1 whether a page was taken (0 or 1), 2 its page number. */
struct gurtxozal_take_empty_page_answer {
    uint64_t number;
    uint64_t taken;
    uint64_t page;
};
static inline struct gurtxozal_take_empty_page_answer gurtxozal_read_take_empty_page(const uint64_t *answer) {
    const struct gurtxozal_take_empty_page_answer read = {answer[0], answer[1], answer[2]};
    return read;
}

/* 25: make plan: op, table, count. */
static inline size_t gurtxozal_put_make_plan(uint64_t *words, size_t room, uint64_t table, uint64_t count) {
    if (room < 4) {
        return 0;
    }
    words[0] = GURTXOZAL_MUST_MAKE_PLAN;
    words[1] = GURTXOZAL_OP_MAKE_PLAN;
    words[2] = table;
    words[3] = count;
    return 4;
}
/* Its answer: 1 the plan's id, 2 the count, 3 how many frames it holds. */
struct gurtxozal_make_plan_answer {
    uint64_t number;
    uint64_t id;
    uint64_t count;
    uint64_t frames;
};
static inline struct gurtxozal_make_plan_answer gurtxozal_read_make_plan(const uint64_t *answer) {
    const struct gurtxozal_make_plan_answer read = {answer[0], answer[1], answer[2], answer[3]};
    return read;
}

/* 26: use plan: op, id. */
static inline size_t gurtxozal_put_use_plan(uint64_t *words, size_t room, uint64_t id) {
    if (room < 3) {
        return 0;
    }
    words[0] = GURTXOZAL_MUST_USE_PLAN;
    words[1] = GURTXOZAL_OP_USE_PLAN;
    words[2] = id;
    return 3;
}
/* Its answer: 1 the reservation's id, 2 the count, 3 to 66 the future values, in the order in which a publish fills them. */
struct gurtxozal_use_plan_answer {
    uint64_t number;
    uint64_t id;
    uint64_t count;
    const uint64_t *values;
};
static inline struct gurtxozal_use_plan_answer gurtxozal_read_use_plan(const uint64_t *answer) {
    const struct gurtxozal_use_plan_answer read = {answer[0], answer[1], answer[2], answer + 3};
    return read;
}

/* 27: drop plan: op, id. */
static inline size_t gurtxozal_put_drop_plan(uint64_t *words, size_t room, uint64_t id) {
    if (room < 3) {
        return 0;
    }
    words[0] = GURTXOZAL_MUST_DROP_PLAN;
    words[1] = GURTXOZAL_OP_DROP_PLAN;
    words[2] = id;
    return 3;
}
/* Its answer: none. */
struct gurtxozal_drop_plan_answer {
    uint64_t number;
};
static inline struct gurtxozal_drop_plan_answer gurtxozal_read_drop_plan(const uint64_t *answer) {
    const struct gurtxozal_drop_plan_answer read = {answer[0]};
    return read;
}

/* 28: judge transfer: op, table, count, route; then `count` transfer items. */
/* What a judge transfer may carry besides. */
struct gurtxozal_judge_transfer_may {
    uint64_t map;
    uint64_t forbidden_object;
    uint64_t forbidden_kind;
};
static inline size_t gurtxozal_put_judge_transfer(uint64_t *words, size_t room, uint64_t table, uint64_t count, uint64_t route, const struct gurtxozal_judge_transfer_may *may) {
    const uint64_t map = may == NULL ? 0 : may->map;
    const size_t needed = 5 + (size_t)(map >> GURTXOZAL_FIELD_FORBIDDEN_OBJECT & 1) + (size_t)(map >> GURTXOZAL_FIELD_FORBIDDEN_KIND & 1);
    if (room < needed || (map & ~GURTXOZAL_MAY_JUDGE_TRANSFER) != 0) {
        return 0;
    }
    words[0] = GURTXOZAL_MUST_JUDGE_TRANSFER | map;
    words[1] = GURTXOZAL_OP_JUDGE_TRANSFER;
    words[2] = table;
    words[3] = count;
    words[4] = route;
    size_t at = 5;
    if (map >> GURTXOZAL_FIELD_FORBIDDEN_OBJECT & 1) {
        words[at++] = may->forbidden_object;
    }
    if (map >> GURTXOZAL_FIELD_FORBIDDEN_KIND & 1) {
        words[at++] = may->forbidden_kind;
    }
    return needed;
}
/* Its answer: 1 the number of its preparation, 2 the position of the item at fault, 3 the place of the rule. */
struct gurtxozal_judge_transfer_answer {
    uint64_t number;
    uint64_t judged;
    uint64_t position;
    uint64_t place;
};
static inline struct gurtxozal_judge_transfer_answer gurtxozal_read_judge_transfer(const uint64_t *answer) {
    const struct gurtxozal_judge_transfer_answer read = {answer[0], answer[1], answer[2], answer[3]};
    return read;
}

/* transfer item: operation (0 Move, 1 Copy), value, rights. */
/* What a transfer item may carry besides. */
struct gurtxozal_transfer_item_may {
    uint64_t map;
    uint64_t offered_rights;
    uint64_t offered_kind;
    uint64_t expected_kind;
};
static inline size_t gurtxozal_put_transfer_item(uint64_t *words, size_t room, uint64_t operation, uint64_t value, uint64_t rights, const struct gurtxozal_transfer_item_may *may) {
    const uint64_t map = may == NULL ? 0 : may->map;
    const size_t needed = 4 + (size_t)(map >> GURTXOZAL_FIELD_OFFERED_RIGHTS & 1) + (size_t)(map >> GURTXOZAL_FIELD_OFFERED_KIND & 1) + (size_t)(map >> GURTXOZAL_FIELD_EXPECTED_KIND & 1);
    if (room < needed || (map & ~GURTXOZAL_MAY_TRANSFER_ITEM) != 0) {
        return 0;
    }
    words[0] = GURTXOZAL_MUST_TRANSFER_ITEM | map;
    words[1] = operation;
    words[2] = value;
    words[3] = rights;
    size_t at = 4;
    if (map >> GURTXOZAL_FIELD_OFFERED_RIGHTS & 1) {
        words[at++] = may->offered_rights;
    }
    if (map >> GURTXOZAL_FIELD_OFFERED_KIND & 1) {
        words[at++] = may->offered_kind;
    }
    if (map >> GURTXOZAL_FIELD_EXPECTED_KIND & 1) {
        words[at++] = may->expected_kind;
    }
    return needed;
}

/* parcel item: 0, id. */
static inline size_t gurtxozal_put_parcel_item(uint64_t *words, size_t room, uint64_t id) {
    if (room < 3) {
        return 0;
    }
    words[0] = GURTXOZAL_MUST_PARCEL_ITEM;
    words[1] = 0;
    words[2] = id;
    return 3;
}

#ifdef __cplusplus
}
#endif
#endif
