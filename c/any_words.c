/* Any words: random, damaged and truncated states, lists and answer lengths through the C calls. What is known of any call is checked:
 *   - it ends with 0, 18, 19 or 20, and where it is not 0 no word has changed;
 *   - after 0 the state is well formed, its sizes and the words past its end are as they were, and so are the words after the last answer;
 *   - each answer's number is one that document 01's orders, or document 02, give to its request, and after a refusal the other 71 words are 0;
 *   - requests that are refused, or only look, change no word of the state, save the next id, one higher for a refused transfer;
 *   - get_info of a moved value gives what its claim keeps of the handle, and to the other requests that name one value it is Busy;
 *   - a judged transfer has a number, a position and a place that belong together, and prepared by the request after it gives that number.
 * The words lent stand at the end of a mapping, before a page that can't be touched: a read or write past them ends the program. A request
 * that was never accepted or never refused, a number or a place that was not seen, or no look at a moved value is a failure too.
 *   any_words [SEED [CALLS]] */
#define _DEFAULT_SOURCE
#include <inttypes.h>
#include <stdbool.h>
#include <stdio.h>
#include <stdlib.h>
#include <string.h>
#include <sys/mman.h>
#include <unistd.h>

#include "gurtxozal.h"

static uint64_t seed;
static uint64_t next(void) {
    seed += UINT64_C(0x9E3779B97F4A7C15);
    uint64_t z = seed;
    z = (z ^ (z >> 30)) * UINT64_C(0xBF58476D1CE4E5B9);
    z = (z ^ (z >> 27)) * UINT64_C(0x94D049BB133111EB);
    return z ^ (z >> 31);
}
static uint64_t below(uint64_t bound) {
    return bound == 0 ? 0 : next() % bound;
}

/* A mapping whose last words can be lent: the page after it can't be touched. */
struct lent {
    uint64_t *end;
    uint64_t *kept;
    size_t most;
};
static struct lent lend(size_t most) {
    size_t page = (size_t)sysconf(_SC_PAGESIZE), bytes = (most * sizeof(uint64_t) + page - 1) / page * page;
    char *from = mmap(NULL, bytes + page, PROT_READ | PROT_WRITE, MAP_PRIVATE | MAP_ANONYMOUS, -1, 0);
    if (from == MAP_FAILED || mprotect(from + bytes, page, PROT_NONE) != 0) {
        perror("any_words");
        exit(2);
    }
    struct lent words = {(uint64_t *)(void *)(from + bytes), malloc(most * sizeof(uint64_t)), most};
    if (words.kept == NULL) {
        exit(2);
    }
    return words;
}

enum { TABLES = 2, PAGES = 3, FRAMES = 5, OBJECTS = 6, ROWS = 10, LIST = 1200, ANSWERS = 72 * 40, OPS = GURTXOZAL_OP_JUDGE_TRANSFER + 1, NUMBERS = GURTXOZAL_STALE_PLAN + 1, PLACES = GURTXOZAL_PLACE_COPY_AT_LIMIT + 1 };
/* where the state's regions stand (docs/formats.md); so few frames take one word in each of the three counts */
enum {
    NEXT_ID = 5,
    IN_USE = 6,
    HEADS = 16,
    ENTRIES = HEADS + 16 * TABLES,
    SLOTS = ENTRIES + 5 * TABLES * PAGES + FRAMES + 3,
    RECORDS = SLOTS + 384 * FRAMES,
    INDEX = RECORDS + 8 * OBJECTS,
    BOOK = INDEX + 2 * ROWS,
    GOOD = BOOK + 390 * ROWS,
    RESERVATION = 1,
    CLAIM = 2,
    PARCEL = 3,
    PLAN = 4
};
static struct lent state, list, answers;
static uint64_t results[21], numbers[NUMBERS], accepted[OPS], refused[OPS], places[PLACES], judged_and_prepared, long_transfers, looks, calls_that_kept;
static uint64_t good_state[GOOD];

static const uint64_t must[OPS] = {
    0, GURTXOZAL_MUST_NEW_OBJECT, GURTXOZAL_MUST_DUPLICATE, GURTXOZAL_MUST_RELEASE_PARCEL, GURTXOZAL_MUST_RETIRE_OBJECT, GURTXOZAL_MUST_RESERVE, GURTXOZAL_MUST_TRIM, GURTXOZAL_MUST_ABORT, GURTXOZAL_MUST_PUBLISH,
    GURTXOZAL_MUST_GET_INFO, GURTXOZAL_MUST_RESOLVE, GURTXOZAL_MUST_REPLACE, GURTXOZAL_MUST_CLOSE, GURTXOZAL_MUST_SCAN_HANDLES, GURTXOZAL_MUST_PREPARE_TRANSFER, GURTXOZAL_MUST_PREPARE_CONSUMPTION, GURTXOZAL_MUST_ROLLBACK,
    GURTXOZAL_MUST_COMMIT, GURTXOZAL_MUST_DIRECT_COMMIT, GURTXOZAL_MUST_DIRECT_ROLLBACK, GURTXOZAL_MUST_REMOVE_STOPPING_OWNER, GURTXOZAL_MUST_TEARDOWN_START, GURTXOZAL_MUST_TEARDOWN_STEP, GURTXOZAL_MUST_TEARDOWN_FINISH,
    GURTXOZAL_MUST_TAKE_EMPTY_PAGE, GURTXOZAL_MUST_MAKE_PLAN, GURTXOZAL_MUST_USE_PLAN, GURTXOZAL_MUST_DROP_PLAN, GURTXOZAL_MUST_JUDGE_TRANSFER};

/* The numbers that each request can answer, by document 01's "Orders" and document 02's tickets 1, 2 and 4, as bits. */
#define N(number) (UINT32_C(1) << (number))
#define ONLY_MISUSE (N(0) | N(18))
static const uint32_t possible[OPS] = {
    0,
    ONLY_MISUSE | N(1) | N(6) | N(7) | N(9) | N(10) | N(11) | N(12),
    ONLY_MISUSE | N(1) | N(2) | N(3) | N(5) | N(9) | N(11) | N(12) | N(16),
    ONLY_MISUSE,
    ONLY_MISUSE,
    ONLY_MISUSE | N(1) | N(12) | N(13) | N(15) | N(16) | N(17),
    ONLY_MISUSE,
    ONLY_MISUSE,
    ONLY_MISUSE,
    ONLY_MISUSE | N(2) | N(16),
    ONLY_MISUSE | N(2) | N(3) | N(4) | N(5) | N(16),
    ONLY_MISUSE | N(2) | N(3) | N(5) | N(16),
    ONLY_MISUSE | N(2) | N(3) | N(16),
    ONLY_MISUSE | N(16),
    ONLY_MISUSE | N(1) | N(2) | N(3) | N(4) | N(5) | N(8) | N(9) | N(11) | N(12) | N(13) | N(16) | N(17),
    ONLY_MISUSE | N(1) | N(2) | N(3) | N(4) | N(5) | N(12) | N(16),
    ONLY_MISUSE,
    ONLY_MISUSE,
    ONLY_MISUSE,
    ONLY_MISUSE,
    ONLY_MISUSE,
    ONLY_MISUSE | N(14) | N(16),
    ONLY_MISUSE,
    ONLY_MISUSE,
    ONLY_MISUSE,
    ONLY_MISUSE | N(1) | N(12) | N(13) | N(15) | N(16) | N(17),
    ONLY_MISUSE | N(12) | N(16) | N(21),
    ONLY_MISUSE,
    ONLY_MISUSE,
};
/* The number at each place of a judged transfer; at the place of the lookup it may be Busy as well. */
static const uint64_t number_at[PLACES] = {
    GURTXOZAL_DONE,          GURTXOZAL_TABLE_RETIRED, GURTXOZAL_EMPTY_RESERVATION, GURTXOZAL_RESERVATION_TOO_LARGE,  GURTXOZAL_ALLOCATION,    GURTXOZAL_RESERVATION_ID_EXHAUSTED,
    GURTXOZAL_INVALID_HANDLE, GURTXOZAL_INVALID_HANDLE, GURTXOZAL_ACCESS_DENIED,     GURTXOZAL_ACCESS_DENIED,          GURTXOZAL_ACCESS_DENIED, GURTXOZAL_ACCESS_DENIED,
    GURTXOZAL_UNSUPPORTED_TRANSFER, GURTXOZAL_ACCESS_DENIED, GURTXOZAL_UNSUPPORTED_TRANSFER, GURTXOZAL_WRONG_OBJECT_TYPE, GURTXOZAL_OBJECT_RETIRED, GURTXOZAL_ACTIVE_HANDLE_LIMIT};

/* The values of a table's slots with this tag, or of all that are not vacant (0). */
static size_t slots_of(uint64_t table, uint64_t tag, uint64_t *found) {
    const uint64_t *head = good_state + HEADS + 16 * table;
    size_t n = 0;
    for (uint64_t page = 0; page < head[5]; page++) {
        uint64_t frame = good_state[ENTRIES + 5 * (PAGES * table + page)];
        for (uint64_t slot = 0; frame != 0 && slot < 64; slot++) {
            const uint64_t *words = good_state + SLOTS + 384 * (frame - 1) + 6 * slot;
            if (tag == 0 ? words[0] != 0 : words[0] == tag) {
                found[n++] = GURTXOZAL_PREFIX | ((words[1] << 24 | (page * 64 + slot + 1)) ^ head[1]);
            }
        }
    }
    return n;
}
/* A value of a table: mostly of an occupied slot, for a look as often of a moved one if there is one, else of any marked one, a neighbour's, or any word. */
static uint64_t value_in(uint64_t table, uint64_t op) {
    uint64_t found[64 * PAGES];
    size_t n = op == GURTXOZAL_OP_GET_INFO && below(2) ? slots_of(table < TABLES ? table : 0, 2, found) : 0;
    if (n == 0) {
        n = slots_of(table < TABLES ? table : 0, below(4) ? 3 : below(2) * 2, found);
    }
    if (n == 0 || below(20) == 0) {
        return below(2) ? next() : GURTXOZAL_PREFIX | next() >> 8;
    }
    uint64_t value = found[below(n)];
    return below(12) ? value : below(2) ? value + (below(2) ? 1 : UINT64_C(1) << 24) : value ^ UINT64_C(1) << below(64);
}

static const uint64_t *row(uint64_t rank) {
    return good_state + BOOK + 390 * good_state[INDEX + 2 * rank];
}
/* A row of a kind and, if possible, of a count; its id, mostly. */
static uint64_t id_of(uint64_t kind, uint64_t count) {
    uint64_t in_use = good_state[IN_USE], best = 0;
    if (below(12) == 0) {
        return below(3) ? good_state[NEXT_ID] + below(3) : next();
    }
    for (uint64_t i = 0, from = below(in_use); i < in_use; i++) {
        const uint64_t *words = row((from + i) % in_use);
        if (words[1] == kind && (count == 0 || words[3] == count)) {
            return words[0];
        }
        best = words[1] == kind || best == 0 ? words[0] : best;
    }
    return best;
}
static uint64_t count_of(uint64_t id) {
    for (uint64_t rank = 0; rank < good_state[IN_USE]; rank++) {
        if (row(rank)[0] == id) {
            return row(rank)[3];
        }
    }
    return 0;
}

static uint64_t any_rights(void) {
    return below(5) ? (below(2) ? 3 : below(4)) : below(2) ? UINT64_MAX : next();
}

/* A request's words: mostly such as its op takes, naming what there is. */
static uint64_t word_for(int field, uint64_t op, uint64_t table, uint64_t id) {
    switch (field) {
    case GURTXOZAL_FIELD_TABLE: return table;
    case GURTXOZAL_FIELD_OBJECT: return below(30) ? below(OBJECTS) : next();
    case GURTXOZAL_FIELD_COUNT: return below(8) ? 1 + below(4) : below(3) ? below(70) : below(2) ? next() : UINT64_MAX;
    case GURTXOZAL_FIELD_VALUE: return value_in(table, op);
    case GURTXOZAL_FIELD_RIGHTS: return op == GURTXOZAL_OP_RESOLVE || op == GURTXOZAL_OP_PREPARE_CONSUMPTION ? below(4) : any_rights();
    case GURTXOZAL_FIELD_FLAGS: return below(6) ? below(4) : below(2) ? below(20) : next();
    case GURTXOZAL_FIELD_ID: return id;
    case GURTXOZAL_FIELD_DESTINATION: return id_of(RESERVATION, count_of(id));
    case GURTXOZAL_FIELD_KIND:
    case GURTXOZAL_FIELD_OFFERED_KIND:
    case GURTXOZAL_FIELD_EXPECTED_KIND:
    case GURTXOZAL_FIELD_FORBIDDEN_KIND: return below(60) ? 1 + below(2) : below(2) ? UINT32_MAX : next();
    case GURTXOZAL_FIELD_KOID:
    case GURTXOZAL_FIELD_FORBIDDEN_OBJECT: return below(60) ? 100 + below(OBJECTS) : below(2) ? next() : 0;
    case GURTXOZAL_FIELD_CURSOR: return below(8) ? below(200) : next();
    case GURTXOZAL_FIELD_ROUTE: return below(60) ? below(3) : below(5);
    case GURTXOZAL_FIELD_OFFERED_RIGHTS: return below(2) ? 3 : any_rights();
    default: return below(4);
    }
}

static size_t put_record(uint64_t *at, size_t room, uint64_t map, uint64_t op, uint64_t table, uint64_t id) {
    size_t used = 0;
    if (used < room) {
        at[used++] = map;
    }
    for (int field = 0; field < 64; field++) {
        if (map >> field & 1 && used < room) {
            at[used++] = field == 0 ? op : word_for(field, op, table, id);
        }
    }
    return used;
}

/* A transfer's items: values of different occupied slots, mostly, and any of the fields that an item may carry. */
static size_t put_transfer_items(uint64_t *at, size_t room, uint64_t count, uint64_t table) {
    uint64_t found[64 * PAGES];
    size_t used = 0, n = slots_of(table < TABLES ? table : 0, 3, found), from = below(n);
    bool plain = below(2), copies = below(3) == 0;
    for (uint64_t i = 0; i < count; i++) {
        uint64_t map = GURTXOZAL_MUST_TRANSFER_ITEM, operation = copies ? below(2) : 0;
        if (!plain) {
            map |= next() & next() & GURTXOZAL_MAY_TRANSFER_ITEM;
            map = below(300) ? map : map ^ UINT64_C(1) << below(20);
            operation = below(300) ? operation : below(4);
        }
        size_t start = used;
        used += put_record(at + used, room - used, map, operation, table, 0);
        if (start + 2 < room && n > i && (plain || below(10))) {
            at[start + 2] = found[(from + i) % n];
        }
        if (start + 3 < room && plain) {
            at[start + 3] = 0;
        }
    }
    return used;
}
/* A publish's items: parcels that fill the reservation, as far as there are. */
static size_t put_parcel_items(uint64_t *at, size_t room, uint64_t count, uint64_t *items) {
    size_t used = 0;
    *items = 0;
    for (uint64_t rank = 0, left = count; rank < good_state[IN_USE]; rank++) {
        const uint64_t *words = row(rank);
        if (words[1] == PARCEL && words[3] <= left) {
            left -= words[3];
            *items += 1;
            used += put_record(at + used, room - used, GURTXOZAL_MUST_PARCEL_ITEM, 0, 0, below(40) ? words[0] : id_of(PARCEL, 0));
        }
    }
    return used;
}

/* A request, whole, or with a map of its own. */
static size_t put_request(uint64_t *at, size_t room) {
    /* what ends a table or an object is asked for seldom, what fills them often */
    static const unsigned char often[OPS] = {0, 20, 70, 12, 1, 50, 15, 20, 80, 15, 15, 20, 20, 15, 90, 40, 20, 30, 45, 30, 3, 4, 20, 10, 10, 30, 45, 10, 60};
    uint64_t all = 0, op = 1;
    for (int i = 1; i < OPS; i++) {
        all += often[i];
    }
    for (uint64_t roll = below(all); roll >= often[op]; op++) {
        roll -= often[op];
    }
    op = below(200) ? op : below(OPS + 5);
    uint64_t table = below(40) ? below(TABLES) : next(), map = op < OPS && below(60) ? must[op] : next() & 0x3FFFF;
    uint64_t kind = op == GURTXOZAL_OP_RELEASE_PARCEL ? PARCEL : op >= GURTXOZAL_OP_ROLLBACK && op <= GURTXOZAL_OP_DIRECT_ROLLBACK ? CLAIM : op >= GURTXOZAL_OP_USE_PLAN ? PLAN : RESERVATION;
    uint64_t id = id_of(kind, 0), items = 0;
    const bool transfer = op == GURTXOZAL_OP_PREPARE_TRANSFER || op == GURTXOZAL_OP_JUDGE_TRANSFER;
    if (transfer) {
        map |= below(4) ? 0 : next() & GURTXOZAL_MAY_PREPARE_TRANSFER;
    }
    size_t used = put_record(at, room, map, op, table, id), count_at = op == GURTXOZAL_OP_PUBLISH ? 2 : 3;
    if (op == GURTXOZAL_OP_PUBLISH ? map == must[op] : transfer && (map & must[op]) == must[op]) {
        if (op == GURTXOZAL_OP_PUBLISH) {
            used += put_parcel_items(at + used, room - used, count_of(id), &items);
        } else {
            items = below(12) ? 1 + below(5) : (const uint64_t[]){0, 64, 65, 63, 40}[below(5)];
            used += put_transfer_items(at + used, room - used, items, table);
        }
        /* counts that the items do not meet: the list ends inside a record, or goes on inside the items */
        if (count_at < room) {
            at[count_at] = below(80) ? items : (const uint64_t[]){0, 64, 65, UINT64_MAX, UINT64_MAX / 2, UINT64_C(1) << 32}[below(6)];
        }
    }
    if (op == GURTXOZAL_OP_JUDGE_TRANSFER && below(2) && 2 * used <= room) {
        /* what is judged is prepared */
        memcpy(at + used, at, used * sizeof *at);
        at[used + 1] = GURTXOZAL_OP_PREPARE_TRANSFER;
        used *= 2;
    }
    return used;
}

/* A list: some requests; then words changed or cut off, sometimes. */
static size_t make_list(uint64_t *at, size_t room) {
    size_t used = 0;
    for (uint64_t n = below(3) ? 1 : below(5); n > 0; n--) {
        used += put_request(at + used, room - used);
    }
    if (used > 0 && below(15) == 0) {
        at[below(used)] = below(2) ? next() : below(70);
    }
    return used > 0 && below(20) == 0 ? used - 1 - below(used) % 3 % used : used;
}

/* A state: the last good one, as it is, near its last id, damaged in some words, cut off or lengthened; or words from nowhere. */
static size_t make_state(uint64_t *at, size_t most, bool *well, bool *kept) {
    uint64_t kind = below(32);
    *well = *kept = false;
    if (kind == 0) {
        size_t n = below(most + 1);
        for (size_t i = 0; i < n; i++) {
            at[i] = below(3) ? below(6) : next();
        }
        return n;
    }
    memcpy(at, good_state, sizeof good_state);
    if (kind == 1) {
        return below(GOOD + 1);
    }
    if (kind < 4) {
        for (size_t i = GOOD; i < most; i++) {
            at[i] = next();
        }
        *well = *kept = true;
        return most;
    }
    if (kind == 4) {
        at[NEXT_ID] = UINT64_MAX - below(3);
        *well = true;
        return GOOD;
    }
    if (kind < 13) {
        for (uint64_t n = 1 + below(3); n > 0; n--) {
            /* heads and entries are few among so many words, and so are the words of a plan, which stand in its row's first three blocks: most of the damage goes there */
            size_t place = below(2) ? below(SLOTS) : below(2) ? below(GOOD) : BOOK + 390 * below(ROWS) + below(18);
            uint64_t old = at[place];
            uint64_t choice = below(5);
            at[place] = choice == 0 ? old + 1 : choice == 1 ? old - 1 : choice == 2 ? below(70) : choice == 3 ? next() : old ^ (UINT64_C(1) << below(64));
        }
        return GOOD;
    }
    *well = *kept = true;
    return GOOD;
}

static void ask(const uint64_t *words, size_t n, uint64_t *answer) {
    if (gurtxozal_run(good_state, GOOD, words, n, answer, 72) != 0 || answer[0] != 0) {
        printf("a plain request is refused with %" PRIu64 "\n", answer[0]);
        exit(1);
    }
}
/* A new state; in two of three, a table with many handles of one object. */
static void create(void) {
    uint64_t parameters[4 + 2 * TABLES + 6 * OBJECTS] = {TABLES, FRAMES, OBJECTS, ROWS}, answer[72], handle = 0, handles = below(3) * 70;
    for (int i = 0; i < TABLES; i++) {
        parameters[4 + 2 * i] = PAGES;
        parameters[5 + 2 * i] = next();
    }
    for (int i = 0; i < OBJECTS; i++) {
        /* in one of two the many handles' object is near its limit: a transfer's copies are refused half-way */
        const uint64_t limits[OBJECTS] = {handles + (below(2) ? 100 : below(6)), 1000, 3, 50, 50, 0};
        const uint64_t object[6] = {100 + (uint64_t)i, 1 + below(2), i == 0 ? 0 : below(3), i != 2 ? UINT64_MAX : 3, i != 4, limits[i]};
        memcpy(parameters + 4 + 2 * TABLES + 6 * i, object, sizeof object);
    }
    if (gurtxozal_create(good_state, GOOD, parameters, sizeof parameters / sizeof *parameters) != 0) {
        printf("creation was refused\n");
        exit(1);
    }
    for (uint64_t i = 0; i < handles; i++) {
        const uint64_t parcel[] = {must[GURTXOZAL_OP_NEW_OBJECT], GURTXOZAL_OP_NEW_OBJECT, 0, UINT64_MAX, 0};
        const uint64_t another[] = {must[GURTXOZAL_OP_DUPLICATE], GURTXOZAL_OP_DUPLICATE, 0, handle, below(8) ? UINT64_MAX : next() | 2};
        ask(i == 0 ? parcel : another, 5, answer);
        const uint64_t slot[] = {must[GURTXOZAL_OP_RESERVE], GURTXOZAL_OP_RESERVE, 0, 1};
        uint64_t loose = answer[GURTXOZAL_ANSWER_ID];
        ask(slot, 4, answer);
        const uint64_t publish[] = {must[GURTXOZAL_OP_PUBLISH], GURTXOZAL_OP_PUBLISH, 1, answer[GURTXOZAL_ANSWER_ID], GURTXOZAL_MUST_PARCEL_ITEM, 0, loose};
        handle = i == 0 ? answer[GURTXOZAL_ANSWER_BATCH_VALUES] : handle;
        ask(publish, 7, answer);
    }
}

/* Creation with random parameters: 0 or 18, and 18 changes no word. */
static bool random_creation(void) {
    uint64_t parameters[60];
    size_t n = below(61), words = below(state.most + 1);
    for (size_t i = 0; i < 60; i++) {
        parameters[i] = below(3) ? 1 + below(4) : below(2) ? below(70) : next();
    }
    uint64_t *at = state.end - words;
    for (size_t i = 0; i < words; i++) {
        at[i] = state.kept[i] = 0x77 + i;
    }
    uint64_t *lent_parameters = list.end - n;
    memcpy(lent_parameters, parameters, n * sizeof *parameters);
    uint64_t result = gurtxozal_create(at, words, lent_parameters, n);
    if (result > 20 || (result != 0 && result != 18) || (result == 18 && memcmp(at, state.kept, words * sizeof *at) != 0)) {
        printf("creation gives %" PRIu64 "\n", result);
        return false;
    }
    return true;
}

static uint64_t here, wrong;
static void fault(const char *what) {
    printf("call %" PRIu64 ": %s\n", here, what);
    wrong++;
}
static bool same(const uint64_t *left, const uint64_t *right, size_t from, size_t to) {
    return from >= to || memcmp(left + from, right + from, (to - from) * sizeof *left) == 0;
}

/* How many words a record has, and the number of items that follow it. */
static size_t record_words(const uint64_t *record, uint64_t *items) {
    const uint64_t op = record[1];
    *items = op == GURTXOZAL_OP_PUBLISH ? record[2] : op == GURTXOZAL_OP_PREPARE_TRANSFER || op == GURTXOZAL_OP_JUDGE_TRANSFER ? record[3] : 0;
    return 1 + (size_t)__builtin_popcountll(record[0]);
}

/* Whether a request names one value, and that value a slot of its generation which a claim has marked, in a state of these words; and what the claim keeps of the handle. */
static bool names_moved(const uint64_t *words, const uint64_t *record, uint64_t info[4]) {
    const uint64_t sizes[] = {TABLES, FRAMES, OBJECTS, ROWS}, op = record[1];
    if (op != GURTXOZAL_OP_DUPLICATE && (op < GURTXOZAL_OP_GET_INFO || op > GURTXOZAL_OP_CLOSE) && op != GURTXOZAL_OP_PREPARE_CONSUMPTION) {
        return false;
    }
    const uint64_t table = record[2], value = record[3];
    if (memcmp(words + 1, sizes, sizeof sizes) != 0 || table >= TABLES || (value & GURTXOZAL_PREFIX_MASK) != GURTXOZAL_PREFIX) {
        return false;
    }
    const uint64_t *head = words + HEADS + 16 * table;
    const uint64_t payload = (value & ~GURTXOZAL_PREFIX_MASK) ^ head[1], slot = (payload & 0xFFFFFF) - 1, page = slot / 64;
    const uint64_t frame = page < head[5] ? words[ENTRIES + 5 * (head[10] + page)] : 0;
    if (frame == 0) {
        return false;
    }
    const uint64_t *found = words + SLOTS + 384 * (frame - 1) + 6 * (slot % 64);
    if (found[0] != 2 || found[1] != payload >> 24) {
        return false;
    }
    const uint64_t *item = words + BOOK + 390 * found[2] + 6 * (1 + found[3]), *object = words + RECORDS + 8 * item[2];
    info[0] = object[0], info[1] = object[1], info[2] = item[3], info[3] = item[4];
    return true;
}

/* Where a request ends in a list. */
static size_t end_of(const uint64_t *requests, size_t at) {
    uint64_t items, ignored;
    at += record_words(requests + at, &items);
    for (; items > 0; items--) {
        at += record_words(requests + at, &ignored);
    }
    return at;
}
/* A judged transfer's answer: number, position and place belong together. */
static void check_judged(const uint64_t *record, const uint64_t *out) {
    const uint64_t number = out[GURTXOZAL_ANSWER_JUDGED_NUMBER], position = out[GURTXOZAL_ANSWER_JUDGED_POSITION], place = out[GURTXOZAL_ANSWER_JUDGED_PLACE];
    if (place >= PLACES || (number != number_at[place] && !(place == GURTXOZAL_PLACE_LOOKUP && number == GURTXOZAL_BUSY))) {
        fault("a judged transfer has a place and another place's number");
        return;
    }
    places[place]++;
    if (place == 0 ? position != 0 : place < GURTXOZAL_PLACE_LISTED_TWICE ? position != GURTXOZAL_NO_ITEM : position >= record[3]) {
        fault("a judged transfer has a position that its place can't have");
    }
    for (size_t i = GURTXOZAL_ANSWER_JUDGED_PLACE + 1; i < GURTXOZAL_ANSWER_WORDS; i++) {
        if (out[i] != 0) {
            fault("a judged transfer has a word after its place");
            return;
        }
    }
}

/* What is known of a call that gave 0: words n before (state.kept) and now, the list, k answer words. */
static void check_run(const uint64_t *words, size_t n, const uint64_t *requests, size_t m, const uint64_t *out, size_t k) {
    const uint64_t *old = state.kept;
    size_t count = 0, end = GURTXOZAL_STATE_WORDS(old[1], old[8], old[2], old[3], old[4]);
    uint64_t items, may_spend = 0;
    bool quiet = true;
    size_t judged_at = SIZE_MAX; /* where the request before stands, if it has judged a transfer */
    for (size_t at = 0; at < m; count++) {
        uint64_t op = requests[at + 1], number = (count + 1) * 72 <= k ? out[72 * count] : UINT64_MAX, info[4];
        bool moved = quiet && names_moved(old, requests + at, info); /* while nothing has changed the state */
        const size_t from = at;
        record_words(requests + at, &items);
        at = end_of(requests, at);
        bool many = op == GURTXOZAL_OP_PREPARE_TRANSFER && items >= 60;
        if (op == 0 || op >= OPS || number >= NUMBERS || !(possible[op] >> number & 1)) {
            fault("an answer has a number that its request can't give");
            return;
        }
        numbers[number]++;
        *(number == 0 ? accepted + op : refused + op) += 1;
        long_transfers += many && number == 0;
        uint64_t others = 0;
        for (size_t i = 1; i < 72; i++) {
            others |= out[72 * count + i];
        }
        if (number != 0 && others != 0) {
            fault("a refused request has other words than its number");
        }
        if (moved && op == GURTXOZAL_OP_GET_INFO) {
            looks++;
            if (number != 0 || memcmp(out + 72 * count + 1, info, sizeof info) != 0) {
                fault("a look at a moved value does not give what its claim keeps");
            }
        } else if (moved && number != GURTXOZAL_BUSY && number != GURTXOZAL_ALLOCATION) { /* a row that is lacking comes before the value */
            fault("a moved value is not Busy");
        }
        if (op == GURTXOZAL_OP_PREPARE_TRANSFER && judged_at != SIZE_MAX && at - from == from - judged_at && requests[from] == requests[judged_at] && same(requests + judged_at, requests + from, 2, at - from)) {
            judged_and_prepared++;
            if (number != out[72 * (count - 1) + GURTXOZAL_ANSWER_JUDGED_NUMBER]) {
                fault("a transfer is prepared with another number than it was judged with");
            }
        }
        judged_at = op == GURTXOZAL_OP_JUDGE_TRANSFER && number == 0 ? from : SIZE_MAX;
        if (judged_at != SIZE_MAX) {
            check_judged(requests + from, out + 72 * count);
        }
        may_spend += number != 0 && op == GURTXOZAL_OP_PREPARE_TRANSFER;
        quiet = quiet && (number != 0 || op == GURTXOZAL_OP_GET_INFO || op == GURTXOZAL_OP_RESOLVE || op == GURTXOZAL_OP_SCAN_HANDLES || op == GURTXOZAL_OP_JUDGE_TRANSFER);
    }
    if (!same(out, answers.kept, 72 * count, k)) {
        fault("a word after the last answer has changed");
    }
    if (!same(words, old, end, n)) {
        fault("a word past the state's end has changed");
    }
    if (!same(words, old, 0, NEXT_ID) || words[8] != old[8]) {
        fault("the state's sizes have changed");
    }
    if (words[NEXT_ID] < old[NEXT_ID]) {
        fault("the next id has fallen");
    }
    if (quiet) {
        calls_that_kept++;
        if (!same(words, old, 0, NEXT_ID) || !same(words, old, NEXT_ID + 1, n) || words[NEXT_ID] - old[NEXT_ID] > may_spend) {
            fault("refused requests and looks have changed the state");
        }
    }
    if (gurtxozal_run((uint64_t *)words, n, NULL, 0, NULL, 0) != 0) {
        fault("the state that the call left is not well formed");
    }
}

int main(int argc, char **argv) {
    seed = argc > 1 ? strtoull(argv[1], NULL, 10) : 1;
    uint64_t calls = argc > 2 ? strtoull(argv[2], NULL, 10) : 100000, ran = 0;
    if (GOOD != GURTXOZAL_STATE_WORDS(TABLES, TABLES * PAGES, FRAMES, OBJECTS, ROWS)) {
        return 2;
    }
    state = lend(GOOD + 40);
    list = lend(LIST);
    answers = lend(ANSWERS);
    for (here = 0; here < calls && wrong < 5; here++) {
        if (here % 500 == 0) {
            create();
        }
        if (here % 50 == 49 && !random_creation()) {
            wrong++;
        }
        static uint64_t made[GOOD + 40], requests[LIST];
        bool well, kept;
        size_t n = make_state(made, state.most, &well, &kept), m, k;
        uint64_t *words = state.end - n;
        memcpy(words, made, n * sizeof *made);
        memcpy(state.kept, made, n * sizeof *made);
        m = below(30) ? make_list(requests, LIST) : below(LIST);
        uint64_t *lent_list = list.end - m;
        memcpy(lent_list, requests, m * sizeof *requests);
        k = below(20) ? ANSWERS : below(ANSWERS + 1);
        uint64_t *out = answers.end - k;
        for (size_t i = 0; i < k; i++) {
            out[i] = answers.kept[i] = UINT64_C(0xA5A5000000000000) + i;
        }
        uint64_t result = gurtxozal_run(words, n, lent_list, m, out, k);
        if (result != 0 && (result < 18 || result > 20)) {
            fault("the result is none of 0, 18, 19, 20");
            continue;
        }
        results[result]++;
        if (result != 0 && (!same(words, state.kept, 0, n) || !same(out, answers.kept, 0, k))) {
            fault("a call that is refused has changed a word");
        }
        if (!same(lent_list, requests, 0, m)) {
            fault("a word of the list has changed");
        }
        if (well && result == 18) {
            fault("a well-formed state is refused");
        }
        if (result == 0) {
            check_run(words, n, lent_list, m, out, k);
            ran += well;
            if (kept) {
                memcpy(good_state, words, sizeof good_state);
            }
        }
    }
    printf("any words: %" PRIu64 " calls: 0 %" PRIu64 " (%" PRIu64 " from a state left by a call; %" PRIu64 " had only refusals and looks, and changed nothing), 18 %" PRIu64 ", 19 %" PRIu64 ", 20 %" PRIu64 "; %" PRIu64 " wrong\n", here,
           results[0], ran, calls_that_kept, results[18], results[19], results[20], wrong);
    printf("accepted and refused, by op:");
    bool lacking = results[18] == 0 || results[19] == 0 || results[20] == 0 || ran == 0 || calls_that_kept == 0 || long_transfers == 0 || looks == 0;
    for (int op = 1; op < OPS; op++) {
        printf(" %d: %" PRIu64 "/%" PRIu64, op, accepted[op], refused[op]);
        lacking = lacking || accepted[op] == 0 || refused[op] == 0;
    }
    printf("; accepted transfers of 60 and more: %" PRIu64 "; looks at moved values: %" PRIu64 "\nnumbers:", long_transfers, looks);
    for (int number = 0; number < NUMBERS; number++) {
        /* 19 and 20 are results of a call alone */
        if (number != GURTXOZAL_MALFORMED && number != GURTXOZAL_ANSWER_SHORT) {
            printf(" %d: %" PRIu64, number, numbers[number]);
            lacking = lacking || numbers[number] == 0;
        }
    }
    printf("\nplaces of judged transfers:");
    for (int place = 0; place < PLACES; place++) {
        printf(" %d: %" PRIu64, place, places[place]);
        lacking = lacking || places[place] == 0;
    }
    printf("; prepared next: %" PRIu64 "\n", judged_and_prepared);
    lacking = lacking || judged_and_prepared == 0;
    if (lacking) {
        printf("a result, a number, a place, a request accepted or refused, or a look at a moved value was not seen\n");
        return 1;
    }
    return wrong != 0;
}
