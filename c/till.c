/* Four processes at a counter pass a handle on: the till sets a frame aside before the sale, the scale has a weight and hands it to the till, the till gives the printer a
 * copy, the scale is switched off. The kernel's side of it, in the requests of gurtxozal_calls.h: no request is written by hand, and nothing is allocated. Prints the story; c/till.out is what it must be. */
#include <inttypes.h>
#include <stdio.h>
#include <stdlib.h>

#include "gurtxozal_calls.h"

/* The processes, by the numbers of their tables, and the objects that they hand round. */
enum { TILL, SCALE, PRINTER, STOCK, TABLES };
enum { WEIGHT, TARE, OBJECTS };
static const char *const processes[TABLES] = {"till", "scale", "printer", "stock"};

/* Rights of our own beside the two that the tables know. */
enum { DUPLICATE = GURTXOZAL_RIGHT_DUPLICATE, TRANSFER = GURTXOZAL_RIGHT_TRANSFER, READ = 4 };
enum { WEIGHT_KOID = 70, TARE_KOID = 71, SENSOR = 3, MOST_HANDLES = 10 };

/* Everything is lent: the state, a list, and 72 words for each of its answers. */
enum { PAGES = 2, FRAMES = 8, ROWS = 8, ROOM = 64, MOST = TABLES };
static uint64_t state[GURTXOZAL_STATE_WORDS(TABLES, TABLES * PAGES, FRAMES, OBJECTS, ROWS)];
static uint64_t list[ROOM];
static uint64_t answers[MOST * GURTXOZAL_ANSWER_WORDS];
static size_t used;

static const char *word_of(uint64_t number) {
    static const char *const words[] = {
        "done",
        "Allocation",
        "InvalidHandle",
        "Busy",
        "WrongObjectType",
        "AccessDenied",
        "UnsupportedRights",
        "UnsupportedFlags",
        "UnsupportedTransfer",
        "ObjectRetired",
        "ObjectAlreadyActive",
        "ActiveHandleLimit",
        "ReservationIdExhausted",
        "ReservationTooLarge",
        "OutstandingReservation",
        "TableFull",
        "TableRetired",
        "EmptyReservation",
        "Misuse",
        "Malformed",
        "AnswerShort",
        "StalePlan",
    };
    return number < sizeof words / sizeof *words ? words[number] : "unknown";
}

/* Words were put behind those so far: 0 says that they did not fit. */
static void add(size_t words) {
    if (words == 0) {
        printf("the list is full\n");
        exit(1);
    }
    used += words;
}
#define PUT(name, ...) add(gurtxozal_put_##name(list + used, ROOM - used, __VA_ARGS__))

/* Runs the list. Its answers stand in `answers`, the first is given back. */
static const uint64_t *run(void) {
    const uint64_t result = gurtxozal_run(state, sizeof state / sizeof *state, list, used, answers, sizeof answers / sizeof *answers);
    if (result != GURTXOZAL_DONE) {
        printf("the whole call is refused: %" PRIu64 " %s\n", result, word_of(result));
        exit(1);
    }
    used = 0;
    return gurtxozal_answer(answers, 0);
}

/* What this story needs done, or it ends. */
static void done(const char *what, uint64_t number) {
    if (number != GURTXOZAL_DONE) {
        printf("%s is refused: %" PRIu64 " %s\n", what, number, word_of(number));
        exit(1);
    }
}

/* A process looks at a value. */
static void look(uint64_t table, uint64_t value) {
    PUT(get_info, table, value);
    const struct gurtxozal_get_info_answer info = gurtxozal_read_get_info(run());
    printf("    %s looks at %016" PRIx64 ": ", processes[table], value);
    if (info.number == GURTXOZAL_DONE) {
        printf("koid %" PRIu64 ", kind %" PRIu64 ", rights %" PRIu64 "\n", info.koid, info.kind, info.rights);
    } else {
        printf("%" PRIu64 " %s\n", info.number, word_of(info.number));
    }
}

/* Room for handles in a table. The answer's values are those that the handles will have. */
static struct gurtxozal_reserve_answer reserve(uint64_t table, uint64_t count) {
    PUT(reserve, table, count);
    const struct gurtxozal_reserve_answer batch = gurtxozal_read_reserve(run());
    done("reserve", batch.number);
    return batch;
}

int main(void) {
    /* Creation: the counts, each table's page limit and the seed of its values' mask, each object. */
    PUT(creation_counts, TABLES, FRAMES, OBJECTS, ROWS);
    PUT(creation_table, PAGES, 0x7111);
    PUT(creation_table, PAGES, 0x5ca1e);
    PUT(creation_table, PAGES, 0x9417);
    PUT(creation_table, PAGES, 0x570c);
    PUT(creation_object, WEIGHT_KOID, SENSOR, GURTXOZAL_CLASS_LEAF, DUPLICATE | TRANSFER | READ, 1, MOST_HANDLES);
    PUT(creation_object, TARE_KOID, SENSOR, GURTXOZAL_CLASS_LEAF, READ, 1, MOST_HANDLES);
    done("creation", gurtxozal_create(state, sizeof state / sizeof *state, list, used));
    used = 0;
    printf("A counter: till, scale, printer and stock, a table each.\n");

    printf("The till plans for what it will get, before the sale.\n");
    PUT(make_plan, TILL, 1);
    const struct gurtxozal_make_plan_answer plan = gurtxozal_read_make_plan(run());
    done("make plan", plan.number);
    printf("    a plan for %" PRIu64 " handle holds %" PRIu64 " frame\n", plan.count, plan.frames);

    printf("The scale gets its weight and its tare.\n");
    PUT(new_object, WEIGHT, DUPLICATE | TRANSFER | READ, 0);
    PUT(new_object, TARE, READ, 0);
    run();
    const struct gurtxozal_new_object_answer weight = gurtxozal_read_new_object(gurtxozal_answer(answers, 0));
    const struct gurtxozal_new_object_answer tare = gurtxozal_read_new_object(gurtxozal_answer(answers, 1));
    done("new object", weight.number);
    done("new object", tare.number);
    const struct gurtxozal_reserve_answer slots = reserve(SCALE, 2);
    const uint64_t scales_weight = slots.values[0], scales_tare = slots.values[1]; /* read now: the next answer takes their place */
    PUT(publish, 2, slots.id);
    PUT(parcel_item, weight.id);
    PUT(parcel_item, tare.id);
    done("publish", gurtxozal_read_publish(run()).number);
    look(SCALE, scales_weight);
    look(SCALE, scales_tare);

    printf("The scale hands its weight to the till: a transfer is prepared.\n");
    PUT(prepare_transfer, SCALE, 1, GURTXOZAL_ROUTE_RENDEZVOUS, NULL);
    PUT(transfer_item, GURTXOZAL_MOVE, scales_weight, DUPLICATE | TRANSFER | READ, NULL);
    const struct gurtxozal_prepare_transfer_answer claim = gurtxozal_read_prepare_transfer(run());
    done("prepare transfer", claim.number);
    look(SCALE, scales_weight); /* held: shown as it was */
    PUT(resolve, SCALE, scales_weight, READ, SENSOR);
    printf("    scale opens it: %s\n", word_of(gurtxozal_read_resolve(run()).number)); /* to look is not to use */

    printf("It is committed, the till uses its plan, and the parcel is published there.\n");
    PUT(use_plan, plan.id);
    const struct gurtxozal_use_plan_answer place = gurtxozal_read_use_plan(run());
    done("use plan", place.number); /* no frame can be lacking: only another change of the till's table makes the plan stale */
    const uint64_t tills_weight = place.values[0];
    PUT(commit, claim.id);
    PUT(publish, 1, place.id);
    PUT(parcel_item, claim.id); /* a commit's parcel has the claim's id */
    run();
    done("commit", gurtxozal_read_commit(gurtxozal_answer(answers, 0)).number);
    done("publish", gurtxozal_read_publish(gurtxozal_answer(answers, 1)).number);
    look(TILL, tills_weight);
    look(SCALE, scales_weight); /* the old value opens nothing */
    look(STOCK, tills_weight);  /* nor does a value in another process's table */

    printf("The till gives the printer a copy that can only be read.\n");
    const struct gurtxozal_reserve_answer page = reserve(PRINTER, 1);
    const uint64_t printers_weight = page.values[0];
    const struct gurtxozal_transfer_item_may sensor = {.map = GURTXOZAL_BIT(GURTXOZAL_FIELD_EXPECTED_KIND), .expected_kind = SENSOR};
    PUT(prepare_transfer, TILL, 1, GURTXOZAL_ROUTE_RENDEZVOUS, NULL);
    PUT(transfer_item, GURTXOZAL_COPY, tills_weight, READ, &sensor);
    const struct gurtxozal_prepare_transfer_answer copy = gurtxozal_read_prepare_transfer(run());
    done("prepare transfer", copy.number);
    PUT(direct_commit, copy.id, page.id);
    done("direct commit", gurtxozal_read_direct_commit(run()).number);
    look(PRINTER, printers_weight);
    look(TILL, tills_weight);
    PUT(duplicate, PRINTER, printers_weight, READ);
    printf("    printer duplicates it: %s\n", word_of(gurtxozal_read_duplicate(run()).number));

    printf("The scale is switched off: its table is torn down.\n");
    PUT(teardown_start, SCALE);
    done("teardown start", gurtxozal_read_teardown_start(run()).number);
    for (;;) {
        PUT(teardown_step, SCALE);
        const struct gurtxozal_teardown_step_answer step = gurtxozal_read_teardown_step(run());
        done("teardown step", step.number);
        if (!step.removed) {
            break;
        }
        printf("    closed: koid %" PRIu64 ", rights %" PRIu64 "\n", step.koid, step.rights);
    }
    PUT(teardown_finish, SCALE);
    done("teardown finish", gurtxozal_read_teardown_finish(run()).number);
    look(SCALE, scales_tare);
    look(TILL, tills_weight); /* what was handed on lives on */

    printf("Who has what:\n");
    for (uint64_t table = 0; table < TABLES; table++) {
        PUT(scan_handles, table, 0);
    }
    run();
    for (uint64_t table = 0; table < TABLES; table++) {
        const uint64_t *answer = gurtxozal_answer(answers, table);
        const struct gurtxozal_scan_handles_answer scan = gurtxozal_read_scan_handles(answer);
        printf("    %s:", processes[table]);
        if (scan.number != GURTXOZAL_DONE) {
            printf(" %s", word_of(scan.number));
        }
        for (uint64_t n = 0; n < scan.length; n++) {
            const struct gurtxozal_scan_handles_entry entry = gurtxozal_read_scan_handles_entry(answer, n);
            printf(" koid %" PRIu64 " with rights %" PRIu64, entry.koid, entry.rights);
        }
        printf("%s\n", scan.number == GURTXOZAL_DONE && scan.length == 0 ? " nothing" : "");
    }
    return 0;
}
