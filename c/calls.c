/* The functions of gurtxozal_calls.h against words written by hand from docs/formats.md: each record, that it is written only where it fits, and each answer.
 * Prints what is wrong; the status is 0 only if nothing is. */
#include <inttypes.h>
#include <stdio.h>

#include "gurtxozal_calls.h"

enum { ROOM = 16 };
static const uint64_t KEPT = 0xC3C3C3C3C3C3C3C3u;
static uint64_t words[ROOM];
static unsigned wrong, tried;

static void clear(void) {
    for (size_t at = 0; at < ROOM; at++) {
        words[at] = KEPT;
    }
}
static void expect(int holds, const char *what, const char *name) {
    tried++;
    if (!holds) {
        wrong++;
        printf("%s: %s\n", name, what);
    }
}
static int kept_from(size_t first) {
    for (size_t at = first; at < ROOM; at++) {
        if (words[at] != KEPT) {
            return 0;
        }
    }
    return 1;
}
static void same(const char *name, size_t got, const uint64_t *wanted, size_t count) {
    int equal = got == count;
    for (size_t at = 0; equal && at < count; at++) {
        equal = words[at] == wanted[at];
    }
    expect(equal && kept_from(count), "another record", name);
}
/* PUT(name, (arguments), words..): in as many words as the record has, and in one less. */
#define UNPACK(...) __VA_ARGS__
#define PUT(name, arguments, ...)                                                                                          \
    do {                                                                                                                   \
        const uint64_t wanted[] = {__VA_ARGS__};                                                                           \
        const size_t count = sizeof wanted / sizeof *wanted;                                                               \
        clear();                                                                                                           \
        same(#name, gurtxozal_put_##name(words, count, UNPACK arguments), wanted, count);                                   \
        clear();                                                                                                           \
        expect(gurtxozal_put_##name(words, count - 1, UNPACK arguments) == 0 && kept_from(0), "writes where it does not fit", #name); \
    } while (0)

static uint64_t answers[3 * 72];
/* READ(name, field, word): the field is the answer's word of that number. */
#define READ(name, field, word) expect(gurtxozal_read_##name(answer).field == 1000 + (word), "another word as " #field, #name)

int main(void) {
    PUT(new_object, (11, 12, 13), 101, 1, 11, 12, 13);
    PUT(duplicate, (11, 12, 13), 51, 2, 11, 12, 13);
    PUT(release_parcel, (11), 129, 3, 11);
    PUT(retire_object, (11), 5, 4, 11);
    PUT(reserve, (11, 12), 11, 5, 11, 12);
    PUT(trim, (11, 12), 137, 6, 11, 12);
    PUT(abort, (11), 129, 7, 11);
    PUT(publish, (11, 12), 137, 8, 11, 12);
    PUT(get_info, (11, 12), 19, 9, 11, 12);
    PUT(resolve, (11, 12, 13, 14), 563, 10, 11, 12, 13, 14);
    PUT(replace, (11, 12, 13), 51, 11, 11, 12, 13);
    PUT(close, (11, 12), 19, 12, 11, 12);
    PUT(scan_handles, (11, 12), 2051, 13, 11, 12);
    PUT(prepare_transfer, (11, 12, 13, NULL), 4107, 14, 11, 12, 13);
    PUT(prepare_consumption, (11, 12, 13, 14, 15), 1587, 15, 11, 12, 13, 14, 15);
    PUT(rollback, (11), 129, 16, 11);
    PUT(commit, (11), 129, 17, 11);
    PUT(direct_commit, (11, 12), 385, 18, 11, 12);
    PUT(direct_rollback, (11, 12), 385, 19, 11, 12);
    PUT(remove_stopping_owner, (11, 12), 2051, 20, 11, 12);
    PUT(teardown_start, (11), 3, 21, 11);
    PUT(teardown_step, (11), 3, 22, 11);
    PUT(teardown_finish, (11), 3, 23, 11);
    PUT(take_empty_page, (11), 3, 24, 11);
    PUT(make_plan, (11, 12), 11, 25, 11, 12);
    PUT(use_plan, (11), 129, 26, 11);
    PUT(drop_plan, (11), 129, 27, 11);
    PUT(judge_transfer, (11, 12, 13, NULL), 4107, 28, 11, 12, 13);
    PUT(creation_counts, (11, 12, 13, 14), 11, 12, 13, 14);
    PUT(creation_table, (11, 12), 11, 12);
    PUT(creation_object, (11, 12, 13, 14, 15, 16), 11, 12, 13, 14, 15, 16);
    PUT(parcel_item, (11), 129, 0, 11);
    PUT(transfer_item, (0, 11, 12, NULL), 49, 0, 11, 12);
    PUT(transfer_item, (1, 11, 12, NULL), 49, 1, 11, 12);

    expect(GURTXOZAL_ROUTE_BUFFERED == 0 && GURTXOZAL_ROUTE_RENDEZVOUS == 1 && GURTXOZAL_ROUTE_STAGED_STARTUP == 2, "other numbers", "routes");
    expect(GURTXOZAL_MOVE == 0 && GURTXOZAL_COPY == 1, "other numbers", "operations");
    expect(GURTXOZAL_CLASS_LEAF == 0 && GURTXOZAL_CLASS_RENDEZVOUS_ONLY == 1 && GURTXOZAL_CLASS_NEVER == 2, "other numbers", "classes");

    /* what may be absent */
    const struct gurtxozal_prepare_transfer_may none = {0, 21, 22}, object = {1 << 16, 21, 22}, kind = {1 << 17, 21, 22}, both = {3 << 16, 21, 22};
    PUT(prepare_transfer, (11, 12, 13, &none), 4107, 14, 11, 12, 13);
    PUT(prepare_transfer, (11, 12, 13, &object), 4107 + 65536, 14, 11, 12, 13, 21);
    PUT(prepare_transfer, (11, 12, 13, &kind), 4107 + 131072, 14, 11, 12, 13, 22);
    PUT(prepare_transfer, (11, 12, 13, &both), 4107 + 196608, 14, 11, 12, 13, 21, 22);
    const struct gurtxozal_judge_transfer_may nothing = {0, 21, 22}, no_object = {1 << 16, 21, 22}, no_kind = {1 << 17, 21, 22}, neither = {3 << 16, 21, 22};
    PUT(judge_transfer, (11, 12, 13, &nothing), 4107, 28, 11, 12, 13);
    PUT(judge_transfer, (11, 12, 13, &no_object), 4107 + 65536, 28, 11, 12, 13, 21);
    PUT(judge_transfer, (11, 12, 13, &no_kind), 4107 + 131072, 28, 11, 12, 13, 22);
    PUT(judge_transfer, (11, 12, 13, &neither), 4107 + 196608, 28, 11, 12, 13, 21, 22);
    const struct gurtxozal_transfer_item_may rights = {1 << 13, 21, 22, 23}, offered = {1 << 14, 21, 22, 23}, expected = {1 << 15, 21, 22, 23}, all = {7 << 13, 21, 22, 23};
    PUT(transfer_item, (0, 11, 12, &rights), 49 + 8192, 0, 11, 12, 21);
    PUT(transfer_item, (0, 11, 12, &offered), 49 + 16384, 0, 11, 12, 22);
    PUT(transfer_item, (0, 11, 12, &expected), 49 + 32768, 0, 11, 12, 23);
    PUT(transfer_item, (1, 11, 12, &all), 49 + 57344, 1, 11, 12, 21, 22, 23);
    /* a number of a field where its bit is meant: nothing is written, rather than a transfer that forbids nothing */
    const struct gurtxozal_prepare_transfer_may slip = {GURTXOZAL_FIELD_FORBIDDEN_KIND, 21, 22};
    const struct gurtxozal_judge_transfer_may judged = {GURTXOZAL_FIELD_FORBIDDEN_OBJECT, 21, 22};
    const struct gurtxozal_transfer_item_may other = {1 << 16, 21, 22, 23};
    clear();
    expect(gurtxozal_put_prepare_transfer(words, ROOM, 11, 12, 13, &slip) == 0 && kept_from(0), "takes other bits", "prepare_transfer");
    expect(gurtxozal_put_judge_transfer(words, ROOM, 11, 12, 13, &judged) == 0 && kept_from(0), "takes other bits", "judge_transfer");
    expect(gurtxozal_put_transfer_item(words, ROOM, 0, 11, 12, &other) == 0 && kept_from(0), "takes other bits", "transfer_item");

    for (size_t at = 0; at < 72; at++) {
        answers[at] = 3000 + at;
        answers[72 + at] = 2000 + at;
        answers[144 + at] = 1000 + at;
    }
    const uint64_t *answer = gurtxozal_answer(answers, 2);
    expect(answer[0] == 1000 && gurtxozal_answer(answers, 0)[0] == 3000, "another place", "gurtxozal_answer");
#define NUMBER(name) READ(name, number, 0)
    NUMBER(new_object), NUMBER(duplicate), NUMBER(release_parcel), NUMBER(retire_object), NUMBER(reserve), NUMBER(trim), NUMBER(abort), NUMBER(publish);
    NUMBER(get_info), NUMBER(resolve), NUMBER(replace), NUMBER(close), NUMBER(scan_handles), NUMBER(prepare_transfer), NUMBER(prepare_consumption);
    NUMBER(rollback), NUMBER(commit), NUMBER(direct_commit), NUMBER(direct_rollback), NUMBER(remove_stopping_owner), NUMBER(teardown_start);
    NUMBER(teardown_step), NUMBER(teardown_finish), NUMBER(take_empty_page), NUMBER(make_plan), NUMBER(use_plan), NUMBER(drop_plan), NUMBER(judge_transfer);
    READ(new_object, id, 1), READ(duplicate, id, 1), READ(reserve, id, 1), READ(prepare_transfer, id, 1), READ(prepare_consumption, id, 1);
    READ(reserve, count, 2), READ(reserve, values[0], 3), READ(reserve, values[63], 66);
    READ(get_info, koid, 1), READ(get_info, kind, 2), READ(get_info, rights, 3), READ(get_info, flags, 4);
    READ(close, koid, 1), READ(close, kind, 2), READ(close, rights, 3), READ(close, flags, 4);
    READ(resolve, object, 1), READ(resolve, koid, 2), READ(resolve, rights, 3);
    READ(replace, value, 1);
    READ(scan_handles, length, 1), READ(scan_handles, has_next, 2), READ(scan_handles, next, 3), READ(scan_handles, examined, 4);
    for (size_t n = 0; n < 8; n++) {
        const struct gurtxozal_scan_handles_entry entry = gurtxozal_read_scan_handles_entry(answer, n);
        const uint64_t first = 1005 + 5 * n;
        expect(entry.value == first && entry.koid == first + 1 && entry.kind == first + 2 && entry.rights == first + 3 && entry.flags == first + 4, "another entry", "scan_handles");
    }
    READ(remove_stopping_owner, removed, 1), READ(remove_stopping_owner, cursor, 2), READ(remove_stopping_owner, value, 3);
    READ(remove_stopping_owner, koid, 4), READ(remove_stopping_owner, kind, 5), READ(remove_stopping_owner, rights, 6), READ(remove_stopping_owner, flags, 7);
    READ(teardown_step, removed, 1), READ(teardown_step, koid, 2), READ(teardown_step, kind, 3), READ(teardown_step, rights, 4), READ(teardown_step, flags, 5);
    READ(take_empty_page, taken, 1), READ(take_empty_page, page, 2);
    READ(make_plan, id, 1), READ(make_plan, count, 2), READ(make_plan, frames, 3);
    READ(use_plan, id, 1), READ(use_plan, count, 2), READ(use_plan, values[0], 3), READ(use_plan, values[63], 66);
    READ(judge_transfer, judged, 1), READ(judge_transfer, position, 2), READ(judge_transfer, place, 3);

    printf("gurtxozal_calls.h: %u comparisons, %u wrong\n", tried, wrong);
    return wrong != 0;
}
