//! Named cases of transfers that are judged (document 02, 4), recorded apart from the others: recorded/judged.txt.

use super::*;

pub fn all() -> Vec<Case> {
    let mut cases = Vec::new();
    accepted(&mut cases);
    whole(&mut cases);
    items(&mut cases);
    copies(&mut cases);
    lists(&mut cases);
    cases
}

/// Objects of the cases: 0 to 5 plain leaves, 6 rendezvous only, 7 never, 8 limit 1, 9 is retired by its owner.
const OBJECTS: [Thing; 10] = [
    [200, 20, 0, ALL, 1, 99],
    [201, 21, 0, ALL, 1, 99],
    [202, 22, 0, ALL, 1, 99],
    [203, 23, 0, ALL, 1, 99],
    [204, 24, 0, ALL, 1, 99],
    [205, 25, 0, ALL, 1, 99],
    [206, 26, 1, ALL, 1, 99],
    [207, 27, 2, ALL, 1, 99],
    [208, 28, 0, ALL, 1, 1],
    [209, 29, 0, ALL, 1, 99],
];
const RIGHTS_OF_ALL: u64 = 0x1F;
/// Slots of table 0: of objects 0 to 4 in slots 63 to 59, of object 5 in 58, and duplicates of it with fewer rights; one each of objects 6 to 9.
const FIVE: [u64; 5] = [63, 62, 61, 60, 59];
const NO_TRANSFER: u64 = 53;
const NO_DUPLICATE: u64 = 52;
const NEITHER: u64 = 51;
const FEW: u64 = 50;
const RENDEZVOUS: u64 = 57;
const NEVER: u64 = 56;
const FULL: u64 = 55;
const RETIRED_ONE: u64 = 54;

/// A case with these handles, and its next id.
struct Run {
    case: Case,
    next: u64,
}

impl Run {
    fn new(name: &'static str, about: &'static str) -> Self {
        let mut run = Self { case: Case::new(name, about, Start::Create(params(&[(2, 0), (1, 0)], 4, &OBJECTS, 4))), next: 1 };
        for object in 0..10 {
            publish_one(&mut run.case, object, RIGHTS_OF_ALL, 0, run.next, v(63 - object, 1));
            run.next += 2;
        }
        for (slot, rights) in [(NO_TRANSFER, 0x1D), (NO_DUPLICATE, 0x1E), (NEITHER, 0x1C), (FEW, 7)] {
            run.case.ask(duplicate(0, v(58, 1), rights), &[0, run.next]);
            run.case.ask(reserve(0, 1), &[0, run.next + 1, 1, v(slot, 1)]);
            run.case.ask(publish(run.next + 1, &[run.next]), &[]);
            run.next += 2;
        }
        run.case.ask(retire(9), &[]);
        run
    }
    /// A transfer is judged, and prepared then: the same number, and a claim is rolled back. Judging spends no id; preparing does, but where it is refused before the id step.
    fn both(&mut self, transfer: Request, number: u64, position: u64, place: u64) {
        let next = self.next;
        self.case.ask(judging(&transfer), &[0, number, position, place]);
        self.case.look("no id is spent and no row is taken", move |s| s.next == next && s.rows.is_empty());
        if number == 0 {
            self.case.ask(transfer, &[0, self.next]);
            self.case.ask(rollback(self.next), &[]);
        } else {
            self.case.ask(transfer, &[number]);
        }
        self.next += u64::from(place == 0 || place > 5);
    }
}

/// Moves at positions 0, 2 and 4, copies at 1 and 3, and one of them another item.
fn five(other: Option<(usize, Record)>) -> Vec<Record> {
    let mut items: Vec<Record> = (0..5).map(|at| item(at % 2, v(FIVE[at as usize], 1), 7)).collect();
    if let Some((position, record)) = other {
        items[position] = record;
    }
    items
}

fn moved(slot: u64, rights: u64) -> Record {
    item(0, v(slot, 1), rights)
}
fn copied(slot: u64, rights: u64) -> Record {
    item(1, v(slot, 1), rights)
}

fn accepted(cases: &mut Vec<Case>) {
    let mut run = Run::new("judge-accepted", "a transfer that would be accepted: moves, copies, both, every field that it may carry, a move of a retired object; judged twice, the same answer");
    for items in [vec![moved(63, 0)], vec![copied(63, 0x1F)], five(None), vec![moved(RETIRED_ONE, 2)], vec![moved(FULL, 1), copied(62, 0), moved(RETIRED_ONE, 0)]] {
        run.case.ask(judging(&transfer(0, 0, items.clone())), &[0]);
        run.both(transfer(0, 0, items), 0, 0, 0);
    }
    let full = |record: Record, kind: u64| record.with(OFFERED_RIGHTS, 7).with(OFFERED_KIND, kind).with(EXPECTED_KIND, kind);
    let items = vec![full(moved(63, 7), 20), full(copied(62, 3), 21), full(moved(RENDEZVOUS, 2), 26)];
    run.both(transfer(0, 2, items).with(FORBIDDEN_OBJECT, 205).with(FORBIDDEN_KIND, 25), 0, 0, 0);
    run.case.look("every count is as before", |s| s.objects[1].count == 1 && s.objects[9].count == 1 && s.objects[9].state == RETIRED);
    cases.push(run.case);

    let mut state = one_page(1, (0..64).map(|at| Slot::Occupied(1, Handle { object: 0, rights: 3 | at << 8, flags: at % 4 })).collect(), 1, 0);
    state.objects[0].limit = 96;
    let all = |copies: fn(u64) -> bool| -> Vec<Record> { (0..64).map(|at| item(u64::from(copies(at)), v(63 - at, 1), 1)).collect() };
    let mut c = Case::new("judge-64", "64 items: moves, as many copies as the limit permits, one copy more; the last item at fault; 65 items", loaded(&state));
    c.ask(judging(&transfer(0, 0, all(|_| false))), &[0]);
    c.ask(judging(&transfer(0, 0, all(|at| at % 2 == 1))), &[0]);
    c.ask(judging(&transfer(0, 0, all(|at| at % 2 == 1 || at == 62))), &[0, 11, 63, 17]);
    c.ask(judging(&transfer(0, 0, all(|at| at % 2 == 1 || at == 0))), &[0, 11, 63, 17]);
    c.ask(judging(&transfer(0, 0, all(|at| at < 40))), &[0, 11, 32, 17]);
    let mut last = all(|at| at < 40);
    last[63] = last[63].clone().with(EXPECTED_KIND, 8);
    c.ask(judging(&transfer(0, 0, last)), &[0, 4, 63, 15]);
    let mut more = all(|_| false);
    more.push(item(0, 0, 0));
    c.ask(judging(&transfer(0, 0, more)), &[0, 13, 64, 3]);
    c.look("nothing has changed", |s| s.next == 1 && s.rows.is_empty() && s.objects[0].count == 64 && s.tables[0].pages[0].busy == 64 && s.tables[0].epoch == 0);
    cases.push(c);
}

/// The places before any item is looked at.
fn whole(cases: &mut Vec<Case>) {
    let wrong = || vec![item(0, 0, 0)];
    let many = |count: usize| vec![item(0, 0, 0); count];
    let mut run = Run::new("judge-batch", "0 items and 65, whatever they are: no item is at fault; a table that is torn down or retired comes first; an unknown table refuses the judging itself");
    run.both(transfer(0, 0, vec![]), 17, 64, 2);
    run.both(transfer(0, 0, many(65)), 13, 64, 3);
    run.both(transfer(0, 0, many(66)), 13, 64, 3);
    run.both(transfer(0, 0, many(64)), 2, 0, 7);
    for items in [vec![], wrong(), many(65)] {
        run.case.ask(judging(&transfer(2, 0, items.clone())), &[18]);
        run.case.ask(transfer(2, 0, items), &[18]);
    }
    run.case.ask(judging(&transfer(ALL, 0, wrong())), &[18]);
    run.case.ask(teardown_start(1), &[]);
    for items in [vec![], wrong(), many(65)] {
        run.both(transfer(1, 0, items), 16, 64, 1);
    }
    run.case.ask(teardown_finish(1), &[]);
    run.both(transfer(1, 0, wrong()), 16, 64, 1);
    run.case.ask(judging(&transfer(0, 0, five(None))), &[0]);
    cases.push(run.case);

    let mut state = one_page(1, vec![Slot::Occupied(1, Handle { object: 0, rights: 3, flags: 0 }), Slot::Vacant(1)], ALL, 0);
    state.tables[0].pages[0].slots.resize(64, Slot::Vacant(1));
    state.tables[0].free = (1..64).collect();
    state.tables[0].free_count = 63;
    state.row_capacity = 2;
    let good = || transfer(0, 0, vec![item(0, v(0, 1), 3)]);
    let mut c = Case::new("judge-last-id", "next id 2^64 - 1: 12, and no item is looked at; 17 and 13 come before it", loaded(&state));
    c.ask(judging(&good()), &[0, 12, 64, 5]);
    c.ask(judging(&transfer(0, 0, wrong())), &[0, 12, 64, 5]);
    c.ask(judging(&transfer(0, 0, vec![])), &[0, 17, 64, 2]);
    c.ask(judging(&transfer(0, 0, many(65))), &[0, 13, 64, 3]);
    c.ask(good(), &[12]);
    cases.push(c);

    state.next = ALL - 1;
    let mut c = Case::new("judge-an-id-left", "next id 2^64 - 2: a judging spends none, so that it can be asked again and the transfer prepared", loaded(&state));
    c.ask(judging(&good()), &[0]);
    c.ask(judging(&good()), &[0]);
    c.ask(judging(&transfer(0, 0, wrong())), &[0, 2, 0, 7]);
    c.look("the next id is 2^64 - 2", |s| s.next == ALL - 1);
    c.ask(good(), &[0, ALL - 1]);
    c.ask(rollback(ALL - 1), &[]);
    c.ask(judging(&good()), &[0, 12, 64, 5]);
    cases.push(c);

    for id in [7, 9] {
        state.rows.push(Row { id, kind: RowKind::Plan { table: 0, count: 1, kept: Snapshot { epoch: 0, free_slots: 63, pages: vec![] }, frames: vec![] } });
    }
    state.next = ALL;
    let mut c = Case::new("judge-no-row", "no free row: 1, before 12 and whatever the items are; with a row free again 12", loaded(&state));
    c.ask(judging(&good()), &[0, 1, 64, 4]);
    c.ask(judging(&transfer(0, 0, wrong())), &[0, 1, 64, 4]);
    c.ask(judging(&transfer(0, 0, vec![])), &[0, 17, 64, 2]);
    c.ask(judging(&transfer(0, 0, many(65))), &[0, 13, 64, 3]);
    c.ask(good(), &[1]);
    c.ask(drop_plan(7), &[]);
    c.ask(judging(&good()), &[0, 12, 64, 5]);
    cases.push(c);
}

/// The places of items: each at the first, the middle and the last of five, with copies between.
fn items(cases: &mut Vec<Case>) {
    let mut run = Run::new("judge-lookup", "a value listed twice, copies among them, and one that names no handle or a moved one: at each position that there is");
    for (first, second) in [(0, 0), (0, 1), (1, 0), (1, 1)] {
        run.both(transfer(0, 1, vec![item(first, v(63, 1), 0), item(second, v(63, 1), 0)]), 2, 1, 6);
    }
    for position in [1, 2, 4] {
        run.both(transfer(0, 1, five(Some((position, moved(FIVE[position - 1], 0))))), 2, position as u64, 6);
    }
    for position in [0, 2, 4] {
        for value in [v(63, 2), v(20, 1), v(64, 1), v(63, 1) ^ 1 << 60, 0] {
            run.both(transfer(0, 1, five(Some((position, item(0, value, 0))))), 2, position as u64, 7);
        }
    }
    run.case.ask(judging(&transfer(0, 1, vec![item(0, 0, 0), item(0, 0, 0)])), &[0, 2, 0, 7]);
    run.case.ask(judging(&transfer(0, 1, vec![moved(NO_TRANSFER, 0), moved(NO_TRANSFER, 0)])), &[0, 5, 0, 8]);
    // A moved value, and one of a slot that is reserved.
    run.case.ask(transfer(0, 1, vec![moved(58, 2)]), &[0, run.next]);
    run.case.ask(reserve(0, 1), &[0, run.next + 1, 1, v(49, 1)]);
    for position in [0, 2, 4] {
        for operation in [0, 1] {
            run.case.ask(judging(&transfer(0, 1, five(Some((position, item(operation, v(58, 1), 0)))))), &[0, 3, position as u64, 7]);
            run.case.ask(judging(&transfer(0, 1, five(Some((position, item(operation, v(49, 1), 0)))))), &[0, 2, position as u64, 7]);
        }
        run.case.ask(transfer(0, 1, five(Some((position, moved(58, 0))))), &[3]);
    }
    run.case.ask(rollback(run.next), &[]);
    run.case.ask(judging(&transfer(0, 1, five(Some((2, moved(58, 0)))))), &[0]);
    cases.push(run.case);

    let mut run = Run::new("judge-rights", "AccessDenied by its four places of the rights rule, at the first, the middle and the last of five items");
    for position in [0, 2, 4] {
        for (record, place) in [
            (moved(NO_TRANSFER, 0), 8),
            (copied(NO_TRANSFER, 0), 8),
            (copied(NEITHER, 0), 8),
            (copied(NO_DUPLICATE, 0), 9),
            (moved(FEW, 0).with(OFFERED_RIGHTS, 0xF), 10),
            (copied(FEW, 0x1F).with(OFFERED_RIGHTS, 0xF), 10),
            (moved(FEW, 0xF), 11),
            (copied(FEW, 7).with(OFFERED_RIGHTS, 3), 11),
        ] {
            run.both(transfer(0, 1, five(Some((position, record)))), 5, position as u64, place);
        }
        run.both(transfer(0, 1, five(Some((position, moved(NO_DUPLICATE, 0x1E))))), 0, 0, 0);
    }
    cases.push(run.case);

    let mut run = Run::new("judge-kinds", "forbidden kind and object, a class that the route bars and another kind, at each of five positions");
    for position in 0..5 {
        let at = position as u64;
        run.both(transfer(0, 1, five(None)).with(FORBIDDEN_KIND, 20 + at), 8, at, 12);
        run.both(transfer(0, 1, five(None)).with(FORBIDDEN_OBJECT, 200 + at), 5, at, 13);
        run.both(transfer(0, 2, five(Some((position, moved(NEVER, 0))))), 8, at, 14);
        run.both(transfer(0, 0, five(Some((position, moved(RENDEZVOUS, 0))))), 8, at, 14);
        for field in [OFFERED_KIND, EXPECTED_KIND] {
            run.both(transfer(0, 0, five(Some((position, item(at % 2, v(FIVE[position], 1), 0).with(field, 99))))), 4, at, 15);
        }
    }
    cases.push(run.case);

    let mut run = Run::new("judge-mended-one-by-one", "an item at fault in every way, mended fault by fault: the places in their printed order, and the item's position throughout");
    let (next, object) = (run.next, 206);
    for (slot, rights, id) in [(49, 0x1C, next), (48, 0x1E, next + 2)] {
        run.case.ask(duplicate(0, v(RENDEZVOUS, 1), rights), &[0, id]);
        run.case.ask(reserve(0, 1), &[0, id + 1, 1, v(slot, 1)]);
        run.case.ask(publish(id + 1, &[id]), &[]);
    }
    run.next += 4;
    run.case.ask(retire(6), &[]);
    let of = |route: u64, head: &[(usize, u64)], record: Record| {
        let base = transfer(0, route, vec![moved(63, 1), copied(62, 1), record, moved(61, 0)]);
        head.iter().fold(base, |request, (field, word)| request.with(*field, *word))
    };
    let both = [(FORBIDDEN_KIND, 26), (FORBIDDEN_OBJECT, object)];
    let all = |slot: u64, offered: u64, asked: u64| copied(slot, asked).with(OFFERED_RIGHTS, offered).with(EXPECTED_KIND, 99);
    run.both(of(0, &both, all(49, 0xFF, 0x1FF)), 5, 2, 8);
    run.both(of(0, &both, all(48, 0xFF, 0x1FF)), 5, 2, 9);
    run.both(of(0, &both, all(RENDEZVOUS, 0xFF, 0x1FF)), 5, 2, 10);
    run.both(of(0, &both, all(RENDEZVOUS, 0xF, 0x1FF)), 5, 2, 11);
    run.both(of(0, &both, all(RENDEZVOUS, 0xF, 0xF)), 8, 2, 12);
    run.both(of(0, &both[1..], all(RENDEZVOUS, 0xF, 0xF)), 5, 2, 13);
    run.both(of(0, &[], all(RENDEZVOUS, 0xF, 0xF)), 8, 2, 14);
    run.both(of(1, &[], all(RENDEZVOUS, 0xF, 0xF)), 4, 2, 15);
    run.both(of(1, &[], copied(RENDEZVOUS, 0xF)), 9, 2, 16);
    run.both(of(1, &[], moved(RENDEZVOUS, 0xF)), 0, 0, 0);
    cases.push(run.case);
}

/// The copies' places, which come after all items.
fn copies(cases: &mut Vec<Case>) {
    let mut run = Run::new("judge-copies", "a copy of a retired object and one at the limit: named by the position among all items, after every item's own check");
    for position in 0..5 {
        let at = position as u64;
        run.both(transfer(0, 0, five(Some((position, copied(RETIRED_ONE, 0))))), 9, at, 16);
        run.both(transfer(0, 0, five(Some((position, copied(FULL, 0))))), 11, at, 17);
        run.both(transfer(0, 0, five(Some((position, moved(if position % 2 == 0 { FULL } else { RETIRED_ONE }, 0))))), 0, 0, 0);
    }
    // Items come first, then copies in their order.
    run.both(transfer(0, 0, vec![copied(FULL, 0), copied(RETIRED_ONE, 0), moved(63, 0x20)]), 5, 2, 11);
    run.both(transfer(0, 0, vec![copied(FULL, 0), copied(RETIRED_ONE, 0), moved(63, 0x10)]), 11, 0, 17);
    run.both(transfer(0, 0, vec![moved(63, 0), copied(RETIRED_ONE, 0), copied(FULL, 0)]), 9, 1, 16);
    run.both(transfer(0, 0, vec![copied(63, 0), copied(62, 0), moved(FULL, 0), copied(RETIRED_ONE, 0)]), 9, 3, 16);
    // Retired and at its limit: 9 comes before 11.
    run.case.ask(retire(8), &[]);
    run.both(transfer(0, 0, vec![moved(63, 0), copied(FULL, 0)]), 9, 1, 16);
    cases.push(run.case);

    let mut slots = vec![Slot::Vacant(1); 64];
    for slot in slots.iter_mut().take(6) {
        *slot = Slot::Occupied(1, Handle { object: 0, rights: ALL, flags: 0 });
    }
    let state = one_page(1, slots, 1, 0);
    let copies = |operations: &[u64]| transfer(0, 0, (0..).zip(operations).map(|(slot, operation)| item(*operation, v(slot, 1), 0)).collect());
    let mut c = Case::new("judge-earlier-copies", "count 6 at limit 9: three copies fit, and the fourth is at the limit, moves between them apart; judging raises no count", loaded(&state));
    c.ask(judging(&copies(&[1, 1, 1])), &[0]);
    c.ask(judging(&copies(&[1, 1, 1, 1])), &[0, 11, 3, 17]);
    c.ask(judging(&copies(&[1, 0, 1, 1, 0, 1])), &[0, 11, 5, 17]);
    c.ask(judging(&copies(&[0, 0, 1, 1, 0, 1])), &[0]);
    c.ask(judging(&copies(&[1, 1, 1, 1, 1, 1])), &[0, 11, 3, 17]);
    c.look("the count is 6", |s| s.objects[0].count == 6 && s.next == 1);
    c.ask(copies(&[1, 0, 1, 1, 0, 1]), &[11]);
    c.ask(copies(&[1, 1, 1]), &[0, 2]);
    c.ask(judging(&copies(&[0, 1])), &[0, 11, 1, 17]);
    c.ask(rollback(2), &[]);
    c.ask(judging(&copies(&[0, 1])), &[0]);
    cases.push(c);
}

/// Records and calls.
fn lists(cases: &mut Vec<Case>) {
    let mut run = Run::new("judge-malformed", "a judging has the fields and items of a preparation: 19 for others, 20 for a short answer; a count that its items do not meet ends the list inside a record");
    let good = || judging(&transfer(0, 0, vec![moved(63, 0), copied(62, 0)]));
    run.case.ask(good(), &[0]);
    for wrong in [
        good().with(KIND, 1), good().with(ID, 1), good().with(ROUTE, 3), good().with(FORBIDDEN_OBJECT, 0), good().with(FORBIDDEN_KIND, 1 << 32), good().with(COUNT, 3),
        Request::new(JUDGE).with(TABLE, 0).with(COUNT, 0), judging(&transfer(0, 0, vec![item(2, v(63, 1), 0)])), judging(&transfer(0, 0, vec![moved(63, 0).with(ID, 1)])),
        judging(&transfer(0, 0, vec![moved(63, 0).with(OFFERED_KIND, 1 << 32)])), good().with(COUNT, 1), good().with(COUNT, ALL),
    ] {
        run.case.refused(wrong.words(), ANSWER, 19);
    }
    let mut cut = good().words();
    cut.pop();
    run.case.refused(cut, ANSWER, 19);
    run.case.refused(good().words(), ANSWER - 1, 20);
    run.case.ask(good(), &[0]);
    cases.push(run.case);
}
