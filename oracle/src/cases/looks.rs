//! Named cases of looks at values that are being moved (document 02, 2), recorded apart from the others: recorded/looks.txt.

use super::*;

pub fn all() -> Vec<Case> {
    let mut cases = Vec::new();
    shows(&mut cases);
    claims(&mut cases);
    refusals(&mut cases);
    ends(&mut cases);
    states(&mut cases);
    cases
}

fn is_moved(state: &State, table: usize, at: u64) -> bool {
    matches!(slot(state, table, at), Some(Slot::Moving(_)))
}

fn shows(cases: &mut Vec<Case>) {
    let mut c = Case::new("look-own-rights", "a value that is being moved is looked at: the rights that its handle has, not those offered nor those that the receiver gets; nothing changes", world());
    c.ask(new_object(0, 0xFF, 3), &[0, 1]);
    c.ask(reserve(0, 1), &[0, 2, 1, v(63, 1)]);
    c.ask(publish(2, &[1]), &[]);
    c.ask(get_info(0, v(63, 1)), &[0, 100, 7, 0xFF, 3]);
    c.ask(transfer(0, 0, vec![item(0, v(63, 1), 0x12).with(OFFERED_RIGHTS, 0x1E)]), &[0, 3]);
    c.ask(get_info(0, v(63, 1)), &[0, 100, 7, 0xFF, 3]);
    c.look("the slot is TransferReserved, the claim keeps rights ff and gives 12, the count is 1, no id is spent", |s| {
        let handle = Handle { object: 0, rights: 0xFF, flags: 3 };
        is_moved(s, 0, 63) && s.rows[0].kind == RowKind::Claim { table: 0, entries: vec![ClaimEntry::Move { slot: 63, handle, gets: 0x12 }] } && s.objects[0].count == 1 && s.next == 4
    });
    c.ask(get_info(0, v(63, 1)), &[0, 100, 7, 0xFF, 3]);
    c.ask(rollback(3), &[]);
    c.ask(transfer(0, 0, vec![item(0, v(63, 1), 0)]), &[0, 4]);
    c.ask(get_info(0, v(63, 1)), &[0, 100, 7, 0xFF, 3]);
    cases.push(c);

    let mut c = Case::new("look-consumption", "a value that is being consumed is looked at; its handle needs no TRANSFER right", world());
    c.ask(new_object(1, 0x15, 2), &[0, 1]);
    c.ask(reserve(0, 1), &[0, 2, 1, v(63, 1)]);
    c.ask(publish(2, &[1]), &[]);
    c.ask(consume(0, v(63, 1), 4, 8, 101), &[0, 3]);
    c.ask(get_info(0, v(63, 1)), &[0, 101, 8, 0x15, 2]);
    c.ask(resolve(0, v(63, 1), 0, 8), &[3]);
    c.ask(rollback(3), &[]);
    c.ask(get_info(0, v(63, 1)), &[0, 101, 8, 0x15, 2]);
    c.ask(consume(0, v(63, 1), 0, 8, 101), &[0, 4]);
    c.ask(get_info(0, v(63, 1)), &[0, 101, 8, 0x15, 2]);
    c.ask(commit(4), &[]);
    c.ask(get_info(0, v(63, 1)), &[2]);
    cases.push(c);

    let mut c = Case::new("look-retired-object", "its object is retired by its owner: the value that is being moved shows the same", world());
    publish_one(&mut c, 0, 0x33, 0, 1, v(63, 1));
    c.ask(transfer(0, 0, vec![item(0, v(63, 1), 1)]), &[0, 3]);
    c.ask(retire(0), &[]);
    c.ask(get_info(0, v(63, 1)), &[0, 100, 7, 0x33]);
    c.look("retired with count 1", |s| s.objects[0].state == RETIRED && s.objects[0].count == 1);
    cases.push(c);

    let mut c = Case::new("look-with-no-row-left", "a look takes no row", Start::Create(params(&[(1, 0)], 1, &THINGS, 2)));
    publish_one(&mut c, 0, 0x33, 0, 1, v(63, 1));
    c.ask(transfer(0, 0, vec![item(0, v(63, 1), 1)]), &[0, 3]);
    c.ask(new_object(1, 1, 0), &[0, 4]);
    c.ask(new_object(2, 1, 0), &[1]);
    c.ask(duplicate(0, v(63, 1), 0), &[1]);
    c.ask(get_info(0, v(63, 1)), &[0, 100, 7, 0x33]);
    cases.push(c);
}

fn claims(cases: &mut Vec<Case>) {
    let mut c = Case::new("look-copies-between", "copies stand before and between the moves: each moved value shows its own handle, by its place in the claim", wide(&[(2, 0)], 2, 32));
    for object in 0..5 {
        publish_one(&mut c, object, ALL - (object << 8), 0, 1 + 2 * object, v(63 - object, 1));
    }
    c.ask(transfer(0, 0, vec![item(0, v(62, 1), 2), item(1, v(61, 1), 4), item(0, v(60, 1), 8)]), &[0, 11]);
    for (object, moved) in [(1, true), (2, false), (3, true)] {
        c.ask(get_info(0, v(63 - object, 1)), &[0, 200 + object, 7, ALL - (object << 8)]);
        c.look(if moved { "it is being moved" } else { "it is being copied, and is occupied" }, move |s| is_moved(s, 0, 63 - object) == moved);
    }
    c.ask(rollback(11), &[]);
    c.ask(
        transfer(0, 0, vec![item(1, v(63, 1), 1), item(0, v(62, 1), 2), item(1, v(61, 1), 4), item(0, v(60, 1), 8), item(0, v(59, 1), 0)]),
        &[0, 12],
    );
    for object in [4, 3, 2, 1, 0] {
        c.ask(get_info(0, v(63 - object, 1)), &[0, 200 + object, 7, ALL - (object << 8)]);
    }
    c.look("every count is as the copies left it, three slots are TransferReserved", |s| {
        s.objects[0].count == 2 && s.objects[1].count == 1 && s.objects[2].count == 2 && [62, 60, 59].iter().all(|at| is_moved(s, 0, *at))
    });
    cases.push(c);

    let mut c = Case::new("look-two-claims", "two claims of one table and one of another, where the same number is moved too: each value shows its own handle, whichever claim ends first", world());
    publish_one(&mut c, 0, 0xF3, 0, 1, v(63, 1));
    publish_one(&mut c, 1, 0x3F, 0, 3, v(62, 1));
    publish_one(&mut c, 2, 0x07, 1, 5, v(63, 1));
    c.ask(transfer(0, 0, vec![item(0, v(62, 1), 1)]), &[0, 7]);
    c.ask(consume(1, v(63, 1), 0, 9, 102), &[0, 8]);
    c.ask(transfer(0, 0, vec![item(0, v(63, 1), 2)]), &[0, 9]);
    c.ask(get_info(0, v(63, 1)), &[0, 100, 7, 0xF3]);
    c.ask(get_info(0, v(62, 1)), &[0, 101, 8, 0x3F]);
    c.ask(get_info(1, v(63, 1)), &[0, 102, 9, 0x07]);
    c.ask(get_info(1, v(62, 1)), &[2]);
    c.ask(rollback(7), &[]);
    c.ask(get_info(0, v(63, 1)), &[0, 100, 7, 0xF3]);
    c.look("slot 62 is occupied again, slot 63 is still moved", |s| matches!(slot(s, 0, 62), Some(Slot::Occupied(..))) && is_moved(s, 0, 63));
    c.ask(get_info(0, v(62, 1)), &[0, 101, 8, 0x3F]);
    c.ask(transfer(0, 0, vec![item(1, v(62, 1), 0)]), &[0, 10]);
    c.ask(get_info(1, v(63, 1)), &[0, 102, 9, 0x07]);
    c.ask(commit(9), &[]);
    c.ask(get_info(0, v(63, 1)), &[2]);
    c.ask(get_info(1, v(63, 1)), &[0, 102, 9, 0x07]);
    cases.push(c);

    // 64 handles with rights of their own. Every fourth item is a copy.
    let handle = |at: u64| Handle { object: 0, rights: 3 | at << 8, flags: at % 4 };
    let mut state = one_page(1, (0..64).map(|at| Slot::Occupied(1, handle(at))).collect(), 1, 0);
    state.objects[0].limit = 99;
    let mut c = Case::new("look-batch-of-64", "a claim of 64 items, moves and copies: the values at its first, middle and last places", loaded(&state));
    c.ask(transfer(0, 0, (0..64).map(|at| item(u64::from(at % 4 == 1), v(63 - at, 1), 1)).collect()), &[0, 1]);
    for place in [0, 2, 3, 31, 32, 62, 63] {
        let at = 63 - place;
        c.ask(get_info(0, v(at, 1)), &[0, 50, 7, 3 | at << 8, at % 4]);
        c.look("it is being moved", move |s| is_moved(s, 0, at));
    }
    c.ask(get_info(0, v(62, 1)), &[0, 50, 7, 3 | 62 << 8, 2]);
    c.look("it is being copied, and is occupied", |s| slot(s, 0, 62) == Some(Slot::Occupied(1, Handle { object: 0, rights: 3 | 62 << 8, flags: 2 })));
    cases.push(c);
}

fn refusals(cases: &mut Vec<Case>) {
    let mut c = Case::new(
        "look-wrong-values",
        "another generation of a slot that is being moved gives 2, and so do a Reserved slot, a vacant one, another prefix and another table; an unknown table 18",
        world(),
    );
    publish_one(&mut c, 0, 0x33, 0, 1, v(63, 1));
    c.ask(replace(0, v(63, 1), 0x23), &[0, v(63, 2)]);
    c.ask(transfer(0, 0, vec![item(0, v(63, 2), 3)]), &[0, 3]);
    c.ask(reserve(0, 1), &[0, 4, 1, v(62, 1)]);
    for value in [v(63, 1), v(63, 3), v(63, LIMIT), v(62, 1), v(61, 1), v(64, 1), v(63, 2) ^ 1 << 60, v(63, 2) & 0x00FF_FFFF_FFFF_FFFF, 0, u64::MAX] {
        c.ask(get_info(0, value), &[2]);
    }
    c.ask(get_info(1, v(63, 2)), &[2]);
    c.ask(get_info(2, v(63, 2)), &[18]);
    c.ask(get_info(0, v(63, 2)), &[0, 100, 7, 0x23]);
    cases.push(c);

    let mut c = Case::new("look-others-busy", "every other request on a value that is being moved gives 3, a look between them shows the same", world());
    publish_one(&mut c, 0, ALL, 0, 1, v(63, 1));
    publish_one(&mut c, 1, ALL, 0, 3, v(62, 1));
    c.ask(transfer(0, 0, vec![item(0, v(63, 1), 3)]), &[0, 5]);
    for request in [
        resolve(0, v(63, 1), 0, 7), duplicate(0, v(63, 1), 0), replace(0, v(63, 1), 0), close(0, v(63, 1)), consume(0, v(63, 1), 0, 7, 100), transfer(0, 0, vec![item(0, v(63, 1), 0)]),
        transfer(0, 0, vec![item(1, v(63, 1), 0)]), transfer(0, 0, vec![item(0, v(62, 1), 0), item(0, v(63, 1), 0)]),
    ] {
        c.ask(request, &[3]);
        c.ask(get_info(0, v(63, 1)), &[0, 100, 7, ALL]);
    }
    c.look("three ids were spent by the refused transfers, both counts are 1", |s| s.next == 9 && s.rows.len() == 1 && s.objects[0].count == 1 && s.objects[1].count == 1);
    c.ask(scan(0, 0), &[0, 1, 0, 0, 64, v(62, 1), 101, 8, ALL]);
    cases.push(c);

    let mut c = Case::new("look-refused-preparation", "a preparation that is refused moves nothing: the value is looked at as before, and what is moved later shows what it has then", world());
    publish_one(&mut c, 0, 0x3F, 0, 1, v(63, 1));
    publish_one(&mut c, 1, 0x05, 0, 3, v(62, 1));
    c.ask(transfer(0, 0, vec![item(0, v(63, 1), 1), item(0, v(62, 1), 1)]), &[5]);
    c.ask(consume(0, v(63, 1), 0, 7, 101), &[2]);
    c.ask(get_info(0, v(63, 1)), &[0, 100, 7, 0x3F]);
    c.ask(replace(0, v(63, 1), 0x0F), &[0, v(63, 2)]);
    c.ask(transfer(0, 0, vec![item(0, v(63, 2), 1)]), &[0, 6]);
    c.ask(get_info(0, v(63, 2)), &[0, 100, 7, 0x0F]);
    c.ask(get_info(0, v(63, 1)), &[2]);
    cases.push(c);
}

fn ends(cases: &mut Vec<Case>) {
    let mut c = Case::new("look-after-rollback", "rolled back, the value shows what it showed; moved again with fewer rights, it shows these", world());
    publish_one(&mut c, 0, 0x3F, 0, 1, v(63, 1));
    c.ask(transfer(0, 0, vec![item(0, v(63, 1), 0)]), &[0, 3]);
    c.ask(get_info(0, v(63, 1)), &[0, 100, 7, 0x3F]);
    c.ask(rollback(3), &[]);
    c.ask(get_info(0, v(63, 1)), &[0, 100, 7, 0x3F]);
    c.look("the slot is occupied", |s| slot(s, 0, 63) == Some(Slot::Occupied(1, Handle { object: 0, rights: 0x3F, flags: 0 })));
    c.ask(replace(0, v(63, 1), 0x07), &[0, v(63, 2)]);
    c.ask(transfer(0, 0, vec![item(0, v(63, 2), 0)]), &[0, 4]);
    c.ask(get_info(0, v(63, 2)), &[0, 100, 7, 0x07]);
    cases.push(c);

    let mut c = Case::new("look-after-commit", "committed, the value gives 2, also when its slot is reserved and filled again; the parcel's handle has the rights that the receiver gets", world());
    publish_one(&mut c, 0, 0x3F, 0, 1, v(63, 1));
    c.ask(transfer(0, 0, vec![item(0, v(63, 1), 6)]), &[0, 3]);
    c.ask(get_info(0, v(63, 1)), &[0, 100, 7, 0x3F]);
    c.ask(commit(3), &[]);
    c.ask(get_info(0, v(63, 1)), &[2]);
    c.ask(reserve(0, 1), &[0, 4, 1, v(63, 2)]);
    c.ask(get_info(0, v(63, 1)), &[2]);
    c.ask(get_info(0, v(63, 2)), &[2]);
    c.ask(publish(4, &[3]), &[]);
    c.ask(get_info(0, v(63, 2)), &[0, 100, 7, 6]);
    c.ask(transfer(0, 0, vec![item(0, v(63, 2), 2)]), &[0, 5]);
    c.ask(get_info(0, v(63, 2)), &[0, 100, 7, 6]);
    c.ask(get_info(0, v(63, 1)), &[2]);
    cases.push(c);

    let mut c = Case::new("look-after-direct", "after a direct commit the old value gives 2 and the new one shows the rights that the receiver got; after a direct rollback the old one shows its own", world());
    publish_one(&mut c, 0, 0x3F, 0, 1, v(63, 1));
    publish_one(&mut c, 1, 0x2F, 0, 3, v(62, 1));
    c.ask(transfer(0, 1, vec![item(1, v(63, 1), 1), item(0, v(62, 1), 6)]), &[0, 5]);
    c.ask(reserve(1, 2), &[0, 6, 2, v(63, 1), v(62, 1)]);
    c.ask(get_info(0, v(62, 1)), &[0, 101, 8, 0x2F]);
    c.ask(get_info(1, v(62, 1)), &[2]);
    c.ask(direct_commit(5, 6), &[]);
    c.ask(get_info(0, v(62, 1)), &[2]);
    c.ask(get_info(1, v(62, 1)), &[0, 101, 8, 6]);
    c.ask(transfer(0, 1, vec![item(0, v(63, 1), 4)]), &[0, 7]);
    c.ask(reserve(0, 1), &[0, 8, 1, v(62, 2)]);
    c.ask(get_info(0, v(63, 1)), &[0, 100, 7, 0x3F]);
    c.ask(direct_rollback(7, 8), &[]);
    c.ask(get_info(0, v(63, 1)), &[0, 100, 7, 0x3F]);
    c.ask(transfer(0, 1, vec![item(0, v(63, 1), 4)]), &[0, 9]);
    c.ask(reserve(0, 1), &[0, 10, 1, v(62, 3)]);
    c.ask(direct_commit(9, 10), &[]);
    c.ask(get_info(0, v(63, 1)), &[2]);
    c.ask(get_info(0, v(62, 3)), &[0, 100, 7, 4]);
    cases.push(c);

    let mut c = Case::new("look-and-teardown", "a table with a claim is not torn down: 14, and the value is looked at; one that is torn down or retired has no claim, and a look gives 16", world());
    publish_one(&mut c, 0, 0x3F, 0, 1, v(63, 1));
    c.ask(transfer(0, 0, vec![item(0, v(63, 1), 0)]), &[0, 3]);
    c.ask(teardown_start(0), &[14]);
    c.ask(get_info(0, v(63, 1)), &[0, 100, 7, 0x3F]);
    c.ask(rollback(3), &[]);
    c.ask(teardown_start(0), &[]);
    c.ask(get_info(0, v(63, 1)), &[16]);
    c.ask(transfer(0, 0, vec![item(0, v(63, 1), 0)]), &[16]);
    c.ask(teardown_step(0), &[0, 1, 100, 7, 0x3F]);
    c.ask(teardown_finish(0), &[]);
    c.ask(get_info(0, v(63, 1)), &[16]);
    cases.push(c);
}

/// Two claims in one page of slots 0 to 3: one of a copy and two moves, its slots falling; one of a move that keeps its rights, as a consumption is. A receiver may get any rights.
fn claimed_state(mask: u64) -> State {
    let handle = |object: u64, rights: u64, flags: u64| Handle { object, rights, flags };
    let mut slots = vec![Slot::Vacant(1); 64];
    slots[0] = Slot::Moving(9);
    slots[1] = Slot::Moving(LIMIT);
    slots[2] = Slot::Occupied(4, handle(0, 0x77, 0));
    slots[3] = Slot::Moving(1);
    let mut state = one_page(LIMIT, slots, 9, 3);
    state.tables[0].mask = mask;
    state.rows = vec![
        Row {
            id: 2,
            kind: RowKind::Claim {
                table: 0,
                entries: vec![
                    ClaimEntry::Copy(handle(0, 0x11, 1)),
                    ClaimEntry::Move { slot: 3, handle: handle(1, 0x22, 2), gets: ALL },
                    ClaimEntry::Move { slot: 0, handle: handle(0, 0x44, 3), gets: 0 },
                ],
            },
        },
        Row { id: 5, kind: RowKind::Parcel(vec![handle(1, 0x99, 0)]) },
        Row { id: 7, kind: RowKind::Claim { table: 0, entries: vec![ClaimEntry::Move { slot: 1, handle: handle(1, 0x88, 0), gets: 0x88 }] } },
    ];
    state.objects[0].count = 3;
    state.objects[1].state = ACTIVE;
    state.objects[1].count = 3;
    state
}

fn states(cases: &mut Vec<Case>) {
    let mask = 0x0012_3456_789A_BCDE;
    let mut c = Case::new(
        "look-loaded-claims",
        "claims that a state's words hold, of which the Rust was asked when they were loaded: each moved value shows the handle that its item keeps, whatever the receiver gets",
        Start::Words(words::encode_with(&claimed_state(mask), |rank| [3, 0, 1][rank])),
    );
    c.ask(get_info(0, v(3, 1) ^ mask), &[0, 51, 8, 0x22, 2]);
    c.ask(get_info(0, v(0, 9) ^ mask), &[0, 50, 7, 0x44, 3]);
    c.ask(get_info(0, v(1, LIMIT) ^ mask), &[0, 51, 8, 0x88]);
    c.ask(get_info(0, v(2, 4) ^ mask), &[0, 50, 7, 0x77]);
    c.ask(get_info(0, v(0, 9)), &[2]);
    c.ask(release(5), &[]);
    c.ask(get_info(0, v(1, LIMIT) ^ mask), &[0, 51, 8, 0x88]);
    c.ask(rollback(2), &[]);
    c.ask(get_info(0, v(3, 1) ^ mask), &[0, 51, 8, 0x22, 2]);
    c.ask(get_info(0, v(0, 9) ^ mask), &[0, 50, 7, 0x44, 3]);
    c.look("slots 3 and 0 are occupied again, slot 1 is still moved", |s| {
        matches!(slot(s, 0, 3), Some(Slot::Occupied(1, _))) && matches!(slot(s, 0, 0), Some(Slot::Occupied(9, _))) && is_moved(s, 0, 1)
    });
    c.ask(commit(7), &[]);
    c.ask(get_info(0, v(1, LIMIT) ^ mask), &[2]);
    cases.push(c);
}
