//! Named cases: P6 to P12, every corner case of document 01, every number, and each difference's smallest input. Each says what it
//! compares. The answers are written here by hand; `oracle check` compares the Rust's with them, and `oracle record` writes the same
//! lists with the Rust's answers into recorded/.

use crate::requests::*;
use crate::state::*;
use crate::subject::{Call, Start};
use crate::words;

pub mod judged;
pub mod looks;
pub mod plans;

pub type Look = Box<dyn Fn(&State) -> bool>;

/// What a call must give.
pub enum Want {
    /// One request: the answer's words, zeros after them left out.
    Answer(Vec<u64>),
    /// The call's result, with no word changed.
    Result(u64),
    /// The Rust reaches `invariant_violation`; the paper's answer.
    Violation(Vec<u64>),
}

pub struct Ask {
    pub call: Call,
    pub want: Want,
    pub looks: Vec<(&'static str, Look)>,
}

pub struct Case {
    pub name: &'static str,
    pub about: &'static str,
    pub start: Start,
    pub asks: Vec<Ask>,
}

impl Case {
    fn new(name: &'static str, about: &'static str, start: Start) -> Self {
        Self { name, about, start, asks: Vec::new() }
    }
    fn ask(&mut self, request: Request, answer: &[u64]) -> &mut Self {
        self.asks.push(Ask { call: Call::one(request.words()), want: Want::Answer(answer.to_vec()), looks: Vec::new() });
        self
    }
    fn violates(&mut self, request: Request, paper: &[u64]) -> &mut Self {
        self.asks.push(Ask { call: Call::one(request.words()), want: Want::Violation(paper.to_vec()), looks: Vec::new() });
        self
    }
    fn refused(&mut self, list: Vec<u64>, lent: usize, result: u64) -> &mut Self {
        self.asks.push(Ask { call: Call { list, lent }, want: Want::Result(result), looks: Vec::new() });
        self
    }
    /// What must hold of the state after the last ask.
    fn look(&mut self, what: &'static str, holds: impl Fn(&State) -> bool + 'static) -> &mut Self {
        if let Some(ask) = self.asks.last_mut() {
            ask.looks.push((what, Box::new(holds)));
        }
        self
    }
}

/// A value under mask 0.
pub fn v(slot: u64, generation: u64) -> u64 {
    0x4800_0000_0000_0000 | generation << 24 | (slot + 1)
}

pub const ALL: u64 = u64::MAX;
pub const LIMIT: u64 = GENERATION_LIMIT;

/// koid, kind, class, supported, exportable, limit.
pub type Thing = [u64; 6];

pub fn params(tables: &[(u64, u64)], frames: u64, objects: &[Thing], rows: u64) -> Vec<u64> {
    let mut words = vec![tables.len() as u64, frames, objects.len() as u64, rows];
    for (pages, seed) in tables {
        words.extend([*pages, *seed]);
    }
    for object in objects {
        words.extend(object);
    }
    words
}

/// Objects of the cases: 0 and 1 plain leaves, 2 rendezvous only, 3 never, 4 limit 5, 5 not exportable, 6 limit 0, 7 few rights.
const THINGS: [Thing; 8] = [
    [100, 7, 0, ALL, 1, 1000],
    [101, 8, 0, ALL, 1, 1000],
    [102, 9, 1, ALL, 1, 1000],
    [103, 10, 2, ALL, 1, 1000],
    [104, 7, 0, ALL, 1, 5],
    [105, 7, 0, ALL, 0, 1000],
    [106, 7, 0, ALL, 1, 0],
    [107, 7, 0, 7, 1, 1000],
];

fn world() -> Start {
    Start::Create(params(&[(4, 0), (4, 0)], 6, &THINGS, 16))
}

fn wide(tables: &[(u64, u64)], frames: u64, rows: u64) -> Start {
    let objects: Vec<Thing> = (0..12).map(|number| [200 + number, 7, 0, ALL, 1, 1000]).collect();
    Start::Create(params(tables, frames, &objects, rows))
}

fn slot(state: &State, table: usize, index: u64) -> Option<Slot> {
    state.tables[table].slot(index)
}

/// Puts one handle of an object in the table's next free slot: new object, reserve 1, publish. Spends two ids, from `id`.
fn publish_one(case: &mut Case, object: u64, rights: u64, table: u64, id: u64, value: u64) {
    case.ask(new_object(object, rights, 0), &[0, id]);
    case.ask(reserve(table, 1), &[0, id + 1, 1, value]);
    case.ask(publish(id + 1, &[id]), &[]);
}

/// A state for the cases that creation does not reach: one table, one object, one attached page in frame 0.
fn one_page(high: u64, slots: Vec<Slot>, next: u64, epoch: u64) -> State {
    let busy = slots.iter().filter(|slot| !matches!(slot, Slot::Vacant(_))).count() as u64;
    let occupied = slots.iter().filter(|slot| matches!(slot, Slot::Occupied(..))).count() as u64;
    let free: Vec<u64> = (0..slots.len() as u64).filter(|at| matches!(slots[*at as usize], Slot::Vacant(_))).collect();
    State {
        next,
        row_capacity: 4,
        frames: 3,
        free_frames: vec![1, 2],
        objects: vec![
            Object { koid: 50, kind: 7, class: 0, supported: ALL, exportable: true, state: if occupied > 0 { 1 } else { 0 }, count: occupied, limit: 9 },
            Object { koid: 51, kind: 8, class: 0, supported: ALL, exportable: true, state: 0, count: 0, limit: 9 },
        ],
        tables: vec![Table {
            limit: 4,
            mask: 0,
            life: Life::Active,
            epoch,
            free_count: free.len() as u64,
            free,
            empty: if busy == 0 { vec![0] } else { vec![] },
            detached: vec![],
            pages: vec![Page { frame: Some(0), high, busy, slots }],
        }],
        rows: vec![],
    }
}

/// A table whose 262,144 pages have all been there and are all detached, the last first in the order.
pub fn last_page_state(limit: u64) -> State {
    State {
        next: 1,
        row_capacity: 8,
        frames: 3,
        free_frames: vec![0, 1, 2],
        objects: vec![Object { koid: 50, kind: 7, class: 0, supported: ALL, exportable: true, state: 0, count: 0, limit: 99 }],
        tables: vec![Table {
            limit,
            mask: 0,
            life: Life::Active,
            epoch: 9,
            free_count: 0,
            free: vec![],
            empty: vec![],
            detached: (0..limit).rev().collect(),
            pages: (0..limit).map(|_| Page { frame: None, high: 1, busy: 0, slots: vec![] }).collect(),
        }],
        rows: vec![],
    }
}

fn loaded(state: &State) -> Start {
    Start::Words(words::encode(state))
}

fn down(from: u64, to: u64, generation: u64) -> Vec<u64> {
    (to..=from).rev().map(|slot| v(slot, generation)).collect()
}

fn with(front: &[u64], rest: &[u64]) -> Vec<u64> {
    [front, rest].concat()
}

pub fn all() -> Vec<Case> {
    let mut cases = Vec::new();
    points(&mut cases);
    corners(&mut cases);
    storage_corners(&mut cases);
    facts(&mut cases);
    numbers(&mut cases);
    calls(&mut cases);
    differences(&mut cases);
    cases
}

fn points(cases: &mut Vec<Case>) {
    let mut c = Case::new("P6", "fresh, reserve 3: slots 63, 62, 61, generation 1", world());
    c.ask(reserve(0, 3), &[0, 1, 3, v(63, 1), v(62, 1), v(61, 1)]);
    c.look("slots 63, 62, 61 are Reserved with generation 1, 61 slots are free, epoch 1", |s| {
        (61..64).all(|at| slot(s, 0, at) == Some(Slot::Reserved(1))) && s.tables[0].free_count == 61 && s.tables[0].epoch == 1
    });
    cases.push(c);

    let mut c = Case::new("P7", "abort those, reserve 1: slot 61, generation 2", world());
    c.ask(reserve(0, 3), &[0, 1, 3, v(63, 1), v(62, 1), v(61, 1)]);
    c.ask(abort(1), &[]);
    c.look("the free order is 61, 62, 63, 60 down to 0", |s| {
        s.tables[0].free == [vec![61, 62, 63], (0..61).rev().collect()].concat()
    });
    c.ask(reserve(0, 1), &[0, 2, 1, v(61, 2)]);
    cases.push(c);

    let mut c = Case::new("P8", "reserve 0: 17; reserve 65: 13", world());
    c.ask(reserve(0, 0), &[17]);
    c.ask(reserve(0, 65), &[13]);
    c.look("nothing has changed", |s| s.next == 1 && s.rows.is_empty() && s.tables[0].pages.is_empty());
    cases.push(c);

    let mut c = Case::new(
        "P9-P10",
        "64 slots, 0 to 8 occupied: a scan from 0 gives 8 entries, next 8, examined 8; from 8 one entry, no next, examined 56",
        wide(&[(4, 0)], 4, 16),
    );
    for object in 0..9 {
        c.ask(new_object(object, ALL, 0), &[0, object + 1]);
    }
    c.ask(reserve(0, 55), &with(&[0, 10, 55], &down(63, 9, 1)));
    c.ask(reserve(0, 9), &with(&[0, 11, 9], &down(8, 0, 1)));
    c.ask(publish(11, &[1, 2, 3, 4, 5, 6, 7, 8, 9]), &[]);
    c.look("slots 8 down to 0 hold objects 0 to 8", |s| {
        (0..9).all(|at| slot(s, 0, 8 - at) == Some(Slot::Occupied(1, Handle { object: at, rights: ALL, flags: 0 })))
    });
    c.ask(abort(10), &[]);
    let entry = |at: u64| [v(at, 1), 208 - at, 7, ALL, 0];
    let mut answer = vec![0, 8, 1, 8, 8];
    (0..8).for_each(|at| answer.extend(entry(at)));
    c.ask(scan(0, 0), &answer);
    c.ask(scan(0, 8), &with(&[0, 1, 0, 0, 56], &entry(8)));
    c.ask(scan(0, 9), &[0, 0, 0, 0, 55]);
    c.ask(scan(0, 64), &[0, 0, 0, 0, 0]);
    c.ask(scan(0, u64::MAX), &[0, 0, 0, 0, 0]);
    cases.push(c);

    let mut c = Case::new("P11", "320 slots, none occupied: a scan from 0 gives no entry, next 256 (examined 256)", wide(&[(5, 0)], 5, 16));
    for page in 0..5 {
        c.ask(reserve(0, 64), &with(&[0, page + 1, 64], &down(page * 64 + 63, page * 64, 1)));
    }
    c.ask(scan(0, 0), &[0, 0, 1, 256, 256]);
    for page in 0..5 {
        c.ask(abort(page + 1), &[]);
    }
    c.ask(scan(0, 0), &[0, 0, 1, 256, 256]);
    c.ask(scan(0, 256), &[0, 0, 0, 0, 64]);
    c.ask(scan(0, 64), &[0, 0, 0, 0, 256]);
    c.ask(scan(0, 63), &[0, 0, 1, 319, 256]);
    cases.push(c);

    let mut c = Case::new("P12", "fresh: publish in 63, close, take the page, reserve 1: slot 63, generation 3", world());
    publish_one(&mut c, 0, ALL, 0, 1, v(63, 1));
    c.ask(close(0, v(63, 1)), &[0, 100, 7, ALL]);
    c.look("slot 63 is vacant with generation 2, the page's high mark is 2, the object is retired with count 0", |s| {
        slot(s, 0, 63) == Some(Slot::Vacant(2)) && s.tables[0].pages[0].high == 2 && s.objects[0].state == RETIRED && s.objects[0].count == 0
    });
    c.ask(take_page(0), &[0, 1, 0]);
    c.look("page 0 is detached with high mark 2, its frame is free, epoch 2", |s| {
        s.tables[0].pages[0].frame.is_none() && s.tables[0].pages[0].high == 2 && s.free_frames.len() == 6 && s.tables[0].epoch == 2
    });
    c.ask(reserve(0, 1), &[0, 3, 1, v(63, 3)]);
    c.look("every slot of the page has generation 3, high mark 3, epoch 3", |s| {
        s.tables[0].pages[0].slots.iter().all(|slot| slot.generation() == 3) && s.tables[0].pages[0].high == 3 && s.tables[0].epoch == 3
    });
    cases.push(c);
}

fn corners(cases: &mut Vec<Case>) {
    let mut c = Case::new(
        "busy-and-reserved",
        "a value naming a TransferReserved slot of equal generation gives Busy, but to get_info; one naming a Reserved slot InvalidHandle",
        world(),
    );
    publish_one(&mut c, 0, ALL, 0, 1, v(63, 1));
    c.ask(reserve(0, 1), &[0, 3, 1, v(62, 1)]);
    c.ask(transfer(0, 0, vec![item(0, v(63, 1), 3)]), &[0, 4]);
    c.ask(get_info(0, v(63, 1)), &[0, 100, 7, ALL]);
    for request in [
        close(0, v(63, 1)), replace(0, v(63, 1), 0), duplicate(0, v(63, 1), 0), resolve(0, v(63, 1), 0, 7),
        consume(0, v(63, 1), 0, 7, 100), transfer(0, 0, vec![item(1, v(63, 1), 0)]),
    ] {
        c.ask(request, &[3]);
    }
    c.look("only the refused transfer has spent an id", |s| s.next == 6);
    c.ask(get_info(0, v(63, 2)), &[2]);
    for request in [
        get_info(0, v(62, 1)), close(0, v(62, 1)), replace(0, v(62, 1), 0), duplicate(0, v(62, 1), 0), resolve(0, v(62, 1), 0, 7),
        consume(0, v(62, 1), 0, 7, 100), transfer(0, 0, vec![item(0, v(62, 1), 0)]),
    ] {
        c.ask(request, &[2]);
    }
    c.ask(rollback(4), &[]);
    c.ask(get_info(0, v(63, 1)), &[0, 100, 7, ALL]);
    c.look("the handle is back with all its rights, the epoch is 1", |s| {
        slot(s, 0, 63) == Some(Slot::Occupied(1, Handle { object: 0, rights: ALL, flags: 0 })) && s.tables[0].epoch == 1
    });
    cases.push(c);

    let mut slots = vec![Slot::Vacant(1); 64];
    slots[0] = Slot::Occupied(LIMIT, Handle { object: 0, rights: ALL, flags: 0 });
    slots[1] = Slot::Occupied(LIMIT, Handle { object: 0, rights: ALL, flags: 0 });
    slots[2] = Slot::Occupied(LIMIT - 1, Handle { object: 0, rights: ALL, flags: 0 });
    let mut c = Case::new(
        "generation-wraps",
        "next_generation of 4,294,967,295 is 1: after replace and after close, the high mark stays",
        loaded(&one_page(LIMIT, slots, 5, 0)),
    );
    c.ask(replace(0, v(0, LIMIT), 3), &[0, v(0, 1)]);
    c.look("slot 0 has generation 1, the high mark is still the limit", |s| {
        slot(s, 0, 0).map(Slot::generation) == Some(1) && s.tables[0].pages[0].high == LIMIT
    });
    c.ask(close(0, v(1, LIMIT)), &[0, 50, 7, ALL]);
    c.look("slot 1 is vacant with generation 1", |s| slot(s, 0, 1) == Some(Slot::Vacant(1)));
    c.ask(replace(0, v(2, LIMIT - 1), ALL), &[0, v(2, LIMIT)]);
    c.ask(transfer(0, 0, vec![item(0, v(2, LIMIT), 0)]), &[0, 5]);
    c.ask(commit(5), &[]);
    c.look("the moved slot is vacant with generation 1", |s| slot(s, 0, 2) == Some(Slot::Vacant(1)));
    c.ask(get_info(0, v(0, LIMIT)), &[2]);
    cases.push(c);

    let mut c = Case::new(
        "when-the-id-is-spent",
        "prepare_transfer spends its id before it looks at any value, prepare_consumption after all checks",
        world(),
    );
    c.ask(transfer(0, 0, vec![item(0, v(63, 1), 0)]), &[2]);
    c.look("the next id is 2", |s| s.next == 2);
    c.ask(consume(0, v(63, 1), 0, 7, 100), &[2]);
    c.look("the next id is still 2", |s| s.next == 2);
    publish_one(&mut c, 0, 1, 0, 2, v(63, 1));
    c.ask(consume(0, v(63, 1), 2, 7, 100), &[5]);
    c.ask(consume(0, v(63, 1), 1, 8, 100), &[4]);
    c.ask(consume(0, v(63, 1), 1, 7, 101), &[2]);
    c.look("refused consumptions spend nothing: the next id is 4", |s| s.next == 4);
    c.ask(consume(0, v(63, 1), 1, 7, 100), &[0, 4]);
    c.look("the next id is 5", |s| s.next == 5);
    c.ask(rollback(4), &[]);
    c.ask(transfer(0, 0, vec![item(0, v(63, 1), 0)]), &[5]);
    c.look("no TRANSFER right: 5, and the next id is 6", |s| s.next == 6);
    c.ask(transfer(0, 0, vec![]), &[17]);
    c.ask(transfer(0, 0, (0..65).map(|_| item(0, 1, 0)).collect()), &[13]);
    c.look("refused before the id step: the next id is 6", |s| s.next == 6);
    cases.push(c);

    let mut c = Case::new("listed-twice", "a value listed twice in one transfer gives InvalidHandle, even if one is Copy", world());
    publish_one(&mut c, 0, ALL, 0, 1, v(63, 1));
    for (first, second) in [(0, 0), (0, 1), (1, 0), (1, 1)] {
        c.ask(transfer(0, 0, vec![item(first, v(63, 1), 0), item(second, v(63, 1), 0)]), &[2]);
    }
    c.look("four ids were spent, no claim is open, the count is 1", |s| s.next == 7 && s.rows.is_empty() && s.objects[0].count == 1);
    cases.push(c);

    let mut c = Case::new("retired-object", "moving a handle of a retired object is accepted, copying it gives ObjectRetired", world());
    publish_one(&mut c, 0, ALL, 0, 1, v(63, 1));
    publish_one(&mut c, 1, ALL, 0, 3, v(62, 1));
    c.ask(retire(0), &[]);
    c.look("retired with count 1", |s| s.objects[0].state == RETIRED && s.objects[0].count == 1);
    c.ask(transfer(0, 0, vec![item(1, v(63, 1), 0)]), &[9]);
    c.ask(duplicate(0, v(63, 1), 0), &[9]);
    c.ask(transfer(0, 0, vec![item(1, v(62, 1), 0), item(1, v(63, 1), 0)]), &[9]);
    c.look("the first copy was given back: count 1", |s| s.objects[1].count == 1);
    c.ask(transfer(0, 0, vec![item(0, v(63, 1), 0)]), &[0, 7]);
    c.ask(commit(7), &[]);
    c.ask(release(7), &[]);
    c.look("retired with count 0", |s| s.objects[0].state == RETIRED && s.objects[0].count == 0);
    cases.push(c);

    let mut c = Case::new(
        "fifth-copy-refused",
        "the fifth Copy is refused at the limit: 11, and the four before it are released (the driver drops the storage)",
        world(),
    );
    c.ask(new_object(4, ALL, 0), &[0, 1]);
    c.ask(reserve(0, 1), &[0, 2, 1, v(63, 1)]);
    c.ask(publish(2, &[1]), &[]);
    for at in 0..4 {
        publish_one(&mut c, [0, 1, 2, 7][at as usize], 7, 0, 3 + 2 * at, v(62 - at, 1));
    }
    // The object's limit is 5 and its count 1: four duplicates are copied from other values of the same object.
    for at in 0..3 {
        c.ask(duplicate(0, v(63, 1), 7), &[0, 11 + 2 * at]);
        c.ask(reserve(0, 1), &[0, 12 + 2 * at, 1, v(58 - at, 1)]);
        c.ask(publish(12 + 2 * at, &[11 + 2 * at]), &[]);
    }
    c.look("object 4 has count 4 of 5", |s| s.objects[4].count == 4);
    c.ask(
        transfer(
            0,
            1,
            vec![
                item(1, v(62, 1), 0),
                item(1, v(61, 1), 0),
                item(1, v(60, 1), 0),
                item(1, v(58, 1), 0),
                item(1, v(57, 1), 0),
            ],
        ),
        &[11],
    );
    c.look("all counts are as before, one id is spent", |s| {
        s.objects[0].count == 1 && s.objects[1].count == 1 && s.objects[2].count == 1 && s.objects[4].count == 4 && s.next == 18
    });
    cases.push(c);

    let mut c = Case::new("copy-only-claim", "a Copy-only claim marks no slot, and counts as an open claim", world());
    publish_one(&mut c, 0, ALL, 0, 1, v(63, 1));
    c.ask(transfer(0, 0, vec![item(1, v(63, 1), 2)]), &[0, 3]);
    c.look("slot 63 is Occupied, the count is 2", |s| matches!(slot(s, 0, 63), Some(Slot::Occupied(..))) && s.objects[0].count == 2);
    c.ask(get_info(0, v(63, 1)), &[0, 100, 7, ALL]);
    c.ask(transfer(0, 0, vec![item(0, v(63, 1), 0)]), &[0, 4]);
    c.ask(rollback(4), &[]);
    c.ask(teardown_start(0), &[14]);
    c.ask(close(0, v(63, 1)), &[0, 100, 7, ALL]);
    c.look("the copy keeps the object active with count 1", |s| s.objects[0].state == ACTIVE && s.objects[0].count == 1);
    c.ask(teardown_start(0), &[14]);
    c.ask(commit(3), &[]);
    c.look("the parcel has id 3 and rights 2", |s| s.rows[0].id == 3 && s.rows[0].kind == RowKind::Parcel(vec![Handle { object: 0, rights: 2, flags: 0 }]));
    c.ask(commit(3), &[18]);
    c.ask(rollback(3), &[18]);
    c.ask(release(3), &[]);
    c.ask(teardown_start(0), &[]);
    cases.push(c);

    let mut c = Case::new(
        "head-of-the-free-order",
        "closing, aborting, trimming and committing put slots at the head of the free order, one by one in list order",
        wide(&[(2, 0)], 2, 32),
    );
    for object in 0..6 {
        publish_one(&mut c, object, ALL, 0, 1 + 2 * object, v(63 - object, 1));
    }
    c.ask(close(0, v(60, 1)), &[0, 203, 7, ALL]);
    c.ask(close(0, v(62, 1)), &[0, 201, 7, ALL]);
    c.look("closed 60, then 62: the order begins 62, 60, 57", |s| s.tables[0].free[..3] == [62, 60, 57]);
    c.ask(transfer(0, 0, vec![item(0, v(59, 1), 0), item(1, v(61, 1), 0), item(0, v(63, 1), 0)]), &[0, 13]);
    c.look("preparing leaves the order alone", |s| s.tables[0].free[..3] == [62, 60, 57]);
    c.ask(commit(13), &[]);
    c.look("moved 59, then 63: the order begins 63, 59, 62", |s| s.tables[0].free[..3] == [63, 59, 62]);
    c.ask(reserve(0, 5), &[0, 14, 5, v(63, 2), v(59, 2), v(62, 2), v(60, 2), v(57, 1)]);
    c.ask(trim(14, 2), &[]);
    c.look("trimmed 62, 60, 57: the order begins 57, 60, 62", |s| s.tables[0].free[..3] == [57, 60, 62]);
    c.ask(trim(14, 2), &[]);
    c.ask(trim(14, 3), &[18]);
    c.ask(trim(14, 0), &[18]);
    c.ask(abort(14), &[]);
    c.look("aborted 63, 59: the order begins 59, 63, 57", |s| s.tables[0].free[..3] == [59, 63, 57]);
    c.ask(reserve(0, 1), &[0, 15, 1, v(59, 3)]);
    cases.push(c);

    let mut c = Case::new(
        "rollback-with-copies-between",
        "rolled back, each moved handle goes to its own slot with its own rights, copies between them are released",
        wide(&[(2, 0)], 2, 32),
    );
    for object in 0..5 {
        publish_one(&mut c, object, ALL - (object << 8), 0, 1 + 2 * object, v(63 - object, 1));
    }
    c.ask(
        transfer(
            0,
            0,
            vec![
                item(1, v(63, 1), 1),
                item(0, v(62, 1), 2),
                item(1, v(61, 1), 4),
                item(0, v(60, 1), 8),
                item(0, v(59, 1), 0),
            ],
        ),
        &[0, 11],
    );
    c.look("two copies count, three slots are TransferReserved", |s| {
        s.objects[0].count == 2 && s.objects[2].count == 2 && [62, 60, 59].iter().all(|at| slot(s, 0, *at) == Some(Slot::Moving(1)))
    });
    c.ask(rollback(11), &[]);
    c.look("every slot holds its own object with its own rights, every count is 1", |s| {
        (0..5).all(|at| slot(s, 0, 63 - at) == Some(Slot::Occupied(1, Handle { object: at, rights: ALL - (at << 8), flags: 0 })))
            && (0..5).all(|at| s.objects[at].count == 1)
    });
    c.ask(reserve(0, 5), &[0, 12, 5, v(58, 1), v(57, 1), v(56, 1), v(55, 1), v(54, 1)]);
    c.ask(
        transfer(0, 0, vec![item(1, v(63, 1), 1), item(0, v(62, 1), 2), item(1, v(61, 1), 4), item(0, v(60, 1), 8), item(0, v(59, 1), 0)]),
        &[0, 13],
    );
    c.ask(direct_rollback(13, 12), &[]);
    c.look("as before, and the reserved slots are vacant with generation 2", |s| {
        (0..5).all(|at| slot(s, 0, 63 - at) == Some(Slot::Occupied(1, Handle { object: at, rights: ALL - (at << 8), flags: 0 })))
            && (54..59).all(|at| slot(s, 0, at) == Some(Slot::Vacant(2)))
            && s.rows.is_empty()
    });
    cases.push(c);
}

fn storage_corners(cases: &mut Vec<Case>) {
    let mut c = Case::new("rising-slots", "a new page is published by rising slot: the free order of a fresh page is 62 down to 0 after one reservation", world());
    c.ask(reserve(0, 1), &[0, 1, 1, v(63, 1)]);
    c.look("the free order is 62 down to 0", |s| s.tables[0].free == (0..63).rev().collect::<Vec<u64>>());
    cases.push(c);

    let mut state = one_page(LIMIT, vec![Slot::Vacant(LIMIT); 64], 1, 3);
    let page = state.tables[0].pages[0].clone();
    state.tables[0].pages.push(Page { frame: None, high: LIMIT, busy: 0, slots: vec![] });
    state.tables[0].detached = vec![1];
    state.tables[0].pages[0] = page;
    let mut c = Case::new(
        "fresh-generation-at-the-limit",
        "fresh_generation at the limit gives 1 and lowers the page's high mark to 1",
        loaded(&state),
    );
    c.ask(reserve(0, 64), &with(&[0, 1, 64], &(0..64).map(|at| v(at, LIMIT)).collect::<Vec<u64>>()));
    c.ask(reserve(0, 2), &[0, 2, 2, v(127, 1), v(126, 1)]);
    c.look("page 1 has high mark 1 and generation 1 in all slots", |s| {
        s.tables[0].pages[1].high == 1 && s.tables[0].pages[1].slots.iter().all(|slot| slot.generation() == 1)
    });
    c.ask(abort(1), &[]);
    c.look("slots at the limit are vacant with generation 1, page 0 keeps its high mark", |s| {
        slot(s, 0, 5) == Some(Slot::Vacant(1)) && s.tables[0].pages[0].high == LIMIT
    });
    c.ask(take_page(0), &[0, 1, 0]);
    c.ask(reserve(0, 64), &with(&[0, 3, 64], &down(63, 0, 1)));
    c.look("page 0 has high mark 1", |s| s.tables[0].pages[0].high == 1);
    cases.push(c);

    let mut c = Case::new("detached-pages-in-the-scan", "detached pages still count in the scan's length, their slots show nothing", wide(&[(4, 0)], 4, 16));
    c.ask(reserve(0, 64), &with(&[0, 1, 64], &down(63, 0, 1)));
    c.ask(new_object(0, 1, 2), &[0, 2]);
    c.ask(reserve(0, 1), &[0, 3, 1, v(127, 1)]);
    c.ask(publish(3, &[2]), &[]);
    c.ask(abort(1), &[]);
    c.ask(take_page(0), &[0, 1, 0]);
    c.look("two pages, one of them detached", |s| s.tables[0].pages.len() == 2 && s.tables[0].pages[0].frame.is_none());
    c.ask(scan(0, 0), &[0, 1, 0, 0, 128, v(127, 1), 200, 7, 1, 2]);
    c.ask(scan(0, 63), &[0, 1, 0, 0, 65, v(127, 1), 200, 7, 1, 2]);
    c.ask(stopping(0, 5), &[0, 1, 128, v(127, 1), 200, 7, 1, 2]);
    c.ask(take_page(0), &[0, 1, 1]);
    c.ask(take_page(0), &[]);
    c.ask(scan(0, 0), &[0, 0, 0, 0, 128]);
    cases.push(c);

    let mut c = Case::new("last-page", "page 262,143 has 63 slots: 64 slots need two pages, and the epoch rises once", loaded(&last_page_state(MAX_PAGES)));
    let last = MAX_SLOTS - 1;
    c.ask(
        reserve(0, 64),
        &with(&[0, 1, 64], &with(&down(last - 63, last - 126, 2), &[])),
    );
    c.look("both pages are attached, the last has 63 slots, 63 are free, the epoch rose by one", |s| {
        let table = &s.tables[0];
        table.pages[262_143].slots.len() == 63
            && table.pages[262_143].frame == Some(0)
            && table.pages[262_142].frame == Some(1)
            && table.free_count == 63
            && table.epoch == 10
    });
    c.ask(new_object(0, ALL, 0), &[0, 2]);
    c.ask(reserve(0, 63), &with(&[0, 3, 63], &down(last, last - 62, 2)));
    c.ask(abort(3), &[]);
    c.ask(reserve(0, 1), &[0, 4, 1, v(last - 62, 3)]);
    c.ask(abort(4), &[]);
    c.ask(reserve(0, 63), &[&[0, 5, 63, v(last - 62, 4)][..], &(last - 61..=last).map(|at| v(at, 3)).collect::<Vec<u64>>()].concat());
    c.ask(trim(5, 1), &[]);
    c.ask(publish(5, &[2]), &[]);
    c.ask(scan(0, last - 62), &[0, 1, 0, 0, 63, v(last - 62, 4), 50, 7, ALL]);
    c.ask(scan(0, last + 1), &[]);
    c.ask(stopping(0, last - 61), &[]);
    c.ask(stopping(0, 0), &[0, 1, last - 61, v(last - 62, 4), 50, 7, ALL]);
    c.ask(take_page(0), &[0, 1, 262_143]);
    c.ask(get_info(0, v(last, 2)), &[2]);
    cases.push(c);

    let mut state = last_page_state(MAX_PAGES);
    state.tables[0].detached = vec![262_143];
    // As many attached pages as there are frames would be needed to fill the table; here the others are attached in no frame, so keep
    // them detached behind the last one and leave too few frames.
    state.tables[0].detached = [vec![262_143], (0..262_143).collect()].concat();
    state.frames = 1;
    state.free_frames = vec![0];
    let mut c = Case::new("last-page-one-frame", "two pages needed and one frame free: 1; 63 slots need the last page only", loaded(&state));
    c.ask(reserve(0, 64), &[1]);
    c.look("nothing has changed", |s| s.next == 1 && s.free_frames.len() == 1 && s.tables[0].epoch == 9);
    c.ask(reserve(0, 63), &with(&[0, 1, 63], &down(last, last - 62, 2)));
    cases.push(c);
}

fn facts(cases: &mut Vec<Case>) {
    let mut c = Case::new("growth-before-older-free", "4 free, reserve 5: the new page's slots 127 to 123 come before the older free ones", wide(&[(4, 0)], 4, 16));
    c.ask(reserve(0, 60), &with(&[0, 1, 60], &down(63, 4, 1)));
    c.ask(reserve(0, 5), &with(&[0, 2, 5], &down(127, 123, 1)));
    c.look("63 slots are free, the older four at the end of the order", |s| {
        s.tables[0].free_count == 63 && s.tables[0].free[59..] == [3, 2, 1, 0]
    });
    cases.push(c);

    let mut c = Case::new("page-orders", "empty and detached pages: last in, first out; growth takes detached pages first, and the lowest free frame", wide(&[(4, 0)], 4, 16));
    for page in 0..3 {
        c.ask(reserve(0, 64), &with(&[0, page + 1, 64], &down(page * 64 + 63, page * 64, 1)));
    }
    c.ask(abort(2), &[]);
    c.ask(abort(1), &[]);
    c.ask(abort(3), &[]);
    c.look("empty pages in the order 2, 0, 1", |s| s.tables[0].empty == [2, 0, 1]);
    c.ask(take_page(0), &[0, 1, 2]);
    c.ask(take_page(0), &[0, 1, 0]);
    c.ask(take_page(0), &[0, 1, 1]);
    c.ask(take_page(0), &[]);
    c.look("detached pages in the order 1, 0, 2; epoch 6", |s| s.tables[0].detached == [1, 0, 2] && s.tables[0].epoch == 6);
    c.ask(reserve(0, 64), &with(&[0, 4, 64], &down(127, 64, 3)));
    c.look("page 1 in frame 0", |s| s.tables[0].pages[1].frame == Some(0));
    c.ask(reserve(0, 64), &with(&[0, 5, 64], &down(63, 0, 3)));
    c.ask(reserve(0, 64), &with(&[0, 6, 64], &down(191, 128, 3)));
    c.ask(reserve(0, 64), &with(&[0, 7, 64], &down(255, 192, 1)));
    c.ask(reserve(0, 1), &[15]);
    cases.push(c);

    let mut c = Case::new("empty-order-middle", "a page in the middle of the order of empty pages that is used again leaves it", wide(&[(4, 0)], 4, 16));
    for page in 0..3 {
        c.ask(reserve(0, 64), &with(&[0, page + 1, 64], &down(page * 64 + 63, page * 64, 1)));
    }
    c.ask(abort(1), &[]);
    c.ask(abort(2), &[]);
    c.ask(abort(3), &[]);
    c.look("empty pages in the order 2, 1, 0", |s| s.tables[0].empty == [2, 1, 0]);
    c.ask(reserve(0, 64), &with(&[0, 4, 64], &(128..192).map(|at| v(at, 2)).collect::<Vec<u64>>()));
    c.ask(reserve(0, 1), &[0, 5, 1, v(64, 2)]);
    c.look("only page 0 is left in the order", |s| s.tables[0].empty == [0]);
    c.ask(abort(4), &[]);
    c.ask(abort(5), &[]);
    c.look("empty pages in the order 1, 2, 0", |s| s.tables[0].empty == [1, 2, 0]);
    cases.push(c);

    let mut c = Case::new("copies-in-turn", "copies are taken one by one: at its limit before a retired one gives 11, the other way 9", world());
    publish_one(&mut c, 4, ALL, 0, 1, v(63, 1));
    publish_one(&mut c, 0, ALL, 0, 3, v(62, 1));
    for at in 0..4 {
        c.ask(duplicate(0, v(63, 1), 0), &[0, 5 + at]);
    }
    c.ask(duplicate(0, v(63, 1), 0), &[11]);
    c.ask(retire(0), &[]);
    c.ask(transfer(0, 0, vec![item(1, v(63, 1), 0), item(1, v(62, 1), 0)]), &[11]);
    c.ask(transfer(0, 0, vec![item(1, v(62, 1), 0), item(1, v(63, 1), 0)]), &[9]);
    c.ask(retire(4), &[]);
    c.ask(duplicate(0, v(63, 1), 0), &[9]);
    cases.push(c);

    let mut c = Case::new(
        "teardown",
        "teardown: 14 with a reservation open, then the walk, none at its end, finish; 16 and 18 out of turn; afterwards none",
        world(),
    );
    publish_one(&mut c, 0, 3, 0, 1, v(63, 1));
    publish_one(&mut c, 1, 5, 0, 3, v(62, 1));
    c.ask(reserve(0, 1), &[0, 5, 1, v(61, 1)]);
    c.ask(teardown_start(0), &[14]);
    c.ask(teardown_step(0), &[18]);
    c.ask(teardown_finish(0), &[18]);
    c.ask(abort(5), &[]);
    c.ask(teardown_start(0), &[]);
    c.ask(teardown_start(0), &[16]);
    c.ask(teardown_finish(0), &[18]);
    for request in [
        reserve(0, 1), reserve(0, 0), reserve(0, 65), transfer(0, 0, vec![]), get_info(0, v(63, 1)), resolve(0, v(63, 1), 0, 7),
        replace(0, v(63, 1), 0), close(0, v(63, 1)), scan(0, 0), duplicate(0, v(63, 1), 0), transfer(0, 0, vec![item(0, v(63, 1), 0)]), consume(0, v(63, 1), 0, 7, 100),
    ] {
        c.ask(request, &[16]);
    }
    c.ask(stopping(0, 3), &[0, 0, 3]);
    c.ask(take_page(0), &[]);
    c.ask(teardown_step(0), &[0, 1, 101, 8, 5, 0]);
    c.look("the cursor is 63, slot 62 is vacant with generation 2 at the head, object 1 is retired", |s| {
        s.tables[0].life == Life::TearingDown(63) && s.tables[0].free[0] == 62 && s.objects[1].state == RETIRED
    });
    c.ask(teardown_finish(0), &[18]);
    c.ask(teardown_step(0), &[0, 1, 100, 7, 3, 0]);
    c.ask(teardown_step(0), &[]);
    c.ask(teardown_step(0), &[]);
    c.ask(teardown_finish(0), &[]);
    c.look("the table is retired and keeps its frame", |s| s.tables[0].life == Life::Retired && s.tables[0].pages[0].frame == Some(0));
    c.ask(teardown_finish(0), &[18]);
    c.ask(teardown_step(0), &[18]);
    c.ask(teardown_start(0), &[16]);
    c.ask(scan(0, 0), &[16]);
    c.ask(stopping(0, 9), &[0, 0, 9]);
    c.ask(take_page(0), &[]);
    cases.push(c);

    let mut c = Case::new("stopping-owner", "remove_stopping_owner walks occupied slots, leaves claims alone, and starts again at 0", world());
    for object in 0..3 {
        publish_one(&mut c, object, ALL, 0, 1 + 2 * object, v(63 - object, 1));
    }
    c.ask(transfer(0, 1, vec![item(0, v(62, 1), 0)]), &[0, 7]);
    c.ask(stopping(0, 0), &[0, 1, 62, v(61, 1), 102, 9, ALL]);
    c.ask(stopping(0, 62), &[0, 1, 64, v(63, 1), 100, 7, ALL]);
    c.look("the removed slots stand at the head of the free order: 63, 61", |s| s.tables[0].free[..2] == [63, 61]);
    c.ask(stopping(0, 64), &[]);
    c.ask(rollback(7), &[]);
    c.ask(stopping(0, 0), &[0, 1, 63, v(62, 1), 101, 8, ALL]);
    c.ask(stopping(0, u64::MAX), &[]);
    cases.push(c);

    let mut c = Case::new("direct-two-tables", "direct commit between two tables, both ways, rights cut to what the receiver gets, and direct rollback", world());
    publish_one(&mut c, 0, 7, 0, 1, v(63, 1));
    publish_one(&mut c, 1, 7, 0, 3, v(62, 1));
    c.ask(transfer(0, 1, vec![item(0, v(62, 1), 6), item(1, v(63, 1), 3)]), &[0, 5]);
    c.ask(reserve(1, 3), &[0, 6, 3, v(63, 1), v(62, 1), v(61, 1)]);
    c.ask(direct_commit(5, 6), &[18]);
    c.ask(direct_rollback(5, 6), &[18]);
    c.ask(trim(6, 2), &[]);
    c.ask(direct_commit(6, 5), &[18]);
    c.ask(direct_commit(5, 5), &[18]);
    c.ask(direct_commit(5, 6), &[]);
    c.look("table 1 holds the moved handle in 63 and the copy in 62, table 0's slot 62 is vacant with generation 2", |s| {
        slot(s, 1, 63) == Some(Slot::Occupied(1, Handle { object: 1, rights: 6, flags: 0 }))
            && slot(s, 1, 62) == Some(Slot::Occupied(1, Handle { object: 0, rights: 3, flags: 0 }))
            && slot(s, 0, 62) == Some(Slot::Vacant(2))
            && s.rows.is_empty()
    });
    c.ask(transfer(1, 1, vec![item(0, v(63, 1), 4)]), &[0, 7]);
    c.ask(reserve(0, 1), &[0, 8, 1, v(62, 2)]);
    c.ask(direct_rollback(7, 8), &[]);
    c.ask(get_info(1, v(63, 1)), &[0, 101, 8, 6]);
    c.ask(transfer(1, 1, vec![item(0, v(63, 1), 4)]), &[0, 9]);
    c.ask(reserve(0, 1), &[0, 10, 1, v(62, 3)]);
    c.ask(direct_commit(9, 10), &[]);
    c.ask(get_info(0, v(62, 3)), &[0, 101, 8, 4]);
    c.ask(transfer(0, 1, vec![item(0, v(62, 3), 4)]), &[5]);
    cases.push(c);

    let mut c = Case::new("direct-one-table", "direct commit within one table: the moved slot is vacated first, then the reserved one filled", world());
    publish_one(&mut c, 0, 7, 0, 1, v(63, 1));
    c.ask(transfer(0, 1, vec![item(0, v(63, 1), 3)]), &[0, 3]);
    c.ask(reserve(0, 1), &[0, 4, 1, v(62, 1)]);
    c.ask(direct_commit(3, 4), &[]);
    c.ask(get_info(0, v(62, 1)), &[0, 100, 7, 3]);
    c.look("slot 63 is vacant with generation 2 at the head, the count is 1", |s| {
        slot(s, 0, 63) == Some(Slot::Vacant(2)) && s.tables[0].free[0] == 63 && s.objects[0].count == 1
    });
    cases.push(c);

    let mut c = Case::new("publish-from-parcels", "publish fills the slots in order from several parcels; wrong rows and lengths give 18", wide(&[(2, 0)], 2, 16));
    for object in 0..4 {
        publish_one(&mut c, object, ALL, 0, 1 + 2 * object, v(63 - object, 1));
    }
    c.ask(transfer(0, 0, vec![item(0, v(61, 1), 1), item(0, v(63, 1), 2), item(1, v(62, 1), 4)]), &[0, 9]);
    c.ask(commit(9), &[]);
    c.ask(new_object(4, 8, 1), &[0, 10]);
    c.ask(reserve(0, 4), &[0, 11, 4, v(63, 2), v(61, 2), v(59, 1), v(58, 1)]);
    c.ask(publish(11, &[9]), &[18]);
    c.ask(publish(11, &[]), &[18]);
    c.ask(publish(11, &[9, 9]), &[18]);
    // as many handles as slots
    c.ask(publish(11, &[10, 10, 10, 10]), &[18]);
    c.ask(publish(11, &[10, 11]), &[18]);
    c.ask(publish(10, &[9]), &[18]);
    c.ask(publish(11, &[10, 12]), &[18]);
    c.ask(publish(11, &[10, 9]), &[]);
    c.look("63 holds object 4, 61 object 2 with rights 1, 59 object 0 with rights 2, 58 object 1 with rights 4", |s| {
        slot(s, 0, 63) == Some(Slot::Occupied(2, Handle { object: 4, rights: 8, flags: 1 }))
            && slot(s, 0, 61) == Some(Slot::Occupied(2, Handle { object: 2, rights: 1, flags: 0 }))
            && slot(s, 0, 59) == Some(Slot::Occupied(1, Handle { object: 0, rights: 2, flags: 0 }))
            && slot(s, 0, 58) == Some(Slot::Occupied(1, Handle { object: 1, rights: 4, flags: 0 }))
    });
    cases.push(c);

    let mut c = Case::new("replace-high-mark", "replace raises the page's high mark with the generation, and a page taken afterwards starts above it", world());
    publish_one(&mut c, 0, 7, 0, 1, v(63, 1));
    c.ask(replace(0, v(63, 1), 8), &[5]);
    c.ask(replace(0, v(63, 1), 5), &[0, v(63, 2)]);
    c.ask(replace(0, v(63, 2), 5), &[0, v(63, 3)]);
    c.ask(replace(0, v(63, 3), 1), &[0, v(63, 4)]);
    c.look("the high mark is 4", |s| s.tables[0].pages[0].high == 4);
    c.ask(get_info(0, v(63, 3)), &[2]);
    c.ask(get_info(0, v(63, 4)), &[0, 100, 7, 1]);
    c.ask(close(0, v(63, 4)), &[0, 100, 7, 1]);
    c.ask(take_page(0), &[0, 1, 0]);
    c.ask(reserve(0, 1), &[0, 3, 1, v(63, 6)]);
    cases.push(c);

    let mut c = Case::new("held-and-plain", "preparing and rolling back leave epoch, high marks and orders; a commit moves them as closing in order would", wide(&[(2, 0)], 2, 16));
    for object in 0..3 {
        publish_one(&mut c, object, ALL, 0, 1 + 2 * object, v(63 - object, 1));
    }
    let before = |s: &State| s.tables[0].free[0] == 60 && s.tables[0].epoch == 1 && s.tables[0].pages[0].high == 1 && s.tables[0].pages[0].busy == 3 && s.tables[0].empty.is_empty();
    c.ask(transfer(0, 0, vec![item(0, v(63, 1), 0), item(0, v(61, 1), 0), item(0, v(62, 1), 0)]), &[0, 7]);
    c.look("free order, epoch, high mark, busy count and orders are unchanged by preparing", before);
    c.ask(rollback(7), &[]);
    c.look("and by rolling back", before);
    c.ask(transfer(0, 0, vec![item(0, v(63, 1), 0), item(0, v(61, 1), 0), item(0, v(62, 1), 0)]), &[0, 8]);
    c.ask(commit(8), &[]);
    c.look("as after closing 63, 61, 62: order 62, 61, 63, 60, high mark 2, epoch 1, page 0 empty", |s| {
        s.tables[0].free[..4] == [62, 61, 63, 60] && s.tables[0].pages[0].high == 2 && s.tables[0].epoch == 1 && s.tables[0].empty == [0]
    });
    cases.push(c);

    let mut c = Case::new("masks", "the same table with other seeds: the mask is the seed's low 56 bits", Start::Create(params(&[(1, 0xFFFF_FFFF_FFFF_FFFF), (1, 0xAB00_0000_0000_0001)], 2, &THINGS, 8)));
    c.ask(reserve(0, 1), &[0, 1, 1, v(63, 1) ^ 0x00FF_FFFF_FFFF_FFFF]);
    c.ask(reserve(1, 1), &[0, 2, 1, v(63, 1) ^ 1]);
    c.ask(new_object(0, ALL, 0), &[0, 3]);
    c.ask(publish(2, &[3]), &[]);
    c.ask(get_info(1, v(63, 1) ^ 1), &[0, 100, 7, ALL]);
    c.ask(get_info(1, v(63, 1)), &[2]);
    c.ask(get_info(0, v(63, 1) ^ 1), &[2]);
    cases.push(c);
}

fn numbers(cases: &mut Vec<Case>) {
    let mut c = Case::new("transfer-order", "a transfer's refusals item by item: 2, 3, 5, 8 (kind), 5 (object), 8 (route), 4, then copies 9, 11", world());
    publish_one(&mut c, 0, ALL, 0, 1, v(63, 1));
    publish_one(&mut c, 1, ALL - 2, 0, 3, v(62, 1));
    publish_one(&mut c, 2, 6, 0, 5, v(61, 1));
    publish_one(&mut c, 3, ALL, 0, 7, v(60, 1));
    let bad_kind = item(0, v(63, 1), 0).with(EXPECTED_KIND, 8);
    c.ask(transfer(0, 0, vec![bad_kind.clone(), item(0, 1, 0)]), &[4]);
    c.ask(transfer(0, 0, vec![item(0, 1, 0), bad_kind]), &[2]);
    c.ask(transfer(0, 0, vec![item(0, v(62, 1), 0)]), &[5]);
    c.ask(transfer(0, 1, vec![item(1, v(61, 1), 0)]), &[5]);
    c.ask(transfer(0, 1, vec![item(0, v(61, 1), 8)]), &[5]);
    c.ask(transfer(0, 1, vec![item(0, v(61, 1), 4).with(OFFERED_RIGHTS, 8)]), &[5]);
    c.ask(transfer(0, 1, vec![item(0, v(61, 1), 4).with(OFFERED_RIGHTS, 2)]), &[5]);
    c.ask(transfer(0, 1, vec![item(0, v(61, 1), 4).with(OFFERED_RIGHTS, 4)]), &[0, 16]);
    c.ask(transfer(0, 1, vec![item(0, v(61, 1), 4)]), &[3]);
    c.ask(rollback(16), &[]);
    c.ask(transfer(0, 0, vec![item(0, v(61, 1), 4)]), &[8]);
    c.ask(transfer(0, 2, vec![item(0, v(61, 1), 4)]), &[0, 19]);
    c.ask(rollback(19), &[]);
    c.ask(transfer(0, 1, vec![item(0, v(60, 1), 4)]), &[8]);
    c.ask(transfer(0, 2, vec![item(0, v(60, 1), 4)]), &[8]);
    let forbid = |kind: Option<u64>, koid: Option<u64>, route: u64, item: Record| {
        let mut request = transfer(0, route, vec![item]);
        if let Some(kind) = kind {
            request = request.with(FORBIDDEN_KIND, kind);
        }
        if let Some(koid) = koid {
            request = request.with(FORBIDDEN_OBJECT, koid);
        }
        request
    };
    c.ask(forbid(Some(7), Some(100), 0, item(0, v(63, 1), 0)), &[8]);
    c.ask(forbid(None, Some(100), 0, item(0, v(63, 1), 0)), &[5]);
    c.ask(forbid(None, Some(103), 0, item(0, v(60, 1), 0)), &[5]);
    c.ask(forbid(Some(8), Some(101), 0, item(0, v(63, 1), 0)), &[0, 25]);
    c.ask(rollback(25), &[]);
    c.ask(transfer(0, 0, vec![item(0, v(63, 1), 0).with(OFFERED_KIND, 8).with(EXPECTED_KIND, 7)]), &[4]);
    c.ask(transfer(0, 0, vec![item(0, v(63, 1), 0).with(OFFERED_KIND, 7).with(EXPECTED_KIND, 7)]), &[0, 27]);
    c.look("ids 9 to 27 are spent", |s| s.next == 28);
    c.ask(transfer(2, 0, vec![item(0, v(63, 1), 0)]), &[18]);
    cases.push(c);

    let mut c = Case::new("new-object-order", "a new object's refusals: 1, 6, 7, then activation 6, 9, 10, 11, then 12", Start::Create(params(&[(1, 0)], 1, &THINGS, 2)));
    c.ask(new_object(8, 0, 0), &[18]);
    c.ask(new_object(7, 8, 4), &[6]);
    c.ask(new_object(7, 7, 4), &[7]);
    c.ask(new_object(5, 0, 4), &[7]);
    c.ask(new_object(5, 0, 3), &[6]);
    c.ask(new_object(6, 0, 0), &[11]);
    c.ask(retire(6), &[]);
    c.ask(new_object(6, 0, 0), &[9]);
    c.ask(new_object(7, 7, 3), &[0, 1]);
    c.ask(new_object(7, 7, 0), &[10]);
    c.ask(new_object(7, 8, 0), &[6]);
    c.ask(new_object(0, 0, 1), &[0, 2]);
    c.ask(new_object(1, 0, 0), &[1]);
    c.ask(new_object(7, 8, 4), &[1]);
    c.ask(new_object(9, 8, 4), &[18]);
    c.ask(release(1), &[]);
    c.ask(release(1), &[18]);
    c.ask(new_object(7, 7, 0), &[9]);
    c.ask(retire(9), &[18]);
    cases.push(c);

    let mut slots = vec![Slot::Vacant(1); 64];
    slots[0] = Slot::Occupied(1, Handle { object: 0, rights: ALL, flags: 0 });
    let mut c = Case::new("ids-run-out", "the last id is 2^64 - 2; then 12, last of all checks, and nothing changes", loaded(&one_page(1, slots, u64::MAX - 1, 0)));
    c.ask(duplicate(0, v(0, 1), 0), &[0, u64::MAX - 1]);
    c.look("the next id is 2^64 - 1", |s| s.next == u64::MAX);
    c.ask(duplicate(0, v(0, 1), 0), &[12]);
    c.ask(new_object(1, 0, 0), &[12]);
    c.look("the object stays new, the count is 2", |s| s.objects[1].state == NEW && s.objects[0].count == 2);
    c.ask(reserve(0, 1), &[12]);
    c.ask(reserve(0, 64), &[12]);
    c.look("no page has come", |s| s.tables[0].pages.len() == 1 && s.tables[0].epoch == 0);
    c.ask(transfer(0, 0, vec![item(0, 1, 0)]), &[12]);
    c.ask(transfer(0, 0, vec![item(0, v(0, 1), 0)]), &[12]);
    c.ask(consume(0, v(0, 1), 0, 7, 50), &[12]);
    c.ask(consume(0, v(0, 1), 0, 7, 51), &[2]);
    c.ask(duplicate(0, v(1, 1), 0), &[2]);
    c.ask(new_object(0, 0, 0), &[10]);
    c.look("the next id is still 2^64 - 1", |s| s.next == u64::MAX);
    cases.push(c);

    let mut c = Case::new("rows-and-frames-run-out", "1 for want of a row or of frames, in its place among the checks", Start::Create(params(&[(2, 0), (1, 0)], 1, &THINGS, 2)));
    c.ask(reserve(0, 1), &[0, 1, 1, v(63, 1)]);
    c.ask(reserve(1, 1), &[1]);
    c.ask(reserve(0, 64), &[1]);
    c.ask(new_object(0, ALL, 0), &[0, 2]);
    c.ask(reserve(0, 1), &[1]);
    c.ask(reserve(0, 0), &[17]);
    c.ask(duplicate(0, 1, 0), &[1]);
    c.ask(transfer(0, 0, vec![item(0, 1, 0)]), &[1]);
    c.ask(transfer(0, 0, vec![]), &[17]);
    c.ask(consume(0, 1, 0, 7, 100), &[1]);
    c.look("nothing was spent", |s| s.next == 3);
    c.ask(publish(1, &[2]), &[]);
    c.ask(reserve(0, 63), &with(&[0, 3, 63], &down(62, 0, 1)));
    c.ask(reserve(0, 1), &[1]);
    c.ask(abort(3), &[]);
    c.ask(close(0, v(63, 1)), &[0, 100, 7, ALL]);
    c.ask(take_page(0), &[0, 1, 0]);
    c.ask(reserve(1, 64), &with(&[0, 4, 64], &down(63, 0, 1)));
    c.ask(reserve(1, 1), &[15]);
    cases.push(c);

    let mut c = Case::new("lookups", "resolve, replace, duplicate, close and consumption: 2, 5, 4 and what they give", world());
    c.ask(new_object(1, 5, 3), &[0, 1]);
    c.ask(reserve(1, 1), &[0, 2, 1, v(63, 1)]);
    c.ask(publish(2, &[1]), &[]);
    c.ask(get_info(1, v(63, 1)), &[0, 101, 8, 5, 3]);
    c.ask(get_info(0, v(63, 1)), &[2]);
    c.ask(get_info(2, v(63, 1)), &[18]);
    c.ask(resolve(1, v(63, 1), 4, 8), &[0, 1, 101, 5]);
    c.ask(resolve(1, v(63, 1), 2, 9), &[5]);
    c.ask(resolve(1, v(63, 1), 1, 9), &[4]);
    c.ask(resolve(1, v(62, 1), 1, 9), &[2]);
    c.ask(duplicate(1, v(63, 1), 8), &[5]);
    c.ask(duplicate(1, v(63, 1), 4), &[0, 3]);
    c.look("the duplicate has rights 4 and the flags 3", |s| s.rows[0].kind == RowKind::Parcel(vec![Handle { object: 1, rights: 4, flags: 3 }]));
    c.ask(replace(1, v(63, 1), 4), &[0, v(63, 2)]);
    c.ask(duplicate(1, v(63, 2), 0), &[5]);
    c.ask(consume(1, v(63, 2), 4, 8, 101), &[0, 4]);
    c.ask(commit(4), &[]);
    c.look("consumed: the parcel keeps rights 4, no TRANSFER right was needed", |s| {
        s.rows[1].kind == RowKind::Parcel(vec![Handle { object: 1, rights: 4, flags: 3 }]) && slot(s, 1, 63) == Some(Slot::Vacant(3))
    });
    c.ask(release(3), &[]);
    c.ask(release(4), &[]);
    c.look("the object is retired", |s| s.objects[1].state == RETIRED);
    for request in [consume(2, 1, 0, 7, 100), duplicate(2, 1, 0), resolve(2, 1, 0, 7), scan(2, 0), reserve(2, 1), close(9, 1), replace(u64::MAX, 1, 0), stopping(2, 0), take_page(2), teardown_start(2), teardown_step(2), teardown_finish(2)] {
        c.ask(request, &[18]);
    }
    for request in [trim(1, 1), abort(0), publish(0, &[]), rollback(u64::MAX), commit(0), direct_commit(0, 0), direct_rollback(1, 2)] {
        c.ask(request, &[18]);
    }
    cases.push(c);

    let mut c = Case::new("invalid-values", "values of every wrong kind give 2", world());
    publish_one(&mut c, 0, ALL, 0, 1, v(63, 1));
    let good = v(63, 1);
    for value in [
        0, 1, u64::MAX, 0x4800_0000_0000_0000, 0x4800_0000_0100_0000, 0x4800_0000_0000_0001, 0x48FF_FFFF_FFFF_FFFF,
        good ^ 1 << 56, good ^ 1 << 63, good ^ 1 << 60, good & 0x00FF_FFFF_FFFF_FFFF, v(63, 2), v(63, LIMIT), v(62, 1), v(64, 1), v(16_777_214, 1),
    ] {
        c.ask(get_info(0, value), &[2]);
        c.ask(close(0, value), &[2]);
    }
    c.ask(transfer(0, 0, vec![item(0, good, 0), item(0, good ^ 1 << 60, 0)]), &[2]);
    c.look("no slot is held", |s| matches!(slot(s, 0, 63), Some(Slot::Occupied(..))));
    c.ask(get_info(0, good), &[0, 100, 7, ALL]);
    cases.push(c);
}

fn calls(cases: &mut Vec<Case>) {
    let mut c = Case::new("malformed", "whole calls refused with 19 and 20, no word changed; an empty list is accepted (driver, not the Rust)", world());
    let good = reserve(0, 1).words();
    c.refused(vec![], 0, 0);
    c.refused(good.clone(), 71, 20);
    c.refused([good.clone(), good.clone()].concat(), 143, 20);
    for list in [
        vec![0], vec![10, 5, 0, 1], vec![11], vec![11, 5], vec![11, 5, 0], vec![11, 0, 0, 1], vec![11, 99, 0, 1], vec![3, 5, 0],
        vec![27, 5, 0, 1, 9], vec![11 | 1 << 18, 5, 0, 1, 0], vec![11 | 1 << 63, 5, 0, 1, 0],
        new_object(0, 0, 1 << 32).words(), resolve(0, 1, 0, 1 << 32).words(), consume(0, 1, 0, 7, 0).words(),
        consume(0, 1, 0, 1 << 32, 1).words(), transfer(0, 3, vec![]).words(), transfer(0, 0, vec![item(2, 1, 0)]).words(),
        transfer(0, 0, vec![]).with(FORBIDDEN_OBJECT, 0).words(), transfer(0, 0, vec![]).with(FORBIDDEN_KIND, 1 << 32).words(),
        transfer(0, 0, vec![item(0, 1, 0).with(OFFERED_KIND, 1 << 32)]).words(),
        transfer(0, 0, vec![item(0, 1, 0).with(EXPECTED_KIND, 1 << 32)]).words(),
        transfer(0, 0, vec![item(0, 1, 0).with(FLAGS, 0)]).words(),
        transfer(0, 0, vec![item(0, 1, 0)]).with(COUNT, 2).words(), transfer(0, 0, vec![item(0, 1, 0)]).with(COUNT, u64::MAX).words(),
        publish(1, &[1]).with(COUNT, 2).words(), publish(1, &[]).item(Record::default().with(OP, 1).with(ID, 1)).with(COUNT, 1).words(),
        publish(1, &[]).item(item(0, 1, 1)).with(COUNT, 1).words(), [good.clone(), vec![11, 5, 0]].concat(),
        transfer(0, 0, vec![item(0, 1, 0)]).with(COUNT, 0).words(),
    ] {
        c.refused(list, 500, 19);
    }
    c.refused(vec![0], 0, 19);
    c.ask(reserve(0, 1), &[0, 1, 1, v(63, 1)]);
    c.ask(reserve(u64::MAX, u64::MAX), &[18]);
    c.ask(reserve(0, u64::MAX), &[13]);
    cases.push(c);

    let mut state = one_page(1, vec![Slot::Vacant(1); 64], 1, 0);
    state.tables[0].free_count = 63;
    let mut c = Case::new("bad-state", "a state whose count of free slots is wrong: 18 before 19 and 20 (driver, not the Rust)", loaded(&state));
    c.refused(vec![], 0, 18);
    c.refused(vec![0], 0, 18);
    c.refused(reserve(0, 1).words(), 0, 18);
    c.refused(reserve(0, 1).words(), 72, 18);
    cases.push(c);
}

fn differences(cases: &mut Vec<Case>) {
    let mut c = Case::new("difference-epoch-install", "epoch 2^64 - 1, a reservation that grows the table: the Rust violates, the paper wraps to 0", loaded(&one_page(1, vec![Slot::Vacant(1); 64], 1, u64::MAX)));
    c.ask(reserve(0, 64), &with(&[0, 1, 64], &(0..64).map(|at| v(at, 1)).collect::<Vec<u64>>()));
    c.violates(reserve(0, 1), &[0, 2, 1, v(127, 1)]);
    cases.push(c);

    let mut c = Case::new("difference-epoch-take", "epoch 2^64 - 1, an empty page taken: the Rust violates, the paper wraps to 0", loaded(&one_page(1, vec![Slot::Vacant(1); 64], 1, u64::MAX)));
    c.violates(take_page(0), &[0, 1, 0]);
    cases.push(c);

    let mut c = Case::new("difference-mask-0", "seed 0: the paper's mask is 0 (the codec is built as a literal); the Rust's `new` makes it 1", world());
    publish_one(&mut c, 0, ALL, 0, 1, v(63, 1));
    c.ask(get_info(0, v(63, 1)), &[0, 100, 7, ALL]);
    cases.push(c);

    let mut c = Case::new("difference-prefix", "a value with another prefix gives 2; the Rust ignores the prefix", world());
    publish_one(&mut c, 0, ALL, 0, 1, v(63, 1));
    c.ask(get_info(0, v(63, 1) ^ 1 << 60), &[2]);
    c.ask(transfer(0, 0, vec![item(0, v(63, 1), 0), item(0, v(63, 1) ^ 1 << 60, 0)]), &[2]);
    cases.push(c);

    let mut c = Case::new("difference-flags", "flags 1 to 3 are known to the paper; the Rust knows only 0", world());
    c.ask(new_object(0, 0, 1), &[0, 1]);
    c.ask(new_object(1, 0, 4), &[7]);
    c.look("the handle has flags 1", |s| s.rows[0].kind == RowKind::Parcel(vec![Handle { object: 0, rights: 0, flags: 1 }]));
    cases.push(c);

    let mut c = Case::new("difference-direct-rollback", "direct rollback within one table: rollback, then abort; the Rust has none for one table", world());
    publish_one(&mut c, 0, ALL, 0, 1, v(63, 1));
    c.ask(transfer(0, 0, vec![item(0, v(63, 1), 0)]), &[0, 3]);
    c.ask(reserve(0, 1), &[0, 4, 1, v(62, 1)]);
    c.ask(direct_rollback(3, 4), &[]);
    c.look("the handle is back, slot 62 is vacant with generation 2", |s| {
        matches!(slot(s, 0, 63), Some(Slot::Occupied(1, _))) && slot(s, 0, 62) == Some(Slot::Vacant(2))
    });
    cases.push(c);

    let mut c = Case::new("difference-parcel-ids", "parcels from new objects and duplicates spend ids; the Rust spends none there", world());
    c.ask(new_object(0, ALL, 0), &[0, 1]);
    c.ask(new_object(1, ALL, 0), &[0, 2]);
    c.ask(reserve(0, 1), &[0, 3, 1, v(63, 1)]);
    cases.push(c);

    let mut c = Case::new("difference-retired-table", "a retired table keeps its pages and frames; the Rust has take_retired_storage", world());
    c.ask(reserve(0, 1), &[0, 1, 1, v(63, 1)]);
    c.ask(abort(1), &[]);
    c.ask(teardown_start(0), &[]);
    c.ask(teardown_finish(0), &[]);
    c.look("page 0 keeps frame 0", |s| s.tables[0].pages[0].frame == Some(0));
    cases.push(c);

    let mut c = Case::new("difference-object-states", "a retired object with handles, and a limit met at activation: possible here, not in the Rust's core.rs", world());
    c.ask(new_object(6, 0, 0), &[11]);
    c.ask(new_object(0, ALL, 0), &[0, 1]);
    c.ask(retire(0), &[]);
    c.ask(new_object(0, ALL, 0), &[9]);
    c.look("retired with count 1", |s| s.objects[0].state == RETIRED && s.objects[0].count == 1);
    cases.push(c);
}

/// One page in frame 0, for a check that needs no request.
pub fn all_in_one_page(high: u64, slots: Vec<Slot>) -> State {
    one_page(high, slots, 1, 0)
}
