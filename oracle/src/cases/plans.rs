//! Named cases of plans (document 02, 1), recorded apart from the others: recorded/plans.txt.

use super::*;
use crate::words::{PLAN_OWNER, Places, ROW, places};

fn plan(table: u64, count: u64, epoch: u64, free_slots: u64, pages: &[u64], frames: &[u64]) -> RowKind {
    RowKind::Plan { table, count, kept: Snapshot { epoch, free_slots, pages: pages.to_vec() }, frames: frames.to_vec() }
}

fn pool(pages: &[u64], frames: u64, rows: u64) -> Start {
    let tables: Vec<(u64, u64)> = pages.iter().map(|pages| (*pages, 0)).collect();
    Start::Create(params(&tables, frames, &THINGS, rows))
}

pub fn all() -> Vec<Case> {
    let mut cases = Vec::new();
    makes_and_uses(&mut cases);
    refusals(&mut cases);
    stale(&mut cases);
    frames(&mut cases);
    lifecycles(&mut cases);
    epochs(&mut cases);
    rows(&mut cases);
    states(&mut cases);
    cases
}

fn makes_and_uses(cases: &mut Vec<Case>) {
    let mut c = Case::new("plan-and-use", "a plan takes a row, an id and the frames that it needs, and no slot; the reservation has a further id", world());
    c.ask(make_plan(0, 3), &[0, 1, 3, 1]);
    c.look("the table is as it was, frame 0 is held, the snapshot is kept", |s| {
        s.tables[0].pages.is_empty() && s.tables[0].epoch == 0 && s.free_frames == [1, 2, 3, 4, 5] && s.rows[0].kind == plan(0, 3, 0, 0, &[0], &[0]) && s.next == 2
    });
    c.ask(use_plan(1), &[0, 2, 3, v(63, 1), v(62, 1), v(61, 1)]);
    c.look("the plan is gone, the reservation stands under id 2, page 0 in frame 0", |s| {
        s.rows.len() == 1 && s.rows[0].id == 2 && s.tables[0].pages[0].frame == Some(0) && s.tables[0].epoch == 1 && s.free_frames.len() == 5
    });
    c.ask(use_plan(1), &[18]);
    c.ask(drop_plan(1), &[18]);
    c.ask(abort(2), &[]);
    c.ask(make_plan(0, 5), &[0, 3, 5, 0]);
    c.look("a plan of no page holds no frame", |s| s.rows[0].kind == plan(0, 5, 1, 64, &[], &[]) && s.free_frames.len() == 5);
    c.ask(use_plan(3), &[0, 4, 5, v(61, 2), v(62, 2), v(63, 2), v(60, 1), v(59, 1)]);
    c.look("no page has come, the epoch stays", |s| s.tables[0].epoch == 1 && s.tables[0].pages.len() == 1);
    cases.push(c);

    let mut c = Case::new("plan-of-a-detached-page", "a plan of a page that was taken: its fresh generation is the one after the high mark when the plan is used", world());
    c.ask(reserve(0, 1), &[0, 1, 1, v(63, 1)]);
    c.ask(abort(1), &[]);
    c.ask(take_page(0), &[0, 1, 0]);
    c.ask(make_plan(0, 1), &[0, 2, 1, 1]);
    c.look("page 0 is kept, and is still detached", |s| s.rows[0].kind == plan(0, 1, 2, 0, &[0], &[0]) && s.tables[0].detached == [0]);
    c.ask(use_plan(2), &[0, 3, 1, v(63, 3)]);
    c.look("page 0 is attached in frame 0", |s| s.tables[0].detached.is_empty() && s.tables[0].pages[0].frame == Some(0));
    cases.push(c);

    let last = MAX_SLOTS - 1;
    let mut c = Case::new("plan-of-two-pages", "page 262,143 has 63 slots: a plan of 64 holds two frames, and they are used lowest first", loaded(&last_page_state(MAX_PAGES)));
    c.ask(make_plan(0, 1), &[0, 1, 1, 1]);
    c.ask(make_plan(0, 64), &[0, 2, 64, 2]);
    c.look("pages 262,143 and 262,142 are kept, frames 1 and 2 are held", |s| s.rows[1].kind == plan(0, 64, 9, 0, &[262_143, 262_142], &[1, 2]) && s.free_frames.is_empty());
    c.ask(make_plan(0, 64), &[1]);
    c.ask(drop_plan(1), &[]);
    c.ask(make_plan(0, 64), &[1]);
    c.ask(use_plan(2), &with(&[0, 3, 64], &down(last - 63, last - 126, 2)));
    c.look("the last page is in frame 1, the one before it in frame 2, the epoch rose by one, frame 0 is free", |s| {
        let table = &s.tables[0];
        table.pages[262_143].frame == Some(1) && table.pages[262_142].frame == Some(2) && table.epoch == 10 && table.free_count == 63 && s.free_frames == [0]
    });
    cases.push(c);
}

fn refusals(cases: &mut Vec<Case>) {
    let mut c = Case::new("plan-order", "a plan's refusals are a reservation's, in its order: 18, 16, 17, 13, 15, 1 (frames), 1 (row), 12", pool(&[1, 1], 1, 2));
    c.ask(make_plan(2, 0), &[18]);
    c.ask(make_plan(u64::MAX, 1), &[18]);
    c.ask(make_plan(0, 0), &[17]);
    c.ask(make_plan(0, 65), &[13]);
    c.ask(make_plan(0, u64::MAX), &[13]);
    c.look("nothing was spent", |s| s.next == 1 && s.rows.is_empty());
    c.ask(make_plan(0, 64), &[0, 1, 64, 1]);
    c.ask(make_plan(1, 1), &[1]);
    c.ask(make_plan(0, 1), &[1]);
    c.ask(reserve(1, 1), &[1]);
    c.ask(use_plan(1), &with(&[0, 2, 64], &down(63, 0, 1)));
    c.ask(make_plan(0, 1), &[15]);
    c.ask(make_plan(1, 1), &[1]);
    c.ask(trim(2, 63), &[]);
    c.ask(make_plan(0, 2), &[15]);
    c.ask(new_object(0, ALL, 0), &[0, 3]);
    c.ask(make_plan(0, 1), &[1]);
    c.look("no row is free: nothing has changed", |s| s.next == 4 && s.rows.len() == 2);
    c.ask(make_plan(0, 0), &[17]);
    c.ask(make_plan(0, 2), &[15]);
    c.ask(release(3), &[]);
    c.ask(make_plan(0, 1), &[0, 4, 1, 0]);
    c.ask(drop_plan(4), &[]);
    c.ask(abort(2), &[]);
    c.ask(teardown_start(0), &[]);
    for count in [0, 1, 2, 65] {
        c.ask(make_plan(0, count), &[16]);
    }
    cases.push(c);

    let mut c = Case::new("plan-last-id", "12 is last: after 16 and 21 for a plan that is used, after 1 for one that is made; a plan refused with 12 stays", loaded(&one_page(1, vec![Slot::Vacant(1); 64], u64::MAX - 3, 0)));
    let last = u64::MAX - 1;
    c.ask(make_plan(0, 1), &[0, last - 2, 1, 0]);
    c.ask(make_plan(0, 64), &[0, last - 1, 64, 0]);
    c.ask(use_plan(last - 2), &[0, last, 1, v(0, 1)]);
    c.look("the next id is 2^64 - 1", |s| s.next == u64::MAX && s.rows.len() == 2);
    c.ask(use_plan(last - 1), &[21]);
    c.ask(abort(last), &[]);
    c.ask(use_plan(last - 1), &[12]);
    c.look("the plan is as it was, and no slot is taken", |s| s.rows[0].kind == plan(0, 64, 0, 64, &[], &[]) && s.tables[0].free_count == 64 && s.next == u64::MAX);
    c.ask(make_plan(0, 1), &[12]);
    c.ask(reserve(0, 1), &[12]);
    c.ask(take_page(0), &[0, 1, 0]);
    c.ask(use_plan(last - 1), &[21]);
    c.ask(teardown_start(0), &[]);
    c.ask(use_plan(last - 1), &[16]);
    c.ask(drop_plan(last - 1), &[]);
    c.look("no row is left", |s| s.rows.is_empty());
    cases.push(c);

    let mut c = Case::new("plan-lists", "records of plans that lack a field or have another, and the op after the last: 19 (driver, not the Rust)", world());
    for list in [
        vec![11, 28, 0, 1], vec![3, 25, 0], vec![9, 25, 1], vec![27, 25, 0, 1, 9], vec![129, 25, 1], vec![11, 25, 0], vec![1, 26], vec![11, 26, 0, 1], vec![131, 26, 0, 1],
        vec![137, 26, 1, 1], vec![1, 27], vec![385, 27, 1, 2], vec![129, 28, 1],
    ] {
        c.refused(list, 500, 19);
    }
    c.refused(make_plan(0, 1).words(), 71, 20);
    c.refused([make_plan(0, 1).words(), use_plan(1).words()].concat(), 143, 20);
    c.ask(use_plan(0), &[18]);
    c.ask(use_plan(u64::MAX), &[18]);
    c.ask(drop_plan(1), &[18]);
    cases.push(c);
}

fn stale(cases: &mut Vec<Case>) {
    let mut c = Case::new("plan-stale-by-a-reservation", "stale by a reservation, and fresh again when it is aborted; an abort alone does not change the epoch", world());
    c.ask(reserve(0, 1), &[0, 1, 1, v(63, 1)]);
    c.ask(abort(1), &[]);
    c.ask(make_plan(0, 2), &[0, 2, 2, 0]);
    c.ask(reserve(0, 1), &[0, 3, 1, v(63, 2)]);
    c.ask(use_plan(2), &[21]);
    c.look("the plan is as it was, no id is spent", |s| s.rows[0].kind == plan(0, 2, 1, 64, &[], &[]) && s.next == 4 && s.tables[0].free_count == 63);
    c.ask(abort(3), &[]);
    c.ask(use_plan(2), &[0, 4, 2, v(63, 3), v(62, 1)]);
    c.ask(make_plan(0, 1), &[0, 5, 1, 0]);
    c.ask(make_plan(0, 2), &[0, 6, 2, 0]);
    c.ask(trim(4, 1), &[]);
    c.ask(use_plan(5), &[21]);
    c.ask(reserve(0, 1), &[0, 7, 1, v(62, 2)]);
    c.ask(use_plan(5), &[0, 8, 1, v(61, 1)]);
    c.ask(use_plan(6), &[21]);
    c.ask(abort(7), &[]);
    c.ask(use_plan(6), &[0, 9, 2, v(62, 3), v(60, 1)]);
    cases.push(c);

    let mut c = Case::new("plan-stale-by-a-close", "stale by a close, a commit and a removal for a stopping owner; get_info, resolve, replace, duplicate and a scan leave it fresh", world());
    publish_one(&mut c, 0, ALL, 0, 1, v(63, 1));
    publish_one(&mut c, 1, ALL, 0, 3, v(62, 1));
    c.ask(make_plan(0, 1), &[0, 5, 1, 0]);
    c.ask(close(0, v(63, 1)), &[0, 100, 7, ALL]);
    c.ask(use_plan(5), &[21]);
    c.ask(reserve(0, 1), &[0, 6, 1, v(63, 2)]);
    c.ask(get_info(0, v(62, 1)), &[0, 101, 8, ALL]);
    c.ask(resolve(0, v(62, 1), 1, 8), &[0, 1, 101, ALL]);
    c.ask(replace(0, v(62, 1), ALL), &[0, v(62, 2)]);
    c.ask(duplicate(0, v(62, 2), 0), &[0, 7]);
    c.ask(scan(0, 0), &[0, 1, 0, 0, 64, v(62, 2), 101, 8, ALL]);
    c.ask(use_plan(5), &[0, 8, 1, v(61, 1)]);
    c.ask(make_plan(0, 1), &[0, 9, 1, 0]);
    c.ask(transfer(0, 0, vec![item(0, v(62, 2), 0)]), &[0, 10]);
    c.ask(commit(10), &[]);
    c.ask(use_plan(9), &[21]);
    c.ask(drop_plan(9), &[]);
    c.ask(publish(6, &[7]), &[]);
    c.ask(make_plan(0, 1), &[0, 11, 1, 0]);
    c.ask(stopping(0, 0), &[0, 1, 64, v(63, 2), 101, 8, 0]);
    c.ask(use_plan(11), &[21]);
    cases.push(c);

    let mut c = Case::new("plan-stale-by-a-page", "stale by a page taken, for good: the epoch does not come back", pool(&[4, 4], 4, 16));
    c.ask(reserve(0, 64), &with(&[0, 1, 64], &down(63, 0, 1)));
    c.ask(reserve(0, 1), &[0, 2, 1, v(127, 1)]);
    c.ask(abort(2), &[]);
    c.ask(make_plan(0, 1), &[0, 3, 1, 0]);
    c.ask(make_plan(0, 64), &[0, 4, 64, 0]);
    c.ask(make_plan(1, 1), &[0, 5, 1, 1]);
    c.ask(take_page(0), &[0, 1, 1]);
    c.ask(use_plan(3), &[21]);
    c.ask(use_plan(4), &[21]);
    c.ask(reserve(0, 1), &[0, 6, 1, v(127, 3)]);
    c.ask(abort(6), &[]);
    c.look("64 slots are free as they were, and the epoch is another", |s| s.tables[0].free_count == 64 && s.tables[0].epoch == 4);
    c.ask(use_plan(3), &[21]);
    c.ask(use_plan(5), &[0, 7, 1, v(63, 1)]);
    c.look("the other table's plan was fresh, its page is in the frame that it held", |s| s.tables[1].pages[0].frame == Some(2) && s.tables[0].pages[1].frame == Some(1));
    cases.push(c);

    let mut c = Case::new("plan-stale-by-a-plan", "two plans of one table: using one makes the other stale; it keeps its frames until it is dropped", pool(&[4], 3, 16));
    c.ask(make_plan(0, 64), &[0, 1, 64, 1]);
    c.ask(make_plan(0, 64), &[0, 2, 64, 1]);
    c.look("making a plan makes none stale: both keep page 0", |s| s.rows[0].kind == plan(0, 64, 0, 0, &[0], &[0]) && s.rows[1].kind == plan(0, 64, 0, 0, &[0], &[1]));
    c.ask(use_plan(2), &with(&[0, 3, 64], &down(63, 0, 1)));
    c.look("page 0 is in frame 1", |s| s.tables[0].pages[0].frame == Some(1));
    c.ask(use_plan(1), &[21]);
    c.ask(use_plan(1), &[21]);
    c.look("plan 1 still holds frame 0", |s| s.rows[0].kind == plan(0, 64, 0, 0, &[0], &[0]) && s.free_frames == [2]);
    c.ask(make_plan(0, 1), &[0, 4, 1, 1]);
    c.ask(make_plan(0, 1), &[1]);
    c.ask(drop_plan(1), &[]);
    c.ask(make_plan(0, 1), &[0, 5, 1, 1]);
    c.look("the frame of the plan that was dropped is given out again", |s| s.rows[2].kind == plan(0, 1, 1, 0, &[1], &[0]) && s.free_frames.is_empty());
    cases.push(c);

    let mut c = Case::new("plan-full-table-at-use", "a snapshot that would be refused with 15 makes a plan stale: 21, and fresh again where it is not refused", pool(&[1], 2, 8));
    c.ask(make_plan(0, 64), &[0, 1, 64, 1]);
    c.ask(reserve(0, 1), &[0, 2, 1, v(63, 1)]);
    c.look("the reservation has the next free frame", |s| s.tables[0].pages[0].frame == Some(1));
    c.ask(reserve(0, 64), &[15]);
    c.ask(use_plan(1), &[21]);
    c.ask(abort(2), &[]);
    c.ask(use_plan(1), &[21]);
    c.ask(make_plan(0, 64), &[0, 3, 64, 0]);
    c.ask(reserve(0, 1), &[0, 4, 1, v(63, 2)]);
    c.ask(make_plan(0, 64), &[15]);
    c.ask(use_plan(3), &[21]);
    c.ask(abort(4), &[]);
    c.ask(use_plan(3), &with(&[0, 5, 64, v(63, 3)], &down(62, 0, 1)));
    cases.push(c);

    let mut c = Case::new("plan-and-a-held-transfer", "preparing a transfer and rolling it back leave a plan fresh; a consumption too", world());
    publish_one(&mut c, 0, ALL, 0, 1, v(63, 1));
    publish_one(&mut c, 1, ALL, 0, 3, v(62, 1));
    c.ask(make_plan(0, 64), &[0, 5, 64, 1]);
    c.ask(transfer(0, 0, vec![item(0, v(63, 1), 0), item(1, v(62, 1), 0)]), &[0, 6]);
    c.ask(use_plan(5), &with(&[0, 7, 64], &down(127, 64, 1)));
    c.ask(make_plan(0, 3), &[0, 8, 3, 0]);
    c.ask(rollback(6), &[]);
    c.ask(consume(0, v(62, 1), 0, 8, 101), &[0, 9]);
    c.ask(rollback(9), &[]);
    c.ask(use_plan(8), &[0, 10, 3, v(61, 1), v(60, 1), v(59, 1)]);
    cases.push(c);
}

fn frames(cases: &mut Vec<Case>) {
    let mut c = Case::new("plans-over-one-pool", "two plans hold the last frames: the pool is dry for others, and both are used", pool(&[2, 2], 2, 8));
    c.ask(make_plan(0, 64), &[0, 1, 64, 1]);
    c.ask(make_plan(1, 1), &[0, 2, 1, 1]);
    c.ask(make_plan(0, 1), &[1]);
    c.ask(reserve(0, 1), &[1]);
    c.ask(reserve(1, 1), &[1]);
    c.look("no frame is free, and no page is attached", |s| s.free_frames.is_empty() && s.tables.iter().all(|table| table.pages.is_empty()));
    c.ask(use_plan(2), &[0, 3, 1, v(63, 1)]);
    c.ask(use_plan(1), &with(&[0, 4, 64], &down(63, 0, 1)));
    c.look("each page is in the frame that its plan held", |s| s.tables[0].pages[0].frame == Some(0) && s.tables[1].pages[0].frame == Some(1));
    c.ask(abort(3), &[]);
    c.ask(take_page(1), &[0, 1, 0]);
    c.ask(make_plan(0, 1), &[0, 5, 1, 1]);
    c.look("the frame of the page that was taken is held", |s| s.rows[1].kind == plan(0, 1, 1, 0, &[1], &[1]));
    cases.push(c);

    let mut c = Case::new("plan-frames-come-back", "dropped plans give their frames back to their places: the lowest free frame is taken first", pool(&[2, 2, 2, 2], 5, 8));
    for table in 0..4 {
        c.ask(make_plan(table, 1), &[0, table + 1, 1, 1]);
    }
    c.ask(drop_plan(3), &[]);
    c.look("frames 2 and 4 are free", |s| s.free_frames == [2, 4]);
    c.ask(drop_plan(1), &[]);
    c.look("frames 0, 2 and 4 are free", |s| s.free_frames == [0, 2, 4]);
    c.ask(reserve(2, 1), &[0, 5, 1, v(63, 1)]);
    c.ask(make_plan(0, 1), &[0, 6, 1, 1]);
    c.look("page 0 of table 2 is in frame 0, the plan holds frame 2", |s| s.tables[2].pages[0].frame == Some(0) && s.rows[3].kind == plan(0, 1, 0, 0, &[0], &[2]));
    c.ask(use_plan(4), &[0, 7, 1, v(63, 1)]);
    c.look("page 0 of table 3 is in frame 3, though frame 4 alone is free", |s| s.tables[3].pages[0].frame == Some(3) && s.free_frames == [4]);
    cases.push(c);
}

fn lifecycles(cases: &mut Vec<Case>) {
    let mut c = Case::new("plan-and-teardown", "a plan does not stop a teardown; on a table torn down or retired using it gives 16, before 21, and dropping it is accepted", world());
    c.ask(reserve(0, 1), &[0, 1, 1, v(63, 1)]);
    c.ask(make_plan(0, 64), &[0, 2, 64, 1]);
    c.ask(teardown_start(0), &[14]);
    c.ask(abort(1), &[]);
    c.ask(make_plan(0, 1), &[0, 3, 1, 0]);
    c.ask(make_plan(0, 1), &[0, 4, 1, 0]);
    c.ask(use_plan(2), &[21]);
    c.ask(teardown_start(0), &[]);
    c.look("the plans stay", |s| s.tables[0].life == Life::TearingDown(0) && s.rows.len() == 3 && s.free_frames == [2, 3, 4, 5]);
    c.ask(use_plan(2), &[16]);
    c.ask(use_plan(3), &[16]);
    c.ask(drop_plan(4), &[]);
    c.ask(teardown_step(0), &[]);
    c.ask(teardown_finish(0), &[]);
    c.ask(use_plan(2), &[16]);
    c.ask(use_plan(3), &[16]);
    c.look("both plans stay with their frames on the retired table", |s| s.tables[0].life == Life::Retired && s.rows.len() == 2 && s.rows[0].kind.frames() == [1]);
    c.ask(drop_plan(2), &[]);
    c.ask(drop_plan(3), &[]);
    c.ask(drop_plan(3), &[18]);
    c.look("the frame is free again, no row is left", |s| s.free_frames == [1, 2, 3, 4, 5] && s.rows.is_empty());
    cases.push(c);
}

fn epochs(cases: &mut Vec<Case>) {
    let mut state = one_page(1, vec![Slot::Vacant(1); 64], 2, u64::MAX - 1);
    state.rows = vec![Row { id: 1, kind: plan(0, 2, u64::MAX, 63, &[], &[]) }];
    let mut c = Case::new("plan-epoch-to-come", "a kept epoch may be any: a plan of a state becomes fresh when the table comes to its snapshot", loaded(&state));
    c.ask(use_plan(1), &[21]);
    c.ask(reserve(0, 64), &with(&[0, 2, 64], &(0..64).map(|at| v(at, 1)).collect::<Vec<u64>>()));
    c.ask(use_plan(1), &[21]);
    c.ask(reserve(0, 1), &[0, 3, 1, v(127, 1)]);
    c.look("epoch 2^64 - 1, 63 slots are free", |s| s.tables[0].epoch == u64::MAX && s.tables[0].free_count == 63);
    c.ask(use_plan(1), &[0, 4, 2, v(126, 1), v(125, 1)]);
    cases.push(c);

    // Eight full pages. The ninth is the first that the Rust's directory has no entry for.
    let full: Vec<Slot> = vec![Slot::Occupied(1, Handle { object: 0, rights: ALL, flags: 0 }); 64];
    let mut state = one_page(1, full.clone(), 2, 5);
    state.tables[0].limit = 10;
    state.tables[0].pages = (0..8).map(|page| Page { frame: Some(page), high: 1, busy: 64, slots: full.clone() }).collect();
    state.objects[0].count = 512;
    state.objects[0].limit = 512;
    state.frames = 10;
    state.free_frames = vec![9];
    state.rows = vec![Row { id: 1, kind: plan(0, 64, 6, 63, &[9], &[8]) }];
    let mut c = Case::new("plan-page-to-come", "pages 8 and 9 by plans: a plan of a state keeps a page that comes after one that the table has yet to get", loaded(&state));
    c.ask(make_plan(0, 1), &[0, 2, 1, 1]);
    c.ask(make_plan(0, 1), &[1]);
    c.ask(use_plan(1), &[21]);
    c.ask(use_plan(2), &[0, 3, 1, v(575, 1)]);
    c.look("page 8 is in frame 9, epoch 6, 63 slots are free", |s| s.tables[0].pages[8].frame == Some(9) && s.tables[0].epoch == 6 && s.tables[0].free_count == 63);
    c.ask(use_plan(1), &with(&[0, 4, 64], &down(639, 576, 1)));
    c.look("page 9 is in frame 8, the epoch is 7", |s| s.tables[0].pages[9].frame == Some(8) && s.tables[0].epoch == 7);
    cases.push(c);

    let mut c = Case::new("difference-epoch-plan", "epoch 2^64 - 1, a plan that grows the table: the Rust violates, the paper wraps to 0", loaded(&one_page(1, vec![Slot::Vacant(1); 64], 1, u64::MAX)));
    c.ask(reserve(0, 64), &with(&[0, 1, 64], &(0..64).map(|at| v(at, 1)).collect::<Vec<u64>>()));
    c.ask(make_plan(0, 1), &[0, 2, 1, 1]);
    c.violates(use_plan(2), &[0, 3, 1, v(127, 1)]);
    cases.push(c);

    let mut state = one_page(1, vec![Slot::Vacant(1); 64], 2, u64::MAX);
    state.rows = vec![Row { id: 1, kind: plan(0, 1, 0, 0, &[0], &[1]) }];
    state.free_frames = vec![2];
    let mut c = Case::new("plan-epoch-wraps", "a page taken at epoch 2^64 - 1: the epoch is 0, and a plan that keeps 0 is fresh; the Rust violates", loaded(&state));
    c.ask(use_plan(1), &[21]);
    c.violates(take_page(0), &[0, 1, 0]);
    c.violates(use_plan(1), &[0, 2, 1, v(63, 2)]);
    cases.push(c);
}

fn rows(cases: &mut Vec<Case>) {
    let mut c = Case::new("plan-and-the-book", "using a plan wants no further row, and its reservation stands last; a plan's id names no other row, and no other id a plan", pool(&[2, 2], 4, 3));
    c.ask(make_plan(0, 1), &[0, 1, 1, 1]);
    c.ask(new_object(0, ALL, 0), &[0, 2]);
    c.ask(make_plan(1, 1), &[0, 3, 1, 1]);
    c.ask(reserve(0, 1), &[1]);
    for request in [trim(1, 1), abort(1), publish(1, &[2]), release(1), rollback(1), commit(1), direct_commit(1, 1), direct_rollback(1, 1), use_plan(2), drop_plan(2)] {
        c.ask(request, &[18]);
    }
    c.ask(use_plan(1), &[0, 4, 1, v(63, 1)]);
    c.look("the rows are 2, 3 and 4", |s| s.rows.iter().map(|row| row.id).collect::<Vec<u64>>() == [2, 3, 4]);
    c.ask(publish(3, &[2]), &[18]);
    c.ask(publish(4, &[3]), &[18]);
    c.ask(use_plan(4), &[18]);
    c.ask(drop_plan(4), &[18]);
    c.ask(publish(4, &[2]), &[]);
    c.ask(transfer(0, 0, vec![item(0, v(63, 1), 0)]), &[0, 5]);
    c.ask(use_plan(5), &[18]);
    c.ask(drop_plan(5), &[18]);
    c.ask(direct_commit(5, 3), &[18]);
    c.ask(use_plan(3), &[0, 6, 1, v(63, 1)]);
    c.ask(direct_commit(5, 6), &[]);
    c.look("the handle has moved to table 1", |s| slot(s, 1, 63) == Some(Slot::Occupied(1, Handle { object: 0, rights: 0, flags: 0 })));
    cases.push(c);
}

/// Two tables, the second of them retired, four frames: page 0 of table 0 has frame 2, plans hold 0 and 3, frame 1 is free.
fn planned_state() -> State {
    let mut state = one_page(1, vec![Slot::Vacant(1); 64], 9, 1);
    state.frames = 4;
    state.free_frames = vec![1];
    state.tables[0].pages[0].frame = Some(2);
    let retired = Table { limit: 1, mask: 5, life: Life::Retired, epoch: 3, pages: vec![], free_count: 0, free: vec![], empty: vec![], detached: vec![] };
    state.tables.push(retired);
    state.rows = vec![
        Row { id: 3, kind: plan(0, 64, 7, 1, &[2], &[0]) },
        Row { id: 5, kind: plan(1, 1, u64::MAX, 16_777_215, &[], &[]) },
        Row { id: 8, kind: plan(1, 2, 0, 0, &[262_143], &[3]) },
    ];
    state
}

fn states(cases: &mut Vec<Case>) {
    let mut c = Case::new("plan-state", "plans that a state check lets pass: of a retired table, kept epoch 2^64 - 1, kept free slots 16,777,215, page 262,143", loaded(&planned_state()));
    c.ask(use_plan(3), &[21]);
    c.ask(use_plan(5), &[16]);
    c.ask(drop_plan(8), &[]);
    c.ask(drop_plan(5), &[]);
    c.look("frames 1 and 3 are free", |s| s.free_frames == [1, 3] && s.rows.len() == 1);
    cases.push(c);

    let mut state = planned_state();
    state.rows.remove(0);
    state.rows[1].kind = plan(1, 64, 0, 0, &[262_143, 262_143], &[0, 3]);
    let mut c = Case::new("plan-state-two-pages", "the same page twice is let pass: it is the number of pages that counts", loaded(&state));
    c.ask(drop_plan(8), &[]);
    c.look("frames 0, 1 and 3 are free", |s| s.free_frames == [0, 1, 3]);
    cases.push(c);

    // A change of the good state's words, and why it is not well formed. Rows stand in places 0 to 2; owner words are of frames 0 to 3.
    type Change = fn(&mut Vec<u64>, &Places);
    const fn row(at: &Places, place: usize, word: usize) -> usize {
        at.rows + ROW * place + word
    }
    fn frees(w: &mut [u64], at: &Places, frame: usize) {
        w[at.owners + frame] = 0;
        w[7] += 1;
        w[at.by_16] += 1;
        w[at.by_256] += 1;
        w[at.by_4096] += 1;
    }
    let bad: [(&'static str, &'static str, Change); 24] = [
        ("bad-state-plan-free", "a frame is free and held by a plan", |w, at| frees(w, at, 0)),
        ("bad-state-plan-of-a-page", "a frame is a page's and held by a plan", |w, at| w[row(at, 0, 7)] = 2),
        ("bad-state-plan-takes-a-page", "a page's frame is said to be a plan's", |w, at| w[at.owners + 2] = PLAN_OWNER),
        ("bad-state-plan-shared", "a frame is held by two plans, and another by none", |w, at| w[row(at, 2, 7)] = 0),
        ("bad-state-plan-shared-2", "a frame is held by two plans", |w, at| {
            w[row(at, 2, 7)] = 0;
            frees(w, at, 3);
        }),
        ("bad-state-plan-other-row", "a frame's owner word names another row", |w, at| w[at.owners] = PLAN_OWNER + 1),
        ("bad-state-plan-free-row", "a frame's owner word names a row that is not in use", |w, at| w[at.owners] = PLAN_OWNER + 3),
        ("bad-state-plan-no-row", "a frame's owner word names no row", |w, at| w[at.owners] = PLAN_OWNER + 4),
        ("bad-state-plan-below", "a frame's owner word is one below the first plan's", |w, at| w[at.owners] = PLAN_OWNER - 1),
        ("bad-state-plan-kind", "a row's kind is 5", |w, at| w[row(at, 0, 1)] = 5),
        ("bad-state-plan-table", "a plan's table is unknown", |w, at| w[row(at, 0, 2)] = 2),
        ("bad-state-plan-count-0", "a plan of no slot", |w, at| w[row(at, 1, 4)] = 0),
        ("bad-state-plan-count-65", "a plan of 65 slots", |w, at| w[row(at, 1, 4)] = 65),
        ("bad-state-plan-one-too-many", "a frame that is not needed: the kept free slots are enough", |w, at| w[row(at, 0, 8)] = 64),
        ("bad-state-plan-second-too-many", "a second frame that is not needed", |w, at| {
            w[row(at, 0, 3)] = 2;
            w[row(at, 0, 12)] = 3;
            w[row(at, 0, 13)] = 1;
            w[at.owners + 1] = PLAN_OWNER;
            for place in [7, at.by_16, at.by_256, at.by_4096] {
                w[place] -= 1;
            }
        }),
        ("bad-state-plan-one-too-few", "a frame is lacking: 1 slot more is needed than is free", |w, at| w[row(at, 1, 8)] = 0),
        ("bad-state-plan-two-too-few", "a second frame is lacking: the last page has 63 slots", |w, at| w[row(at, 2, 4)] = 64),
        ("bad-state-plan-free-slots", "kept free slots 16,777,216", |w, at| w[row(at, 1, 8)] = 16_777_216),
        ("bad-state-plan-page", "page 262,144", |w, at| w[row(at, 2, 6)] = 262_144),
        ("bad-state-plan-frame", "a frame that there is not", |w, at| w[row(at, 2, 7)] = 4),
        ("bad-state-plan-falling", "the frames fall", |w, at| {
            // Plan 0 gives its frame to plan 2, which lists it last.
            w[row(at, 0, 3)] = 0;
            w[row(at, 0, 8)] = 64;
            w[row(at, 2, 3)] = 2;
            w[row(at, 2, 4)] = 64;
            w[row(at, 2, 12)] = 5;
            w[row(at, 2, 13)] = 0;
            w[at.owners] = PLAN_OWNER + 2;
        }),
        ("bad-state-plan-twice", "a frame stands twice in a plan", |w, at| {
            w[row(at, 2, 3)] = 2;
            w[row(at, 2, 4)] = 64;
            w[row(at, 2, 12)] = 5;
            w[row(at, 2, 13)] = 3;
        }),
        ("bad-state-plan-id", "a plan's id is not below the next", |w, at| w[row(at, 2, 0)] = 9),
        ("bad-state-plan-count-of-frames", "the count of free frames takes a plan's in", |w, _| w[7] = 2),
    ];
    for (name, about, change) in bad {
        let mut words = words::encode(&planned_state());
        let at = places(words[1], words[2], words[3], words[4], words[8]);
        change(&mut words, &at);
        let mut c = Case::new(name, about, Start::Words(words));
        c.refused(vec![], 0, 18);
        c.refused(make_plan(0, 1).words(), 72, 18);
        cases.push(c);
    }
}
