//! Checks on the Rust itself: the named cases, and the facts that no request reaches.

use std::sync::{Arc, Mutex};

use crate::capability::handle::wire::{Machine, bare};
use crate::cases::{self, Want, v};
use crate::generate::{Kind, Ops, sequence_with};
use crate::oracle::Oracle;
use crate::reading::{Reading, Slip};
use crate::requests::{self, ANSWER};
use crate::state;
use crate::subject::{FILL, Runs, Start, Subject, Texts};
use crate::tally::Tally;
use crate::violation::Place;

/// Violations that the differences explain: where, and what must have held before.
pub fn explained(place: &Place) -> Option<&'static str> {
    // storage.rs: advance_epoch, at 2^64 - 1.
    if place.file.ends_with("handle/storage.rs") && place.line == ADVANCE_EPOCH_LINE {
        return Some("epoch at 2^64 - 1 (advance_epoch)");
    }
    None
}
/// The line of `invariant_violation` in `reserve_batch_with_plan` of mod.rs where the snapshots differ.
const STALE_PLAN_LINE: u32 = 497;
/// The line of `invariant_violation` in `advance_epoch` of storage.rs.
pub const ADVANCE_EPOCH_LINE: u32 = 331;

pub fn run(tally: &mut Tally) {
    let mut oracle = Oracle::default();
    for case in cases::all().into_iter().chain(cases::plans::all()).chain(cases::looks::all()).chain(cases::judged::all()) {
        let calls: Vec<_> = case.asks.iter().map(|ask| ask.call.clone()).collect();
        let trace = oracle.run(&case.start, &calls);
        let read = Reading::new(Slip::None).run(&case.start, &calls);
        let mut wrong = Vec::new();
        let mut looks = Vec::new();
        let (mut answers, mut violations) = (0, 0);
        if (trace.start != 0) != case.name.starts_with("bad-state") {
            wrong.push(format!("the start gives {}", trace.start));
        }
        for (at, ask) in case.asks.iter().enumerate() {
            let step = trace.steps.get(at);
            match (&ask.want, step) {
                // From the violation on, the paper's answers are the reading's.
                (Want::Violation(paper), None) => {
                    match trace.stopped.as_ref() {
                        Some(place) if explained(place).is_some() => violations += usize::from(trace.steps.len() == at),
                        other => wrong.push(format!("request {at}: a violation was expected, got {other:?}")),
                    }
                    let mut full = paper.clone();
                    full.resize(ANSWER, 0);
                    if read.steps.get(at).is_none_or(|step| step.answers[..ANSWER] != full) {
                        wrong.push(format!("request {at}: the reading does not give the paper's answer {paper:x?}"));
                    }
                }
                (Want::Violation(_), _) => wrong.push(format!("request {at}: no violation")),
                (_, None) => {
                    wrong.push(format!("request {at} was not reached: {:?}", trace.stopped));
                    break;
                }
                (Want::Answer(words), Some(step)) => {
                    let mut full = words.clone();
                    full.resize(ANSWER, 0);
                    full.push(FILL);
                    answers += 1;
                    if step.result != 0 || step.answers != full {
                        let shown = step.answers.len().min(8);
                        wrong.push(format!(
                            "request {at} (op {}): answer {:x?}, wanted {words:x?}",
                            ask.call.list.get(1).copied().unwrap_or(0),
                            &step.answers[..shown]
                        ));
                    }
                }
                (Want::Result(result), Some(step)) => {
                    answers += 1;
                    if step.result != *result || step.answers.iter().any(|word| *word != FILL) {
                        wrong.push(format!("call {at}: result {}, wanted {result}", step.result));
                    }
                    let before = if at == 0 { &trace.text } else { &trace.steps[at - 1].text };
                    if step.text != *before {
                        wrong.push(format!("call {at}: the state changed"));
                    }
                }
            }
            for (what, holds) in &ask.looks {
                looks.push(*what);
                match step.map(|step| state::parse(&step.text)) {
                    Some(Ok(state)) => {
                        if !holds(&state) {
                            wrong.push(format!("after request {at}: not so that {what}"));
                        }
                    }
                    _ => wrong.push(format!("after request {at}: no state")),
                }
            }
        }
        let mut text = format!("{}: {}; {answers} answers of the Rust compared", case.name, case.about);
        if violations > 0 {
            text += &format!(", {violations} violation caught");
        }
        for look in looks {
            text += &format!("; state: {look}");
        }
        for line in &wrong {
            text += &format!("\n        {line}");
        }
        tally.line(wrong.is_empty(), &text);
    }
    facts(tally, &mut oracle);
    table_full(tally, &mut oracle);
    stale_plans(tally, &mut oracle);
    moved_values(tally, &mut oracle);
    judgings(tally, &mut oracle);
}

/// Runs on the Rust and brings a result back; Err with the place of a violation.
fn ask<R: Send + 'static>(oracle: &mut Oracle, work: impl FnOnce(&mut crate::oracle::Direct) -> R + Send + 'static) -> Result<R, Place> {
    let kept = Arc::new(Mutex::new(None));
    let put = Arc::clone(&kept);
    let stopped = oracle.work(move |direct| {
        let result = work(direct);
        if let Ok(mut kept) = put.lock() {
            *kept = Some(result);
        }
    });
    match (stopped, kept.lock().ok().and_then(|mut kept| kept.take())) {
        (None, Some(result)) => Ok(result),
        (Some(place), _) => Err(place),
        (None, None) => Err(Place { file: "no result".to_string(), line: 0 }),
    }
}

fn facts(tally: &mut Tally, oracle: &mut Oracle) {
    let full = 0x00FF_FFFF_FFFF_FFFF;
    tally.line(bare::encode(0, 0, 1) == 0x4800_0000_0100_0001, "P1: the Rust's encode, mask 0, slot 0, generation 1: 4800000001000001");
    tally.line(bare::encode(0, 16_777_214, 0xFFFF_FFFF) == 0x48FF_FFFF_FFFF_FFFF, "P2: slot 16,777,214, generation 4,294,967,295: 48FFFFFFFFFFFFFF");
    tally.line(bare::encode(full, 16_777_214, 0xFFFF_FFFF) == 0x4800_0000_0000_0000, "P3: the same, mask 00FFFFFFFFFFFFFF: 4800000000000000");
    tally.line(bare::decode(0, 0x4800_0000_0100_0000).is_none(), "P4: the Rust's decode of 4800000001000000, mask 0: InvalidHandle");
    tally.line(bare::decode(0, 0x4800_0000_0000_0001).is_none(), "P5: the Rust's decode of 4800000000000001, mask 0: InvalidHandle");
    tally.line(bare::next(0xFFFF_FFFF) == 1 && bare::next(1) == 2, "next_generation of 4,294,967,295 is 1, of 1 is 2");
    tally.line(
        bare::encode_with_new(0, 0, 1) == 0x4800_0000_0100_0000 && bare::encode(0, 0, 1) == 0x4800_0000_0100_0001,
        "difference-mask-0 on the Rust: `HandleCodec::new(0)` encodes slot 0, generation 1 as 4800000001000000, the literal codec as ..01",
    );
    tally.line(
        bare::flags_known(0) && !bare::flags_known(1) && !bare::flags_known(2),
        "difference-flags on the Rust: `HandleFlags::from_bits` knows 0 only",
    );
    let mut start = None;
    for case in cases::all() {
        if case.name == "difference-prefix" {
            start = Some((case.start.clone(), case.asks.iter().take(3).map(|ask| ask.call.clone()).collect::<Vec<_>>()));
        }
    }
    let Some((start, calls)) = start else { return };
    let prepared = move |direct: &mut crate::oracle::Direct| {
        direct.start(&start);
        for call in &calls {
            let mut answers = vec![0; call.lent];
            direct.call(&call.list, &mut answers);
        }
    };
    let prepare = prepared.clone();
    let found = ask(oracle, move |direct| {
        prepare(direct);
        match &direct.machine {
            Some(machine) => bare::get_info_raw(machine, 0, v(63, 1) ^ 1 << 60),
            None => Err(18),
        }
    });
    tally.line(
        found == Ok(Ok([100, 7, u64::MAX, 0])),
        &format!("difference-prefix on the Rust: get_info of v ^ 2^60 is accepted and gives the handle's info ({found:?})"),
    );
    let prepare = prepared.clone();
    let found = ask(oracle, move |direct| {
        prepare(direct);
        direct.machine.as_mut().map(|machine| bare::move_raw(machine, 0, &[v(63, 1), v(63, 1) ^ 1 << 60]))
    });
    tally.line(
        matches!(&found, Err(place) if place.file.ends_with("handle/mod.rs")),
        &format!("difference-prefix on the Rust: moves of [v, v ^ 2^60] reach invariant_violation ({})", shown(&found)),
    );
    let prepare = prepared.clone();
    let found = ask(oracle, move |direct| {
        prepare(direct);
        bare::new_object_raw(1, 1)
    });
    tally.line(found == Ok(7), &format!("difference-flags on the Rust: a new object's handle with flags 1 gives UnsupportedFlags ({found:?})"));

    // The fifth copy: five values of one object at limit 9 with count 5, four copies fit.
    let found = ask(oracle, |direct| {
        let mut slots = vec![state::Slot::Vacant(1); 64];
        for slot in slots.iter_mut().take(5) {
            *slot = state::Slot::Occupied(1, state::Handle { object: 0, rights: u64::MAX, flags: 0 });
        }
        let state = cases::all_in_one_page(1, slots);
        direct.start(&Start::Words(crate::words::encode(&state)));
        let values: Vec<u64> = (0..5).map(|slot| v(slot, 1)).collect();
        direct.machine.as_mut().map(|machine| bare::refused_copies(machine, 0, &values, 0))
    });
    tally.line(
        found == Ok(Some((11, 9, 5))),
        &format!(
            "fifth-copy-refused on the Rust: refused with 11, the count is 9 while the storage handed back owns four copies, 5 after it is dropped ({found:?})"
        ),
    );
    let found = ask(oracle, |direct| {
        for case in cases::all() {
            if case.name == "difference-retired-table" {
                direct.start(&case.start);
                for ask in &case.asks {
                    let mut answers = vec![0; ask.call.lent];
                    direct.call(&ask.call.list, &mut answers);
                }
            }
        }
        direct.machine.as_mut().map(|machine| bare::take_retired(machine, 0))
    });
    tally.line(
        found == Ok(Some((1, 0))),
        &format!("difference-retired-table on the Rust: take_retired_storage leaves a retired table without pages ({found:?})"),
    );
}

/// 15 from the Rust itself. No well-formed state reaches it at 262,144 pages, since at most 65,535 of them can be attached and the
/// others then stand in the order of detached pages; so the order is left out here.
fn table_full(tally: &mut Tally, oracle: &mut Oracle) {
    let found = ask(oracle, |direct| {
        let mut state = cases::last_page_state(state::MAX_PAGES);
        state.tables[0].detached.clear();
        direct.end();
        direct.machine = Some(Machine::load(&state));
        [0, 65, 1, 64].map(|count| {
            let mut answers = vec![0; ANSWER];
            direct.call(&requests::reserve(0, count).words(), &mut answers);
            answers[0]
        })
    });
    tally.line(
        found == Ok([17, 13, 15, 15]),
        &format!("table-full on the Rust: a table that has had 262,144 pages and has none to attach: reserve 0, 65, 1, 64 give 17, 13, 15, 15 ({found:?})"),
    );
}

/// Where a plan is stale the Rust stops, or gives 15: in the smallest case, in a full table, and for stale plans of random lists, each used as the driver does not use them.
fn stale_plans(tally: &mut Tally, oracle: &mut Oracle) {
    let stops = |found: &Result<Option<Result<(), u64>>, Place>| matches!(found, Err(place) if place.file.ends_with("handle/mod.rs") && place.line == STALE_PLAN_LINE);
    let found = ask(oracle, |direct| {
        direct.start(&Start::Create(cases::params(&[(2, 0)], 2, &[[50, 7, 0, 0, 1, 9]], 4)));
        for request in [requests::make_plan(0, 1), requests::reserve(0, 1)] {
            direct.call(&request.words(), &mut [0; ANSWER]);
        }
        direct.machine.as_mut().map(|machine| bare::use_plan_raw(machine, 1))
    });
    tally.line(stops(&found), &format!("difference-stale-plan on the Rust: a plan used after a reservation reaches invariant_violation ({})", shown(&found)));
    let found = ask(oracle, |direct| {
        let mut state = cases::last_page_state(state::MAX_PAGES);
        state.tables[0].detached.clear();
        state.rows.push(state::Row {
            id: 1,
            kind: state::RowKind::Plan { table: 0, count: 1, kept: state::Snapshot { epoch: 9, free_slots: 0, pages: vec![0] }, frames: vec![0] },
        });
        state.free_frames.remove(0);
        direct.end();
        direct.machine = Some(Machine::load(&state));
        let mut answers = vec![0; ANSWER];
        direct.call(&requests::use_plan(1).words(), &mut answers);
        (answers[0], direct.machine.as_mut().map(|machine| bare::use_plan_raw(machine, 1)))
    });
    tally.line(
        found == Ok((21, Some(Err(15)))),
        &format!("difference-stale-plan on the Rust: a plan used in a table that has no page to attach gives 15, and the driver 21 ({found:?})"),
    );
    let (mut stopped, mut full, mut limited, mut strange, mut seed) = (0, 0, 0, 0, 0);
    while stopped + full + limited + strange < 60 {
        seed += 1;
        let kind = [Kind::Plain, Kind::Edges, Kind::Scrambled][seed as usize % 3];
        let made = sequence_with(seed, kind, 120, Ops::All, Texts::Last);
        let Some(at) = (0..made.calls.len()).find(|at| made.calls[*at].list.first() == Some(&129) && made.calls[*at].list[1] == requests::USE_PLAN && made.trace.steps[*at].answers[0] == 21) else { continue };
        let (start, calls, id) = (made.start.clone(), made.calls[..at].to_vec(), made.calls[at].list[2]);
        let beyond = beyond_the_limit(&start, &calls, id);
        let found = ask(oracle, move |direct| {
            direct.start(&start);
            for call in &calls {
                let mut answers = vec![0; call.lent];
                direct.call(&call.list, &mut answers);
            }
            direct.machine.as_mut().map(|machine| bare::use_plan_raw(machine, id))
        });
        match &found {
            found if stops(found) => stopped += 1,
            Ok(Some(Err(15))) => full += 1,
            Ok(Some(Ok(()))) if beyond => limited += 1,
            Err(place) if explained(place).is_some() => {}
            other => {
                strange += 1;
                println!("seed {seed}, {kind:?}, call {at}: {}", shown(other));
            }
        }
    }
    tally.line(
        strange == 0,
        &format!(
            "stale plans on the Rust: of {} stale plans of random lists, used all the same, {stopped} reach invariant_violation where snapshots are compared, {full} give 15, {limited} are accepted, stale by a page limit that the Rust has not, {strange} are none of these",
            stopped + full + limited + strange
        ),
    );
}

/// Whether a plan's table has no page to attach for it after some calls, by the reading.
fn beyond_the_limit(start: &Start, calls: &[crate::subject::Call], id: u64) -> bool {
    let mut reading = Reading::new(Slip::None);
    reading.start(start);
    for call in calls {
        reading.call(&call.list, &mut vec![0; call.lent]);
    }
    let Some(state) = reading.state() else { return false };
    state.rows.iter().any(|row| match &row.kind {
        state::RowKind::Plan { table, count, .. } => row.id == id && state.tables[*table as usize].snapshot(*count, Slip::None).is_err(),
        _ => false,
    })
}

/// A look at a value that is being moved, by a transfer or a consumption, gets Busy from the Rust, and from the driver what the Rust said of it just before. Where the two do not fit, the
/// driver's answer is no number.
fn moved_values(tally: &mut Tally, oracle: &mut Oracle) {
    let found = ask(oracle, |direct| {
        direct.start(&Start::Create(cases::params(&[(1, 0)], 1, &[[50, 7, 0, u64::MAX, 1, 9]], 4)));
        let run = |direct: &mut crate::oracle::Direct, request: requests::Request| {
            let mut answers = [0; ANSWER];
            direct.call(&request.words(), &mut answers);
            answers[..5].to_vec()
        };
        let look = |direct: &mut crate::oracle::Direct, slot: u64| {
            let answer = run(direct, requests::get_info(0, v(slot, 1)));
            (answer, direct.machine.as_ref().map(|machine| bare::get_info_raw(machine, 0, v(slot, 1))))
        };
        // Handles in slots 63 and 62.
        for request in [
            requests::new_object(0, 0x3F, 2), requests::reserve(0, 1), requests::publish(2, &[1]), requests::duplicate(0, v(63, 1), 3), requests::reserve(0, 1), requests::publish(4, &[3]),
        ] {
            run(direct, request);
        }
        let mut shown = vec![look(direct, 63)];
        run(direct, requests::transfer(0, 0, vec![requests::item(0, v(63, 1), 1)]));
        shown.push(look(direct, 63));
        run(direct, requests::rollback(5));
        shown.push(look(direct, 63));
        run(direct, requests::consume(0, v(63, 1), 0, 7, 50));
        shown.push(look(direct, 63));
        // What is remembered is made wrong: nothing of slot 63, slot 62 as moved, other rights.
        let remember = |direct: &mut crate::oracle::Direct, known| {
            if let Some(machine) = direct.machine.as_mut() {
                bare::remember_only(machine, known);
            }
        };
        remember(direct, None);
        let mut wrong = vec![look(direct, 63).0[0]];
        remember(direct, Some((v(62, 1), [50, 7, 3, 2])));
        wrong.push(look(direct, 62).0[0]);
        remember(direct, Some((v(63, 1), [50, 7, 3, 2])));
        wrong.push(run(direct, requests::rollback(6))[0]);
        (shown, wrong)
    });
    let info = vec![0, 50, 7, 0x3F, 2];
    let free = (info.clone(), Some(Ok([50, 7, 0x3F, 2])));
    let busy = (info, Some(Err(3)));
    tally.line(
        matches!(&found, Ok((shown, _)) if *shown == [free.clone(), busy.clone(), free, busy]),
        "difference-look on the Rust: get_info gives Busy on a value that is being moved or consumed, and before and after it the info that the driver answers meanwhile",
    );
    tally.line(
        matches!(&found, Ok((_, wrong)) if *wrong == [1001, 1003, 1002]),
        "difference-look on the Rust: Busy on a value of which nothing is remembered, another answer than Busy on one that is, and another info after the rollback: the driver answers 1001, 1003, 1002, no numbers",
    );
}

/// Judging a transfer is preparing it on the Rust and rolling it back: what that leaves of the state, and of the ids, which the driver gives back.
fn judgings(tally: &mut Tally, oracle: &mut Oracle) {
    let found = ask(oracle, |direct| {
        let mut slots = vec![state::Slot::Vacant(1); 64];
        for slot in slots.iter_mut().take(3) {
            *slot = state::Slot::Occupied(1, state::Handle { object: 0, rights: u64::MAX, flags: 0 });
        }
        let mut state = cases::all_in_one_page(1, slots);
        state.objects[0].limit = 4;
        direct.start(&Start::Words(crate::words::encode(&state)));
        let run = |direct: &mut crate::oracle::Direct, request: requests::Request| {
            let mut answers = [0; ANSWER];
            direct.call(&request.words(), &mut answers);
            (answers[..4].to_vec(), direct.text())
        };
        let of = |operations: [u64; 3]| requests::transfer(0, 0, (0..).zip(operations).map(|(slot, operation)| requests::item(operation, v(slot, 1), 1)).collect());
        let before = direct.text();
        let next = match before.as_deref().map(state::parse) {
            Ok(Ok(state)) => state.next,
            _ => 0,
        };
        // One more than before, and nothing else.
        let one_id_spent = |after: &Result<String, String>, spent: u64| {
            let (line, other) = (format!("next {next}\n"), format!("next {}\n", next + spent));
            before.as_ref().is_ok_and(|before| after.as_ref() == Ok(&before.replacen(&line, &other, 1)))
        };
        let (accepted, refused) = (run(direct, requests::judging(&of([0, 1, 0]))), run(direct, requests::judging(&of([1, 0, 1]))));
        let judged = accepted == (vec![0, 0, 0, 0], before.clone()) && refused == (vec![0, 11, 2, 17], before.clone());
        let (claim, _) = run(direct, of([0, 1, 0]));
        let (rolled, after) = run(direct, requests::rollback(next));
        let prepared = claim[..2] == [0, next] && rolled[0] == 0 && one_id_spent(&after, 1);
        let (denied, after) = run(direct, of([1, 0, 1]));
        (judged, prepared, denied[0] == 11 && one_id_spent(&after, 2))
    });
    tally.line(
        found == Ok((true, true, true)),
        &format!("difference-judge on the Rust: a transfer prepared and rolled back, and one refused at its second copy, leave the state as it was but for the next id; judged, for that too ({found:?})"),
    );
}

fn shown<R>(found: &Result<R, Place>) -> String {
    match found {
        Ok(_) => "no violation".to_string(),
        Err(place) => format!("{}:{}", place.file, place.line),
    }
}
