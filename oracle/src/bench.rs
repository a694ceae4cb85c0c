//! The benchmark (docs/performance.md): the Rust and the port in one run, by the same driver. Both are fed the same request words and write the
//! same 72 answer words for each request. A call of the port checks the whole state first: its requests are timed in long lists, less the time of
//! an empty list. The Rust's time is given as it is, and less what its driver takes to read the words of the list. A request that can't be repeated
//! alone is timed in a cycle, and, at 64 slots, by the difference of two lists that share their first part. The Rust is timed as it is: it is not asked
//! what a value shows before it is moved, and refuses a look at it (Busy), which the port answers; these rows say so. A transfer that the port judges the Rust, which has no such call, prepares and rolls back; these rows say that. The state check is timed beside a
//! plain read of the same words, on states that differ in which objects have handles and in how many rows are open.

use std::hint::black_box;
use std::time::Instant;

use crate::c_entry::CEntry;
use crate::generate::Rng;
use crate::oracle::{Direct, Oracle};
use crate::requests::*;
use crate::state::{ACTIVE, NEW, Slot, State};
use crate::subject::{Start, Subject};

const OBJECTS: u64 = 4000;
const ROWS: u64 = 16;
/// Requests in a list, about.
const LONG: usize = 20_000;
const TIMES: usize = 15;
/// How often the whole is measured, each time with memory of its own: a row is the median. Single rows of one pass move by a fifth.
const PASSES: usize = 5;
/// Pairs of runs for a difference, and how many times its uncertainty a difference must be to be told.
const PAIRS: usize = 1000;
const CLEAR: f64 = 10.0;
/// Rows of the state that is checked with as many open.
const OPEN: u64 = 64;
/// Rows of the book from whose parcels 1 to 64 handles are published: as many as a book may have.
const BOOK: u64 = 256;

/// What is printed and how much is measured: all that docs/performance.md has or, where `short`, a few rows at 64 slots with few runs, which takes seconds and shows that the
/// benchmark runs, not how fast anything is.
#[derive(Clone, Copy)]
pub struct Settings {
    pub markdown: bool,
    pub short: bool,
}

impl Settings {
    fn pages(self) -> &'static [u64] {
        if self.short { &[1] } else { &[1, 64, 4096] }
    }
    fn long(self) -> usize {
        if self.short { LONG / 50 } else { LONG }
    }
    fn times(self) -> usize {
        if self.short { 3 } else { TIMES }
    }
    fn pairs(self) -> usize {
        if self.short { PAIRS / 5 } else { PAIRS }
    }
    fn passes(self) -> usize {
        if self.short { 1 } else { PASSES }
    }
    /// Rows of a table that has so many.
    fn rows(self, many: usize) -> usize {
        if self.short { many.min(2) } else { many }
    }
}

/// The state of a table of so many pages, each slot of which is occupied by a handle of object 0, but for `free` slots of the last page; so many rows are open afterwards, each
/// a parcel of one more handle.
fn filled(pages: u64, free: u64, spare: u64, rows: u64, open: u64) -> (Direct, Vec<u64>) {
    let mut params = vec![1, pages + spare, OBJECTS, rows, pages + spare, 0];
    for number in 0..OBJECTS {
        params.extend([1000 + number, 7, 0, u64::MAX, 1, u64::from(u32::MAX)]);
    }
    let mut rust = Direct::default();
    assert_eq!(rust.start(&Start::Create(params.clone())), 0);
    let mut ask = |request: Request| {
        let mut answer = [0; ANSWER];
        assert_eq!(rust.call(&request.words(), &mut answer), 0);
        assert_eq!(answer[0], 0, "request {:?}", request.record.fields);
        answer
    };
    let slots = pages * 64 - free;
    let parcel = ask(new_object(0, u64::MAX, 0))[1];
    let row = ask(reserve(0, 1));
    let first = row[3];
    ask(publish(row[1], &[parcel]));
    let mut left = slots - 1;
    while left > 0 {
        let now = left.min(8);
        let row = ask(reserve(0, now))[1];
        let parcels: Vec<u64> = (0..now).map(|_| ask(duplicate(0, first, u64::MAX))[1]).collect();
        ask(publish(row, &parcels));
        left -= now;
    }
    for _ in 0..open {
        ask(duplicate(0, first, u64::MAX));
    }
    (rust, vec![first])
}

/// A state's words, by the text that the Rust shows.
fn shown(mut rust: Direct) -> (State, Vec<u64>) {
    let text = rust.text().expect("the Rust shows its state");
    rust.end();
    let state = crate::state::parse(&text).expect("its own text");
    let words = crate::words::encode(&state);
    (state, words)
}

/// The same state with other objects in its slots: the handle found as number n is of object `of(n)`. No row may be open.
fn spread(state: &State, mut of: impl FnMut(u64) -> u64) -> Vec<u64> {
    let mut state = state.clone();
    assert!(state.rows.is_empty());
    let mut counts = vec![0; state.objects.len()];
    let mut number = 0;
    for slot in state.tables.iter_mut().flat_map(|table| &mut table.pages).flat_map(|page| &mut page.slots) {
        if let Slot::Occupied(_, handle) = slot {
            handle.object = of(number);
            counts[handle.object as usize] += 1;
            number += 1;
        }
    }
    for (object, count) in state.objects.iter_mut().zip(counts) {
        object.count = count;
        object.state = if count == 0 { NEW } else { ACTIVE };
    }
    crate::words::encode(&state)
}

/// The values of a table's handles, mask 0.
fn handles(state: &State) -> Vec<u64> {
    let mut values = Vec::new();
    for (number, page) in state.tables[0].pages.iter().enumerate() {
        for (place, slot) in page.slots.iter().enumerate() {
            if let Slot::Occupied(generation, _) = slot {
                values.push(0x4800_0000_0000_0000 | generation << 24 | (number as u64 * 64 + place as u64 + 1));
            }
        }
    }
    values
}

/// Words that the plain read takes in one turn of its loop, and the sums that they are added to in turn.
const TURN: usize = 64;
const SUMS: usize = 8;

/// A plain read: the sum of the words. A function of its own, so that its code does not depend on what stands around the call. A short loop takes up to twice as long where the
/// linker puts it across a line of 64 bytes. So the loop is unrolled by hand: a turn is several lines of code wherever it begins, and its time does not depend on where that is.
#[inline(never)]
fn plain_read(words: &[u64]) -> u64 {
    let mut sums = [0u64; SUMS];
    let turns = words.chunks_exact(TURN);
    let rest = turns.remainder().iter().fold(0u64, |sum, word| sum.wrapping_add(*word));
    for turn in turns {
        for part in turn.chunks_exact(SUMS) {
            for (sum, word) in sums.iter_mut().zip(part) {
                *sum = sum.wrapping_add(*word);
            }
        }
    }
    sums.iter().fold(rest, |sum, word| sum.wrapping_add(*word))
}

fn median_of(mut times: Vec<f64>) -> f64 {
    times.sort_by(f64::total_cmp);
    times[times.len() / 2]
}

/// The median of some runs, in nanoseconds: of more runs where they are short.
fn median(times: usize, mut run: impl FnMut() -> f64) -> f64 {
    let first = run();
    let runs = if first < 200_000.0 { 20 * times } else { times };
    median_of((1..runs).map(|_| run()).chain([first]).collect())
}

/// A list made by asking the Rust: `next` gives the next request from the last answers.
fn list_of(start: &Start, count: usize, mut next: impl FnMut(usize, &[[u64; ANSWER]]) -> Request) -> (Vec<u64>, usize) {
    let mut rust = Direct::default();
    assert_eq!(rust.start(start), 0);
    let (mut list, mut answers) = (Vec::new(), Vec::new());
    for at in 0..count {
        let words = next(at, &answers).words();
        let mut answer = [0; ANSWER];
        assert_eq!(rust.call(&words, &mut answer), 0);
        assert_eq!(answer[0], 0, "request {at} of a list is refused");
        answers.push(answer);
        list.extend(words);
    }
    rust.end();
    (list, count)
}

/// The answers that the port must give to a list.
fn wanted(start: &Start, list: &[u64], count: usize) -> Vec<u64> {
    let mut rust = Direct::default();
    assert_eq!(rust.start(start), 0);
    let mut answers = vec![0; count * ANSWER];
    assert_eq!(rust.call(list, &mut answers), 0);
    rust.end();
    answers
}

/// Whether the Rust that was timed gave these answers; to a look it may have given Busy.
fn same_or_busy(list: &[u64], given: &[u64], wanted: &[u64]) -> bool {
    let requests = read_list(list).unwrap_or_default();
    let mut both = requests.iter().zip(given.chunks(ANSWER).zip(wanted.chunks(ANSWER)));
    both.all(|(request, (given, wanted))| given == wanted || request.op() == GET_INFO && given[0] == 3 && given[1..].iter().all(|word| *word == 0))
}

/// Some requests, then a cycle over and over; its requests are made from the answers since then.
fn cycle_of(start: &Start, count: usize, before: &[Make], turn: usize, next: Make) -> (Vec<u64>, usize) {
    let first = before.len();
    list_of(start, first + count / turn * turn, |at, answers| if at < first { before[at](at, answers) } else { next(at - first, &answers[first..]) })
}

/// One row of a table, in nanoseconds: the port, the Rust with its driver, and less what the driver takes to read the words.
#[derive(Clone)]
struct Row {
    slots: u64,
    name: String,
    port: f64,
    rust: f64,
    less: f64,
}

/// Each row by its median in each column, over the passes that tell it: at least half of them.
fn middle(passes: &[Vec<Row>]) -> Vec<Row> {
    let mut names: Vec<(u64, &str)> = Vec::new();
    for row in passes.iter().flatten() {
        if !names.contains(&(row.slots, &row.name)) {
            names.push((row.slots, &row.name));
        }
    }
    let mut rows = Vec::new();
    for (slots, name) in names {
        let same: Vec<&Row> = passes.iter().flatten().filter(|row| (row.slots, row.name.as_str()) == (slots, name)).collect();
        if 2 * same.len() < passes.len() {
            println!("not told: {name}, by {} of {} passes", passes.len() - same.len(), passes.len());
            continue;
        }
        let of = |column: fn(&Row) -> f64| median_of(same.iter().map(|row| column(row)).collect());
        rows.push(Row { slots, name: name.to_string(), port: of(|row| row.port), rust: of(|row| row.rust), less: of(|row| row.less) });
    }
    rows
}

/// The ends of the names of rows in which the Rust refuses what the port does, or does more, so that their ratios compare no like work.
const RUST_REFUSES: &str = "(the Rust: Busy)";
const RUST_PREPARES: &str = "(the Rust: prepare, rollback)";

/// Prints a table as text or as docs/performance.md has it, then of both ratios least, geometric mean and greatest, and the rows above the bounds; rows of no like work are left out
/// of these.
fn print_table(markdown: bool, what: &str, sum: &str, rows: &[Row]) {
    if markdown {
        println!("\n| slots | {what} | port | Rust | less words | ratio | ratio, less words |\n|---|---|---|---|---|---|---|");
    } else {
        println!("{:>9} {what:48} {:>10} {:>10} {:>10} {:>7} {:>7}", "slots", "port ns", "Rust ns", "less words", "ratio", "less");
    }
    for Row { slots, name, port, rust, less } in rows {
        let (ratio, ratio_less) = (port / rust, port / less);
        if markdown {
            println!("| {slots} | {name} | {port:.0} | {rust:.0} | {less:.0} | {ratio:.2} | {ratio_less:.2} |");
        } else {
            println!("{slots:>9} {name:48} {port:>10.0} {rust:>10.0} {less:>10.0} {ratio:>7.2} {ratio_less:>7.2}");
        }
    }
    let (other, alike): (Vec<&Row>, Vec<&Row>) = rows.iter().partition(|row| row.name.ends_with(RUST_REFUSES) || row.name.ends_with(RUST_PREPARES));
    let told = |bound: f64, ratio: fn(&Row) -> f64| {
        let all: Vec<f64> = alike.iter().map(|row| ratio(row)).collect();
        let mean = (all.iter().map(|ratio| ratio.ln()).sum::<f64>() / all.len() as f64).exp();
        let ends = all.iter().fold((f64::INFINITY, 0.0f64), |(low, high), ratio| (low.min(*ratio), high.max(*ratio)));
        let above = all.iter().filter(|ratio| **ratio > bound).count();
        format!("least {:.2}, geometric mean {mean:.2}, greatest {:.2}; above {bound:.1}: {above} of {}", ends.0, ends.1, all.len())
    };
    println!("\n{sum}: {} rows{}", alike.len(), if other.is_empty() { String::new() } else { format!(", and {} in which the Rust refuses or does more", other.len()) });
    if !alike.is_empty() {
        println!("- with the driver: {}", told(1.0, |row| row.port / row.rust));
        println!("- less words: {}", told(1.5, |row| row.port / row.less));
    }
}

/// Two lists from one state, the second of which goes on where the first ends. The tail's requests are timed by their difference. Both begin with the same requests that
/// leave no trace, so that neither side's memory is used for the first time in the tail.
struct Split {
    name: &'static str,
    head: Vec<u64>,
    whole: Vec<u64>,
    /// Requests of the head and of the whole.
    counts: (usize, usize),
}

/// The next request of a part, by its place there and the answers since the shared beginning.
type Make<'a> = &'a dyn Fn(usize, &[[u64; ANSWER]]) -> Request;

fn split(start: &Start, value: u64, name: &'static str, first: &[(usize, Make)], tail: (usize, Make)) -> Split {
    let rows = ROWS as usize;
    let warm: [(usize, Make); 6] = [
        (rows, &|_, _| duplicate(0, value, 1)),
        (rows, &|k, answers| release(answers[k][1])),
        (rows, &|_, _| reserve(0, 1)),
        (rows, &|k, answers| abort(answers[2 * rows + k][1])),
        (1, &|_, _| transfer(0, 0, vec![item(0, value, u64::MAX)])),
        (1, &|_, answers| rollback(answers[4 * rows][1])),
    ];
    let of = |parts: &[(usize, Make)]| parts.iter().map(|(count, _)| count).sum::<usize>();
    let skipped = of(&warm);
    let before = skipped + of(first);
    let list = |many: usize| {
        list_of(start, many, |at, answers| {
            let (mut place, own) = (at, answers.get(skipped..).unwrap_or(&[]));
            for (part, answers) in warm.iter().map(|part| (part, answers)).chain(first.iter().chain([&tail]).map(|part| (part, own))) {
                if place < part.0 {
                    return part.1(place, answers);
                }
                place -= part.0;
            }
            unreachable!("a request past the list's end")
        })
    };
    let ((head, _), (whole, all)) = (list(before), list(before + tail.0));
    Split { name, head, whole, counts: (before, all) }
}

/// The median of paired differences, in nanoseconds, and its uncertainty (from the spread of the middle half).
fn difference(pairs: usize, mut pair: impl FnMut() -> f64) -> (f64, f64) {
    let mut times: Vec<f64> = (0..pairs).map(|_| pair()).collect();
    times.sort_by(f64::total_cmp);
    (times[pairs / 2], 0.93 * (times[pairs * 3 / 4] - times[pairs / 4]) / (pairs as f64).sqrt())
}

/// A number with commas between its thousands.
fn spaced(number: f64) -> String {
    let digits = format!("{number:.0}");
    let parts: Vec<&str> = digits.as_bytes().rchunks(3).rev().map(|part| std::str::from_utf8(part).expect("digits")).collect();
    parts.join(",")
}

/// One row by difference.
fn tell(settings: Settings, rows: &mut Vec<Row>, slots: u64, start: &Start, words: &[u64], this: &Split) {
    let tail = (this.counts.1 - this.counts.0) as f64;
    let mut wanted = vec![0u64; this.counts.1 * ANSWER];
    let mut answers = wanted.clone();
    let mut rust_run = |list: &[u64], count: usize| {
        let mut rust = Direct::timed();
        assert_eq!(rust.start(start), 0);
        let from = Instant::now();
        let result = rust.call(black_box(list), &mut wanted[..count * ANSWER]);
        let time = from.elapsed().as_nanos() as f64;
        assert_eq!(result, 0);
        rust.end();
        time
    };
    let rust = difference(settings.pairs(), || {
        let head = rust_run(&this.head, this.counts.0);
        rust_run(&this.whole, this.counts.1) - head
    });
    let read_run = |list: &[u64]| {
        let from = Instant::now();
        black_box(read_list(black_box(list)).map(|list| list.len()));
        from.elapsed().as_nanos() as f64
    };
    let reading = difference(settings.pairs(), || {
        let head = read_run(&this.head);
        read_run(&this.whole) - head
    });
    let mut port = CEntry::of_the_port();
    let mut port_run = |list: &[u64], count: usize| {
        let mut state = words.to_vec();
        let from = Instant::now();
        let result = port.bare(&mut state, black_box(list), &mut answers[..count * ANSWER]);
        let time = from.elapsed().as_nanos() as f64;
        assert_eq!(result, 0);
        time
    };
    let ported = difference(settings.pairs(), || {
        let head = port_run(&this.head, this.counts.0);
        port_run(&this.whole, this.counts.1) - head
    });
    assert_eq!(answers, wanted, "{}: the answers differ", this.name);
    let less = (rust.0 - reading.0, rust.1 + reading.1);
    if [rust, less, ported].iter().all(|(time, unsure)| *time > CLEAR * unsure) {
        rows.push(Row { slots, name: this.name.to_string(), port: ported.0 / tail, rust: rust.0 / tail, less: less.0 / tail });
    } else {
        println!("not told: {} ({:.0} +- {:.0}, Rust {:.0} +- {:.0}, less words {:.0} +- {:.0} ns)", this.name, ported.0, ported.1, rust.0, rust.1, less.0, less.1);
    }
}

/// The requests of a small table one by one. A list opens at most as many rows as there are.
fn differences(settings: Settings, told: &mut Vec<Row>, slots: u64, start: &Start, words: &[u64], handles: &[u64]) {
    let first = handles[0];
    let rows = ROWS as usize;
    let half = rows / 2;
    let id = |answers: &[[u64; ANSWER]], at: usize| answers[at][1];
    let moves = |values: &[u64]| transfer(0, 0, values.iter().map(|value| item(0, *value, u64::MAX)).collect());
    let copy: Make = &|_, _| duplicate(0, first, 1);
    let slot: Make = &|_, _| reserve(0, 1);
    let slots_2: Make = &|_, _| reserve(0, 2);
    let plan: Make = &|_, _| make_plan(0, 1);
    let claim: Make = &|k, _| moves(&handles[k..k + 1]);
    let claim_8: Make = &|k, _| moves(&handles[8 * k..8 * k + 8]);
    let claim_all: Make = &|_, _| moves(handles);
    let eights = handles.len() / 8;
    let all = [
        split(start, first, "new object", &[], (rows, &|k, _| new_object(1 + k as u64, 1, 0))),
        split(start, first, "duplicate", &[], (rows, copy)),
        split(start, first, "release parcel", &[(rows, copy)], (rows, &|k, answers| release(id(answers, k)))),
        split(start, first, "reserve 1", &[], (rows, slot)),
        split(start, first, "abort of 1", &[(rows, slot)], (rows, &|k, answers| abort(id(answers, k)))),
        split(start, first, "trim of 2 to 1", &[(half, slots_2)], (half, &|k, answers| trim(id(answers, k), 1))),
        split(start, first, "publish 1", &[(half, copy), (half, slot)], (half, &|k, answers| publish(id(answers, half + k), &[id(answers, k)]))),
        split(start, first, "close", &[], (handles.len(), &|k, _| close(0, handles[k]))),
        split(start, first, "prepare a transfer of 1", &[], (rows, claim)),
        split(start, first, "rollback of 1", &[(rows, claim)], (rows, &|k, answers| rollback(id(answers, k)))),
        split(start, first, "commit of 1", &[(rows, claim)], (rows, &|k, answers| commit(id(answers, k)))),
        split(start, first, "direct commit of 1", &[(half, slot), (half, claim)], (half, &|k, answers| direct_commit(id(answers, half + k), id(answers, k)))),
        split(start, first, "direct rollback of 1", &[(half, slot), (half, claim)], (half, &|k, answers| direct_rollback(id(answers, half + k), id(answers, k)))),
        split(start, first, "prepare a transfer of 8", &[], (eights, claim_8)),
        split(start, first, "rollback of 8", &[(eights, claim_8)], (eights, &|k, answers| rollback(id(answers, k)))),
        split(start, first, "commit of 8", &[(eights, claim_8)], (eights, &|k, answers| commit(id(answers, k)))),
        split(start, first, "prepare a transfer of 48", &[], (1, claim_all)),
        split(start, first, "rollback of 48", &[(1, claim_all)], (1, &|_, answers| rollback(id(answers, 0)))),
        split(start, first, "commit of 48", &[(1, claim_all)], (1, &|_, answers| commit(id(answers, 0)))),
        split(start, first, "prepare consumption", &[], (rows, &|k, _| consume(0, handles[k], 1, 7, 1000))),
        split(start, first, "remove_stopping_owner", &[], (handles.len(), &|k, answers| stopping(0, if k == 0 { 0 } else { answers[k - 1][2] }))),
        split(start, first, "make plan of 1", &[], (rows, plan)),
        split(start, first, "drop plan of 1", &[(rows, plan)], (rows, &|k, answers| drop_plan(id(answers, k)))),
        split(start, first, "teardown step", &[(1, &|_, _| teardown_start(0))], (handles.len(), &|_, _| teardown_step(0))),
        // 80 slots are two pages more than the 16 that are free, and both are empty after the aborts
        split(
            start,
            first,
            "take_empty_page",
            &[(1, &|_, _| reserve(0, 64)), (1, &|_, _| reserve(0, 64)), (2, &|k, answers| abort(id(answers, k)))],
            (2, &|_, _| take_page(0)),
        ),
    ];
    for this in &all[..settings.rows(all.len())] {
        tell(settings, told, slots, start, words, this);
    }
}

/// Publishes by their parcels and handles, in a book of 256 rows and a table that is full before the list, so that all their slots are of pages that the list adds. Those of a row follow one
/// another, and their parcels and reservations are all open before the first.
fn publishes(settings: Settings, told: &mut Vec<Row>) {
    let (rust, values) = filled(1, 0, 8, BOOK, 0);
    let (state, words) = shown(rust);
    let (start, handles) = (Start::Words(words.clone()), handles(&state));
    // A name with its parcels, the handles in each, and the publishes. A parcel is a transfer of copies that was committed.
    let all = [
        ("publish 1, of 1 parcel (256 rows)", 1, 1, 8),
        ("publish 8, of 1 parcel (256 rows)", 1, 8, 8),
        ("publish 64, of 1 parcel (256 rows)", 1, 64, 8),
        ("publish 8, of 8 parcels (256 rows)", 8, 1, 8),
        ("publish 64, of 64 parcels (256 rows)", 64, 1, 3),
    ];
    for (name, parcels, each, turns) in all.into_iter().take(settings.rows(all.len())) {
        let many = turns * parcels;
        let copies: Make = &|_, _| transfer(0, 0, handles[..each].iter().map(|value| item(1, *value, u64::MAX)).collect());
        let own: Make = &|k, answers| commit(answers[k][1]);
        let slots: Make = &|_, _| reserve(0, (parcels * each) as u64);
        let filling: Make = &|k, answers| {
            let ids: Vec<u64> = answers[k * parcels..][..parcels].iter().map(|answer| answer[1]).collect();
            publish(answers[2 * many + k][1], &ids)
        };
        let this = split(&start, values[0], name, &[(many, copies), (many, own), (turns, slots)], (turns, filling));
        tell(settings, told, 64, &start, &words, &this);
    }
}

/// The state check of some words beside a plain read of them.
struct Checked {
    words: usize,
    /// What the state has that others of its size have not.
    state: &'static str,
    check: f64,
    read: f64,
}

fn checked(settings: Settings, words: &[u64], state: &'static str) -> Checked {
    let mut port = CEntry::of_the_port();
    let check = median(settings.times(), || {
        let mut state = words.to_vec();
        let from = Instant::now();
        let result = port.bare(&mut state, &[], &mut []);
        let time = from.elapsed().as_nanos() as f64;
        assert_eq!(result, 0, "the state is not well formed");
        time
    });
    let read = median(settings.times(), || {
        let state = words.to_vec();
        let from = Instant::now();
        black_box(plain_read(black_box(&state)));
        from.elapsed().as_nanos() as f64
    });
    Checked { words: words.len(), state, check, read }
}

/// The benchmark; with `markdown` its tables are as docs/performance.md has them.
pub fn run(settings: Settings) {
    let mut oracle = Oracle::default();
    if let Some(place) = oracle.work(move |_| measure(settings)) {
        println!("the Rust stopped at {}:{}", place.file, place.line);
    }
}

/// What one pass measures: requests and cycles, requests by difference, and the state check.
#[derive(Default)]
struct Pass {
    cycles: Vec<Row>,
    single: Vec<Row>,
    checks: Vec<Checked>,
}

fn measure(settings: Settings) {
    let all: Vec<Pass> = (1..=settings.passes())
        .map(|number| {
            eprintln!("pass {number} of {}", settings.passes());
            pass(settings)
        })
        .collect();
    let markdown = settings.markdown;
    let rows = |of: fn(&Pass) -> &Vec<Row>| middle(&all.iter().map(|pass| of(pass).clone()).collect::<Vec<_>>());
    print_table(markdown, "requests", "Requests and cycles", &rows(|pass| &pass.cycles));
    if !markdown {
        println!();
    }
    print_table(markdown, "one request, by difference", "By difference", &rows(|pass| &pass.single));
    println!();
    if markdown {
        println!("| words | check | plain read | ratio |\n|---|---|---|---|");
    }
    for (at, Checked { words, state, .. }) in all[0].checks.iter().enumerate() {
        let of = |column: fn(&Checked) -> f64| median_of(all.iter().map(|pass| column(&pass.checks[at])).collect());
        let (check, read) = (of(|row| row.check), of(|row| row.read));
        let told = if state.is_empty() { String::new() } else { format!(", {state}") };
        if markdown {
            println!("| {}{told} | {} ns | {} ns | {:.2} |", spaced(*words as f64), spaced(check), spaced(read), check / read);
        } else {
            println!("state check of {words} words{told}: {check:.0} ns; a plain read of them {read:.0} ns; ratio {:.2}", check / read);
        }
    }
}

fn pass(settings: Settings) -> Pass {
    let long = settings.long();
    let mut told = Pass::default();
    let mut small = None;
    for &pages in settings.pages() {
        let (rust, values) = filled(pages, 16.min(pages * 64 - 2), 2, ROWS, 0);
        let first = values[0];
        let (state, words) = shown(rust);
        let start = Start::Words(words.clone());
        let handles = handles(&state);
        // The lists: one request over and over, or a cycle that leaves as many handles in the table as it had.
        let one = |request: Request| list_of(&start, long, move |_, _| request.clone());
        let mut lists: Vec<(String, f64, (Vec<u64>, usize))> = vec![
            ("get_info".to_string(), 1.0, one(get_info(0, first))),
            ("resolve".to_string(), 1.0, one(resolve(0, first, 1, 7))),
            ("scan_handles, 8 entries".to_string(), 1.0, one(scan(0, 0))),
            ("retire object".to_string(), 1.0, one(retire(OBJECTS - 1))),
            ("replace".to_string(), 1.0, list_of(&start, long, |at, answers| replace(0, if at == 0 { first } else { answers[at - 1][1] }, u64::MAX))),
            ("reserve 1, abort".to_string(), 2.0, list_of(&start, long, |at, answers| if at % 2 == 0 { reserve(0, 1) } else { abort(answers[at - 1][1]) })),
            ("reserve 16, abort".to_string(), 2.0, list_of(&start, long, |at, answers| if at % 2 == 0 { reserve(0, 16) } else { abort(answers[at - 1][1]) })),
            (
                "reserve 2, trim to 1, abort".to_string(),
                3.0,
                list_of(&start, long / 3 * 3, |at, answers| match at % 3 {
                    0 => reserve(0, 2),
                    1 => trim(answers[at - 1][1], 1),
                    _ => abort(answers[at - 2][1]),
                }),
            ),
            ("duplicate, release parcel".to_string(), 2.0, list_of(&start, long, |at, answers| if at % 2 == 0 { duplicate(0, first, 1) } else { release(answers[at - 1][1]) })),
            (
                "duplicate, reserve 1, publish, close".to_string(),
                4.0,
                list_of(&start, long, |at, answers| match at % 4 {
                    0 => duplicate(0, first, 1),
                    1 => reserve(0, 1),
                    2 => publish(answers[at - 1][1], &[answers[at - 2][1]]),
                    _ => close(0, answers[at - 2][3]),
                }),
            ),
            ("new object, release parcel".to_string(), 2.0, list_of(&start, 2 * (OBJECTS as usize - 2), |at, answers| if at % 2 == 0 { new_object(1 + at as u64 / 2, 1, 0) } else { release(answers[at - 1][1]) })),
            // 17 slots: the 16 free ones do not do, so that a page is attached, and is empty again after the abort.
            (
                "reserve 17 (a page more), abort, take_empty_page".to_string(),
                3.0,
                list_of(&start, long / 3 * 3, |at, answers| match at % 3 {
                    0 => reserve(0, 17),
                    1 => abort(answers[at - 1][1]),
                    _ => take_page(0),
                }),
            ),
        ];
        // A look at a value that a claim moves: the only one of its claim, and the last of as many as a claim has.
        for (at, count) in [1, 64.min(handles.len())].into_iter().enumerate() {
            let claim: Make = &|_, _| transfer(0, 0, handles[..count].iter().map(|value| item(0, *value, 1)).collect());
            let which = if count == 1 { "a moved value".to_string() } else { format!("the last of {count} moved values") };
            lists.insert(1 + at, (format!("get_info of {which} {RUST_REFUSES}"), 1.0, cycle_of(&start, long, &[claim], 1, &|_, _| get_info(0, handles[count - 1]))));
        }
        // Plans of 1 and of 64 slots. Of the 16 free slots one does and 64 do not, which need a page then; with the 16 reserved before, one slot needs a page too, and with an
        // empty page more, 64 need none.
        let sixteen: Make = &|_, _| reserve(0, 16);
        let whole_page: Make = &|_, _| reserve(0, 64);
        let given_back: Make = &|_, answers| abort(answers[0][1]);
        for (count, before, page) in [(1, &[][..], false), (1, &[sixteen][..], true), (64, &[whole_page, given_back][..], false), (64, &[][..], true)] {
            let name = format!("make plan of {count}{}", if page { " (a page)" } else { "" });
            lists.push((format!("{name}, drop plan"), 2.0, cycle_of(&start, long, before, 2, &|at, answers| if at % 2 == 0 { make_plan(0, count) } else { drop_plan(answers[at - 1][1]) })));
            // The page that came with the plan is empty after the abort, and is taken.
            let turn = if page { 4 } else { 3 };
            lists.push((
                format!("{name}, use plan, abort{}", if page { ", take_empty_page" } else { "" }),
                turn as f64,
                cycle_of(&start, long, before, turn, &|at, answers| match at % turn {
                    0 => make_plan(0, count),
                    1 => use_plan(answers[at - 1][1]),
                    2 => abort(answers[at - 1][1]),
                    _ => take_page(0),
                }),
            ));
        }
        for count in [1, 8, 64.min(handles.len())] {
            let (turns, held) = (long / (2 * count) + 2, handles[..count].to_vec());
            let claim = |operation: u64, values: &[u64]| transfer(0, 0, values.iter().map(|value| item(operation, *value, u64::MAX)).collect());
            let given = |answer: &[u64; ANSWER]| answer[3..3 + count].to_vec();
            lists.push((
                format!("prepare a transfer of {count}, rollback"),
                2.0,
                list_of(&start, 2 * turns, |at, answers| if at % 2 == 0 { claim(0, &held) } else { rollback(answers[at - 1][1]) }),
            ));
            for (operation, what) in [(0, "a transfer"), (1, "copies")] {
                lists.push((format!("judge {what} of {count} {RUST_PREPARES}"), 1.0, list_of(&start, turns, |_, _| judging(&claim(operation, &held)))));
            }
            lists.push((
                format!("prepare copies of {count}, commit, release parcel"),
                3.0,
                list_of(&start, 3 * turns, |at, answers| match at % 3 {
                    0 => claim(1, &held),
                    1 => commit(answers[at - 1][1]),
                    _ => release(answers[at - 2][1]),
                }),
            ));
            lists.push((
                format!("prepare {count}, commit, reserve {count}, publish"),
                4.0,
                list_of(&start, 4 * turns, |at, answers| match at % 4 {
                    0 => claim(0, &if at == 0 { held.clone() } else { given(&answers[at - 2]) }),
                    1 => commit(answers[at - 1][1]),
                    2 => reserve(0, count as u64),
                    _ => publish(answers[at - 1][1], &[answers[at - 3][1]]),
                }),
            ));
            lists.push((
                format!("reserve {count}, prepare {count}, direct commit"),
                3.0,
                list_of(&start, 3 * turns, |at, answers| match at % 3 {
                    0 => reserve(0, count as u64),
                    1 => claim(0, &if at == 1 { held.clone() } else { given(&answers[at - 4]) }),
                    _ => direct_commit(answers[at - 1][1], answers[at - 2][1]),
                }),
            ));
        }
        lists.push((
            "prepare consumption, rollback".to_string(),
            2.0,
            list_of(&start, long, |at, answers| if at % 2 == 0 { consume(0, first, 1, 7, 1000) } else { rollback(answers[at - 1][1]) }),
        ));
        // These can't be repeated: one walk over the table's handles, at most some number of them, from the same state in each run. A walk over few handles takes less time
        // than the check of the state before it, so that its time can't be told.
        let walk = handles.len().min(long);
        if walk >= 1000 {
            lists.push((
                format!("remove_stopping_owner, each of {walk}"),
                1.0,
                list_of(&start, walk, |at, answers| stopping(0, if at == 0 { 0 } else { answers[at - 1][2] })),
            ));
            // Start, a step for each handle, and where that is all of them the step that finds none, and finish.
            let whole = walk == handles.len();
            lists.push((
                format!("{}teardown, each of {walk}", if whole { "" } else { "part of a " }),
                if whole { 1.0 + 3.0 / walk as f64 } else { 1.0 + 1.0 / walk as f64 },
                list_of(&start, if whole { walk + 3 } else { walk + 1 }, |at, _| match at {
                    0 => teardown_start(0),
                    _ if at == walk + 2 => teardown_finish(0),
                    _ => teardown_step(0),
                }),
            ));
        }
        lists.truncate(settings.rows(lists.len()));
        for (name, cycle, (list, count)) in lists {
            let mut answers = vec![0u64; count * ANSWER];
            let mut given = vec![0u64; count * ANSWER];
            // The Rust.
            let rust_time = median(settings.times(), || {
                let mut rust = Direct::timed();
                assert_eq!(rust.start(&start), 0);
                let from = Instant::now();
                let result = rust.call(black_box(&list), &mut given);
                let time = from.elapsed().as_nanos() as f64;
                assert_eq!(result, 0);
                rust.end();
                time
            });
            let wanted = wanted(&start, &list, count);
            assert!(same_or_busy(&list, &given, &wanted), "{name}: the Rust that is timed answers otherwise");
            let reading = median(settings.times(), || {
                let from = Instant::now();
                black_box(read_list(black_box(&list)).map(|list| list.len()));
                from.elapsed().as_nanos() as f64
            });
            // The port.
            let mut port = CEntry::of_the_port();
            let mut timed = |list: &[u64], answers: &mut [u64]| {
                median(settings.times(), || {
                    let mut state = words.clone();
                    let from = Instant::now();
                    let result = port.bare(&mut state, black_box(list), answers);
                    let time = from.elapsed().as_nanos() as f64;
                    assert_eq!(result, 0);
                    time
                })
            };
            let check = timed(&[], &mut []);
            let whole = timed(&list, &mut answers);
            assert_eq!(answers, wanted, "{name}: the answers differ");
            let each = |time: f64| time / count as f64 * cycle;
            let (port_ns, rust_ns, less_ns) = (each(whole - check), each(rust_time), each(rust_time - reading));
            told.cycles.push(Row { slots: pages * 64, name, port: port_ns, rust: rust_ns, less: less_ns });
        }
        // The state check, and at 64 pages the same with other objects and with open rows.
        told.checks.push(checked(settings, &words, ""));
        if pages == 64 {
            let mut random = Rng::new(1);
            told.checks.push(checked(settings, &spread(&state, |number| number % OBJECTS), "handles of all objects in turn"));
            told.checks.push(checked(settings, &spread(&state, |_| random.below(OBJECTS)), "each handle of a random object"));
            let (_, open) = shown(filled(pages, 16, 2, OPEN, OPEN).0);
            told.checks.push(checked(settings, &open, "64 rows open, parcels of one handle"));
        }
        small.get_or_insert((start, words, handles));
    }
    let (start, words, handles) = small.expect("the smallest table");
    differences(settings, &mut told.single, 64, &start, &words, &handles);
    publishes(settings, &mut told.single);
    told
}
