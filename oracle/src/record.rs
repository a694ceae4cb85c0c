//! Makes the recorded lists from the Rust.

use std::collections::BTreeMap;

use crate::cases;
use crate::generate::{KINDS, Kind, Ops, Rng, Sequence, sequence};
use crate::oracle::Oracle;
use crate::reading::{Reading, Slip};
use crate::recorded::{Case, from_traces, write};
use crate::requests::{self, ANSWER};
use crate::state::{RowKind, State};
use crate::subject::{Runs, Start, Subject};
use crate::words;

/// How many random lists of each kind, and how long.
const RANDOM: [(Kind, u64, usize); 4] = [(Kind::Plain, 40, 110), (Kind::Edges, 32, 60), (Kind::Scrambled, 32, 60), (Kind::LastPage, 4, 40)];
/// The same for the lists that the Rattle program `replay` runs too.
const MIXED: [(Kind, u64, usize); 3] = [(Kind::Plain, 16, 110), (Kind::Edges, 12, 60), (Kind::Scrambled, 12, 60)];
/// The same with plans, for plans.txt.
const PLANS: [(Kind, u64, usize); 4] = [(Kind::Plain, 12, 110), (Kind::Edges, 6, 60), (Kind::Scrambled, 6, 60), (Kind::LastPage, 2, 30)];
/// The same for looks.txt: lists that look at moved values this often or more.
const LOOKS: [(Kind, u64, usize); 3] = [(Kind::Plain, 4, 110), (Kind::Edges, 3, 60), (Kind::Scrambled, 3, 60)];
const OFTEN: u64 = 6;
/// The same for judged.txt: lists in which transfers are judged this often or more.
const JUDGED: [(Kind, u64, usize); 3] = [(Kind::Plain, 2, 110), (Kind::Edges, 2, 60), (Kind::Scrambled, 2, 60)];
const JUDGED_OFTEN: u64 = 8;
const SEED: u64 = 0x5EED_0000;

/// File names and contents.
pub fn all() -> Vec<(String, String)> {
    let mut oracle = Oracle::default();
    let mut reading = Reading::new(Slip::None);
    let mut files = Vec::new();
    let mut of_cases = |oracle: &mut Oracle, cases: Vec<cases::Case>| -> Vec<Case> {
        let mut named = Vec::new();
        for case in cases {
            let calls: Vec<_> = case.asks.iter().map(|ask| ask.call.clone()).collect();
            let (found, read) = (oracle.run(&case.start, &calls), reading.run(&case.start, &calls));
            named.push(from_traces(case.name, case.about, &case.start, &calls, &found, &read));
        }
        named
    };
    let mut named = of_cases(&mut oracle, cases::all());
    for (name, params) in refused_creations() {
        let start = Start::Create(params);
        let found = oracle.run(&start, &[]);
        named.push(from_traces(name, "creation outside its limits gives 18 (driver, not the Rust)", &start, &[], &found, &found));
    }
    files.push(("cases.txt".to_string(), write(&named)));
    let mut changed = states(&mut oracle, "state", 25, small_state);
    changed.extend(states(&mut oracle, "plan-state", 8, small_planned_state));
    files.push(("states.txt".to_string(), write(&changed)));
    for kind in RANDOM {
        files.push((format!("{}.txt", name_of(kind.0)), write(&random(&mut oracle, "", SEED, Ops::WithoutPlans, kind, ANY))));
    }
    let mixed: Vec<Case> = MIXED.into_iter().flat_map(|kind| random(&mut oracle, "mixed-", SEED + 0x1000, Ops::WithoutPlans, kind, ANY)).collect();
    files.push(("mixed.txt".to_string(), write(&mixed)));
    let mut plans = of_cases(&mut oracle, cases::plans::all());
    plans.extend(PLANS.into_iter().flat_map(|kind| random(&mut oracle, "plans-", SEED + 0x2000, Ops::WithPlans, kind, ANY)));
    files.push(("plans.txt".to_string(), write(&plans)));
    let mut looks = of_cases(&mut oracle, cases::looks::all());
    looks.extend(LOOKS.into_iter().flat_map(|kind| random(&mut oracle, "looks-", SEED + 0x3000, Ops::WithLooks, kind, |made| made.looks.looks >= OFTEN)));
    files.push(("looks.txt".to_string(), write(&looks)));
    let mut judged = of_cases(&mut oracle, cases::judged::all());
    judged.extend(JUDGED.into_iter().flat_map(|kind| random(&mut oracle, "judged-", SEED + 0x4000, Ops::WithJudging, kind, |made| made.judged.judged >= JUDGED_OFTEN)));
    files.push(("judged.txt".to_string(), write(&judged)));
    files
}

fn name_of(kind: Kind) -> &'static str {
    KINDS.iter().find(|(known, _)| *known == kind).map_or("", |(_, name)| name)
}

/// Which random lists are taken.
type Taken = fn(&Sequence) -> bool;
const ANY: Taken = |_| true;

/// Random lists of a kind, from a seed on: the first that are to be taken.
fn random(oracle: &mut Oracle, prefix: &str, from: u64, ops: Ops, (kind, count, length): (Kind, u64, usize), taken: Taken) -> Vec<Case> {
    let made = (from..).map(|seed| (seed, sequence(seed, kind, length, ops))).filter(|(_, made)| taken(made));
    made.take(count as usize)
        .enumerate()
        .map(|(number, (seed, made))| {
            let found = oracle.run(&made.start, &made.calls);
            from_traces(&format!("{prefix}{}-{number}", name_of(kind)), &format!("random, seed {seed:x}"), &made.start, &made.calls, &found, &made.trace)
        })
        .collect()
}

/// Small states with one or two words changed, and whether they are still well formed. Decided by the driver's check, not by the Rust.
fn states(oracle: &mut Oracle, name: &str, good: usize, of: fn(&mut Rng) -> (State, Vec<usize>)) -> Vec<Case> {
    let mut cases = Vec::new();
    let mut seen: BTreeMap<String, usize> = BTreeMap::new();
    for number in 0..20_000u64 {
        let mut rng = Rng::new(SEED + number);
        let (state, at) = of(&mut rng);
        let mut words = words::encode(&state);
        let place = if rng.chance(700) { at[rng.below(at.len() as u64) as usize] } else { rng.below(words.len() as u64) as usize };
        let old = words[place];
        words[place] = match rng.below(6) {
            0 => old.wrapping_add(1),
            1 => old.wrapping_sub(1),
            2 => 0,
            3 => rng.below(5),
            4 => 1 << rng.below(64),
            _ => words[at[rng.below(at.len() as u64) as usize]],
        };
        if words[place] == old {
            continue;
        }
        let about = match words::decode(&words) {
            Ok(changed) if changed == state => "still well formed, the same state".to_string(),
            Ok(_) => "still well formed".to_string(),
            Err(what) => what,
        };
        let count = seen.entry(about.clone()).or_default();
        *count += 1;
        if *count > if about.starts_with("still") { good } else { 4 } {
            continue;
        }
        let start = Start::Words(words);
        let found = oracle.run(&start, &[]);
        cases.push(from_traces(&format!("{name}-{number}"), &format!("word {place} changed from {old:x}: {about}"), &start, &[], &found, &found));
    }
    cases
}

/// A small state reached by some requests, and the places of words that say something.
fn small_state(rng: &mut Rng) -> (State, Vec<usize>) {
    let things: Vec<[u64; 6]> = (0..2).map(|at| [10 + at, 3, 0, u64::MAX, 1, 9]).collect();
    let params = cases::params(&[(2, 0), (1, 5)], 2, &things, 4);
    let mut reading = Reading::new(Slip::None);
    reading.start(&Start::Create(params));
    let lists = [
        requests::reserve(0, 3), requests::new_object(0, u64::MAX, 1), requests::trim(1, 1), requests::publish(1, &[2]),
        requests::duplicate(0, cases::v(63, 1), 7), requests::reserve(0, 2), requests::trim(4, 1), requests::publish(4, &[3]),
        requests::transfer(0, 0, vec![requests::item(0, cases::v(61, 2), 3), requests::item(1, cases::v(63, 1), 1)]),
        requests::reserve(1, 4), requests::new_object(1, 3, 0), requests::abort(6), requests::take_page(1), requests::reserve(0, 2),
    ];
    let upto = 4 + rng.below(lists.len() as u64 - 3) as usize;
    for request in &lists[..upto] {
        reading.call(&request.words(), &mut [0; ANSWER]);
    }
    if rng.chance(150) {
        reading.call(&requests::teardown_start(1).words(), &mut [0; ANSWER]);
        if rng.chance(500) {
            reading.call(&requests::teardown_finish(1).words(), &mut [0; ANSWER]);
        }
    }
    let Some(state) = reading.state().cloned() else { unreachable!("the reading keeps its state") };
    let words = words::encode(&state);
    let places = (0..words.len()).filter(|at| words[*at] != 0).collect();
    (state, places)
}

/// A small state with plans, one of them of a retired table, and the places of the words of its plans and of their frames.
fn small_planned_state(rng: &mut Rng) -> (State, Vec<usize>) {
    let params = cases::params(&[(3, 0), (1, 5)], 5, &[[10, 3, 0, u64::MAX, 1, 9]], 5);
    let mut reading = Reading::new(Slip::None);
    reading.start(&Start::Create(params));
    let lists = [
        requests::make_plan(1, 1), requests::make_plan(0, 64), requests::reserve(0, 1), requests::make_plan(0, 3), requests::make_plan(0, 64),
        requests::teardown_start(1), requests::teardown_finish(1), requests::drop_plan(2), requests::abort(3),
    ];
    let upto = 2 + rng.below(lists.len() as u64 - 1) as usize;
    for request in &lists[..upto] {
        reading.call(&request.words(), &mut [0; ANSWER]);
    }
    let Some(state) = reading.state().cloned() else { unreachable!("the reading keeps its state") };
    let words = words::encode(&state);
    let at = words::places(words[1], words[2], words[3], words[4], words[8]);
    let mut places: Vec<usize> = (at.owners..at.by_16).collect();
    for (rank, row) in state.rows.iter().enumerate() {
        if let RowKind::Plan { frames, .. } = &row.kind {
            let first = at.rows + words::ROW * rank;
            places.extend((first..first + 6).chain(first + 6..first + 9));
            places.extend((0..=frames.len()).flat_map(|entry| first + 6 + 6 * entry..first + 8 + 6 * entry));
        }
    }
    (state, places)
}

fn refused_creations() -> Vec<(&'static str, Vec<u64>)> {
    let thing = [1, 1, 0, 0, 1, 1];
    let good = |change: &dyn Fn(&mut Vec<u64>)| {
        let mut params = cases::params(&[(1, 0)], 1, &[thing], 1);
        change(&mut params);
        params
    };
    vec![
        ("creation-no-words", vec![]),
        ("creation-tables-0", good(&|p| p[0] = 0)),
        ("creation-tables-17", cases::params(&[(1, 0); 17], 1, &[thing], 1)),
        ("creation-frames-65536", good(&|p| p[1] = 65_536)),
        ("creation-objects-0", good(&|p| p[2] = 0)),
        ("creation-objects-4097", good(&|p| p[2] = 4097)),
        ("creation-rows-0", good(&|p| p[3] = 0)),
        ("creation-rows-257", good(&|p| p[3] = 257)),
        ("creation-pages-0", good(&|p| p[4] = 0)),
        ("creation-pages-262145", good(&|p| p[4] = 262_145)),
        ("creation-koid-0", good(&|p| p[6] = 0)),
        ("creation-kind-wide", good(&|p| p[7] = 1 << 32)),
        ("creation-class-3", good(&|p| p[8] = 3)),
        ("creation-exportable-2", good(&|p| p[10] = 2)),
        ("creation-limit-wide", good(&|p| p[11] = 1 << 32)),
        ("creation-cut-off", good(&|p| {
            p.pop();
        })),
        ("creation-longer-than-needed", good(&|p| p.push(99))),
    ]
}
