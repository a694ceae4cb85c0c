//! The random comparison of the oracle with a subject.

use std::collections::BTreeMap;

use crate::check::explained;
use crate::tally::Tally;
use crate::coverage::{Coverage, possible};
use crate::generate::{KINDS, Kind, Ops, Sequence, last_call, sequence_with, shrink};
use crate::oracle::Oracle;
use crate::requests::{ANSWER, NAMES, read_list};
use crate::{fills, judged, looks, plans};
use crate::second_reader;
use crate::state;
use crate::subject::{Call, FILL, Runs, Start, Texts, Trace, difference};
use crate::words;

pub struct Settings {
    /// The command's name, for its lines.
    pub name: &'static str,
    pub seed: u64,
    pub requests: u64,
    pub length: usize,
    /// Whether every possible pair of a request and a number must occur.
    pub covers: bool,
}

pub fn show(start: &Start, calls: &[Call]) {
    match start {
        Start::Create(params) => println!("  create {}", crate::recorded::code(params)),
        Start::Words(words) => println!("  words {}", crate::recorded::code(words)),
    }
    for call in calls {
        let op = read_list(&call.list).and_then(|list| list.first().map(|request| NAMES[request.op() as usize])).unwrap_or("malformed");
        println!("  {:24} {}", op, crate::recorded::hex(&call.list));
    }
}

/// Compares the oracle with a subject on random lists. The generator's own trace is the reading's: without another subject that trace is what is
/// compared, else the subject runs the same lists again.
pub fn random(settings: &Settings, mut other: Option<&mut dyn Runs>, tally: &mut Tally) {
    let mut oracle = Oracle::default();
    let mut coverage = Coverage::default();
    let (mut seen_plans, mut seen_looks, mut seen_fills, mut seen_judged) = (plans::Seen::default(), looks::Seen::default(), fills::Seen::default(), judged::Seen::default());
    let mut violations: BTreeMap<String, u64> = BTreeMap::new();
    let (mut differences, mut unexplained, mut readers, mut reader_faults, mut lists, mut loads) = (0, 0, 0u64, 0, 0u64, 0u64);
    let mut per_kind = [0u64; 4];
    let mut seed = settings.seed;
    while coverage.requests < settings.requests && differences < 5 && unexplained < 5 {
        seed += 1;
        let kind = match seed % 16 {
            0..=4 => Kind::Plain,
            5..=9 => Kind::Edges,
            _ if seed % 160 == 15 => Kind::LastPage,
            _ => Kind::Scrambled,
        };
        let length = if kind == Kind::LastPage { 30 } else { settings.length };
        let Sequence { start, calls, trace, plans, looks, fills, judged } = sequence_with(seed, kind, length, Ops::All, if other.is_some() { Texts::Last } else { Texts::Each });
        per_kind[kind as usize] += 1;
        let found = oracle.run(&start, &calls);
        let compared = match other.as_mut() {
            Some(other) => other.run(&start, &calls),
            None => trace,
        };
        coverage.add(&calls, &found);
        // A list that the Rust ends early is not counted.
        if found.stopped.is_none() {
            seen_plans.add(&plans);
            seen_looks.add(&looks);
            seen_fills.add(&fills);
            seen_judged.add(&judged);
        }
        if let Some(place) = &found.stopped {
            match explained(place) {
                Some(why) if at_the_last_epoch(&found) => *violations.entry(why.to_string()).or_default() += 1,
                _ => {
                    unexplained += 1;
                    println!("unexplained invariant_violation at {}:{}, seed {seed}, {kind:?}, call {}", place.file, place.line, found.steps.len());
                }
            }
        }
        if let Some((at, what)) = difference(&found, &compared) {
            differences += 1;
            println!("difference (oracle <, other >), seed {seed}, {kind:?}, after {at} calls: {what}");
            let mut reading = crate::reading::Reading::new(crate::reading::Slip::None);
            let right: &mut dyn Runs = match other.as_mut() {
                Some(other) => *other,
                None => &mut reading,
            };
            let short = shrink(&mut oracle, right, &start, &calls);
            println!("the shortest list found, {} calls:", short.len());
            show(&start, &short);
            if let Some((from, call)) = last_call(&mut oracle, right, &start, &short) {
                println!("one call from the state before it:");
                show(&from, &[call]);
            }
        }
        // The oracle's last state through its words, by the second reader, and loaded again.
        if let Some(step) = found.steps.last() {
            readers += 1;
            let read = state::parse(&step.text).map(|state| words::encode(&state)).and_then(|words| second_reader::text(&words));
            if read.as_deref() != Ok(step.text.as_str()) {
                reader_faults += 1;
                println!("the second reader differs, seed {seed}: {:?}", read.err());
            }
            if seed % 16 == 3
                && let Ok(state) = state::parse(&step.text)
            {
                loads += 1;
                let again = oracle.run(&Start::Words(words::encode(&state)), &[]);
                if again.text != step.text || again.start != 0 {
                    differences += 1;
                    println!("a state loaded from its words shows another text, seed {seed}");
                }
            }
        }
        // All calls as one list: the same answers and the same end.
        if seed % 16 == 1 && found.stopped.is_none() {
            lists += 1;
            let run: Vec<usize> = (0..calls.len()).filter(|at| found.steps[*at].result == 0).collect();
            let list: Vec<u64> = run.iter().flat_map(|at| calls[*at].list.clone()).collect();
            let whole = Call { list, lent: run.iter().map(|at| read_list(&calls[*at].list).map_or(0, |list| list.len())).sum::<usize>() * ANSWER + 3 };
            let mut wanted: Vec<u64> = run
                .iter()
                .flat_map(|at| {
                    let count = read_list(&calls[*at].list).map_or(0, |list| list.len());
                    found.steps[*at].answers[..count * ANSWER].to_vec()
                })
                .collect();
            wanted.extend([FILL; 3]);
            let end = found.steps.last().map(|step| &step.text);
            let mut same = |once: &Trace, who: &str| {
                if once.steps.first().map(|step| (&step.answers, Some(&step.text))) != Some((&wanted, end)) {
                    differences += 1;
                    println!("one list gives other answers than its requests one by one, seed {seed}, on {who}");
                }
            };
            same(&oracle.run(&start, &[whole.clone()]), "the Rust");
            if let Some(other) = other.as_mut() {
                same(&other.run(&start, &[whole]), "the other");
            }
        }
    }
    let whole = other.is_none();
    let (unseen, strange) = if settings.covers { coverage.print(possible) } else { (0, 0) };
    let name = settings.name;
    let stopped: u64 = violations.values().sum();
    for (why, count) in &violations {
        println!("not comparable: {count} lists ended at an explained invariant_violation: {why}");
    }
    let kinds: Vec<String> = KINDS.iter().map(|(kind, name)| format!("{} {name}", per_kind[*kind as usize])).collect();
    tally.line(
        differences == 0,
        &format!(
            "{name}: {} requests in lists from seed {} on ({}), all 72 answer words and the state text after each call compared: {differences} differences",
            coverage.requests,
            settings.seed + 1,
            kinds.join(", ")
        ),
    );
    tally.line(unexplained == 0, &format!("{name}: {unexplained} unexplained invariant_violation, {stopped} explained"));
    if settings.covers {
        tally.line(unseen == 0 && strange == 0, &format!("{name}: coverage, {unseen} possible cells unseen, {strange} impossible cells seen"));
        let told = |lacking: &[&str]| lacking.iter().map(|what| format!("; none {what}")).collect::<String>();
        let lacking = seen_plans.print();
        tally.line(lacking.is_empty(), &format!("{name}: plans of every sort were made, used and dropped{}", told(&lacking)));
        let lacking = seen_looks.print();
        tally.line(lacking.is_empty(), &format!("{name}: {} looks at values that are being moved, of every sort{}", seen_looks.looks, told(&lacking)));
        let lacking = seen_fills.print();
        let lacking: Vec<&str> = lacking.iter().map(String::as_str).collect();
        tally.line(lacking.is_empty(), &format!("{name}: publishes and direct commits of every sort, accepted and refused{}", told(&lacking)));
        let lacking = seen_judged.print();
        let lacking: Vec<&str> = lacking.iter().map(String::as_str).collect();
        tally.line(lacking.is_empty(), &format!("{name}: {} judgings of transfers, of every place and position{}", seen_judged.judged, told(&lacking)));
    }
    tally.line(
        seen_judged.other == 0 && seen_judged.other_then == 0 && seen_judged.prepared > 0,
        &format!(
            "{name}: {} judgings give the number that the reading's preparation gives on a copy of the state, {} do not; {} of these transfers were prepared next: {} with another number",
            seen_judged.judged - seen_judged.other, seen_judged.other, seen_judged.prepared, seen_judged.other_then
        ),
    );
    tally.line(lists > 0 && differences == 0, &format!("{name}: {lists} of these lists run as one call: the same answers and the same end"));
    if !whole {
        return;
    }
    tally.line(reader_faults == 0, &format!("random: {readers} end states through their words: the second reader's text equals the driver's"));
    tally.line(loads > 0 && differences == 0, &format!("random: {loads} states loaded from words: the same states"));
}

/// A table of the last state before the stop had its epoch at the end.
fn at_the_last_epoch(trace: &Trace) -> bool {
    let text = trace.steps.last().map_or(&trace.text, |step| &step.text);
    text.contains(&format!(" epoch {} ", u64::MAX))
}
