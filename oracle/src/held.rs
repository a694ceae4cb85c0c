//! The held and the plain run (demand 3): run H prepares a transfer of moves, runs a list, then rolls back or commits; run P runs the same list
//! without it and, where H commits, closes the moved values in the transfer's order. Both runs are of one subject (the Rust, the port or the
//! reading), from two lots of words of one state, each cut into calls at random places.

use crate::coverage::{Coverage, possible_while_held};
use crate::generate::{Kind, Ops, Rng, any_state, next_request, words_of};
use crate::judged::PLACES;
use crate::reading::{Reading, Slip};
use crate::requests::*;
use crate::state::{self, Life, RowKind, Slot, State};
use crate::subject::{Call, FILL, Runs, Start, Subject, Texts, Trace};
use crate::tally::Tally;
use crate::words;

/// The longest list between the transfer and its end, looks at moved values apart.
const LONGEST: u64 = 40;
/// How many looks at moved values come to a thousand requests, beside those that the generator makes.
const LOOKS: u64 = 70;

/// Mistakes made on purpose in the comparison itself: each must show.
#[derive(Clone, Copy, Debug, Eq, PartialEq)]
pub enum Mistake {
    None,
    ListNotLowered,
    AnswersNotLowered,
    EndNotLowered,
    ClosedBackwards,
    ListCutShort,
    OtherLookedAt,
    JudgedWithoutARow,
    JudgedWithoutAnId,
}
const MISTAKES: [(Mistake, &str); 8] = [
    (Mistake::ListNotLowered, "the plain run's list keeps the held run's ids"),
    (Mistake::AnswersNotLowered, "the held run's answers keep their ids"),
    (Mistake::EndNotLowered, "the held run's end keeps its ids"),
    (Mistake::ClosedBackwards, "the plain run closes the moved values in the opposite order"),
    (Mistake::ListCutShort, "the plain run's list lacks its last request"),
    (Mistake::OtherLookedAt, "the plain run looks at another of the moved values"),
    (Mistake::JudgedWithoutARow, "a transfer is judged where the held run has no free row"),
    (Mistake::JudgedWithoutAnId, "a transfer is judged where the held run has no id left"),
];

/// "Ids above the transfer's, the next id included, are one lower in P, in list, answers and state."
fn lower(id: u64, held: u64) -> u64 {
    if id > held { id - 1 } else { id }
}

/// The request of the plain run.
fn plain(request: &Request, held: u64) -> Request {
    let mut request = request.clone();
    for record in std::iter::once(&mut request.record).chain(request.items.iter_mut()) {
        for field in [ID, DESTINATION] {
            if record.has(field) {
                record.fields[field] = lower(record.fields[field], held);
            }
        }
    }
    request
}

/// The answer of the plain run: the ids that answers give are word 1 of these requests.
fn plain_answer(request: &Request, answer: &[u64], held: u64) -> Vec<u64> {
    let mut answer = answer.to_vec();
    if [NEW_OBJECT, DUPLICATE, RESERVE, TRANSFER, CONSUME, MAKE_PLAN, USE_PLAN].contains(&request.op()) && answer[0] == 0 {
        answer[1] = lower(answer[1], held);
    }
    answer
}

fn plain_state(state: &State, held: u64) -> State {
    let mut state = state.clone();
    state.next = lower(state.next, held);
    for row in &mut state.rows {
        row.id = lower(row.id, held);
    }
    state
}

/// A look at one of the moved values.
fn looks(request: &Request, table: u64, values: &[u64]) -> bool {
    request.op() == GET_INFO && request.get(TABLE) == table && values.contains(&request.get(VALUE))
}

/// Whether the list may hold this request: "The list names neither those values in that table nor that transfer's id, and neither scans,
/// starts tearing down nor removes for a stopping owner there", but "the list may now hold `get_info` on moved values".
fn permitted(request: &Request, table: u64, values: &[u64], held: u64) -> bool {
    let there = request.record.option(TABLE) == Some(table);
    let mut records = std::iter::once(&request.record).chain(&request.items);
    let names = records.any(|record| {
        (there && request.op() != GET_INFO && record.option(VALUE).is_some_and(|value| values.contains(&value)))
            || record.option(ID) == Some(held)
            || record.option(DESTINATION) == Some(held)
    });
    !names && !(there && [SCAN, TEARDOWN_START, STOPPING].contains(&request.op()))
}

/// Whether a request may stand in the list in a state of the held run. Judging a transfer "may stand in the held and plain runs' list where the held run has a free row and an id left".
fn may_stand(request: &Request, state: &State, mistake: Mistake) -> bool {
    let row = (state.rows.len() as u64) < state.row_capacity || mistake == Mistake::JudgedWithoutARow;
    let id = state.next < u64::MAX || mistake == Mistake::JudgedWithoutAnId;
    request.op() != JUDGE || row && id
}

/// "It wants a row if it gives 1 with frames enough for the pages it needs, an id if it gives 12." The state is the one it was refused in.
fn wants(request: &Request, number: u64, state: &State) -> bool {
    let lacks_frames = || {
        [RESERVE, MAKE_PLAN].contains(&request.op())
            && state.tables.get(request.get(TABLE) as usize).is_some_and(|table| {
                table.pages_needed(request.get(COUNT), Slip::None).is_ok_and(|pages| pages.len() > state.free_frames.len())
            })
    };
    number == 12 || number == 1 && !lacks_frames()
}

/// A held and a plain run.
pub struct Pair {
    from: State,
    table: u64,
    values: Vec<u64>,
    /// Koid, kind, rights and flags of each of the values before the transfer.
    infos: Vec<[u64; 4]>,
    transfer: Request,
    list: Vec<Request>,
    commits: bool,
    /// The plans that are open after the list, by the held run's ids.
    plans: Vec<u64>,
}

fn plans_of(state: &State) -> Vec<u64> {
    state.rows.iter().filter(|row| matches!(row.kind, RowKind::Plan { .. })).map(|row| row.id).collect()
}

/// The transfer of moves, accepted, and the list, made along the reading's held run. None if nothing can be moved in the state.
fn pair(seed: u64, mistake: Mistake) -> Option<Pair> {
    let kind = match seed % 8 {
        _ if seed % 1000 == 7 => Kind::LastPage,
        0..=1 => Kind::Plain,
        2..=4 => Kind::Edges,
        _ => Kind::Scrambled,
    };
    let mut rng = Rng::new(seed ^ 0x4E1D << 40);
    let from = any_state(&mut rng, kind);
    let table = rng.below(from.tables.len() as u64);
    let held = &from.tables[table as usize];
    if held.life != Life::Active || from.rows.len() as u64 >= from.row_capacity || from.next == u64::MAX {
        return None;
    }
    let route = rng.below(3);
    let mut movable = Vec::new();
    for (number, page) in held.pages.iter().enumerate() {
        for (place, slot) in page.slots.iter().enumerate() {
            if let Slot::Occupied(generation, handle) = slot {
                let object = &from.objects[handle.object as usize];
                if handle.rights & 2 == 2 && (object.class == 0 || object.class == 1 && route != 0) {
                    let value = 0x4800_0000_0000_0000 | ((generation << 24 | (number as u64 * 64 + place as u64 + 1)) ^ held.mask);
                    movable.push((value, handle.rights, u64::from(object.kind), object.koid, handle.flags));
                }
            }
        }
    }
    if movable.is_empty() {
        return None;
    }
    rng.shuffle(&mut movable);
    let count = match rng.below(20) {
        0 => 64,
        1..=3 => 7 + rng.below(58),
        _ => 1 + rng.below(6),
    };
    movable.truncate(count as usize);
    let values: Vec<u64> = movable.iter().map(|(value, ..)| *value).collect();
    let infos = movable.iter().map(|(_, rights, kind, koid, flags)| [*koid, *kind, *rights, *flags]).collect();
    let mut items = Vec::new();
    for (value, rights, kind, ..) in &movable {
        let gets = rights & rng.next();
        let mut record = item(0, *value, gets);
        if rng.chance(150) {
            record = record.with(OFFERED_RIGHTS, gets | rights & rng.next());
        }
        for field in [OFFERED_KIND, EXPECTED_KIND] {
            if rng.chance(100) {
                record = record.with(field, *kind);
            }
        }
        items.push(record);
    }
    let mut transfer = transfer(table, route, items);
    let (some_koid, some_kind) = (1 + rng.below(2000), rng.below(5));
    if rng.chance(100) && movable.iter().all(|(.., koid, _)| *koid != some_koid) {
        transfer = transfer.with(FORBIDDEN_OBJECT, some_koid);
    }
    if rng.chance(100) && movable.iter().all(|(_, _, kind, ..)| *kind != some_kind) {
        transfer = transfer.with(FORBIDDEN_KIND, some_kind);
    }
    let id = from.next;
    let mut reading = Reading::new(Slip::None);
    reading.set_state(from.clone());
    let mut answer = [0; ANSWER];
    reading.call(&transfer.words(), &mut answer);
    if answer[0] != 0 {
        unreachable!("the transfer of seed {seed} is refused with {}", answer[0]);
    }
    let (length, commits) = (1 + rng.below(LONGEST), rng.chance(500));
    let mut list = Vec::new();
    let mut others = 0;
    for _ in 0..4 * length {
        let now = reading.state()?;
        let request = match rng.pick(&values).copied() {
            Some(value) if rng.chance(LOOKS) => get_info(table, value),
            _ => next_request(&mut rng, now, Ops::All),
        };
        if !permitted(&request, table, &values, id) || !may_stand(&request, now, mistake) {
            continue;
        }
        reading.call(&request.words(), &mut answer);
        // "H refuses nothing for want of a row or an id": such a request has changed nothing, and is left out.
        if wants(&request, answer[0], reading.state()?) {
            continue;
        }
        others += u64::from(!looks(&request, table, &values));
        list.push(request);
        if others == length {
            break;
        }
    }
    let plans = plans_of(reading.state()?);
    (!list.is_empty()).then_some(Pair { from, table, values, infos, transfer, list, commits, plans })
}

/// Requests cut into calls at random places, each with one answer word more than it needs.
fn cut(rng: &mut Rng, requests: &[Request]) -> Vec<Call> {
    let chance = [0, 1000, 300, 80][rng.below(4) as usize];
    let mut calls: Vec<Call> = Vec::new();
    for request in requests {
        match calls.last_mut() {
            Some(call) if !rng.chance(chance) => {
                call.list.extend(request.words());
                call.lent += ANSWER;
            }
            _ => calls.push(Call::one(request.words())),
        }
    }
    calls
}

/// The answers of a run one by one, or what is wrong with its calls.
fn answers(trace: &Trace, calls: &[Call]) -> Result<Vec<Vec<u64>>, String> {
    if trace.start != 0 {
        return Err(format!("the start gives {}", trace.start));
    }
    let mut all = Vec::new();
    for (at, call) in calls.iter().enumerate() {
        let Some(step) = trace.steps.get(at) else { return Err(format!("call {at} was not reached")) };
        if step.result != 0 {
            return Err(format!("call {at} gives {}", step.result));
        }
        if step.answers[call.lent - 1] != FILL {
            return Err(format!("call {at} changed the word after its last answer"));
        }
        all.extend(step.answers[..call.lent - 1].chunks(ANSWER).map(<[u64]>::to_vec));
    }
    Ok(all)
}

fn end(trace: &Trace) -> Result<State, String> {
    let text = trace.steps.last().map_or(&trace.text, |step| &step.text);
    state::parse(text).map_err(|error| format!("no end state: {error}"))
}

/// The first violation that a run reached, if any.
fn stop<'a>(traces: &[&'a Trace]) -> Option<&'a crate::violation::Place> {
    traces.iter().find_map(|trace| trace.stopped.as_ref())
}

#[cfg(rust_sources)]
fn explained(place: &crate::violation::Place) -> bool {
    crate::check::explained(place).is_some()
}
#[cfg(not(rust_sources))]
fn explained(_place: &crate::violation::Place) -> bool {
    false
}

/// What a pair showed: the differences, or that a run stopped at an explained violation.
enum Shown {
    Faults(Vec<String>),
    NotComparable,
}

/// What the lists asked for.
#[derive(Default)]
struct Seen {
    coverage: Coverage,
    /// Requests accepted that name the table of the held transfer.
    there: u64,
    /// Transfers of more than 32 moves.
    long: u64,
    /// Plans compared after the list and while the transfer is held: fresh, and stale.
    plans: [u64; 2],
    /// Looks at moved values, and of these at such whose receiver gets other rights.
    looks: [u64; 2],
    /// Transfers judged: by the place, 0 where it would be accepted; and of all those in the table of the held transfer.
    judged: [u64; PLACES.len() + 1],
    judged_there: u64,
}

/// Whether a plan is stale after some requests: whether using it then gives 21. At the end of the epoch the Rust stops where it has found the plan fresh.
fn stale(subject: &mut dyn Runs, from: &Start, requests: &[Request], plan: u64) -> Result<bool, String> {
    let mut list: Vec<u64> = requests.iter().flat_map(Request::words).collect();
    list.extend(use_plan(plan).words());
    let lent = (requests.len() + 1) * ANSWER;
    let trace = subject.run_with(from, &[Call { list, lent }], Texts::None);
    match (stop(&[&trace]), trace.steps.first()) {
        (Some(place), _) if explained(place) => Ok(false),
        (None, Some(step)) if step.result == 0 => Ok(step.answers[lent - ANSWER] == 21),
        _ => Err(format!("plan {plan} could not be used")),
    }
}

/// "A held transfer makes no plan stale": a plan of the first state is as stale as it was with the transfer prepared, and with it rolled back; one that is open after the list as it
/// is in the plain run.
fn compare_plans(pair: &Pair, from: [&Start; 2], subject: &mut dyn Runs, lists: [&[Request]; 2], seen: &mut Seen) -> Vec<String> {
    let held = pair.from.next;
    let prepared = [pair.transfer.clone()];
    let ended = [pair.transfer.clone(), rollback(held)];
    let mut pairs: Vec<(u64, &[Request], u64, &[Request], &str)> = Vec::new();
    for id in plans_of(&pair.from) {
        pairs.push((id, &prepared, id, &[], "with the transfer prepared"));
        pairs.push((id, &ended, id, &[], "with the transfer rolled back"));
    }
    for id in &pair.plans {
        pairs.push((*id, lists[0], lower(*id, held), lists[1], "after the list"));
    }
    let mut faults = Vec::new();
    for (id_h, list_h, id_p, list_p, when) in pairs {
        match (stale(subject, from[0], list_h, id_h), stale(subject, from[1], list_p, id_p)) {
            (Ok(left), Ok(right)) if left == right => seen.plans[usize::from(left)] += 1,
            (left, right) => faults.push(format!("plan {id_h} is stale {when}: held {left:?}, plain {right:?}")),
        }
    }
    faults
}

fn compare(pair: &Pair, seed: u64, subject: &mut dyn Runs, mistake: Mistake, seen: &mut Seen) -> Shown {
    let mut rng = Rng::new(seed ^ 0xC0_7C07 << 32);
    let held = pair.from.next;
    // Two equal states: the same in every field in use, rows in other places, words out of use filled.
    let mut start = || {
        let mut words = words_of(&mut rng, &pair.from);
        words::fill_out_of_use(&mut words, || rng.next());
        Start::Words(words)
    };
    let (from_h, from_p) = (start(), start());
    let ending = if pair.commits { commit(held) } else { rollback(held) };
    let mut h = vec![pair.transfer.clone()];
    h.extend(pair.list.iter().cloned());
    h.push(ending);
    let mut p: Vec<Request> = pair.list.iter().map(|request| if mistake == Mistake::ListNotLowered { request.clone() } else { plain(request, held) }).collect();
    if mistake == Mistake::ListCutShort {
        p.pop();
    }
    if mistake == Mistake::OtherLookedAt {
        for request in p.iter_mut().filter(|request| looks(request, pair.table, &pair.values)) {
            let at = pair.values.iter().position(|value| *value == request.get(VALUE)).unwrap_or(0);
            *request = get_info(pair.table, pair.values[(at + 1) % pair.values.len()]);
        }
    }
    let compared = p.len();
    if pair.commits {
        let mut values = pair.values.clone();
        if mistake == Mistake::ClosedBackwards {
            values.reverse();
        }
        p.extend(values.iter().map(|value| close(pair.table, *value)));
    }
    let plans = compare_plans(pair, [&from_h, &from_p], subject, [&h[..h.len() - 1], &p[..compared]], seen);
    let (calls_h, calls_p) = (cut(&mut rng, &h), cut(&mut rng, &p));
    let run_h = subject.run_with(&from_h, &calls_h, Texts::Last);
    // After a commit, what the parcel holds is given back too: then the whole states are to be the same.
    let released = match run_h.steps.last() {
        Some(step) if pair.commits && run_h.stopped.is_none() => {
            state::parse(&step.text).ok().map(|state| (words::encode(&state), Call::one(release(held).words())))
        }
        _ => None,
    };
    let run_r = released.map(|(words, call)| subject.run_with(&Start::Words(words), &[call], Texts::Last));
    let run_p = subject.run_with(&from_p, &calls_p, Texts::Last);
    if let Some(place) = stop(&[&run_h, &run_p]) {
        return if explained(place) {
            Shown::NotComparable
        } else {
            Shown::Faults(vec![format!("unexplained invariant_violation at {}:{}", place.file, place.line)])
        };
    }
    let (left, right) = match (answers(&run_h, &calls_h), answers(&run_p, &calls_p)) {
        (Ok(left), Ok(right)) => (left, right),
        (left, right) => return Shown::Faults([left.err().map(|fault| format!("held run: {fault}")), right.err().map(|fault| format!("plain run: {fault}"))].into_iter().flatten().collect()),
    };
    seen.coverage.results[0] += (calls_h.len() + calls_p.len()) as u64;
    seen.long += u64::from(pair.values.len() > 32);
    let mut faults = plans;
    if left[0][..2] != [0, held] || left[0][2..].iter().any(|word| *word != 0) {
        faults.push(format!("the held transfer answers {:x?}", &left[0][..3]));
    }
    if left[left.len() - 1].iter().any(|word| *word != 0) {
        faults.push("the held transfer could not be ended".to_string());
    }
    for (place, request) in pair.list.iter().enumerate().take(compared) {
        let given = &left[place + 1];
        seen.coverage.count(request.op(), given[0]);
        seen.there += u64::from(given[0] == 0 && request.record.option(TABLE) == Some(pair.table));
        if !possible_while_held(request.op(), given[0] as usize) {
            faults.push(format!("answer {place} ({}): {} is no number of it", NAMES[request.op() as usize], given[0]));
        }
        if request.op() == JUDGE && given[0] == 0 {
            if let Some(count) = seen.judged.get_mut(given[3] as usize) {
                *count += 1;
            }
            seen.judged_there += u64::from(request.record.option(TABLE) == Some(pair.table));
        }
        if looks(request, pair.table, &pair.values) {
            let at = pair.values.iter().position(|value| *value == request.get(VALUE)).unwrap_or(0);
            seen.looks[0] += 1;
            seen.looks[1] += u64::from(pair.transfer.items[at].get(RIGHTS) != pair.infos[at][2]);
            if given[0] != 0 || given[1..5] != pair.infos[at] {
                faults.push(format!("answer {place}: a look at a moved value gives {:x?}, and it had {:x?}", &given[..5], pair.infos[at]));
            }
        }
        let wanted = if mistake == Mistake::AnswersNotLowered { given.clone() } else { plain_answer(request, given, held) };
        if let Some(word) = (0..ANSWER).find(|word| wanted[*word] != right[place][*word]) {
            faults.push(format!("answer {place} ({}): word {word} is {:x} held and {:x} plain", NAMES[request.op() as usize], given[word], right[place][word]));
        }
    }
    for (place, answer) in right[compared..].iter().enumerate() {
        if answer[0] != 0 {
            faults.push(format!("the plain run's closing {place} gives {}", answer[0]));
        }
    }
    let lowered = |state: State| if mistake == Mistake::EndNotLowered { state } else { plain_state(&state, held) };
    match (end(&run_h).map(lowered), end(&run_p)) {
        (Ok(left), Ok(right)) if !pair.commits => {
            if left != right {
                faults.push("after the rollback the states differ".to_string());
            }
        }
        (Ok(left), Ok(right)) => {
            if left.tables != right.tables {
                faults.push("after the commit the tables differ".to_string());
            }
            match run_r.as_ref().map(|run| end(run).map(lowered)) {
                Some(Ok(released)) if released == right => {}
                _ => faults.push("after the commit and the parcel's release the states differ".to_string()),
            }
        }
        (left, right) => faults.extend([left.err(), right.err()].into_iter().flatten()),
    }
    Shown::Faults(faults)
}

pub struct Settings {
    /// The subject's name, for the lines.
    pub name: &'static str,
    pub seed: u64,
    pub pairs: u64,
    /// Whether every possible pair of a request and a number must occur in the lists.
    pub covers: bool,
}

/// Runs pairs until so many were compared, or five differ.
fn pairs(settings: &Settings, subject: &mut dyn Runs, mistake: Mistake, seen: &mut Seen, loud: bool) -> ([u64; 2], u64, u64) {
    let (mut compared, mut wrong, mut stopped, mut seed) = ([0u64; 2], 0u64, 0u64, settings.seed);
    while compared[0] + compared[1] < settings.pairs && (wrong < 5 || !loud) {
        seed += 1;
        let Some(pair) = pair(seed, mistake) else { continue };
        let faults = match compare(&pair, seed, subject, mistake, seen) {
            Shown::Faults(faults) => faults,
            Shown::NotComparable => {
                stopped += 1;
                continue;
            }
        };
        compared[usize::from(pair.commits)] += 1;
        if faults.is_empty() {
            continue;
        }
        wrong += 1;
        if loud {
            println!("held and plain run differ, seed {seed}: {}", faults.join("; "));
            println!("  words {}", crate::recorded::code(&words::encode(&pair.from)));
            for request in std::iter::once(&pair.transfer).chain(&pair.list) {
                println!("  {:24} {}", NAMES[request.op() as usize], crate::recorded::hex(&request.words()));
            }
            println!("  then a {}", if pair.commits { "commit" } else { "rollback" });
        }
    }
    (compared, wrong, stopped)
}

pub fn run(settings: &Settings, subject: &mut dyn Runs, tally: &mut Tally) {
    let name = settings.name;
    let mut seen = Seen::default();
    let (compared, wrong, stopped) = pairs(settings, subject, Mistake::None, &mut seen, true);
    if settings.covers {
        println!("the requests of the lists between the transfer and its end, and what they answered:");
        let (unseen, strange) = seen.coverage.print(possible_while_held);
        tally.line(unseen == 0 && strange == 0, &format!("held and plain run on {name}: coverage, {unseen} possible cells unseen, {strange} impossible cells seen"));
        // No free row and no id left are not among them: there a judging does not stand in the list.
        let (judged, none) = (seen.judged, [4, 5]);
        let lacking: Vec<usize> = (0..judged.len()).filter(|place| (judged[*place] == 0) != none.contains(place)).collect();
        tally.line(
            lacking.is_empty(),
            &format!(
                "held and plain run on {name}: {} transfers judged, {} of them in the held transfer's table; {} would be accepted, by place {:?}; not so often as they should be: {lacking:?}",
                judged.iter().sum::<u64>(), seen.judged_there, judged[0], &judged[1..]
            ),
        );
    }
    tally.line(
        wrong == 0 && compared.iter().chain(&seen.plans).chain(&seen.looks).all(|count| *count > 0) && seen.there > 0 && seen.long > 0,
        &format!(
            "held and plain run on {name}: {} pairs with a rollback (whole end state), {} with a commit (every table; the whole state once the parcel is released), {} transfers of more than 32 moves; {} requests between, {} of them accepted in the held transfer's table, all 72 words of each answer compared with ids one lower; {} looks at moved values, {} of them at such whose receiver gets other rights; {} plans fresh in both runs and {} stale in both: {wrong} differ, {stopped} not comparable (explained violations)",
            compared[0], compared[1], seen.long, seen.coverage.requests, seen.there, seen.looks[0], seen.looks[1], seen.plans[0], seen.plans[1]
        ),
    );
    // A comparison that can't fail shows nothing.
    for (mistake, about) in MISTAKES {
        let few = Settings { pairs: settings.pairs.min(200), ..*settings };
        let (compared, wrong, _) = pairs(&few, subject, mistake, &mut Seen::default(), false);
        tally.line(wrong > 0, &format!("held and plain run on {name}, compared wrongly on purpose ({about}): {wrong} of {} pairs differ", compared[0] + compared[1]));
    }
}

/// Wrong readings that the two runs must tell apart.
pub fn slips(seed: u64, tally: &mut Tally) {
    for slip in [
        Slip::CommitPutsSlotsBackwards, Slip::BusyCountedTwice, Slip::HeldSlotsCountAsFree, Slip::MovedIsBusyToLooks, Slip::LookShowsWhatTheReceiverGets, Slip::LookInTheFirstClaim,
    ] {
        let settings = Settings { name: "a wrong reading", seed, pairs: 400, covers: false };
        let (compared, wrong, _) = pairs(&settings, &mut Reading::new(slip), Mistake::None, &mut Seen::default(), false);
        tally.line(wrong > 0, &format!("held and plain run on a wrong reading ({slip:?}): {wrong} of {} pairs differ", compared[0] + compared[1]));
    }
}
