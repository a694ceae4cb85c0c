//! Which judgings of transfers a list has, by the reading's answers: a comparison in which the first item is always at fault, or no copy stands before it, compares little.

use std::collections::BTreeMap;

use crate::reading::{Reading, Slip};
use crate::requests::*;
use crate::state::{Life, RETIRED, Slot, State};
use crate::subject::Subject;

/// The places of the rules in the printed order, from 1.
pub const PLACES: [&str; 17] = [
    "TableRetired", "EmptyReservation", "ReservationTooLarge", "no free row", "no id left", "a value listed twice", "lookup", "no TRANSFER", "a copy without DUPLICATE", "offered beyond the source's",
    "requested beyond the offered", "forbidden kind", "forbidden object", "the route bars the class", "another kind", "a copy of a retired object", "a copy at the limit",
];
/// The first place that is an item's, and the first that is a copy's.
const OF_ITEMS: u64 = 6;
const OF_COPIES: u64 = 16;

const FIRST: &str = "first";
const MIDDLE: &str = "in the middle";
const LAST: &str = "last";
const ONLY: &str = "the only item";
const FAR: &str = "at position 32 or above";
const BEHIND: &str = "behind a copy";
const MIDDLE_BEHIND: &str = "in the middle behind a copy";
const LAST_BEHIND: &str = "last behind a copy";
const FAULT_BEHIND: &str = "with another at fault behind it";
const AFTER_REFUSED_COPY: &str = "behind a copy that is at fault by itself";
const BUSY: &str = "Busy";
const INVALID: &str = "InvalidHandle";
const BY_EARLIER: &str = "by earlier copies of the same transfer";
const ALONE: &str = "by itself";
const ACCEPTED: [&str; 12] = [
    "of 1 item", "of 2 to 8 items", "of 9 to 63 items", "of 64 items", "of moves", "of copies", "of both", "of a retired object's move", "with the last free row", "with the last id", "with offered rights",
    "of a copy that meets its limit",
];
const UNKNOWN: &str = "of an unknown table";
const THEN_REFUSED: &str = "prepared then, and refused with the same number";
const THEN_ACCEPTED: &str = "prepared then, and accepted";

/// Counts over some lists: by place (0 where it would be accepted, 18 for the refusal of the judging itself) and sort.
#[derive(Clone, Debug, Default)]
pub struct Seen {
    counts: BTreeMap<(u64, &'static str), u64>,
    /// Judgings, and those whose number is not what the reading's preparation gives on a copy of the state; those that the next request prepared, and of these the ones with another number.
    pub judged: u64,
    pub other: u64,
    pub prepared: u64,
    pub other_then: u64,
}

/// The number that preparing the same transfer gives in a state, by the reading.
fn preparing(state: &State, request: &Request) -> u64 {
    let mut reading = Reading::new(Slip::None);
    reading.set_state(state.clone());
    let mut answer = [0; ANSWER];
    reading.call(&judged(request).words(), &mut answer);
    answer[0]
}

#[derive(Default)]
pub struct Watch {
    pub seen: Seen,
    coming: Option<Coming>,
    /// The transfer that was judged just now, and its number.
    last: Option<(Request, u64)>,
}

struct Coming {
    request: Request,
    number: u64,
    /// What is known of the state for the sorts.
    objects: Vec<Option<u64>>,
    retired: Vec<bool>,
    room: BTreeMap<u64, u64>,
    last_row: bool,
    last_id: bool,
}

fn is_copy(item: &Record) -> bool {
    item.get(OP) == 1
}

/// The object of the handle that a value names.
fn object_of(state: &State, table: u64, value: u64) -> Option<u64> {
    let table = state.tables.get(table as usize).filter(|table| table.life == Life::Active)?;
    let payload = (value ^ table.mask) & 0x00FF_FFFF_FFFF_FFFF;
    let slot = (payload & 0xFF_FFFF).checked_sub(1)?;
    match table.slot(slot)? {
        Slot::Occupied(generation, handle) if generation == payload >> 24 && value >> 56 == 0x48 => Some(handle.object),
        _ => None,
    }
}

impl Coming {
    fn new(state: &State, request: &Request) -> Self {
        let objects: Vec<Option<u64>> = request.items.iter().map(|item| object_of(state, request.get(TABLE), item.get(VALUE))).collect();
        let of = |object: &Option<u64>| object.map(|object| &state.objects[object as usize]);
        let retired = objects.iter().map(|object| of(object).is_some_and(|object| object.state == RETIRED)).collect();
        let room = objects.iter().flatten().map(|object| (*object, state.objects[*object as usize].limit - state.objects[*object as usize].count)).collect();
        Self {
            request: request.clone(),
            number: preparing(state, request),
            objects,
            retired,
            room,
            last_row: state.rows.len() as u64 + 1 == state.row_capacity,
            last_id: state.next == u64::MAX - 1,
        }
    }
    fn copies_before(&self, position: usize) -> impl Iterator<Item = usize> {
        (0..position).filter(|at| is_copy(&self.request.items[*at]))
    }
    /// Whether a copy alone meets its object's limit.
    fn full(&self, at: usize) -> bool {
        self.objects[at].is_some_and(|object| self.room[&object] == 0)
    }
    fn sorts(&self, position: usize, place: u64) -> Vec<&'static str> {
        let items = &self.request.items;
        let (count, copies) = (items.len(), items.iter().filter(|item| is_copy(item)).count());
        if place == 0 {
            let mut sorts = vec![
                ACCEPTED[[1, 8, 63].iter().filter(|most| count > **most).count()],
                if copies == 0 { "of moves" } else if copies == count { "of copies" } else { "of both" },
            ];
            let mut add = |holds: bool, sort: &'static str| sorts.extend(holds.then_some(sort));
            add((0..count).any(|at| self.retired[at]), "of a retired object's move");
            add(self.last_row, "with the last free row");
            add(self.last_id, "with the last id");
            add(items.iter().any(|item| item.has(OFFERED_RIGHTS)), "with offered rights");
            let made = |object: u64| self.copies_before(count).filter(|at| self.objects[*at] == Some(object)).count() as u64;
            add(self.room.iter().any(|(object, room)| *room > 0 && made(*object) == *room), "of a copy that meets its limit");
            return sorts;
        }
        if place < OF_ITEMS {
            return vec![];
        }
        let mut sorts = vec![match (position, count) {
            (_, 1) => ONLY,
            (0, _) => FIRST,
            (at, count) if at + 1 == count => LAST,
            _ => MIDDLE,
        }];
        let mut add = |holds: bool, sort: &'static str| sorts.extend(holds.then_some(sort));
        add(position >= 32, FAR);
        let behind_copy = self.copies_before(position).next().is_some();
        add(behind_copy, BEHIND);
        add(behind_copy && position + 1 < count, MIDDLE_BEHIND);
        add(behind_copy && position + 1 == count, LAST_BEHIND);
        add(place < OF_COPIES && self.copies_before(position).any(|at| self.retired[at] || self.full(at)), AFTER_REFUSED_COPY);
        let value = items[position].get(VALUE);
        let behind = |at: usize| self.objects[at].is_none() || items[at].get(VALUE) == value;
        add(place < OF_COPIES && (position + 1..count).any(behind), FAULT_BEHIND);
        add(place >= OF_COPIES && (position + 1..count).any(|at| is_copy(&items[at]) && (self.retired[at] || self.full(at))), FAULT_BEHIND);
        if place == 7 {
            add(self.number == 3, BUSY);
            add(self.number == 2, INVALID);
        }
        if place == 17 {
            add(self.full(position), ALONE);
            add(!self.full(position), BY_EARLIER);
        }
        sorts
    }
}

impl Watch {
    /// The transfer that was judged just now.
    pub fn last(&self) -> Option<Request> {
        self.last.as_ref().map(|(request, _)| judged(request))
    }
    /// Before a request runs.
    pub fn before(&mut self, state: &State, request: &Request) {
        self.coming = (request.op() == JUDGE).then(|| Coming::new(state, request));
    }
    /// After it: the answer.
    pub fn after(&mut self, request: &Request, answer: &[u64]) {
        if let Some((judged_now, number)) = self.last.take()
            && *request == judged(&judged_now)
        {
            self.seen.prepared += 1;
            self.seen.other_then += u64::from(answer[0] != number);
            self.seen.count(if number == 0 { 0 } else { 18 }, if number == 0 { THEN_ACCEPTED } else { THEN_REFUSED });
        }
        let Some(coming) = self.coming.take() else { return };
        self.seen.judged += 1;
        let (number, position, place) = (answer[1], answer[2], answer[3]);
        if answer[0] != 0 {
            self.seen.other += u64::from(answer[0] != coming.number);
            self.seen.count(18, UNKNOWN);
            return;
        }
        self.seen.other += u64::from(number != coming.number);
        for sort in coming.sorts(position as usize, place) {
            self.seen.count(place, sort);
        }
        self.seen.count(place, "");
        self.last = Some((coming.request, number));
    }
}

/// What must be seen of a place, beside the place itself.
fn sorts_of(place: u64) -> Vec<&'static str> {
    match place {
        0 => [&ACCEPTED[..], &[THEN_ACCEPTED]].concat(),
        18 => vec![UNKNOWN, THEN_REFUSED],
        1..6 => vec![],
        // What is listed twice stands behind what it repeats.
        6 => vec![MIDDLE, LAST, FAR, BEHIND, MIDDLE_BEHIND, LAST_BEHIND, FAULT_BEHIND, AFTER_REFUSED_COPY],
        7 => vec![FIRST, MIDDLE, LAST, ONLY, FAR, BEHIND, MIDDLE_BEHIND, LAST_BEHIND, FAULT_BEHIND, AFTER_REFUSED_COPY, BUSY, INVALID],
        16 => vec![FIRST, MIDDLE, LAST, ONLY, FAR, BEHIND, MIDDLE_BEHIND, LAST_BEHIND, FAULT_BEHIND],
        17 => vec![FIRST, MIDDLE, LAST, ONLY, FAR, BEHIND, MIDDLE_BEHIND, LAST_BEHIND, FAULT_BEHIND, ALONE, BY_EARLIER],
        _ => vec![FIRST, MIDDLE, LAST, ONLY, FAR, BEHIND, MIDDLE_BEHIND, LAST_BEHIND, FAULT_BEHIND, AFTER_REFUSED_COPY],
    }
}

impl Seen {
    fn count(&mut self, place: u64, sort: &'static str) {
        *self.counts.entry((place, sort)).or_default() += 1;
    }
    pub fn add(&mut self, other: &Seen) {
        for (sort, count) in &other.counts {
            *self.counts.entry(*sort).or_default() += count;
        }
        self.judged += other.judged;
        self.other += other.other;
        self.prepared += other.prepared;
        self.other_then += other.other_then;
    }
    /// Prints what was seen; gives what was not.
    pub fn print(&self) -> Vec<String> {
        let mut lacking = Vec::new();
        let of = |place, sort| self.counts.get(&(place, sort)).copied().unwrap_or(0);
        println!("{} judgings:", self.judged);
        for place in 0..=18 {
            let name = match place {
                0 => "would be accepted".to_string(),
                18 => "others".to_string(),
                _ => format!("place {place}, {}", PLACES[place as usize - 1]),
            };
            let mut told = Vec::new();
            for sort in sorts_of(place) {
                let count = of(place, sort);
                told.push(format!("{count} {sort}"));
                if count == 0 {
                    lacking.push(format!("judging: {name}, {sort}"));
                }
            }
            if place < 18 && of(place, "") == 0 {
                lacking.push(format!("judging: {name}"));
            }
            let all = if place < 18 { format!("{} ", of(place, "")) } else { String::new() };
            println!("  {all}{name}{}{}", if told.is_empty() { "" } else { ": " }, told.join(", "));
        }
        lacking
    }
}
