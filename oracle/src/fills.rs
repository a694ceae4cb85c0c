//! Which publishes and direct commits a list has, by the reading's states: a comparison in which a publish names one parcel, or each parcel has one handle, compares little of what is laid
//! into which slot.

use std::collections::BTreeMap;

use crate::requests::*;
use crate::state::{ClaimEntry, RowKind, State};

const PARCELS: [&str; 5] = ["from 1 parcel", "from 2 parcels", "from 3 to 8 parcels", "from 9 to 63 parcels", "from 64 parcels"];
const HANDLES: [&str; 5] = ["of 1 handle", "of 2 handles", "of 3 to 8 handles", "of 9 to 63 handles", "of 64 handles"];
const MIXED: &str = "from two or more parcels of which one has two or more handles";
const COPIES: &str = "of moves and copies";
const ONE_TABLE: &str = "into the claim's table";
const TWO_TABLES: &str = "into another table";
const NO_RESERVATION: &str = "for an unknown reservation";
const OTHER_FOR_RESERVATION: &str = "for a row of another kind";
const NO_PARCEL: &str = "with an unknown parcel";
const OTHER_FOR_PARCEL: &str = "with a row of another kind as a parcel";
const TWICE: &str = "with a parcel named twice";
const TWICE_FITS: &str = "with a parcel named twice and as many handles as slots";
const NO_CLAIM: &str = "of an unknown claim";
const OTHER_FOR_CLAIM: &str = "of a row of another kind";
const FEW: &str = "with too few handles";
const MANY: &str = "with too many handles";

/// What is counted, by the request and whether it is accepted; each sort must be seen.
const GROUPS: [(&str, u64, u64, &[&[&str]]); 4] = [
    ("publishes accepted", PUBLISH, 0, &[&PARCELS, &HANDLES, &[MIXED]]),
    ("publishes refused", PUBLISH, 18, &[&[NO_RESERVATION, OTHER_FOR_RESERVATION, NO_PARCEL, OTHER_FOR_PARCEL, TWICE, TWICE_FITS, FEW, MANY]]),
    ("direct commits accepted", DIRECT_COMMIT, 0, &[&HANDLES, &[COPIES, ONE_TABLE, TWO_TABLES]]),
    ("direct commits refused", DIRECT_COMMIT, 18, &[&[NO_CLAIM, OTHER_FOR_CLAIM, NO_RESERVATION, OTHER_FOR_RESERVATION, FEW, MANY]]),
];

fn size(names: [&'static str; 5], count: usize) -> &'static str {
    names[[1, 2, 8, 63].iter().filter(|most| count > **most).count()]
}

/// Counts over some lists: of each group the requests, and their sorts.
#[derive(Clone, Debug, Default)]
pub struct Seen {
    counts: BTreeMap<(u64, u64, &'static str), u64>,
}

#[derive(Default)]
pub struct Watch {
    pub seen: Seen,
    /// Under which number the coming request is counted, and how.
    coming: Option<(u64, Vec<&'static str>)>,
}

/// The sorts of a request that would be accepted, or why it is refused.
type Sorts = Result<Vec<&'static str>, &'static str>;

fn row(state: &State, id: u64) -> Option<&RowKind> {
    state.rows.iter().find(|row| row.id == id).map(|row| &row.kind)
}

/// A reservation's table and length.
fn reservation(state: &State, id: u64) -> Result<(u64, usize), &'static str> {
    match row(state, id) {
        Some(RowKind::Reservation { table, slots }) => Ok((*table, slots.len())),
        Some(_) => Err(OTHER_FOR_RESERVATION),
        None => Err(NO_RESERVATION),
    }
}

fn fits(handles: usize, slots: usize) -> Result<(), &'static str> {
    if handles == slots { Ok(()) } else { Err(if handles < slots { FEW } else { MANY }) }
}

fn publish_sorts(state: &State, request: &Request) -> Sorts {
    let (_, slots) = reservation(state, request.get(ID))?;
    let ids: Vec<u64> = request.items.iter().map(|item| item.get(ID)).collect();
    let mut lengths = Vec::new();
    for id in &ids {
        lengths.push(match row(state, *id) {
            Some(RowKind::Parcel(handles)) => handles.len(),
            Some(_) => return Err(OTHER_FOR_PARCEL),
            None => return Err(NO_PARCEL),
        });
    }
    let handles = lengths.iter().sum();
    if (1..ids.len()).any(|at| ids[..at].contains(&ids[at])) {
        return Err(if handles == slots { TWICE_FITS } else { TWICE });
    }
    fits(handles, slots)?;
    let mut sorts = vec![size(PARCELS, ids.len()), size(HANDLES, handles)];
    sorts.extend((ids.len() > 1 && handles > ids.len()).then_some(MIXED));
    Ok(sorts)
}

fn direct_sorts(state: &State, request: &Request) -> Sorts {
    let (from, entries) = match row(state, request.get(ID)) {
        Some(RowKind::Claim { table, entries }) => (*table, entries),
        Some(_) => return Err(OTHER_FOR_CLAIM),
        None => return Err(NO_CLAIM),
    };
    let (to, slots) = reservation(state, request.get(DESTINATION))?;
    fits(entries.len(), slots)?;
    let copies = entries.iter().filter(|entry| matches!(entry, ClaimEntry::Copy(_))).count();
    let mut sorts = vec![size(HANDLES, slots), if from == to { ONE_TABLE } else { TWO_TABLES }];
    sorts.extend((copies > 0 && copies < slots).then_some(COPIES));
    Ok(sorts)
}

impl Watch {
    /// Before a request runs.
    pub fn before(&mut self, state: &State, request: &Request) {
        let sorts = match request.op() {
            PUBLISH => Some(publish_sorts(state, request)),
            DIRECT_COMMIT => Some(direct_sorts(state, request)),
            _ => None,
        };
        self.coming = sorts.map(|sorts| sorts.map_or_else(|why| (18, vec![why]), |sorts| (0, sorts)));
    }
    /// After it: the answer.
    pub fn after(&mut self, request: &Request, answer: &[u64]) {
        if let Some((number, sorts)) = self.coming.take()
            && number == answer[0]
        {
            for sort in sorts {
                *self.seen.counts.entry((request.op(), number, sort)).or_default() += 1;
            }
        }
    }
}

impl Seen {
    pub fn add(&mut self, other: &Seen) {
        for (sort, count) in &other.counts {
            *self.counts.entry(*sort).or_default() += count;
        }
    }
    /// Prints what was seen; gives what was not.
    pub fn print(&self) -> Vec<String> {
        let mut lacking = Vec::new();
        for (group, op, number, sorts) in GROUPS {
            let mut told = Vec::new();
            for sort in sorts.concat() {
                let count = self.counts.get(&(op, number, sort)).copied().unwrap_or(0);
                told.push(format!("{count} {sort}"));
                if count == 0 {
                    lacking.push(format!("{group} {sort}"));
                }
            }
            println!("{group}: {}", told.join(", "));
        }
        lacking
    }
}
