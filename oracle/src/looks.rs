//! Which looks (`get_info`) at values that are being moved a list has, by the reading's states: a comparison in which each handle stands first in its claim, or the receiver gets all
//! of its rights, compares little.

use std::collections::HashMap;

use crate::requests::*;
use crate::state::{ClaimEntry, Handle, RETIRED, RowKind, Slot, State, Table};

/// A value that an open claim moves.
#[derive(Clone, Copy, Debug)]
pub struct Moved {
    pub table: u64,
    pub slot: u64,
    pub value: u64,
    /// The claim's id, the place of the item in it, and whether a copy stands before it.
    pub claim: u64,
    place: usize,
    behind: bool,
    handle: Handle,
    gets: u64,
}
impl Moved {
    pub fn behind(&self) -> bool {
        self.behind
    }
    pub fn far(&self) -> bool {
        self.place >= 32
    }
}

fn value(table: &Table, slot: u64, generation: u64) -> u64 {
    0x4800_0000_0000_0000 | ((generation << 24 | (slot + 1)) ^ table.mask)
}

/// Every value that is being moved, by claims and the places of their items.
pub fn moved(state: &State) -> Vec<Moved> {
    let mut all = Vec::new();
    for row in &state.rows {
        let RowKind::Claim { table: number, entries } = &row.kind else { continue };
        let table = &state.tables[*number as usize];
        let mut behind = false;
        for (place, entry) in entries.iter().enumerate() {
            match entry {
                ClaimEntry::Move { slot, handle, gets } => {
                    let generation = table.slot(*slot).map_or(0, Slot::generation);
                    let value = value(table, *slot, generation);
                    all.push(Moved { table: *number, slot: *slot, value, claim: row.id, place, behind, handle: *handle, gets: *gets });
                }
                ClaimEntry::Copy(_) => behind = true,
            }
        }
    }
    all
}

/// What a look is counted as.
#[derive(Clone, Copy, Debug, Eq, PartialEq)]
enum Sort {
    Transfer,
    Consumption,
    Loaded,
    BehindACopy,
    OtherRights,
    Offered,
    Far,
    Flags,
    OfRetired,
    Later,
    There,
    SecondClaim,
    OtherTable,
    OtherGeneration,
    RolledBack,
    DirectlyRolledBack,
    Committed,
    DirectlyCommitted,
}
const SORTS: [(Sort, &str); 18] = [
    (Sort::Transfer, "of a transfer"),
    (Sort::Consumption, "of a consumption"),
    (Sort::Loaded, "of a claim of the first state"),
    (Sort::BehindACopy, "behind a copy in its claim"),
    (Sort::OtherRights, "whose receiver gets other rights"),
    (Sort::Offered, "with offered rights"),
    (Sort::Far, "at place 32 or above"),
    (Sort::Flags, "with flags"),
    (Sort::OfRetired, "of a retired object"),
    (Sort::Later, "after other requests"),
    (Sort::There, "after accepted requests that name its table"),
    (Sort::SecondClaim, "with another claim of its table open"),
    (Sort::OtherTable, "with a claim of another table open"),
    (Sort::OtherGeneration, "with another generation (2)"),
    (Sort::RolledBack, "after its rollback"),
    (Sort::DirectlyRolledBack, "after its direct rollback"),
    (Sort::Committed, "after its commit (2)"),
    (Sort::DirectlyCommitted, "after its direct commit (2)"),
];

/// Counts over some lists.
#[derive(Clone, Debug, Default)]
pub struct Seen {
    /// Looks at a value that is being moved.
    pub looks: u64,
    sorts: [u64; SORTS.len()],
}

/// What is known of an open claim.
#[derive(Clone)]
struct Past {
    by: Sort,
    /// The values that were offered with rights.
    offered: Vec<u64>,
    requests: u64,
    there: bool,
}

/// How many values are kept whose claim has ended.
const KEPT: usize = 12;

#[derive(Default)]
pub struct Watch {
    pub seen: Seen,
    open: HashMap<u64, Past>,
    /// Table and value of moves whose claim has ended, and how; the last ones.
    ended: Vec<(u64, u64, Sort)>,
    /// How the coming look is counted, if its answer is this number; the values whose claim the coming request ends.
    coming: Option<(u64, Vec<Sort>)>,
    ending: Vec<(u64, u64)>,
}

impl Watch {
    /// Table and value of a move whose claim has ended.
    pub fn ended(&self, pick: impl FnOnce(u64) -> u64) -> Option<(u64, u64)> {
        self.ended.get(pick(self.ended.len() as u64) as usize).map(|(table, value, _)| (*table, *value))
    }

    fn sorts(&self, state: &State, all: &[Moved], at: &Moved) -> Vec<Sort> {
        let unknown = Past { by: Sort::Loaded, offered: Vec::new(), requests: 0, there: false };
        let past = self.open.get(&at.claim).unwrap_or(&unknown);
        let open = |same: bool| all.iter().any(|other| other.claim != at.claim && (other.table == at.table) == same);
        let mut sorts = vec![past.by];
        let mut add = |holds: bool, sort: Sort| sorts.extend(holds.then_some(sort));
        add(at.behind, Sort::BehindACopy);
        add(at.gets != at.handle.rights, Sort::OtherRights);
        add(past.offered.contains(&at.value), Sort::Offered);
        add(at.far(), Sort::Far);
        add(at.handle.flags != 0, Sort::Flags);
        add(state.objects[at.handle.object as usize].state == RETIRED, Sort::OfRetired);
        add(past.requests > 0, Sort::Later);
        add(past.there, Sort::There);
        add(open(true), Sort::SecondClaim);
        add(open(false), Sort::OtherTable);
        sorts
    }

    /// Before a request runs.
    pub fn before(&mut self, state: &State, request: &Request) {
        self.coming = None;
        self.ending.clear();
        match request.op() {
            GET_INFO => {
                let (table, named) = (request.get(TABLE), request.get(VALUE));
                let all = moved(state);
                self.coming = match all.iter().find(|at| (at.table, at.value) == (table, named)) {
                    Some(at) => Some((0, self.sorts(state, &all, at))),
                    // Another generation, of 32 bits, of a slot that is moved.
                    None if all.iter().any(|at| at.table == table && (at.value ^ named) & 0xFF00_0000_00FF_FFFF == 0) => Some((2, vec![Sort::OtherGeneration])),
                    None => self.ended.iter().find(|(of, value, _)| (*of, *value) == (table, named)).map(|(_, _, how)| {
                        let back = [Sort::RolledBack, Sort::DirectlyRolledBack].contains(how);
                        (if back { 0 } else { 2 }, vec![*how])
                    }),
                };
            }
            ROLLBACK | COMMIT | DIRECT_COMMIT | DIRECT_ROLLBACK => {
                self.ending = moved(state).iter().filter(|at| at.claim == request.get(ID)).map(|at| (at.table, at.value)).collect();
            }
            _ => {}
        }
    }

    /// After it: the answer, and the state that it left.
    pub fn after(&mut self, state: &State, request: &Request, answer: &[u64]) {
        if let Some((number, sorts)) = self.coming.take()
            && number == answer[0]
        {
            self.seen.count(&sorts);
        }
        let mut made = None;
        match (request.op(), answer[0]) {
            (TRANSFER, 0) => {
                let offered = request.items.iter().filter(|item| item.has(OFFERED_RIGHTS)).map(|item| item.get(VALUE)).collect();
                made = Some((answer[1], Past { by: Sort::Transfer, offered, requests: 0, there: false }));
            }
            (CONSUME, 0) => made = Some((answer[1], Past { by: Sort::Consumption, offered: Vec::new(), requests: 0, there: false })),
            (op @ (ROLLBACK | COMMIT | DIRECT_COMMIT | DIRECT_ROLLBACK), 0) => {
                let how = match op {
                    ROLLBACK => Sort::RolledBack,
                    COMMIT => Sort::Committed,
                    DIRECT_COMMIT => Sort::DirectlyCommitted,
                    _ => Sort::DirectlyRolledBack,
                };
                for (table, value) in self.ending.drain(..) {
                    self.ended.retain(|(of, old, _)| (*of, *old) != (table, value));
                    self.ended.push((table, value, how));
                }
                let many = self.ended.len().saturating_sub(KEPT);
                self.ended.drain(..many);
            }
            _ => {}
        }
        let named = request.record.option(TABLE);
        let mut open = HashMap::new();
        for row in &state.rows {
            let RowKind::Claim { table, .. } = &row.kind else { continue };
            let past = match (self.open.remove(&row.id), &made) {
                (Some(past), _) => Past { requests: past.requests + 1, there: past.there || answer[0] == 0 && named == Some(*table), ..past },
                (None, Some((id, past))) if *id == row.id => past.clone(),
                (None, _) => Past { by: Sort::Loaded, offered: Vec::new(), requests: 1, there: false },
            };
            open.insert(row.id, past);
        }
        self.open = open;
    }
}

impl Seen {
    fn count(&mut self, sorts: &[Sort]) {
        self.looks += u64::from(sorts.iter().any(|sort| [Sort::Transfer, Sort::Consumption, Sort::Loaded].contains(sort)));
        for (count, (sort, _)) in self.sorts.iter_mut().zip(SORTS) {
            *count += u64::from(sorts.contains(&sort));
        }
    }
    pub fn add(&mut self, other: &Seen) {
        self.looks += other.looks;
        for (mine, theirs) in self.sorts.iter_mut().zip(other.sorts) {
            *mine += theirs;
        }
    }
    /// Prints what was seen; gives what was not.
    pub fn print(&self) -> Vec<&'static str> {
        let all = || self.sorts.iter().zip(SORTS);
        println!("looks at {} values that are being moved: {}", self.looks, all().map(|(count, (_, what))| format!("{count} {what}")).collect::<Vec<_>>().join(", "));
        all().filter(|(count, _)| **count == 0).map(|(_, (_, what))| what).collect()
    }
}
