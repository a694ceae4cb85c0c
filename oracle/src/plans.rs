//! What becomes of the plans of a list, by the reading's states: a comparison of plans that are all used at once, or are all stale, compares little.

use std::collections::HashMap;

use crate::reading::Slip;
use crate::requests::*;
use crate::state::{Life, RowKind, Snapshot, State};

/// Counts over some lists.
#[derive(Clone, Debug, Default)]
pub struct Seen {
    /// Made and used, by the number of frames held: 0, 1, 2.
    made: [u64; 3],
    used: [u64; 3],
    /// Refused with 1 for want of frames, and of a row.
    lacks: [u64; 2],
    /// Used with other requests since it was made or loaded; of these with an accepted one that names its table; of all, stale at some time before.
    later: u64,
    there: u64,
    again: u64,
    /// Stale when used: a snapshot is refused; else the epoch differs; else the number of free slots; else the pages alone.
    stale: [u64; 4],
    /// Dropped fresh, stale, and on a table that is not active.
    dropped: [u64; 3],
}

/// What is known of an open plan.
#[derive(Clone, Copy, Default)]
struct Past {
    requests: u64,
    there: bool,
    stale: bool,
}

#[derive(Default)]
pub struct Watch {
    pub seen: Seen,
    open: HashMap<u64, Past>,
    /// How the coming request would be counted.
    coming: Option<Coming>,
}

#[derive(Clone, Copy)]
enum Coming {
    Make { lacks_frames: bool },
    Use { frames: usize, past: Past, stale: usize },
    Drop { how: usize },
}

fn plan_of(state: &State, id: u64) -> Option<(u64, u64, &Snapshot, usize)> {
    state.rows.iter().find(|row| row.id == id).and_then(|row| match &row.kind {
        RowKind::Plan { table, count, kept, frames } => Some((*table, *count, kept, frames.len())),
        _ => None,
    })
}

/// Whether a plan's row is stale in a state.
pub fn is_stale(state: &State, kind: &RowKind) -> bool {
    matches!(kind, RowKind::Plan { table, count, kept, .. } if state.tables[*table as usize].stale(*count, kept, Slip::None))
}

impl Watch {
    /// Before a request runs.
    pub fn before(&mut self, state: &State, request: &Request) {
        let plan = plan_of(state, request.get(ID));
        self.coming = match (request.op(), plan) {
            (MAKE_PLAN, _) => Some(Coming::Make {
                lacks_frames: state.tables.get(request.get(TABLE) as usize).is_some_and(|table| {
                    table.snapshot(request.get(COUNT), Slip::None).is_ok_and(|now| now.pages.len() > state.free_frames.len())
                }),
            }),
            (USE_PLAN, Some((table, count, kept, frames))) => {
                let stale = match state.tables[table as usize].snapshot(count, Slip::None) {
                    Err(_) => 0,
                    Ok(now) if now.epoch != kept.epoch => 1,
                    Ok(now) if now.free_slots != kept.free_slots => 2,
                    Ok(_) => 3,
                };
                Some(Coming::Use { frames, past: self.open.get(&request.get(ID)).copied().unwrap_or_default(), stale })
            }
            (DROP_PLAN, Some((table, count, kept, _))) => {
                let table = &state.tables[table as usize];
                Some(Coming::Drop { how: if table.life != Life::Active { 2 } else { usize::from(table.stale(count, kept, Slip::None)) } })
            }
            _ => None,
        };
    }

    /// After it: the answer, and the state that it left.
    pub fn after(&mut self, state: &State, request: &Request, answer: &[u64]) {
        match (self.coming.take(), answer[0]) {
            (Some(Coming::Make { .. }), 0) => self.seen.made[(answer[3] as usize).min(2)] += 1,
            (Some(Coming::Make { lacks_frames }), 1) => self.seen.lacks[usize::from(!lacks_frames)] += 1,
            (Some(Coming::Use { frames, past, .. }), 0) => {
                self.seen.used[frames.min(2)] += 1;
                self.seen.later += u64::from(past.requests > 0);
                self.seen.there += u64::from(past.there);
                self.seen.again += u64::from(past.stale);
            }
            (Some(Coming::Use { stale, .. }), 21) => self.seen.stale[stale] += 1,
            (Some(Coming::Drop { how }), 0) => self.seen.dropped[how] += 1,
            _ => {}
        }
        let named = request.record.option(TABLE);
        let mut open = HashMap::new();
        for row in &state.rows {
            let RowKind::Plan { table, .. } = &row.kind else { continue };
            let past = match self.open.get(&row.id) {
                Some(past) => Past {
                    requests: past.requests + 1,
                    there: past.there || answer[0] == 0 && named == Some(*table),
                    stale: past.stale || is_stale(state, &row.kind),
                },
                None => Past { stale: is_stale(state, &row.kind), ..Past::default() },
            };
            open.insert(row.id, past);
        }
        self.open = open;
    }
}

impl Seen {
    fn all(&self) -> [(&'static str, u64); 18] {
        let [made, used, stale, dropped] = [&self.made[..], &self.used, &self.stale, &self.dropped];
        [
            ("made with no frame", made[0]),
            ("made with a frame", made[1]),
            ("made with two frames", made[2]),
            ("refused for want of frames", self.lacks[0]),
            ("refused for want of a row", self.lacks[1]),
            ("used with no frame", used[0]),
            ("used with a frame", used[1]),
            ("used with two frames", used[2]),
            ("used after other requests", self.later),
            ("used after accepted requests that name its table", self.there),
            ("used fresh after it was stale", self.again),
            ("stale as a snapshot is refused", stale[0]),
            ("stale by the epoch", stale[1]),
            ("stale by the free slots alone", stale[2]),
            ("stale by the pages alone", stale[3]),
            ("dropped fresh", dropped[0]),
            ("dropped stale", dropped[1]),
            ("dropped on a table that is not active", dropped[2]),
        ]
    }
    pub fn add(&mut self, other: &Seen) {
        let sum = |mine: &mut [u64], theirs: &[u64]| mine.iter_mut().zip(theirs).for_each(|(mine, theirs)| *mine += theirs);
        sum(&mut self.made, &other.made);
        sum(&mut self.used, &other.used);
        sum(&mut self.lacks, &other.lacks);
        sum(&mut self.stale, &other.stale);
        sum(&mut self.dropped, &other.dropped);
        self.later += other.later;
        self.there += other.there;
        self.again += other.again;
    }
    /// Prints what was seen; gives what was not.
    pub fn print(&self) -> Vec<&'static str> {
        let all = self.all();
        println!("plans: {}", all.iter().map(|(what, count)| format!("{count} {what}")).collect::<Vec<_>>().join(", "));
        all.iter().filter(|(_, count)| *count == 0).map(|(what, _)| *what).collect()
    }
}
