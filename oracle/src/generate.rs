//! Random lists with seeds: plain ones from creation, edges, scrambled well-formed states, and invalid values of every kind in all
//! of them. The reading's state says which values and ids there are; every answer that counts is the other side's.

use crate::fills;
use crate::judged;
use crate::looks::{self, Moved, moved};
use crate::plans::{self, is_stale};
use crate::reading::{Reading, Slip};
use crate::requests::*;
use crate::state::*;
use crate::subject::{Call, Runs, Start, Step, Subject, Texts, Trace, difference, FILL};
use crate::words;

pub struct Rng(u64);
impl Rng {
    pub fn new(seed: u64) -> Self {
        Self(seed.wrapping_mul(0x9E37_79B9_7F4A_7C15) ^ 0x1234_5678_9ABC_DEF1)
    }
    pub fn next(&mut self) -> u64 {
        self.0 = self.0.wrapping_add(0x9E37_79B9_7F4A_7C15);
        let mut z = self.0;
        z = (z ^ (z >> 30)).wrapping_mul(0xBF58_476D_1CE4_E5B9);
        z = (z ^ (z >> 27)).wrapping_mul(0x94D0_49BB_1331_11EB);
        z ^ (z >> 31)
    }
    pub fn below(&mut self, bound: u64) -> u64 {
        if bound == 0 { 0 } else { self.next() % bound }
    }
    pub fn chance(&mut self, per_thousand: u64) -> bool {
        self.below(1000) < per_thousand
    }
    pub fn pick<'a, T>(&mut self, list: &'a [T]) -> Option<&'a T> {
        if list.is_empty() { None } else { list.get(self.below(list.len() as u64) as usize) }
    }
    pub fn shuffle<T>(&mut self, list: &mut [T]) {
        for at in (1..list.len()).rev() {
            list.swap(at, self.below(at as u64 + 1) as usize);
        }
    }
}

#[derive(Clone, Copy, Debug, Eq, PartialEq)]
pub enum Kind {
    /// From creation.
    Plain,
    /// Generations, ids and epochs near their ends, full tables, no frames, limits met.
    Edges,
    /// A well-formed state with orders, frames, generations, ids and rights mixed.
    Scrambled,
    /// Tables with all 262,144 pages.
    LastPage,
}
pub const KINDS: [(Kind, &str); 4] =
    [(Kind::Plain, "plain"), (Kind::Edges, "edges"), (Kind::Scrambled, "scrambled"), (Kind::LastPage, "last-page")];

fn is_plan(kind: &RowKind) -> bool {
    matches!(kind, RowKind::Plan { .. })
}

fn parameters(rng: &mut Rng) -> Vec<u64> {
    let tables = 1 + rng.below(3);
    let frames = if rng.chance(30) { 0 } else { 1 + rng.below(8) };
    let objects = 5 + rng.below(20);
    let rows = if rng.chance(150) { 1 + rng.below(4) } else { 4 + rng.below(28) };
    let mut words = vec![tables, frames, objects, rows];
    for _ in 0..tables {
        words.push(if rng.chance(300) { 1 } else { 1 + rng.below(7) });
        words.push(match rng.below(4) {
            0 => 0,
            1 => u64::MAX,
            _ => rng.next(),
        });
    }
    for number in 0..objects {
        let koid = if rng.chance(50) { 77 } else { 1000 + number };
        let kind = [1, 2, 3, u64::from(u32::MAX)][rng.below(4) as usize];
        let class = if rng.chance(600) { 0 } else { rng.below(3) };
        let supported = if rng.chance(800) { u64::MAX } else { rng.next() };
        let exportable = u64::from(!rng.chance(60));
        let limit = match rng.below(10) {
            0 => rng.below(2),
            1 => 2 + rng.below(4),
            2 => u64::from(u32::MAX),
            _ => 40 + rng.below(100),
        };
        words.extend([koid, kind, class, supported, exportable, limit]);
    }
    words
}

/// Which requests a list may hold, and from which states it may start. The lists that were recorded before there were plans are made without them, those that were recorded before a
/// moved value could be looked at have no more such looks than come by chance, those from before a transfer could be judged judge none, and no recorded list starts with as many parcels as a
/// batch has slots, so that they stay as they are.
#[derive(Clone, Copy, Debug, Eq, PartialEq, PartialOrd)]
pub enum Ops {
    WithoutPlans,
    WithPlans,
    WithLooks,
    WithJudging,
    All,
}
impl Ops {
    /// How many requests there were.
    fn known(self) -> u64 {
        match self {
            Ops::WithoutPlans => MAKE_PLAN,
            Ops::WithPlans | Ops::WithLooks => JUDGE,
            _ => OPS as u64,
        }
    }
}

/// What a request can name in a state.
struct View<'a> {
    ops: Ops,
    s: &'a State,
    rng: &'a mut Rng,
}

impl View<'_> {
    fn table(&mut self) -> u64 {
        if self.rng.chance(8) {
            return [self.s.tables.len() as u64, u64::MAX, 16][self.rng.below(3) as usize];
        }
        self.rng.below(self.s.tables.len() as u64)
    }
    /// A table with handles in it, mostly.
    fn full_table(&mut self) -> u64 {
        if !self.rng.chance(60) {
            let full: Vec<u64> = (0..self.s.tables.len() as u64)
                .filter(|number| {
                    let table = &self.s.tables[*number as usize];
                    table.life == Life::Active
                        && table.pages.iter().any(|page| page.busy > 0 && page.slots.iter().any(|slot| matches!(slot, Slot::Occupied(..))))
                })
                .collect();
            if let Some(table) = self.rng.pick(&full) {
                return *table;
            }
        }
        self.table()
    }
    fn encoded(&self, table: usize, slot: u64, generation: u64) -> u64 {
        0x4800_0000_0000_0000 | ((generation << 24 | (slot + 1)) & 0x00FF_FFFF_FFFF_FFFF) ^ self.s.tables[table].mask
    }
    fn slots(&self, table: u64, wanted: impl Fn(Slot) -> bool) -> Vec<(u64, u64, Slot)> {
        let mut found = Vec::new();
        if let Some(table) = self.s.tables.get(table as usize) {
            for (number, page) in table.pages.iter().enumerate() {
                for (place, slot) in page.slots.iter().enumerate() {
                    if wanted(*slot) {
                        found.push((number as u64 * 64 + place as u64, slot.generation(), *slot));
                    }
                }
            }
        }
        found
    }
    /// A value in a table, with the handle if it names one.
    fn value(&mut self, table: u64) -> (u64, Option<Handle>) {
        if table >= self.s.tables.len() as u64 {
            return (self.rng.next(), None);
        }
        let number = table as usize;
        let roll = self.rng.below(100);
        let found = match roll {
            0..=74 => self.slots(table, |slot| matches!(slot, Slot::Occupied(..))),
            75..=82 => self.slots(table, |slot| matches!(slot, Slot::Moving(_))),
            83..=86 => self.slots(table, |slot| matches!(slot, Slot::Reserved(_))),
            87..=89 => self.slots(table, |slot| matches!(slot, Slot::Vacant(_))),
            90..=99 => self.slots(table, |slot| !matches!(slot, Slot::Vacant(_))),
            _ => Vec::new(),
        };
        let Some((slot, generation, what)) = self.rng.pick(&found).copied() else {
            let (slot, generation) = (self.rng.below(80), 1 + self.rng.below(3));
            return (self.encoded(number, slot, generation), None);
        };
        let good = self.encoded(number, slot, generation);
        let handle = match what {
            Slot::Occupied(_, handle) => Some(handle),
            _ => None,
        };
        match roll {
            // Old and coming generations.
            90 => (self.encoded(number, slot, if generation == 1 { GENERATION_LIMIT } else { generation - 1 }), None),
            91 => (self.encoded(number, slot, if generation == GENERATION_LIMIT { 1 } else { generation + 1 }), None),
            // Another prefix.
            92 => (good ^ 1 << (56 + self.rng.below(8)), None),
            93 => (good & 0x00FF_FFFF_FFFF_FFFF, None),
            // Slots beyond the length, and slot 0's and generation 0's codes.
            94 => {
                let beyond = self.s.tables[number].length() + self.rng.below(3);
                (self.encoded(number, beyond, 1), None)
            }
            95 => (0x4800_0000_0000_0000 | (1 << 24) ^ self.s.tables[number].mask, None),
            96 => (0x4800_0000_0000_0000 | 1 ^ self.s.tables[number].mask, None),
            // Another table's value.
            97 => {
                let other = self.rng.below(self.s.tables.len() as u64) as usize;
                (self.encoded(other, slot, generation), None)
            }
            98 => (self.rng.next(), None),
            99 => ([0, u64::MAX, 0x4800_0000_0000_0000, 0x48FF_FFFF_FFFF_FFFF][self.rng.below(4) as usize], None),
            _ => (good, handle),
        }
    }
    fn rights_within(&mut self, handle: Option<Handle>) -> u64 {
        let has = handle.map_or(u64::MAX, |handle| handle.rights);
        match self.rng.below(20) {
            0..=9 => has,
            10 => has & self.rng.next(),
            11 => has & 3,
            12 => 0,
            13..=18 => has & (self.rng.next() | 3),
            _ => self.rng.next(),
        }
    }
    fn kind_of(&mut self, handle: Option<Handle>) -> u64 {
        match handle {
            Some(handle) if !self.rng.chance(120) => u64::from(self.s.objects[handle.object as usize].kind),
            _ => [1, 2, 3, 0, u64::from(u32::MAX)][self.rng.below(5) as usize],
        }
    }
    fn ids(&self, wanted: impl Fn(&RowKind) -> bool) -> Vec<u64> {
        self.s.rows.iter().filter(|row| wanted(&row.kind)).map(|row| row.id).collect()
    }
    /// A row's id of the kind wanted, mostly.
    fn id(&mut self, wanted: impl Fn(&RowKind) -> bool) -> u64 {
        let good = self.ids(wanted);
        if self.rng.chance(40) || good.is_empty() {
            let all = self.ids(|_| true);
            return match self.rng.below(6) {
                0 => 0,
                1 => u64::MAX,
                2 => self.s.next,
                3 => self.s.next.wrapping_sub(1 + self.rng.below(4)),
                _ => self.rng.pick(&all).copied().unwrap_or(1),
            };
        }
        self.rng.pick(&good).copied().unwrap_or(0)
    }
    /// At times, where lists may start with long rows, the longest row of a kind.
    fn longest(&mut self, wanted: impl Fn(&RowKind) -> bool) -> Option<u64> {
        if self.ops != Ops::All || !self.rng.chance(300) {
            return None;
        }
        self.ids(wanted).into_iter().max_by_key(|id| self.length_of(*id))
    }
    fn count(&mut self) -> u64 {
        match self.rng.below(40) {
            0 => 0,
            1 => 65,
            2 => 64,
            3 => 60 + self.rng.below(6),
            4..=6 => 10 + self.rng.below(40),
            7 => [u64::MAX, 1 << 32, 128, 66][self.rng.below(4) as usize],
            _ => 1 + self.rng.below(5),
        }
    }
    fn object(&mut self) -> u64 {
        if self.rng.chance(10) {
            return [self.s.objects.len() as u64, u64::MAX][self.rng.below(2) as usize];
        }
        let new: Vec<u64> = (0..self.s.objects.len() as u64).filter(|number| self.s.objects[*number as usize].state == NEW).collect();
        if !new.is_empty() && !self.rng.chance(250) {
            return self.rng.pick(&new).copied().unwrap_or(0);
        }
        self.rng.below(self.s.objects.len() as u64)
    }

    fn request(&mut self) -> Request {
        let weights: [(u64, u64); OPS - 1] = [
            (NEW_OBJECT, 60), (DUPLICATE, 160), (RELEASE, 10), (RETIRE, 2), (RESERVE, 110), (TRIM, 15), (ABORT, 15), (PUBLISH, 170),
            (GET_INFO, 25), (RESOLVE, 25), (REPLACE, 35), (CLOSE, 30), (SCAN, 30), (TRANSFER, 120), (CONSUME, 25), (ROLLBACK, 45),
            (COMMIT, 45), (DIRECT_COMMIT, 60), (DIRECT_ROLLBACK, 25), (STOPPING, 6), (TEARDOWN_START, 2), (TEARDOWN_STEP, 25),
            (TEARDOWN_FINISH, 10), (TAKE_PAGE, 40), (MAKE_PLAN, 70), (USE_PLAN, 75), (DROP_PLAN, 20), (JUDGE, 110),
        ];
        if self.ops >= Ops::WithLooks
            && self.rng.chance(80)
            && let Some(look) = self.look()
        {
            return look;
        }
        let weights = &weights[..self.ops.known() as usize - 1];
        let total: u64 = weights.iter().map(|(_, weight)| weight).sum();
        let mut op = TAKE_PAGE;
        // Requests that have nothing to work on are mostly passed over.
        for _ in 0..6 {
            let mut roll = self.rng.below(total);
            for (candidate, weight) in weights.iter().copied() {
                if roll < weight {
                    op = candidate;
                    break;
                }
                roll -= weight;
            }
            if self.useful(op) || self.rng.chance(120) {
                break;
            }
        }
        // Only where the last page comes first and no slot is free has a plan two pages, and such lists are few.
        let table = &self.s.tables[0];
        if self.ops != Ops::WithoutPlans && table.detached.first() == Some(&(MAX_PAGES - 1)) && table.free_count == 0 && self.rng.chance(300) {
            let wide = self.ids(|kind| kind.frames().len() == 2 && !is_stale(self.s, kind));
            return match self.rng.pick(&wide).copied() {
                Some(id) => use_plan(id),
                None => make_plan(0, 64),
            };
        }
        let tearing: Vec<u64> = (0..self.s.tables.len() as u64)
            .filter(|table| matches!(self.s.tables[*table as usize].life, Life::TearingDown(_)))
            .collect();
        match op {
            NEW_OBJECT => {
                let object = self.object();
                let rights = match self.rng.below(10) {
                    0 => self.rng.next(),
                    1 => 1,
                    2 => 2,
                    _ => self.s.objects.get(object as usize).map_or(0, |object| object.supported | 3 & object.supported),
                };
                let flags = match self.rng.below(20) {
                    0 => 4,
                    1 => u64::from(u32::MAX),
                    _ => self.rng.below(4),
                };
                new_object(object, rights, flags)
            }
            DUPLICATE => {
                let table = self.full_table();
                let (value, handle) = self.value(table);
                let rights = self.rights_within(handle);
                duplicate(table, value, rights)
            }
            RELEASE => release(self.id(|kind| matches!(kind, RowKind::Parcel(_)))),
            RETIRE => retire(self.object()),
            RESERVE => {
                let table = self.table();
                let count = self.count();
                reserve(table, count)
            }
            TRIM => {
                let id = self.id(|kind| matches!(kind, RowKind::Reservation { .. }));
                let length = self.length_of(id);
                let count = if self.rng.chance(100) { [0, length + 1, u64::MAX][self.rng.below(3) as usize] } else { 1 + self.rng.below(length.max(1)) };
                trim(id, count)
            }
            ABORT => abort(self.id(|kind| matches!(kind, RowKind::Reservation { .. }))),
            PUBLISH => self.publish(),
            GET_INFO | CLOSE => {
                let table = self.full_table();
                let (value, _) = self.value(table);
                if op == CLOSE { close(table, value) } else { get_info(table, value) }
            }
            RESOLVE => {
                let table = self.full_table();
                let (value, handle) = self.value(table);
                let rights = self.rights_within(handle);
                let kind = self.kind_of(handle);
                resolve(table, value, rights, kind)
            }
            REPLACE => {
                let table = self.full_table();
                let (value, handle) = self.value(table);
                let rights = self.rights_within(handle);
                replace(table, value, rights)
            }
            SCAN | STOPPING => {
                let table = self.table();
                let length = self.s.tables.get(table as usize).map_or(0, Table::length);
                let cursor = match self.rng.below(8) {
                    0..=2 => 0,
                    3 => length,
                    4 => u64::MAX,
                    _ => self.rng.below(length + 2),
                };
                if op == SCAN { scan(table, cursor) } else { stopping(table, cursor) }
            }
            TRANSFER => self.transfer(),
            JUDGE => self.judge(),
            CONSUME => {
                let table = self.full_table();
                let (value, handle) = self.value(table);
                let rights = self.rights_within(handle);
                let kind = self.kind_of(handle);
                let koid = match handle {
                    Some(handle) if !self.rng.chance(100) => self.s.objects[handle.object as usize].koid,
                    _ => 1 + self.rng.below(2000),
                };
                consume(table, value, rights, kind, koid)
            }
            ROLLBACK => rollback(self.id(|kind| matches!(kind, RowKind::Claim { .. }))),
            COMMIT => commit(self.id(|kind| matches!(kind, RowKind::Claim { .. }))),
            DIRECT_COMMIT | DIRECT_ROLLBACK => {
                let claim = self.id(|kind| matches!(kind, RowKind::Claim { .. }));
                let claim = self.longest(|kind| matches!(kind, RowKind::Claim { .. })).unwrap_or(claim);
                let length = self.length_of(claim);
                let fitting: Vec<u64> = self
                    .s
                    .rows
                    .iter()
                    .filter(|row| matches!(&row.kind, RowKind::Reservation { slots, .. } if slots.len() as u64 == length))
                    .map(|row| row.id)
                    .collect();
                let destination = match self.rng.pick(&fitting).copied() {
                    Some(id) if !self.rng.chance(80) => id,
                    None if length > 0 && !self.rng.chance(250) => {
                        // None fits: make one that does, for the next time.
                        let longer: Vec<u64> = self
                            .s
                            .rows
                            .iter()
                            .filter(|row| matches!(&row.kind, RowKind::Reservation { slots, .. } if slots.len() as u64 > length))
                            .map(|row| row.id)
                            .collect();
                        return match self.rng.pick(&longer).copied() {
                            Some(id) => trim(id, length),
                            None => {
                                let table = self.table();
                                reserve(table, length)
                            }
                        };
                    }
                    _ => self.id(|kind| matches!(kind, RowKind::Reservation { .. })),
                };
                if op == DIRECT_COMMIT { direct_commit(claim, destination) } else { direct_rollback(claim, destination) }
            }
            TEARDOWN_START => teardown_start(self.table()),
            TEARDOWN_STEP | TEARDOWN_FINISH => {
                let table = match self.rng.pick(&tearing).copied() {
                    Some(table) if !self.rng.chance(100) => table,
                    _ => self.table(),
                };
                if op == TEARDOWN_STEP { teardown_step(table) } else { teardown_finish(table) }
            }
            MAKE_PLAN => {
                let number = self.table();
                let count = match self.s.tables.get(number as usize) {
                    // More than the free slots, so that it needs a page.
                    Some(table) if table.free_count < 64 && self.rng.chance(500) => table.free_count + 1 + self.rng.below(64 - table.free_count),
                    _ => self.count(),
                };
                make_plan(number, count)
            }
            USE_PLAN => {
                let fresh = self.rng.chance(500);
                use_plan(self.plan(fresh, |stale| !stale))
            }
            DROP_PLAN => {
                let stale = self.rng.chance(600);
                drop_plan(self.plan(stale, |stale| stale))
            }
            _ => take_page(self.table()),
        }
    }

    /// A look at a value that is being moved: of any claim, of those behind a copy and those far behind in a claim more often, at times with another generation.
    fn look(&mut self) -> Option<Request> {
        let mut all = moved(self.s);
        let rare: fn(&Moved) -> bool = match self.rng.below(10) {
            0..=1 => Moved::behind,
            2..=4 => Moved::far,
            _ => |_| true,
        };
        if all.iter().any(rare) {
            all.retain(rare);
        }
        let mut claims: Vec<u64> = all.iter().map(|at| at.claim).collect();
        claims.dedup();
        let claim = *self.rng.pick(&claims)?;
        all.retain(|at| at.claim == claim);
        let at = *self.rng.pick(&all)?;
        if self.rng.chance(60) {
            let generation = 1 + self.rng.below(4);
            return Some(get_info(at.table, self.encoded(at.table as usize, at.slot, generation)));
        }
        Some(get_info(at.table, at.value))
    }

    /// A plan's id, of those that are as wanted if there are any and only they will do.
    fn plan(&mut self, only: bool, wanted: impl Fn(bool) -> bool) -> u64 {
        let s = self.s;
        let good = |kind: &RowKind| is_plan(kind) && wanted(is_stale(s, kind));
        if only && s.rows.iter().any(|row| good(&row.kind)) { self.id(good) } else { self.id(is_plan) }
    }

    fn useful(&self, op: u64) -> bool {
        let row = |wanted: fn(&RowKind) -> bool| self.s.rows.iter().any(|row| wanted(&row.kind));
        let free_row = (self.s.rows.len() as u64) < self.s.row_capacity;
        let handles = || {
            self.s.tables.iter().any(|table| {
                table.life == Life::Active
                    && table.pages.iter().any(|page| page.busy > 0 && page.slots.iter().any(|slot| matches!(slot, Slot::Occupied(..))))
            })
        };
        match op {
            NEW_OBJECT => free_row && self.s.objects.iter().any(|object| object.state == NEW),
            DUPLICATE | TRANSFER | CONSUME | JUDGE => free_row && handles(),
            GET_INFO | RESOLVE | REPLACE | CLOSE => handles(),
            RESERVE | MAKE_PLAN => free_row,
            USE_PLAN | DROP_PLAN => row(is_plan),
            RELEASE => row(|kind| matches!(kind, RowKind::Parcel(_))),
            TRIM | ABORT => row(|kind| matches!(kind, RowKind::Reservation { .. })),
            PUBLISH => row(|kind| matches!(kind, RowKind::Reservation { .. })) && row(|kind| matches!(kind, RowKind::Parcel(_))),
            ROLLBACK | COMMIT => row(|kind| matches!(kind, RowKind::Claim { .. })),
            DIRECT_COMMIT | DIRECT_ROLLBACK => {
                row(|kind| matches!(kind, RowKind::Claim { .. })) && row(|kind| matches!(kind, RowKind::Reservation { .. }))
            }
            TEARDOWN_STEP | TEARDOWN_FINISH => self.s.tables.iter().any(|table| matches!(table.life, Life::TearingDown(_))),
            TAKE_PAGE => self.s.tables.iter().any(|table| !table.empty.is_empty()),
            _ => true,
        }
    }

    fn length_of(&self, id: u64) -> u64 {
        self.s.rows.iter().find(|row| row.id == id).map_or(0, |row| match &row.kind {
            RowKind::Reservation { slots, .. } => slots.len() as u64,
            RowKind::Claim { entries, .. } => entries.len() as u64,
            RowKind::Parcel(handles) => handles.len() as u64,
            RowKind::Plan { .. } => 0,
        })
    }

    fn publish(&mut self) -> Request {
        let mut parcels: Vec<(u64, u64)> = self.ids(|kind| matches!(kind, RowKind::Parcel(_))).into_iter().map(|id| (id, self.length_of(id))).collect();
        self.rng.shuffle(&mut parcels);
        let mut id = self.id(|kind| matches!(kind, RowKind::Reservation { .. }));
        if let Some(longest) = self.longest(|kind| matches!(kind, RowKind::Reservation { .. })) {
            // As many slots and as many parcels as can be.
            id = longest;
            parcels.sort_by_key(|(_, length)| *length);
        }
        let mut left = self.length_of(id);
        let mut chosen = Vec::new();
        for (parcel, length) in parcels {
            if length <= left && length > 0 {
                left -= length;
                chosen.push(parcel);
            }
        }
        if chosen.is_empty() && !self.rng.chance(150) {
            // No parcel is short enough: a reservation for one, for the next time.
            let long = self.id(|kind| matches!(kind, RowKind::Parcel(_)));
            let length = self.length_of(long);
            let table = self.table();
            return reserve(table, length.clamp(1, 64));
        }
        if left > 0 && !chosen.is_empty() && !self.rng.chance(150) {
            // Not enough loose handles: trim, so that the next publish fits.
            let fits: u64 = chosen.iter().map(|parcel| self.length_of(*parcel)).sum();
            return trim(id, fits);
        }
        if self.rng.chance(15)
            && let Some(first) = chosen.first().copied()
        {
            chosen.push(first);
        }
        if self.rng.chance(15) {
            chosen.push(self.id(|_| true));
        }
        if self.ops == Ops::All
            && self.rng.chance(15)
            && let [first, .., last] = chosen.as_mut_slice()
            && self.length_of(*first) == self.length_of(*last)
        {
            // Named twice, and the handles are as many as before.
            *last = *first;
        }
        publish(id, &chosen)
    }

    fn transfer(&mut self) -> Request {
        let table = self.full_table();
        let count = match self.rng.below(60) {
            0 => 0,
            1 => 65,
            2 => 64,
            3..=8 => 6 + self.rng.below(12),
            9..=11 => 20 + self.rng.below(45),
            _ => 1 + self.rng.below(5),
        };
        // Mostly different occupied slots.
        let mut occupied = self.slots(table, |slot| matches!(slot, Slot::Occupied(..)));
        self.rng.shuffle(&mut occupied);
        let lean = self.rng.below(3);
        let clean = !self.rng.chance(250);
        let route = if self.rng.chance(300) { 0 } else { 1 + self.rng.below(2) };
        if clean {
            // Only what this route may carry.
            occupied.retain(|(_, _, slot)| match slot {
                Slot::Occupied(_, handle) => {
                    let class = self.s.objects[handle.object as usize].class;
                    handle.rights & 2 == 2 && (class == 0 || (class == 1 && route != 0))
                }
                _ => false,
            });
        }
        let mut items = Vec::new();
        for at in 0..count {
            let (value, handle) = match occupied.get(at as usize) {
                Some((slot, generation, Slot::Occupied(_, handle))) if clean || !self.rng.chance(250) => {
                    (self.encoded(table as usize, *slot, *generation), Some(*handle))
                }
                _ if clean && !items.is_empty() => break,
                _ => self.value(table),
            };
            let operation = match lean {
                0 => 0,
                1 => 1,
                _ => self.rng.below(2),
            };
            let has = handle.map_or(0, |handle| handle.rights);
            let operation = if clean && has & 1 == 0 { 0 } else { operation };
            let wanted = match self.rng.below(if clean { 4 } else { 6 }) {
                0 => has,
                1 | 2 => has & (self.rng.next() | 3),
                3 | 4 => has & self.rng.next(),
                _ => self.rng.next(),
            };
            let mut record = item(operation, value, wanted);
            if self.rng.chance(150) {
                let offered = if self.rng.chance(950) { has & (self.rng.next() | wanted) } else { self.rng.next() };
                record = record.with(OFFERED_RIGHTS, offered);
            }
            for field in [OFFERED_KIND, EXPECTED_KIND] {
                if self.rng.chance(120) {
                    let kind = match handle {
                        Some(handle) if !self.rng.chance(60) => u64::from(self.s.objects[handle.object as usize].kind),
                        _ => 1 + self.rng.below(3),
                    };
                    record = record.with(field, kind);
                }
            }
            items.push(record);
        }
        if self.rng.chance(20)
            && let Some(first) = items.first().cloned()
        {
            let operation = self.rng.below(2);
            items.push(first.with(OP, operation));
        }
        let mut request = transfer(table, route, items);
        if self.rng.chance(40) {
            request = request.with(FORBIDDEN_KIND, 1 + self.rng.below(3));
        }
        if self.rng.chance(40) {
            let koid = self.rng.pick(&self.s.objects).map_or(1, |object| object.koid);
            request = request.with(FORBIDDEN_OBJECT, koid);
        }
        request
    }
}

/// What an item of an aimed transfer is made of: a value and its handle.
type Source = (u64, Handle);

impl View<'_> {
    /// A transfer to be judged: any, or one that is aimed at a place of the order and an item of it.
    fn judge(&mut self) -> Request {
        if self.rng.chance(200) {
            return judging(&self.transfer());
        }
        let aim = 1 + self.rng.below(17);
        let idle: Vec<u64> = (0..self.s.tables.len() as u64).filter(|table| self.s.tables[*table as usize].life != Life::Active).collect();
        let table = match self.rng.pick(&idle).copied() {
            Some(table) if aim == 1 => table,
            _ => self.full_table(),
        };
        let route = if aim == 14 { self.rng.below(2) } else { self.rng.below(3) };
        let s = self.s;
        let of = |handle: &Handle| &s.objects[handle.object as usize];
        let fits = |handle: &Handle| of(handle).class == 0 || of(handle).class == 1 && route != 0;
        let mut sources: Vec<Source> = Vec::new();
        for (slot, generation, what) in self.slots(table, |slot| matches!(slot, Slot::Occupied(..))) {
            if let Slot::Occupied(_, handle) = what {
                sources.push((self.encoded(table as usize, slot, generation), handle));
            }
        }
        self.rng.shuffle(&mut sources);
        // The item that is meant to be at fault.
        let spare = |handle: &Handle| of(handle).limit - of(handle).count;
        let wanted = |source: &&Source| {
            let handle = &source.1;
            let (moves, copies) = (handle.rights & 2 == 2, handle.rights & 3 == 3);
            match aim {
                8 => !moves,
                9 => moves && !copies,
                14 => moves && !fits(handle),
                16 => copies && fits(handle) && of(handle).state == RETIRED,
                17 => copies && fits(handle) && of(handle).state != RETIRED && spare(handle) < 6,
                _ => moves && fits(handle),
            }
        };
        let Some(target) = sources.iter().find(wanted).copied() else {
            return judging(&self.transfer());
        };
        let same = |source: &Source| match aim {
            12 => of(&source.1).kind == of(&target.1).kind,
            13 => of(&source.1).koid == of(&target.1).koid,
            _ => false,
        };
        // Others that may stand before it, those of the same object first where copies are to meet the limit.
        let mut front: Vec<Source> = sources.iter().filter(|source| source.0 != target.0 && source.1.rights & 2 == 2 && fits(&source.1) && !same(source)).copied().collect();
        if aim == 17 {
            front.sort_by_key(|source| (source.1.object != target.1.object, source.1.rights & 1 == 0));
        }
        let mut count = match self.rng.below(12) {
            0 => 1,
            1 => 64,
            2..=4 => 2 + self.rng.below(62),
            _ => 2 + self.rng.below(6),
        };
        let mut position = match self.rng.below(3) {
            0 => 0,
            1 => count - 1,
            _ => self.rng.below(count),
        };
        if front.len() > 62 && [1, 4, 5].contains(&aim) && self.rng.chance(500) {
            count = 64;
        } else if front.len() > 32 && self.rng.chance(400) {
            count = 33 + self.rng.below(32);
            position = 32 + self.rng.below(count - 32);
        }
        let position = if aim == 17 { position.max(spare(&target.1)) } else { position } as usize;
        let exhausted = |handle: &Handle| handle.rights & 1 == 1 && (of(handle).state == RETIRED || spare(handle) == 0);
        let behind = (7..16).contains(&aim) && position > 0 && self.rng.chance(250);
        if behind {
            // A copy that would be refused when all items are right comes first.
            front.sort_by_key(|source| !exhausted(&source.1));
        }
        let mut left: Vec<u64> = s.objects.iter().map(|object| if object.state == RETIRED { 0 } else { object.limit - object.count }).collect();
        let lean = self.rng.below(3);
        let mut items: Vec<Record> = Vec::new();
        for (at, (value, handle)) in front.iter().take(count as usize - 1).enumerate() {
            let room = &mut left[handle.object as usize];
            let may_copy = handle.rights & 1 == 1 && *room > 0;
            let copy = behind && at == 0 && exhausted(handle) || may_copy && (aim == 17 && handle.object == target.1.object || lean == 1 || lean == 2 && self.rng.chance(500));
            *room = room.saturating_sub(u64::from(copy));
            let wanted = handle.rights & self.rng.next();
            let mut record = item(u64::from(copy), *value, wanted);
            if self.rng.chance(150) {
                record = record.with(OFFERED_RIGHTS, wanted | handle.rights & self.rng.next());
            }
            for field in [OFFERED_KIND, EXPECTED_KIND] {
                if self.rng.chance(100) {
                    record = record.with(field, u64::from(of(handle).kind));
                }
            }
            items.push(record);
        }
        let position = position.min(items.len());
        let has = target.1.rights;
        let lacking = !has & (1 << self.rng.below(64) | self.rng.next() & self.rng.next());
        let any = has & self.rng.next();
        let operation = if [9, 16, 17].contains(&aim) || has & 1 == 1 && left[target.1.object as usize] > 0 && self.rng.chance(400) { 1 } else { 0 };
        let mut record = item(operation, target.0, any);
        let mut head = transfer(table, route, Vec::new());
        match aim {
            6 => {
                if let Some(earlier) = self.rng.pick(&items[..position]) {
                    record = record.with(VALUE, earlier.get(VALUE));
                }
            }
            7 => {
                let moving = self.slots(table, |slot| matches!(slot, Slot::Moving(_)));
                let other = match self.rng.pick(&moving).copied() {
                    Some((slot, generation, _)) if self.rng.chance(500) => self.encoded(table as usize, slot, generation),
                    _ => self.value(table).0,
                };
                record = record.with(VALUE, other);
            }
            10 => record = record.with(OFFERED_RIGHTS, any | lacking),
            11 if self.rng.chance(500) => record = record.with(OFFERED_RIGHTS, any).with(RIGHTS, any | !any & (1 << self.rng.below(64))),
            11 => record = record.with(RIGHTS, any | lacking),
            12 => head = head.with(FORBIDDEN_KIND, u64::from(of(&target.1).kind)),
            13 => head = head.with(FORBIDDEN_OBJECT, of(&target.1).koid),
            15 => record = record.with([OFFERED_KIND, EXPECTED_KIND][self.rng.below(2) as usize], 5 + self.rng.below(9)),
            _ => {}
        }
        items.insert(position, record);
        // At times another is at fault behind it.
        if position + 1 < items.len() && self.rng.chance(250) {
            let behind = position + 1 + self.rng.below((items.len() - position - 1) as u64) as usize;
            items[behind] = match self.rng.below(3) {
                0 => items[behind].clone().with(VALUE, self.rng.next()),
                1 => items[behind].clone().with(EXPECTED_KIND, 14),
                _ => items[behind].clone().with(VALUE, items[position].get(VALUE)),
            };
        }
        match aim {
            2 => items.clear(),
            3 => items.resize(65 + self.rng.below(3) as usize, item(0, target.0, 0)),
            _ => {}
        }
        judging(&head.with(COUNT, items.len() as u64).with_items(items))
    }
}

/// A list spoilt on purpose: most of these are malformed.
fn spoil(rng: &mut Rng, words: &mut Vec<u64>, ops: Ops) {
    let known = ops.known();
    let edges = [0, if ops == Ops::WithoutPlans { 99 } else { known }, u64::MAX, known - 1];
    match rng.below(8) {
        0 => {
            words.pop();
        }
        1 => words[0] ^= 1 << rng.below(20),
        2 if words.len() > 1 => words[1] = edges[rng.below(4) as usize],
        3 => {
            let at = rng.below(words.len() as u64) as usize;
            words[at] = rng.next();
        }
        4 => words.push(rng.below(30)),
        5 => {
            let at = rng.below(words.len() as u64) as usize;
            words.insert(at, rng.below(5));
        }
        6 => {
            let at = rng.below(words.len() as u64) as usize;
            words[at] = words[at].wrapping_add(1 << 32);
        }
        _ => words.clear(),
    }
}

/// A request on this state.
pub fn next_request(rng: &mut Rng, state: &State, ops: Ops) -> Request {
    View { ops, s: state, rng }.request()
}

pub fn next_call(rng: &mut Rng, state: &State, ops: Ops) -> Call {
    let mut list = next_request(rng, state, ops).words();
    if rng.chance(15) {
        spoil(rng, &mut list, ops);
    }
    let lent = if rng.chance(5) { rng.below(72) as usize } else { ANSWER + 1 };
    Call { list, lent }
}

/// Plain steps of the reading, thrown away but for the state.
fn grown(rng: &mut Rng, params: &[u64], steps: usize, ops: Ops) -> State {
    let mut reading = Reading::new(Slip::None);
    if reading.start(&Start::Create(params.to_vec())) != 0 {
        unreachable!("the generator's parameters are permitted");
    }
    for _ in 0..steps {
        let Some(state) = reading.state() else { break };
        let list = next_request(rng, state, ops).words();
        let mut answers = vec![0; ANSWER];
        reading.call(&list, &mut answers);
    }
    match reading.state() {
        Some(state) => state.clone(),
        None => unreachable!("the reading keeps its state"),
    }
}

/// Mixes what document 01 leaves free in a well-formed state.
fn scramble(rng: &mut Rng, s: &mut State) {
    // Frames: another place for each page, and some free ones more. Plans hold none until they are made anew.
    s.frames += rng.below(4);
    let mut frames: Vec<u64> = (0..s.frames).collect();
    rng.shuffle(&mut frames);
    let mut frames = frames.into_iter();
    for table in &mut s.tables {
        for page in &mut table.pages {
            if page.frame.is_some() {
                page.frame = frames.next();
            }
        }
    }
    s.free_frames = frames.collect();
    s.free_frames.sort_unstable();
    for table in &mut s.tables {
        rng.shuffle(&mut table.free);
        rng.shuffle(&mut table.empty);
        rng.shuffle(&mut table.detached);
        table.epoch = match rng.below(3) {
            0 => table.epoch,
            1 => rng.below(1 << 40),
            _ => rng.next() >> 1,
        };
        if rng.chance(500) {
            table.mask = rng.next() >> 8;
        }
        table.limit = (table.limit + rng.below(3)).min(MAX_PAGES);
        if let Life::TearingDown(_) = table.life {
            table.life = Life::TearingDown(rng.below(table.length() + 1));
        }
        for page in &mut table.pages {
            let top = match rng.below(4) {
                0 => GENERATION_LIMIT,
                1 => GENERATION_LIMIT - rng.below(4),
                2 => 1 + rng.below(1 << 20),
                _ => 1 + rng.below(6),
            };
            page.high = top;
            let all = rng.below(3);
            for slot in &mut page.slots {
                let generation = match all {
                    0 => top,
                    1 => 1 + rng.below(top),
                    _ => top - rng.below(top.min(3)),
                };
                *slot = match *slot {
                    Slot::Vacant(_) => Slot::Vacant(generation),
                    Slot::Reserved(_) => Slot::Reserved(generation),
                    Slot::Moving(_) => Slot::Moving(generation),
                    Slot::Occupied(_, handle) => Slot::Occupied(generation, Handle { rights: handle.rights | 3 & rng.next(), ..handle }),
                };
            }
        }
    }
    for row in &mut s.rows {
        match &mut row.kind {
            RowKind::Reservation { slots, .. } => rng.shuffle(slots),
            RowKind::Claim { entries, .. } => {
                rng.shuffle(entries);
                for entry in entries {
                    if let ClaimEntry::Move { gets, .. } = entry
                        && rng.chance(200)
                    {
                        *gets = rng.next();
                    }
                }
            }
            RowKind::Parcel(handles) => rng.shuffle(handles),
            RowKind::Plan { .. } => {}
        }
    }
    for object in &mut s.objects {
        if rng.chance(80) {
            object.state = RETIRED;
        }
        if rng.chance(200) {
            object.limit = object.count + rng.below(3);
        }
    }
    // Ids: other numbers in the same order.
    let mut id = 0;
    for row in &mut s.rows {
        let most = if rng.chance(100) { 1 << 40 } else { 4 };
        id += 1 + rng.below(most);
        row.id = id;
    }
    s.next = id + 1 + rng.below(5);
    s.row_capacity = (s.row_capacity + rng.below(3)).min(256);
    for at in 0..s.rows.len() {
        if let RowKind::Plan { frames, .. } = &mut s.rows[at].kind {
            frames.clear();
            other_plan(rng, s, at);
        }
    }
}

/// Another plan in the place of one: a count, and either the snapshot of its table as it is, or any that a state check lets pass. It holds any frames.
fn other_plan(rng: &mut Rng, s: &mut State, at: usize) {
    let RowKind::Plan { table, frames, .. } = &s.rows[at].kind else { return };
    let (number, held) = (*table, frames.clone());
    let table = &s.tables[number as usize];
    s.free_frames.extend(held);
    s.free_frames.sort_unstable();
    let mut count = if rng.chance(300) { 1 + rng.below(64) } else { 1 + rng.below(5) };
    if rng.chance(500) && table.free_count < 64 {
        count = table.free_count + 1 + rng.below(64 - table.free_count);
    }
    let how = rng.below(10);
    let fresh = if how < 7 { table.snapshot(count, Slip::None).ok() } else { None };
    let mut kept = fresh.unwrap_or_else(|| {
        // Mostly near the table as it is, so that it can come to this.
        let epoch = match rng.below(8) {
            0 => rng.next(),
            1..=4 => table.epoch,
            _ => table.epoch.wrapping_add(1 + rng.below(2)),
        };
        let free_slots = match rng.below(4) {
            0 => rng.below(MAX_SLOTS + 1),
            1 => table.free_count,
            _ => (table.free_count + rng.below(4)).saturating_sub(rng.below(4)),
        };
        let mut kept = Snapshot { epoch, free_slots, pages: Vec::new() };
        let mut missing = count.saturating_sub(free_slots);
        while missing > 0 {
            let page = match rng.below(6) {
                0 => rng.below(MAX_PAGES),
                1 => MAX_PAGES - 1,
                2 if !table.detached.is_empty() => table.detached[0],
                _ => (table.pages.len() as u64 + rng.below(2)).min(MAX_PAGES - 1),
            };
            missing = missing.saturating_sub(page_slots(page));
            kept.pages.push(page);
        }
        kept
    });
    if how == 6 {
        // Other pages, and as many: the page after each.
        for page in &mut kept.pages {
            *page = (*page + 1).min(MAX_PAGES - 2);
        }
    }
    if kept.pages.len() > s.free_frames.len() {
        count = 1;
        kept = Snapshot { pages: Vec::new(), free_slots: kept.free_slots.max(1), ..kept };
    }
    let mut frames: Vec<u64> = Vec::new();
    while frames.len() < kept.pages.len() {
        frames.push(s.free_frames.remove(rng.below(s.free_frames.len() as u64) as usize));
    }
    frames.sort_unstable();
    s.rows[at].kind = RowKind::Plan { table: number, count, kept, frames };
}

/// One more handle of a random object, if that may have one, and only so often.
fn one_more(rng: &mut Rng, objects: &mut [Object], per_thousand: u64) -> Option<Handle> {
    let object = rng.below(objects.len() as u64);
    let record = &mut objects[object as usize];
    if !rng.chance(per_thousand) || record.count >= record.limit {
        return None;
    }
    record.count += 1;
    if record.state == NEW {
        record.state = ACTIVE;
    }
    let rights = rng.next() | [3, 3, 3, 2, 1, 0][rng.below(6) as usize];
    Some(Handle { object, rights, flags: rng.below(4) })
}

/// As many more if objects that may have one are found soon.
fn some_more(rng: &mut Rng, objects: &mut [Object], count: usize) -> Vec<Handle> {
    (0..4 * count).filter_map(|_| one_more(rng, objects, 1000)).take(count).collect()
}

/// Parcels, as many as a batch has slots and more, of one handle each or of up to four; reservations of all that is free in the table with the most of it; and a claim of up to 64 items on
/// the table with the most handles, of moves and, for the rest, copies: for publishes from many parcels, and direct commits of many items.
fn loosen(rng: &mut Rng, s: &mut State) {
    let most = if rng.chance(500) { 1 } else { 4 };
    let parcels = 64 + rng.below(24);
    s.row_capacity += 1 + parcels + rng.below(20);
    let busy = |table: &Table| table.pages.iter().map(|page| page.busy).sum::<u64>();
    if let Some(number) = (0..s.tables.len()).filter(|number| s.tables[*number].life == Life::Active).max_by_key(|number| busy(&s.tables[*number])) {
        let mut entries = Vec::new();
        for (number, page) in s.tables[number].pages.iter_mut().enumerate() {
            for (place, slot) in page.slots.iter_mut().enumerate() {
                if let Slot::Occupied(generation, handle) = *slot
                    && entries.len() < 64
                    && rng.chance(700)
                {
                    *slot = Slot::Moving(generation);
                    entries.push(ClaimEntry::Move { slot: (number * 64 + place) as u64, handle, gets: handle.rights & rng.next() });
                }
            }
        }
        entries.extend(some_more(rng, &mut s.objects, 64 - entries.len()).into_iter().map(ClaimEntry::Copy));
        rng.shuffle(&mut entries);
        if !entries.is_empty() {
            s.rows.push(Row { id: s.next, kind: RowKind::Claim { table: number as u64, entries } });
            s.next += 1;
        }
    }
    for _ in 0..parcels {
        let count = 1 + rng.below(most);
        let handles = some_more(rng, &mut s.objects, count as usize);
        if !handles.is_empty() {
            s.rows.push(Row { id: s.next, kind: RowKind::Parcel(handles) });
            s.next += 1;
        }
    }
    if let Some(number) = (0..s.tables.len()).max_by_key(|number| s.tables[*number].free_count) {
        reserve_all(s, number);
    }
}

/// Fills vacant slots with handles, so that long transfers, parcels and scans find something.
fn crowd(rng: &mut Rng, s: &mut State) {
    let share = [100, 500, 950][rng.below(3) as usize];
    for number in 0..s.tables.len() {
        if s.tables[number].life == Life::Retired {
            continue;
        }
        for page in 0..s.tables[number].pages.len() {
            for place in 0..s.tables[number].pages[page].slots.len() {
                let Slot::Vacant(generation) = s.tables[number].pages[page].slots[place] else { continue };
                let Some(handle) = one_more(rng, &mut s.objects, share) else { continue };
                let table = &mut s.tables[number];
                table.pages[page].slots[place] = Slot::Occupied(generation, handle);
                table.pages[page].busy += 1;
                let slot = (page * 64 + place) as u64;
                table.free.retain(|free| *free != slot);
                table.free_count -= 1;
                table.empty.retain(|empty| *empty != page as u64);
            }
        }
    }
}

/// Takes fields to their ends.
fn to_the_edge(rng: &mut Rng, s: &mut State) {
    for _ in 0..2 {
        match rng.below(9) {
            0 => {
                // Few ids left.
                let shift = (u64::MAX - rng.below(6)).saturating_sub(s.next);
                if rng.chance(500) {
                    for row in &mut s.rows {
                        row.id += shift;
                    }
                }
                s.next += shift;
            }
            1 => {
                // Few steps of the epoch left. Rarely: the Rust stops there.
                if rng.chance(250) {
                    let number = rng.below(s.tables.len() as u64) as usize;
                    s.tables[number].epoch = u64::MAX - rng.below(4);
                }
            }
            2 => {
                // No frames, or few.
                let keep = rng.below(2);
                let mut used: Vec<u64> = s.tables.iter().flat_map(|table| table.pages.iter().filter_map(|page| page.frame)).collect();
                used.extend(s.rows.iter().flat_map(|row| row.kind.frames()));
                s.frames = used.iter().max().map_or(0, |top| top + 1);
                s.free_frames.retain(|frame| *frame < s.frames);
                s.frames += keep;
                s.free_frames.extend((s.frames - keep)..s.frames);
            }
            3 => s.row_capacity = (s.rows.len() as u64 + rng.below(3)).max(1),
            4 => {
                for object in &mut s.objects {
                    if object.state != NEW {
                        object.limit = object.count + rng.below(2);
                    }
                }
            }
            5 => {
                for table in &mut s.tables {
                    table.limit = (table.pages.len() as u64).max(1);
                }
            }
            6 | 7 => {
                // Generations near the limit.
                for table in &mut s.tables {
                    for page in &mut table.pages {
                        let shift = GENERATION_LIMIT - page.high - rng.below((GENERATION_LIMIT - page.high).min(3) + 1);
                        page.high += shift;
                        for slot in &mut page.slots {
                            *slot = match *slot {
                                Slot::Vacant(generation) => Slot::Vacant(generation + shift),
                                Slot::Reserved(generation) => Slot::Reserved(generation + shift),
                                Slot::Moving(generation) => Slot::Moving(generation + shift),
                                Slot::Occupied(generation, handle) => Slot::Occupied(generation + shift, handle),
                            };
                        }
                    }
                }
            }
            _ => {
                for number in 0..s.tables.len() {
                    reserve_all(s, number);
                }
            }
        }
    }
}

/// A table with nothing free: its vacant slots become reservations' slots, as far as rows go.
fn reserve_all(s: &mut State, number: usize) {
    while !s.tables[number].free.is_empty() && (s.rows.len() as u64) < s.row_capacity && s.next < u64::MAX - 64 && s.tables[number].life == Life::Active {
        let take = s.tables[number].free.len().min(64);
        let slots: Vec<u64> = s.tables[number].free.drain(..take).collect();
        let table = &mut s.tables[number];
        table.free_count -= take as u64;
        for slot in &slots {
            let page = &mut table.pages[(slot / 64) as usize];
            let place = &mut page.slots[(slot % 64) as usize];
            *place = Slot::Reserved(place.generation());
            page.busy += 1;
            table.empty.retain(|page| *page != slot / 64);
        }
        s.rows.push(Row { id: s.next, kind: RowKind::Reservation { table: number as u64, slots } });
        s.next += 1;
    }
}

/// Table 0 gets pages up to 262,144, all new ones detached, the last of them first in the order.
fn widen(rng: &mut Rng, s: &mut State) {
    let table = &mut s.tables[0];
    table.limit = MAX_PAGES;
    let from = table.pages.len() as u64;
    let high = 1 + rng.below(3);
    for _ in from..MAX_PAGES {
        table.pages.push(Page { frame: None, high, busy: 0, slots: vec![] });
    }
    let mut more: Vec<u64> = (from..MAX_PAGES).rev().collect();
    if rng.chance(300) {
        more.swap(0, 1);
    }
    more.append(&mut table.detached);
    table.detached = more;
    s.frames += 3;
    s.free_frames.extend(s.frames - 3..s.frames);
}

/// A plan of 64 slots of table 0 in the lowest free frames, if there is room for it: of two pages, where no slot is free and the last page comes first.
fn plan_64(s: &mut State) {
    let table = &s.tables[0];
    let Ok(kept) = table.snapshot(64, Slip::None) else { return };
    if table.life == Life::Active && (s.rows.len() as u64) < s.row_capacity && s.next < u64::MAX && kept.pages.len() <= s.free_frames.len() {
        let frames = s.free_frames.drain(..kept.pages.len()).collect();
        s.rows.push(Row { id: s.next, kind: RowKind::Plan { table: 0, count: 64, kept, frames } });
        s.next += 1;
    }
}

pub struct Sequence {
    pub start: Start,
    pub calls: Vec<Call>,
    /// The reading's trace.
    pub trace: Trace,
    pub plans: plans::Seen,
    pub looks: looks::Seen,
    pub fills: fills::Seen,
    pub judged: judged::Seen,
}

/// A state some requests old, changed as its kind says.
fn old_state(rng: &mut Rng, kind: Kind, params: &[u64], ops: Ops) -> State {
    let steps = 20 + rng.below(120) as usize;
    let mut state = grown(rng, params, steps, ops);
    if ops == Ops::All && [Kind::Edges, Kind::Scrambled].contains(&kind) && rng.chance(50) {
        loosen(rng, &mut state);
    }
    match kind {
        Kind::Plain => {}
        Kind::Edges => {
            if rng.chance(300) {
                crowd(rng, &mut state);
            }
            to_the_edge(rng, &mut state);
        }
        Kind::Scrambled => {
            if rng.chance(400) {
                crowd(rng, &mut state);
            }
            scramble(rng, &mut state);
            if rng.chance(400) {
                to_the_edge(rng, &mut state);
            }
        }
        Kind::LastPage => {
            widen(rng, &mut state);
            if ops != Ops::WithoutPlans && rng.chance(600) {
                reserve_all(&mut state, 0);
                if rng.chance(400) {
                    plan_64(&mut state);
                }
            }
        }
    }
    // What was changed makes most plans stale: others for some of them.
    if kind != Kind::Plain {
        for at in 0..state.rows.len() {
            if is_plan(&state.rows[at].kind) && rng.chance(500) {
                other_plan(rng, &mut state, at);
            }
        }
    }
    state
}

/// A state that any requests can have left.
pub fn any_state(rng: &mut Rng, kind: Kind) -> State {
    let params = parameters(rng);
    old_state(rng, kind, &params, Ops::All)
}

/// The words of a state, its rows in any places.
pub fn words_of(rng: &mut Rng, state: &State) -> Vec<u64> {
    let mut places: Vec<usize> = (0..state.row_capacity as usize).collect();
    rng.shuffle(&mut places);
    words::encode_with(state, |rank| places[rank])
}

pub fn sequence(seed: u64, kind: Kind, length: usize, ops: Ops) -> Sequence {
    sequence_with(seed, kind, length, ops, Texts::Each)
}

pub fn sequence_with(seed: u64, kind: Kind, length: usize, ops: Ops, texts: Texts) -> Sequence {
    let mut rng = Rng::new(seed ^ (kind as u64) << 56);
    let params = parameters(&mut rng);
    let start = match kind {
        Kind::Plain => Start::Create(params),
        _ => {
            let state = old_state(&mut rng, kind, &params, ops);
            let words = words_of(&mut rng, &state);
            if let Err(what) = words::decode(&words) {
                unreachable!("the generator made a state that is not well formed (seed {seed}, {kind:?}): {what}");
            }
            Start::Words(words)
        }
    };
    let mut reading = Reading::new(Slip::None);
    let mut trace = Trace { start: reading.start(&start), text: reading.text().unwrap_or_default(), ..Trace::default() };
    let mut calls = Vec::new();
    let (mut plans, mut looks, mut fills, mut judged) = (plans::Watch::default(), looks::Watch::default(), fills::Watch::default(), judged::Watch::default());
    for at in 0..length {
        let Some(state) = reading.state() else { break };
        // At times a value whose claim has ended is looked at.
        let ended = if ops >= Ops::WithLooks && rng.chance(12) { looks.ended(|count| rng.below(count)) } else { None };
        // And at times what was judged is prepared.
        let again = if ops >= Ops::WithJudging && rng.chance(350) { judged.last() } else { None };
        let call = match (ended, again) {
            (_, Some(transfer)) => Call::one(transfer.words()),
            (Some((table, value)), None) => Call::one(get_info(table, value).words()),
            (None, None) => next_call(&mut rng, state, ops),
        };
        let requests = read_list(&call.list).unwrap_or_default();
        if let [request] = requests.as_slice() {
            plans.before(state, request);
            looks.before(state, request);
            fills.before(state, request);
            judged.before(state, request);
        }
        let mut answers = vec![FILL; call.lent];
        let result = reading.call(&call.list, &mut answers);
        if let ([request], Some(state), 0) = (requests.as_slice(), reading.state(), result) {
            plans.after(state, request, &answers);
            looks.after(state, request, &answers);
            fills.after(request, &answers);
            judged.after(request, &answers);
        }
        let text = if texts == Texts::Each || at + 1 == length { reading.text().unwrap_or_default() } else { String::new() };
        trace.steps.push(Step { result, answers, text });
        calls.push(call);
    }
    Sequence { start, calls, trace, plans: plans.seen, looks: looks.seen, fills: fills.seen, judged: judged.seen }
}

/// The calls kept, with the ids and values that their answers give now in place of those that they gave in the whole list.
fn kept_calls(start: &Start, calls: &[Call], whole: &Trace, kept: &[usize]) -> Vec<Call> {
    let mut reading = Reading::new(Slip::None);
    reading.start(start);
    let mut now: std::collections::HashMap<(bool, u64), u64> = std::collections::HashMap::new();
    let mut out = Vec::new();
    for at in kept {
        let mut call = calls[*at].clone();
        if let Some(mut requests) = read_list(&call.list)
            && requests.len() == 1
        {
            let request = &mut requests[0];
            for record in std::iter::once(&mut request.record).chain(request.items.iter_mut()) {
                for (field, is_value) in [(VALUE, true), (ID, false), (DESTINATION, false)] {
                    if record.has(field)
                        && let Some(word) = now.get(&(is_value, record.get(field)))
                    {
                        record.fields[field] = *word;
                    }
                }
            }
            call.list = request.words();
            let mut answers = vec![0; call.lent];
            let result = reading.call(&call.list, &mut answers);
            if let Some(step) = whole.steps.get(*at)
                && result == 0
                && step.result == 0
                && answers[0] == 0
                && step.answers[0] == 0
            {
                let (old, new) = (&step.answers, &answers);
                match request.op() {
                    NEW_OBJECT | DUPLICATE | TRANSFER | CONSUME | MAKE_PLAN => {
                        now.insert((false, old[1]), new[1]);
                    }
                    RESERVE | USE_PLAN => {
                        now.insert((false, old[1]), new[1]);
                        for place in 3..3 + old[2].min(64) as usize {
                            now.insert((true, old[place]), new[place]);
                        }
                    }
                    REPLACE => {
                        now.insert((true, old[1]), new[1]);
                    }
                    _ => {}
                }
            }
        }
        out.push(call);
    }
    out
}

/// Shortens a list of calls on which two subjects differ: leaves out calls, following ids and values, and then items.
pub fn shrink(left: &mut dyn Runs, right: &mut dyn Runs, start: &Start, calls: &[Call]) -> Vec<Call> {
    let whole = Reading::new(Slip::None).run(start, calls);
    let mut differs = |calls: &[Call]| difference(&left.run(start, calls), &right.run(start, calls)).map(|(at, _)| at);
    let mut kept: Vec<usize> = (0..calls.len()).collect();
    let mut budget = 20_000;
    match differs(calls) {
        Some(at) => kept.truncate(at + 1),
        None => return calls.to_vec(),
    }
    let mut chunk = kept.len().div_ceil(2);
    while budget > 0 {
        let mut at = 0;
        let mut shorter = false;
        while at < kept.len() && budget > 0 {
            let mut candidate = kept.clone();
            candidate.drain(at..(at + chunk).min(kept.len()));
            budget -= 1;
            if let Some(end) = differs(&kept_calls(start, calls, &whole, &candidate)) {
                candidate.truncate(end + 1);
                kept = candidate;
                shorter = true;
            } else {
                at += chunk;
            }
        }
        if chunk == 1 && !shorter {
            // Two at once: a reservation and its trim, a parcel and its place in a publish.
            'pairs: for first in 0..kept.len() {
                for second in first + 1..kept.len() {
                    let mut candidate = kept.clone();
                    candidate.remove(second);
                    candidate.remove(first);
                    if budget == 0 {
                        break 'pairs;
                    }
                    budget -= 1;
                    if let Some(end) = differs(&kept_calls(start, calls, &whole, &candidate)) {
                        candidate.truncate(end + 1);
                        kept = candidate;
                        shorter = true;
                        break 'pairs;
                    }
                }
            }
            if !shorter {
                break;
            }
        }
        chunk = chunk.div_ceil(2);
    }
    let mut best = kept_calls(start, calls, &whole, &kept);
    // Fewer items.
    for at in 0..best.len() {
        let mut item = 0;
        loop {
            let Some(mut requests) = read_list(&best[at].list) else { break };
            let Some(request) = requests.first_mut() else { break };
            if item >= request.items.len() || budget == 0 {
                break;
            }
            request.items.remove(item);
            let count = request.items.len() as u64;
            *request = request.clone().with(COUNT, count);
            let mut candidate = best.clone();
            candidate[at].list = request.words();
            budget -= 1;
            if differs(&candidate).is_some() {
                best = candidate;
            } else {
                item += 1;
            }
        }
    }
    best
}

/// One call from the state just before the difference, if it still differs there: the state's words, the call.
pub fn last_call(left: &mut dyn Runs, right: &mut dyn Runs, start: &Start, calls: &[Call]) -> Option<(Start, Call)> {
    let (l, r) = (left.run(start, calls), right.run(start, calls));
    let (at, _) = difference(&l, &r)?;
    let before = if at == 0 { &l.text } else { &l.steps[at - 1].text };
    let from = Start::Words(words::encode(&parse(before).ok()?));
    let call = calls.get(at)?.clone();
    let one = std::slice::from_ref(&call);
    difference(&left.run(&from, one), &right.run(&from, one))?;
    Some((from, call))
}
