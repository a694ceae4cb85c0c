//! The driver: document 01's requests on the Rust. It stands where `capability/handle/wire.rs` stood, a child module of the handle
//! module, and so sees its private items.
//!
//! Each place that decides something itself carries the mark DRIVER; every other number and every change of a table is what the
//! Rust gave or did. `Refused` numbers come from `HandleError` through `number_of`, one to one.

use super::super::storage::peek::{EntryView, slots_in};
use super::super::*;
use alloc::vec::Vec;

use crate::object::{self, AnyObject};
use crate::requests::{self as rq, Request};
use crate::state::{self as st, ClaimEntry, Handle, Life, Page as StatePage, Row as StateRow, RowKind, Snapshot, State};

const PREFIX: u64 = 0x4800_0000_0000_0000;
const PREFIX_MASK: u64 = 0xFF00_0000_0000_0000;

struct TableBox {
    table: HandleTable,
    /// DRIVER: the page limit of this table; the Rust knows only 262,144.
    limit: u64,
    /// DRIVER: the frame of each page.
    frames: Vec<Option<u64>>,
    teardown: Option<TeardownCursor>,
}

/// What the Rust's own `get_info` said of each value that a claim moves, in the claim's order, before there was the claim.
type Before = Vec<(HandleValue, [u64; 4])>;

enum Token {
    Reservation(usize, HandleBatchReservation),
    Claim(usize, HandleTransferClaim, Before),
    Parcel(Vec<PreparedHandle>),
    Plan(Planned),
}

/// A plan of the Rust: what it keeps from the planning to the reservation.
struct Planned {
    table: usize,
    count: usize,
    kept: HandleTableStorageSnapshot,
    /// The Rust's plan, made with its snapshot; None in a state that was loaded: words do not say which directory chunk a plan holds, so that it is made when the plan is used.
    prepared: Option<HandleTableStoragePlan>,
    /// DRIVER: the frames that it holds, rising.
    frames: Vec<u64>,
}

/// The Rust's own `==`, less directory chunks.
fn same_but_for_chunks(now: HandleTableStorageSnapshot, mut kept: HandleTableStorageSnapshot) -> bool {
    kept.directory_chunk = now.directory_chunk;
    now == kept
}

struct Row {
    id: u64,
    token: Token,
}

/// The tables, and DRIVER: the book and the frames. Objects stand in `crate::object`.
pub(crate) struct Machine {
    tables: Vec<TableBox>,
    free_frames: Vec<bool>,
    row_capacity: usize,
    rows: Vec<Row>,
    /// The Rust's `NEXT_RESERVATION_ID` between calls. DRIVER: a parcel made from a new object or a duplicate moves it one on.
    next: u64,
    /// DRIVER: whether the Rust is asked what it says of a value before it is moved. Not where it is timed: a look at a moved value then gets the Rust's own Busy.
    pub(crate) remembers: bool,
}

type Step = Result<Vec<u64>, u64>;

/// StalePlan. The Rust has no such error.
const STALE: u64 = 21;
/// No numbers of any request: what is not expected, and shows as a difference. The snapshots of a plan made here differ in the directory chunk alone.
const CHUNK_ALONE: u64 = 1000;
/// The Rust gives Busy to a look at a value of which nothing is remembered.
const NOT_REMEMBERED: u64 = 1001;
/// After a rollback the Rust says another thing of a value than before the claim.
const NOT_AS_BEFORE: u64 = 1002;
/// The Rust gives another thing than Busy to a look at a value that an open claim moves.
const NOT_BUSY: u64 = 1003;
/// The Rust refuses a transfer and, of its first items alone, not with that number; or with a number that no transfer gives.
const NO_STOP: u64 = 1004;

fn number_of(error: HandleError) -> u64 {
    match error {
        HandleError::Allocation => 1,
        HandleError::InvalidHandle => 2,
        HandleError::Busy => 3,
        HandleError::WrongObjectType => 4,
        HandleError::AccessDenied => 5,
        HandleError::UnsupportedRights => 6,
        HandleError::UnsupportedFlags => 7,
        HandleError::UnsupportedTransfer => 8,
        HandleError::ObjectRetired => 9,
        HandleError::ObjectAlreadyActive => 10,
        HandleError::ActiveHandleLimit => 11,
        HandleError::ReservationIdExhausted => 12,
        HandleError::ReservationTooLarge => 13,
        HandleError::OutstandingReservation => 14,
        HandleError::TableFull => 15,
        HandleError::TableRetired => 16,
        HandleError::EmptyReservation => 17,
    }
}

fn rights(bits: u64) -> Rights {
    object::known_rights(bits)
}

fn info_words(info: HandleInfo) -> [u64; 4] {
    [info.koid.0, u64::from(info.kind.number()), info.rights.bits(), u64::from(info.flags.bits())]
}

fn plain(handle: &PreparedHandle) -> Handle {
    Handle {
        object: handle.object().number() as u64,
        rights: handle.rights.union().bits(),
        flags: u64::from(handle.flags.bits()),
    }
}

fn loaded(handle: Handle) -> PreparedHandle {
    PreparedHandle {
        object: Some(crate::object::ActiveHandleOwner::counted_already(handle.object as usize)),
        rights: rights(handle.rights).decompose(),
        flags: HandleFlags(handle.flags as u32),
    }
}

/// Ends a handle without releasing its count.
fn forget(mut handle: PreparedHandle) {
    core::mem::forget(handle.object.take());
}

fn closed_info(closed: &ClosedHandle) -> HandleInfo {
    match closed.handle.as_ref() {
        Some(handle) => HandleInfo {
            koid: handle.object().koid(),
            kind: handle.object().kind(),
            rights: handle.rights.union(),
            flags: handle.flags,
        },
        None => crate::violation::invariant_violation(),
    }
}

/// A slot that holds the handle of a loaded claim is asked about, as the slots of a claim that is made are, and marked.
fn mark_moved(table: &mut HandleTable, index: usize, generation: u64, transfer: ReservationId) -> (HandleValue, [u64; 4]) {
    let value = table.codec.encode(index, generation);
    let (Ok(info), Some(slot)) = (table.get_info(value), table.slots.get_mut(index)) else { crate::violation::invariant_violation() };
    match core::mem::replace(slot, Slot::TransferReserved { generation, transfer }) {
        Slot::Occupied { handle, .. } => forget(handle),
        _ => crate::violation::invariant_violation(),
    }
    (value, info_words(info))
}

impl Machine {
    /// Builds the Rust's structures for a well-formed state.
    pub(crate) fn load(state: &State) -> Self {
        object::set_objects(state.objects.clone());
        let id_of = |rank: usize| match NonZeroU64::new(state.rows[rank].id) {
            Some(id) => ReservationId(id),
            None => crate::violation::invariant_violation(),
        };
        let mut tables = Vec::new();
        for (number, table) in state.tables.iter().enumerate() {
            // Which row each marked slot stands in, and the handle of each that is moved.
            let mut marks = std::collections::HashMap::new();
            let mut moved = std::collections::HashMap::new();
            let mut claims = 0;
            for (rank, row) in state.rows.iter().enumerate() {
                match &row.kind {
                    RowKind::Reservation { table, slots } if *table == number as u64 => {
                        marks.extend(slots.iter().map(|slot| (*slot, rank)));
                    }
                    RowKind::Claim { table, entries } if *table == number as u64 => {
                        claims += 1;
                        for entry in entries {
                            if let ClaimEntry::Move { slot, handle, .. } = entry {
                                marks.insert(*slot, rank);
                                moved.insert(*slot, *handle);
                            }
                        }
                    }
                    _ => {}
                }
            }
            let mut next_free = std::collections::HashMap::new();
            let mut previous_free = std::collections::HashMap::new();
            for pair in table.free.windows(2) {
                next_free.insert(pair[0], pair[1] as usize);
                previous_free.insert(pair[1], pair[0] as usize);
            }
            let mut views = alloc::vec![EntryView::default(); table.pages.len()];
            for (page, view) in table.pages.iter().zip(views.iter_mut()) {
                view.attached = page.frame.is_some();
                view.high = page.high;
                view.busy = page.busy as usize;
            }
            for pair in table.empty.windows(2) {
                views[pair[0] as usize].empty_next = Some(pair[1] as usize);
                views[pair[1] as usize].empty_previous = Some(pair[0] as usize);
            }
            for pair in table.detached.windows(2) {
                views[pair[0] as usize].vacant_next = Some(pair[1] as usize);
            }
            let slots = SlotStore::build(
                table.pages.len(),
                table.detached.first().map(|page| *page as usize),
                table.empty.first().map(|page| *page as usize),
                table.epoch,
                |page| {
                    let built = table.pages[page]
                        .slots
                        .iter()
                        .enumerate()
                        .map(|(place, slot)| {
                            let index = (page * 64 + place) as u64;
                            match *slot {
                                st::Slot::Vacant(generation) => Slot::Vacant {
                                    generation,
                                    next_free: next_free.get(&index).copied(),
                                    previous_free: previous_free.get(&index).copied(),
                                },
                                st::Slot::Reserved(generation) => Slot::Reserved { generation, reservation: id_of(marks[&index]) },
                                // As it was before its claim: it is marked below, when the Rust has said what it is.
                                st::Slot::Moving(generation) => Slot::Occupied { generation, handle: loaded(moved[&index]) },
                                st::Slot::Occupied(generation, handle) => Slot::Occupied { generation, handle: loaded(handle) },
                            }
                        })
                        .collect();
                    (views[page], built)
                },
            );
            let (lifecycle, teardown) = match table.life {
                Life::Active => (TableLifecycle::Active, None),
                Life::TearingDown(cursor) => (
                    TableLifecycle::TearingDown { generation: 1 },
                    Some(TeardownCursor { generation: 1, next_slot: cursor as usize, finished: false }),
                ),
                Life::Retired => (TableLifecycle::Retired, None),
            };
            tables.push(TableBox {
                table: HandleTable {
                    // A literal, so that mask 0 stays 0: `HandleCodec::new` makes it 1.
                    codec: HandleCodec { mask: table.mask },
                    slots,
                    free_head: table.free.first().map(|slot| *slot as usize),
                    free_slots: table.free_count as usize,
                    active_transfers: claims,
                    lifecycle,
                    next_teardown_generation: 2,
                },
                limit: table.limit,
                frames: table.pages.iter().map(|page| page.frame).collect(),
                teardown,
            });
        }
        let mut rows = Vec::new();
        for (rank, row) in state.rows.iter().enumerate() {
            let generation_of = |table: u64, slot: u64| {
                state.tables[table as usize].slot(slot).map_or(0, st::Slot::generation)
            };
            let token = match &row.kind {
                RowKind::Reservation { table, slots } => Token::Reservation(
                    *table as usize,
                    HandleBatchReservation {
                        reservation: id_of(rank),
                        slots: slots
                            .iter()
                            .map(|slot| ReservedSlot { index: *slot as usize, generation: generation_of(*table, *slot) })
                            .collect(),
                        values: slots
                            .iter()
                            .map(|slot| tables[*table as usize].table.codec.encode(*slot as usize, generation_of(*table, *slot)))
                            .collect(),
                        completed: false,
                    },
                ),
                RowKind::Claim { table, entries } => Token::Claim(
                    *table as usize,
                    HandleTransferClaim {
                        codec: tables[*table as usize].table.codec,
                        transfer: id_of(rank),
                        entries: entries
                            .iter()
                            .map(|entry| match entry {
                                ClaimEntry::Move { slot, gets, .. } => TransferEntry {
                                    source: TransferSource::Move {
                                        index: *slot as usize,
                                        generation: generation_of(*table, *slot),
                                    },
                                    requested_rights: rights(*gets),
                                    prepared_copy: None,
                                },
                                ClaimEntry::Copy(handle) => TransferEntry {
                                    source: TransferSource::Copy,
                                    requested_rights: rights(handle.rights),
                                    prepared_copy: None,
                                },
                            })
                            .collect(),
                        handles: Some(entries.iter().map(|entry| loaded(entry.handle())).collect()),
                        completed: false,
                    },
                    entries
                        .iter()
                        .filter_map(|entry| match entry {
                            ClaimEntry::Move { slot, .. } => {
                                Some(mark_moved(&mut tables[*table as usize].table, *slot as usize, generation_of(*table, *slot), id_of(rank)))
                            }
                            ClaimEntry::Copy(_) => None,
                        })
                        .collect(),
                ),
                RowKind::Parcel(handles) => Token::Parcel(handles.iter().map(|handle| loaded(*handle)).collect()),
                RowKind::Plan { table, count, kept, frames } => Token::Plan(Planned {
                    table: *table as usize,
                    count: *count as usize,
                    kept: HandleTableStorageSnapshot::build(kept.epoch, kept.free_slots as usize, &kept.pages, None),
                    prepared: None,
                    frames: frames.clone(),
                }),
            };
            rows.push(Row { id: row.id, token });
        }
        let mut free_frames = alloc::vec![false; state.frames as usize];
        for frame in &state.free_frames {
            free_frames[*frame as usize] = true;
        }
        Self { tables, free_frames, row_capacity: state.row_capacity as usize, rows, next: state.next, remembers: true }
    }

    /// Ends everything without running any rule of the Rust.
    pub(crate) fn discard(mut self) {
        for row in self.rows.drain(..) {
            match row.token {
                Token::Reservation(_, mut token) => token.completed = true,
                Token::Claim(_, mut token, _) => {
                    token.completed = true;
                    for handle in token.handles.take().into_iter().flatten() {
                        forget(handle);
                    }
                }
                Token::Parcel(handles) => handles.into_iter().for_each(forget),
                Token::Plan(plan) => drop(plan),
            }
        }
        for mut held in self.tables.drain(..) {
            if let Some(cursor) = held.teardown.as_mut() {
                cursor.finished = true;
            }
            held.table.slots.wipe(|slot| {
                if let Slot::Occupied { handle, .. } = slot {
                    forget(handle);
                }
            });
            held.table.lifecycle = TableLifecycle::Active;
            held.table.active_transfers = 0;
        }
    }

    /// The state as plain data, read from the Rust's fields. An error is a broken link or count in the Rust's structures.
    pub(crate) fn state(&self) -> Result<State, String> {
        let mut rows = Vec::new();
        for row in &self.rows {
            let kind = match &row.token {
                Token::Reservation(table, token) => {
                    for (slot, value) in token.slots.iter().zip(&token.values) {
                        let held = &self.tables[*table].table;
                        let fits = matches!(held.slots.get(slot.index), Some(Slot::Reserved { generation, reservation })
                            if *generation == slot.generation && reservation.0.get() == row.id);
                        if !fits || token.reservation.0.get() != row.id || held.codec.encode(slot.index, slot.generation) != *value {
                            return Err(format!("row {}: slot {} is not so marked", row.id, slot.index));
                        }
                    }
                    RowKind::Reservation {
                        table: *table as u64,
                        slots: token.slots.iter().map(|slot| slot.index as u64).collect(),
                    }
                }
                Token::Claim(table, token, before) => {
                    let empty = Vec::new();
                    let handles = token.handles.as_ref().unwrap_or(&empty);
                    if handles.len() != token.entries.len() || token.transfer.0.get() != row.id {
                        return Err(format!("row {}: the claim's lengths or id differ", row.id));
                    }
                    if self.remembers && !token.values().eq(before.iter().map(|(value, _)| *value)) {
                        return Err(format!("row {}: other values are moved than are remembered", row.id));
                    }
                    let mut entries = Vec::new();
                    for (entry, handle) in token.entries.iter().zip(handles) {
                        entries.push(match entry.source {
                            TransferSource::Move { index, generation } => {
                                let fits = matches!(self.tables[*table].table.slots.get(index),
                                    Some(Slot::TransferReserved { generation: found, transfer })
                                    if *found == generation && transfer.0.get() == row.id);
                                if !fits {
                                    return Err(format!("row {}: slot {index} is not so marked", row.id));
                                }
                                ClaimEntry::Move {
                                    slot: index as u64,
                                    handle: plain(handle),
                                    gets: entry.requested_rights.bits(),
                                }
                            }
                            TransferSource::Copy => ClaimEntry::Copy(plain(handle)),
                        });
                    }
                    RowKind::Claim { table: *table as u64, entries }
                }
                Token::Parcel(handles) => RowKind::Parcel(handles.iter().map(plain).collect()),
                Token::Plan(plan) => {
                    if plan.prepared.as_ref().is_some_and(|prepared| prepared.snapshot() != plan.kept) {
                        return Err(format!("row {}: the plan's snapshot is not the one kept", row.id));
                    }
                    let (epoch, free_slots) = plan.kept.peek();
                    RowKind::Plan {
                        table: plan.table as u64,
                        count: plan.count as u64,
                        kept: Snapshot {
                            epoch,
                            free_slots: free_slots as u64,
                            pages: plan.kept.pages[..plan.kept.count].iter().map(|page| *page as u64).collect(),
                        },
                        frames: plan.frames.clone(),
                    }
                }
            };
            rows.push(StateRow { id: row.id, kind });
        }
        let mut tables = Vec::new();
        for (number, held) in self.tables.iter().enumerate() {
            tables.push(self.table_state(number, held).map_err(|what| format!("table {number}: {what}"))?);
        }
        Ok(State {
            next: self.next,
            row_capacity: self.row_capacity as u64,
            frames: self.free_frames.len() as u64,
            free_frames: (0..self.free_frames.len()).filter(|frame| self.free_frames[*frame]).map(|frame| frame as u64).collect(),
            objects: object::objects(),
            tables,
            rows,
        })
    }

    fn table_state(&self, number: usize, held: &TableBox) -> Result<st::Table, String> {
        let table = &held.table;
        let (page_count, vacant, empty, epoch) = table.slots.peek_head();
        let mut pages = Vec::with_capacity(page_count);
        let (mut busy_pages, mut marked) = (0, 0);
        for page in 0..page_count {
            let view = table.slots.peek_entry(page);
            let frame = held.frames.get(page).copied().flatten();
            if frame.is_some() != view.attached {
                return Err(format!("page {page}: frame and backing differ"));
            }
            let mut slots = Vec::new();
            if let Some(backing) = table.slots.peek_slots(page) {
                if backing.len() != slots_in(page) {
                    return Err(format!("page {page} has {} slots", backing.len()));
                }
                for slot in backing {
                    slots.push(match slot {
                        Slot::Vacant { generation, .. } => st::Slot::Vacant(*generation),
                        Slot::Reserved { generation, .. } => {
                            marked += 1;
                            st::Slot::Reserved(*generation)
                        }
                        Slot::TransferReserved { generation, .. } => {
                            marked += 1;
                            st::Slot::Moving(*generation)
                        }
                        Slot::Occupied { generation, handle } => st::Slot::Occupied(*generation, plain(handle)),
                        Slot::Empty => return Err(format!("page {page}: a slot was left Empty")),
                    });
                }
                if view.busy != 0 {
                    busy_pages += 1;
                }
            }
            if view.busy != 0 && (view.empty_next.is_some() || view.empty_previous.is_some()) {
                return Err(format!("page {page}: busy and linked"));
            }
            pages.push(StatePage { frame, high: view.high, busy: view.busy as u64, slots });
        }
        let mut free = Vec::new();
        let (mut at, mut previous) = (table.free_head, None);
        while let Some(index) = at {
            match table.slots.get(index) {
                Some(Slot::Vacant { next_free, previous_free, .. }) if *previous_free == previous && free.len() <= table.free_slots => {
                    free.push(index as u64);
                    previous = at;
                    at = *next_free;
                }
                _ => return Err(format!("the free order is broken at slot {index}")),
            }
        }
        let mut empties = Vec::new();
        let (mut at, mut previous) = (empty, None);
        while let Some(page) = at {
            let view = table.slots.peek_entry(page);
            if view.empty_previous != previous || view.busy != 0 || !view.attached || empties.len() > page_count {
                return Err(format!("the order of empty pages is broken at page {page}"));
            }
            empties.push(page as u64);
            previous = at;
            at = view.empty_next;
        }
        let mut detached = Vec::new();
        let mut at = vacant;
        while let Some(page) = at {
            let view = table.slots.peek_entry(page);
            if view.attached || detached.len() > page_count {
                return Err(format!("the order of detached pages is broken at page {page}"));
            }
            detached.push(page as u64);
            at = view.vacant_next;
        }
        if busy_pages + empties.len() + detached.len() != page_count {
            return Err("a page stands in no order".to_string());
        }
        let mut claims = 0;
        let mut listed = 0;
        for row in &self.rows {
            match &row.token {
                Token::Claim(of, token, _) if *of == number => {
                    claims += 1;
                    listed += token.values().count();
                }
                Token::Reservation(of, token) if *of == number => listed += token.slots.len(),
                _ => {}
            }
        }
        if claims != table.active_transfers {
            return Err(format!("active_transfers is {} with {claims} claims", table.active_transfers));
        }
        if listed != marked {
            return Err(format!("{marked} marked slots with {listed} in rows"));
        }
        let life = match (&table.lifecycle, &held.teardown) {
            (TableLifecycle::Active, None) => Life::Active,
            (TableLifecycle::TearingDown { .. }, Some(cursor)) => Life::TearingDown(cursor.next_slot as u64),
            (TableLifecycle::Retired, None) => Life::Retired,
            _ => return Err("the lifecycle and the teardown token differ".to_string()),
        };
        Ok(st::Table {
            limit: held.limit,
            mask: table.codec.mask,
            life,
            epoch,
            pages,
            free_count: table.free_slots as u64,
            free,
            empty: empties,
            detached,
        })
    }

    /// One request. The answer's words after the number, or the refusal's number.
    pub(crate) fn step(&mut self, request: &Request) -> Step {
        // The counter is the Rust's static; only this thread uses it while a machine runs.
        NEXT_RESERVATION_ID.store(self.next, Ordering::Relaxed);
        let answer = self.run(request);
        self.next = NEXT_RESERVATION_ID.load(Ordering::Relaxed);
        answer
    }

    // ---- DRIVER: tables, objects and rows by number; 18 where there is none.

    fn table(&mut self, request: &Request) -> Result<usize, u64> {
        let number = request.get(rq::TABLE);
        if number < self.tables.len() as u64 { Ok(number as usize) } else { Err(18) }
    }

    fn row_at(&self, id: u64, kind: impl Fn(&Token) -> bool) -> Result<usize, u64> {
        self.rows.iter().position(|row| row.id == id && kind(&row.token)).ok_or(18)
    }
    fn reservation_at(&self, id: u64) -> Result<usize, u64> {
        self.row_at(id, |token| matches!(token, Token::Reservation(..)))
    }
    fn claim_at(&self, id: u64) -> Result<usize, u64> {
        self.row_at(id, |token| matches!(token, Token::Claim(..)))
    }
    fn parcel_at(&self, id: u64) -> Result<usize, u64> {
        self.row_at(id, |token| matches!(token, Token::Parcel(..)))
    }
    fn plan_at(&self, id: u64) -> Result<usize, u64> {
        self.row_at(id, |token| matches!(token, Token::Plan(..)))
    }
    fn take_reservation(&mut self, at: usize) -> (usize, HandleBatchReservation) {
        match self.rows.remove(at).token {
            Token::Reservation(table, token) => (table, token),
            _ => crate::violation::invariant_violation(),
        }
    }
    fn take_claim(&mut self, at: usize) -> (usize, HandleTransferClaim, Before) {
        match self.rows.remove(at).token {
            Token::Claim(table, token, before) => (table, token, before),
            _ => crate::violation::invariant_violation(),
        }
    }

    /// What the Rust says of values that are about to be moved. A value that it refuses is left out: so is its preparation refused.
    fn ask_before(&self, table: usize, values: impl Iterator<Item = HandleValue>) -> Before {
        if !self.remembers {
            return Vec::new();
        }
        values.filter_map(|value| self.tables[table].table.get_info(value).ok().map(|info| (value, info_words(info)))).collect()
    }

    /// What the Rust said of a value, if an open claim of the table moves it.
    fn before(&self, table: usize, value: HandleValue) -> Option<[u64; 4]> {
        let mut known = self.rows.iter().filter_map(|row| match &row.token {
            Token::Claim(of, _, before) if *of == table => before.iter().find(|(moved, _)| *moved == value),
            _ => None,
        });
        known.next().map(|(_, info)| *info)
    }

    /// The Rust's rollback. What it says of the values then is what it said before the claim.
    fn roll_back(&mut self, table: usize, claim: HandleTransferClaim, before: &Before) -> Result<(), u64> {
        let table = &mut self.tables[table].table;
        drop(claim.rollback_with_storage(table));
        let same = |(value, info): &(HandleValue, [u64; 4])| table.get_info(*value).is_ok_and(|now| info_words(now) == *info);
        if before.iter().all(same) { Ok(()) } else { Err(NOT_AS_BEFORE) }
    }

    /// DRIVER: 1 for want of a row.
    fn free_row(&self) -> Result<(), u64> {
        if self.rows.len() < self.row_capacity { Ok(()) } else { Err(1) }
    }

    /// DRIVER: the id of a parcel or of a plan; none at the end. The Rust spends none here.
    fn spend(&mut self) -> Option<u64> {
        let id = NEXT_RESERVATION_ID.load(Ordering::Relaxed);
        if id == u64::MAX {
            return None;
        }
        NEXT_RESERVATION_ID.store(id + 1, Ordering::Relaxed);
        Some(id)
    }

    /// DRIVER: a parcel's row, 12 at the end.
    fn parcel(&mut self, handle: PreparedHandle) -> Result<u64, PreparedHandle> {
        let Some(id) = self.spend() else { return Err(handle) };
        self.rows.push(Row { id, token: Token::Parcel(alloc::vec![handle]) });
        Ok(id)
    }

    /// The Rust's snapshot for a reservation. DRIVER: 15 for a page limit below the Rust's.
    fn snapshot(&self, table: usize, count: usize) -> Result<HandleTableStorageSnapshot, u64> {
        let held = &self.tables[table];
        let snapshot = held.table.reservation_storage_snapshot_for(count).map_err(number_of)?;
        if snapshot.pages[..snapshot.count].iter().any(|page| *page as u64 >= held.limit) {
            return Err(15);
        }
        Ok(snapshot)
    }

    /// The Rust's snapshot for a reservation or a plan. DRIVER: 1 for want of frames or of a row.
    fn room(&self, table: usize, count: usize) -> Result<HandleTableStorageSnapshot, u64> {
        let snapshot = self.snapshot(table, count)?;
        if self.free_frames.iter().filter(|free| **free).count() < snapshot.count {
            return Err(1);
        }
        self.free_row()?;
        Ok(snapshot)
    }

    /// DRIVER: the lowest free frames, so many.
    fn take_frames(&mut self, count: usize) -> Vec<u64> {
        let frames: Vec<usize> = (0..self.free_frames.len()).filter(|frame| self.free_frames[*frame]).take(count).collect();
        for frame in &frames {
            self.free_frames[*frame] = false;
        }
        frames.into_iter().map(|frame| frame as u64).collect()
    }

    /// The row of a reservation that the Rust has made. DRIVER: its new pages have these frames.
    fn reserved(&mut self, table: usize, snapshot: HandleTableStorageSnapshot, frames: &[u64], token: HandleBatchReservation) -> Vec<u64> {
        let held = &mut self.tables[table];
        for (page, frame) in snapshot.pages[..snapshot.count].iter().zip(frames) {
            if held.frames.len() <= *page {
                held.frames.resize(*page + 1, None);
            }
            held.frames[*page] = Some(*frame);
        }
        let id = token.reservation.0.get();
        let mut words = alloc::vec![id, token.values().len() as u64];
        words.extend(token.values().iter().map(|value| value.0.get()));
        self.rows.push(Row { id, token: Token::Reservation(table, token) });
        words
    }

    /// DRIVER: a value with another prefix becomes one that the Rust's own decode refuses, so that the Rust decides when.
    fn value(&self, table: usize, raw: u64) -> HandleValue {
        let word = if raw & PREFIX_MASK == PREFIX { raw } else { PREFIX | self.tables[table].table.codec.mask };
        match NonZeroU64::new(word) {
            Some(word) => HandleValue(word),
            None => crate::violation::invariant_violation(),
        }
    }

    /// The Rust's preparation of a transfer: the claim, with what it said before of the values that are moved.
    fn prepare(&mut self, table: usize, request: &Request) -> Result<(HandleTransferClaim, Before), u64> {
        let refuse = number_of;
        self.tables[table].table.ensure_active().map_err(refuse)?;
        HandleTransferStorage::validate_count(request.items.len()).map_err(refuse)?;
        self.free_row()?;
        let items: Vec<HandleTransferRequest> = request
            .items
            .iter()
            .map(|item| HandleTransferRequest {
                value: self.value(table, item.get(rq::VALUE)),
                offered_rights: item.option(rq::OFFERED_RIGHTS).map(rights),
                rights: rights(item.get(rq::RIGHTS)),
                offered_kind: item.option(rq::OFFERED_KIND).map(|kind| ObjectKind::Number(kind as u32)),
                expected_kind: item.option(rq::EXPECTED_KIND).map(|kind| ObjectKind::Number(kind as u32)),
                operation: if item.get(rq::OP) == 0 { HandleTransferOperation::Move } else { HandleTransferOperation::Copy },
            })
            .collect();
        let mut storage = Some(HandleTransferStorage::try_new(items.len()).map_err(refuse)?);
        let moves = items.iter().filter(|item| item.operation == HandleTransferOperation::Move);
        let before = self.ask_before(table, moves.map(|item| item.value));
        let claim = self.tables[table].table.prepare_transfer_with_storage(
            &items,
            request.record.option(rq::FORBIDDEN_OBJECT).map(Koid),
            request.record.option(rq::FORBIDDEN_KIND).map(|kind| ObjectKind::Number(kind as u32)),
            match request.get(rq::ROUTE) {
                0 => HandleTransferRoute::Buffered,
                1 => HandleTransferRoute::Rendezvous,
                _ => HandleTransferRoute::StagedStartup,
            },
            &mut storage,
        );
        // DRIVER: storage handed back is dropped at once, and with it the copies that it owns (a listed difference).
        drop(storage);
        Ok((claim.map_err(refuse)?, before))
    }

    /// A transfer is prepared on the Rust and, where that is accepted, rolled back: 0, or the Rust's refusal. DRIVER: the id that this spends is given back.
    fn tried(&mut self, table: usize, request: &Request) -> Result<u64, u64> {
        let next = NEXT_RESERVATION_ID.load(Ordering::Relaxed);
        let number = match self.prepare(table, request) {
            Ok((claim, before)) => self.roll_back(table, claim, &before).map(|()| 0),
            Err(number) => Ok(number),
        };
        NEXT_RESERVATION_ID.store(next, Ordering::Relaxed);
        number
    }

    /// Where the Rust's preparation stops and by which rule, when it gives this number: found by what the Rust says of other transfers, of the first items alone and of one item alone.
    fn stop(&mut self, table: usize, request: &Request, number: u64) -> Result<(u64, u64), u64> {
        if let Some(place) = [16, 17, 13, 1, 12].iter().position(|whole| *whole == number) {
            return Ok((rq::NO_ITEM, place as u64 + 1));
        }
        // The copies come after all items: their refusals do not count before another item's.
        let of_copies = |number| number == 9 || number == 11;
        let counts = |found: u64| found != 0 && (of_copies(number) || !of_copies(found));
        // So many first items are let pass, and so many are not.
        let (mut pass, mut stop) = (0, request.items.len());
        while pass + 1 < stop {
            let half = (pass + stop) / 2;
            if counts(self.tried(table, &Request { items: request.items[..half].to_vec(), ..request.clone() })?) { stop = half } else { pass = half }
        }
        let position = stop - 1;
        if self.tried(table, &Request { items: request.items[..stop].to_vec(), ..request.clone() })? != number {
            return Err(NO_STOP);
        }
        let item = &request.items[position];
        let head = |fields: &[usize]| rq::Record { map: request.record.map & !fields.iter().fold(0, |map, field| map | 1 << field), ..request.record.clone() };
        let free = head(&[rq::FORBIDDEN_OBJECT, rq::FORBIDDEN_KIND]);
        // The same value, moved or copied with no right asked for and nothing said of its kind.
        let bare = |operation| rq::item(operation, item.get(rq::VALUE), 0);
        let mut alone = |record: rq::Record, item: rq::Record| self.tried(table, &Request { record, items: alloc::vec![item] });
        let place = match number {
            2 if alone(request.record.clone(), item.clone())? != 2 => 6,
            2 | 3 => 7,
            5 if alone(free.clone(), bare(0))? == 5 => 8,
            5 if alone(free.clone(), bare(item.get(rq::OP)))? == 5 => 9,
            5 if item.has(rq::OFFERED_RIGHTS) && alone(free.clone(), bare(0).with(rq::OFFERED_RIGHTS, item.get(rq::OFFERED_RIGHTS)))? == 5 => 10,
            5 if alone(free.clone(), item.clone())? == 5 => 11,
            5 => 13,
            8 => {
                // The kind is looked at before the object, and the object before the route.
                let value = self.value(table, item.get(rq::VALUE));
                let koid = self.tables[table].table.get_info(value).map_err(number_of)?.koid.0;
                let forbids = request.record.clone().with(rq::FORBIDDEN_OBJECT, koid);
                if self.tried(table, &Request { record: forbids, items: alloc::vec![item.clone()] })? == 8 { 12 } else { 14 }
            }
            4 => 15,
            9 => 16,
            11 => 17,
            _ => return Err(NO_STOP),
        };
        Ok((position as u64, place))
    }

    fn run(&mut self, request: &Request) -> Step {
        let refuse = number_of;
        match request.op() {
            rq::NEW_OBJECT => {
                let number = request.get(rq::OBJECT);
                if number >= object::object_count() as u64 {
                    return Err(18);
                }
                let number = number as usize;
                self.free_row()?;
                let before = object::with_object(number, |object| object.clone());
                let flags = request.get(rq::FLAGS) as u32;
                // DRIVER: flags 1 to 3 are known to document 01 and not to the Rust: made with 0, then set.
                let known = flags & !3 == 0;
                let made = PreparedHandle::try_from_new_object::<AnyObject>(
                    object::ObjectPublication::of(number),
                    rights(request.get(rq::RIGHTS)),
                    HandleFlags(if known { 0 } else { flags }),
                );
                let mut handle = made.map_err(refuse)?;
                if known {
                    handle.flags = HandleFlags(flags);
                }
                match self.parcel(handle) {
                    Ok(id) => Ok(alloc::vec![id]),
                    Err(handle) => {
                        // DRIVER: refused with 12, the object stays new.
                        forget(handle);
                        object::with_object(number, |object| *object = before);
                        Err(12)
                    }
                }
            }
            rq::DUPLICATE => {
                let table = self.table(request)?;
                self.tables[table].table.ensure_active().map_err(refuse)?;
                self.free_row()?;
                let value = self.value(table, request.get(rq::VALUE));
                let handle = self.tables[table].table.duplicate(value, rights(request.get(rq::RIGHTS))).map_err(refuse)?;
                match self.parcel(handle) {
                    Ok(id) => Ok(alloc::vec![id]),
                    Err(handle) => {
                        drop(handle);
                        Err(12)
                    }
                }
            }
            rq::RELEASE => {
                let at = self.parcel_at(request.get(rq::ID))?;
                if let Token::Parcel(handles) = self.rows.remove(at).token {
                    drop(handles);
                }
                Ok(Vec::new())
            }
            rq::RETIRE => {
                let number = request.get(rq::OBJECT);
                if number >= object::object_count() as u64 {
                    return Err(18);
                }
                object::with_object(number as usize, |object| object.state = st::RETIRED);
                Ok(Vec::new())
            }
            rq::RESERVE => {
                let table = self.table(request)?;
                let count = request.get(rq::COUNT) as usize;
                let snapshot = self.room(table, count)?;
                let mut storage = Some(HandleBatchReservationStorage::try_new(count).map_err(refuse)?);
                let mut plan = Some(HandleTableStoragePlan::try_new(snapshot).map_err(refuse)?);
                let token = self.tables[table].table.reserve_batch_with_plan(count, &mut storage, &mut plan).map_err(refuse)?;
                let frames = self.take_frames(snapshot.count);
                Ok(self.reserved(table, snapshot, &frames, token))
            }
            rq::MAKE_PLAN => {
                let table = self.table(request)?;
                let count = request.get(rq::COUNT) as usize;
                let kept = self.room(table, count)?;
                let prepared = HandleTableStoragePlan::try_new(kept).map_err(refuse)?;
                // DRIVER: the book spends an id, the Rust none: 12 here.
                let id = self.spend().ok_or(12u64)?;
                let frames = self.take_frames(kept.count);
                let words = alloc::vec![id, count as u64, frames.len() as u64];
                self.rows.push(Row { id, token: Token::Plan(Planned { table, count, kept, prepared: Some(prepared), frames }) });
                Ok(words)
            }
            rq::USE_PLAN => {
                let at = self.plan_at(request.get(rq::ID))?;
                let Token::Plan(plan) = &self.rows[at].token else { return Err(18) };
                let (table, count, kept) = (plan.table, plan.count, plan.kept);
                // The Rust takes its snapshot anew: 16. DRIVER: 21 where it gives 15, or the page limit does.
                let now = self.snapshot(table, count).map_err(|number| if number == 15 { STALE } else { number })?;
                let Token::Plan(plan) = &mut self.rows[at].token else { return Err(18) };
                match &plan.prepared {
                    // DRIVER: 21 where the Rust, which compares the two in the same way, reaches `invariant_violation`.
                    Some(prepared) if now != prepared.snapshot() => {
                        return Err(if same_but_for_chunks(now, kept) { CHUNK_ALONE } else { STALE });
                    }
                    Some(_) => {}
                    None if same_but_for_chunks(now, kept) => {
                        plan.kept = now;
                        plan.prepared = Some(HandleTableStoragePlan::try_new(now).map_err(refuse)?);
                    }
                    None => return Err(STALE),
                }
                let mut storage = Some(HandleBatchReservationStorage::try_new(count).map_err(refuse)?);
                let token = self.tables[table].table.reserve_batch_with_plan(count, &mut storage, &mut plan.prepared).map_err(refuse)?;
                // DRIVER: the plan's row goes; its frames are used lowest first.
                let Token::Plan(plan) = self.rows.remove(at).token else { return Err(18) };
                Ok(self.reserved(table, now, &plan.frames, token))
            }
            rq::DROP_PLAN => {
                let at = self.plan_at(request.get(rq::ID))?;
                let Token::Plan(plan) = self.rows.remove(at).token else { return Err(18) };
                // DRIVER: its frames are free again. The Rust drops the pages that it had prepared.
                for frame in &plan.frames {
                    self.free_frames[*frame as usize] = true;
                }
                Ok(Vec::new())
            }
            rq::TRIM => {
                let at = self.reservation_at(request.get(rq::ID))?;
                let count = request.get(rq::COUNT);
                let Token::Reservation(table, token) = &mut self.rows[at].token else { return Err(18) };
                // DRIVER: trim to 0 or above the batch.
                if count == 0 || count > token.slots.len() as u64 {
                    return Err(18);
                }
                token.trim_to(&mut self.tables[*table].table, count as usize);
                Ok(Vec::new())
            }
            rq::ABORT => {
                let at = self.reservation_at(request.get(rq::ID))?;
                let (table, token) = self.take_reservation(at);
                drop(token.abort(&mut self.tables[table].table));
                Ok(Vec::new())
            }
            rq::PUBLISH => {
                let at = self.reservation_at(request.get(rq::ID))?;
                // DRIVER: every parcel known and named once, and the lengths equal.
                let mut total = 0;
                for (place, item) in request.items.iter().enumerate() {
                    let parcel = self.parcel_at(item.get(rq::ID))?;
                    if request.items[..place].iter().any(|other| other.get(rq::ID) == item.get(rq::ID)) {
                        return Err(18);
                    }
                    if let Token::Parcel(handles) = &self.rows[parcel].token {
                        total += handles.len();
                    }
                }
                let Token::Reservation(_, token) = &self.rows[at].token else { return Err(18) };
                if total != token.slots.len() {
                    return Err(18);
                }
                let (table, token) = self.take_reservation(at);
                // DRIVER: the Rust publishes one batch: the parcels' handles, one parcel after the other as they are named.
                let mut handles = Vec::new();
                for item in &request.items {
                    let parcel = self.parcel_at(item.get(rq::ID))?;
                    if let Token::Parcel(more) = self.rows.remove(parcel).token {
                        handles.extend(more);
                    }
                }
                drop(token.publish(&mut self.tables[table].table, handles));
                Ok(Vec::new())
            }
            rq::GET_INFO => {
                let table = self.table(request)?;
                let value = self.value(table, request.get(rq::VALUE));
                let given = self.tables[table].table.get_info(value);
                // DRIVER: document 02 has the handle of a moved value shown as it was. That it is moved is the Rust's Busy, and how it was the Rust's own answer from before.
                match (given, self.before(table, value)) {
                    (Err(HandleError::Busy), Some(info)) => Ok(info.to_vec()),
                    (Err(HandleError::Busy), None) if self.remembers => Err(NOT_REMEMBERED),
                    (_, Some(_)) => Err(NOT_BUSY),
                    (given, None) => Ok(info_words(given.map_err(refuse)?).to_vec()),
                }
            }
            rq::RESOLVE => {
                let table = self.table(request)?;
                let value = self.value(table, request.get(rq::VALUE));
                object::want_kind(request.get(rq::KIND) as u32);
                let found = self.tables[table]
                    .table
                    .resolve::<AnyObject>(value, rights(request.get(rq::RIGHTS)))
                    .map_err(refuse)?;
                Ok(alloc::vec![found.object.number() as u64, found.koid().0, found.rights().bits()])
            }
            rq::REPLACE => {
                let table = self.table(request)?;
                let value = self.value(table, request.get(rq::VALUE));
                let new = self.tables[table].table.replace(value, rights(request.get(rq::RIGHTS))).map_err(refuse)?;
                Ok(alloc::vec![new.0.get()])
            }
            rq::CLOSE => {
                let table = self.table(request)?;
                let value = self.value(table, request.get(rq::VALUE));
                let closed = self.tables[table].table.remove(value).map_err(refuse)?;
                let info = closed_info(&closed);
                closed.complete();
                Ok(info_words(info).to_vec())
            }
            rq::SCAN => {
                let table = self.table(request)?;
                let cursor = request.get(rq::CURSOR) as usize;
                let table = &self.tables[table].table;
                let page = table.scan_handles(HandleScanCursor::from_token(cursor)).map_err(refuse)?;
                // DRIVER: `examined`, from the cursor that the Rust gives or, at the end, from the length.
                let length = table.slots.len();
                let stop = page.next().map_or(length, HandleScanCursor::token);
                let mut words = alloc::vec![
                    page.len as u64,
                    u64::from(page.next().is_some()),
                    page.next().map_or(0, |next| next.token() as u64),
                    (stop - cursor.min(length)) as u64,
                ];
                for entry in page.entries() {
                    words.push(entry.value.0.get());
                    words.extend(info_words(entry.info));
                }
                Ok(words)
            }
            rq::TRANSFER => {
                let table = self.table(request)?;
                let (claim, before) = self.prepare(table, request)?;
                let id = claim.transfer.0.get();
                self.rows.push(Row { id, token: Token::Claim(table, claim, before) });
                Ok(alloc::vec![id])
            }
            rq::JUDGE => {
                let table = self.table(request)?;
                let number = self.tried(table, request)?;
                match (number, self.remembers) {
                    (0, _) => Ok(alloc::vec![0, 0, 0]),
                    // Where it is timed, the Rust is asked once.
                    (_, false) => Ok(alloc::vec![number]),
                    _ => {
                        let (position, place) = self.stop(table, request, number)?;
                        Ok(alloc::vec![number, position, place])
                    }
                }
            }
            rq::CONSUME => {
                let table = self.table(request)?;
                self.tables[table].table.ensure_active().map_err(refuse)?;
                self.free_row()?;
                let value = self.value(table, request.get(rq::VALUE));
                let mut storage = Some(HandleTransferStorage::try_new(1).map_err(refuse)?);
                let before = self.ask_before(table, core::iter::once(value));
                let claim = self.tables[table]
                    .table
                    .prepare_consumption_with_storage(
                        value,
                        rights(request.get(rq::RIGHTS)),
                        ObjectKind::Number(request.get(rq::KIND) as u32),
                        Koid(request.get(rq::KOID)),
                        &mut storage,
                    )
                    .map_err(refuse)?;
                let id = claim.transfer.0.get();
                self.rows.push(Row { id, token: Token::Claim(table, claim, before) });
                Ok(alloc::vec![id])
            }
            rq::ROLLBACK => {
                let at = self.claim_at(request.get(rq::ID))?;
                let (table, claim, before) = self.take_claim(at);
                self.roll_back(table, claim, &before)?;
                Ok(Vec::new())
            }
            rq::COMMIT => {
                let at = self.claim_at(request.get(rq::ID))?;
                let id = self.rows[at].id;
                let (table, claim, _) = self.take_claim(at);
                let (batch, retired) = claim.commit_with_storage(&mut self.tables[table].table);
                drop(retired);
                // DRIVER: the claim's row becomes a parcel of the same id.
                self.rows.insert(at, Row { id, token: Token::Parcel(batch.into_prepared_handles()) });
                Ok(Vec::new())
            }
            op @ (rq::DIRECT_COMMIT | rq::DIRECT_ROLLBACK) => {
                let claim_at = self.claim_at(request.get(rq::ID))?;
                let reservation_at = self.reservation_at(request.get(rq::DESTINATION))?;
                // DRIVER: lengths differ.
                match (&self.rows[claim_at].token, &self.rows[reservation_at].token) {
                    (Token::Claim(_, claim, _), Token::Reservation(_, token)) if claim.len() == token.values().len() => {}
                    _ => return Err(18),
                }
                let (source, claim, before) = self.take_claim(claim_at);
                let reservation_at = self.reservation_at(request.get(rq::DESTINATION))?;
                let (destination, token) = self.take_reservation(reservation_at);
                if op == rq::DIRECT_ROLLBACK {
                    // DRIVER: the Rust's own direct rollback is for tests and for two tables; its two halves are these.
                    let rolled = self.roll_back(source, claim, &before);
                    drop(token.abort(&mut self.tables[destination].table));
                    return rolled.map(|()| Vec::new());
                }
                let direct = DirectHandleTransfer::new(source as u64 + 1, destination as u64 + 1, claim, token);
                if source == destination {
                    drop(direct.commit_within(&mut self.tables[source].table));
                } else {
                    let low = source.min(destination);
                    let (left, right) = self.tables.split_at_mut(low + 1);
                    let other = &mut right[source.max(destination) - low - 1].table;
                    let first = &mut left[low].table;
                    if source < destination {
                        drop(direct.commit_between(first, other));
                    } else {
                        drop(direct.commit_between(other, first));
                    }
                }
                Ok(Vec::new())
            }
            rq::STOPPING => {
                let table = self.table(request)?;
                let mut cursor = request.get(rq::CURSOR) as usize;
                match self.tables[table].table.remove_stopping_owner(&mut cursor) {
                    Some((snapshot, closed)) => {
                        closed.complete();
                        let mut words = alloc::vec![1, cursor as u64, snapshot.value.0.get()];
                        words.extend(info_words(snapshot.info));
                        Ok(words)
                    }
                    None => Ok(alloc::vec![0, cursor as u64]),
                }
            }
            rq::TEARDOWN_START => {
                let table = self.table(request)?;
                let held = &mut self.tables[table];
                held.teardown = Some(held.table.begin_teardown().map_err(refuse)?);
                Ok(Vec::new())
            }
            rq::TEARDOWN_STEP => {
                let table = self.table(request)?;
                let held = &mut self.tables[table];
                // DRIVER: 18 out of turn.
                let Some(cursor) = held.teardown.as_mut() else { return Err(18) };
                match held.table.remove_next(cursor) {
                    Some(closed) => {
                        let info = closed_info(&closed);
                        closed.complete();
                        let mut words = alloc::vec![1];
                        words.extend(info_words(info));
                        Ok(words)
                    }
                    None => Ok(alloc::vec![0]),
                }
            }
            rq::TEARDOWN_FINISH => {
                let table = self.table(request)?;
                let held = &mut self.tables[table];
                // DRIVER: 18 out of turn or with an occupied slot.
                if held.teardown.is_none() || held.table.slots.iter().any(|slot| matches!(slot, Slot::Occupied { .. })) {
                    return Err(18);
                }
                if let Some(cursor) = held.teardown.take() {
                    held.table.finish_teardown(cursor);
                }
                Ok(Vec::new())
            }
            rq::TAKE_PAGE => {
                let table = self.table(request)?;
                let held = &mut self.tables[table];
                match held.table.take_empty_page() {
                    Some(page) => {
                        // DRIVER: its frame is free again.
                        let number = page.index();
                        if let Some(frame) = held.frames[number].take() {
                            self.free_frames[frame as usize] = true;
                        }
                        drop(page);
                        Ok(alloc::vec![1, number as u64])
                    }
                    None => Ok(alloc::vec![0, 0]),
                }
            }
            _ => Err(18),
        }
    }
}

/// Shows a few facts of the Rust that no request reaches: each returns what was found, for `oracle check`.
pub(crate) mod bare {
    use super::*;

    /// `HandleCodec::new(seed).encode(slot, generation)`.
    pub(crate) fn encode_with_new(seed: u64, slot: usize, generation: u64) -> u64 {
        HandleCodec::new(seed).encode(slot, generation).0.get()
    }
    /// The literal codec's encode.
    pub(crate) fn encode(mask: u64, slot: usize, generation: u64) -> u64 {
        HandleCodec { mask }.encode(slot, generation).0.get()
    }
    /// The literal codec's decode; None for `InvalidHandle`.
    pub(crate) fn decode(mask: u64, value: u64) -> Option<(usize, u64)> {
        HandleCodec { mask }.decode(HandleValue(NonZeroU64::new(value)?)).ok()
    }
    pub(crate) fn next(generation: u64) -> u64 {
        next_generation(generation)
    }
    pub(crate) fn flags_known(bits: u32) -> bool {
        HandleFlags::from_bits(bits).is_some()
    }
    /// `get_info` with the value as it is, whatever its prefix and whether it is moved or not.
    pub(crate) fn get_info_raw(machine: &Machine, table: usize, value: u64) -> Result<[u64; 4], u64> {
        let value = HandleValue(NonZeroU64::new(value).ok_or(2u64)?);
        machine.tables[table].table.get_info(value).map(info_words).map_err(number_of)
    }
    /// Of what the open claims move nothing is remembered, or this alone.
    pub(crate) fn remember_only(machine: &mut Machine, known: Option<(u64, [u64; 4])>) {
        let known = known.and_then(|(value, info)| Some((HandleValue(NonZeroU64::new(value)?), info)));
        for row in &mut machine.rows {
            if let Token::Claim(_, _, before) = &mut row.token {
                *before = known.into_iter().collect();
            }
        }
    }
    /// Moves of these raw values, whatever their prefix.
    pub(crate) fn move_raw(machine: &mut Machine, table: usize, values: &[u64]) -> Result<(), u64> {
        let items: Vec<HandleTransferRequest> = values
            .iter()
            .filter_map(|value| NonZeroU64::new(*value))
            .map(|value| HandleTransferRequest {
                value: HandleValue(value),
                offered_rights: None,
                rights: rights(0),
                offered_kind: None,
                expected_kind: None,
                operation: HandleTransferOperation::Move,
            })
            .collect();
        let mut storage = Some(HandleTransferStorage::try_new(items.len()).map_err(number_of)?);
        let claim = machine.tables[table]
            .table
            .prepare_transfer_with_storage(&items, None, None, HandleTransferRoute::Rendezvous, &mut storage)
            .map_err(number_of)?;
        drop(claim.rollback_with_storage(&mut machine.tables[table].table));
        Ok(())
    }
    /// Copies of one value, refused at the limit: the object's count while the storage is still held, and after it is dropped.
    pub(crate) fn refused_copies(machine: &mut Machine, table: usize, values: &[u64], object: usize) -> (u64, u64, u64) {
        let items: Vec<HandleTransferRequest> = values
            .iter()
            .filter_map(|value| NonZeroU64::new(*value))
            .map(|value| HandleTransferRequest {
                value: HandleValue(value),
                offered_rights: None,
                rights: rights(0),
                offered_kind: None,
                expected_kind: None,
                operation: HandleTransferOperation::Copy,
            })
            .collect();
        let mut storage = HandleTransferStorage::try_new(items.len()).ok();
        let refused = machine.tables[table]
            .table
            .prepare_transfer_with_storage(&items, None, None, HandleTransferRoute::Rendezvous, &mut storage)
            .map_err(number_of)
            .err()
            .unwrap_or(0);
        let held = object::with_object(object, |object| object.count);
        drop(storage);
        (refused, held, object::with_object(object, |object| object.count))
    }
    /// A new object's first handle with these flags, the Rust's own answer.
    pub(crate) fn new_object_raw(object: usize, flags: u32) -> u64 {
        match PreparedHandle::try_from_new_object::<AnyObject>(object::ObjectPublication::of(object), rights(0), HandleFlags(flags)) {
            Ok(handle) => {
                drop(handle);
                0
            }
            Err(error) => number_of(error),
        }
    }
    /// `reserve_batch_with_plan` with the plan of a row as it is, fresh or not.
    pub(crate) fn use_plan_raw(machine: &mut Machine, id: u64) -> Result<(), u64> {
        let at = machine.plan_at(id)?;
        let Token::Plan(mut plan) = machine.rows.remove(at).token else { return Err(18) };
        let table = &mut machine.tables[plan.table].table;
        if plan.prepared.is_none() {
            let chunk = table.reservation_storage_snapshot_for(plan.count).ok().and_then(|now| now.directory_chunk);
            plan.kept.directory_chunk = chunk;
            plan.prepared = Some(HandleTableStoragePlan::try_new(plan.kept).map_err(number_of)?);
        }
        let mut storage = Some(HandleBatchReservationStorage::try_new(plan.count).map_err(number_of)?);
        let token = table.reserve_batch_with_plan(plan.count, &mut storage, &mut plan.prepared).map_err(number_of)?;
        drop(token.abort(table));
        Ok(())
    }
    /// `take_retired_storage` of a retired table: how many pages it had, and how many after.
    pub(crate) fn take_retired(machine: &mut Machine, table: usize) -> (usize, usize) {
        let before = machine.tables[table].table.slots.peek_head().0;
        drop(machine.tables[table].table.take_retired_storage());
        (before, machine.tables[table].table.slots.peek_head().0)
    }
}
