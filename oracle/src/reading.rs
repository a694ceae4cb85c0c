//! Document 01 and requests 1, 2 and 4 of document 02, read directly on plain lists: no links, no tokens, nothing of the Rust. It is compared with the oracle, and the
//! recorded lists are replayed against it where there is no Rust. A `Slip` makes it wrong on purpose.

use crate::requests::{self as rq, ANSWER, Request, read_list};
use crate::state::*;
use crate::subject::{Start, Subject};
use crate::words;

mod judge;

const PREFIX: u64 = 0x4800_0000_0000_0000;
const PREFIX_MASK: u64 = 0xFF00_0000_0000_0000;
const RIGHT_DUPLICATE: u64 = 1;
const RIGHT_TRANSFER: u64 = 2;

/// Deliberately wrong readings: each must be caught by the recorded lists.
#[derive(Clone, Copy, Debug, Eq, PartialEq)]
pub enum Slip {
    None,
    RollbackByPlaceAmongMoves,
    ScanStopsAt255,
    NewPageDownward,
    ReplaceLeavesHighMark,
    BusyCountedTwice,
    ConsumptionSpendsIdFirst,
    TransferSpendsIdLast,
    TwiceOnlyAmongMoves,
    CommitPutsSlotsBackwards,
    DetachedPagesOldestFirst,
    FreshGenerationKeepsHighMark,
    ReservedSlotIsBusy,
    RefusedCopiesStayCounted,
    StoppingCursorKeptAtEnd,
    LastPageHas64Slots,
    PlanAttachesItsPages,
    PlanTakesItsSlots,
    StalePlanLosesItsFrames,
    PlanFramesHighestFirst,
    StaleBeforeRetired,
    UseKeepsThePlansId,
    UseLeavesThePlan,
    UseWantsARow,
    UseWantsFreeFrames,
    IdBeforeStale,
    FullTableAtUse,
    DropRefusedWhereNotActive,
    PlanStopsTeardown,
    StaleByEpochAlone,
    StaleByFreeSlotsAlone,
    HeldSlotsCountAsFree,
    MovedIsBusyToLooks,
    LookShowsWhatTheReceiverGets,
    LookByPlaceAmongMoves,
    LookInTheFirstClaim,
    LookAtAnyGeneration,
    ConsumedIsBusyToLooks,
    ReservedShowsAHandle,
    ResolveSeesMoved,
    DuplicateSeesMoved,
    PublishLastParcelFirst,
    PublishStopsAfterOneParcel,
    PublishDropsRowsFirst,
    DirectCommitLaysBackwards,
    JudgingSpendsAnId,
    JudgedAmongCopies,
    DuplicateJudgedFirst,
    FirstItemJudgedAlone,
    LookupIsTwoPlaces,
    JudgedCopiesStayCounted,
    CopiesJudgedOneByOne,
    NoItemForCopies,
    CopiesJudgedWithItems,
    JudgedFromOne,
    RowNotJudged,
    IdNotJudged,
    RetiredMovesRefused,
}

pub const SLIPS: [(Slip, &str); 57] = [
    (Slip::RollbackByPlaceAmongMoves, "rollback takes a moved handle by its place among the moves"),
    (Slip::ScanStopsAt255, "a scan stops after 255 slots"),
    (Slip::NewPageDownward, "a new page is published downward"),
    (Slip::ReplaceLeavesHighMark, "replace leaves the page's high mark behind"),
    (Slip::BusyCountedTwice, "busy is counted twice when a slot passes through Empty"),
    (Slip::ConsumptionSpendsIdFirst, "a consumption spends its id before its checks"),
    (Slip::TransferSpendsIdLast, "a transfer spends its id after its checks"),
    (Slip::TwiceOnlyAmongMoves, "a value listed twice is refused among moves only"),
    (Slip::CommitPutsSlotsBackwards, "a commit puts slots on the free order backwards"),
    (Slip::DetachedPagesOldestFirst, "the detached page taken first is attached first"),
    (Slip::FreshGenerationKeepsHighMark, "a fresh generation at the limit keeps the page's high mark"),
    (Slip::ReservedSlotIsBusy, "a value naming a Reserved slot gives Busy"),
    (Slip::RefusedCopiesStayCounted, "copies made before a refused one stay counted"),
    (Slip::StoppingCursorKeptAtEnd, "the stopping cursor stays where the walk ended"),
    (Slip::LastPageHas64Slots, "page 262,143 has 64 slots"),
    (Slip::PlanAttachesItsPages, "a plan attaches its pages at once"),
    (Slip::PlanTakesItsSlots, "a plan takes slots off the free order"),
    (Slip::StalePlanLosesItsFrames, "a stale plan that is used loses its frames"),
    (Slip::PlanFramesHighestFirst, "a plan's frames are used highest first"),
    (Slip::StaleBeforeRetired, "using a stale plan gives 21 before 16"),
    (Slip::UseKeepsThePlansId, "a plan that is used keeps its id"),
    (Slip::UseLeavesThePlan, "a plan that is used stays in the book"),
    (Slip::UseWantsARow, "using a plan wants a further row"),
    (Slip::UseWantsFreeFrames, "a snapshot looks at the free frames"),
    (Slip::IdBeforeStale, "using a stale plan gives 12 before 21"),
    (Slip::FullTableAtUse, "using a plan gives 15 where a snapshot is refused"),
    (Slip::DropRefusedWhereNotActive, "dropping a plan is refused where its table is not active"),
    (Slip::PlanStopsTeardown, "a plan stops a teardown"),
    (Slip::StaleByEpochAlone, "a plan is stale by the epoch alone"),
    (Slip::StaleByFreeSlotsAlone, "a plan is stale by the number of free slots alone"),
    (Slip::HeldSlotsCountAsFree, "a snapshot counts the slots of open claims as free"),
    (Slip::MovedIsBusyToLooks, "get_info on a moved value gives Busy"),
    (Slip::LookShowsWhatTheReceiverGets, "get_info on a moved value shows the rights that the receiver gets"),
    (Slip::LookByPlaceAmongMoves, "get_info takes a moved handle by its place among the moves"),
    (Slip::LookInTheFirstClaim, "get_info looks for a moved handle in the table's first claim"),
    (Slip::LookAtAnyGeneration, "get_info on a moved slot answers to any generation"),
    (Slip::ConsumedIsBusyToLooks, "get_info on a value that is being consumed gives Busy"),
    (Slip::ReservedShowsAHandle, "get_info on a Reserved slot shows a handle of a claim"),
    (Slip::ResolveSeesMoved, "resolve answers for a moved value"),
    (Slip::DuplicateSeesMoved, "duplicate answers for a moved value"),
    (Slip::PublishLastParcelFirst, "publish lays the parcel named last first"),
    (Slip::PublishStopsAfterOneParcel, "publish stops after the first parcel"),
    (Slip::PublishDropsRowsFirst, "publish drops a parcel's row before its handles are laid"),
    (Slip::DirectCommitLaysBackwards, "direct commit lays the last handle first"),
    (Slip::JudgingSpendsAnId, "judging a transfer spends an id"),
    (Slip::JudgedAmongCopies, "a refused copy's position is counted among the copies"),
    (Slip::DuplicateJudgedFirst, "a copy without DUPLICATE is judged before one without TRANSFER"),
    (Slip::FirstItemJudgedAlone, "only the first item of a transfer is judged"),
    (Slip::LookupIsTwoPlaces, "lookup is two places, so that the last place is 18"),
    (Slip::JudgedCopiesStayCounted, "copies that were judged stay counted"),
    (Slip::CopiesJudgedOneByOne, "a copy is judged without the earlier copies of its transfer"),
    (Slip::NoItemForCopies, "a refused copy is answered with no item at fault"),
    (Slip::CopiesJudgedWithItems, "a copy is judged with its item, before the items behind it"),
    (Slip::JudgedFromOne, "the position of an item is counted from 1"),
    (Slip::RowNotJudged, "a transfer is judged as if there were a free row"),
    (Slip::IdNotJudged, "a transfer is judged as if there were an id left"),
    (Slip::RetiredMovesRefused, "a move of a retired object's handle is judged as a copy"),
];

pub struct Reading {
    state: Option<State>,
    slip: Slip,
}

type Answer = Result<Vec<u64>, u64>;

/// A plan's row.
struct Plan {
    table: usize,
    count: u64,
    kept: Snapshot,
    frames: Vec<u64>,
}

fn contains(all: u64, some: u64) -> bool {
    all & some == some
}

fn next_generation(generation: u64) -> u64 {
    if generation == GENERATION_LIMIT { 1 } else { generation + 1 }
}

fn encode(mask: u64, slot: u64, generation: u64) -> u64 {
    PREFIX | ((generation << 24 | (slot + 1)) ^ mask)
}

fn decode(mask: u64, value: u64) -> Option<(u64, u64)> {
    if value & PREFIX_MASK != PREFIX {
        return None;
    }
    let payload = (value & !PREFIX_MASK) ^ mask;
    let (slot, generation) = (payload & 0xFF_FFFF, payload >> 24);
    if slot == 0 || generation == 0 { None } else { Some((slot - 1, generation)) }
}

fn route_permits(route: u64, class: u64) -> bool {
    match class {
        0 => true,
        1 => route != 0,
        _ => false,
    }
}

/// What a table does by itself.
impl Table {
    fn active(&self) -> Result<(), u64> {
        if self.life == Life::Active { Ok(()) } else { Err(16) }
    }

    /// The slot that a value names, with its generation and handle: else 2 or 3.
    fn lookup(&self, value: u64, slip: Slip) -> Result<(u64, u64, Handle), u64> {
        let (slot, generation) = decode(self.mask, value).ok_or(2u64)?;
        match self.slot(slot) {
            Some(Slot::Occupied(found, handle)) if found == generation => Ok((slot, generation, handle)),
            Some(Slot::Moving(found)) if found == generation => Err(3),
            Some(Slot::Reserved(found)) if found == generation && slip == Slip::ReservedSlotIsBusy => Err(3),
            _ => Err(2),
        }
    }

    fn page_of(&mut self, slot: u64) -> &mut Page {
        &mut self.pages[(slot / SLOTS_PER_PAGE) as usize]
    }

    fn set(&mut self, slot: u64, to: Slot) {
        self.page_of(slot).slots[(slot % SLOTS_PER_PAGE) as usize] = to;
    }

    /// A slot becomes vacant with this generation, at the head of the free order. It was busy before, or its page is new.
    fn vacate(&mut self, slot: u64, generation: u64, was_busy: bool) {
        self.set(slot, Slot::Vacant(generation));
        self.free.insert(0, slot);
        self.free_count += 1;
        let number = slot / SLOTS_PER_PAGE;
        let page = self.page_of(slot);
        page.high = page.high.max(generation);
        if was_busy {
            page.busy -= 1;
            if page.busy == 0 {
                self.empty.insert(0, number);
            }
        }
    }

    /// The first slot of the free order becomes Reserved.
    fn take_free(&mut self) -> (u64, u64) {
        let slot = self.free.remove(0);
        self.free_count -= 1;
        let number = slot / SLOTS_PER_PAGE;
        let generation = self.slot(slot).map_or(0, Slot::generation);
        self.set(slot, Slot::Reserved(generation));
        let page = self.page_of(slot);
        page.busy += 1;
        if page.busy == 1 {
            self.empty.retain(|page| *page != number);
        }
        (slot, generation)
    }

    /// The pages that a reservation of this many slots needs: detached ones in their order, then new ones. 15 beyond the limit.
    pub(crate) fn pages_needed(&self, count: u64, slip: Slip) -> Result<Vec<u64>, u64> {
        let mut missing = count.saturating_sub(self.free_count);
        let mut detached: Vec<u64> = self.detached.clone();
        if slip == Slip::DetachedPagesOldestFirst {
            detached.reverse();
        }
        let mut detached = detached.into_iter();
        let mut next = self.pages.len() as u64;
        let mut needed = Vec::new();
        while missing > 0 {
            let page = match detached.next() {
                Some(page) => page,
                None if next >= self.limit => return Err(15),
                None => {
                    next += 1;
                    next - 1
                }
            };
            missing = missing.saturating_sub(self.slots_of(page, slip));
            needed.push(page);
        }
        Ok(needed)
    }

    /// The snapshot for a reservation of this many slots: "a snapshot looks at the table alone".
    pub(crate) fn snapshot(&self, count: u64, slip: Slip) -> Result<Snapshot, u64> {
        let pages = self.pages_needed(count, slip)?;
        let mut free_slots = self.free_count;
        if slip == Slip::HeldSlotsCountAsFree {
            free_slots += self.pages.iter().flat_map(|page| &page.slots).filter(|slot| matches!(slot, Slot::Moving(_))).count() as u64;
        }
        Ok(Snapshot { epoch: self.epoch, free_slots, pages })
    }

    /// "It is stale exactly when a snapshot for its count taken now would differ or be refused."
    pub(crate) fn stale(&self, count: u64, kept: &Snapshot, slip: Slip) -> bool {
        match self.snapshot(count, slip) {
            Ok(now) if slip == Slip::StaleByEpochAlone => now.epoch != kept.epoch,
            Ok(now) if slip == Slip::StaleByFreeSlotsAlone => now.free_slots != kept.free_slots,
            Ok(now) => now != *kept,
            Err(_) => true,
        }
    }

    fn slots_of(&self, page: u64, slip: Slip) -> u64 {
        if slip == Slip::LastPageHas64Slots { SLOTS_PER_PAGE } else { page_slots(page) }
    }

    /// The pages come in with the frames given.
    fn attach(&mut self, pages: &[u64], frames: &[u64], slip: Slip) {
        for (page, frame) in pages.iter().zip(frames) {
            if *page == self.pages.len() as u64 {
                self.pages.push(Page { frame: None, high: 0, busy: 0, slots: Vec::new() });
            } else {
                self.detached.retain(|detached| detached != page);
            }
            self.pages[*page as usize].frame = Some(*frame);
            self.empty.insert(0, *page);
        }
        for page in pages {
            let count = self.slots_of(*page, slip);
            let entry = &mut self.pages[*page as usize];
            let generation = next_generation(entry.high);
            if !(slip == Slip::FreshGenerationKeepsHighMark && generation == 1) || entry.high == 0 {
                entry.high = generation;
            }
            entry.busy = 0;
            entry.slots = vec![Slot::Vacant(generation); count as usize];
            for place in 0..count {
                let place = if slip == Slip::NewPageDownward { count - 1 - place } else { place };
                self.vacate(page * SLOTS_PER_PAGE + place, generation, false);
            }
        }
        if !pages.is_empty() {
            self.epoch = self.epoch.wrapping_add(1);
        }
    }

    /// The first occupied slot at or above `from`.
    fn occupied_from(&self, from: u64) -> Option<u64> {
        for (number, page) in self.pages.iter().enumerate().skip((from / SLOTS_PER_PAGE) as usize) {
            for (place, slot) in page.slots.iter().enumerate() {
                let index = number as u64 * SLOTS_PER_PAGE + place as u64;
                if index >= from && matches!(slot, Slot::Occupied(..)) {
                    return Some(index);
                }
            }
        }
        None
    }

    /// An occupied slot becomes vacant; its handle goes to whoever asked.
    fn remove(&mut self, slot: u64) -> (u64, Handle) {
        match self.slot(slot) {
            Some(Slot::Occupied(generation, handle)) => {
                self.vacate(slot, next_generation(generation), true);
                (generation, handle)
            }
            _ => unreachable!("an occupied slot was asked for"),
        }
    }
}

impl Reading {
    pub fn new(slip: Slip) -> Self {
        Self { state: None, slip }
    }
    pub fn state(&self) -> Option<&State> {
        self.state.as_ref()
    }
    pub fn set_state(&mut self, state: State) {
        self.state = Some(state);
    }
}

impl State {
    fn info(&self, handle: Handle) -> [u64; 4] {
        let object = &self.objects[handle.object as usize];
        [object.koid, u64::from(object.kind), handle.rights, handle.flags]
    }
    fn raise(&mut self, object: u64) -> Result<(), u64> {
        let object = &mut self.objects[object as usize];
        if object.state == RETIRED {
            return Err(9);
        }
        if object.count == object.limit {
            return Err(11);
        }
        object.count += 1;
        Ok(())
    }
    fn release(&mut self, handle: Handle) {
        let object = &mut self.objects[handle.object as usize];
        object.count -= 1;
        if object.count == 0 {
            object.state = RETIRED;
        }
    }
    fn free_row(&self) -> Result<(), u64> {
        if (self.rows.len() as u64) < self.row_capacity { Ok(()) } else { Err(1) }
    }
    fn ids_left(&self) -> Result<(), u64> {
        if self.next == u64::MAX { Err(12) } else { Ok(()) }
    }
    fn spend(&mut self) -> u64 {
        self.next += 1;
        self.next - 1
    }
    fn table_of(&self, request: &Request) -> Result<usize, u64> {
        let number = request.get(rq::TABLE);
        if number < self.tables.len() as u64 { Ok(number as usize) } else { Err(18) }
    }
    fn object_of(&self, request: &Request) -> Result<usize, u64> {
        let number = request.get(rq::OBJECT);
        if number < self.objects.len() as u64 { Ok(number as usize) } else { Err(18) }
    }
    fn reservation(&self, id: u64) -> Result<(usize, usize, Vec<u64>), u64> {
        for (at, row) in self.rows.iter().enumerate() {
            if let RowKind::Reservation { table, slots } = &row.kind
                && row.id == id
            {
                return Ok((at, *table as usize, slots.clone()));
            }
        }
        Err(18)
    }
    fn claim(&self, id: u64) -> Result<(usize, usize, Vec<ClaimEntry>), u64> {
        for (at, row) in self.rows.iter().enumerate() {
            if let RowKind::Claim { table, entries } = &row.kind
                && row.id == id
            {
                return Ok((at, *table as usize, entries.clone()));
            }
        }
        Err(18)
    }
    fn parcel(&self, id: u64) -> Result<(usize, Vec<Handle>), u64> {
        for (at, row) in self.rows.iter().enumerate() {
            if let RowKind::Parcel(handles) = &row.kind
                && row.id == id
            {
                return Ok((at, handles.clone()));
            }
        }
        Err(18)
    }
    fn plan(&self, id: u64) -> Result<(usize, Plan), u64> {
        for (at, row) in self.rows.iter().enumerate() {
            if let RowKind::Plan { table, count, kept, frames } = &row.kind
                && row.id == id
            {
                return Ok((at, Plan { table: *table as usize, count: *count, kept: kept.clone(), frames: frames.clone() }));
            }
        }
        Err(18)
    }

    /// The items of each open claim of a table.
    fn claims_of(&self, number: usize) -> impl Iterator<Item = &[ClaimEntry]> {
        self.rows.iter().filter_map(move |row| match &row.kind {
            RowKind::Claim { table, entries } if *table == number as u64 => Some(entries.as_slice()),
            _ => None,
        })
    }
    /// "Let `get_info` answer for the handle of a TransferReserved slot, consumption included, with the koid, kind, rights and flags it had before": the item of an open claim that
    /// moves the slot keeps the handle as it was. Any other value names what it names to every request.
    fn shown(&self, number: usize, value: u64, slip: Slip) -> Result<Handle, u64> {
        let table = &self.tables[number];
        let named = decode(table.mask, value).and_then(|(slot, generation)| Some((slot, generation, table.slot(slot)?)));
        let slot = match named {
            Some((slot, generation, Slot::Moving(found))) if found == generation || slip == Slip::LookAtAnyGeneration => slot,
            Some((_, generation, Slot::Reserved(found))) if found == generation && slip == Slip::ReservedShowsAHandle => {
                return self.claims_of(number).next().map(|entries| entries[0].handle()).ok_or(2);
            }
            _ => return table.lookup(value, slip).map(|(_, _, handle)| handle),
        };
        for entries in self.claims_of(number) {
            for (position, entry) in entries.iter().enumerate() {
                if let ClaimEntry::Move { slot: moved, handle, gets } = entry
                    && *moved == slot
                {
                    return match slip {
                        Slip::MovedIsBusyToLooks => Err(3),
                        // A consumption is a claim of one move that keeps its rights.
                        Slip::ConsumedIsBusyToLooks if entries.len() == 1 && *gets == handle.rights => Err(3),
                        Slip::LookShowsWhatTheReceiverGets => Ok(Handle { rights: *gets, ..*handle }),
                        Slip::LookByPlaceAmongMoves => {
                            let place = entries[..position].iter().filter(|entry| matches!(entry, ClaimEntry::Move { .. })).count();
                            Ok(entries[place].handle())
                        }
                        Slip::LookInTheFirstClaim => {
                            let first = self.claims_of(number).next().unwrap_or(entries);
                            Ok(first[position.min(first.len() - 1)].handle())
                        }
                        _ => Ok(*handle),
                    };
                }
            }
        }
        unreachable!("each TransferReserved slot stands in an open claim")
    }

    /// What a reservation and a plan ask for, in the order of a reservation: 16, 17, 13, 15, 1, 12. The table and the snapshot.
    fn room(&self, request: &Request, slip: Slip) -> Result<(usize, Snapshot), u64> {
        let number = self.table_of(request)?;
        let count = request.get(rq::COUNT);
        self.tables[number].active()?;
        if count == 0 {
            return Err(17);
        }
        if count > 64 {
            return Err(13);
        }
        let snapshot = self.tables[number].snapshot(count, slip)?;
        if self.free_frames.len() < snapshot.pages.len() {
            return Err(1);
        }
        self.free_row()?;
        self.ids_left()?;
        Ok((number, snapshot))
    }
    /// The lowest free frames, as many as the snapshot needs.
    fn take_frames(&mut self, snapshot: &Snapshot) -> Vec<u64> {
        self.free_frames.drain(..snapshot.pages.len()).collect()
    }
    fn give_back(&mut self, frames: &[u64]) {
        self.free_frames.extend(frames);
        self.free_frames.sort_unstable();
    }
    /// The pages come in, and the first free slots are Reserved under the next id, in a row that stands last. The answer.
    fn reserve(&mut self, number: usize, count: u64, pages: &[u64], frames: &[u64], slip: Slip) -> Vec<u64> {
        let id = self.spend();
        let table = &mut self.tables[number];
        table.attach(pages, frames, slip);
        let mut words = vec![id, count];
        let mut slots = Vec::new();
        for _ in 0..count {
            let (slot, generation) = table.take_free();
            slots.push(slot);
            words.push(encode(table.mask, slot, generation));
        }
        self.rows.push(Row { id, kind: RowKind::Reservation { table: number as u64, slots } });
        words
    }

    fn abort_slots(&mut self, table: usize, slots: &[u64]) {
        let table = &mut self.tables[table];
        for slot in slots {
            let generation = table.slot(*slot).map_or(0, Slot::generation);
            table.vacate(*slot, next_generation(generation), true);
        }
    }
    fn roll_back(&mut self, table: usize, entries: &[ClaimEntry], slip: Slip) {
        let mut moves = 0;
        let mut back = vec![false; entries.len()];
        for (at, entry) in entries.iter().enumerate() {
            if let ClaimEntry::Move { slot, .. } = entry {
                let from = if slip == Slip::RollbackByPlaceAmongMoves { moves } else { at };
                moves += 1;
                back[from] = true;
                let table = &mut self.tables[table];
                let generation = table.slot(*slot).map_or(0, Slot::generation);
                table.set(*slot, Slot::Occupied(generation, entries[from].handle()));
            }
        }
        for (entry, back) in entries.iter().zip(back) {
            if !back {
                self.release(entry.handle());
            }
        }
    }
    /// The slots of the moves become vacant; the handles, with the rights that the receiver gets.
    fn carry_out(&mut self, table: usize, entries: &[ClaimEntry], slip: Slip) -> Vec<Handle> {
        let table = &mut self.tables[table];
        let mut slots: Vec<u64> = Vec::new();
        let mut handles = Vec::new();
        for entry in entries {
            match entry {
                ClaimEntry::Move { slot, handle, gets } => {
                    slots.push(*slot);
                    handles.push(Handle { rights: *gets, ..*handle });
                }
                ClaimEntry::Copy(handle) => handles.push(*handle),
            }
        }
        if slip == Slip::CommitPutsSlotsBackwards {
            slots.reverse();
        }
        for slot in slots {
            let generation = table.slot(slot).map_or(0, Slot::generation);
            table.vacate(slot, next_generation(generation), true);
        }
        handles
    }
    fn fill(&mut self, table: usize, slots: &[u64], handles: &[Handle]) {
        let table = &mut self.tables[table];
        for (slot, handle) in slots.iter().zip(handles) {
            let generation = table.slot(*slot).map_or(0, Slot::generation);
            table.set(*slot, Slot::Occupied(generation, *handle));
        }
    }
    fn hold(&mut self, table: usize, slot: u64, generation: u64, slip: Slip) {
        self.tables[table].set(slot, Slot::Moving(generation));
        if slip == Slip::BusyCountedTwice {
            self.tables[table].page_of(slot).busy += 1;
        }
    }

    fn step(&mut self, request: &Request, slip: Slip) -> Answer {
        match request.op() {
            rq::NEW_OBJECT => {
                let number = self.object_of(request)?;
                self.free_row()?;
                let object = &self.objects[number];
                let (rights, flags) = (request.get(rq::RIGHTS), request.get(rq::FLAGS));
                if !contains(object.supported, rights) {
                    return Err(6);
                }
                if flags & !3 != 0 {
                    return Err(7);
                }
                if !object.exportable {
                    return Err(6);
                }
                if object.state == RETIRED {
                    return Err(9);
                }
                if object.state == ACTIVE {
                    return Err(10);
                }
                if object.limit == 0 {
                    return Err(11);
                }
                self.ids_left()?;
                self.objects[number].state = ACTIVE;
                self.objects[number].count = 1;
                let id = self.spend();
                self.rows.push(Row { id, kind: RowKind::Parcel(vec![Handle { object: number as u64, rights, flags }]) });
                Ok(vec![id])
            }
            rq::DUPLICATE => {
                let table = self.table_of(request)?;
                self.tables[table].active()?;
                self.free_row()?;
                let handle = match slip {
                    Slip::DuplicateSeesMoved => self.shown(table, request.get(rq::VALUE), slip)?,
                    _ => self.tables[table].lookup(request.get(rq::VALUE), slip)?.2,
                };
                let rights = request.get(rq::RIGHTS);
                if !contains(handle.rights, RIGHT_DUPLICATE) || !contains(handle.rights, rights) {
                    return Err(5);
                }
                let object = &self.objects[handle.object as usize];
                if object.state == RETIRED {
                    return Err(9);
                }
                if object.count == object.limit {
                    return Err(11);
                }
                self.ids_left()?;
                self.raise(handle.object)?;
                let id = self.spend();
                self.rows.push(Row { id, kind: RowKind::Parcel(vec![Handle { rights, ..handle }]) });
                Ok(vec![id])
            }
            rq::RELEASE => {
                let (at, handles) = self.parcel(request.get(rq::ID))?;
                self.rows.remove(at);
                for handle in handles {
                    self.release(handle);
                }
                Ok(vec![])
            }
            rq::RETIRE => {
                let number = self.object_of(request)?;
                self.objects[number].state = RETIRED;
                Ok(vec![])
            }
            rq::RESERVE => {
                let (number, snapshot) = self.room(request, slip)?;
                let frames = self.take_frames(&snapshot);
                Ok(self.reserve(number, request.get(rq::COUNT), &snapshot.pages, &frames, slip))
            }
            rq::MAKE_PLAN => {
                let (number, kept) = self.room(request, slip)?;
                let count = request.get(rq::COUNT);
                let frames = self.take_frames(&kept);
                if slip == Slip::PlanAttachesItsPages {
                    self.tables[number].attach(&kept.pages, &frames, slip);
                }
                if slip == Slip::PlanTakesItsSlots {
                    for _ in 0..count.min(self.tables[number].free_count) {
                        self.tables[number].take_free();
                    }
                }
                let id = self.spend();
                let held = frames.len() as u64;
                self.rows.push(Row { id, kind: RowKind::Plan { table: number as u64, count, kept, frames } });
                Ok(vec![id, count, held])
            }
            rq::USE_PLAN => {
                let (at, plan) = self.plan(request.get(rq::ID))?;
                let table = &self.tables[plan.table];
                let stale = table.stale(plan.count, &plan.kept, slip);
                if slip == Slip::StaleBeforeRetired && stale {
                    return Err(21);
                }
                table.active()?;
                if slip == Slip::IdBeforeStale {
                    self.ids_left()?;
                }
                if slip == Slip::FullTableAtUse {
                    table.snapshot(plan.count, slip)?;
                }
                if slip == Slip::UseWantsFreeFrames && self.free_frames.len() < plan.frames.len() {
                    return Err(21);
                }
                if stale {
                    if slip == Slip::StalePlanLosesItsFrames {
                        self.rows.remove(at);
                        self.give_back(&plan.frames);
                    }
                    return Err(21);
                }
                if slip == Slip::UseWantsARow {
                    self.free_row()?;
                }
                self.ids_left()?;
                if slip != Slip::UseLeavesThePlan {
                    self.rows.remove(at);
                }
                let mut frames = plan.frames.clone();
                if slip == Slip::PlanFramesHighestFirst {
                    frames.reverse();
                }
                let mut words = self.reserve(plan.table, plan.count, &plan.kept.pages, &frames, slip);
                if slip == Slip::UseKeepsThePlansId
                    && let Some(row) = self.rows.last_mut()
                {
                    row.id = request.get(rq::ID);
                    words[0] = row.id;
                }
                Ok(words)
            }
            rq::DROP_PLAN => {
                let (at, plan) = self.plan(request.get(rq::ID))?;
                if slip == Slip::DropRefusedWhereNotActive {
                    self.tables[plan.table].active()?;
                }
                self.rows.remove(at);
                self.give_back(&plan.frames);
                Ok(vec![])
            }
            rq::TRIM => {
                let (at, table, slots) = self.reservation(request.get(rq::ID))?;
                let count = request.get(rq::COUNT);
                if count == 0 || count > slots.len() as u64 {
                    return Err(18);
                }
                let (kept, freed) = slots.split_at(count as usize);
                self.rows[at].kind = RowKind::Reservation { table: table as u64, slots: kept.to_vec() };
                self.abort_slots(table, freed);
                Ok(vec![])
            }
            rq::ABORT => {
                let (at, table, slots) = self.reservation(request.get(rq::ID))?;
                self.rows.remove(at);
                self.abort_slots(table, &slots);
                Ok(vec![])
            }
            rq::PUBLISH => {
                let (_, table, slots) = self.reservation(request.get(rq::ID))?;
                let ids: Vec<u64> = request.items.iter().map(|item| item.get(rq::ID)).collect();
                let mut parcels = Vec::new();
                for (at, id) in ids.iter().enumerate() {
                    if ids[..at].contains(id) {
                        return Err(18);
                    }
                    parcels.push(self.parcel(*id)?.1);
                }
                if parcels.iter().map(Vec::len).sum::<usize>() != slots.len() {
                    return Err(18);
                }
                self.rows.retain(|row| row.id != request.get(rq::ID) && !ids.contains(&row.id));
                match slip {
                    Slip::PublishLastParcelFirst => parcels.reverse(),
                    // The slots behind the first parcel's stay Reserved, of no row, and the other parcels' handles are lost: their objects' counts stay.
                    Slip::PublishStopsAfterOneParcel => parcels.truncate(1),
                    // A program that looks for each parcel by its id when its row has left finds none, and goes on: every slot stays Reserved, of no row, and all handles are lost.
                    Slip::PublishDropsRowsFirst => parcels.clear(),
                    _ => {}
                }
                self.fill(table, &slots, &parcels.concat());
                Ok(vec![])
            }
            rq::GET_INFO => {
                let table = self.table_of(request)?;
                self.tables[table].active()?;
                let handle = self.shown(table, request.get(rq::VALUE), slip)?;
                Ok(self.info(handle).to_vec())
            }
            rq::RESOLVE => {
                let table = self.table_of(request)?;
                self.tables[table].active()?;
                let handle = match slip {
                    Slip::ResolveSeesMoved => self.shown(table, request.get(rq::VALUE), slip)?,
                    _ => self.tables[table].lookup(request.get(rq::VALUE), slip)?.2,
                };
                if !contains(handle.rights, request.get(rq::RIGHTS)) {
                    return Err(5);
                }
                let object = &self.objects[handle.object as usize];
                if u64::from(object.kind) != request.get(rq::KIND) {
                    return Err(4);
                }
                Ok(vec![handle.object, object.koid, handle.rights])
            }
            rq::REPLACE => {
                let number = self.table_of(request)?;
                let table = &mut self.tables[number];
                table.active()?;
                let (slot, generation, handle) = table.lookup(request.get(rq::VALUE), slip)?;
                let rights = request.get(rq::RIGHTS);
                if !contains(handle.rights, rights) {
                    return Err(5);
                }
                let generation = next_generation(generation);
                table.set(slot, Slot::Occupied(generation, Handle { rights, ..handle }));
                let page = table.page_of(slot);
                if slip != Slip::ReplaceLeavesHighMark {
                    page.high = page.high.max(generation);
                }
                Ok(vec![encode(table.mask, slot, generation)])
            }
            rq::CLOSE => {
                let table = self.table_of(request)?;
                self.tables[table].active()?;
                let (slot, _, handle) = self.tables[table].lookup(request.get(rq::VALUE), slip)?;
                let words = self.info(handle).to_vec();
                self.tables[table].remove(slot);
                self.release(handle);
                Ok(words)
            }
            rq::SCAN => {
                let table = self.table_of(request)?;
                let table = &self.tables[table];
                table.active()?;
                let start = request.get(rq::CURSOR).min(table.length());
                let most = if slip == Slip::ScanStopsAt255 { 255 } else { 256 };
                let end = (start + most).min(table.length());
                let mut found = Vec::new();
                let mut stop = start;
                while stop < end && found.len() < 8 {
                    if let Some(Slot::Occupied(generation, handle)) = table.slot(stop) {
                        found.push((encode(table.mask, stop, generation), self.info(handle)));
                    }
                    stop += 1;
                }
                let more = stop < table.length();
                let mut words = vec![found.len() as u64, u64::from(more), if more { stop } else { 0 }, stop - start];
                for (value, info) in found {
                    words.push(value);
                    words.extend(info);
                }
                Ok(words)
            }
            rq::TRANSFER => self.transfer(request, slip),
            rq::JUDGE => {
                let answer = self.judge(request, slip)?;
                self.judged(request, &answer, slip);
                Ok(answer)
            }
            rq::CONSUME => {
                let table = self.table_of(request)?;
                self.tables[table].active()?;
                self.free_row()?;
                if slip == Slip::ConsumptionSpendsIdFirst {
                    self.ids_left()?;
                    self.spend();
                }
                let (slot, generation, handle) = self.tables[table].lookup(request.get(rq::VALUE), slip)?;
                if !contains(handle.rights, request.get(rq::RIGHTS)) {
                    return Err(5);
                }
                let object = &self.objects[handle.object as usize];
                if u64::from(object.kind) != request.get(rq::KIND) {
                    return Err(4);
                }
                if object.koid != request.get(rq::KOID) {
                    return Err(2);
                }
                let id = if slip == Slip::ConsumptionSpendsIdFirst {
                    self.next - 1
                } else {
                    self.ids_left()?;
                    self.spend()
                };
                self.hold(table, slot, generation, slip);
                let entries = vec![ClaimEntry::Move { slot, handle, gets: handle.rights }];
                self.rows.push(Row { id, kind: RowKind::Claim { table: table as u64, entries } });
                Ok(vec![id])
            }
            rq::ROLLBACK => {
                let (at, table, entries) = self.claim(request.get(rq::ID))?;
                self.rows.remove(at);
                self.roll_back(table, &entries, slip);
                Ok(vec![])
            }
            rq::COMMIT => {
                let (at, table, entries) = self.claim(request.get(rq::ID))?;
                let handles = self.carry_out(table, &entries, slip);
                self.rows[at].kind = RowKind::Parcel(handles);
                Ok(vec![])
            }
            rq::DIRECT_COMMIT | rq::DIRECT_ROLLBACK => {
                let (_, source, entries) = self.claim(request.get(rq::ID))?;
                let (_, destination, slots) = self.reservation(request.get(rq::DESTINATION))?;
                if entries.len() != slots.len() {
                    return Err(18);
                }
                self.rows.retain(|row| row.id != request.get(rq::ID) && row.id != request.get(rq::DESTINATION));
                if request.op() == rq::DIRECT_COMMIT {
                    let mut handles = self.carry_out(source, &entries, slip);
                    if slip == Slip::DirectCommitLaysBackwards {
                        handles.reverse();
                    }
                    self.fill(destination, &slots, &handles);
                } else {
                    self.roll_back(source, &entries, slip);
                    self.abort_slots(destination, &slots);
                }
                Ok(vec![])
            }
            rq::STOPPING => {
                let number = self.table_of(request)?;
                let cursor = request.get(rq::CURSOR);
                if self.tables[number].life != Life::Active {
                    return Ok(vec![0, cursor]);
                }
                let Some(slot) = self.tables[number].occupied_from(cursor) else {
                    return Ok(vec![0, if slip == Slip::StoppingCursorKeptAtEnd { cursor } else { 0 }]);
                };
                let (generation, handle) = self.tables[number].remove(slot);
                let mut words = vec![1, slot + 1, encode(self.tables[number].mask, slot, generation)];
                words.extend(self.info(handle));
                self.release(handle);
                Ok(words)
            }
            rq::TEARDOWN_START => {
                let number = self.table_of(request)?;
                self.tables[number].active()?;
                let open = self.rows.iter().any(|row| match &row.kind {
                    RowKind::Reservation { table, .. } | RowKind::Claim { table, .. } => *table == number as u64,
                    RowKind::Plan { table, .. } => *table == number as u64 && slip == Slip::PlanStopsTeardown,
                    RowKind::Parcel(_) => false,
                });
                if open {
                    return Err(14);
                }
                self.tables[number].life = Life::TearingDown(0);
                Ok(vec![])
            }
            rq::TEARDOWN_STEP => {
                let number = self.table_of(request)?;
                let Life::TearingDown(cursor) = self.tables[number].life else { return Err(18) };
                let Some(slot) = self.tables[number].occupied_from(cursor) else { return Ok(vec![0]) };
                let (_, handle) = self.tables[number].remove(slot);
                self.tables[number].life = Life::TearingDown(slot + 1);
                let mut words = vec![1];
                words.extend(self.info(handle));
                self.release(handle);
                Ok(words)
            }
            rq::TEARDOWN_FINISH => {
                let number = self.table_of(request)?;
                let table = &mut self.tables[number];
                if !matches!(table.life, Life::TearingDown(_)) || table.occupied_from(0).is_some() {
                    return Err(18);
                }
                table.life = Life::Retired;
                Ok(vec![])
            }
            rq::TAKE_PAGE => {
                let number = self.table_of(request)?;
                let table = &mut self.tables[number];
                if table.life != Life::Active || table.empty.is_empty() {
                    return Ok(vec![0, 0]);
                }
                let page = table.empty.remove(0);
                table.free.retain(|slot| slot / SLOTS_PER_PAGE != page);
                let entry = &mut table.pages[page as usize];
                table.free_count -= entry.slots.len() as u64;
                entry.slots.clear();
                let frame = entry.frame.take();
                table.detached.insert(0, page);
                table.epoch = table.epoch.wrapping_add(1);
                if let Some(frame) = frame {
                    let at = self.free_frames.partition_point(|free| *free < frame);
                    self.free_frames.insert(at, frame);
                }
                Ok(vec![1, page])
            }
            _ => Err(18),
        }
    }

    fn transfer(&mut self, request: &Request, slip: Slip) -> Answer {
        let table = self.table_of(request)?;
        self.tables[table].active()?;
        if request.items.is_empty() {
            return Err(17);
        }
        if request.items.len() > 64 {
            return Err(13);
        }
        self.free_row()?;
        self.ids_left()?;
        // Spent here: a refusal below keeps it spent.
        let id = self.spend();
        if slip == Slip::TransferSpendsIdLast {
            self.next -= 1;
        }
        let mut sources = Vec::new();
        for (at, item) in request.items.iter().enumerate() {
            let value = item.get(rq::VALUE);
            let moving = item.get(rq::OP) == 0;
            let twice = request.items[..at].iter().any(|other| {
                other.get(rq::VALUE) == value
                    && (slip != Slip::TwiceOnlyAmongMoves || (moving && other.get(rq::OP) == 0))
            });
            if twice {
                return Err(2);
            }
            let (slot, generation, handle) = self.tables[table].lookup(value, slip)?;
            let offered = item.option(rq::OFFERED_RIGHTS).unwrap_or(handle.rights);
            let carries = contains(handle.rights, RIGHT_TRANSFER) && (moving || contains(handle.rights, RIGHT_DUPLICATE));
            if !carries || !contains(handle.rights, offered) || !contains(offered, item.get(rq::RIGHTS)) {
                return Err(5);
            }
            let object = &self.objects[handle.object as usize];
            let kind = u64::from(object.kind);
            if request.record.option(rq::FORBIDDEN_KIND) == Some(kind) {
                return Err(8);
            }
            if request.record.option(rq::FORBIDDEN_OBJECT) == Some(object.koid) {
                return Err(5);
            }
            if !route_permits(request.get(rq::ROUTE), object.class) {
                return Err(8);
            }
            if item.option(rq::OFFERED_KIND).is_some_and(|wanted| wanted != kind)
                || item.option(rq::EXPECTED_KIND).is_some_and(|wanted| wanted != kind)
            {
                return Err(4);
            }
            sources.push((slot, generation, handle));
        }
        // Copies, one by one; a refusal gives the earlier ones back.
        let before = self.objects.clone();
        for (item, (_, _, handle)) in request.items.iter().zip(&sources) {
            if item.get(rq::OP) == 1
                && let Err(number) = self.raise(handle.object)
            {
                if slip != Slip::RefusedCopiesStayCounted {
                    self.objects = before;
                }
                return Err(number);
            }
        }
        let mut entries = Vec::new();
        for (item, (slot, generation, handle)) in request.items.iter().zip(sources) {
            let gets = item.get(rq::RIGHTS);
            if item.get(rq::OP) == 0 {
                self.hold(table, slot, generation, slip);
                entries.push(ClaimEntry::Move { slot, handle, gets });
            } else {
                entries.push(ClaimEntry::Copy(Handle { rights: gets, ..handle }));
            }
        }
        if slip == Slip::TransferSpendsIdLast {
            self.spend();
        }
        self.rows.push(Row { id, kind: RowKind::Claim { table: table as u64, entries } });
        Ok(vec![id])
    }
}

impl Subject for Reading {
    fn start(&mut self, start: &Start) -> u64 {
        self.state = match start {
            Start::Create(params) => words::create(params),
            Start::Words(words) => words::decode(words).ok(),
        };
        if self.state.is_some() { 0 } else { 18 }
    }
    fn call(&mut self, list: &[u64], answers: &mut [u64]) -> u64 {
        let slip = self.slip;
        let Some(state) = self.state.as_mut() else { return 18 };
        let Some(requests) = read_list(list) else { return 19 };
        if answers.len() / ANSWER < requests.len() {
            return 20;
        }
        for (request, words) in requests.iter().zip(answers.chunks_mut(ANSWER)) {
            words.fill(0);
            match state.step(request, slip) {
                Ok(given) => words[1..=given.len()].copy_from_slice(&given),
                Err(number) => words[0] = number,
            }
        }
        0
    }
    fn text(&mut self) -> Result<String, String> {
        Ok(match &self.state {
            Some(state) => text(state),
            None => "not well formed\n".to_string(),
        })
    }
}
