//! A state as plain data, and its one canonical text form (docs/oracle.md).

use std::fmt::Write;

pub const GENERATION_LIMIT: u64 = 0xFFFF_FFFF;
pub const SLOTS_PER_PAGE: u64 = 64;
pub const MAX_PAGES: u64 = 262_144;
pub const MAX_SLOTS: u64 = 16_777_215;

pub const NEW: u64 = 0;
pub const ACTIVE: u64 = 1;
pub const RETIRED: u64 = 2;

#[derive(Clone, Debug, Eq, PartialEq)]
pub struct Object {
    pub koid: u64,
    pub kind: u32,
    pub class: u64,
    pub supported: u64,
    pub exportable: bool,
    pub state: u64,
    pub count: u64,
    pub limit: u64,
}

#[derive(Clone, Copy, Debug, Eq, PartialEq)]
pub struct Handle {
    pub object: u64,
    pub rights: u64,
    pub flags: u64,
}

#[derive(Clone, Copy, Debug, Eq, PartialEq)]
pub enum Slot {
    Vacant(u64),
    Reserved(u64),
    Moving(u64),
    Occupied(u64, Handle),
}
impl Slot {
    pub fn generation(self) -> u64 {
        match self {
            Slot::Vacant(generation) | Slot::Reserved(generation) | Slot::Moving(generation) | Slot::Occupied(generation, _) => generation,
        }
    }
}

#[derive(Clone, Debug, Eq, PartialEq)]
pub struct Page {
    /// None: detached.
    pub frame: Option<u64>,
    pub high: u64,
    pub busy: u64,
    /// Empty if detached.
    pub slots: Vec<Slot>,
}

#[derive(Clone, Debug, Eq, PartialEq)]
pub enum Life {
    Active,
    TearingDown(u64),
    Retired,
}

#[derive(Clone, Debug, Eq, PartialEq)]
pub struct Table {
    pub limit: u64,
    pub mask: u64,
    pub life: Life,
    pub epoch: u64,
    pub pages: Vec<Page>,
    pub free_count: u64,
    /// Orders from their first.
    pub free: Vec<u64>,
    pub empty: Vec<u64>,
    pub detached: Vec<u64>,
}

#[derive(Clone, Debug, Eq, PartialEq)]
pub enum ClaimEntry {
    Move { slot: u64, handle: Handle, gets: u64 },
    Copy(Handle),
}
impl ClaimEntry {
    pub fn handle(&self) -> Handle {
        match self {
            ClaimEntry::Move { handle, .. } | ClaimEntry::Copy(handle) => *handle,
        }
    }
}

/// What a reservation finds in its table, and the pages that it would attach, in order.
#[derive(Clone, Debug, Eq, PartialEq)]
pub struct Snapshot {
    pub epoch: u64,
    pub free_slots: u64,
    pub pages: Vec<u64>,
}

#[derive(Clone, Debug, Eq, PartialEq)]
pub enum RowKind {
    Reservation { table: u64, slots: Vec<u64> },
    Claim { table: u64, entries: Vec<ClaimEntry> },
    Parcel(Vec<Handle>),
    /// Frames, rising, held for a reservation of so many slots, with the snapshot kept when they were taken.
    Plan { table: u64, count: u64, kept: Snapshot, frames: Vec<u64> },
}

#[derive(Clone, Debug, Eq, PartialEq)]
pub struct Row {
    pub id: u64,
    pub kind: RowKind,
}

#[derive(Clone, Debug, Eq, PartialEq)]
pub struct State {
    pub next: u64,
    pub row_capacity: u64,
    pub frames: u64,
    /// Free frames, rising.
    pub free_frames: Vec<u64>,
    pub objects: Vec<Object>,
    pub tables: Vec<Table>,
    pub rows: Vec<Row>,
}

pub fn page_slots(page: u64) -> u64 {
    if page == MAX_PAGES - 1 { SLOTS_PER_PAGE - 1 } else { SLOTS_PER_PAGE }
}

impl Table {
    /// The slots that the table's pages span, detached ones included.
    pub fn length(&self) -> u64 {
        (self.pages.len() as u64 * SLOTS_PER_PAGE).min(MAX_SLOTS)
    }
    pub fn slot(&self, index: u64) -> Option<Slot> {
        self.pages
            .get((index / SLOTS_PER_PAGE) as usize)?
            .slots
            .get((index % SLOTS_PER_PAGE) as usize)
            .copied()
    }
}

impl State {
    /// Every handle of the state: occupied slots, claims, parcels.
    pub fn handles(&self) -> Vec<Handle> {
        let mut all = Vec::new();
        for table in &self.tables {
            for page in &table.pages {
                for slot in &page.slots {
                    if let Slot::Occupied(_, handle) = slot {
                        all.push(*handle);
                    }
                }
            }
        }
        for row in &self.rows {
            match &row.kind {
                RowKind::Claim { entries, .. } => all.extend(entries.iter().map(ClaimEntry::handle)),
                RowKind::Parcel(handles) => all.extend(handles),
                RowKind::Reservation { .. } | RowKind::Plan { .. } => {}
            }
        }
        all
    }
}

impl RowKind {
    /// The frames that a row holds.
    pub fn frames(&self) -> &[u64] {
        match self {
            RowKind::Plan { frames, .. } => frames,
            _ => &[],
        }
    }
}

/// Numbers in their order: `a-b` for a run of two or more that rises or falls by one, commas between, `-` for none.
pub fn runs(out: &mut String, numbers: &[u64]) {
    if numbers.is_empty() {
        out.push('-');
        return;
    }
    let mut at = 0;
    while at < numbers.len() {
        if at > 0 {
            out.push(',');
        }
        let first = numbers[at];
        let mut end = at + 1;
        if end < numbers.len() {
            if numbers[end] == first.wrapping_add(1) {
                while end < numbers.len() && numbers[end] == numbers[end - 1].wrapping_add(1) {
                    end += 1;
                }
            } else if first == numbers[end].wrapping_add(1) {
                while end < numbers.len() && numbers[end - 1] == numbers[end].wrapping_add(1) {
                    end += 1;
                }
            }
        }
        if end - at >= 2 {
            let _ = write!(out, "{first}-{}", numbers[end - 1]);
        } else {
            let _ = write!(out, "{first}");
        }
        at = end;
    }
}

fn handle_text(out: &mut String, handle: Handle) {
    let _ = write!(out, "{}/{:x}/{}", handle.object, handle.rights, handle.flags);
}

pub fn text(state: &State) -> String {
    let mut out = String::with_capacity(1024);
    let _ = write!(
        out,
        "state\nnext {}\nrows {} of {}\nframes {} free ",
        state.next,
        state.rows.len(),
        state.row_capacity,
        state.frames
    );
    runs(&mut out, &state.free_frames);
    out.push('\n');
    for (number, object) in state.objects.iter().enumerate() {
        let _ = writeln!(
            out,
            "object {number} koid {} kind {} class {} supported {:x} exportable {} {} count {} limit {}",
            object.koid,
            object.kind,
            object.class,
            object.supported,
            u64::from(object.exportable),
            ["new", "active", "retired"][object.state as usize],
            object.count,
            object.limit
        );
    }
    for (number, table) in state.tables.iter().enumerate() {
        let _ = write!(out, "table {number} limit {} mask {:x} ", table.limit, table.mask);
        match table.life {
            Life::Active => out.push_str("active"),
            Life::TearingDown(cursor) => {
                let _ = write!(out, "tearing-down {cursor}");
            }
            Life::Retired => out.push_str("retired"),
        }
        let _ = write!(out, " epoch {} pages {} free {}\nfree-order ", table.epoch, table.pages.len(), table.free_count);
        runs(&mut out, &table.free);
        out.push_str("\nempty-order ");
        runs(&mut out, &table.empty);
        out.push_str("\ndetached-order ");
        runs(&mut out, &table.detached);
        out.push('\n');
        let mut at = 0;
        while at < table.pages.len() {
            let page = &table.pages[at];
            let Some(frame) = page.frame else {
                let mut end = at + 1;
                while end < table.pages.len() && table.pages[end].frame.is_none() && table.pages[end].high == page.high {
                    end += 1;
                }
                if end - at >= 2 {
                    let _ = writeln!(out, "page {at}-{} detached high {}", end - 1, page.high);
                } else {
                    let _ = writeln!(out, "page {at} detached high {}", page.high);
                }
                at = end;
                continue;
            };
            let _ = write!(out, "page {at} frame {frame} high {} busy {}\nslots", page.high, page.busy);
            let mut slot = 0;
            while slot < page.slots.len() {
                let mut end = slot + 1;
                while end < page.slots.len() && page.slots[end] == page.slots[slot] {
                    end += 1;
                }
                if end - slot >= 2 {
                    let _ = write!(out, " {slot}-{}:", end - 1);
                } else {
                    let _ = write!(out, " {slot}:");
                }
                match page.slots[slot] {
                    Slot::Vacant(generation) => {
                        let _ = write!(out, "v{generation}");
                    }
                    Slot::Reserved(generation) => {
                        let _ = write!(out, "r{generation}");
                    }
                    Slot::Moving(generation) => {
                        let _ = write!(out, "t{generation}");
                    }
                    Slot::Occupied(generation, handle) => {
                        let _ = write!(out, "o{generation}/");
                        handle_text(&mut out, handle);
                    }
                }
                slot = end;
            }
            out.push('\n');
            at += 1;
        }
    }
    for (rank, row) in state.rows.iter().enumerate() {
        let _ = write!(out, "row {rank} id {} ", row.id);
        match &row.kind {
            RowKind::Reservation { table, slots } => {
                let _ = write!(out, "reservation table {table} slots ");
                runs(&mut out, slots);
            }
            RowKind::Claim { table, entries } => {
                let _ = write!(out, "claim table {table}");
                for entry in entries {
                    match entry {
                        ClaimEntry::Move { slot, handle, gets } => {
                            let _ = write!(out, " M{slot}:");
                            handle_text(&mut out, *handle);
                            let _ = write!(out, ">{gets:x}");
                        }
                        ClaimEntry::Copy(handle) => {
                            out.push_str(" C:");
                            handle_text(&mut out, *handle);
                        }
                    }
                }
            }
            RowKind::Parcel(handles) => {
                out.push_str("parcel");
                for handle in handles {
                    out.push(' ');
                    handle_text(&mut out, *handle);
                }
            }
            RowKind::Plan { table, count, kept, frames } => {
                let _ = write!(out, "plan table {table} count {count} epoch {} free {} pages ", kept.epoch, kept.free_slots);
                runs(&mut out, &kept.pages);
                out.push_str(" frames ");
                runs(&mut out, frames);
            }
        }
        out.push('\n');
    }
    out.push_str("end\n");
    out
}

/// FNV-1a, 64 bits, over the bytes of a text.
pub fn hash(text: &str) -> u64 {
    let mut hash = 0xcbf2_9ce4_8422_2325u64;
    for byte in text.as_bytes() {
        hash = (hash ^ u64::from(*byte)).wrapping_mul(0x0000_0100_0000_01b3);
    }
    hash
}

struct Line<'a> {
    words: Vec<&'a str>,
    number: usize,
}
impl<'a> Line<'a> {
    fn fail<T>(&self, what: &str) -> Result<T, String> {
        Err(format!("state text, line {}: {what}", self.number))
    }
    fn word(&self, at: usize) -> Result<&'a str, String> {
        self.words.get(at).copied().map_or_else(|| self.fail("the line ends too soon"), Ok)
    }
    fn is(&self, at: usize, word: &str) -> Result<(), String> {
        if self.word(at)? == word { Ok(()) } else { self.fail(&format!("'{word}' expected in place {at}")) }
    }
    fn dec(&self, at: usize) -> Result<u64, String> {
        self.number_of(self.word(at)?, 10)
    }
    fn hex(&self, at: usize) -> Result<u64, String> {
        self.number_of(self.word(at)?, 16)
    }
    fn number_of(&self, text: &str, radix: u32) -> Result<u64, String> {
        u64::from_str_radix(text, radix).or_else(|_| self.fail(&format!("'{text}' is no number")))
    }
    fn runs(&self, text: &str) -> Result<Vec<u64>, String> {
        let mut all = Vec::new();
        if text == "-" {
            return Ok(all);
        }
        for part in text.split(',') {
            match part.split_once('-') {
                None => all.push(self.number_of(part, 10)?),
                Some((first, last)) => {
                    let (first, last) = (self.number_of(first, 10)?, self.number_of(last, 10)?);
                    if first.abs_diff(last) > MAX_SLOTS {
                        return self.fail("a run is too long");
                    }
                    if first <= last {
                        all.extend(first..=last);
                    } else {
                        all.extend((last..=first).rev());
                    }
                }
            }
        }
        Ok(all)
    }
    fn handle(&self, text: &str) -> Result<Handle, String> {
        let parts: Vec<&str> = text.split('/').collect();
        if parts.len() != 3 {
            return self.fail(&format!("'{text}' is no handle"));
        }
        Ok(Handle {
            object: self.number_of(parts[0], 10)?,
            rights: self.number_of(parts[1], 16)?,
            flags: self.number_of(parts[2], 10)?,
        })
    }
}

/// Reads the text form back.
pub fn parse(text: &str) -> Result<State, String> {
    let mut state = State {
        next: 0,
        row_capacity: 0,
        frames: 0,
        free_frames: Vec::new(),
        objects: Vec::new(),
        tables: Vec::new(),
        rows: Vec::new(),
    };
    let mut ended = false;
    for (index, raw) in text.lines().enumerate() {
        let line = Line { words: raw.split_whitespace().collect(), number: index + 1 };
        if ended {
            return line.fail("text after 'end'");
        }
        match line.word(0)? {
            "state" => {}
            "next" => state.next = line.dec(1)?,
            "rows" => {
                line.is(2, "of")?;
                state.row_capacity = line.dec(3)?;
            }
            "frames" => {
                state.frames = line.dec(1)?;
                line.is(2, "free")?;
                state.free_frames = line.runs(line.word(3)?)?;
            }
            "object" => {
                let name = line.word(12)?;
                let Some(object_state) = ["new", "active", "retired"].iter().position(|known| *known == name) else {
                    return line.fail("unknown state of an object");
                };
                state.objects.push(Object {
                    koid: line.dec(3)?,
                    kind: line.dec(5)? as u32,
                    class: line.dec(7)?,
                    supported: line.hex(9)?,
                    exportable: line.dec(11)? != 0,
                    state: object_state as u64,
                    count: line.dec(14)?,
                    limit: line.dec(16)?,
                });
            }
            "table" => {
                let (life, rest) = match line.word(6)? {
                    "active" => (Life::Active, 7),
                    "tearing-down" => (Life::TearingDown(line.dec(7)?), 8),
                    "retired" => (Life::Retired, 7),
                    _ => return line.fail("unknown state of a table"),
                };
                state.tables.push(Table {
                    limit: line.dec(3)?,
                    mask: line.hex(5)?,
                    life,
                    epoch: line.dec(rest + 1)?,
                    pages: Vec::new(),
                    free_count: line.dec(rest + 5)?,
                    free: Vec::new(),
                    empty: Vec::new(),
                    detached: Vec::new(),
                });
            }
            order @ ("free-order" | "empty-order" | "detached-order") => {
                let numbers = line.runs(line.word(1)?)?;
                let Some(table) = state.tables.last_mut() else {
                    return line.fail("an order before any table");
                };
                match order {
                    "free-order" => table.free = numbers,
                    "empty-order" => table.empty = numbers,
                    _ => table.detached = numbers,
                }
            }
            "page" => {
                let numbers = line.runs(line.word(1)?)?;
                let page = if line.word(2)? == "detached" {
                    Page { frame: None, high: line.dec(4)?, busy: 0, slots: Vec::new() }
                } else {
                    line.is(2, "frame")?;
                    Page { frame: Some(line.dec(3)?), high: line.dec(5)?, busy: line.dec(7)?, slots: Vec::new() }
                };
                let Some(table) = state.tables.last_mut() else {
                    return line.fail("a page before any table");
                };
                for number in numbers {
                    if number != table.pages.len() as u64 {
                        return line.fail("pages do not rise by one");
                    }
                    table.pages.push(page.clone());
                }
            }
            "slots" => {
                let mut slots = Vec::new();
                for word in &line.words[1..] {
                    let Some((numbers, what)) = word.split_once(':') else {
                        return line.fail("a slot without ':'");
                    };
                    if !what.is_ascii() || what.is_empty() {
                        return line.fail("a slot without a tag");
                    }
                    let (tag, rest) = what.split_at(1);
                    let slot = match tag {
                        "v" => Slot::Vacant(line.number_of(rest, 10)?),
                        "r" => Slot::Reserved(line.number_of(rest, 10)?),
                        "t" => Slot::Moving(line.number_of(rest, 10)?),
                        "o" => {
                            let Some((generation, handle)) = rest.split_once('/') else {
                                return line.fail("an occupied slot without a handle");
                            };
                            Slot::Occupied(line.number_of(generation, 10)?, line.handle(handle)?)
                        }
                        _ => return line.fail("unknown tag of a slot"),
                    };
                    for number in line.runs(numbers)? {
                        if number != slots.len() as u64 {
                            return line.fail("slots do not rise by one");
                        }
                        slots.push(slot);
                    }
                }
                match state.tables.last_mut().and_then(|table| table.pages.last_mut()) {
                    Some(page) => page.slots = slots,
                    None => return line.fail("slots before any page"),
                }
            }
            "row" => {
                line.is(2, "id")?;
                let id = line.dec(3)?;
                let kind = match line.word(4)? {
                    "reservation" => RowKind::Reservation { table: line.dec(6)?, slots: line.runs(line.word(8)?)? },
                    "claim" => {
                        let mut entries = Vec::new();
                        for word in &line.words[7..] {
                            let Some((head, rest)) = word.split_once(':') else {
                                return line.fail("a claim's entry without ':'");
                            };
                            if head == "C" {
                                entries.push(ClaimEntry::Copy(line.handle(rest)?));
                            } else {
                                let Some(slot) = head.strip_prefix('M') else {
                                    return line.fail("unknown entry of a claim");
                                };
                                let Some((handle, gets)) = rest.split_once('>') else {
                                    return line.fail("a move without '>'");
                                };
                                entries.push(ClaimEntry::Move {
                                    slot: line.number_of(slot, 10)?,
                                    handle: line.handle(handle)?,
                                    gets: line.number_of(gets, 16)?,
                                });
                            }
                        }
                        RowKind::Claim { table: line.dec(6)?, entries }
                    }
                    "parcel" => {
                        let mut handles = Vec::new();
                        for word in &line.words[5..] {
                            handles.push(line.handle(word)?);
                        }
                        RowKind::Parcel(handles)
                    }
                    "plan" => RowKind::Plan {
                        table: line.dec(6)?,
                        count: line.dec(8)?,
                        kept: Snapshot { epoch: line.dec(10)?, free_slots: line.dec(12)?, pages: line.runs(line.word(14)?)? },
                        frames: line.runs(line.word(16)?)?,
                    },
                    _ => return line.fail("unknown kind of row"),
                };
                state.rows.push(Row { id, kind });
            }
            "end" => ended = true,
            _ => return line.fail("unknown line"),
        }
    }
    if ended { Ok(state) } else { Err("state text: 'end' is missing".to_string()) }
}
