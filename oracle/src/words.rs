//! The state's words (docs/formats.md): a state from its words, with the check of document 01 (18), a state to its words, and
//! creation's parameters. This is the driver's own reading and writing; `second_reader.rs` is another, written apart from it.

use crate::state::*;

pub const HEADER: usize = 16;
pub const HEAD: usize = 16;
pub const ENTRY: usize = 5;
pub const SLOT: usize = 6;
pub const FRAME: usize = 384;
pub const OBJECT: usize = 8;
pub const ROW: usize = 390;
/// The owner word of a frame that a plan holds is this and the place of the plan's row.
pub const PLAN_OWNER: u64 = 16 * MAX_PAGES + 1;

pub struct Places {
    pub heads: usize,
    pub entries: usize,
    pub owners: usize,
    pub by_16: usize,
    pub by_256: usize,
    pub by_4096: usize,
    pub frames: usize,
    pub objects: usize,
    pub index: usize,
    pub rows: usize,
    pub end: usize,
}

pub fn places(tables: u64, frames: u64, objects: u64, rows: u64, pages: u64) -> Places {
    let (t, f, o, r, p) = (tables as usize, frames as usize, objects as usize, rows as usize, pages as usize);
    let heads = HEADER;
    let entries = heads + HEAD * t;
    let owners = entries + ENTRY * p;
    let by_16 = owners + f;
    let by_256 = by_16 + f.div_ceil(16);
    let by_4096 = by_256 + f.div_ceil(256);
    let frames = by_4096 + f.div_ceil(4096);
    let objects = frames + FRAME * f;
    let index = objects + OBJECT * o;
    let rows = index + 2 * r;
    Places { heads, entries, owners, by_16, by_256, by_4096, frames, objects, index, rows, end: rows + ROW * r }
}

/// Creation: the state that the parameters ask for, or None (18).
pub fn create(params: &[u64]) -> Option<State> {
    let word = |at: usize| params.get(at).copied();
    let (tables, frames, objects, rows) = (word(0)?, word(1)?, word(2)?, word(3)?);
    if !(1..=16).contains(&tables) || frames > 65_535 || !(1..=4096).contains(&objects) || !(1..=256).contains(&rows) {
        return None;
    }
    let mut state = State {
        next: 1,
        row_capacity: rows,
        frames,
        free_frames: (0..frames).collect(),
        objects: Vec::new(),
        tables: Vec::new(),
        rows: Vec::new(),
    };
    let mut at = 4;
    for _ in 0..tables {
        let (limit, seed) = (word(at)?, word(at + 1)?);
        at += 2;
        if !(1..=MAX_PAGES).contains(&limit) {
            return None;
        }
        state.tables.push(Table {
            limit,
            mask: seed & 0x00FF_FFFF_FFFF_FFFF,
            life: Life::Active,
            epoch: 0,
            pages: Vec::new(),
            free_count: 0,
            free: Vec::new(),
            empty: Vec::new(),
            detached: Vec::new(),
        });
    }
    for _ in 0..objects {
        let mut f = [0; 6];
        for (place, slot) in f.iter_mut().enumerate() {
            *slot = word(at + place)?;
        }
        at += 6;
        if f[0] == 0 || f[1] > u64::from(u32::MAX) || f[2] > 2 || f[4] > 1 || f[5] > u64::from(u32::MAX) {
            return None;
        }
        state.objects.push(Object {
            koid: f[0],
            kind: f[1] as u32,
            class: f[2],
            supported: f[3],
            exportable: f[4] == 1,
            state: NEW,
            count: 0,
            limit: f[5],
        });
    }
    Some(state)
}

/// The words of a state. Rows stand in the places that `place_of` gives by rank; words out of use are 0.
pub fn encode(state: &State) -> Vec<u64> {
    encode_with(state, |rank| rank)
}

pub fn encode_with(state: &State, place_of: impl Fn(usize) -> usize) -> Vec<u64> {
    let pages: u64 = state.tables.iter().map(|table| table.limit).sum();
    let at = places(
        state.tables.len() as u64,
        state.frames,
        state.objects.len() as u64,
        state.row_capacity,
        pages,
    );
    let mut w = vec![0; at.end];
    w[0] = 1;
    w[1] = state.tables.len() as u64;
    w[2] = state.frames;
    w[3] = state.objects.len() as u64;
    w[4] = state.row_capacity;
    w[5] = state.next;
    w[6] = state.rows.len() as u64;
    w[7] = state.free_frames.len() as u64;
    w[8] = pages;
    let mut first_entry = 0;
    for (number, table) in state.tables.iter().enumerate() {
        let head = at.heads + HEAD * number;
        w[head] = table.limit;
        w[head + 1] = table.mask;
        match table.life {
            Life::Active => {}
            Life::TearingDown(cursor) => {
                w[head + 2] = 1;
                w[head + 3] = cursor;
            }
            Life::Retired => w[head + 2] = 2,
        }
        w[head + 4] = table.epoch;
        w[head + 5] = table.pages.len() as u64;
        w[head + 6] = table.free.first().map_or(0, |slot| slot + 1);
        w[head + 7] = table.free_count;
        w[head + 8] = table.empty.first().map_or(0, |page| page + 1);
        w[head + 9] = table.detached.first().map_or(0, |page| page + 1);
        w[head + 10] = first_entry as u64;
        for (page_number, page) in table.pages.iter().enumerate() {
            let entry = at.entries + ENTRY * (first_entry + page_number);
            w[entry + 1] = page.high;
            if let Some(frame) = page.frame {
                w[entry] = frame + 1;
                w[entry + 2] = page.busy;
                w[at.owners + frame as usize] = (first_entry + page_number) as u64 + 1;
                for (slot_number, slot) in page.slots.iter().enumerate() {
                    let words = at.frames + FRAME * frame as usize + SLOT * slot_number;
                    w[words + 1] = slot.generation();
                    match slot {
                        Slot::Vacant(_) => {}
                        Slot::Reserved(_) => w[words] = 1,
                        Slot::Moving(_) => w[words] = 2,
                        Slot::Occupied(_, handle) => {
                            w[words] = 3;
                            w[words + 2] = handle.object;
                            w[words + 3] = handle.rights;
                            w[words + 4] = handle.flags;
                        }
                    }
                }
            }
        }
        let slot_words = |index: u64| -> Option<usize> {
            let frame = table.pages.get((index / 64) as usize)?.frame?;
            Some(at.frames + FRAME * frame as usize + SLOT * (index % 64) as usize)
        };
        for (place, slot) in table.free.iter().enumerate() {
            if let Some(words) = slot_words(*slot) {
                w[words + 2] = table.free.get(place + 1).map_or(0, |next| next + 1);
                w[words + 3] = if place == 0 { 0 } else { table.free[place - 1] + 1 };
            }
        }
        for (place, page) in table.empty.iter().enumerate() {
            let entry = at.entries + ENTRY * (first_entry + *page as usize);
            w[entry + 3] = table.empty.get(place + 1).map_or(0, |next| next + 1);
            w[entry + 4] = if place == 0 { 0 } else { table.empty[place - 1] + 1 };
        }
        for (place, page) in table.detached.iter().enumerate() {
            let entry = at.entries + ENTRY * (first_entry + *page as usize);
            w[entry + 3] = table.detached.get(place + 1).map_or(0, |next| next + 1);
        }
        for (rank, row) in state.rows.iter().enumerate() {
            let mark = |w: &mut Vec<u64>, slot: u64, position: usize| {
                if let Some(words) = slot_words(slot) {
                    w[words + 2] = place_of(rank) as u64;
                    w[words + 3] = position as u64;
                }
            };
            match &row.kind {
                RowKind::Reservation { table: of, slots } if *of == number as u64 => {
                    for (position, slot) in slots.iter().enumerate() {
                        mark(&mut w, *slot, position);
                    }
                }
                RowKind::Claim { table: of, entries } if *of == number as u64 => {
                    for (position, entry) in entries.iter().enumerate() {
                        if let ClaimEntry::Move { slot, .. } = entry {
                            mark(&mut w, *slot, position);
                        }
                    }
                }
                _ => {}
            }
        }
        first_entry += table.limit as usize;
    }
    for frame in &state.free_frames {
        let frame = *frame as usize;
        w[at.by_16 + frame / 16] += 1;
        w[at.by_256 + frame / 256] += 1;
        w[at.by_4096 + frame / 4096] += 1;
    }
    for (number, object) in state.objects.iter().enumerate() {
        let words = at.objects + OBJECT * number;
        w[words..words + OBJECT].copy_from_slice(&[
            object.koid,
            u64::from(object.kind),
            object.class,
            object.supported,
            u64::from(object.exportable),
            object.state,
            object.count,
            object.limit,
        ]);
    }
    let mut used = vec![false; state.row_capacity as usize];
    for (rank, row) in state.rows.iter().enumerate() {
        let place = place_of(rank);
        used[place] = true;
        w[at.index + 2 * rank] = place as u64;
        let words = at.rows + ROW * place;
        w[words] = row.id;
        w[at.index + 2 * place + 1] = rank as u64;
        let put = |w: &mut Vec<u64>, position: usize, entry: [u64; 6]| {
            let place = words + 6 + 6 * position;
            w[place..place + 6].copy_from_slice(&entry);
        };
        match &row.kind {
            RowKind::Reservation { table, slots } => {
                w[words + 1] = 1;
                w[words + 2] = *table;
                w[words + 3] = slots.len() as u64;
                for (position, slot) in slots.iter().enumerate() {
                    put(&mut w, position, [*slot, 0, 0, 0, 0, 0]);
                }
            }
            RowKind::Claim { table, entries } => {
                w[words + 1] = 2;
                w[words + 2] = *table;
                w[words + 3] = entries.len() as u64;
                for (position, entry) in entries.iter().enumerate() {
                    put(
                        &mut w,
                        position,
                        match entry {
                            ClaimEntry::Move { slot, handle, gets } => [0, *slot, handle.object, handle.rights, handle.flags, *gets],
                            ClaimEntry::Copy(handle) => [1, 0, handle.object, handle.rights, handle.flags, 0],
                        },
                    );
                }
            }
            RowKind::Parcel(handles) => {
                w[words + 1] = 3;
                w[words + 3] = handles.len() as u64;
                for (position, handle) in handles.iter().enumerate() {
                    put(&mut w, position, [0, 0, handle.object, handle.rights, handle.flags, 0]);
                }
            }
            RowKind::Plan { table, count, kept, frames } => {
                w[words + 1] = 4;
                w[words + 2] = *table;
                w[words + 3] = frames.len() as u64;
                w[words + 4] = *count;
                w[words + 5] = kept.epoch;
                for (position, (page, frame)) in kept.pages.iter().zip(frames).enumerate() {
                    put(&mut w, position, [*page, *frame, 0, 0, 0, 0]);
                    w[at.owners + *frame as usize] = PLAN_OWNER + place as u64;
                }
                w[words + 6 + 2] = kept.free_slots;
            }
        }
    }
    let mut rank = state.rows.len();
    for (place, used) in used.iter().enumerate() {
        if !used {
            w[at.index + 2 * rank] = place as u64;
            w[at.index + 2 * place + 1] = rank as u64;
            rank += 1;
        }
    }
    w
}

/// Fills the words of a state that are out of use, of free rows and of free frames: they "don't count", so that the state is the same.
pub fn fill_out_of_use(w: &mut [u64], mut word: impl FnMut() -> u64) {
    let (tables, pages) = (w[1] as usize, w[8]);
    let at = places(w[1], w[2], w[3], w[4], pages);
    let mut free: Vec<std::ops::Range<usize>> = vec![9..HEADER];
    for table in 0..tables {
        let head = at.heads + HEAD * table;
        if w[head + 2] != 1 {
            free.push(head + 3..head + 4);
        }
        free.push(head + 11..head + HEAD);
        let entry = |page: u64| at.entries + ENTRY * (w[head + 10] + page) as usize;
        free.push(entry(w[head + 5])..entry(w[head]));
        for page in 0..w[head + 5] {
            let words = entry(page);
            match (w[words], w[words + 2]) {
                (0, _) => free.extend([words + 2..words + 3, words + 4..words + 5]),
                (_, 0) => {}
                _ => free.push(words + 3..words + 5),
            }
            if w[words] != 0 {
                let frame = at.frames + FRAME * (w[words] - 1) as usize;
                for slot in 0..SLOTS_PER_PAGE {
                    let words = frame + SLOT * slot as usize;
                    match w[words] {
                        _ if slot >= page_slots(page) => free.push(words..words + SLOT),
                        3 => free.push(words + 5..words + 6),
                        _ => free.push(words + 4..words + 6),
                    }
                }
            }
        }
    }
    for frame in 0..w[2] as usize {
        if w[at.owners + frame] == 0 || w[at.owners + frame] >= PLAN_OWNER {
            free.push(at.frames + FRAME * frame..at.frames + FRAME * (frame + 1));
        }
    }
    for rank in 0..w[4] {
        let words = at.rows + ROW * w[at.index + 2 * rank as usize] as usize;
        if rank >= w[6] {
            free.push(words..words + ROW);
            continue;
        }
        let (what, count) = (w[words + 1], w[words + 3] as usize);
        if what == 3 {
            free.push(words + 2..words + 3);
        }
        if what == 4 {
            // Its first entry's word 2 is in use even where it has no entry.
            for position in 0..64 {
                let entry = words + 6 + 6 * position;
                if position >= count {
                    free.push(entry..entry + 2);
                }
                free.push(if position == 0 { entry + 3..entry + 6 } else { entry + 2..entry + 6 });
            }
            continue;
        }
        free.push(words + 4..words + 6);
        for position in 0..count {
            let entry = words + 6 + 6 * position;
            match (what, w[entry]) {
                (1, _) => free.push(entry + 1..entry + 6),
                (2, 0) => {}
                (2, _) => free.extend([entry + 1..entry + 2, entry + 5..entry + 6]),
                _ => free.extend([entry..entry + 2, entry + 5..entry + 6]),
            }
        }
        free.push(words + 6 + 6 * count..words + ROW);
    }
    for place in free.into_iter().flatten() {
        w[place] = word();
    }
}

fn need(holds: bool, what: &str) -> Result<(), String> {
    if holds { Ok(()) } else { Err(what.to_string()) }
}

/// The state of some words, or what is not well formed in them (18).
pub fn decode(w: &[u64]) -> Result<State, String> {
    need(w.len() >= HEADER, "fewer words than a header")?;
    need(w[0] == 1, "the format's version is not 1")?;
    let (tables, frames, objects, rows, pages) = (w[1], w[2], w[3], w[4], w[8]);
    need((1..=16).contains(&tables), "tables out of range")?;
    need(frames <= 65_535, "frames out of range")?;
    need((1..=4096).contains(&objects), "objects out of range")?;
    need((1..=256).contains(&rows), "rows out of range")?;
    need(w.len() >= HEADER + HEAD * tables as usize, "the table heads are cut off")?;
    let mut sum = 0;
    for number in 0..tables as usize {
        let limit = w[HEADER + HEAD * number];
        need((1..=MAX_PAGES).contains(&limit), "a table's page limit is out of range")?;
        need(w[HEADER + HEAD * number + 10] == sum, "a table's first page entry is wrong")?;
        sum += limit;
    }
    need(pages == sum, "the sum of the page limits is wrong")?;
    let at = places(tables, frames, objects, rows, pages);
    need(w.len() >= at.end, "the words are cut off")?;
    need(w[5] >= 1, "the next id is 0")?;
    need(w[6] <= rows, "more rows in use than there are")?;

    let mut state = State {
        next: w[5],
        row_capacity: rows,
        frames,
        free_frames: Vec::new(),
        objects: Vec::new(),
        tables: Vec::new(),
        rows: Vec::new(),
    };
    // Frames.
    let mut planned = 0;
    let mut by_16 = vec![0; (frames as usize).div_ceil(16)];
    let mut by_256 = vec![0; (frames as usize).div_ceil(256)];
    let mut by_4096 = vec![0; (frames as usize).div_ceil(4096)];
    for frame in 0..frames as usize {
        if w[at.owners + frame] == 0 {
            state.free_frames.push(frame as u64);
            by_16[frame / 16] += 1;
            by_256[frame / 256] += 1;
            by_4096[frame / 4096] += 1;
        }
        if (PLAN_OWNER..PLAN_OWNER + rows).contains(&w[at.owners + frame]) {
            planned += 1;
        }
    }
    need(w[7] == state.free_frames.len() as u64, "the count of free frames is wrong")?;
    need(w[at.by_16..at.by_256] == by_16, "a count of free frames in 16 is wrong")?;
    need(w[at.by_256..at.by_4096] == by_256, "a count of free frames in 256 is wrong")?;
    need(w[at.by_4096..at.frames] == by_4096, "a count of free frames in 4,096 is wrong")?;
    // Objects.
    for number in 0..objects as usize {
        let o = &w[at.objects + OBJECT * number..at.objects + OBJECT * (number + 1)];
        need(o[0] != 0, "a koid is 0")?;
        need(o[1] <= u64::from(u32::MAX), "a kind is too wide")?;
        need(o[2] <= 2, "a class is unknown")?;
        need(o[4] <= 1, "exportable is neither 0 nor 1")?;
        need(o[5] <= 2, "an object's state is unknown")?;
        need(o[7] <= u64::from(u32::MAX), "a limit is too large")?;
        need(o[6] <= o[7], "an object's count is above its limit")?;
        need(o[5] != NEW || o[6] == 0, "a new object has a count")?;
        need(o[5] != ACTIVE || o[6] > 0, "an active object has no count")?;
        state.objects.push(Object {
            koid: o[0],
            kind: o[1] as u32,
            class: o[2],
            supported: o[3],
            exportable: o[4] == 1,
            state: o[5],
            count: o[6],
            limit: o[7],
        });
    }
    let handle_of = |object: u64, rights: u64, flags: u64| -> Result<Handle, String> {
        need(object < objects, "a handle's object is unknown")?;
        need(flags <= 3, "a handle's flags are unknown")?;
        Ok(Handle { object, rights, flags })
    };
    // Tables, pages, slots and orders. `marked` counts the Reserved and TransferReserved slots, each found again from its row.
    let mut owned = 0;
    let mut marked = 0;
    for number in 0..tables as usize {
        let h = &w[at.heads + HEAD * number..at.heads + HEAD * (number + 1)];
        need(h[1] >> 56 == 0, "a mask is too wide")?;
        need(h[5] <= h[0], "a table has more pages than its limit")?;
        let life = match h[2] {
            0 => Life::Active,
            1 => {
                need(h[3] <= MAX_SLOTS, "a teardown cursor is out of range")?;
                Life::TearingDown(h[3])
            }
            2 => Life::Retired,
            _ => return Err("a table's lifecycle is unknown".to_string()),
        };
        let mut table = Table {
            limit: h[0],
            mask: h[1],
            life,
            epoch: h[4],
            pages: Vec::new(),
            free_count: h[7],
            free: Vec::new(),
            empty: Vec::new(),
            detached: Vec::new(),
        };
        let (mut vacant, mut empty, mut detached) = (0, 0, 0);
        for page in 0..h[5] {
            let number_of_entry = h[10] + page;
            let e = at.entries + ENTRY * number_of_entry as usize;
            need((1..=GENERATION_LIMIT).contains(&w[e + 1]), "a high mark is out of range")?;
            let mut slots = Vec::new();
            let mut busy = 0;
            let frame = match w[e] {
                0 => {
                    detached += 1;
                    None
                }
                frame => {
                    need(frame <= frames, "a page's frame is unknown")?;
                    need(w[at.owners + frame as usize - 1] == number_of_entry + 1, "a page's frame is not its own")?;
                    owned += 1;
                    for slot in 0..page_slots(page) as usize {
                        let s = &w[at.frames + FRAME * (frame as usize - 1) + SLOT * slot..][..SLOT];
                        need((1..=w[e + 1]).contains(&s[1]), "a generation is 0 or above its page's high mark")?;
                        slots.push(match s[0] {
                            0 => {
                                vacant += 1;
                                Slot::Vacant(s[1])
                            }
                            1 => {
                                busy += 1;
                                marked += 1;
                                Slot::Reserved(s[1])
                            }
                            2 => {
                                busy += 1;
                                marked += 1;
                                Slot::Moving(s[1])
                            }
                            3 => {
                                busy += 1;
                                need(table.life != Life::Retired, "a retired table has an occupied slot")?;
                                Slot::Occupied(s[1], handle_of(s[2], s[3], s[4])?)
                            }
                            _ => return Err("a slot's tag is unknown".to_string()),
                        });
                    }
                    need(w[e + 2] == busy, "a count of busy slots is wrong")?;
                    if busy == 0 {
                        empty += 1;
                    }
                    Some(frame - 1)
                }
            };
            table.pages.push(Page { frame, high: w[e + 1], busy, slots });
        }
        need(h[7] == vacant, "a count of free slots is wrong")?;
        // The free order.
        let (mut next, mut previous) = (h[6], 0);
        while next != 0 {
            need((table.free.len() as u64) < vacant, "a free order is too long")?;
            let slot = next - 1;
            need(matches!(table.slot(slot), Some(Slot::Vacant(_))), "a free order holds a slot that is not vacant")?;
            let frame = table.pages[(slot / 64) as usize].frame.unwrap_or(0) as usize;
            let s = at.frames + FRAME * frame + SLOT * (slot % 64) as usize;
            need(w[s + 3] == previous, "a free order's way back is wrong")?;
            table.free.push(slot);
            previous = next;
            next = w[s + 2];
        }
        need(table.free.len() as u64 == vacant, "a free order lacks a vacant slot")?;
        let entry = |page: u64| at.entries + ENTRY * (h[10] + page) as usize;
        let (mut next, mut previous) = (h[8], 0);
        while next != 0 {
            need((table.empty.len() as u64) < empty, "an order of empty pages is too long")?;
            let page = next - 1;
            let fits = table.pages.get(page as usize).is_some_and(|page| page.frame.is_some() && page.busy == 0);
            need(fits, "an order of empty pages holds another page")?;
            need(w[entry(page) + 4] == previous, "an order of empty pages' way back is wrong")?;
            table.empty.push(page);
            previous = next;
            next = w[entry(page) + 3];
        }
        need(table.empty.len() as u64 == empty, "an order of empty pages lacks a page")?;
        let mut next = h[9];
        while next != 0 {
            need((table.detached.len() as u64) < detached, "an order of detached pages is too long")?;
            let page = next - 1;
            let fits = table.pages.get(page as usize).is_some_and(|page| page.frame.is_none());
            need(fits, "an order of detached pages holds another page")?;
            table.detached.push(page);
            next = w[entry(page) + 3];
        }
        need(table.detached.len() as u64 == detached, "an order of detached pages lacks a page")?;
        state.tables.push(table);
    }
    need(owned + planned == frames - w[7], "a frame is owned by no page")?;
    // Rows.
    let mut seen = vec![false; rows as usize];
    let mut found = 0;
    let mut held = 0;
    let mut last_id = 0;
    for rank in 0..rows as usize {
        let place = w[at.index + 2 * rank];
        need(place < rows && !seen[place as usize], "the row index is no permutation")?;
        seen[place as usize] = true;
        need(w[at.index + 2 * place as usize + 1] == rank as u64, "a row's rank is not its position in the row index")?;
        let r = at.rows + ROW * place as usize;
        if rank as u64 >= w[6] {
            continue;
        }
        let id = w[r];
        need(id > last_id && id < state.next, "row ids do not rise below the next id")?;
        last_id = id;
        let count = w[r + 3];
        need((1..=64).contains(&count) || w[r + 1] == 4, "a row's count is out of range")?;
        let entries = |position: usize| &w[r + 6 + 6 * position..r + 12 + 6 * position];
        let of_table = |state: &State| -> Result<u64, String> {
            need(w[r + 2] < tables, "a row's table is unknown")?;
            need(state.tables[w[r + 2] as usize].life == Life::Active, "a table that is not active has an open row")?;
            Ok(w[r + 2])
        };
        let mut marks = |state: &State, table: u64, slot: u64, position: usize, tag: u64| -> Result<(), String> {
            let table = &state.tables[table as usize];
            let fits = match table.slot(slot) {
                Some(Slot::Reserved(_)) => tag == 1,
                Some(Slot::Moving(_)) => tag == 2,
                _ => false,
            };
            need(fits, "a row's slot is not so marked")?;
            let frame = table.pages[(slot / 64) as usize].frame.unwrap_or(0) as usize;
            let s = at.frames + FRAME * frame + SLOT * (slot % 64) as usize;
            need(w[s + 2] == place && w[s + 3] == position as u64, "a marked slot does not name its row")?;
            found += 1;
            Ok(())
        };
        let kind = match w[r + 1] {
            1 => {
                let table = of_table(&state)?;
                let mut slots = Vec::new();
                for position in 0..count as usize {
                    let slot = entries(position)[0];
                    marks(&state, table, slot, position, 1)?;
                    slots.push(slot);
                }
                RowKind::Reservation { table, slots }
            }
            2 => {
                let table = of_table(&state)?;
                let mut list = Vec::new();
                for position in 0..count as usize {
                    let e = entries(position);
                    let handle = handle_of(e[2], e[3], e[4])?;
                    list.push(match e[0] {
                        0 => {
                            marks(&state, table, e[1], position, 2)?;
                            ClaimEntry::Move { slot: e[1], handle, gets: e[5] }
                        }
                        1 => ClaimEntry::Copy(handle),
                        _ => return Err("a claim's operation is unknown".to_string()),
                    });
                }
                RowKind::Claim { table, entries: list }
            }
            3 => {
                let mut handles = Vec::new();
                for position in 0..count as usize {
                    let e = entries(position);
                    handles.push(handle_of(e[2], e[3], e[4])?);
                }
                RowKind::Parcel(handles)
            }
            4 => {
                need(w[r + 2] < tables, "a row's table is unknown")?;
                need((1..=64).contains(&w[r + 4]), "a plan's count is out of range")?;
                let kept_free = entries(0)[2];
                need(kept_free <= MAX_SLOTS, "a plan's kept free slots are out of range")?;
                let mut kept = Snapshot { epoch: w[r + 5], free_slots: kept_free, pages: Vec::new() };
                let mut missing = w[r + 4].saturating_sub(kept_free);
                let mut list: Vec<u64> = Vec::new();
                need(count <= 64, "a plan has more entries than a row")?;
                for position in 0..count as usize {
                    let (page, frame) = (entries(position)[0], entries(position)[1]);
                    need(missing > 0, "a plan holds a frame that it does not need")?;
                    need(page < MAX_PAGES, "a plan's page is out of range")?;
                    need(frame < frames && list.last().is_none_or(|last| *last < frame), "a plan's frames do not rise below the frames")?;
                    need(w[at.owners + frame as usize] == PLAN_OWNER + place, "a plan's frame is not its own")?;
                    missing = missing.saturating_sub(page_slots(page));
                    kept.pages.push(page);
                    list.push(frame);
                    held += 1;
                }
                need(missing == 0, "a plan lacks a frame")?;
                RowKind::Plan { table: w[r + 2], count: w[r + 4], kept, frames: list }
            }
            _ => return Err("a row's kind is unknown".to_string()),
        };
        state.rows.push(Row { id, kind });
    }
    need(found == marked, "a marked slot stands in no row")?;
    need(held == planned, "a frame is held by no plan")?;
    let mut counts = vec![0; objects as usize];
    for handle in state.handles() {
        counts[handle.object as usize] += 1;
    }
    for (object, count) in state.objects.iter().zip(counts) {
        need(object.count == count, "an object's count is wrong")?;
    }
    Ok(state)
}
