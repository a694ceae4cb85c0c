//! A second reader of the state's words, written from docs/formats.md and the text form of docs/oracle.md alone. It shares nothing
//! with `words.rs` and `state.rs`: it walks the words and prints. Where a word in use contradicts another it says so instead.

struct Words<'a> {
    w: &'a [u64],
}

impl Words<'_> {
    fn at(&self, place: u64) -> Result<u64, String> {
        usize::try_from(place)
            .ok()
            .and_then(|place| self.w.get(place).copied())
            .ok_or_else(|| format!("word {place} is not there"))
    }
}

fn wrong<T>(what: impl Into<String>) -> Result<T, String> {
    Err(what.into())
}

/// Appends numbers in their order, runs of +1 or -1 as `first-last`.
#[derive(Default)]
struct Runs {
    text: String,
    first: Option<u64>,
    last: u64,
    /// 0 unknown, 1 rising, 2 falling.
    way: u8,
}
impl Runs {
    fn close(&mut self) {
        if let Some(first) = self.first {
            if !self.text.is_empty() {
                self.text.push(',');
            }
            self.text.push_str(&first.to_string());
            if self.way != 0 {
                self.text.push('-');
                self.text.push_str(&self.last.to_string());
            }
        }
    }
    fn add(&mut self, number: u64) {
        if self.first.is_some() {
            let rises = self.last.checked_add(1) == Some(number);
            let falls = number.checked_add(1) == Some(self.last);
            if (rises && self.way != 2) || (falls && self.way != 1) {
                self.way = if rises { 1 } else { 2 };
                self.last = number;
                return;
            }
        }
        self.close();
        self.first = Some(number);
        self.last = number;
        self.way = 0;
    }
    fn finish(mut self) -> String {
        if self.first.is_none() {
            return "-".to_string();
        }
        self.close();
        self.text
    }
}

/// The text form of a state's words.
pub fn text(words: &[u64]) -> Result<String, String> {
    let words = Words { w: words };
    let version = words.at(0)?;
    if version != 1 {
        return wrong(format!("the format's version is {version}"));
    }
    let (t, f, o, r) = (words.at(1)?, words.at(2)?, words.at(3)?, words.at(4)?);
    let next_id = words.at(5)?;
    let rows_used = words.at(6)?;
    let frames_free = words.at(7)?;
    let p = words.at(8)?;
    if t > 16 || f > 65_535 || o > 4096 || r > 256 || p > 16 * 262_144 {
        return wrong("the header's counts are out of range");
    }
    let heads = 16u64;
    let entries = heads + 16 * t;
    let owners = entries + 5 * p;
    let sixteens = owners + f;
    let slots_region = sixteens + f.div_ceil(16) + f.div_ceil(256) + f.div_ceil(4096);
    let objects = slots_region + 384 * f;
    let index = objects + 8 * o;
    let rows = index + 2 * r;

    let mut out = String::from("state\n");
    out += &format!("next {next_id}\nrows {rows_used} of {r}\n");
    let mut free = Runs::default();
    let mut free_seen = 0;
    for frame in 0..f {
        if words.at(owners + frame)? == 0 {
            free.add(frame);
            free_seen += 1;
        }
    }
    if free_seen != frames_free {
        return wrong(format!("{frames_free} frames are said to be free, {free_seen} are"));
    }
    // The three levels of counts.
    let mut level = sixteens;
    for size in [16u64, 256, 4096] {
        for group in 0..f.div_ceil(size) {
            let mut count = 0;
            for frame in group * size..f.min((group + 1) * size) {
                if words.at(owners + frame)? == 0 {
                    count += 1;
                }
            }
            if words.at(level)? != count {
                return wrong(format!("word {level} counts free frames wrongly"));
            }
            level += 1;
        }
    }
    out += &format!("frames {f} free {}\n", free.finish());

    for number in 0..o {
        let at = objects + 8 * number;
        let state = match words.at(at + 5)? {
            0 => "new",
            1 => "active",
            2 => "retired",
            other => return wrong(format!("object {number} has state {other}")),
        };
        out += &format!(
            "object {number} koid {} kind {} class {} supported {:x} exportable {} {state} count {} limit {}\n",
            words.at(at)?,
            words.at(at + 1)?,
            words.at(at + 2)?,
            words.at(at + 3)?,
            words.at(at + 4)?,
            words.at(at + 6)?,
            words.at(at + 7)?
        );
    }

    for number in 0..t {
        let head = heads + 16 * number;
        let life = match words.at(head + 2)? {
            0 => "active".to_string(),
            1 => format!("tearing-down {}", words.at(head + 3)?),
            2 => "retired".to_string(),
            other => return wrong(format!("table {number} has lifecycle {other}")),
        };
        let page_count = words.at(head + 5)?;
        let first_entry = words.at(head + 10)?;
        let limit = words.at(head)?;
        if page_count > limit || first_entry + limit > p {
            return wrong(format!("table {number} has more pages than entries"));
        }
        out += &format!(
            "table {number} limit {limit} mask {:x} {life} epoch {} pages {page_count} free {}\n",
            words.at(head + 1)?,
            words.at(head + 4)?,
            words.at(head + 7)?
        );
        let entry = |page: u64| entries + 5 * (first_entry + page);
        let slot_at = |slot: u64| -> Result<u64, String> {
            if slot / 64 >= page_count {
                return wrong(format!("table {number}: slot {slot} lies beyond its pages"));
            }
            let frame = words.at(entry(slot / 64))?;
            if frame == 0 || frame > f {
                return wrong(format!("table {number}: slot {slot} has no frame"));
            }
            Ok(slots_region + 384 * (frame - 1) + 6 * (slot % 64))
        };
        // Orders, by their links.
        let mut free_order = Runs::default();
        let mut link = words.at(head + 6)?;
        let mut back = 0;
        let mut length = 0u64;
        while link != 0 {
            let at = slot_at(link - 1)?;
            if words.at(at)? != 0 || words.at(at + 3)? != back || length > page_count * 64 {
                return wrong(format!("table {number}: the free order breaks at slot {}", link - 1));
            }
            free_order.add(link - 1);
            back = link;
            link = words.at(at + 2)?;
            length += 1;
        }
        out += &format!("free-order {}\n", free_order.finish());
        let mut empty_order = Runs::default();
        let mut link = words.at(head + 8)?;
        let mut back = 0;
        let mut length = 0u64;
        while link != 0 {
            if link > page_count || length > page_count || words.at(entry(link - 1) + 4)? != back || words.at(entry(link - 1))? == 0 {
                return wrong(format!("table {number}: the order of empty pages breaks at page {}", link - 1));
            }
            empty_order.add(link - 1);
            back = link;
            link = words.at(entry(link - 1) + 3)?;
            length += 1;
        }
        out += &format!("empty-order {}\n", empty_order.finish());
        let mut detached_order = Runs::default();
        let mut link = words.at(head + 9)?;
        let mut length = 0u64;
        while link != 0 {
            if link > page_count || length > page_count || words.at(entry(link - 1))? != 0 {
                return wrong(format!("table {number}: the order of detached pages breaks at page {}", link - 1));
            }
            detached_order.add(link - 1);
            link = words.at(entry(link - 1) + 3)?;
            length += 1;
        }
        out += &format!("detached-order {}\n", detached_order.finish());

        let mut page = 0;
        while page < page_count {
            let frame = words.at(entry(page))?;
            let high = words.at(entry(page) + 1)?;
            if frame == 0 {
                let mut last = page;
                while last + 1 < page_count && words.at(entry(last + 1))? == 0 && words.at(entry(last + 1) + 1)? == high {
                    last += 1;
                }
                if last > page {
                    out += &format!("page {page}-{last} detached high {high}\n");
                } else {
                    out += &format!("page {page} detached high {high}\n");
                }
                page = last + 1;
                continue;
            }
            if frame > f || words.at(owners + frame - 1)? != first_entry + page + 1 {
                return wrong(format!("table {number}: page {page} does not own its frame"));
            }
            out += &format!("page {page} frame {} high {high} busy {}\nslots", frame - 1, words.at(entry(page) + 2)?);
            let slots_here = if page == 262_143 { 63 } else { 64 };
            let mut pending: Option<(u64, u64, String)> = None;
            for place in 0..slots_here {
                let at = slots_region + 384 * (frame - 1) + 6 * place;
                let generation = words.at(at + 1)?;
                let shown = match words.at(at)? {
                    0 => format!("v{generation}"),
                    tag @ (1 | 2) => {
                        // Its row must list it in the position that it names.
                        let row = rows + 390 * words.at(at + 2)?;
                        let listed = row + 6 + 6 * words.at(at + 3)?;
                        let field = if tag == 1 { 0 } else { 1 };
                        if words.at(at + 2)? >= r
                            || words.at(row + 1)? != tag
                            || words.at(at + 3)? >= words.at(row + 3)?
                            || words.at(listed + field)? != page * 64 + place
                            || words.at(row + 2)? != number
                        {
                            return wrong(format!("table {number}: slot {} does not name its row", page * 64 + place));
                        }
                        format!("{}{generation}", if tag == 1 { 'r' } else { 't' })
                    }
                    3 => format!("o{generation}/{}/{:x}/{}", words.at(at + 2)?, words.at(at + 3)?, words.at(at + 4)?),
                    other => return wrong(format!("table {number}: slot {} has tag {other}", page * 64 + place)),
                };
                pending = match pending {
                    Some((first, _, same)) if same == shown => Some((first, place, same)),
                    Some((first, last, other)) => {
                        out += &run_of_slots(first, last, &other);
                        Some((place, place, shown))
                    }
                    None => Some((place, place, shown)),
                };
            }
            if let Some((first, last, shown)) = pending {
                out += &run_of_slots(first, last, &shown);
            }
            out.push('\n');
            page += 1;
        }
    }

    let mut planned = 0;
    for rank in 0..rows_used {
        let place = words.at(index + 2 * rank)?;
        if place >= r {
            return wrong(format!("the row index names place {place}"));
        }
        let row = rows + 390 * place;
        if words.at(index + 2 * place + 1)? != rank {
            return wrong(format!("the rank of row {place} is not its position in the row index"));
        }
        let count = words.at(row + 3)?;
        if (count == 0 && words.at(row + 1)? != 4) || count > 64 {
            return wrong(format!("row {place} has count {count}"));
        }
        out += &format!("row {rank} id {} ", words.at(row)?);
        match words.at(row + 1)? {
            1 => {
                let mut slots = Runs::default();
                for position in 0..count {
                    slots.add(words.at(row + 6 + 6 * position)?);
                }
                out += &format!("reservation table {} slots {}", words.at(row + 2)?, slots.finish());
            }
            2 => {
                out += &format!("claim table {}", words.at(row + 2)?);
                for position in 0..count {
                    let e = row + 6 + 6 * position;
                    let handle = format!("{}/{:x}/{}", words.at(e + 2)?, words.at(e + 3)?, words.at(e + 4)?);
                    match words.at(e)? {
                        0 => out += &format!(" M{}:{handle}>{:x}", words.at(e + 1)?, words.at(e + 5)?),
                        1 => out += &format!(" C:{handle}"),
                        other => return wrong(format!("row {place} has operation {other}")),
                    }
                }
            }
            3 => {
                out += "parcel";
                for position in 0..count {
                    let e = row + 6 + 6 * position;
                    out += &format!(" {}/{:x}/{}", words.at(e + 2)?, words.at(e + 3)?, words.at(e + 4)?);
                }
            }
            4 => {
                let (mut pages, mut frames) = (Runs::default(), Runs::default());
                for position in 0..count {
                    let frame = words.at(row + 6 + 6 * position + 1)?;
                    if frame >= f || words.at(owners + frame)? != 16 * 262_144 + 1 + place {
                        return wrong(format!("row {place}: frame {frame} is not held by it"));
                    }
                    pages.add(words.at(row + 6 + 6 * position)?);
                    frames.add(frame);
                }
                planned += count;
                out += &format!(
                    "plan table {} count {} epoch {} free {} pages {} frames {}",
                    words.at(row + 2)?,
                    words.at(row + 4)?,
                    words.at(row + 5)?,
                    words.at(row + 6 + 2)?,
                    pages.finish(),
                    frames.finish()
                );
            }
            other => return wrong(format!("row {place} is of kind {other}")),
        }
        out.push('\n');
    }
    let mut held = 0;
    for frame in 0..f {
        held += u64::from(words.at(owners + frame)? > 16 * 262_144);
    }
    if held != planned {
        return wrong(format!("{held} frames are said to be held by plans, {planned} are"));
    }
    out += "end\n";
    Ok(out)
}

fn run_of_slots(first: u64, last: u64, shown: &str) -> String {
    if first == last { format!(" {first}:{shown}") } else { format!(" {first}-{last}:{shown}") }
}
