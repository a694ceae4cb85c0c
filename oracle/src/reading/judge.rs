//! Document 02, 4: "a request that judges a transfer without preparing it". A reading of its own: it finds the number, the position and the place from the printed orders, and does not
//! ask `transfer`, which prepares.

use super::{Answer, RIGHT_DUPLICATE, RIGHT_TRANSFER, Slip, contains, route_permits};
use crate::requests::{self as rq, NO_ITEM, Record, Request};
use crate::state::*;

const COPY: u64 = 1;

fn copies(items: &[Record]) -> impl Iterator<Item = (usize, &Record)> {
    items.iter().enumerate().filter(|(_, item)| item.get(rq::OP) == COPY)
}

impl State {
    /// "It answers the refusal, the position from 0 of the item where preparation stops (64 where no item is at fault), and the rule's place in the printed order, or \"would be
    /// accepted\"": three zeros. The order: "16, 17, 13, 1, 12; then item by item 2 (twice), 2 or 3 (lookup), 5 (rights), 8 (kind), 5 (object), 8 (route), 4; then copies 9, 11", where "the
    /// rights rule counts as four places" and "places run from 1".
    pub(super) fn judge(&self, request: &Request, slip: Slip) -> Answer {
        let number = self.table_of(request)?;
        let table = &self.tables[number];
        let items = match slip {
            Slip::FirstItemJudgedAlone => &request.items[..request.items.len().min(1)],
            _ => &request.items,
        };
        let whole = [
            (table.life != Life::Active, 16),
            (request.items.is_empty(), 17),
            (request.items.len() > 64, 13),
            (self.rows.len() as u64 == self.row_capacity && slip != Slip::RowNotJudged, 1),
            (self.next == u64::MAX && slip != Slip::IdNotJudged, 12),
        ];
        for (place, (fails, number)) in (1..).zip(whole) {
            if fails {
                return Ok(vec![number, NO_ITEM, place]);
            }
        }
        for position in 0..items.len() {
            if let Some((number, place)) = self.item_at_fault(table, request, position, slip) {
                return Ok(vec![number, position as u64 + u64::from(slip == Slip::JudgedFromOne), place]);
            }
            if slip == Slip::CopiesJudgedWithItems
                && let Some((number, place)) = self.copy_at_fault(table, items, position, slip)
            {
                return Ok(vec![number, position as u64, place]);
            }
        }
        for (among, (position, _)) in copies(items).enumerate() {
            if let Some((number, place)) = self.copy_at_fault(table, items, position, slip) {
                let position = match slip {
                    Slip::JudgedAmongCopies => among as u64,
                    Slip::NoItemForCopies => NO_ITEM,
                    Slip::JudgedFromOne => position as u64 + 1,
                    _ => position as u64,
                };
                return Ok(vec![number, position, place]);
            }
        }
        if slip == Slip::RetiredMovesRefused
            && let Some(position) = (0..items.len()).find(|at| self.object_of_item(table, &items[*at]).is_some_and(|object| self.objects[object as usize].state == RETIRED))
        {
            return Ok(vec![9, position as u64, 16]);
        }
        Ok(vec![0, 0, 0])
    }

    fn object_of_item(&self, table: &Table, item: &Record) -> Option<u64> {
        table.lookup(item.get(rq::VALUE), Slip::None).ok().map(|(_, _, handle)| handle.object)
    }

    /// The first rule that an item breaks by itself, or as one that names a value again: number and place.
    fn item_at_fault(&self, table: &Table, request: &Request, position: usize, slip: Slip) -> Option<(u64, u64)> {
        let item = &request.items[position];
        let value = item.get(rq::VALUE);
        if request.items[..position].iter().any(|other| other.get(rq::VALUE) == value) {
            return Some((2, 6));
        }
        let handle = match table.lookup(value, Slip::None) {
            Ok((_, _, handle)) => handle,
            Err(3) if slip == Slip::LookupIsTwoPlaces => return Some((3, 8)),
            Err(number) => return Some((number, 7)),
        };
        let object = &self.objects[handle.object as usize];
        let kind = u64::from(object.kind);
        let offered = item.option(rq::OFFERED_RIGHTS).unwrap_or(handle.rights);
        let other = |field| item.option(field).is_some_and(|asserted| asserted != kind);
        let mut rules = [
            (8, 5, !contains(handle.rights, RIGHT_TRANSFER)),
            (9, 5, item.get(rq::OP) == COPY && !contains(handle.rights, RIGHT_DUPLICATE)),
            (10, 5, !contains(handle.rights, offered)),
            (11, 5, !contains(offered, item.get(rq::RIGHTS))),
            (12, 8, request.record.option(rq::FORBIDDEN_KIND) == Some(kind)),
            (13, 5, request.record.option(rq::FORBIDDEN_OBJECT) == Some(object.koid)),
            (14, 8, !route_permits(request.get(rq::ROUTE), object.class)),
            (15, 4, other(rq::OFFERED_KIND) || other(rq::EXPECTED_KIND)),
        ];
        if slip == Slip::DuplicateJudgedFirst {
            rules.swap(0, 1);
        }
        let (place, number, _) = rules.into_iter().find(|(_, _, broken)| *broken)?;
        Some((number, place + u64::from(slip == Slip::LookupIsTwoPlaces)))
    }

    /// The rule that a copy breaks when the copies before it are made: "a copy of a retired object", or "at the limit".
    fn copy_at_fault(&self, table: &Table, items: &[Record], position: usize, slip: Slip) -> Option<(u64, u64)> {
        if items[position].get(rq::OP) != COPY {
            return None;
        }
        let number = self.object_of_item(table, &items[position])?;
        let object = &self.objects[number as usize];
        let earlier = match slip {
            Slip::CopiesJudgedOneByOne => 0,
            _ => copies(&items[..position]).filter(|(_, item)| self.object_of_item(table, item) == Some(number)).count() as u64,
        };
        let more = u64::from(slip == Slip::LookupIsTwoPlaces);
        if object.state == RETIRED {
            Some((9, 16 + more))
        } else if object.count + earlier >= object.limit {
            Some((11, 17 + more))
        } else {
            None
        }
    }

    /// What a wrong judging leaves. A right one leaves nothing.
    pub(super) fn judged(&mut self, request: &Request, answer: &[u64], slip: Slip) {
        let (position, place) = (answer[1], answer[2]);
        if slip == Slip::JudgingSpendsAnId && (place == 0 || place > 5) {
            self.spend();
        }
        if slip == Slip::JudgedCopiesStayCounted && (place == 0 || place > 15) {
            let before = if place == 0 { request.items.len() } else { position as usize };
            let table = &self.tables[request.get(rq::TABLE) as usize];
            let objects: Vec<u64> = copies(&request.items[..before]).filter_map(|(_, item)| self.object_of_item(table, item)).collect();
            for object in objects {
                self.objects[object as usize].count += 1;
            }
        }
    }
}
