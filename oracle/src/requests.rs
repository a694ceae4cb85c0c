//! Request lists in words (docs/formats.md): reading, and building for tests. Number 19 is decided here, not by the Rust.

pub const ANSWER: usize = 72;
pub const OPS: usize = 29;
/// The position in the answer to a judging where no item is at fault.
pub const NO_ITEM: u64 = 64;

pub const NEW_OBJECT: u64 = 1;
pub const DUPLICATE: u64 = 2;
pub const RELEASE: u64 = 3;
pub const RETIRE: u64 = 4;
pub const RESERVE: u64 = 5;
pub const TRIM: u64 = 6;
pub const ABORT: u64 = 7;
pub const PUBLISH: u64 = 8;
pub const GET_INFO: u64 = 9;
pub const RESOLVE: u64 = 10;
pub const REPLACE: u64 = 11;
pub const CLOSE: u64 = 12;
pub const SCAN: u64 = 13;
pub const TRANSFER: u64 = 14;
pub const CONSUME: u64 = 15;
pub const ROLLBACK: u64 = 16;
pub const COMMIT: u64 = 17;
pub const DIRECT_COMMIT: u64 = 18;
pub const DIRECT_ROLLBACK: u64 = 19;
pub const STOPPING: u64 = 20;
pub const TEARDOWN_START: u64 = 21;
pub const TEARDOWN_STEP: u64 = 22;
pub const TEARDOWN_FINISH: u64 = 23;
pub const TAKE_PAGE: u64 = 24;
pub const MAKE_PLAN: u64 = 25;
pub const USE_PLAN: u64 = 26;
pub const DROP_PLAN: u64 = 27;
pub const JUDGE: u64 = 28;

pub const NAMES: [&str; OPS] = [
    "-", "new object", "duplicate", "release parcel", "retire object", "reserve", "trim", "abort", "publish", "get_info",
    "resolve", "replace", "close", "scan_handles", "prepare transfer", "prepare consumption", "rollback", "commit",
    "direct commit", "direct rollback", "remove_stopping_owner", "teardown start", "teardown step", "teardown finish",
    "take_empty_page", "make plan", "use plan", "drop plan", "judge transfer",
];

// Bits of a record.
pub const OP: usize = 0;
pub const TABLE: usize = 1;
pub const OBJECT: usize = 2;
pub const COUNT: usize = 3;
pub const VALUE: usize = 4;
pub const RIGHTS: usize = 5;
pub const FLAGS: usize = 6;
pub const ID: usize = 7;
pub const DESTINATION: usize = 8;
pub const KIND: usize = 9;
pub const KOID: usize = 10;
pub const CURSOR: usize = 11;
pub const ROUTE: usize = 12;
pub const OFFERED_RIGHTS: usize = 13;
pub const OFFERED_KIND: usize = 14;
pub const EXPECTED_KIND: usize = 15;
pub const FORBIDDEN_OBJECT: usize = 16;
pub const FORBIDDEN_KIND: usize = 17;
pub const FIELDS: usize = 18;

/// What each op must and may carry.
pub const MUST_MAY: [(u64, u64); OPS] = [
    (0, 0), (101, 0), (51, 0), (129, 0), (5, 0), (11, 0), (137, 0), (129, 0), (137, 0), (19, 0), (563, 0), (51, 0), (19, 0),
    (2051, 0), (4107, 196_608), (1587, 0), (129, 0), (129, 0), (385, 0), (385, 0), (2051, 0), (3, 0), (3, 0), (3, 0), (3, 0),
    (11, 0), (129, 0), (129, 0), (4107, 196_608),
];
pub const TRANSFER_ITEM: (u64, u64) = (49, 57_344);
pub const PARCEL_ITEM: (u64, u64) = (129, 0);

#[derive(Clone, Debug, Default, Eq, PartialEq)]
pub struct Record {
    pub map: u64,
    pub fields: [u64; FIELDS],
}
impl Record {
    pub fn has(&self, field: usize) -> bool {
        self.map >> field & 1 == 1
    }
    pub fn get(&self, field: usize) -> u64 {
        self.fields[field]
    }
    pub fn option(&self, field: usize) -> Option<u64> {
        self.has(field).then(|| self.fields[field])
    }
    pub fn with(mut self, field: usize, word: u64) -> Self {
        self.map |= 1 << field;
        self.fields[field] = word;
        self
    }
    pub fn put(&self, words: &mut Vec<u64>) {
        words.push(self.map);
        for field in 0..FIELDS {
            if self.has(field) {
                words.push(self.fields[field]);
            }
        }
    }
}

#[derive(Clone, Debug, Default, Eq, PartialEq)]
pub struct Request {
    pub record: Record,
    pub items: Vec<Record>,
}
impl Request {
    pub fn op(&self) -> u64 {
        self.record.get(OP)
    }
    pub fn get(&self, field: usize) -> u64 {
        self.record.get(field)
    }
    pub fn new(op: u64) -> Self {
        Self { record: Record::default().with(OP, op), items: Vec::new() }
    }
    pub fn with(mut self, field: usize, word: u64) -> Self {
        self.record = self.record.with(field, word);
        self
    }
    pub fn with_items(mut self, items: Vec<Record>) -> Self {
        self.items = items;
        self
    }
    pub fn item(mut self, item: Record) -> Self {
        self.items.push(item);
        self
    }
    pub fn words(&self) -> Vec<u64> {
        let mut words = Vec::new();
        self.record.put(&mut words);
        for item in &self.items {
            item.put(&mut words);
        }
        words
    }
}

struct Malformed;

fn record(words: &[u64], at: &mut usize, check: impl Fn(u64) -> Option<(u64, u64)>) -> Result<Record, Malformed> {
    let map = *words.get(*at).ok_or(Malformed)?;
    *at += 1;
    if map & 1 == 0 || map >> FIELDS != 0 {
        return Err(Malformed);
    }
    let mut record = Record { map, fields: [0; FIELDS] };
    for field in 0..FIELDS {
        if record.has(field) {
            let word = *words.get(*at).ok_or(Malformed)?;
            *at += 1;
            let wide = match field {
                FLAGS | KIND | OFFERED_KIND | EXPECTED_KIND | FORBIDDEN_KIND => word > u64::from(u32::MAX),
                KOID | FORBIDDEN_OBJECT => word == 0,
                ROUTE => word > 2,
                _ => false,
            };
            if wide {
                return Err(Malformed);
            }
            record.fields[field] = word;
        }
    }
    let (must, may) = check(record.get(OP)).ok_or(Malformed)?;
    if map & must != must || map & !(must | may) != 0 {
        return Err(Malformed);
    }
    Ok(record)
}

/// The requests of a list, or None if it is malformed (19).
pub fn read_list(words: &[u64]) -> Option<Vec<Request>> {
    let mut at = 0;
    let mut list = Vec::new();
    while at < words.len() {
        let head = record(words, &mut at, |op| {
            if op == 0 || op >= OPS as u64 { None } else { Some(MUST_MAY[op as usize]) }
        })
        .ok()?;
        let op = head.get(OP);
        let mut items = Vec::new();
        if [TRANSFER, JUDGE, PUBLISH].contains(&op) {
            // A count beyond the words that are left can't be met: the list ends inside a record.
            if head.get(COUNT) > words.len() as u64 {
                return None;
            }
            for _ in 0..head.get(COUNT) {
                let item = record(words, &mut at, |operation| match op {
                    TRANSFER | JUDGE if operation <= 1 => Some(TRANSFER_ITEM),
                    PUBLISH if operation == 0 => Some(PARCEL_ITEM),
                    _ => None,
                })
                .ok()?;
                items.push(item);
            }
        }
        list.push(Request { record: head, items });
    }
    Some(list)
}

// Building requests, for tests and for the generator.

pub fn new_object(object: u64, rights: u64, flags: u64) -> Request {
    Request::new(NEW_OBJECT).with(OBJECT, object).with(RIGHTS, rights).with(FLAGS, flags)
}
pub fn duplicate(table: u64, value: u64, rights: u64) -> Request {
    Request::new(DUPLICATE).with(TABLE, table).with(VALUE, value).with(RIGHTS, rights)
}
pub fn release(id: u64) -> Request {
    Request::new(RELEASE).with(ID, id)
}
pub fn retire(object: u64) -> Request {
    Request::new(RETIRE).with(OBJECT, object)
}
pub fn reserve(table: u64, count: u64) -> Request {
    Request::new(RESERVE).with(TABLE, table).with(COUNT, count)
}
pub fn trim(id: u64, count: u64) -> Request {
    Request::new(TRIM).with(ID, id).with(COUNT, count)
}
pub fn abort(id: u64) -> Request {
    Request::new(ABORT).with(ID, id)
}
pub fn publish(id: u64, parcels: &[u64]) -> Request {
    let mut request = Request::new(PUBLISH).with(COUNT, parcels.len() as u64).with(ID, id);
    for parcel in parcels {
        request = request.item(Record::default().with(OP, 0).with(ID, *parcel));
    }
    request
}
pub fn get_info(table: u64, value: u64) -> Request {
    Request::new(GET_INFO).with(TABLE, table).with(VALUE, value)
}
pub fn resolve(table: u64, value: u64, rights: u64, kind: u64) -> Request {
    Request::new(RESOLVE).with(TABLE, table).with(VALUE, value).with(RIGHTS, rights).with(KIND, kind)
}
pub fn replace(table: u64, value: u64, rights: u64) -> Request {
    Request::new(REPLACE).with(TABLE, table).with(VALUE, value).with(RIGHTS, rights)
}
pub fn close(table: u64, value: u64) -> Request {
    Request::new(CLOSE).with(TABLE, table).with(VALUE, value)
}
pub fn scan(table: u64, cursor: u64) -> Request {
    Request::new(SCAN).with(TABLE, table).with(CURSOR, cursor)
}
pub fn item(operation: u64, value: u64, rights: u64) -> Record {
    Record::default().with(OP, operation).with(VALUE, value).with(RIGHTS, rights)
}
pub fn transfer(table: u64, route: u64, items: Vec<Record>) -> Request {
    let mut request = Request::new(TRANSFER).with(TABLE, table).with(COUNT, items.len() as u64).with(ROUTE, route);
    request.items = items;
    request
}
/// The same fields and items, judged: "a request that judges a transfer without preparing it".
pub fn judging(transfer: &Request) -> Request {
    transfer.clone().with(OP, JUDGE)
}
/// The transfer that a request judges.
pub fn judged(request: &Request) -> Request {
    request.clone().with(OP, TRANSFER)
}
pub fn consume(table: u64, value: u64, rights: u64, kind: u64, koid: u64) -> Request {
    Request::new(CONSUME).with(TABLE, table).with(VALUE, value).with(RIGHTS, rights).with(KIND, kind).with(KOID, koid)
}
pub fn rollback(id: u64) -> Request {
    Request::new(ROLLBACK).with(ID, id)
}
pub fn commit(id: u64) -> Request {
    Request::new(COMMIT).with(ID, id)
}
pub fn direct_commit(claim: u64, reservation: u64) -> Request {
    Request::new(DIRECT_COMMIT).with(ID, claim).with(DESTINATION, reservation)
}
pub fn direct_rollback(claim: u64, reservation: u64) -> Request {
    Request::new(DIRECT_ROLLBACK).with(ID, claim).with(DESTINATION, reservation)
}
pub fn stopping(table: u64, cursor: u64) -> Request {
    Request::new(STOPPING).with(TABLE, table).with(CURSOR, cursor)
}
pub fn teardown_start(table: u64) -> Request {
    Request::new(TEARDOWN_START).with(TABLE, table)
}
pub fn teardown_step(table: u64) -> Request {
    Request::new(TEARDOWN_STEP).with(TABLE, table)
}
pub fn teardown_finish(table: u64) -> Request {
    Request::new(TEARDOWN_FINISH).with(TABLE, table)
}
pub fn take_page(table: u64) -> Request {
    Request::new(TAKE_PAGE).with(TABLE, table)
}
pub fn make_plan(table: u64, count: u64) -> Request {
    Request::new(MAKE_PLAN).with(TABLE, table).with(COUNT, count)
}
pub fn use_plan(id: u64) -> Request {
    Request::new(USE_PLAN).with(ID, id)
}
pub fn drop_plan(id: u64) -> Request {
    Request::new(DROP_PLAN).with(ID, id)
}
