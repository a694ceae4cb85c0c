//! Requests against answer numbers: what was seen, and which cells can't occur and why.

use crate::requests::*;
use crate::subject::{Call, Trace};

/// The numbers that there are; 19 and 20 are of whole calls.
pub const NUMBERS: usize = 22;
fn of_requests() -> impl Iterator<Item = usize> {
    (0..NUMBERS).filter(|number| ![19, 20].contains(number))
}

#[derive(Clone)]
pub struct Coverage {
    pub cells: [[u64; NUMBERS]; OPS],
    pub results: [u64; NUMBERS],
    pub requests: u64,
    /// Answers with a number that there is not.
    beyond: usize,
}

impl Default for Coverage {
    fn default() -> Self {
        Self { cells: [[0; NUMBERS]; OPS], results: [0; NUMBERS], requests: 0, beyond: 0 }
    }
}

/// The numbers that each request can answer, by document 01's "Orders" and document 02.
const POSSIBLE: [&[usize]; OPS] = [
    &[],
    &[0, 1, 6, 7, 9, 10, 11, 12, 18],
    &[0, 1, 2, 3, 5, 9, 11, 12, 16, 18],
    &[0, 18],
    &[0, 18],
    &[0, 1, 12, 13, 15, 16, 17, 18],
    &[0, 18],
    &[0, 18],
    &[0, 18],
    &[0, 2, 16, 18],
    &[0, 2, 3, 4, 5, 16, 18],
    &[0, 2, 3, 5, 16, 18],
    &[0, 2, 3, 16, 18],
    &[0, 16, 18],
    &[0, 1, 2, 3, 4, 5, 8, 9, 11, 12, 13, 16, 17, 18],
    &[0, 1, 2, 3, 4, 5, 12, 16, 18],
    &[0, 18],
    &[0, 18],
    &[0, 18],
    &[0, 18],
    &[0, 18],
    &[0, 14, 16, 18],
    &[0, 18],
    &[0, 18],
    &[0, 18],
    &[0, 1, 12, 13, 15, 16, 17, 18],
    &[0, 12, 16, 18, 21],
    &[0, 18],
    &[0, 18],
];

/// Which pairs of a request and a number can occur.
pub type Possible = fn(u64, usize) -> bool;
/// In any list.
pub fn possible(op: u64, number: usize) -> bool {
    POSSIBLE[op as usize].contains(&number)
}
/// In the list of a held and a plain run: "H refuses nothing for want of a row or an id". A reservation and a plan can lack frames.
pub fn possible_while_held(op: u64, number: usize) -> bool {
    possible(op, number) && number != 12 && (number != 1 || [RESERVE, MAKE_PLAN].contains(&op))
}

/// Why a number can't be a request's answer.
fn why_not(op: u64, number: usize) -> &'static str {
    match number {
        _ if op == JUDGE => "answers with 0 what it judges, and only an unknown table refuses it",
        1 | 12 if possible(op, number) => "would want a row or an id, which the held run's list does not",
        1 if op == USE_PLAN => "has its frames and its row",
        1 => "takes no row and no frame",
        3 if op == GET_INFO => "answers for a moved value too",
        2 | 3 => "names no handle value",
        4 => "compares no kind",
        5 => "asks for no rights",
        6 | 7 => "makes no first handle",
        8 => "is no transfer",
        9 | 11 => "raises no object's count",
        10 => "activates no object",
        12 => "spends no id",
        13 | 17 if op == USE_PLAN => "has its count, which was tested",
        13 | 17 => "reserves or transfers no batch",
        14 => "does not start a teardown",
        15 if op == USE_PLAN => "is stale then: 21",
        15 => "adds no page",
        16 => match op {
            STOPPING | TAKE_PAGE => "answers none on a table that is not active",
            TEARDOWN_STEP | TEARDOWN_FINISH => "on a table that is not tearing down is out of turn: 18",
            NEW_OBJECT | RETIRE => "names no table",
            DROP_PLAN => "is accepted in any state of the table",
            _ => "names a row, whose table is active",
        },
        21 => "uses no plan",
        _ => "",
    }
}

impl Coverage {
    /// Counts what a trace answered.
    pub fn add(&mut self, calls: &[Call], trace: &Trace) {
        for (call, step) in calls.iter().zip(&trace.steps) {
            if let Some(count) = self.results.get_mut(step.result as usize) {
                *count += 1;
            }
            if step.result != 0 {
                continue;
            }
            for (request, answer) in read_list(&call.list).unwrap_or_default().iter().zip(step.answers.chunks(ANSWER)) {
                self.count(request.op(), answer[0]);
            }
        }
    }
    /// Counts one answered request.
    pub fn count(&mut self, op: u64, number: u64) {
        self.requests += 1;
        match self.cells.get_mut(op as usize).and_then(|row| row.get_mut(number as usize)) {
            Some(cell) => *cell += 1,
            None => self.beyond += 1,
        }
    }
    /// How many cells were seen that can't be.
    pub fn strange(&self, possible: Possible) -> usize {
        let cells = (1..OPS).flat_map(|op| (0..NUMBERS).map(move |number| (op, number)));
        self.beyond + cells.filter(|(op, number)| self.cells[*op][*number] > 0 && !possible(*op as u64, *number)).count()
    }
    /// The possible cells that were not seen, as (request, number), and how many were.
    pub fn unseen(&self, possible: Possible) -> (Vec<(usize, usize)>, usize) {
        let (mut none, mut some) = (Vec::new(), 0);
        for op in 1..OPS {
            for number in of_requests().filter(|number| possible(op as u64, *number)) {
                if self.cells[op][number] == 0 {
                    none.push((op, number));
                } else {
                    some += 1;
                }
            }
        }
        (none, some)
    }
    /// The table; gives how many possible cells were not seen and how many impossible ones were.
    pub fn print(&self, possible: Possible) -> (usize, usize) {
        let mut unseen = 0;
        print!("{:>22} |", "request \\ answer");
        for number in of_requests() {
            print!("{number:>8}");
        }
        println!();
        for op in 1..OPS {
            print!("{op:>2} {:>19} |", &NAMES[op][..NAMES[op].len().min(19)]);
            for number in of_requests() {
                let count = self.cells[op][number];
                match (possible(op as u64, number), count) {
                    (true, 0) => {
                        unseen += 1;
                        print!("{:>8}", "UNSEEN");
                    }
                    (false, 0) => print!("{:>8}", "."),
                    (false, _) => print!("{:>8}", format!("!{count}")),
                    _ => print!("{count:>8}"),
                }
            }
            println!();
        }
        if self.beyond > 0 {
            println!("answers with a number that there is not: {}", self.beyond);
        }
        println!("whole calls: 0 {}, 19 {}, 20 {}", self.results[0], self.results[19], self.results[20]);
        println!("cells marked '.' can't occur:");
        for number in of_requests().filter(|number| ![0, 18].contains(number)) {
            let mut reasons: Vec<(&str, Vec<String>)> = Vec::new();
            for op in 1..OPS {
                if !possible(op as u64, number) {
                    let why = why_not(op as u64, number);
                    match reasons.iter_mut().find(|(reason, _)| *reason == why) {
                        Some((_, ops)) => ops.push(op.to_string()),
                        None => reasons.push((why, vec![op.to_string()])),
                    }
                }
            }
            for (why, ops) in reasons {
                println!("  {number:>2} for {}: the request {why}", ops.join(" "));
            }
        }
        (unseen, self.strange(possible))
    }
}
