//! A subject behind two C calls over lent words: the port, or the reading, which tries the comparison itself. Parameters, state, lists
//! and answers are words, and the state is shown by the second reader.

use crate::reading::{Reading, Slip};
use crate::second_reader;
use crate::subject::{Start, Subject};
use crate::words;

/// Creation: state words, parameters; the result.
pub type CreateCall = unsafe extern "C" fn(*mut u64, usize, *const u64, usize) -> u64;
/// A list: state words, list words, answer words; the result.
pub type RunCall = unsafe extern "C" fn(*mut u64, usize, *const u64, usize, *mut u64, usize) -> u64;

/// Words past the need, which every call must leave alone.
const PAST: [u64; 3] = [0x1111_2222_3333_4444, u64::MAX, 0x5A5A_5A5A_5A5A_5A5A];

#[cfg(port)]
unsafe extern "C" {
    fn gurtxozal_create(state: *mut u64, state_length: usize, parameters: *const u64, parameters_length: usize) -> u64;
    fn gurtxozal_run(state: *mut u64, state_length: usize, list: *const u64, list_length: usize, answers: *mut u64, answers_length: usize) -> u64;
}

pub struct CEntry {
    create: CreateCall,
    run: RunCall,
    state: Vec<u64>,
    broken: Option<String>,
}

impl CEntry {
    pub fn new(create: CreateCall, run: RunCall) -> Self {
        Self { create, run, state: Vec::new(), broken: None }
    }
    /// The port, through its C entry.
    #[cfg(port)]
    pub fn of_the_port() -> Self {
        Self::new(gurtxozal_create, gurtxozal_run)
    }
    /// The reading behind words.
    pub fn of_the_reading() -> Self {
        Self::new(reading_create, reading_run)
    }
    /// A list on lent words, and nothing else.
    pub fn bare(&mut self, state: &mut [u64], list: &[u64], answers: &mut [u64]) -> u64 {
        // The slices are lent for the call alone.
        unsafe { (self.run)(state.as_mut_ptr(), state.len(), list.as_ptr(), list.len(), answers.as_mut_ptr(), answers.len()) }
    }
    fn past_is_kept(&mut self) {
        if !self.state.ends_with(&PAST) {
            self.broken = Some("words past the state's end were changed".to_string());
        }
    }
}

/// How many words a state for these parameters has; 0 if the parameters are cut off.
fn words_needed(params: &[u64]) -> usize {
    let [tables, frames, objects, rows, ..] = params else { return 0 };
    if *tables > 16 || *frames > 65_535 || *objects > 4096 || *rows > 256 {
        return 0;
    }
    let pages: u64 = (0..*tables as usize).map(|table| params.get(4 + 2 * table).copied().unwrap_or(0).min(262_144)).sum();
    words::places(*tables, *frames, *objects, *rows, pages).end
}

impl Subject for CEntry {
    fn start(&mut self, start: &Start) -> u64 {
        self.broken = None;
        match start {
            Start::Create(params) => {
                self.state = vec![0x77; words_needed(params)];
                self.state.extend(PAST);
                let before = self.state.clone();
                // The slices are lent for the call alone.
                let result = unsafe { (self.create)(self.state.as_mut_ptr(), self.state.len(), params.as_ptr(), params.len()) };
                if result != 0 && self.state != before {
                    self.broken = Some("a refused creation changed a word".to_string());
                }
                self.past_is_kept();
                result
            }
            Start::Words(words) => {
                self.state = [words, &PAST[..]].concat();
                self.call(&[], &mut [])
            }
        }
    }
    fn call(&mut self, list: &[u64], answers: &mut [u64]) -> u64 {
        let before = self.state.clone();
        // The slices are lent for the call alone.
        let result = unsafe {
            (self.run)(self.state.as_mut_ptr(), self.state.len(), list.as_ptr(), list.len(), answers.as_mut_ptr(), answers.len())
        };
        if result != 0 && self.state != before {
            self.broken = Some("a refused call changed a word of the state".to_string());
        }
        self.past_is_kept();
        result
    }
    fn text(&mut self) -> Result<String, String> {
        if let Some(what) = &self.broken {
            return Err(what.clone());
        }
        if self.call(&[], &mut []) == 18 {
            return Ok("not well formed\n".to_string());
        }
        second_reader::text(&self.state)
    }
}

unsafe extern "C" fn reading_create(state: *mut u64, state_len: usize, params: *const u64, params_len: usize) -> u64 {
    let (params, state) = unsafe { (std::slice::from_raw_parts(params, params_len), std::slice::from_raw_parts_mut(state, state_len)) };
    let Some(made) = words::create(params) else { return 18 };
    let words = words::encode(&made);
    if words.len() > state.len() {
        return 18;
    }
    state[..words.len()].copy_from_slice(&words);
    0
}

unsafe extern "C" fn reading_run(state: *mut u64, state_len: usize, list: *const u64, list_len: usize, answers: *mut u64, answers_len: usize) -> u64 {
    let slice = |words: *const u64, length: usize| if length == 0 { &[][..] } else { unsafe { std::slice::from_raw_parts(words, length) } };
    let state = unsafe { std::slice::from_raw_parts_mut(state, state_len) };
    let Ok(decoded) = words::decode(state) else { return 18 };
    let mut reading = Reading::new(Slip::None);
    reading.set_state(decoded);
    let answers = if answers_len == 0 { &mut [][..] } else { unsafe { std::slice::from_raw_parts_mut(answers, answers_len) } };
    let result = reading.call(slice(list, list_len), answers);
    if result == 0
        && list_len > 0
        && let Some(after) = reading.state()
    {
        let words = words::encode(after);
        state[..words.len()].copy_from_slice(&words);
    }
    result
}
