//! The Rust as a subject, on a thread of its own. A violation stops the trace; the thread sleeps for good and a new one is started.

use std::sync::mpsc::{Receiver, Sender, channel};
use std::sync::{Arc, Mutex};

use crate::capability::handle::wire::Machine;
use crate::requests::{ANSWER, read_list};
use crate::state;
use crate::subject::{Call, Runs, Start, Subject, Texts, Trace, run_into};
use crate::violation;
use crate::words;

/// The Rust on this thread. One at a time: the id counter is a static of the Rust, and the objects belong to the thread.
#[derive(Default)]
pub struct Direct {
    pub(crate) machine: Option<Machine>,
    /// For times: nothing is remembered of what is moved.
    forgets: bool,
}

impl Direct {
    /// The Rust to be timed: it is asked nothing before a preparation, and a look at a moved value gets its own Busy.
    pub fn timed() -> Self {
        Self { machine: None, forgets: true }
    }
    pub(crate) fn end(&mut self) {
        if let Some(machine) = self.machine.take() {
            machine.discard();
        }
    }
}

impl Subject for Direct {
    fn start(&mut self, start: &Start) -> u64 {
        self.end();
        let state = match start {
            Start::Create(params) => words::create(params),
            Start::Words(words) => words::decode(words).ok(),
        };
        match state {
            Some(state) => {
                let mut machine = Machine::load(&state);
                machine.remembers = !self.forgets;
                self.machine = Some(machine);
                0
            }
            None => 18,
        }
    }
    fn call(&mut self, list: &[u64], answers: &mut [u64]) -> u64 {
        let Some(machine) = self.machine.as_mut() else { return 18 };
        let Some(requests) = read_list(list) else { return 19 };
        if answers.len() / ANSWER < requests.len() {
            return 20;
        }
        for (request, words) in requests.iter().zip(answers.chunks_mut(ANSWER)) {
            words.fill(0);
            match machine.step(request) {
                Ok(given) => words[1..=given.len()].copy_from_slice(&given),
                Err(number) => words[0] = number,
            }
        }
        0
    }
    fn text(&mut self) -> Result<String, String> {
        match &self.machine {
            Some(machine) => Ok(state::text(&machine.state()?)),
            None => Ok("not well formed\n".to_string()),
        }
    }
}

type Work = Box<dyn FnOnce(&mut Direct) + Send>;
struct Job {
    work: Work,
    stopped: Sender<Option<violation::Place>>,
}

/// The Rust behind a thread.
pub struct Oracle {
    worker: Option<Sender<Job>>,
    /// How many threads sleep after a violation.
    pub violations: usize,
}

fn worker(jobs: Receiver<Job>) {
    let mut direct = Direct::default();
    while let Ok(job) = jobs.recv() {
        let stopped = job.stopped.clone();
        violation::report_to(Box::new(move |place| {
            let _ = stopped.send(Some(place));
        }));
        (job.work)(&mut direct);
        let _ = job.stopped.send(None);
    }
    direct.end();
}

impl Default for Oracle {
    fn default() -> Self {
        Self { worker: None, violations: 0 }
    }
}

impl Oracle {
    /// Runs work on the Rust; Some if it reached a violation.
    pub fn work(&mut self, work: impl FnOnce(&mut Direct) + Send + 'static) -> Option<violation::Place> {
        let sender = self.worker.get_or_insert_with(|| {
            let (sender, receiver) = channel();
            let _ = std::thread::Builder::new().stack_size(1 << 20).spawn(move || worker(receiver));
            sender
        });
        let (stopped, wait) = channel();
        if sender.send(Job { work: Box::new(work), stopped }).is_err() {
            self.worker = None;
            return Some(violation::Place { file: "the oracle's thread is gone".to_string(), line: 0 });
        }
        match wait.recv() {
            Ok(None) => None,
            Ok(Some(place)) => {
                self.worker = None;
                self.violations += 1;
                Some(place)
            }
            Err(_) => {
                self.worker = None;
                Some(violation::Place { file: "the oracle's thread panicked".to_string(), line: 0 })
            }
        }
    }
}

impl Runs for Oracle {
    fn run_with(&mut self, start: &Start, calls: &[Call], texts: Texts) -> Trace {
        let trace = Arc::new(Mutex::new(Trace::default()));
        let (start, calls, kept) = (start.clone(), calls.to_vec(), Arc::clone(&trace));
        let stopped = self.work(move |direct| {
            run_into(direct, &start, &calls, texts, |change| {
                if let Ok(mut trace) = kept.lock() {
                    change(&mut trace);
                }
            });
        });
        let mut trace = match trace.lock() {
            Ok(mut trace) => std::mem::take(&mut *trace),
            Err(_) => Trace::default(),
        };
        trace.stopped = stopped;
        trace
    }
}
