//! What can be compared: anything that starts from parameters or words, runs lists of words, and shows its state as text.

use crate::requests::ANSWER;
use crate::violation::Place;

#[derive(Clone, Debug, Eq, PartialEq)]
pub enum Start {
    /// Creation's parameters.
    Create(Vec<u64>),
    /// A state's words.
    Words(Vec<u64>),
}

#[derive(Clone, Debug, Eq, PartialEq)]
pub struct Call {
    pub list: Vec<u64>,
    /// How many answer words are lent.
    pub lent: usize,
}
impl Call {
    /// One request, with its 72 answer words and one more that must keep its contents.
    pub fn one(list: Vec<u64>) -> Self {
        Self { list, lent: ANSWER + 1 }
    }
}

/// What answer words hold before a call.
pub const FILL: u64 = 0xA5A5_5A5A_A5A5_5A5A;

#[derive(Clone, Debug, Eq, PartialEq)]
pub struct Step {
    pub result: u64,
    pub answers: Vec<u64>,
    pub text: String,
}

#[derive(Clone, Debug, Default, Eq, PartialEq)]
pub struct Trace {
    /// Creation's result, or the result of an empty list on the words.
    pub start: u64,
    pub text: String,
    pub steps: Vec<Step>,
    /// The call after the last step reached `invariant_violation` here: not comparable from there on.
    pub stopped: Option<Place>,
}

/// A thing under comparison. The runner's C entry fits here: `start` fills its words, `call` is the call, and `text` is what
/// `second_reader::text` gives for its words.
pub trait Subject {
    fn start(&mut self, start: &Start) -> u64;
    fn call(&mut self, list: &[u64], answers: &mut [u64]) -> u64;
    fn text(&mut self) -> Result<String, String>;
}

/// After which calls the state's text is taken; where it is not, it is empty.
#[derive(Clone, Copy, Debug, Eq, PartialEq)]
pub enum Texts {
    Each,
    Last,
    /// Answers alone.
    None,
}

/// Runs whole traces. Every `Subject` does so step by step; the oracle does it on a thread of its own.
pub trait Runs {
    fn run_with(&mut self, start: &Start, calls: &[Call], texts: Texts) -> Trace;
    fn run(&mut self, start: &Start, calls: &[Call]) -> Trace {
        self.run_with(start, calls, Texts::Each)
    }
}

impl<S: Subject> Runs for S {
    fn run_with(&mut self, start: &Start, calls: &[Call], texts: Texts) -> Trace {
        let mut trace = Trace::default();
        run_into(self, start, calls, texts, |change| change(&mut trace));
        trace
    }
}

/// Runs calls and gives each step as it is made, so that a stop keeps the steps before it.
pub fn run_into<S: Subject + ?Sized>(
    subject: &mut S,
    start: &Start,
    calls: &[Call],
    texts: Texts,
    mut keep: impl FnMut(&mut dyn FnMut(&mut Trace)),
) {
    let result = subject.start(start);
    let shown = |subject: &mut S, wanted: bool| {
        if wanted { subject.text().unwrap_or_else(|error| format!("broken: {error}\n")) } else { String::new() }
    };
    let text = shown(subject, texts != Texts::None);
    keep(&mut |trace| {
        trace.start = result;
        trace.text = text.clone();
    });
    if result != 0 && matches!(start, Start::Create(_)) {
        return;
    }
    for (at, call) in calls.iter().enumerate() {
        let mut answers = vec![FILL; call.lent];
        let result = subject.call(&call.list, &mut answers);
        let text = shown(subject, texts == Texts::Each || texts == Texts::Last && at + 1 == calls.len());
        let mut step = Some(Step { result, answers, text });
        keep(&mut |trace| trace.steps.extend(step.take()));
    }
}

/// Where two traces first differ, up to where one of them stopped. None: no difference.
pub fn difference(left: &Trace, right: &Trace) -> Option<(usize, String)> {
    if left.start != right.start {
        return Some((0, format!("the start gives {} and {}", left.start, right.start)));
    }
    if left.text != right.text {
        return Some((0, format!("the first state differs:\n{}", lines(&left.text, &right.text))));
    }
    let shared = left.steps.len().min(right.steps.len());
    for at in 0..shared {
        let (l, r) = (&left.steps[at], &right.steps[at]);
        if l.result != r.result {
            return Some((at, format!("call {at}: the result is {} and {}", l.result, r.result)));
        }
        if l.answers != r.answers {
            let word = (0..l.answers.len().min(r.answers.len())).find(|word| l.answers[*word] != r.answers[*word]);
            return Some((
                at,
                match word {
                    Some(word) => format!(
                        "call {at}: answer word {word} is {:#x} and {:#x}; first words {:x?} and {:x?}",
                        l.answers[word],
                        r.answers[word],
                        &l.answers[..l.answers.len().min(8)],
                        &r.answers[..r.answers.len().min(8)]
                    ),
                    None => format!("call {at}: the answers' lengths differ"),
                },
            ));
        }
        if l.text != r.text {
            return Some((at, format!("call {at}: the state differs:\n{}", lines(&l.text, &r.text))));
        }
    }
    if left.steps.len() != right.steps.len() && left.stopped.is_none() && right.stopped.is_none() {
        return Some((shared, "one run has more steps".to_string()));
    }
    None
}

fn lines(left: &str, right: &str) -> String {
    let (l, r): (Vec<&str>, Vec<&str>) = (left.lines().collect(), right.lines().collect());
    let mut out = String::new();
    for at in 0..l.len().max(r.len()) {
        let (a, b) = (l.get(at).copied().unwrap_or(""), r.get(at).copied().unwrap_or(""));
        if a != b {
            out.push_str(&format!("  < {a}\n  > {b}\n"));
        }
    }
    out
}
