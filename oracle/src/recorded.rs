//! Recorded lists: their text format (docs/oracle.md), writing and replaying.

use std::fmt::Write;

use crate::requests::{ANSWER, read_list};
use crate::state::hash;
use crate::subject::{Call, FILL, Runs, Start, Trace};

pub fn hex(words: &[u64]) -> String {
    words.iter().map(|word| format!("{word:x}")).collect::<Vec<_>>().join(" ")
}

/// Words with repetitions: `w*n` is n times w; `(a b+s c)*n` is the block n times, where a word with `+s` rises by s each time.
pub fn code(words: &[u64]) -> String {
    let mut out: Vec<String> = Vec::new();
    let mut at = 0;
    while at < words.len() {
        // (words covered, text), the best of the block sizes.
        let mut best: (usize, String) = (1, format!("{:x}", words[at]));
        for size in [1usize, 6, 5] {
            if at + 2 * size > words.len() {
                continue;
            }
            let step: Vec<u64> = (0..size).map(|word| words[at + size + word].wrapping_sub(words[at + word])).collect();
            let mut times = 2;
            while at + (times + 1) * size <= words.len()
                && (0..size).all(|word| words[at + times * size + word] == words[at + (times - 1) * size + word].wrapping_add(step[word]))
            {
                times += 1;
            }
            let text = if size == 1 && step[0] == 0 {
                format!("{:x}*{times}", words[at])
            } else {
                let block: Vec<String> = (0..size)
                    .map(|word| match step[word] {
                        0 => format!("{:x}", words[at + word]),
                        step => format!("{:x}+{step:x}", words[at + word]),
                    })
                    .collect();
                format!("({})*{times}", block.join(" "))
            };
            let covered = times * size;
            if times >= 3 && covered > best.0 && text.len() < covered * 2 + 8 {
                best = (covered, text);
            }
        }
        out.push(best.1);
        at += best.0;
    }
    out.join(" ")
}

/// Reads what `code` writes.
pub fn uncode(text: &str) -> Result<Vec<u64>, String> {
    let mut words = Vec::new();
    let number = |text: &str| u64::from_str_radix(text, 16).map_err(|_| format!("'{text}' is no hexadecimal word"));
    let times_of = |text: &str| match text.parse::<usize>() {
        Ok(times) if times <= 100_000_000 => Ok(times),
        _ => Err(format!("'{text}' is no number of times")),
    };
    let mut rest = text.trim();
    while !rest.is_empty() {
        if let Some(inside) = rest.strip_prefix('(') {
            let (block, after) = inside.split_once(")*").ok_or("a block does not end")?;
            let (times, tail) = after.split_once(' ').unwrap_or((after, ""));
            let mut parts = Vec::new();
            for word in block.split(' ') {
                let (first, step) = word.split_once('+').unwrap_or((word, "0"));
                parts.push((number(first)?, number(step)?));
            }
            for _ in 0..times_of(times)? {
                for (word, step) in &mut parts {
                    words.push(*word);
                    *word = word.wrapping_add(*step);
                }
            }
            rest = tail.trim_start();
        } else {
            let (word, tail) = rest.split_once(' ').unwrap_or((rest, ""));
            match word.split_once('*') {
                Some((word, times)) => words.extend(std::iter::repeat_n(number(word)?, times_of(times)?)),
                None => words.push(number(word)?),
            }
            rest = tail.trim_start();
        }
    }
    Ok(words)
}

#[derive(Clone, Debug, Eq, PartialEq)]
pub struct Line {
    pub call: Call,
    pub result: u64,
    /// The answer's words; None where no word changes.
    pub answer: Option<Vec<u64>>,
    pub hash: Option<u64>,
    /// Decided by the Rust's run; else by the reading, after a violation.
    pub evidence: bool,
}

#[derive(Clone, Debug, Eq, PartialEq)]
pub struct Case {
    pub name: String,
    pub about: String,
    pub start: Start,
    pub result: u64,
    pub hash: Option<u64>,
    pub lines: Vec<Line>,
    pub text: Option<String>,
}

fn trimmed(words: &[u64]) -> Vec<u64> {
    let end = words.iter().rposition(|word| *word != 0).map_or(0, |at| at + 1);
    words[..end].to_vec()
}

/// A case from the oracle's trace, and from the reading's where the oracle stopped.
pub fn from_traces(name: &str, about: &str, start: &Start, calls: &[Call], oracle: &Trace, reading: &Trace) -> Case {
    let good = oracle.start == 0;
    let mut lines = Vec::new();
    let mut text = good.then(|| oracle.text.clone());
    for (at, call) in calls.iter().enumerate() {
        let (step, evidence) = match (oracle.steps.get(at), reading.steps.get(at)) {
            (Some(step), _) => (step, true),
            (None, Some(step)) => (step, false),
            _ => break,
        };
        let one = step.result == 0 && !call.list.is_empty();
        lines.push(Line {
            call: call.clone(),
            result: step.result,
            answer: one.then(|| trimmed(&step.answers[..ANSWER])),
            hash: good.then(|| hash(&step.text)),
            evidence,
        });
        if good {
            text = Some(step.text.clone());
        }
    }
    Case { name: name.to_string(), about: about.to_string(), start: start.clone(), result: oracle.start, hash: good.then(|| hash(&oracle.text)), lines, text }
}

pub fn write(cases: &[Case]) -> String {
    let mut out = String::from("recorded 1\n");
    let hash_text = |hash: Option<u64>| hash.map_or("-".to_string(), |hash| format!("{hash:016x}"));
    for case in cases {
        let _ = writeln!(out, "case {}\nabout {}", case.name, case.about);
        let _ = match &case.start {
            Start::Create(params) => writeln!(out, "create {}", code(params)),
            Start::Words(words) => writeln!(out, "words {}", code(words)),
        };
        let _ = writeln!(out, "start {} {}", case.result, hash_text(case.hash));
        for line in &case.lines {
            let _ = match &line.answer {
                Some(answer) => writeln!(
                    out,
                    "{} {} > {} > {}",
                    if line.evidence { '=' } else { '~' },
                    hex(&line.call.list),
                    code(answer),
                    hash_text(line.hash)
                ),
                None => writeln!(out, "! {} {} {} > {}", line.call.lent, line.result, hex(&line.call.list), hash_text(line.hash)),
            };
        }
        if let Some(text) = &case.text {
            out.push_str("text\n");
            out.push_str(text);
        }
        out.push('\n');
    }
    out
}

pub fn read(text: &str) -> Result<Vec<Case>, String> {
    let mut cases: Vec<Case> = Vec::new();
    let mut lines = text.lines().enumerate();
    match lines.next() {
        Some((_, "recorded 1")) => {}
        _ => return Err("the first line is not 'recorded 1'".to_string()),
    }
    let hash_of = |text: &str| -> Result<Option<u64>, String> {
        match text.trim() {
            "-" => Ok(None),
            word => u64::from_str_radix(word, 16).map(Some).map_err(|_| format!("'{word}' is no hash")),
        }
    };
    while let Some((at, line)) = lines.next() {
        let fail = |what: String| format!("line {}: {what}", at + 1);
        if line.is_empty() {
            continue;
        }
        let (head, rest) = line.split_once(' ').unwrap_or((line, ""));
        if head == "case" {
            cases.push(Case {
                name: rest.to_string(),
                about: String::new(),
                start: Start::Create(Vec::new()),
                result: 0,
                hash: None,
                lines: Vec::new(),
                text: None,
            });
            continue;
        }
        let Some(case) = cases.last_mut() else { return Err(fail("no case has begun".to_string())) };
        match head {
            "about" => case.about = rest.to_string(),
            "create" => case.start = Start::Create(uncode(rest).map_err(fail)?),
            "words" => case.start = Start::Words(uncode(rest).map_err(fail)?),
            "start" => {
                let (result, hash) = rest.split_once(' ').ok_or_else(|| fail("a start without a hash".to_string()))?;
                case.result = result.parse().map_err(|_| fail("no result".to_string()))?;
                case.hash = hash_of(hash).map_err(fail)?;
            }
            "=" | "~" => {
                let parts: Vec<&str> = rest.splitn(3, '>').collect();
                let [list, answer, hash] = parts.as_slice() else { return Err(fail("a call without its three parts".to_string())) };
                case.lines.push(Line {
                    call: Call::one(uncode(list).map_err(fail)?),
                    result: 0,
                    answer: Some(uncode(answer).map_err(fail)?),
                    hash: hash_of(hash).map_err(fail)?,
                    evidence: head == "=",
                });
            }
            "!" => {
                let (front, hash) = rest.split_once('>').ok_or_else(|| fail("a call without a hash".to_string()))?;
                let mut words = front.trim().splitn(3, ' ');
                let lent = words.next().and_then(|word| word.parse().ok()).ok_or_else(|| fail("no count of lent words".to_string()))?;
                let result = words.next().and_then(|word| word.parse().ok()).ok_or_else(|| fail("no result".to_string()))?;
                case.lines.push(Line {
                    call: Call { list: uncode(words.next().unwrap_or("")).map_err(fail)?, lent },
                    result,
                    answer: None,
                    hash: hash_of(hash).map_err(fail)?,
                    evidence: true,
                });
            }
            "text" => {
                let mut text = String::new();
                for (_, line) in lines.by_ref() {
                    text.push_str(line);
                    text.push('\n');
                    if line == "end" {
                        break;
                    }
                }
                case.text = Some(text);
            }
            _ => return Err(fail(format!("unknown line '{head}'"))),
        }
    }
    Ok(cases)
}

/// Replays a case on a subject. `stops`: the subject is the Rust, which stops where the recorded line is the reading's.
pub fn replay(case: &Case, subject: &mut dyn Runs, stops: bool) -> Result<usize, String> {
    let calls: Vec<Call> = case.lines.iter().map(|line| line.call.clone()).collect();
    let trace = subject.run(&case.start, &calls);
    if trace.start != case.result {
        return Err(format!("the start gives {}, recorded {}", trace.start, case.result));
    }
    if case.hash.is_some_and(|wanted| wanted != hash(&trace.text)) {
        return Err("the first state differs".to_string());
    }
    for (at, line) in case.lines.iter().enumerate() {
        let Some(step) = trace.steps.get(at) else {
            if stops && !line.evidence && trace.stopped.is_some() {
                return Ok(at);
            }
            return Err(format!("call {at} was not reached ({:?})", trace.stopped));
        };
        if stops && !line.evidence {
            return Err(format!("call {at}: the Rust did not stop"));
        }
        let mut wanted = match &line.answer {
            Some(answer) => {
                let mut words = answer.clone();
                words.resize(ANSWER, 0);
                words
            }
            None => Vec::new(),
        };
        wanted.resize(line.call.lent, FILL);
        if step.result != line.result || step.answers != wanted {
            let op = read_list(&line.call.list).and_then(|list| list.first().map(|request| request.op())).unwrap_or(0);
            return Err(format!(
                "call {at} (op {op}): result {} and answer {:x?}, recorded {} and {:x?}",
                step.result,
                trimmed(&step.answers[..step.answers.len().min(12)]),
                line.result,
                trimmed(&wanted[..wanted.len().min(12)])
            ));
        }
        if line.hash.is_some_and(|wanted| wanted != hash(&step.text)) {
            return Err(format!("call {at}: the state differs"));
        }
    }
    if let (Some(text), Some(last)) = (&case.text, trace.steps.last().map(|step| &step.text).or(Some(&trace.text)))
        && text != last
    {
        return Err("the last state differs".to_string());
    }
    Ok(trace.steps.len())
}
