//! The oracle's commands. `oracle help` lists them.

use std::path::{Path, PathBuf};
use std::process::ExitCode;

use oracle::reading::{Reading, SLIPS, Slip};
use oracle::recorded;
use oracle::requests::{ANSWER, read_list};
use oracle::second_reader;
use oracle::state;
use oracle::subject::{Call, Runs, Start, Subject};
use oracle::tally::Tally;
use oracle::words;

const HELP: &str = "usage: oracle COMMAND
  sources                     which Rust is built in
  check                       P1 to P12, every corner case and difference, on the Rust itself
  random [SEED [REQUESTS]]    random lists on the Rust, compared with the reading; coverage table
  entry [SEED REQUESTS]       the same against the reading behind the C entry's words: a test of the comparison
  port [SEED REQUESTS]        the same against the port, through its C entry; coverage table
  held [SEED PAIRS]           the held and the plain run (demand 3) on the Rust
  held-entry [SEED PAIRS]     the same on the reading behind the C entry's words, and on wrong readings: a test of the comparison
  held-port [SEED PAIRS]      the same on the port, through its C entry; coverage table
  bench [--markdown] [--short]
                              the benchmark: the Rust and the port in one run of five passes (docs/performance.md), two minutes; --short: a few rows and runs, to see that it runs
  record DIR                  write the recorded lists, from the Rust
  same DIR                    make the recorded lists again and compare them with the files, byte for byte
  replay DIR [rust|port]      replay the recorded lists on the reading, on the Rust or on the port
  slips DIR                   each deliberately wrong reading must be caught by the recorded lists
  shrink SEED                 let a random list find a slip, and shorten it (a test of the comparison)
  run FILE [rust|reading]     run a file of words: `create W..` or `words W..` or `text` and a state text up to `end`, then
                              one list of words in each line; prints the result, the answers and the state text
  words FILE                  the words of a state text, in the coded form
  text FILE                   the text of a state's coded words, by the second reader";

fn main() -> ExitCode {
    // A reader that goes away (a pipe to `head`) ends the program quietly.
    let args: Vec<String> = std::env::args().skip(1).collect();
    let words: Vec<&str> = args.iter().map(String::as_str).collect();
    let mut tally = Tally::default();
    let result = match words.as_slice() {
        ["help"] => {
            println!("{HELP}");
            Ok(())
        }
        ["sources"] => {
            println!("{}", oracle::SOURCES);
            Ok(())
        }
        ["check"] => check(&mut tally),
        ["random"] => random(&mut tally, 0, 1_000_000),
        ["random", seed] => number(seed).and_then(|seed| random(&mut tally, seed, 1_000_000)),
        ["random", seed, requests] => {
            number(seed).and_then(|seed| number(requests).and_then(|requests| random(&mut tally, seed, requests)))
        }
        ["held"] => held(&mut tally, 0, 2000),
        ["held", seed, pairs] => number(seed).and_then(|seed| number(pairs).and_then(|pairs| held(&mut tally, seed, pairs))),
        ["held-entry"] => held_entry(&mut tally, 0, 300),
        ["held-entry", seed, pairs] => number(seed).and_then(|seed| number(pairs).and_then(|pairs| held_entry(&mut tally, seed, pairs))),
        ["held-port"] => held_port(&mut tally, 0, 20_000),
        ["held-port", seed, pairs] => number(seed).and_then(|seed| number(pairs).and_then(|pairs| held_port(&mut tally, seed, pairs))),
        ["entry"] => entry(&mut tally, 0, 30_000),
        ["entry", seed, requests] => {
            number(seed).and_then(|seed| number(requests).and_then(|requests| entry(&mut tally, seed, requests)))
        }
        ["port"] => port(&mut tally, 0, 1_000_000),
        ["port", seed, requests] => {
            number(seed).and_then(|seed| number(requests).and_then(|requests| port(&mut tally, seed, requests)))
        }
        ["bench", flags @ ..] if flags.iter().all(|flag| ["--markdown", "--short"].contains(flag)) => bench(flags.contains(&"--markdown"), flags.contains(&"--short")),
        ["record", dir] => record(Path::new(dir)),
        ["same", dir] => same(&mut tally, Path::new(dir)),
        ["replay", dir] => replay(&mut tally, Path::new(dir), Replayed::Reading),
        ["replay", dir, "rust"] => replay(&mut tally, Path::new(dir), Replayed::Rust),
        ["replay", dir, "port"] => replay(&mut tally, Path::new(dir), Replayed::Port),
        ["slips", dir] => slips(&mut tally, Path::new(dir)),
        ["shrink", seed] => number(seed).and_then(|seed| shrink(&mut tally, seed)),
        ["run", file] | ["run", file, "rust"] => run(Path::new(file), true),
        ["run", file, "reading"] => run(Path::new(file), false),
        ["words", file] => read(Path::new(file)).and_then(|text| {
            let state = state::parse(&text).map_err(|error| format!("{file}: {error}"))?;
            println!("{}", recorded::code(&words::encode(&state)));
            Ok(())
        }),
        ["text", file] => read(Path::new(file)).and_then(|text| {
            let words = recorded::uncode(&text).map_err(|error| format!("{file}: {error}"))?;
            print!("{}", second_reader::text(&words).map_err(|error| format!("{file}: {error}"))?);
            Ok(())
        }),
        [] => Err(format!("a command is missing\n{HELP}")),
        _ => Err(format!("unknown command or wrong arguments: {}\n{HELP}", args.join(" "))),
    };
    if let Err(error) = result {
        eprintln!("oracle: {error}");
        return ExitCode::from(2);
    }
    if tally.passed + tally.failed > 0 {
        println!("{}: {} passed, {} failed", args[0], tally.passed, tally.failed);
    }
    if tally.failed > 0 { ExitCode::from(1) } else { ExitCode::SUCCESS }
}

fn number(text: &str) -> Result<u64, String> {
    text.parse().map_err(|_| format!("'{text}' is no number"))
}

fn read(path: &Path) -> Result<String, String> {
    std::fs::read_to_string(path).map_err(|error| format!("{} can't be read: {error}", path.display()))
}

fn files(dir: &Path) -> Result<Vec<(PathBuf, Vec<recorded::Case>)>, String> {
    let entries = std::fs::read_dir(dir).map_err(|error| format!("{} can't be read: {error}", dir.display()))?;
    let mut paths: Vec<PathBuf> =
        entries.filter_map(|entry| entry.ok().map(|entry| entry.path())).filter(|path| path.extension().is_some_and(|end| end == "txt")).collect();
    paths.sort();
    if paths.is_empty() {
        return Err(format!("{} holds no recorded lists", dir.display()));
    }
    let mut all = Vec::new();
    for path in paths {
        let cases = recorded::read(&read(&path)?).map_err(|error| format!("{}: {error}", path.display()))?;
        all.push((path, cases));
    }
    Ok(all)
}

#[cfg(not(rust_sources))]
fn missing<T>() -> Result<T, String> {
    Err("this command needs the Rust, and the oracle was built without its sources: put them at ../shared/docs/src beside the \
         repository, or name their place in ORACLE_RUST_SOURCES, and build again"
        .to_string())
}

#[cfg(not(port))]
fn portless<T>() -> Result<T, String> {
    Err("this command needs the port, and the oracle was built without it: name the folder of its libraries, which `c/libraries.py` \
         writes, in ORACLE_PORT, and build again"
        .to_string())
}

#[cfg(rust_sources)]
fn check(tally: &mut Tally) -> Result<(), String> {
    oracle::check::run(tally);
    Ok(())
}
#[cfg(not(rust_sources))]
fn check(_tally: &mut Tally) -> Result<(), String> {
    missing()
}

#[cfg(rust_sources)]
fn settings(name: &'static str, seed: u64, requests: u64, covers: bool) -> oracle::compare::Settings {
    oracle::compare::Settings { name, seed, requests, length: 120, covers }
}

#[cfg(rust_sources)]
fn random(tally: &mut Tally, seed: u64, requests: u64) -> Result<(), String> {
    oracle::compare::random(&settings("random", seed, requests, true), None, tally);
    Ok(())
}
#[cfg(not(rust_sources))]
fn random(_tally: &mut Tally, _seed: u64, _requests: u64) -> Result<(), String> {
    missing()
}

#[cfg(rust_sources)]
fn held(tally: &mut Tally, seed: u64, pairs: u64) -> Result<(), String> {
    let settings = oracle::held::Settings { name: "the Rust", seed, pairs, covers: pairs >= 20_000 };
    oracle::held::run(&settings, &mut oracle::oracle::Oracle::default(), tally);
    Ok(())
}
#[cfg(not(rust_sources))]
fn held(_tally: &mut Tally, _seed: u64, _pairs: u64) -> Result<(), String> {
    missing()
}

fn held_entry(tally: &mut Tally, seed: u64, pairs: u64) -> Result<(), String> {
    let settings = oracle::held::Settings { name: "the reading behind the C entry's words", seed, pairs, covers: pairs >= 20_000 };
    oracle::held::run(&settings, &mut oracle::c_entry::CEntry::of_the_reading(), tally);
    oracle::held::slips(seed, tally);
    Ok(())
}

#[cfg(port)]
fn held_port(tally: &mut Tally, seed: u64, pairs: u64) -> Result<(), String> {
    let settings = oracle::held::Settings { name: "the port", seed, pairs, covers: true };
    oracle::held::run(&settings, &mut oracle::c_entry::CEntry::of_the_port(), tally);
    Ok(())
}
#[cfg(not(port))]
fn held_port(_tally: &mut Tally, _seed: u64, _pairs: u64) -> Result<(), String> {
    portless()
}

#[cfg(rust_sources)]
fn entry(tally: &mut Tally, seed: u64, requests: u64) -> Result<(), String> {
    let mut subject = oracle::c_entry::CEntry::of_the_reading();
    oracle::compare::random(&settings("entry", seed, requests, false), Some(&mut subject), tally);
    Ok(())
}
#[cfg(not(rust_sources))]
fn entry(_tally: &mut Tally, _seed: u64, _requests: u64) -> Result<(), String> {
    missing()
}

#[cfg(all(rust_sources, port))]
fn port(tally: &mut Tally, seed: u64, requests: u64) -> Result<(), String> {
    let mut subject = oracle::c_entry::CEntry::of_the_port();
    oracle::compare::random(&settings("port", seed, requests, true), Some(&mut subject), tally);
    Ok(())
}
#[cfg(all(not(rust_sources), port))]
fn port(_tally: &mut Tally, _seed: u64, _requests: u64) -> Result<(), String> {
    missing()
}
#[cfg(not(port))]
fn port(_tally: &mut Tally, _seed: u64, _requests: u64) -> Result<(), String> {
    portless()
}

#[cfg(all(rust_sources, port))]
fn bench(markdown: bool, short: bool) -> Result<(), String> {
    oracle::bench::run(oracle::bench::Settings { markdown, short });
    Ok(())
}
#[cfg(all(not(rust_sources), port))]
fn bench(_markdown: bool, _short: bool) -> Result<(), String> {
    missing()
}
#[cfg(not(port))]
fn bench(_markdown: bool, _short: bool) -> Result<(), String> {
    portless()
}

#[cfg(rust_sources)]
fn record(dir: &Path) -> Result<(), String> {
    std::fs::create_dir_all(dir).map_err(|error| format!("{} can't be made: {error}", dir.display()))?;
    for (name, text) in oracle::record::all() {
        let path = dir.join(&name);
        std::fs::write(&path, &text).map_err(|error| format!("{} can't be written: {error}", path.display()))?;
        println!("{name}: {} bytes", text.len());
    }
    Ok(())
}
#[cfg(not(rust_sources))]
fn record(_dir: &Path) -> Result<(), String> {
    missing()
}

#[cfg(rust_sources)]
fn same(tally: &mut Tally, dir: &Path) -> Result<(), String> {
    for (name, text) in oracle::record::all() {
        let found = read(&dir.join(&name))?;
        tally.line(found == text, &format!("recorded {name}: made again from the Rust, {} bytes compared", text.len()));
    }
    Ok(())
}
#[cfg(not(rust_sources))]
fn same(_tally: &mut Tally, _dir: &Path) -> Result<(), String> {
    missing()
}

#[cfg(rust_sources)]
fn the_rust() -> Result<Box<dyn Runs>, String> {
    Ok(Box::new(oracle::oracle::Oracle::default()))
}
#[cfg(not(rust_sources))]
fn the_rust() -> Result<Box<dyn Runs>, String> {
    missing()
}

#[cfg(port)]
fn the_port() -> Result<Box<dyn Runs>, String> {
    Ok(Box::new(oracle::c_entry::CEntry::of_the_port()))
}
#[cfg(not(port))]
fn the_port() -> Result<Box<dyn Runs>, String> {
    portless()
}

#[derive(Clone, Copy, Eq, PartialEq)]
enum Replayed {
    Reading,
    Rust,
    Port,
}

fn replay(tally: &mut Tally, dir: &Path, on: Replayed) -> Result<(), String> {
    let (mut subject, name): (Box<dyn Runs>, _) = match on {
        Replayed::Reading => (Box::new(Reading::new(Slip::None)), "the reading"),
        Replayed::Rust => (the_rust()?, "the Rust"),
        Replayed::Port => (the_port()?, "the port"),
    };
    let rust = on == Replayed::Rust;
    let mut coverage = oracle::coverage::Coverage::default();
    for (path, cases) in files(dir)? {
        for line in cases.iter().flat_map(|case| &case.lines) {
            if let (Some(answer), true, Some(list)) = (&line.answer, line.evidence, read_list(&line.call.list)) {
                for request in &list {
                    coverage.count(request.op(), answer.first().copied().unwrap_or(0));
                }
            }
        }
        let (mut calls, mut wrong) = (0, Vec::new());
        for case in &cases {
            match recorded::replay(case, subject.as_mut(), rust) {
                Ok(count) => calls += count,
                Err(error) => wrong.push(format!("{}: {error}", case.name)),
            }
        }
        let file = path.file_name().map(|name| name.to_string_lossy().into_owned()).unwrap_or_default();
        let mut text = format!("recorded {file} replayed on {name}: {} lists, {calls} calls, answers and state hashes compared", cases.len());
        for line in &wrong {
            text += &format!("\n        {line}");
        }
        tally.line(wrong.is_empty(), &text);
        // Every end text through its words, by the second reader.
        let mut faults = Vec::new();
        for case in &cases {
            if let Some(text) = &case.text {
                let again = state::parse(text).map(|state| words::encode(&state)).and_then(|words| second_reader::text(&words));
                if again.as_deref() != Ok(text.as_str()) {
                    faults.push(case.name.clone());
                }
            }
        }
        tally.line(
            faults.is_empty(),
            &format!("recorded {file}: each list's last state through its words: the second reader's text equals the recorded one {}", faults.join(" ")),
        );
    }
    let (none, some) = coverage.unseen(oracle::coverage::possible);
    let strange = coverage.strange(oracle::coverage::possible);
    tally.line(
        none.is_empty() && strange == 0,
        &format!("recorded lists: {} requests answered by the Rust, {some} possible pairs of request and number seen, {} not {none:?}, {strange} impossible ones", coverage.requests, none.len()),
    );
    Ok(())
}

fn slips(tally: &mut Tally, dir: &Path) -> Result<(), String> {
    let files = files(dir)?;
    std::panic::set_hook(Box::new(|_| {}));
    for (slip, about) in SLIPS {
        let (mut caught, mut first) = (0, None);
        for (_, cases) in &files {
            for case in cases {
                let found = std::panic::catch_unwind(|| {
                    let mut subject = Reading::new(slip);
                    recorded::replay(case, &mut subject, false)
                });
                if !matches!(found, Ok(Ok(_))) {
                    caught += 1;
                    first.get_or_insert(case.name.clone());
                }
            }
        }
        tally.line(
            caught > 0,
            &format!("slip \"{about}\": caught by {caught} recorded lists, the first {}", first.unwrap_or("none".to_string())),
        );
    }
    let _ = std::panic::take_hook();
    Ok(())
}

#[cfg(rust_sources)]
fn shrink(tally: &mut Tally, seed: u64) -> Result<(), String> {
    use oracle::generate::{Kind, Ops, last_call, sequence, shrink};
    use oracle::subject::difference;
    let mut rust = oracle::oracle::Oracle::default();
    for slip in [Slip::RollbackByPlaceAmongMoves, Slip::ReplaceLeavesHighMark, Slip::CommitPutsSlotsBackwards, Slip::LookShowsWhatTheReceiverGets, Slip::LookByPlaceAmongMoves, Slip::LookupIsTwoPlaces, Slip::NoItemForCopies] {
        let mut reading = Reading::new(slip);
        let mut line = (false, format!("{slip:?}: not found by 400 random lists"));
        for seed in seed..seed + 400 {
            let made = sequence(seed, Kind::Plain, 120, Ops::All);
            if difference(&rust.run(&made.start, &made.calls), &reading.run(&made.start, &made.calls)).is_some() {
                let short = shrink(&mut rust, &mut reading, &made.start, &made.calls);
                let still = difference(&rust.run(&made.start, &short), &reading.run(&made.start, &short)).is_some();
                let one = last_call(&mut rust, &mut reading, &made.start, &short).is_some();
                line = (
                    still && one && short.len() < made.calls.len(),
                    format!(
                        "{slip:?}: found by random list {seed} of {} calls, shortened to {} that still differ, and to one call from the state before",
                        made.calls.len(),
                        short.len()
                    ),
                );
                break;
            }
        }
        tally.line(line.0, &line.1);
    }
    Ok(())
}
#[cfg(not(rust_sources))]
fn shrink(_tally: &mut Tally, _seed: u64) -> Result<(), String> {
    missing()
}

fn run(path: &Path, rust: bool) -> Result<(), String> {
    let text = read(path)?;
    let mut subject: Box<dyn Runs> = if rust { the_rust()? } else { Box::new(Reading::new(Slip::None)) };
    let mut lines = text.lines();
    let first = lines.next().unwrap_or("");
    let fail = |error: String| format!("{}: {error}", path.display());
    let (head, rest) = first.split_once(' ').unwrap_or((first, ""));
    let start = match head {
        "create" => Start::Create(recorded::uncode(rest).map_err(fail)?),
        "words" => Start::Words(recorded::uncode(rest).map_err(fail)?),
        "text" => {
            let mut text = String::new();
            for line in lines.by_ref() {
                text.push_str(line);
                text.push('\n');
                if line == "end" {
                    break;
                }
            }
            Start::Words(words::encode(&state::parse(&text).map_err(fail)?))
        }
        _ => return Err(fail("the first line is none of create, words, text".to_string())),
    };
    let mut calls = Vec::new();
    for line in lines.filter(|line| !line.trim().is_empty()) {
        let list = recorded::uncode(line).map_err(fail)?;
        let count = read_list(&list).map_or(1, |list| list.len());
        calls.push(Call { list, lent: count * ANSWER });
    }
    let trace = subject.run(&start, &calls);
    println!("start {}", trace.start);
    for step in &trace.steps {
        println!("result {}", step.result);
        if step.result == 0 {
            for answer in step.answers.chunks(ANSWER) {
                println!("answer {}", recorded::code(answer));
            }
        }
    }
    if let Some(place) = &trace.stopped {
        println!("not comparable: invariant_violation at {}:{}", place.file, place.line);
    }
    print!("{}", trace.steps.last().map_or(&trace.text, |step| &step.text));
    Ok(())
}
