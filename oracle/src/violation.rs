//! `invariant_violation`: reported with its file and line, and never unwound.
//!
//! The tokens of the Rust violate again when they are dropped, so a violation must not unwind. The thread that reached it sends the
//! place to whoever runs it and then sleeps for good; what it held is left alone.

use std::cell::RefCell;
use std::panic::Location;
use std::sync::mpsc::Sender;

/// Where the Rust reached `invariant_violation`.
#[derive(Clone, Debug, Eq, PartialEq, Ord, PartialOrd)]
pub struct Place {
    pub file: String,
    pub line: u32,
}

thread_local! {
    static REPORT: RefCell<Option<Box<dyn Fn(Place)>>> = const { RefCell::new(None) };
}

/// Sets what a violation on this thread does before it sleeps.
pub fn report_to(report: Box<dyn Fn(Place)>) {
    REPORT.with(|slot| *slot.borrow_mut() = Some(report));
}

#[track_caller]
#[cold]
pub fn invariant_violation() -> ! {
    let location = Location::caller();
    // Only the path's end: it names the file of the Rust, wherever the build stands.
    let parts: Vec<&str> = location.file().split('/').collect();
    let known = ["authority.rs", "mod.rs", "storage.rs"];
    let file = match parts.last() {
        Some(last) if known.contains(last) => {
            let keep = if *last == "authority.rs" { 1 } else { 3 };
            parts[parts.len().saturating_sub(keep)..].join("/")
        }
        Some(last) => format!("stand-in {last}"),
        None => String::new(),
    };
    let place = Place { file, line: location.line() };
    REPORT.with(|slot| match slot.borrow().as_ref() {
        Some(report) => report(place),
        None => eprintln!("oracle: invariant_violation at {}:{} with nobody listening", place.file, place.line),
    });
    loop {
        std::thread::park();
    }
}
