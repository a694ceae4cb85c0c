//! The Rust handle table as an oracle, and what is compared with it (docs/oracle.md).
#![allow(clippy::all)]

extern crate alloc;
extern crate self as hyper;

#[doc(hidden)]
pub mod abi;
pub mod requests;
pub mod second_reader;
pub mod state;
pub mod subject;
pub mod tally;
pub mod violation;
pub mod cases;
pub mod words;

pub mod c_entry;
pub mod coverage;
pub mod fills;
pub mod generate;
pub mod held;
pub mod judged;
pub mod looks;
pub mod plans;
pub mod reading;
pub mod recorded;

#[cfg(rust_sources)]
include!(concat!(env!("OUT_DIR"), "/sources.rs"));

#[cfg(rust_sources)]
pub mod oracle;
#[cfg(all(rust_sources, port))]
pub mod bench;
#[cfg(rust_sources)]
pub mod check;
#[cfg(rust_sources)]
pub mod compare;
#[cfg(rust_sources)]
pub mod record;

/// Which Rust was built in.
pub const SOURCES: &str = env!("ORACLE_SOURCES");
