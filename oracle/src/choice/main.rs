//! Which copy takes over: drivers over our library and over a second reading of the papers, their comparison, and the
//! times of both. There is no Rust and no public document to hold it to.

#[path = "../asked.rs"]
mod asked;
#[cfg(ours)]
mod bench;
#[cfg(ours)]
mod compare;
#[cfg(ours)]
mod ours;
mod plain;
mod script;
#[cfg(ours)]
#[path = "../splitmix.rs"]
mod splitmix;
#[cfg(ours)]
#[path = "../thread_time.rs"]
mod thread_time;

use asked::{input, usage};
use std::process::ExitCode;

/// The four texts of a key.
pub type Key = [Vec<u8>; 4];

/// A copy: its sessions' keys and next outgoing numbers, in the order in which its store has them.
#[derive(Debug, Clone, Default)]
pub struct Copy {
    pub listed: bool,
    pub checked: bool,
    pub epoch: u64,
    pub sessions: Vec<(Key, u64)>,
    /// Its store breaks the rules of its areas.
    pub broken: bool,
}

/// The copies that one call can take.
pub const MOST: usize = 5;

fn main() -> ExitCode {
    let arguments = asked::arguments();
    let arguments: Vec<&str> = arguments.iter().map(String::as_str).collect();
    match arguments[..] {
        ["plain-choice"] => print!("{}", script::run(&input(), plain::choose)),
        #[cfg(ours)]
        ["our-choice"] => print!("{}", script::run(&input(), |copies| ours::choose(copies, 0))),
        #[cfg(ours)]
        ["compare-choice", ref numbers @ ..] => return asked::compared(numbers, compare::compare),
        #[cfg(ours)]
        ["bench-choice"] => bench::bench(),
        _ => return usage(),
    }
    ExitCode::SUCCESS
}
