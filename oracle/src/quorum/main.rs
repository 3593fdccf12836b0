//! An active with up to five standbys: drivers over our library and over a second reading of the papers, and their
//! comparison. There is no Rust and no public document to hold it to.

#[path = "../asked.rs"]
mod asked;
#[cfg(ours)]
mod compare;
mod history;
#[cfg(ours)]
mod ours;
mod script;
#[cfg(ours)]
#[path = "../splitmix.rs"]
mod splitmix;

use asked::{input, usage};
use std::process::ExitCode;

/// A call on the state; members are counted from 0.
#[derive(Debug, Clone, Copy, PartialEq, Eq)]
pub enum Call {
    Bind(u32),
    Sent(u32, u64),
    Ack(usize, u32, u64),
    Stale(usize),
}

/// What answers calls. A refusal is its number.
pub trait Side: Sized {
    fn make(n: u64, k: u64) -> Result<Self, u8>;
    fn call(&mut self, call: Call) -> Result<(), u8>;
    fn figure(&self, handle: u32) -> Result<u64, u8>;
}

fn main() -> ExitCode {
    let arguments = asked::arguments();
    let arguments: Vec<&str> = arguments.iter().map(String::as_str).collect();
    match arguments[..] {
        ["plain-quorum"] => print!("{}", script::run::<history::History>(&input())),
        #[cfg(ours)]
        ["our-quorum"] => print!("{}", script::run::<ours::Ours>(&input())),
        #[cfg(ours)]
        ["compare", ref numbers @ ..] => return asked::compared(numbers, compare::compare),
        _ => return usage(),
    }
    ExitCode::SUCCESS
}
