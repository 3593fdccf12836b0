//! The drivers over lease.rs and over our side (scripts.md, `oracle/our-lease`), their comparison and the bench.

#[path = "../asked.rs"]
mod asked;
#[cfg(ours)]
mod bench;
mod compare;
#[cfg(ours)]
mod ours;
#[cfg(not(ours))]
mod plain;
mod rust;
mod script;
#[path = "../splitmix.rs"]
mod splitmix;
#[cfg(ours)]
#[path = "../thread_time.rs"]
mod thread_time;

use asked::{input, usage};
use std::process::ExitCode;

#[cfg(ours)]
use ours::Ours;
#[cfg(not(ours))]
use plain::Plain as Ours;

fn answer<S: script::Side>(several: bool) -> ExitCode {
    print!("{}", script::run::<S>(&input(), several));
    ExitCode::SUCCESS
}

fn main() -> ExitCode {
    let arguments = asked::arguments();
    let arguments: Vec<&str> = arguments.iter().map(String::as_str).collect();
    match arguments[..] {
        ["rust-lease"] => answer::<rust::Rust>(false),
        ["rust-lease", "several"] => answer::<rust::Rust>(true),
        ["rust-lease", "alone"] => answer::<rust::Alone>(false),
        ["our-lease"] => answer::<Ours>(false),
        ["our-lease", "several"] => answer::<Ours>(true),
        ["compare-lease", ref numbers @ ..] => {
            asked::compared(numbers, |calls, seed, _| compare::compare::<Ours>(calls, seed))
        }
        #[cfg(ours)]
        ["bench"] => {
            bench::bench();
            ExitCode::SUCCESS
        }
        _ => usage(),
    }
}
