//! The drivers over the catch-up of active.rs and over our side (scripts.md, `oracle/our-books`), their comparison and the bench.

#[path = "../asked.rs"]
mod asked;
#[cfg(ours)]
mod bench;
mod chance;
mod compare;
#[cfg(ours)]
mod ours;
mod passes;
#[cfg(not(ours))]
mod plain;
mod rust;
mod script;
#[path = "../splitmix.rs"]
#[allow(dead_code)]
mod splitmix;

use asked::{input, usage};
use std::process::ExitCode;

#[cfg(ours)]
use ours::Ours;
#[cfg(not(ours))]
use plain::Plain as Ours;

fn answer<S: script::Side>(several: bool) -> ExitCode {
    print!("{}", script::run::<S>(&input(), several));
    ExitCode::SUCCESS
}

fn threads() -> ExitCode {
    match passes::threads::blocks_and_wakes::<Ours>() {
        Ok(()) => {
            println!("threads: an opening of the session being caught up blocks and wakes");
            ExitCode::SUCCESS
        }
        Err(fault) => {
            println!("threads: {fault}");
            ExitCode::FAILURE
        }
    }
}

fn main() -> ExitCode {
    let arguments = asked::arguments();
    let arguments: Vec<&str> = arguments.iter().map(String::as_str).collect();
    match arguments[..] {
        ["rust-books"] => answer::<rust::Rust>(false),
        ["rust-books", "several"] => answer::<rust::Rust>(true),
        ["our-books"] => answer::<Ours>(false),
        ["our-books", "several"] => answer::<Ours>(true),
        ["threads"] => threads(),
        ["compare-books", ref numbers @ ..] => {
            asked::compared(numbers, |calls, seed, _| compare::compare::<Ours>(calls, seed))
        }
        #[cfg(ours)]
        ["bench"] => {
            bench::bench();
            ExitCode::SUCCESS
        }
        _ => usage(),
    }
}
