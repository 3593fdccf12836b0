//! Stamps as numbers: drivers over our library and over a conversion by formula, without a table, written apart from it; and their comparison. The Rust has no
//! counterpart.

#[path = "../asked.rs"]
mod asked;
#[cfg(ours)]
mod bench;
#[cfg(ours)]
mod compare;
mod formula;
#[cfg(ours)]
mod ours;
mod script;
#[cfg(ours)]
#[path = "../splitmix.rs"]
mod splitmix;

use asked::{input, usage};
use std::process::ExitCode;

/// The longest stamp, in bytes.
pub const LONGEST: usize = 30;

/// Both directions. A refusal is its number.
pub trait Side {
    /// Milliseconds and picoseconds.
    fn read(stamp: &[u8]) -> Result<(u64, u64), u8>;
    fn write(millis: u64, picos: u64, area: &mut [u8]) -> Result<usize, u8>;
}

fn main() -> ExitCode {
    let arguments = asked::arguments();
    let arguments: Vec<&str> = arguments.iter().map(String::as_str).collect();
    match arguments[..] {
        ["plain-times"] => print!("{}", script::run::<formula::Formula>(&input())),
        #[cfg(ours)]
        ["our-times"] => print!("{}", script::run::<ours::Ours>(&input())),
        #[cfg(ours)]
        ["bench"] => bench::run(),
        #[cfg(ours)]
        ["compare", ref numbers @ ..] => return asked::compared(numbers, compare::compare),
        _ => return usage(),
    }
    ExitCode::SUCCESS
}
