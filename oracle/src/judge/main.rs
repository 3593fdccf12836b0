//! The oracle's drivers: see README.md beside the build script.

#[cfg(all(calls, not(plain)))]
mod bench;
mod call;
mod compare;
mod count;
mod differences;
mod digits;
#[cfg(ours)]
mod faults;
#[path = "../plain/fix.rs"]
mod fix;
mod frames;
mod generate;
mod held;
mod holding;
mod imports;
#[cfg(ours)]
mod library;
mod lowest;
#[cfg(ours)]
mod ours;
#[cfg(ours)]
mod out;
#[path = "../pieces.rs"]
mod pieces;
#[cfg(plain)]
#[path = "../plain/mod.rs"]
mod plain;
mod ranges;
mod record;
mod run;
mod rust;
mod selftest;
#[cfg(calls)]
mod shadow;
mod side;
#[path = "../splitmix.rs"]
#[allow(dead_code)]
mod splitmix;
#[cfg(ours)]
mod walk;
mod wire;

use std::io::{self, Read, Write};
use std::process::ExitCode;

use rust::Rust;

fn input() -> Vec<u8> {
    let mut bytes = Vec::new();
    io::stdin().read_to_end(&mut bytes).expect("standard input can be read");
    bytes
}

fn print(text: &str) -> ExitCode {
    let written = io::stdout().write_all(text.as_bytes());
    if written.is_ok() { ExitCode::SUCCESS } else { ExitCode::FAILURE }
}

fn main() -> ExitCode {
    let arguments: Vec<String> = std::env::args().skip(1).collect();
    let arguments: Vec<&str> = arguments.iter().map(String::as_str).collect();
    match arguments[..] {
        ["rust-calls"] => print(&side::run::<Rust>(&String::from_utf8_lossy(&input()))),
        ["rust-calls", "alone"] => {
            differences::leave_out(true);
            print(&side::run::<Rust>(&String::from_utf8_lossy(&input())))
        }
        ["rust-frames", ref version @ ..] => match versioned(version) {
            Some(version) => print(&frames::read_lines(&input(), |frame| frames::read_by_rust(version, frame))),
            None => usage(),
        },
        ["rust-frames-program"] => print(&frames::program(&input())),
        ["rust-lowest-program"] => print(&frames::lowest_program(&input())),
        #[cfg(ours)]
        ["our-calls"] => print(&side::run::<ours::Ours>(&String::from_utf8_lossy(&input()))),
        #[cfg(ours)]
        ["our-frames", ref version @ ..] => match versioned(version) {
            Some(version) => print(&frames::read_lines(&input(), |frame| ours::read(version, frame))),
            None => usage(),
        },
        #[cfg(all(calls, not(plain)))]
        ["bench"] => bench::bench(),
        #[cfg(all(calls, not(plain)))]
        ["bench", "whole"] => {
            bench::sendings();
            ExitCode::SUCCESS
        }
        ["compare", seconds, ref seed @ ..] => match (seconds.parse(), seed.first().map_or(Ok(1), |seed| seed.parse()))
        {
            (Ok(seconds), Ok(seed)) => compare::compare(seconds, seed),
            _ => usage(),
        },
        ["compare-import", files, ref seed @ ..] => {
            match (files.parse(), seed.first().map_or(Ok(1), |seed| seed.parse())) {
                (Ok(files), Ok(seed)) => compare::compare_imports(files, seed),
                _ => usage(),
            }
        }
        ["selftest", folder] if selftest::selftest(folder.as_ref()) => ExitCode::SUCCESS,
        ["selftest", _] => ExitCode::FAILURE,
        ["record", folder] => match record::record(folder.as_ref()) {
            Ok(count) => print(&format!("record: {count} files\n")),
            Err(error) => {
                eprintln!("record: {error}");
                ExitCode::FAILURE
            }
        },
        _ => usage(),
    }
}

/// The version that frames are read in: the first, where none is said.
fn versioned(arguments: &[&str]) -> Option<u16> {
    match arguments {
        [] => Some(differences::FIRST),
        [version] => version.parse().ok(),
        _ => None,
    }
}

fn usage() -> ExitCode {
    eprintln!("oracle: see oracle/README.md for what can be asked");
    ExitCode::FAILURE
}
