//! Hold areas of any content with the words of their segments: scripts by chance, and the second reading's answers to them.

#[path = "../plain/read.rs"]
#[allow(dead_code)]
mod read;
#[path = "../plain/segments.rs"]
mod segments;
mod chance;
#[path = "../pieces.rs"]
mod pieces;
mod script;
#[path = "../splitmix.rs"]
mod splitmix;

use std::io::Read;
use std::process::ExitCode;

/// Whether the fault of this number is put in (WIZHDULET_FAULT).
fn fault(number: u32) -> bool {
    static FAULT: std::sync::OnceLock<u32> = std::sync::OnceLock::new();
    *FAULT.get_or_init(|| std::env::var("WIZHDULET_FAULT").map_or(0, |n| n.parse().unwrap_or(0))) == number
}

fn main() -> ExitCode {
    let arguments: Vec<String> = std::env::args().skip(1).collect();
    let arguments: Vec<&str> = arguments.iter().map(String::as_str).collect();
    match arguments[..] {
        ["answers"] => {
            let mut text = String::new();
            std::io::stdin().read_to_string(&mut text).expect("standard input can be read");
            let (answers, seen) = script::run(&text);
            print!("{answers}");
            eprint!("{seen}");
        }
        ["script", bytes, seed] => match (bytes.parse(), seed.parse()) {
            (Ok(bytes), Ok(seed)) => print!("{}", chance::script(bytes, seed)),
            _ => return usage(),
        },
        _ => return usage(),
    }
    ExitCode::SUCCESS
}

fn usage() -> ExitCode {
    eprintln!("oracle: segments answers <SCRIPT, or segments script BYTES SEED");
    ExitCode::FAILURE
}
