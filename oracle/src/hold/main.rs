//! Calls on a standby whose hold areas and their words have any content: scripts by chance, and the second reading's answers to them.

#[allow(dead_code)]
#[path = "../judge/call.rs"]
mod call;
mod chance;
#[path = "../judge/digits.rs"]
mod digits;
mod faults {
    /// Whether the fault of this number is put in (WIZHDULET_FAULT).
    pub fn fault(number: u32) -> bool {
        static FAULT: std::sync::OnceLock<u32> = std::sync::OnceLock::new();
        *FAULT.get_or_init(|| std::env::var("WIZHDULET_FAULT").map_or(0, |n| n.parse().unwrap_or(0))) == number
    }
}
#[allow(dead_code)]
#[path = "../plain/fix.rs"]
mod fix;
#[allow(dead_code, unused_imports)]
#[path = "../judge/library.rs"]
mod library;
#[allow(dead_code)]
#[path = "../judge/out.rs"]
mod out;
#[path = "../pieces.rs"]
mod pieces;
#[allow(dead_code)]
#[path = "../plain/mod.rs"]
mod plain;
mod ranges {
    pub type Range = (u64, u64);
}
mod script;
#[allow(dead_code)]
#[path = "../splitmix.rs"]
mod splitmix;
#[allow(dead_code)]
#[path = "../judge/wire.rs"]
mod wire;

use std::io::Read;
use std::process::ExitCode;

fn main() -> ExitCode {
    let arguments: Vec<String> = std::env::args().skip(1).collect();
    let arguments: Vec<&str> = arguments.iter().map(String::as_str).collect();
    match arguments[..] {
        ["answers"] => {
            let mut text = String::new();
            std::io::stdin().read_to_string(&mut text).expect("standard input can be read");
            let (answers, seen) = script::run(&text);
            print!("{answers}");
            eprint!("{seen}");
        }
        ["script", bytes, seed] => match (bytes.parse(), seed.parse()) {
            (Ok(bytes), Ok(seed)) => print!("{}", chance::script(bytes, seed)),
            _ => return usage(),
        },
        _ => return usage(),
    }
    ExitCode::SUCCESS
}

fn usage() -> ExitCode {
    eprintln!("oracle: hold answers <SCRIPT, or hold script BYTES SEED");
    ExitCode::FAILURE
}
