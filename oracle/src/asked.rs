//! What a driver is asked: its input, a comparison's numbers, and what is said of anything else.
use std::io::Read;
use std::process::ExitCode;

pub fn arguments() -> Vec<String> {
    std::env::args().skip(1).collect()
}

/// Standard input to its end.
pub fn input() -> String {
    let mut bytes = Vec::new();
    std::io::stdin().read_to_end(&mut bytes).expect("standard input can be read");
    String::from_utf8_lossy(&bytes).into_owned()
}

/// A comparison of so many inputs, `COUNT [SEED [FAULT]]`: by the seed 1 and without a fault where they aren't said.
#[cfg_attr(not(ours), allow(dead_code))]
pub fn compared(numbers: &[&str], compare: fn(u64, u64, u64) -> ExitCode) -> ExitCode {
    let number = |at: usize, unsaid: u64| numbers.get(at).map_or(Some(unsaid), |text| text.parse().ok());
    match (numbers.first().and_then(|text| text.parse().ok()), number(1, 1), number(2, 0)) {
        (Some(count), Some(seed), Some(fault)) => compare(count, seed, fault),
        _ => usage(),
    }
}

pub fn usage() -> ExitCode {
    eprintln!("oracle: see oracle/README.md for what can be asked");
    ExitCode::FAILURE
}
