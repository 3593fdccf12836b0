//! Lease scripts: calls read, answers written, a script run on a side.

use std::fmt;

#[derive(Debug, Clone, Copy, PartialEq, Eq)]
pub enum Outcome {
    Ok,
    Failed,
    Deposed,
}

#[derive(Debug, Clone, Copy, PartialEq, Eq)]
pub enum Call {
    Due(u64),
    Try(u64, u64, Outcome),
}

#[derive(Debug, Clone, Copy, PartialEq, Eq)]
pub enum Answer {
    Due(bool),
    Held(u64),
    Lost(u64),
    Refused(u8),
    /// The Rust alone makes no attempt that isn't due.
    NoAttempt,
}

/// What a side shows besides its answers.
#[derive(Debug, Clone, Copy, PartialEq, Eq)]
pub struct State {
    pub until: u64,
    pub last: u64,
    pub lost: bool,
}

pub trait Side {
    fn new(duration: u64, made: u64) -> Self;
    fn call(&mut self, call: Call) -> Answer;
    fn state(&self) -> State;
}

impl fmt::Display for Call {
    fn fmt(&self, f: &mut fmt::Formatter<'_>) -> fmt::Result {
        match self {
            Self::Due(now) => write!(f, "due {now}"),
            Self::Try(start, now, Outcome::Ok) => write!(f, "try {start} {now} ok"),
            Self::Try(start, now, Outcome::Failed) => write!(f, "try {start} {now} failed"),
            Self::Try(start, now, Outcome::Deposed) => write!(f, "try {start} {now} deposed"),
        }
    }
}

impl fmt::Display for Answer {
    fn fmt(&self, f: &mut fmt::Formatter<'_>) -> fmt::Result {
        match self {
            Self::Due(due) => write!(f, "{}", u8::from(*due)),
            Self::Held(end) => write!(f, "held {end}"),
            Self::Lost(end) => write!(f, "lost {end}"),
            Self::Refused(number) => write!(f, "R {number}"),
            Self::NoAttempt => write!(f, "none"),
        }
    }
}

/// Decimal digits alone, to 2^64 - 1.
fn number(word: &str) -> Option<u64> {
    if word.bytes().all(|byte| byte.is_ascii_digit()) { word.parse().ok() } else { None }
}

fn outcome(word: &str) -> Option<Outcome> {
    match word {
        "ok" => Some(Outcome::Ok),
        "failed" => Some(Outcome::Failed),
        "deposed" => Some(Outcome::Deposed),
        _ => None,
    }
}

fn call(line: &str) -> Option<Call> {
    let words: Vec<&str> = line.split(' ').filter(|word| !word.is_empty()).collect();
    match words[..] {
        ["due", now] => Some(Call::Due(number(now)?)),
        ["try", start, now, how] => Some(Call::Try(number(start)?, number(now)?, outcome(how)?)),
        _ => None,
    }
}

fn first(line: &str) -> Option<(u64, u64)> {
    let words: Vec<&str> = line.split(' ').filter(|word| !word.is_empty()).collect();
    match words[..] {
        [duration, made] => Some((number(duration)?, number(made)?)),
        _ => None,
    }
}

/// A script's answers, a line each. A first line that can't be read ends it. Of several scripts, one after the other, each
/// further first line makes a new lease.
pub fn run<S: Side>(script: &str, several: bool) -> String {
    let mut lines = script.lines().filter(|line| !line.is_empty() && !line.starts_with('#'));
    let Some(line) = lines.next() else { return String::new() };
    let Some((duration, made)) = first(line) else { return format!("? {line}\n") };
    let mut side = S::new(duration, made);
    let mut out = String::new();
    for line in lines {
        match (call(line), first(line)) {
            (Some(call), _) => out.push_str(&format!("{}\n", side.call(call))),
            (None, Some((duration, made))) if several => side = S::new(duration, made),
            (None, _) => out.push_str(&format!("? {line}\n")),
        }
    }
    out
}
