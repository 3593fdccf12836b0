//! Scripts of the books (docs/SCRIPTS.md): calls read, answers written, a script run on a side.

use std::fmt;

#[derive(Debug, Clone, PartialEq, Eq)]
pub enum Call {
    Behind(u64),
    All(Vec<u64>),
    Compared(u64, u64),
    Pass(u64),
    Next(u64, Vec<u64>),
    Open(u64),
    Close(u64),
    Ended(u64, u64),
    Check(u64, Vec<u64>),
    Acked(u64),
    Is(u64),
}

impl Call {
    /// The sessions that a call meets: all it names, but those of a question that changes nothing.
    pub fn named(&self) -> &[u64] {
        match self {
            Self::Behind(session)
            | Self::Compared(session, _)
            | Self::Open(session)
            | Self::Close(session)
            | Self::Ended(session, _) => std::slice::from_ref(session),
            Self::All(listing) | Self::Next(_, listing) | Self::Check(_, listing) => listing,
            Self::Pass(_) | Self::Acked(_) | Self::Is(_) => &[],
        }
    }
}

#[derive(Debug, Clone, Copy, PartialEq, Eq)]
pub enum Answer {
    Ok,
    Wait,
    Session(u64),
    Nobody,
    Says(bool),
    Refused(u8),
}

/// All that a side keeps: those met and those behind in their order, open counts and incarnations by session.
#[derive(Debug, Clone, Default, PartialEq, Eq)]
pub struct State {
    pub met: Vec<u64>,
    pub behind: Vec<u64>,
    pub open: Vec<(u64, u64)>,
    pub compared: Vec<(u64, u64)>,
    pub catching: Option<u64>,
    pub checked: Option<u64>,
}

pub trait Side {
    fn new() -> Self;
    fn call(&mut self, call: &Call) -> Answer;
    fn state(&self) -> State;
}

fn list(f: &mut fmt::Formatter<'_>, name: &str, incarnation: Option<u64>, listing: &[u64]) -> fmt::Result {
    write!(f, "{name}")?;
    incarnation.into_iter().chain(listing.iter().copied()).try_for_each(|number| write!(f, " {number}"))
}

impl fmt::Display for Call {
    fn fmt(&self, f: &mut fmt::Formatter<'_>) -> fmt::Result {
        match self {
            Self::Behind(session) => write!(f, "behind {session}"),
            Self::All(listing) => list(f, "all", None, listing),
            Self::Compared(session, incarnation) => write!(f, "compared {session} {incarnation}"),
            Self::Pass(incarnation) => write!(f, "pass {incarnation}"),
            Self::Next(incarnation, listing) => list(f, "next", Some(*incarnation), listing),
            Self::Open(session) => write!(f, "open {session}"),
            Self::Close(session) => write!(f, "close {session}"),
            Self::Ended(session, incarnation) => write!(f, "ended {session} {incarnation}"),
            Self::Check(incarnation, listing) => list(f, "check", Some(*incarnation), listing),
            Self::Acked(incarnation) => write!(f, "acked {incarnation}"),
            Self::Is(session) => write!(f, "is {session}"),
        }
    }
}

impl fmt::Display for Answer {
    fn fmt(&self, f: &mut fmt::Formatter<'_>) -> fmt::Result {
        match self {
            Self::Ok => write!(f, "ok"),
            Self::Wait => write!(f, "wait"),
            Self::Session(session) => write!(f, "{session}"),
            Self::Nobody => write!(f, "none"),
            Self::Says(says) => write!(f, "{}", u8::from(*says)),
            Self::Refused(number) => write!(f, "R {number}"),
        }
    }
}

/// Decimal digits alone, to 2^64 - 1.
fn number(word: &str) -> Option<u64> {
    if word.bytes().all(|byte| byte.is_ascii_digit()) { word.parse().ok() } else { None }
}

fn call(line: &str) -> Option<Call> {
    let mut words = line.split(' ').filter(|word| !word.is_empty());
    let name = words.next()?;
    let numbers = words.map(number).collect::<Option<Vec<u64>>>()?;
    match (name, &numbers[..]) {
        ("behind", &[session]) => Some(Call::Behind(session)),
        ("all", listing) => Some(Call::All(listing.to_vec())),
        ("compared", &[session, incarnation]) => Some(Call::Compared(session, incarnation)),
        ("pass", &[incarnation]) => Some(Call::Pass(incarnation)),
        ("next", [incarnation, listing @ ..]) => Some(Call::Next(*incarnation, listing.to_vec())),
        ("open", &[session]) => Some(Call::Open(session)),
        ("close", &[session]) => Some(Call::Close(session)),
        ("ended", &[session, incarnation]) => Some(Call::Ended(session, incarnation)),
        ("check", [incarnation, listing @ ..]) => Some(Call::Check(*incarnation, listing.to_vec())),
        ("acked", &[incarnation]) => Some(Call::Acked(incarnation)),
        ("is", &[session]) => Some(Call::Is(session)),
        _ => None,
    }
}

/// A script's answers, a line each. Of several scripts, one after the other, each line `make` begins another.
pub fn run<S: Side>(script: &str, several: bool) -> String {
    let mut side = S::new();
    let mut out = String::new();
    for line in script.lines().filter(|line| !line.is_empty() && !line.starts_with('#')) {
        match call(line) {
            Some(call) => out.push_str(&format!("{}\n", side.call(&call))),
            None if several && line == "make" => side = S::new(),
            None => out.push_str(&format!("? {line}\n")),
        }
    }
    out
}
