//! Both sides on the same calls, and the whole state after each; then whole passes.

use crate::passes;
use crate::rust::Rust;
use crate::script::{Answer, Call, Side};
use crate::splitmix::Chance;
use std::process::ExitCode;

const KINDS: [&str; 14] = [
    "done",
    "openings that wait",
    "next: a session that is behind",
    "next: a listed one",
    "next: none",
    "the end of a catch-up: compared",
    "the end of a catch-up: not compared",
    "told Checked",
    "not told Checked",
    "is behind",
    "is not behind",
    "27, one session named",
    "27, a listing",
    "27, of is_behind",
];

/// How often each kind of answer came; the last must never.
#[derive(Default)]
pub struct Counts([u64; 14]);

impl Counts {
    fn add(&mut self, call: &Call, answer: Answer, was_behind: bool) {
        let kind = match (call, answer) {
            (Call::Is(_), Answer::Refused(_)) => 13,
            (Call::All(_) | Call::Next(..) | Call::Check(..), Answer::Refused(_)) => 12,
            (_, Answer::Refused(_)) => 11,
            (_, Answer::Ok) => 0,
            (_, Answer::Wait) => 1,
            (_, Answer::Session(_)) => 3 - usize::from(was_behind),
            (_, Answer::Nobody) => 4,
            (Call::Ended(..), Answer::Says(says)) => 6 - usize::from(says),
            (Call::Check(..), Answer::Says(says)) => 8 - usize::from(says),
            (_, Answer::Says(says)) => 10 - usize::from(says),
        };
        self.0[kind] += 1;
    }

    fn calls(&self) -> u64 {
        self.0.iter().sum()
    }
}

/// One script on both sides; the text of a difference.
struct Both<S> {
    rust: Rust,
    ours: S,
    script: String,
}

impl<S: Side> Both<S> {
    fn new() -> Self {
        Self { rust: Rust::new(), ours: S::new(), script: String::new() }
    }

    fn call(&mut self, call: &Call, counts: &mut Counts) -> Result<Answer, String> {
        let behind = self.rust.state().behind;
        let (wanted, got) = (self.rust.call(call), self.ours.call(call));
        counts.add(call, wanted, matches!(wanted, Answer::Session(session) if behind.contains(&session)));
        let (state, ours) = (self.rust.state(), self.ours.state());
        if wanted == got && state == ours {
            self.script.push_str(&format!("{call}\n"));
            return Ok(wanted);
        }
        Err(format!("{}{call}\nthe Rust: {wanted}, then {state:?}\nour side: {got}, then {ours:?}", self.script))
    }
}

const INCARNATIONS: [u64; 4] = [0, 7, 7, 8];

/// One call by chance, over so many sessions.
fn one(chance: &mut Chance, sessions: u64) -> Call {
    let session = chance.below(sessions);
    let incarnation = INCARNATIONS[chance.below(4) as usize];
    match chance.below(24) {
        0..3 => Call::Behind(session),
        3 => Call::All(chance.listing(sessions)),
        4..8 => Call::Compared(session, incarnation),
        8 => Call::Pass(incarnation),
        9..12 => Call::Next(incarnation, chance.listing(sessions)),
        12..15 => Call::Open(session),
        15..18 => Call::Close(session),
        18..20 => Call::Ended(session, incarnation),
        20..22 => Call::Check(incarnation, chance.listing(sessions)),
        22 if chance.one_in(3) => Call::Acked(incarnation),
        _ => Call::Is(session),
    }
}

/// A pass, call by call: who is picked is mostly caught up with its incarnation; meanwhile it may be opened.
fn pass<S: Side>(both: &mut Both<S>, chance: &mut Chance, sessions: u64, counts: &mut Counts) -> Result<(), String> {
    let incarnation = INCARNATIONS[chance.below(4) as usize];
    let listing = chance.listing(sessions);
    both.call(&Call::Pass(incarnation), counts)?;
    while let Answer::Session(session) = both.call(&Call::Next(incarnation, listing.clone()), counts)? {
        if chance.one_in(4) {
            both.call(&Call::Open(session), counts)?;
        }
        match chance.below(12) {
            0 => both.call(&Call::Behind(session), counts)?,
            1 => both.call(&Call::Compared(session, incarnation + 1), counts)?,
            _ => both.call(&Call::Compared(session, incarnation), counts)?,
        };
        if both.call(&Call::Ended(session, incarnation), counts)? != Answer::Says(true) {
            return Ok(());
        }
    }
    if both.call(&Call::Check(incarnation, listing), counts)? == Answer::Says(true) && !chance.one_in(4) {
        both.call(&Call::Acked(incarnation), counts)?;
    }
    Ok(())
}

/// So many calls in scripts over 3, 6, 20 and 300 sessions in turn.
fn by_chance<S: Side>(calls: u64, seed: u64, counts: &mut Counts) -> Result<(), String> {
    let mut chance = Chance(seed);
    let mut scripts = 0;
    while counts.calls() < calls {
        let sessions = [3, 6, 20, 300][scripts % 4];
        let mut both = Both::<S>::new();
        for _ in 0..if sessions == 300 { 300 } else { 100 } {
            if chance.one_in(if sessions == 300 { 60 } else { 12 }) {
                pass(&mut both, &mut chance, sessions, counts)?;
            } else {
                both.call(&one(&mut chance, sessions), counts)?;
            }
        }
        scripts += 1;
    }
    Ok(())
}

fn all<S: Side>(calls: u64, seed: u64, counts: &mut Counts, passes: &mut passes::Counts) -> Result<(), String> {
    by_chance::<S>(calls, seed, counts)?;
    passes::by_chance::<S>(calls / 100, seed, passes)
}

pub fn compare<S: Side>(calls: u64, seed: u64) -> ExitCode {
    let mut counts = Counts::default();
    let mut passes = passes::Counts::default();
    let verdict = all::<S>(calls, seed, &mut counts, &mut passes);
    for (kind, count) in KINDS.iter().zip(counts.0) {
        println!("{count:>10}  {kind}");
    }
    passes.print();
    if let Err(difference) = verdict {
        println!("a difference at the last call of\n{difference}");
        return ExitCode::FAILURE;
    }
    if counts.0[13] != 0 {
        println!("is_behind gave 27");
        return ExitCode::FAILURE;
    }
    if calls >= 10_000 && (counts.0[..13].contains(&0) || !passes.complete()) {
        println!("a kind of answer wasn't reached");
        return ExitCode::FAILURE;
    }
    println!("books: {} calls and {} whole passes, no difference", counts.calls(), passes.passes);
    ExitCode::SUCCESS
}
