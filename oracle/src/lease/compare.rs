//! Both sides on the same calls: scripts by chance, and from a million calls on every script of two calls over nine times.

use crate::rust::Rust;
use crate::script::{Answer, Call, Outcome, Side};
use crate::splitmix::Chance;
use std::process::ExitCode;

const OUTCOMES: [Outcome; 3] = [Outcome::Ok, Outcome::Failed, Outcome::Deposed];
const KINDS: [&str; 12] = [
    "questions put to the Rust: due",
    "questions put to the Rust: not due",
    "attempts put to the Rust, due: renewed",
    "attempts put to the Rust, due: failed and borne",
    "attempts put to the Rust, due: lost",
    "attempts put to the Rust, not due: renewed",
    "attempts put to the Rust, not due: failed and borne",
    "attempts put to the Rust, not due: lost",
    "questions of a lost lease",
    "attempts on a lost lease",
    "questions refused with 31",
    "attempts refused with 31",
];

/// How often each kind of answer came.
#[derive(Default)]
struct Counts([u64; 12]);

impl Counts {
    fn add(&mut self, call: Call, answer: Answer, was_lost: bool, was_due: bool) {
        let due = if was_due { 2 } else { 5 };
        let kind = match (call, answer) {
            (Call::Due(_), Answer::Refused(_)) => 10,
            (Call::Try(..), Answer::Refused(_)) => 11,
            (Call::Due(_), _) if was_lost => 8,
            (Call::Try(..), _) if was_lost => 9,
            (Call::Due(_), answer) => usize::from(answer != Answer::Due(true)),
            (Call::Try(_, _, Outcome::Ok), _) => due,
            (Call::Try(..), Answer::Held(_)) => due + 1,
            (Call::Try(..), _) => due + 2,
        };
        self.0[kind] += 1;
    }
}

impl Chance {
    fn duration(&mut self) -> u64 {
        let any = self.next();
        let odd = self.below(1000) * 2 + 1;
        self.of(&[0, 1, 2, 3, 10, 11, odd, 1 << 63, u64::MAX / 2, u64::MAX - 1, u64::MAX, any])
    }

    fn made(&mut self) -> u64 {
        let any = self.next();
        self.of(&[0, 1, 100, u64::MAX - 20, u64::MAX - 1, u64::MAX, any])
    }

    /// A time about `from`, half the duration later, or about the end; seldom one that falls.
    fn time(&mut self, from: u64, until: u64, duration: u64) -> u64 {
        let about = until.saturating_sub(self.below(3)).saturating_add(self.below(3));
        let half = until.saturating_sub(duration / 2).saturating_add(self.below(3)).saturating_sub(1);
        let later = from.saturating_add(self.below(12));
        let time = self.of(&[from, from.saturating_add(1), later, half, about]);
        match self.below(12) {
            0 => from.saturating_sub(1 + self.below(3)),
            1 => time,
            _ => time.max(from),
        }
    }

    fn call(&mut self, last: u64, until: u64, duration: u64) -> Call {
        let start = self.time(last, until, duration);
        if self.below(2) == 0 {
            return Call::Due(start);
        }
        let now = self.time(start, until, duration);
        // Few attempts are deposed, since the lease is then lost.
        match self.below(12) {
            0 => Call::Try(start, now, Outcome::Deposed),
            1..5 => Call::Try(start, now, Outcome::Failed),
            _ => Call::Try(start, now, Outcome::Ok),
        }
    }
}

/// One script on both sides; the text of a difference.
struct Both<S> {
    rust: Rust,
    ours: S,
    duration: u64,
    script: String,
}

impl<S: Side> Both<S> {
    fn new(duration: u64, made: u64) -> Self {
        Self {
            rust: Rust::new(duration, made),
            ours: S::new(duration, made),
            duration,
            script: format!("{duration} {made}\n"),
        }
    }

    /// Whether a renewal is due at this time, as the Rust would say without being asked.
    fn is_due(&self, now: u64) -> bool {
        self.duration != u64::MAX && self.rust.state().until.saturating_sub(now) <= self.duration / 2
    }

    fn call(&mut self, call: Call, counts: &mut Counts) -> Result<(), String> {
        let was_lost = self.rust.state().lost;
        let was_due = matches!(call, Call::Try(start, _, _) if self.is_due(start));
        let (wanted, got) = (self.rust.call(call), self.ours.call(call));
        counts.add(call, wanted, was_lost, was_due);
        let (state, ours) = (self.rust.state(), self.ours.state());
        if wanted == got && state == ours {
            self.script.push_str(&format!("{call}\n"));
            return Ok(());
        }
        Err(format!("{}{call}\nthe Rust: {wanted}, then {state:?}\nour side: {got}, then {ours:?}", self.script))
    }
}

/// A script ends some calls after its lease is lost.
fn by_chance<S: Side>(calls: u64, seed: u64, counts: &mut Counts) -> Result<(), String> {
    let mut chance = Chance(seed);
    let mut done = 0;
    while done < calls {
        let (duration, made) = (chance.duration(), chance.made());
        let mut both = Both::<S>::new(duration, made);
        let mut left: i32 = 16;
        while left > 0 {
            let state = both.rust.state();
            let call = chance.call(state.last, state.until, duration);
            both.call(call, counts)?;
            done += 1;
            left -= if state.lost { 4 } else { 1 };
        }
    }
    Ok(())
}

/// Every call with times among the nine from `base` on.
fn every_call(base: u64) -> Vec<Call> {
    let times = || (0..9).map(move |time| base + time);
    let questions = times().map(Call::Due);
    let attempts = times().flat_map(|start| {
        times().flat_map(move |now| OUTCOMES.into_iter().map(move |outcome| Call::Try(start, now, outcome)))
    });
    questions.chain(attempts).collect()
}

fn every_pair<S: Side>(base: u64, counts: &mut Counts) -> Result<(), String> {
    let calls = every_call(base);
    for duration in [0, 1, 2, 3, 4, 5, u64::MAX - 1, u64::MAX] {
        for first in &calls {
            for second in &calls {
                let mut both = Both::<S>::new(duration, base + 1);
                both.call(*first, counts)?;
                both.call(*second, counts)?;
            }
        }
    }
    Ok(())
}

fn all<S: Side>(calls: u64, seed: u64, counts: &mut Counts) -> Result<(), String> {
    by_chance::<S>(calls, seed, counts)?;
    if calls < 1_000_000 {
        return Ok(());
    }
    every_pair::<S>(0, counts)?;
    every_pair::<S>(u64::MAX - 8, counts)
}

pub fn compare<S: Side>(calls: u64, seed: u64) -> ExitCode {
    let mut counts = Counts::default();
    let verdict = all::<S>(calls, seed, &mut counts);
    for (kind, count) in KINDS.iter().zip(counts.0) {
        println!("{count:>10}  {kind}");
    }
    if let Err(difference) = verdict {
        println!("a difference at the last call of\n{difference}");
        return ExitCode::FAILURE;
    }
    if calls >= 10_000 && counts.0.contains(&0) {
        println!("a kind of answer wasn't reached");
        return ExitCode::FAILURE;
    }
    println!("leases: {} calls, no difference", counts.0.iter().sum::<u64>());
    ExitCode::SUCCESS
}
