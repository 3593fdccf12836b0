//! The Rust's side: lease.rs over the handed-in clock, with the listed differences, which stand in this one place.

use crate::script::{Answer, Call, Outcome, Side, State};
use clock::time::hand_in;
use lease_rs::lease::reach::Clocked;
use std::io::ErrorKind;
use std::time::Duration;

/// The Rust alone: no listed difference. A time may fall, a lost lease may be renewed, and what isn't due is none.
pub struct Alone {
    clocked: Clocked,
    duration: Duration,
}

fn kind(outcome: Outcome) -> Option<ErrorKind> {
    match outcome {
        Outcome::Ok => None,
        Outcome::Failed => Some(ErrorKind::TimedOut),
        Outcome::Deposed => Some(ErrorKind::PermissionDenied),
    }
}

/// 2^64 - 1 stands for Duration::MAX.
fn duration_of(duration: u64) -> Duration {
    if duration == u64::MAX { Duration::MAX } else { Duration::from_nanos(duration) }
}

impl Alone {
    /// The due test, the start and the failure ask the clock one after the other.
    fn attempt(&self, duration: Duration, times: [u64; 3], outcome: Outcome) -> Answer {
        hand_in(&times);
        let Some(job) = self.clocked.renewal(duration, kind(outcome)) else { return Answer::NoAttempt };
        let held = job.run().is_ok();
        let until = self.clocked.until();
        if held { Answer::Held(until) } else { Answer::Lost(until) }
    }
}

impl Side for Alone {
    fn new(duration: u64, made: u64) -> Self {
        hand_in(&[made]);
        let duration = duration_of(duration);
        Self { clocked: Clocked::new(duration), duration }
    }

    fn call(&mut self, call: Call) -> Answer {
        match call {
            Call::Due(now) => {
                hand_in(&[now]);
                Answer::Due(self.clocked.renewal(self.duration, None).is_some())
            }
            Call::Try(start, now, outcome) => self.attempt(self.duration, [start, start, now], outcome),
        }
    }

    fn state(&self) -> State {
        State { until: self.clocked.until(), last: 0, lost: false }
    }
}

/// The Rust with the listed differences.
pub struct Rust {
    alone: Alone,
    duration: u64,
    last: u64,
    lost: bool,
}

impl Rust {
    /// Difference: the end is at most 2^64 - 1, where the Rust takes a time 100 years from now (for Duration::MAX too).
    fn cap(&self, start: u64) {
        if start.saturating_add(self.duration) == u64::MAX {
            self.alone.clocked.set_until(u64::MAX);
        }
    }

    /// Differences: an attempt counts, due or not (the due test is handed the last time there is), also for 2^64 - 1.
    fn attempt(&mut self, start: u64, now: u64, outcome: Outcome) -> Answer {
        let asked = Duration::from_nanos(self.duration);
        let answer = self.alone.attempt(asked, [u64::MAX, start, now], outcome);
        if outcome == Outcome::Ok {
            self.cap(start);
            return Answer::Held(self.alone.clocked.until());
        }
        self.lost = matches!(answer, Answer::Lost(_));
        answer
    }
}

impl Side for Rust {
    fn new(duration: u64, made: u64) -> Self {
        let rust = Self { alone: Alone::new(duration, made), duration, last: made, lost: false };
        rust.cap(made);
        rust
    }

    /// Differences: 31; a lost lease stays so and is due none.
    fn call(&mut self, call: Call) -> Answer {
        let (first, then) = match call {
            Call::Due(now) => (now, now),
            Call::Try(start, now, _) => (start, now),
        };
        if first < self.last || then < first {
            return Answer::Refused(31);
        }
        self.last = then;
        match call {
            Call::Due(_) if self.lost => Answer::Due(false),
            Call::Try(..) if self.lost => Answer::Lost(self.alone.clocked.until()),
            Call::Due(_) => self.alone.call(call),
            Call::Try(start, now, outcome) => self.attempt(start, now, outcome),
        }
    }

    fn state(&self) -> State {
        State { until: self.alone.clocked.until(), last: self.last, lost: self.lost }
    }
}
