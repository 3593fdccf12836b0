//! A stand-in for our side, with one fault that WIZHDULET_FAULT numbers (0: none): the comparison must find each.

use crate::script::{Answer, Call, Outcome, Side, State};
use std::sync::LazyLock;

static FAULT: LazyLock<u32> =
    LazyLock::new(|| std::env::var("WIZHDULET_FAULT").ok().and_then(|fault| fault.parse().ok()).unwrap_or(0));

fn fault(number: u32) -> bool {
    *FAULT == number
}

pub struct Plain {
    duration: u64,
    state: State,
}

impl Plain {
    fn end(&self, start: u64) -> u64 {
        if fault(1) { start.wrapping_add(self.duration) } else { start.saturating_add(self.duration) }
    }

    fn due(&self, now: u64) -> bool {
        let left = u128::from(self.state.until.saturating_sub(now));
        let duration = u128::from(self.duration);
        let half = if fault(2) { left * 2 < duration } else { left * 2 <= duration };
        let half = if fault(3) { left * 2 <= duration + 1 } else { half };
        half && (fault(4) || self.duration != u64::MAX) && (fault(5) || !self.state.lost)
    }

    fn attempt(&mut self, start: u64, now: u64, outcome: Outcome) {
        if self.state.lost && !fault(6) {
            return;
        }
        let ended = if fault(7) { self.state.until < now } else { self.state.until <= now };
        match outcome {
            Outcome::Ok => {
                self.state.until = self.end(if fault(8) { now } else { start });
                self.state.lost = false;
            }
            Outcome::Failed => self.state.lost = ended || self.state.lost,
            Outcome::Deposed => self.state.lost = !fault(9) || self.state.lost,
        }
    }
}

impl Side for Plain {
    fn new(duration: u64, made: u64) -> Self {
        let mut plain = Self { duration, state: State { until: 0, last: made, lost: false } };
        plain.state.until = plain.end(made);
        plain
    }

    fn call(&mut self, call: Call) -> Answer {
        let (first, then) = match call {
            Call::Due(now) => (now, now),
            Call::Try(start, now, _) => (start, now),
        };
        let falls = first < self.state.last || (then < first && !fault(10)) || (fault(11) && first == self.state.last);
        if falls && !(fault(12) && self.state.lost) {
            if fault(13) {
                self.state.last = then;
            }
            return Answer::Refused(31);
        }
        self.state.last = then;
        match call {
            Call::Due(now) => Answer::Due(self.due(now)),
            Call::Try(start, now, outcome) => {
                self.attempt(start, now, outcome);
                if self.state.lost { Answer::Lost(self.state.until) } else { Answer::Held(self.state.until) }
            }
        }
    }

    fn state(&self) -> State {
        self.state
    }
}
