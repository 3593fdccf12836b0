//! Our side, over the boundary of crate c_lease.

use crate::script::{Answer, Call, Outcome, Side, State};

/// A lease's four words: its duration, its end, the last time handed in, whether it is lost.
pub type Lease = [u64; 4];

#[repr(C)]
pub struct Due {
    pub refusal: u8,
    pub due: u8,
}

unsafe extern "C" {
    pub safe fn wz_lease_new(lease: &mut Lease, duration: u64, time: u64);
    pub safe fn wz_lease_renewal(lease: &mut Lease, time: u64) -> Due;
    pub safe fn wz_lease_attempt(lease: &mut Lease, started: u64, time: u64, outcome: u8) -> u8;
}

/// Any byte from 2 on is deposed too.
fn byte(outcome: Outcome, time: u64) -> u8 {
    match outcome {
        Outcome::Ok => 0,
        Outcome::Failed => 1,
        Outcome::Deposed => 2 + (time % 254) as u8,
    }
}

pub struct Ours {
    lease: Lease,
}

impl Ours {
    /// A call; a flag that is set stays as it was, and the duration always.
    fn on_words<T>(&mut self, call: impl FnOnce(&mut Lease) -> T) -> T {
        let [duration, _, _, lost] = self.lease;
        let answer = call(&mut self.lease);
        assert_eq!(self.lease[0], duration, "the duration changed");
        assert!(lost == 0 || self.lease[3] == lost, "the flag changed");
        assert!(lost != 0 || self.lease[3] <= 1, "the flag is neither 0 nor 1");
        answer
    }

    /// Any word but 0 says that the lease is lost.
    fn stir(&mut self) {
        if self.lease[3] != 0 {
            self.lease[3] = 1 + self.lease[2] % u64::MAX;
        }
    }
}

impl Side for Ours {
    fn new(duration: u64, made: u64) -> Self {
        let mut lease = [made ^ duration, made, !duration, 7];
        wz_lease_new(&mut lease, duration, made);
        assert_eq!((lease[0], lease[3]), (duration, 0));
        Self { lease }
    }

    fn call(&mut self, call: Call) -> Answer {
        let answer = match call {
            Call::Due(now) => {
                let Due { refusal, due } = self.on_words(|lease| wz_lease_renewal(lease, now));
                assert!(due <= u8::from(refusal == 0), "due is neither 0 nor 1, or with a refusal");
                if refusal != 0 { Answer::Refused(refusal) } else { Answer::Due(due != 0) }
            }
            Call::Try(start, now, outcome) => {
                match (self.on_words(|lease| wz_lease_attempt(lease, start, now, byte(outcome, now))), self.lease) {
                    (0, [_, until, _, 0]) => Answer::Held(until),
                    (0, [_, until, ..]) => Answer::Lost(until),
                    (refusal, _) => Answer::Refused(refusal),
                }
            }
        };
        self.stir();
        answer
    }

    fn state(&self) -> State {
        State { until: self.lease[1], last: self.lease[2], lost: self.lease[3] != 0 }
    }
}
