//! Our side, over the boundary of crate c_books.

use crate::script::{Answer, Call, Side, State};

#[repr(C)]
pub struct Answered {
    pub refusal: u8,
    pub flag: u8,
    pub session: u64,
}

#[repr(transparent)]
#[derive(Clone, Copy)]
pub struct Incarnation(pub u64);

#[allow(improper_ctypes)]
unsafe extern "C" {
    pub safe fn wz_books_make(words: &mut [u64]) -> Answered;
    pub safe fn wz_books_fall_behind(words: &mut [u64], session: u64) -> Answered;
    pub safe fn wz_books_all_fall_behind(words: &mut [u64], listing: &[u64]) -> Answered;
    pub safe fn wz_books_caught_up(words: &mut [u64], session: u64, incarnation: Incarnation) -> Answered;
    pub safe fn wz_books_behind_unless_compared_open(words: &mut [u64], incarnation: Incarnation) -> Answered;
    pub safe fn wz_books_next_to_catch_up(words: &mut [u64], listing: &[u64], incarnation: Incarnation) -> Answered;
    pub safe fn wz_books_opening(words: &mut [u64], session: u64) -> Answered;
    pub safe fn wz_books_closed(words: &mut [u64], session: u64) -> Answered;
    pub safe fn wz_books_ended(words: &mut [u64], session: u64, incarnation: Incarnation) -> Answered;
    pub safe fn wz_books_all_compared(words: &mut [u64], listing: &[u64], incarnation: Incarnation) -> Answered;
    pub safe fn wz_books_acknowledged(words: &mut [u64], incarnation: Incarnation) -> Answered;
    pub safe fn wz_books_is_behind(words: &[u64], session: u64) -> Answered;
}

/// The words of an area, and one behind them that no call may touch.
const WORDS: usize = 1286;
const GUARD: u64 = 0x5eed_5eed_5eed_5eed;

pub struct Ours {
    words: Vec<u64>,
}

impl Ours {
    fn put(&mut self, call: &Call) -> Answered {
        let words = &mut self.words[..];
        match call {
            Call::Behind(session) => wz_books_fall_behind(words, *session),
            Call::All(listing) => wz_books_all_fall_behind(words, listing),
            Call::Compared(session, incarnation) => wz_books_caught_up(words, *session, Incarnation(*incarnation)),
            Call::Pass(incarnation) => wz_books_behind_unless_compared_open(words, Incarnation(*incarnation)),
            Call::Next(incarnation, listing) => wz_books_next_to_catch_up(words, listing, Incarnation(*incarnation)),
            Call::Open(session) => wz_books_opening(words, *session),
            Call::Close(session) => wz_books_closed(words, *session),
            Call::Ended(session, incarnation) => wz_books_ended(words, *session, Incarnation(*incarnation)),
            Call::Check(incarnation, listing) => wz_books_all_compared(words, listing, Incarnation(*incarnation)),
            Call::Acked(incarnation) => wz_books_acknowledged(words, Incarnation(*incarnation)),
            Call::Is(session) => wz_books_is_behind(words, *session),
        }
    }

    fn pairs(&self, n: usize, flags: usize, values: usize) -> Vec<(u64, u64)> {
        let of = (0..n).filter(|k| self.words[flags + k] != 0).map(|k| (self.words[6 + k], self.words[values + k]));
        let mut pairs: Vec<(u64, u64)> = of.collect();
        pairs.sort_unstable();
        pairs
    }

    fn flagged(&self, at: usize) -> Option<u64> {
        (self.words[at] != 0).then(|| self.words[at + 1])
    }
}

impl Side for Ours {
    fn new() -> Self {
        // What an area held before it is made a book counts for nothing.
        let mut words = vec![GUARD; WORDS + 1];
        let made = wz_books_make(&mut words);
        assert_eq!((made.refusal, made.flag, made.session), (0, 0, 0));
        Self { words }
    }

    fn call(&mut self, call: &Call) -> Answer {
        let before = self.words.clone();
        let answered = self.put(call);
        assert_eq!(self.words[WORDS], GUARD, "a word past the area changed");
        assert!(answered.flag <= 1, "a flag that is neither 0 nor 1");
        if answered.refusal != 0 {
            assert!(self.words == before, "a refusal changed a word");
            assert_eq!((answered.flag, answered.session), (0, 0));
            return Answer::Refused(answered.refusal);
        }
        let set = answered.flag != 0;
        assert!(answered.session == 0 || (set && matches!(call, Call::Next(..))), "a session where none is picked");
        match call {
            Call::Next(..) if set => Answer::Session(answered.session),
            Call::Next(..) => Answer::Nobody,
            Call::Open(_) if set => Answer::Wait,
            Call::Ended(..) | Call::Check(..) | Call::Is(_) => Answer::Says(set),
            _ => {
                assert!(!set, "a flag where there is nothing to say");
                Answer::Ok
            }
        }
    }

    fn state(&self) -> State {
        let (met, behind) = (self.words[0] as usize, self.words[1] as usize);
        State {
            met: self.words[6..6 + met].to_vec(),
            behind: self.words[1030..1030 + behind].to_vec(),
            open: self.pairs(met, 262, 262),
            compared: self.pairs(met, 518, 774),
            catching: self.flagged(2),
            checked: self.flagged(4),
        }
    }
}
