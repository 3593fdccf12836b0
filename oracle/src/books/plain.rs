//! A stand-in for our side, with one fault that WIZHDULET_FAULT numbers (0: none): the comparison must find each.

use crate::script::{Answer, Call, Side, State};
use std::sync::LazyLock;

static FAULT: LazyLock<u32> =
    LazyLock::new(|| std::env::var("WIZHDULET_FAULT").ok().and_then(|fault| fault.parse().ok()).unwrap_or(0));

fn fault(number: u32) -> bool {
    *FAULT == number
}

#[derive(Clone)]
struct Entry {
    session: u64,
    opens: u64,
    compared: Option<u64>,
}

#[derive(Default)]
pub struct Plain {
    met: Vec<Entry>,
    behind: Vec<u64>,
    catching: Option<u64>,
    checked: Option<u64>,
}

impl Plain {
    fn meet(&mut self, call: &Call) -> bool {
        let before = self.met.len();
        let silent = (fault(16) && matches!(call, Call::Close(_)))
            || (fault(17) && matches!(call, Call::Next(..) | Call::Check(..)))
            || (fault(18) && matches!(call, Call::Ended(..)));
        let named = if let Call::Is(session) = call { std::slice::from_ref(session) } else { call.named() };
        if (matches!(call, Call::Is(_)) && !fault(15)) || silent {
            return true;
        }
        for session in named {
            if self.at(*session).is_none() {
                self.met.push(Entry { session: *session, opens: 0, compared: None });
            }
        }
        if self.met.len() <= if fault(7) { 257 } else { 256 } {
            return true;
        }
        self.met.truncate(if fault(9) { 256.min(before + 1) } else { before });
        false
    }

    fn at(&self, session: u64) -> Option<usize> {
        self.met.iter().position(|entry| entry.session == session)
    }

    fn is_open(&self, session: u64) -> bool {
        self.at(session).is_some_and(|at| self.met[at].opens > 0)
    }

    fn is_compared(&self, session: u64, incarnation: u64) -> bool {
        let compared = self.at(session).and_then(|at| self.met[at].compared);
        compared == Some(incarnation) && !(fault(11) && incarnation == 0)
    }

    fn fall(&mut self, session: u64) {
        if fault(1) {
            self.behind.retain(|other| *other != session);
        }
        if !self.behind.contains(&session) {
            if fault(14) { self.behind.insert(0, session) } else { self.behind.push(session) }
        }
    }

    fn next(&mut self, incarnation: u64, listing: &[u64]) -> Answer {
        let could = |session: &u64| {
            (fault(3) || !self.is_open(*session))
                && (self.behind.contains(session) || !self.is_compared(*session, incarnation))
        };
        let next = if fault(12) {
            listing.iter().chain(&self.behind).copied().find(could)
        } else {
            self.behind.iter().chain(listing).copied().find(could)
        };
        if next.is_some() || !fault(4) {
            self.catching = next;
        }
        next.map_or(Answer::Nobody, Answer::Session)
    }

    fn told(&self, incarnation: u64, listing: &[u64]) -> bool {
        (fault(5) || self.checked != Some(incarnation))
            && (fault(6) || self.behind.is_empty())
            && listing.iter().all(|session| self.is_compared(*session, incarnation))
    }

    fn together(&mut self, falls: impl Fn(&Entry) -> bool) {
        let all: Vec<u64> = self.met.iter().filter(|entry| falls(entry)).map(|entry| entry.session).collect();
        all.into_iter().for_each(|session| self.fall(session));
    }

    fn open(&mut self, session: u64) -> Answer {
        let waits = self.catching == Some(session);
        if !waits || fault(8) {
            let at = self.at(session).expect("met");
            self.met[at].opens += 1;
        }
        if waits { Answer::Wait } else { Answer::Ok }
    }
}

impl Side for Plain {
    fn new() -> Self {
        Self::default()
    }

    fn call(&mut self, call: &Call) -> Answer {
        if !self.meet(call) {
            return Answer::Refused(27);
        }
        match call {
            Call::Behind(session) => self.fall(*session),
            Call::All(listing) if fault(2) => listing.iter().for_each(|session| self.fall(*session)),
            Call::All(listing) => self.together(|entry| listing.contains(&entry.session)),
            Call::Compared(session, incarnation) => {
                if !fault(13) {
                    self.behind.retain(|other| other != session);
                }
                let at = self.at(*session).expect("met");
                self.met[at].compared = Some(*incarnation);
            }
            Call::Pass(incarnation) => self.together(|entry| {
                (entry.opens > 0 || fault(19)) && (entry.compared != Some(*incarnation) || fault(20))
            }),
            Call::Open(session) => return self.open(*session),
            Call::Close(session) => {
                if let Some(at) = self.at(*session) {
                    let opens = &mut self.met[at].opens;
                    *opens = if fault(10) { 0 } else { opens.saturating_sub(1) };
                }
            }
            Call::Next(incarnation, listing) => return self.next(*incarnation, listing),
            Call::Ended(session, incarnation) => {
                if !fault(21) {
                    self.catching = None;
                }
                return Answer::Says(self.is_compared(*session, *incarnation));
            }
            Call::Check(incarnation, listing) => return Answer::Says(self.told(*incarnation, listing)),
            Call::Acked(incarnation) => {
                if !fault(22) || self.checked.is_none() {
                    self.checked = Some(*incarnation);
                }
            }
            Call::Is(session) => return Answer::Says(self.behind.contains(session) && !fault(23)),
        }
        Answer::Ok
    }

    fn state(&self) -> State {
        let pairs = |value: &dyn Fn(&Entry) -> Option<u64>| {
            let of = self.met.iter().filter_map(|entry| value(entry).map(|value| (entry.session, value)));
            let mut pairs: Vec<(u64, u64)> = of.collect();
            pairs.sort_unstable();
            pairs
        };
        State {
            met: self.met.iter().map(|entry| entry.session).collect(),
            behind: self.behind.clone(),
            open: pairs(&|entry| (entry.opens > 0).then_some(entry.opens)),
            compared: pairs(&|entry| entry.compared),
            catching: self.catching,
            checked: self.checked,
        }
    }
}
