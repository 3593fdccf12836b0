//! The Rust's side: active.rs itself, and before each call what document 02 adds: who was met, and 27 for a 257th.

use crate::script::{Answer, Call, Side, State};
use books_rs::active::reach::{Books, Seen};
use turbojet::SessionId;

pub const MOST: usize = 256;

pub fn id(session: u64) -> SessionId {
    SessionId::from_key("FIX.4.4".into(), "BROKER".into(), session.to_string(), "").expect("a key")
}

pub fn ids(listing: &[u64]) -> Vec<SessionId> {
    listing.iter().copied().map(id).collect()
}

pub fn number(id: &SessionId) -> u64 {
    id.target_comp_id.parse().expect("one of ours")
}

fn by_session(pairs: &[(SessionId, u64)]) -> Vec<(u64, u64)> {
    let mut pairs: Vec<(u64, u64)> = pairs.iter().map(|(id, value)| (number(id), *value)).collect();
    pairs.sort_unstable();
    pairs
}

pub fn state(seen: &Seen, met: &[u64]) -> State {
    State {
        met: met.to_vec(),
        behind: seen.behind.iter().map(number).collect(),
        open: by_session(&seen.open),
        compared: by_session(&seen.compared),
        catching: seen.catching.as_ref().map(number),
        checked: seen.checked,
    }
}

/// Who was met with these: none of them is if they are too many.
pub fn meet(met: &mut Vec<u64>, named: &[u64]) -> bool {
    let before = met.len();
    for session in named {
        if !met.contains(session) {
            met.push(*session);
        }
    }
    if met.len() <= MOST {
        met[before..].iter().for_each(|session| ordered::meet(&id(*session)));
        return true;
    }
    met.truncate(before);
    false
}

/// One at a time on a thread: the order first met is the thread's.
pub struct Rust {
    books: Books,
    met: Vec<u64>,
}

impl Side for Rust {
    fn new() -> Self {
        ordered::forget();
        Self { books: Books::new(), met: Vec::new() }
    }

    fn call(&mut self, call: &Call) -> Answer {
        if !meet(&mut self.met, call.named()) {
            return Answer::Refused(27);
        }
        let books = &self.books;
        match call {
            Call::Behind(session) => books.fall_behind(&id(*session)),
            Call::All(listing) => books.all_fall_behind(ids(listing)),
            Call::Compared(session, incarnation) => books.caught_up(&id(*session), *incarnation),
            Call::Pass(incarnation) => books.behind_unless_compared_open(*incarnation),
            Call::Close(session) => books.closed(&id(*session)),
            Call::Acked(incarnation) => books.acknowledged(*incarnation),
            Call::Open(session) => return if books.opening(&id(*session)) { Answer::Ok } else { Answer::Wait },
            Call::Next(incarnation, listing) => {
                let next = books.next_to_catch_up(&ids(listing), *incarnation);
                return next.map_or(Answer::Nobody, |id| Answer::Session(number(&id)));
            }
            Call::Ended(session, incarnation) => return Answer::Says(books.ended(&id(*session), *incarnation)),
            Call::Check(incarnation, listing) => {
                return Answer::Says(books.all_compared(&ids(listing), *incarnation));
            }
            Call::Is(session) => return Answer::Says(books.is_behind(&id(*session))),
        }
        Answer::Ok
    }

    fn state(&self) -> State {
        state(&self.books.seen(), &self.met)
    }
}
