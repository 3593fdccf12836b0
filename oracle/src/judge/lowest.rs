//! The lowest message on hand, which an applied Commit or LastWhole hands up beside its Ack.

use crate::call::Key;
use crate::side::{Answer, State};
use crate::wire::{COMMIT, LAST_WHOLE};

const BATCH: u8 = 4;
const ACK: u8 = 5;

/// What a frame and its answer hand up: the first number stored of the session whose handle the frame names, 0 if it has no message.
pub fn handed_up(frame: &[u8], answer: &Answer, state: &State) -> Option<u64> {
    let Ok(answer) = answer else { return None };
    let applied = frame.get(4) == Some(&BATCH) && answer.get(4) == Some(&ACK);
    if !applied || ![COMMIT, LAST_WHOLE].contains(frame.get(25)?) {
        return None;
    }
    let handle = u32::from_le_bytes(frame.get(5..9)?.try_into().ok()?);
    let bound = state.handles.iter().find(|bound| bound.number == handle)?;
    of(&bound.key, state)
}

/// The first number stored of a session, 0 if it has no message.
pub fn of(key: &Key, state: &State) -> Option<u64> {
    let session = state.sessions.iter().find(|session| session.key == *key)?;
    Some(session.messages.first().map_or(0, |(number, _)| *number))
}

/// The line of the program `lowest`: a number, or a hyphen.
pub fn text(lowest: Option<u64>) -> String {
    lowest.map_or_else(|| "-".into(), |number| number.to_string())
}
