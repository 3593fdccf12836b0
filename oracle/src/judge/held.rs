//! The driver's own reading of what a handle holds, and of the words that say where segments end: the second reading without faults.

#[path = "../plain/read.rs"]
#[allow(dead_code)]
mod read;
#[path = "../plain/segments.rs"]
#[allow(dead_code)]
mod segments;

use crate::wire::change;
use read::{Change, LATEST};

fn fault(_: u32) -> bool {
    false
}

/// The words of the row's place.
#[cfg(ours)]
pub fn own(words: &mut [u64], places: usize, place: usize) -> &mut [u64] {
    segments::own(words, places as u64, place as u64)
}

fn written(change: &Change) -> Vec<u8> {
    match change {
        Change::NextIncoming(seq) => change::next_incoming(*seq),
        Change::NextIncomingInFlight(seq, in_flight) => change::next_incoming_in_flight(*seq, *in_flight),
        Change::InFlight(seq) => change::in_flight(*seq),
        Change::Record(seq, Some(msg)) => change::record(*seq, msg),
        Change::Record(seq, None) => change::bare_record(*seq),
        Change::Reset => change::reset(),
        Change::Stamp(stamp) => change::created_at(stamp),
        Change::Marks(marks) => change::marks(marks),
    }
}

/// The changes held in these bytes with these words, each in frame form: a byte of a closed segment at which none can be read as a Reset.
pub fn changes(bytes: &[u8], words: &[u64]) -> Vec<Vec<u8>> {
    segments::held(LATEST, bytes, words).changes.iter().map(written).collect()
}

/// How many words count, and where the last of these segments ends.
#[cfg(ours)]
pub fn closed(words: &[u64], held: usize) -> (usize, u64) {
    let ends = segments::closed(words, held);
    (ends.len(), ends.last().map_or(0, |end| *end as u64))
}

/// The words of a place as an `X held` line sets them: the rest are all ones.
pub fn set_words(own: &mut [u64], words: &[u64]) {
    let words = words.iter().copied().chain(std::iter::repeat(u64::MAX));
    own.iter_mut().zip(words).for_each(|(word, value)| *word = value);
}

/// The sum of the message bytes of changes in frame form.
pub fn message_bytes(changes: &[Vec<u8>]) -> u64 {
    changes.iter().filter(|change| change[0] == 4).map(|change| change.len() as u64 - 13).sum()
}
