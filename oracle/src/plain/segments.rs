//! What a hold area and the words of its segments mean, read a second time from the words of docs/AREAS.md.

use super::fault;
use super::read::{Change, Left};

/// The words of the row's place: the words are divided evenly among the places.
pub fn own(words: &mut [u64], places: u64, place: u64) -> &mut [u64] {
    let all = words.len() as u64;
    let share = all.checked_div(places).unwrap_or(0);
    match place.checked_mul(share) {
        Some(begin) if begin < all => &mut words[begin as usize..(begin + share).min(all) as usize],
        _ => &mut [],
    }
}

/// Where the closed segments end: the words from the first on, until one isn't above all before it or lies past the bytes held.
pub fn closed(words: &[u64], held: usize) -> Vec<usize> {
    let mut ends: Vec<usize> = Vec::new();
    for word in words {
        let before = ends.last().map_or(0, |end| *end as u64);
        let rises = if fault(65) { *word >= before && *word > 0 } else { *word > before };
        if !rises || *word > held as u64 {
            break;
        }
        ends.push(*word as usize);
    }
    ends
}

/// One change at the start of these bytes, and how many it takes.
fn change(version: u16, bytes: &[u8]) -> Option<(Change, usize)> {
    let mut left = Left(bytes, version);
    let change = left.change().ok()?;
    Some((change, bytes.len() - left.0.len()))
}

/// The changes of a closed segment, and how many of them were none that can be read.
fn total(version: u16, mut bytes: &[u8]) -> (Vec<Change>, u64) {
    let (mut changes, mut bad) = (Vec::new(), 0);
    while !bytes.is_empty() {
        let taken = match change(version, bytes) {
            Some((change, taken)) => {
                changes.push(change);
                taken
            }
            None => {
                changes.push(Change::Reset);
                bad += 1;
                if fault(66) { 2.min(bytes.len()) } else { 1 }
            }
        };
        bytes = &bytes[taken..];
    }
    (changes, bad)
}

pub struct Held {
    pub changes: Vec<Change>,
    /// How many segments are closed, and where the open one begins.
    pub closed: usize,
    pub from: usize,
    /// How many bytes the changes take.
    pub used: usize,
    /// How many bytes of closed segments count as a Reset.
    #[allow(dead_code)]
    pub bad: u64,
}

/// The changes held in these bytes with these words.
pub fn held(version: u16, bytes: &[u8], words: &[u64]) -> Held {
    let ends = closed(words, bytes.len());
    let (mut changes, mut bad, mut from) = (Vec::new(), 0, 0);
    for end in &ends {
        let (more, none) = total(version, &bytes[from..*end]);
        changes.extend(more);
        bad += none;
        from = *end;
    }
    let mut used = from;
    if !(fault(67) && !ends.is_empty()) {
        while let Some((next, taken)) = change(version, &bytes[used..]) {
            changes.push(next);
            used += taken;
        }
    }
    Held { changes, closed: ends.len(), from, used, bad }
}

/// A Whole ends there: the word behind those that count becomes the new length if the segment has 65,536 bytes then, else 0; if there is no such
/// word nothing is written.
pub fn close(words: &mut [u64], before: &Held, end: usize) {
    let Some(word) = words.get_mut(before.closed) else { return };
    let least = 65_536 + usize::from(fault(68)) - usize::from(fault(71));
    let long = end - before.from >= least;
    if long || !fault(69) {
        *word = if long { end as u64 - u64::from(fault(70)) } else { 0 };
    }
}
