//! Several resend ranges together, read from document 02 once more: each message is held against every range.

use crate::side::Session;

/// First and last number, both included; a last of 0 means to the end.
pub type Range = (u64, u64);

/// The messages that lie in some range: of each its number and its set of ranges, bit 0 the first.
#[derive(Debug, Clone, PartialEq, Eq)]
pub struct Listed {
    pub messages: Vec<(u64, u64)>,
    /// The sum of their bytes.
    pub bytes: u64,
}

/// The most ranges of one request.
pub const MOST: usize = 64;

fn is_range((first, last): Range) -> bool {
    first > 0 && (last == 0 || first <= last)
}

fn lies((first, last): Range, number: u64) -> bool {
    first <= number && (last == 0 || number <= last)
}

/// 35 for ranges that aren't allowed, 36 for too few entries.
pub fn listed(session: &Session, ranges: &[Range], entries: u64) -> Result<Listed, u32> {
    if ranges.len() > MOST || !ranges.iter().all(|range| is_range(*range)) {
        return Err(35);
    }
    let set = |number: u64| (0..ranges.len()).filter(|at| lies(ranges[*at], number)).map(|at| 1 << at).sum();
    let sets = session.messages.iter().map(|(number, message)| (*number, set(*number), message.len() as u64));
    let served: Vec<(u64, u64, u64)> = sets.filter(|(_, set, _)| *set != 0).collect();
    if served.len() as u64 > entries {
        return Err(36);
    }
    let messages = served.iter().map(|(number, set, _)| (*number, *set)).collect();
    Ok(Listed { messages, bytes: served.iter().map(|(_, _, length)| length).sum() })
}
