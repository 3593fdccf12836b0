//! The second reading: every candidate against every other candidate, for every key that any of them has.

use crate::{Copy, Key};
use std::collections::{BTreeMap, BTreeSet};

/// The number of a copy, or a refusal's.
pub type Answer = Result<usize, u8>;

/// The copy that takes over, of those that are listed.
pub fn choose(copies: &[Copy]) -> Answer {
    if copies.iter().any(|copy| copy.listed && copy.broken) {
        return Err(25);
    }
    let checked: Vec<usize> = (0..copies.len()).filter(|&i| copies[i].listed && copies[i].checked).collect();
    let Some(epoch) = checked.iter().map(|&i| copies[i].epoch).max() else { return Err(39) };
    let candidates: Vec<usize> = checked.into_iter().filter(|&i| copies[i].epoch == epoch).collect();
    let numbers: BTreeMap<usize, BTreeMap<&Key, u64>> = candidates.iter().map(|&i| (i, numbers(&copies[i]))).collect();
    let keys: BTreeSet<&Key> = numbers.values().flat_map(|map| map.keys().copied()).collect();
    let number = |copy: usize, key: &Key| numbers[&copy].get(key).copied().unwrap_or(1);
    candidates
        .iter()
        .copied()
        .find(|&i| {
            candidates.iter().filter(|&&j| j != i).all(|&j| keys.iter().all(|key| number(i, key) >= number(j, key)))
        })
        .ok_or(39)
}

/// The next outgoing number of each key; a stored 0 counts as 1, and of two sessions with one key the larger counts.
fn numbers(copy: &Copy) -> BTreeMap<&Key, u64> {
    let mut numbers = BTreeMap::new();
    for (key, next) in &copy.sessions {
        let number = numbers.entry(key).or_insert(1);
        *number = (*number).max(*next);
    }
    numbers
}
