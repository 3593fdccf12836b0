//! Sets of copies filled by chance, answered by both sides.

use crate::ours;
use crate::plain;
use crate::splitmix::Chance;
use crate::{Copy, Key, MOST};
use std::collections::BTreeMap;
use std::process::ExitCode;

/// Keys that differ in one text, in its length or in one byte; some have a text of 32 bytes.
fn keys(chance: &mut Chance) -> Vec<Key> {
    let text = |chance: &mut Chance| match chance.below(5) {
        0 => vec![b'x'; 32],
        1 => Vec::new(),
        n => vec![b'a'; n as usize - 1],
    };
    let base: Key = std::array::from_fn(|_| text(chance));
    let mut keys = vec![base.clone()];
    for _ in 0..chance.below(6) {
        let mut key = base.clone();
        let at = chance.below(4) as usize;
        match key[at].last_mut() {
            Some(byte) => *byte = chance.of(b"bcd"),
            None => key[at].push(b'z'),
        }
        keys.push(key);
    }
    keys
}

/// A set: several copies of one list of numbers, each changed a little, so that ties, copies apart and one above all are met.
fn set(chance: &mut Chance) -> Vec<Copy> {
    let keys = keys(chance);
    let base: Vec<u64> = keys.iter().map(|_| chance.below(4)).collect();
    let epochs = 1 + chance.below(3);
    let changes = chance.below(4);
    (0..chance.below(MOST as u64 + 1)).map(|_| one(chance, &keys, &base, epochs, changes)).collect()
}

fn one(chance: &mut Chance, keys: &[Key], base: &[u64], epochs: u64, changes: u64) -> Copy {
    let mut sessions: Vec<(Key, u64)> = keys.iter().cloned().zip(base.iter().copied()).collect();
    for _ in 0..chance.below(changes + 1) {
        let at = chance.below(sessions.len() as u64) as usize;
        match chance.below(6) {
            0 if sessions.len() > 1 => drop(sessions.remove(at)),
            1 => sessions[at].1 = u64::MAX - chance.below(2),
            2 => sessions[at].1 = chance.below(2),
            3 => {
                let again = (sessions[at].0.clone(), chance.below(5));
                sessions.push(again);
            }
            _ => sessions[at].1 = sessions[at].1.saturating_add(chance.below(2)),
        }
    }
    for i in (1..sessions.len()).rev().filter(|_| changes > 1) {
        let j = chance.below(i as u64 + 1) as usize;
        sessions.swap(i, j);
    }
    Copy {
        listed: chance.below(8) != 0,
        checked: chance.below(4) != 0,
        epoch: if chance.below(4) == 0 { chance.below(epochs) } else { epochs },
        sessions,
        broken: chance.below(40) == 0,
    }
}

/// What a set has in it, for the counts.
fn cases(copies: &[Copy]) -> Vec<&'static str> {
    let mut found = Vec::new();
    let listed: Vec<&Copy> = copies.iter().filter(|copy| copy.listed && !copy.broken).collect();
    let checked: Vec<&Copy> = listed.iter().copied().filter(|copy| copy.checked).collect();
    let Some(top) = checked.iter().map(|copy| copy.epoch).max() else { return vec!["none checked"] };
    if listed.iter().any(|copy| !copy.checked && copy.epoch > top) {
        found.push("unchecked higher epoch");
    }
    let candidates: Vec<&Copy> = checked.iter().copied().filter(|copy| copy.epoch == top).collect();
    if candidates.len() < checked.len() {
        found.push("lower epoch");
    }
    let ahead = |a: &Copy, b: &Copy| {
        let number = |copy: &Copy, key: &Key| {
            copy.sessions.iter().filter(|session| session.0 == *key).map(|session| session.1).max().unwrap_or(1).max(1)
        };
        b.sessions.iter().all(|(key, _)| number(a, key) >= number(b, key))
    };
    let pairs = || candidates.iter().enumerate().flat_map(|(i, a)| candidates[i + 1..].iter().map(move |b| (*a, *b)));
    if pairs().any(|(a, b)| ahead(a, b) && ahead(b, a)) {
        found.push("ties");
    }
    if pairs().any(|(a, b)| !ahead(a, b) && !ahead(b, a)) {
        found.push("two copies apart");
        if candidates.iter().any(|c| candidates.iter().all(|d| ahead(c, d))) {
            found.push("a third above both");
        }
    }
    if pairs().any(|(a, b)| a.sessions.iter().any(|(key, _)| b.sessions.iter().all(|other| other.0 != *key))) {
        found.push("lacking sessions");
    }
    found
}

/// `fault` other than 0 makes our answer false once in so many sets: the comparison must then find it.
pub fn compare(sets: u64, seed: u64, fault: u64) -> ExitCode {
    let mut chance = Chance(seed);
    let mut counts: BTreeMap<String, u64> = BTreeMap::new();
    for at in 0..sets {
        let copies = set(&mut chance);
        let mut got = ours::choose(&copies, 1 + chance.next() / 2);
        if fault != 0 && at % fault == fault - 1 {
            got = got.map(|copy| (copy + 1) % MOST);
        }
        let expected = plain::choose(&copies);
        if got != expected {
            eprintln!(
                "compare-choice: set {at} of seed {seed}: ours {got:?}, the second reading {expected:?}: {copies:?}"
            );
            return ExitCode::FAILURE;
        }
        let answer = expected.map_or_else(|refusal| format!("R {refusal}"), |copy| format!("copy {copy}"));
        *counts.entry(answer).or_default() += 1;
        for case in cases(&copies) {
            *counts.entry(case.to_string()).or_default() += 1;
        }
    }
    let counts: Vec<String> = counts.iter().map(|(case, count)| format!("{case}: {count}")).collect();
    println!("compare-choice: {sets} sets, no difference; {}", counts.join(", "));
    ExitCode::SUCCESS
}
