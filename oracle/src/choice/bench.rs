//! Times of one choice among five copies of 256 sessions, ours and straight Rust's over the same areas' sessions.

use crate::ours;
use crate::plain::{self, Answer};
use crate::splitmix::Chance;
use crate::thread_time::now;
use crate::{Copy, Key};
use std::collections::HashMap;
use std::hint::black_box;

/// The keys of a store: what differs from session to session.
#[derive(Clone, Copy)]
enum Keys {
    /// As brokers have them: the target text, at its end.
    Usual,
    /// Texts of 32 bytes; one text alone, in two of its bytes.
    Text(usize, usize),
}

const NAMES: [&str; 4] = ["begin string", "sender", "target", "suffix"];

impl Keys {
    fn key(self, n: usize) -> Key {
        match self {
            Keys::Usual => [b"FIX.4.4".to_vec(), b"BROKER".to_vec(), format!("CLIENT{n:03}").into_bytes(), Vec::new()],
            Keys::Text(text, at) => {
                let mut key = [0, 1, 2, 3].map(|_| vec![b'K'; 32]);
                key[text][at] = b'a' + (n / 16) as u8;
                key[text][at + 1] = b'a' + (n % 16) as u8;
                key
            }
        }
    }

    fn name(self) -> String {
        match self {
            Keys::Usual => "usual keys".into(),
            Keys::Text(text, at) => {
                let place = ["first", "middle", "last"][if at == 0 { 0 } else if at == 30 { 2 } else { 1 }];
                format!("keys of 4 × 32 bytes that differ in the {place} bytes of the {} alone", NAMES[text])
            }
        }
    }
}

/// Straight Rust: a map of each candidate's numbers, then the first that is at least every other's.
fn straight(copies: &[Copy]) -> Answer {
    let checked = || copies.iter().filter(|copy| copy.listed && copy.checked);
    let Some(top) = checked().map(|copy| copy.epoch).max() else { return Err(39) };
    let is_candidate = |copy: &Copy| copy.listed && copy.checked && copy.epoch == top;
    let maps: Vec<Option<HashMap<&Key, u64>>> = copies
        .iter()
        .map(|copy| is_candidate(copy).then(|| copy.sessions.iter().map(|(key, next)| (key, *next)).collect()))
        .collect();
    let ahead = |mine: &HashMap<&Key, u64>, theirs: &HashMap<&Key, u64>| {
        theirs.iter().all(|(key, next)| mine.get(key).copied().unwrap_or(1) >= *next)
    };
    let fits = |i: &usize| maps[*i].as_ref().is_some_and(|mine| maps.iter().flatten().all(|other| ahead(mine, other)));
    (0..maps.len()).find(fits).ok_or(39)
}

fn five(keys: Keys, shuffled: bool, number: impl Fn(usize, usize) -> u64) -> Vec<Copy> {
    let mut chance = Chance(7);
    (0..5)
        .map(|copy| {
            let mut sessions: Vec<(Key, u64)> = (0..256).map(|n| (keys.key(n), number(copy, n))).collect();
            for i in (1..sessions.len()).rev().filter(|_| shuffled) {
                sessions.swap(i, chance.below(i as u64 + 1) as usize);
            }
            Copy { listed: true, checked: true, epoch: 3, sessions, broken: false }
        })
        .collect()
}

/// Every copy has other sessions, all at 1 but the last's newest: a session that is lacked is sought to the end.
fn lacking() -> Vec<Copy> {
    (0..5)
        .map(|copy| {
            let number = |n: usize| 1 + u64::from(copy == 4 && n == 255);
            let sessions = (0..256).map(|n| {
                let mut key = Keys::Text(2, 30).key(n);
                key[3][31] = b'0' + copy as u8;
                (key, number(n))
            });
            Copy { listed: true, checked: true, epoch: 3, sessions: sessions.collect(), broken: false }
        })
        .collect()
}

/// The median of the calls, and the longest of the quickest nine in ten, in milliseconds.
fn time(mut call: impl FnMut()) -> (f64, f64) {
    let mut times: Vec<f64> = (0..101)
        .map(|_| {
            let start = now();
            call();
            (now() - start) / 1e6
        })
        .collect();
    times.sort_by(f64::total_cmp);
    (times[times.len() / 2], times[times.len() * 9 / 10])
}

fn row(name: &str, copies: &[Copy]) {
    let areas = ours::areas(copies, 0);
    assert_eq!(ours::call(&areas), plain::choose(copies));
    assert_eq!(straight(copies), plain::choose(copies));
    let (ours, nine) = time(|| _ = black_box(ours::call(black_box(&areas))));
    let (rust, _) = time(|| _ = black_box(straight(black_box(copies))));
    println!("| {name} | {ours:.2} | {nine:.2} | {rust:.2} | {:.2} |", ours / rust);
}

pub fn bench() {
    let same = |_: usize, n: usize| 1000 + n as u64;
    let last = |copy: usize, n: usize| 1000 + n as u64 + u64::from(copy == 4);
    let apart = |copy: usize, n: usize| 1000 + n as u64 + u64::from(n == 250 + copy);
    println!("| the copies | ours, ms | nine in ten within | straight Rust, ms | ratio |\n|---|---|---|---|---|");
    row("all level", &five(Keys::Usual, false, same));
    row("all level, each in another order", &five(Keys::Usual, true, same));
    row("the last is taken", &five(Keys::Usual, false, last));
    row("the last is taken, each in another order", &five(Keys::Usual, true, last));
    row("none fits", &five(Keys::Usual, false, apart));
    row("none fits, each in another order", &five(Keys::Usual, true, apart));
    row("the last is taken, each lacks the others' sessions", &lacking());
    for text in 0..4 {
        for at in [0, 15, 30] {
            let keys = Keys::Text(text, at);
            row(&format!("the last is taken, each in another order; {}", keys.name()), &five(keys, true, last));
        }
    }
}
