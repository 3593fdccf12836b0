//! A script on one hold area, by the second reading.

use std::collections::BTreeMap;
use std::fmt::Write;

use crate::pieces::record;
use crate::read::{Change, LATEST};
use crate::segments::{close, closed, held, own};

const AREA: usize = 262_144;

fn fnv(hash: u64, bytes: &[u8]) -> u64 {
    bytes.iter().fold(hash, |hash, byte| (hash ^ u64::from(*byte)).wrapping_mul(0x100_0000_01b3))
}

fn hash_of(changes: &[Change]) -> u64 {
    changes.iter().fold(0xcbf2_9ce4_8422_2325, |hash, change| {
        let (kind, first, second, text): (u8, u64, u64, &[u8]) = match change {
            Change::NextIncoming(n) => (1, *n, 0, b""),
            Change::NextIncomingInFlight(n, flight) => (2, *n, *flight, b""),
            Change::InFlight(n) => (3, *n, 0, b""),
            Change::Record(n, Some(text)) => (4, *n, 0, text),
            Change::Record(n, None) => (5, *n, 0, b""),
            Change::Reset => (6, 0, 0, b""),
            Change::Stamp(text) => (7, 0, 0, text),
            Change::Marks(text) => (8, 0, 0, text),
        };
        fnv(fnv(fnv(fnv(hash, &[kind]), &first.to_le_bytes()), &second.to_le_bytes()), text)
    })
}

/// Whether the outgoing numbers follow on from `next`.
fn fits(changes: &[Change], mut next: u64) -> bool {
    for change in changes {
        let (seq, whole) = match change {
            Change::Record(seq, text) => (*seq, text.is_some()),
            Change::Reset => {
                next = 1;
                continue;
            }
            _ => continue,
        };
        if seq == u64::MAX || seq < next || whole && seq > next {
            return false;
        }
        next = seq + 1;
    }
    true
}

/// So many Records, as far as there is room for them.
fn records(room: usize, count: u64, len: usize) -> Vec<u8> {
    let mut bytes = Vec::new();
    for seq in 0..count {
        if bytes.len() + 13 + len <= room {
            bytes.extend(record(seq, len));
        }
    }
    bytes
}

/// A Whole with this run: whether there was room. Its changes stand behind those held.
fn whole(area: &mut [u8], words: &mut [u64], len: &mut usize, run: &[u8]) -> bool {
    let before = held(LATEST, &area[..*len], words);
    let end = before.used + run.len();
    if end > area.len() {
        return false;
    }
    area[before.used..end].copy_from_slice(run);
    close(words, &before, end);
    *len = end;
    true
}

fn digits(text: &str) -> Vec<u8> {
    (0..text.len() / 2).map(|i| u8::from_str_radix(&text[2 * i..][..2], 16).expect("digits")).collect()
}

/// The ways of a Whole, each of which must be met.
const WAYS: [&str; 5] = [
    "a Whole without room",
    "a Whole, no word left",
    "a Whole, its segment closed",
    "a Whole, its segment left open",
    "a Whole, an old word cleared",
];

struct Area {
    bytes: Vec<u8>,
    words: [u64; 32],
    lent: usize,
    len: usize,
    places: u64,
    place: u64,
}

impl Area {
    fn whole(&mut self, run: &[u8], seen: &mut BTreeMap<&'static str, u64>) {
        let words = own(&mut self.words[..self.lent], self.places, self.place);
        let before = words.to_vec();
        let room = closed(words, self.len).len() < words.len();
        let way = if !whole(&mut self.bytes, words, &mut self.len, run) {
            WAYS[0]
        } else if !room {
            WAYS[1]
        } else if closed(words, self.len).last() == Some(&self.len) {
            WAYS[2]
        } else if words == before {
            WAYS[3]
        } else {
            WAYS[4]
        };
        *seen.entry(way).or_default() += 1;
    }

    fn tell(&mut self, answers: &mut String, seen: &mut BTreeMap<&'static str, u64>) {
        let words = own(&mut self.words[..self.lent], self.places, self.place);
        let what = held(LATEST, &self.bytes[..self.len], words);
        let none = what.changes.is_empty();
        let next = words.get(what.closed).copied();
        for (way, is) in [
            ("nothing held", none),
            ("numbers that follow on", !none && fits(&what.changes, 0)),
            ("numbers that follow on over segments", what.closed > 0 && fits(&what.changes, 0)),
            ("numbers that diverge", !fits(&what.changes, 0)),
            ("one segment", !none && what.closed == 0),
            ("two segments", what.closed == 1),
            ("more segments", what.closed > 1),
            ("bytes that count as a Reset", what.bad > 0),
            ("an open segment that ends early", what.used < self.len),
            ("no words", words.is_empty()),
            ("all words count", !words.is_empty() && what.closed == words.len()),
            ("a word of 0 behind", next == Some(0)),
            ("a word that falls", what.closed > 0 && next.is_some_and(|word| word > 0 && word < what.from as u64)),
            ("a word that repeats", what.closed > 0 && next == Some(what.from as u64)),
            ("a word past the length", next.is_some_and(|word| word > self.len as u64 && word < u64::MAX)),
            ("a word of all ones", next == Some(u64::MAX)),
            ("a word at the length", what.from == self.len && what.closed > 0),
        ] {
            *seen.entry(way).or_default() += u64::from(is);
        }
        write!(
            answers,
            "held {} used {} none {} fits {} {} open {} {} segments {} changes {} hash {} words",
            self.len,
            what.used,
            u8::from(none),
            u8::from(fits(&what.changes, 0)),
            u8::from(fits(&what.changes, 1)),
            what.closed,
            what.from,
            what.closed + 1,
            what.changes.len(),
            hash_of(&what.changes)
        )
        .expect("a string can be written");
        for word in &self.words[..self.lent] {
            write!(answers, " {word}").expect("a string can be written");
        }
        answers.push('\n');
    }
}

/// The answers, and how often each way was met.
pub fn run(text: &str) -> (String, String) {
    let mut answers = String::new();
    let mut seen: BTreeMap<&'static str, u64> = WAYS.iter().map(|way| (*way, 0)).collect();
    let mut area = Area { bytes: vec![0; AREA], words: [0; 32], lent: 0, len: 0, places: 0, place: 0 };
    for line in text.lines() {
        let words: Vec<&str> = line.split(' ').collect();
        let number = |at: usize| words.get(at).map_or(0, |word| word.parse::<u64>().expect("a number"));
        match words[0] {
            "n" => {
                (area.len, area.places, area.place, area.lent) = (number(1) as usize, number(2), number(3), number(4) as usize);
            }
            "w" => {
                let lent = area.lent;
                if let Some(word) = area.words[..lent].get_mut(number(1) as usize) {
                    *word = number(2);
                }
            }
            "x" => {
                let (at, bytes) = (number(1) as usize, digits(words[2]));
                if let Some(part) = area.bytes.get_mut(at..at + bytes.len()) {
                    part.copy_from_slice(&bytes);
                }
            }
            "r" => {
                let at = number(1) as usize;
                let bytes = records(AREA - at, number(2), number(3) as usize);
                area.bytes[at..][..bytes.len()].copy_from_slice(&bytes);
            }
            "W" => area.whole(&digits(words[1]), &mut seen),
            "R" => area.whole(&records(AREA, number(1), number(2) as usize), &mut seen),
            "Q" => area.tell(&mut answers, &mut seen),
            other => panic!("{other}"),
        }
    }
    (answers, seen.iter().map(|(way, count)| format!("{count} {way}\n")).collect())
}
