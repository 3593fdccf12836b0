//! A script on a standby by the second reading, as crates/vectors_hold runs it.

use std::collections::BTreeMap;
use std::fmt::Write;

use crate::digits;
use crate::library::{Areas, Ask, Counters, Place, Settings, Size, outcome};
use crate::plain::read::LATEST;
use crate::plain::segments::{held, own};
use crate::plain;

const HOLDS: usize = 524_288;
const ENDS: usize = 64;
const FRAME: usize = 262_144;
const START: u64 = 0xcbf2_9ce4_8422_2325;

fn fnv(hash: u64, bytes: &[u8]) -> u64 {
    bytes.iter().fold(hash, |hash, byte| (hash ^ u64::from(*byte)).wrapping_mul(0x100_0000_01b3))
}

/// A part is put if there is room for it.
fn put(frame: &mut Vec<u8>, part: &[u8]) {
    if frame.len() + part.len() <= FRAME {
        frame.extend(part);
    }
}

/// The frame of an `F` or `G` line: handle, commit number, part, whether a Reset stands in front, and Records: the first number, how many, how long.
pub fn made([handle, commit_no, part, reset, seq, count, len]: [u64; 7]) -> Vec<u8> {
    let mut frame = vec![0; 4];
    let changes = count as u32 + u32::from(reset == 1);
    put(&mut frame, &[4]);
    put(&mut frame, &(handle as u32).to_le_bytes());
    put(&mut frame, &[0; 8]);
    put(&mut frame, &commit_no.to_le_bytes());
    put(&mut frame, &[part as u8]);
    put(&mut frame, &changes.to_le_bytes());
    if reset == 1 {
        put(&mut frame, &[6]);
    }
    for seq in (0..count).map(|i| seq.wrapping_add(i)) {
        put(&mut frame, &[4]);
        put(&mut frame, &seq.to_le_bytes());
        put(&mut frame, &(len as u32).to_le_bytes());
        put(&mut frame, &vec![seq as u8; len as usize]);
    }
    put(&mut frame, &[0; 4]);
    let body = (frame.len() - 4) as u32;
    frame[..4].copy_from_slice(&body.to_le_bytes());
    frame
}

/// A standby, and all that is lent to it.
pub struct Lent {
    counters: Counters,
    areas: Areas,
    /// All that may be lent of the hold areas and of their words.
    holds: Vec<u8>,
    ends: Vec<u64>,
    size: Size,
    pub row: [Place; 4],
}

/// What a Batch finds at its handle's place.
pub struct Found {
    part: u8,
    place: usize,
    words: Vec<u64>,
    len: usize,
    closed: usize,
    pub from: usize,
    pub used: usize,
    bad: u64,
}

impl Found {
    /// The ways that a Batch may go, and whether this one went so: each must be met.
    fn ways(&self, lent: &mut Lent, refusal: u32, kind: u8, reason: u8) -> Vec<(String, bool)> {
        let part = ["a Commit", "a Whole", "a LastWhole"][usize::from(self.part)];
        let next = self.words.get(self.closed).copied();
        let (from, len) = (self.from as u64, self.len as u64);
        let after = |what: &str, is: bool| (format!("{part} after {what}"), is);
        let mut ways = vec![
            after("bytes that count as a Reset", self.bad > 0),
            after("an open segment that ends early", self.used < self.len),
            after("one closed segment", self.closed == 1),
            after("more of them", self.closed > 1),
            after("no words", self.words.is_empty()),
            after("words that all count", !self.words.is_empty() && self.closed == self.words.len()),
            after("a word of 0 behind those", next == Some(0)),
            after("a word that falls", self.closed > 0 && next.is_some_and(|word| word > 0 && word < from)),
            after("a word that repeats", self.closed > 0 && next == Some(from)),
            after("a word past the length", next.is_some_and(|word| word > len && word < u64::MAX)),
            after("a word of all ones", next == Some(u64::MAX)),
        ];
        let mut answer = |what: &str, is: bool| ways.push((format!("{part}: {what}"), is));
        answer("25", refusal == 25);
        if self.part == 0 {
            answer("15", refusal == 15);
        } else {
            answer("16", refusal == 16);
            answer("17", refusal == 17);
            answer("18", refusal == 18);
        }
        answer("Diverged", (kind, reason) == (6, 2));
        answer("Ack", kind == 5);
        if self.part > 0 {
            answer("Ack after bytes that count as a Reset", kind == 5 && self.bad > 0);
            answer("Ack after closed segments", kind == 5 && self.closed > 0);
        }
        if self.part == 1 {
            let words = own(&mut lent.areas.ends, lent.areas.row.len() as u64, self.place as u64);
            let word = words.get(self.closed).copied();
            answer("no word left for it", kind == 5 && word.is_none());
            answer("a segment closed", kind == 5 && word.is_some_and(|word| word > 0));
            answer("a word cleared", kind == 5 && word == Some(0) && next != Some(0));
        }
        ways
    }
}

/// What each word of a line is, from its first on.
fn numbers<const N: usize>(line: &str) -> [u64; N] {
    let mut words = line.get(2..).unwrap_or("").split_whitespace().map(|word| word.parse().unwrap_or(0));
    [(); N].map(|()| words.next().unwrap_or(0))
}

impl Lent {
    pub fn new() -> Self {
        let size = Size { sessions: 0, bytes: 0, messages: 0 };
        let areas = Areas::new(size, 0, 0, 0);
        let (holds, ends, row) = (vec![0; HOLDS], vec![0; ENDS], [(); 4].map(|()| Place::default()));
        Self { counters: Counters::default(), areas, holds, ends, size, row }
    }

    fn settings(&self) -> Settings {
        Settings { size: self.size, incarnation: 7, max_lag: 3 }
    }

    fn begin(&mut self, line: &str) {
        self.give_back();
        let [sessions, bytes, messages, handles, hold, ends] = numbers(line);
        self.size = Size { sessions: sessions as u32, bytes: bytes as u32, messages: messages as u32 };
        let handles = handles.min(4) as usize;
        self.areas = Areas::new(self.size, handles, 0, 0);
        self.areas.holds = self.holds[..(handles * hold as usize).min(HOLDS)].to_vec();
        self.areas.ends = self.ends[..(ends as usize).min(ENDS)].to_vec();
        (self.counters, self.row) = (Counters::default(), [(); 4].map(|()| Place::default()));
        let settings = self.settings();
        plain::made(&mut self.counters, &mut self.areas, settings);
    }

    /// What was lent keeps what stands in it.
    fn give_back(&mut self) {
        self.holds[..self.areas.holds.len()].copy_from_slice(&self.areas.holds);
        self.ends[..self.areas.ends.len()].copy_from_slice(&self.areas.ends);
    }

    /// What a Batch with a good head finds, if its handle is bound and its area is as long as is said.
    pub fn found(&mut self, ask: &Ask) -> Option<Found> {
        let (Ask::Held(frame) | Ask::Frame(frame)) = ask else { return None };
        let part = *frame.get(25).filter(|part| frame[4] == 4 && **part < 3)?;
        let handle = u32::from_le_bytes(frame[5..9].try_into().expect("four"));
        let handles = self.areas.row.len();
        let place = self.row[..handles].iter().position(|record| record.used != 0 && record.handle == handle)?;
        let (hold, len) = (self.areas.holds.len() / handles, self.row[place].held_len as usize);
        let words = own(&mut self.areas.ends, handles as u64, place as u64).to_vec();
        let bytes = self.areas.holds.get(place * hold..)?.get(..len.min(hold))?;
        let before = held(LATEST, bytes, &words);
        Some(Found { part, place, words, len, closed: before.closed, from: before.from, used: before.used, bad: before.bad })
    }

    fn session_hash(&self, place: u64) -> u64 {
        let mut told = vec![0; 4096];
        let Ok(len) = outcome(plain::session(&self.areas, self.size, &mut told, place, u64::MAX)) else { return 0 };
        let mut left = &told[..len as usize];
        let mut take = |count: usize| {
            let (now, rest) = left.split_at(count);
            left = rest;
            now.to_vec()
        };
        let flying = take(2)[1] == 1;
        for _ in 0..4 {
            let len = u32::from_le_bytes(take(4).try_into().expect("four"));
            take(len as usize);
        }
        let mut hash = fnv(fnv(START, &take(8)), &take(8));
        let in_flight = take(8);
        hash = if flying { fnv(fnv(hash, &1_u64.to_le_bytes()), &in_flight) } else { fnv(hash, &[0; 8]) };
        for _ in 0..2 {
            let len = u32::from_le_bytes(take(4).try_into().expect("four"));
            hash = fnv(fnv(hash, &u64::from(len).to_le_bytes()), &take(len as usize));
        }
        fnv(hash, &take(8))
    }

    fn ask(&mut self, ask: Ask, answers: &mut String, seen: &mut BTreeMap<String, u64>) {
        let settings = self.settings();
        let handles = self.areas.row.len();
        let found = self.found(&ask);
        self.areas.row.clone_from_slice(&self.row[..handles]);
        let said = plain::said(&mut self.counters, &mut self.areas, settings, ask);
        self.row[..handles].clone_from_slice(&self.areas.row);
        let (kind, refusal, reason, commit_no) = match &said.0 {
            Ok(frame) if frame.is_empty() => (0, 0, 0, 0),
            Ok(frame) => {
                let commit_no = if frame[4] == 5 { u64::from_le_bytes(frame[9..17].try_into().expect("eight")) } else { 0 };
                (frame[4], 0, if frame[4] == 6 { frame[9] } else { 0 }, commit_no)
            }
            Err(number) => (0, *number, 0, 0),
        };
        for (way, is) in found.into_iter().flat_map(|found| found.ways(self, refusal, kind, reason)) {
            *seen.entry(way).or_default() += u64::from(is);
        }
        write!(answers, "{kind}/{refusal}/{reason} {commit_no}").expect("a string can be written");
        for Place { used, handle, place, commit_no, held_len, held_bytes } in &self.row {
            write!(answers, " {used} {handle} {place} {commit_no} {held_len} {held_bytes};").expect("a string can be written");
        }
        let (first, second, holds) = (self.session_hash(0), self.session_hash(1), fnv(START, &self.areas.holds));
        write!(answers, " sessions {first} {second} holds {holds} words").expect("a string can be written");
        for word in &self.areas.ends {
            write!(answers, " {word}").expect("a string can be written");
        }
        answers.push('\n');
    }

    pub fn line(&mut self, line: &str, answers: &mut String, seen: &mut BTreeMap<String, u64>) {
        let [n] = numbers(line);
        let digits = line.get(2..).and_then(|text| digits::read(text.as_bytes())).unwrap_or_default();
        let (digits, frame) = (&digits[..], made(numbers(line)));
        match line.as_bytes().first() {
            Some(b'n') => self.begin(line),
            Some(b'w') => {
                let [at, word] = numbers(line);
                self.areas.ends.get_mut(at as usize).into_iter().for_each(|place| *place = word);
            }
            Some(b'x') => {
                let [at] = numbers(line);
                let bytes = digits::read(line.split(' ').nth(2).unwrap_or("").as_bytes()).unwrap_or_default();
                let part = self.areas.holds.get_mut(at as usize..at as usize + bytes.len());
                part.into_iter().for_each(|part| part.copy_from_slice(&bytes));
            }
            Some(b'h') => {
                let [at, len, sum] = numbers(line);
                if let Some(record) = self.row.get_mut(at as usize) {
                    (record.held_len, record.held_bytes) = (len, sum);
                }
            }
            Some(b'f') => self.ask(Ask::Frame(digits), answers, seen),
            Some(b'g') => self.ask(Ask::Held(digits), answers, seen),
            Some(b'F') => self.ask(Ask::Frame(&frame), answers, seen),
            Some(b'G') => self.ask(Ask::Held(&frame), answers, seen),
            Some(b'l') => self.ask(Ask::Flush(n), answers, seen),
            Some(b'd') => self.ask(Ask::Drop(n), answers, seen),
            Some(b'p') => self.ask(Ask::Promote, answers, seen),
            Some(b'u') => self.ask(Ask::Unchecked, answers, seen),
            _ => panic!("{line}"),
        }
    }
}

/// The answers, and how often each way was met.
pub fn run(text: &str) -> (String, String) {
    let mut answers = String::new();
    let mut seen = BTreeMap::new();
    let mut lent = Lent::new();
    text.lines().for_each(|line| lent.line(line, &mut answers, &mut seen));
    (answers, seen.iter().map(|(way, count)| format!("{count} {way}\n")).collect())
}
