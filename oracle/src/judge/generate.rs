//! Inputs made by chance, the same for the same seed: frames of every kind, good and damaged, and
//! call scripts that mostly make sense.

use crate::call::{Call, Counter, Key, LINES, Line, Setting, hold_for_any};
use crate::differences::{FIRST, LATEST};
#[cfg(calls)]
use crate::library::Place;
use crate::ranges::{self, Range};
use crate::rust::{Rust, key_of};
use crate::side::Side;
use crate::wire::{self, Batch, change};

/// A small generator of numbers (splitmix64).
pub struct Random(pub u64);

impl Random {
    pub fn next(&mut self) -> u64 {
        self.0 = self.0.wrapping_add(0x9e37_79b9_7f4a_7c15);
        let mixed = (self.0 ^ self.0 >> 30).wrapping_mul(0xbf58_476d_1ce4_e5b9);
        let mixed = (mixed ^ mixed >> 27).wrapping_mul(0x94d0_49bb_1331_11eb);
        mixed ^ mixed >> 31
    }

    /// A number below `n`, which isn't 0.
    pub fn below(&mut self, n: u64) -> u64 {
        self.next() % n
    }

    pub fn percent(&mut self, chance: u64) -> bool {
        self.below(100) < chance
    }

    pub fn pick<T: Clone>(&mut self, items: &[T]) -> T {
        items[self.below(items.len() as u64) as usize].clone()
    }

    fn bytes(&mut self, most: u64) -> Vec<u8> {
        let count = self.below(most + 1);
        (0..count).map(|_| self.next() as u8).collect()
    }

    fn printable(&mut self, least: u64, most: u64) -> Vec<u8> {
        let count = least + self.below(most - least + 1);
        (0..count).map(|_| 0x20 + self.below(0x5f) as u8).collect()
    }

    /// Mostly small, else at a boundary or anything.
    fn number(&mut self) -> u64 {
        const EDGES: [u64; 10] =
            [0, 1, 2, u32::MAX as u64, 1 << 32, (1 << 63) - 1, 1 << 63, u64::MAX - 2, u64::MAX - 1, u64::MAX];
        match self.below(10) {
            0..6 => self.below(8),
            6..9 => self.pick(&EDGES),
            _ => self.next(),
        }
    }

    /// A line, without a draw: what else comes by chance stays the same.
    fn line(&self) -> Line {
        LINES[(self.0 >> 32) as usize % 2]
    }

    fn handle(&mut self) -> u32 {
        if self.percent(80) { self.below(6) as u32 } else { self.pick(&[u32::MAX, 1 << 31, 255, 256]) }
    }
}

const TEXTS: [&[u8]; 30] = [
    b"",
    b"a",
    b"\x7f",
    b"\x80",
    b"\xbf",
    b"\xc0\x80",
    b"\xc1\xbf",
    b"\xc2\x80",
    b"\xc2\x7f",
    b"\xc2",
    b"\xdf\xbf",
    b"\xe0\x9f\xbf",
    b"\xe0\xa0\x80",
    b"\xe1\x80",
    b"\xed\x9f\xbf",
    b"\xed\xa0\x80",
    b"\xed\xbf\xbf",
    b"\xee\x80\x80",
    b"\xef\xbf\xbf",
    b"\xf0\x8f\xbf\xbf",
    b"\xf0\x90\x80\x80",
    b"\xf4\x8f\xbf\xbf",
    b"\xf4\x90\x80\x80",
    b"\xf5\x80\x80\x80",
    b"\xf8\x88\x80\x80\x80",
    b"\xff",
    b"a\xc3\xa9b",
    b"\xe2\x82\xacx",
    b"\xf0\x9f\x98\x80",
    b"\xf1\x80\x80\xc0",
];

fn text(random: &mut Random) -> Vec<u8> {
    match random.below(10) {
        0..6 => random.printable(0, 9),
        6..9 => [random.pick(&TEXTS), random.pick(&TEXTS)].concat(),
        _ => random.bytes(6),
    }
}

const STAMPS: [&[u8]; 47] = [
    b"20261115-12:00:00",
    b"20261115-12:00:00.000",
    b"00000101-00:00:00",
    b"99991231-23:59:60.999",
    b"20260228-23:59:60",
    b"20260229-23:59:60",
    b"20260230-23:59:60",
    b"20240229-00:00:00.000",
    b"20240230-00:00:00.000",
    b"19000228-00:00:00",
    b"19000229-00:00:00",
    b"20000229-00:00:00",
    b"20000230-00:00:00",
    b"21000229-00:00:00.999",
    b"00000229-00:00:00",
    b"00000230-00:00:00",
    b"20260131-00:00:00",
    b"20260430-00:00:00",
    b"20260431-00:00:00",
    b"20260631-00:00:00",
    b"20260831-00:00:00",
    b"20260931-00:00:00",
    b"20261131-00:00:00",
    b"20260001-00:00:00",
    b"20261301-00:00:00",
    b"20260100-00:00:00",
    b"20260132-00:00:00",
    b"20260101-24:00:00",
    b"20260101-00:60:00",
    b"20260101-00:00:61",
    b"20260101-00:00:00.00",
    b"20260101 00:00:00",
    b"20260101-00:00:00.123456",
    b"20260101-00:00:00.123456789",
    b"20260101-00:00:00.123456789012",
    b"20260230-00:00:00.123456",
    b"20260101-00:00:00.12345/",
    b"20260101-00:00:00.12345678:",
    b"20260101-00:00:00.123456 89012",
    b"20260101-00:00:00.1",
    b"20260101-00:00:00.1234",
    b"20260101-00:00:00.12345",
    b"20260101-00:00:00.1234567",
    b"20260101-00:00:00.12345678",
    b"20260101-00:00:00.1234567890",
    b"20260101-00:00:00.12345678901",
    b"20260101-00:00:00.1234567890123",
];

/// The last day of a month; of February by the number of leap years up to each year.
pub fn last_day(year: u64, month: u64) -> u64 {
    let leaps = |year: u64| year / 4 - year / 100 + year / 400;
    match month {
        2 if year == 0 => 29,
        2 => 28 + leaps(year) - leaps(year - 1),
        4 | 6 | 9 | 11 => 30,
        _ => 31,
    }
}

/// Year, month and day 1 to 32 of each month of a whole cycle of 400 years.
pub fn cycle() -> impl Iterator<Item = (u64, u64, u64)> {
    (2000..2400).flat_map(|year| (1..=12).flat_map(move |month| (1..=32).map(move |day| (year, month, day))))
}

/// A stamp of a day that exists, with one of these counts of digits behind the point; a day past its month's end becomes the last
/// one.
fn stamp_with(random: &mut Random, counts: &[usize]) -> Vec<u8> {
    let mut within = |most: u64, least: u64| least + random.below(most - least + 1);
    let (month, day) = (within(12, 1), within(31, 1));
    let (hour, minute, second) = (within(23, 0), within(59, 0), within(60, 0));
    let year = random.below(10_000);
    let day = day.min(last_day(year, month));
    let text = format!("{year:04}{month:02}{day:02}-{hour:02}:{minute:02}:{second:02}");
    let count = random.pick(counts);
    let digits: String = (0..count).map(|_| char::from(b'0' + random.below(10) as u8)).collect();
    if count == 0 { text.into() } else { format!("{text}.{digits}").into() }
}

const SHORT: [usize; 2] = [0, 3];
const LONG: [usize; 3] = [6, 9, 12];

/// Mostly a stamp that the version takes; in version 2 mostly a long one.
fn suiting(random: &mut Random, version: u16) -> Vec<u8> {
    let long = random.percent(if version == LATEST { 80 } else { 8 });
    stamp_with(random, if long { &LONG } else { &SHORT })
}

/// A stamp that version 1 takes, or one of all five forms.
fn good_stamp(random: &mut Random) -> Vec<u8> {
    if random.percent(50) { stamp_with(random, &SHORT) } else { stamp_with(random, &[0, 3, 6, 9, 12]) }
}

fn stamp(random: &mut Random) -> Vec<u8> {
    match random.below(10) {
        0..4 => good_stamp(random),
        4 => stamp_with(random, &[1, 2, 4, 5, 7, 8, 10, 11, 13, 14, 15]),
        5..8 => random.pick(&STAMPS).to_vec(),
        8 => {
            let stamp = good_stamp(random);
            damaged(random, stamp)
        }
        _ => text(random),
    }
}

fn marks(random: &mut Random) -> Vec<u8> {
    match random.below(12) {
        0..6 => random.printable(0, 6),
        6 => random.printable(63, 66),
        7 => b"xB".to_vec(),
        8 => [vec![b'm'; 63], vec![b'B']].concat(),
        9 => vec![b'm'; 64],
        _ => text(random),
    }
}

fn good_marks(random: &mut Random) -> Vec<u8> {
    match random.below(8) {
        0 => vec![b'm'; 64],
        1 => b"AB".to_vec(),
        2 => random.printable(60, 64),
        _ => random.printable(0, 5),
    }
}

fn key_part(random: &mut Random) -> Vec<u8> {
    match random.below(12) {
        0..8 => random.printable(1, 8),
        8 => random.printable(32, 33),
        9 => Vec::new(),
        10 => random.printable(0, 32),
        _ => text(random),
    }
}

pub fn key(random: &mut Random) -> Key {
    let part = |random: &mut Random| if random.percent(80) { random.printable(1, 8) } else { key_part(random) };
    let [begin_string, sender, target] = [part(random), part(random), part(random)];
    [begin_string, sender, target, if random.percent(50) { Vec::new() } else { key_part(random) }]
}

fn any_change(random: &mut Random) -> Vec<u8> {
    match random.below(33) {
        0..4 => change::next_incoming(random.number()),
        4..8 => change::next_incoming_in_flight(random.number(), random.number()),
        8..12 => change::in_flight(random.number()),
        12..16 => change::record(random.number(), &random.bytes(12)),
        16..20 => change::bare_record(random.number()),
        20..24 => change::reset(),
        24..28 => change::created_at(&stamp(random)),
        28..32 => change::marks(&marks(random)),
        _ => vec![random.next() as u8],
    }
}

fn any_batch(random: &mut Random) -> Vec<u8> {
    let changes = random.below(5);
    let records = if random.percent(20) { random.below(3) } else { 0 };
    wire::batch(&Batch {
        handle: random.handle(),
        epoch: random.number(),
        commit_no: random.number(),
        part: if random.percent(95) { random.below(3) as u8 } else { random.next() as u8 },
        changes: (0..changes).map(|_| any_change(random)).collect(),
        records: (0..records).map(|_| (random.next() as u16, random.bytes(5))).collect(),
    })
}

/// A frame of any kind, well formed but for a field now and then.
pub fn any_frame(random: &mut Random) -> Vec<u8> {
    match random.below(13) {
        0 => {
            let kinds: Vec<u16> = (0..random.below(3)).map(|_| random.next() as u16).collect();
            let version = if random.percent(80) { random.below(4) as u16 } else { random.number() as u16 };
            wire::hello(version, random.number(), &text(random), &kinds)
        }
        1 => wire::welcome(random.number(), random.number()),
        2 | 3 => wire::bind(random.handle(), random.number(), random.number(), &key(random)),
        4..8 => any_batch(random),
        8 => wire::ack(random.handle(), random.number()),
        9 => wire::nack(
            random.handle(),
            if random.percent(80) { 1 + random.below(4) as u8 } else { random.next() as u8 },
        ),
        10 | 11 => {
            let numbers = [random.number(), random.number(), random.number()];
            let stamp = if random.percent(30) { Vec::new() } else { stamp(random) };
            wire::bound(random.handle(), numbers, &stamp, &marks(random), random.number())
        }
        _ => wire::checked(random.handle(), random.number(), random.number()),
    }
}

/// The same bytes but for one fault: cut, longer, a byte changed, a length or count moved.
pub fn damaged(random: &mut Random, mut bytes: Vec<u8>) -> Vec<u8> {
    let len = bytes.len() as u64;
    let at = random.below(len.max(1)) as usize;
    match random.below(8) {
        0 => bytes.truncate(at),
        1 => bytes.extend(random.bytes(4)),
        _ if bytes.is_empty() => bytes.push(random.next() as u8),
        2 => bytes[at] = bytes[at].wrapping_add(1),
        3 => bytes[at] = bytes[at].wrapping_sub(1),
        4 => bytes[at] ^= 1 << random.below(8),
        5 => drop(bytes.remove(at)),
        6 => bytes.insert(at, random.next() as u8),
        _ => bytes[at] = random.pick(&[0, 1, 0x7f, 0x80, 0xff]),
    }
    bytes
}

/// Damage inside the body, its length set right again, so that reading goes on past it.
fn damaged_body(random: &mut Random, frame: &[u8]) -> Vec<u8> {
    let body = frame.get(4..).unwrap_or_default().to_vec();
    wire::framed(&damaged(random, body))
}

/// A single frame for reading: good, damaged, followed by another, or rubbish.
pub fn reading(random: &mut Random) -> Vec<u8> {
    let frame = any_frame(random);
    match random.below(10) {
        0..5 => frame,
        5..7 => damaged_body(random, &frame),
        7 => damaged(random, frame),
        8 => [frame, any_frame(random)].concat(),
        _ => random.bytes(24),
    }
}

/// Makes the next call of a script, looking at the state the Rust is in.
pub struct Player {
    pub random: Random,
    keys: Vec<Key>,
    /// Frames of a whole sending, or of a session that goes from handle to handle, still to be given.
    sending: Vec<Vec<u8>>,
    /// Calls that come first.
    opening: Vec<Call>,
    /// The connection's version as a call is made.
    version: u16,
}

/// A setting: mostly a few places and small limits, so that they are met.
pub fn setting(random: &mut Random) -> Setting {
    let (many, size) = (random.percent(2), random.below(600));
    let (large, middle) = (size == 0, (1..4).contains(&size));
    let many = many && !large && !middle;
    let bytes = match size {
        _ if large => 4 << 20,
        _ if middle => random.pick(&[40_000, 70_000]),
        _ => random.pick(&[0, 1, 7, 20, 40, 200]),
    };
    let messages = if large || middle { 12 } else { random.pick(&[0, 1, 2, 3, 4, 8]) };
    let any = hold_for_any(bytes, messages);
    Setting {
        incarnation: random.pick(&[0, 1, 7, 7, u64::MAX]),
        lag: random.pick(&[0, 0, 1, 3, 64, u64::MAX]),
        bytes,
        messages,
        sessions: if many { 70 } else { random.pick(&[0, 1, 1, 2, 2, 3, 4]) },
        handles: if many { random.pick(&[80, 80, 70, 64, 30]) } else { random.pick(&[0, 1, 2, 2, 3, 4, 5]) },
        hold: if random.percent(50) { any } else { random.pick(&[0, 1, 21, 40, any - 1, any + 9, any + 9, any + 8, 2 * any]) },
    }
}

/// Many handles bound, each on a session of its own or on fewer sessions, which go to those bound last; then a commit held
/// on each in turn: on as many sessions as handles more than may pend.
fn full_of_pending(random: &mut Random, keys: &[Key]) -> Vec<Call> {
    let handles = 60 + random.below(12) as u32;
    let sessions = if random.percent(60) { 71 } else { 1 + random.below(60) as usize };
    let bind = |handle: u32| Call::Held(wire::bind(handle, 0, 0, &keys[handle as usize % sessions]));
    let commit = |handle: u32| {
        let changes = vec![change::in_flight(handle.into())];
        let batch = Batch { handle, epoch: 0, commit_no: 1, part: wire::COMMIT, changes, records: Vec::new() };
        Call::Held(wire::batch(&batch))
    };
    (0..handles).map(bind).chain((0..handles).map(commit)).chain([Call::State]).collect()
}

/// A setting with more handles than may have a commit that pends.
pub fn many_setting() -> Setting {
    Setting { incarnation: 7, lag: 3, bytes: 20, messages: 2, sessions: 70, handles: 80, hold: hold_for_any(20, 2) }
}

/// A setting in which a session has several batches on the branch line.
pub fn branch_setting() -> Setting {
    let hold = hold_for_any(100_000, 12);
    Setting { incarnation: 7, lag: 3, bytes: 100_000, messages: 12, sessions: 2, handles: 2, hold }
}

/// A setting with more sessions and handles than a byte can tell apart.
pub fn wide_setting() -> Setting {
    Setting { incarnation: 7, lag: 3, bytes: 7, messages: 1, sessions: 300, handles: 300, hold: hold_for_any(7, 1) }
}

/// Each session bound, to handles that begin with this one.
fn all_bound(first: u32, keys: &[Key]) -> Vec<Call> {
    (first..).zip(keys).map(|(handle, key)| Call::Held(wire::bind(handle, 0, 0, key))).collect()
}

/// A session that is sent whole in several batches, some of them just at the limit, and sent.
fn several_batches(random: &mut Random, key: &Key) -> Vec<Call> {
    let mut commit = |seq: u64| {
        let len = random.pick(&[0, 1, 524_288, 1_048_575, 1_048_576, 1_048_577]);
        let changes = vec![change::record(seq, &vec![seq as u8; len])];
        wire::batch(&Batch { handle: 0, epoch: 0, commit_no: seq, part: wire::COMMIT, changes, records: Vec::new() })
    };
    let commits: Vec<_> = (1..=6).map(|seq| Call::Frame(commit(seq))).collect();
    let whole = |line| Call::Whole { line, handle: 0, epoch: 0, last: 6, key: key.clone(), length: None };
    [Call::Frame(wire::bind(0, 0, 0, key))].into_iter().chain(commits).chain(LINES.map(whole)).collect()
}

/// A session with batches about the branch line's limit, numbers skipped between them, sent on both lines: from any commit number,
/// from those with which as many batches just end at 2^64 - 1 or go past it, and into an area that not every frame fits.
fn branch_batches(random: &mut Random, key: &Key) -> Vec<Call> {
    let mut next = 1;
    let mut commit = |commit_no: u64| {
        let len = random.pick(&[0, 1, 2, 8_192, 8_193, 16_383, 16_384, 16_385, 16_386, 32_768, 40_000]);
        let skipped = if random.percent(40) { 1 + random.below(3) } else { 0 };
        let mut changes: Vec<_> = (0..skipped.min(1)).map(|_| change::bare_record(next + skipped - 1)).collect();
        changes.push(change::record(next + skipped, &vec![commit_no as u8; len]));
        next += skipped + 1;
        wire::batch(&Batch { handle: 0, epoch: 0, commit_no, part: wire::COMMIT, changes, records: Vec::new() })
    };
    let commits: Vec<_> = (1..=7).map(|commit_no| Call::Frame(commit(commit_no))).collect();
    let places = [(7, None), (u64::MAX - random.below(6), None), (7, Some(16_300 + random.below(300)))];
    let sent = places.into_iter().chain((0..7).map(|back| (u64::MAX - back, Some(0)))).flat_map(|(last, length)| {
        LINES.map(|line| Call::Whole { line, handle: 0, epoch: 0, last, key: key.clone(), length })
    });
    [Call::Frame(wire::bind(0, 0, 0, key))].into_iter().chain(commits).chain(sent).collect()
}

impl Player {
    pub fn new(mut random: Random, setting: &Setting) -> Self {
        let count = setting.sessions + 1;
        let mut key = |i: u64| [b"FIX.4.4".to_vec(), random.printable(1, 3), format!("T{i}").into(), Vec::new()];
        let keys: Vec<Key> = (0..count).map(&mut key).collect();
        let opening = match setting {
            _ if count > 256 => all_bound(random.pick(&[0, 7, 200]), &keys),
            _ if count > 60 => full_of_pending(&mut random, &keys),
            _ if setting.bytes > 1 << 20 => several_batches(&mut random, &keys[0]),
            _ if setting.bytes > 1 << 14 => branch_batches(&mut random, &keys[0]),
            _ if random.percent(40) => vec![Call::Held(wire::hello(LATEST, 0, b"node", &[]))],
            _ => Vec::new(),
        };
        Self { random, keys, sending: Vec::new(), opening, version: FIRST }
    }

    pub fn call(&mut self, rust: &mut Rust) -> Call {
        if !self.opening.is_empty() {
            return self.opening.remove(0);
        }
        self.version = rust.version;
        // What is held is read alike in both versions.
        let holding = rust.replica.handles().iter().any(|handle| !handle.held.is_empty());
        if holding && self.random.percent(4) {
            return Call::Set(Counter::Version(FIRST + LATEST - rust.version));
        }
        match self.random.below(100) {
            0..3 => self.taken(rust, |player, rust| player.hello(rust)),
            3..13 => self.taken(rust, |player, rust| player.bind(rust)),
            13..67 => self.taken(rust, |player, rust| player.batch(rust)),
            67..70 => self.taken(rust, |player, rust| player.checked(rust)),
            70..72 => self.taken(rust, |player, _| any_frame(&mut player.random)),
            72..75 => self.taken(rust, |player, _| reading(&mut player.random)),
            75..79 => Call::Flush(self.connection(rust)),
            79 => Call::Drop(self.connection(rust)),
            80 if self.random.percent(30) => self.random.pick(&[Call::Promote, Call::Promote, Call::Unchecked]),
            80..84 => Call::Summary { n: self.random.number(), key: self.random.pick(&self.keys) },
            84..87 => self.whole(rust),
            87 => self.queue(),
            88 => Call::Set(self.counter(rust)),
            89 => Call::Set(Counter::Version(FIRST + LATEST - rust.version)),
            _ => Call::State,
        }
    }

    /// A frame handed over, damaged now and then.
    fn taken(&mut self, rust: &Rust, make: impl FnOnce(&mut Self, &Rust) -> Vec<u8>) -> Call {
        let frame = match self.sending.is_empty() {
            false if self.random.percent(85) => self.sending.remove(0),
            _ => make(self, rust),
        };
        let frame = match self.random.below(60) {
            0 => damaged(&mut self.random, frame),
            1 => damaged_body(&mut self.random, &frame),
            _ => frame,
        };
        if self.random.percent(60) { Call::Held(frame) } else { Call::Frame(frame) }
    }

    fn epoch(&mut self, rust: &Rust) -> u64 {
        let epoch = rust.replica.epoch();
        match self.random.below(40) {
            0 => epoch.wrapping_add(1),
            1 => epoch.wrapping_sub(1),
            2 if self.random.percent(10) => self.random.number(),
            _ => epoch,
        }
    }

    fn connection(&mut self, rust: &Rust) -> u64 {
        if self.random.percent(75) { rust.replica.connection() } else { self.random.number() }
    }

    fn hello(&mut self, rust: &Rust) -> Vec<u8> {
        let version = match self.random.below(20) {
            0..9 => FIRST + LATEST - rust.version,
            9..18 => 1 + self.random.below(2) as u16,
            18 => self.random.pick(&[0, 3]),
            _ => self.random.number() as u16,
        };
        let kinds: &[u16] = if self.random.percent(90) { &[] } else { &[1, 2] };
        wire::hello(version, self.epoch(rust), b"node", kinds)
    }

    /// Mostly one of a few more than there are places; now and then one that is equal to such in its low bits.
    fn handle(&mut self, rust: &Rust) -> u32 {
        let handle = self.random.below(rust.handles.saturating_add(2).min(90)) as u32;
        match self.random.below(50) {
            0..6 => handle + 256 * (1 + self.random.below(2) as u32),
            6 => handle + (1 << 31),
            _ => handle,
        }
    }

    fn bind(&mut self, rust: &Rust) -> Vec<u8> {
        let lag = rust.replica.accepted_lag();
        let max_lag = match self.random.below(12) {
            0 => lag.wrapping_add(1),
            1 => self.random.number(),
            2..6 => lag.min(5),
            _ => lag,
        };
        if self.random.percent(20) {
            return self.handover(rust, max_lag);
        }
        if rust.version == FIRST && self.random.percent(30) {
            // A session whose stamp this version doesn't take.
            let all = rust.replica.storage().all();
            let long = all.iter().filter(|(_, stored)| stored.created_at.is_some_and(|at| at.is_long()));
            let keys: Vec<Key> = long.map(|(id, _)| key_of(id)).collect();
            if !keys.is_empty() {
                return wire::bind(self.handle(rust), self.epoch(rust), max_lag, &self.random.pick(&keys));
            }
        }
        let key = if self.random.percent(97) { self.random.pick(&self.keys) } else { key(&mut self.random) };
        wire::bind(self.handle(rust), self.epoch(rust), max_lag, &key)
    }

    /// A bound handle's session goes to another handle. Batches on both that follow on are to come, and half the time the way
    /// back.
    fn handover(&mut self, rust: &Rust, max_lag: u64) -> Vec<u8> {
        let (new, epoch) = (self.handle(rust), self.epoch(rust));
        let handles = rust.replica.handles();
        let holding: Vec<_> = handles.iter().filter(|handle| !handle.held.is_empty()).collect();
        let old = match (holding.is_empty(), handles.is_empty()) {
            (false, _) if self.random.percent(60) => self.random.below(holding.len() as u64) as usize,
            (_, false) => self.random.below(handles.len() as u64) as usize,
            _ => return wire::bind(new, epoch, max_lag, &self.random.pick(&self.keys)),
        };
        let old = if holding.is_empty() { &handles[old] } else { holding[old % holding.len()] };
        let key = key_of(&old.session);
        let batch = |handle: u32, commit_no: u64, part: u8, changes: Vec<Vec<u8>>| {
            wire::batch(&Batch { handle, epoch: rust.replica.epoch(), commit_no, part, changes, records: Vec::new() })
        };
        let part = if old.held.is_empty() { wire::COMMIT } else { wire::LAST_WHOLE };
        self.sending = vec![
            batch(old.number, old.commit_no.wrapping_add(1), part, Vec::new()),
            batch(new, 1, wire::WHOLE, vec![change::reset(), change::record(1, b"new")]),
        ];
        if self.random.percent(50) {
            let back = wire::bind(old.number, epoch, rust.replica.accepted_lag(), &key);
            self.sending.extend([
                back,
                batch(new, 2, wire::LAST_WHOLE, Vec::new()),
                batch(old.number, 1, wire::COMMIT, vec![change::in_flight(9)]),
            ]);
        }
        wire::bind(new, epoch, max_lag, &key)
    }

    fn checked(&mut self, rust: &Rust) -> Vec<u8> {
        let own = rust.replica.incarnation();
        let incarnation = if self.random.percent(80) { own } else { self.random.number() };
        wire::checked(self.handle(rust), self.epoch(rust), incarnation)
    }

    /// A batch for a bound handle that mostly follows on.
    fn batch(&mut self, rust: &Rust) -> Vec<u8> {
        let bound: Vec<u32> = rust.replica.handles().iter().map(|handle| handle.number).collect();
        let number = match bound.is_empty() || self.random.percent(3) {
            true if self.random.percent(70) => return self.bind(rust),
            true => self.handle(rust),
            false => self.random.pick(&bound),
        };
        let epoch = self.epoch(rust);
        let last = rust.replica.handle(number).map_or(0, |handle| handle.commit_no);
        let commit_no = match self.random.below(40) {
            0 => last,
            1 => last.wrapping_add(2),
            2 => self.random.number(),
            _ => last.wrapping_add(1),
        };
        let records = if self.random.percent(1) { vec![(7, b"app".to_vec())] } else { Vec::new() };
        let (part, changes) = self.changes(rust, number);
        wire::batch(&Batch { handle: number, epoch, commit_no, part, changes, records })
    }

    fn changes(&mut self, rust: &Rust, number: u32) -> (u8, Vec<Vec<u8>>) {
        let handle = rust.replica.handle(number);
        let holding = handle.as_ref().is_some_and(|handle| !handle.held.is_empty());
        let part = match self.random.below(20) {
            0..12 if holding => wire::WHOLE,
            12..18 if holding => wire::LAST_WHOLE,
            _ if holding => wire::COMMIT,
            0..14 => wire::COMMIT,
            14..18 => wire::WHOLE,
            _ => wire::LAST_WHOLE,
        };
        let stored = handle.and_then(|handle| rust.replica.storage().stored(&handle.session));
        let mut next = stored.map_or(1, |stored| stored.lock().expect("no panic under it").next_outgoing);
        if holding {
            next = 1 + self.random.below(4);
        }
        let count = self.random.below(5);
        let mut changes: Vec<_> = (0..count).map(|_| self.change(&mut next)).collect();
        if part != wire::COMMIT && !holding && self.random.percent(92) {
            changes.insert(0, change::reset());
            if self.random.percent(50) {
                changes.push(change::created_at(&suiting(&mut self.random, self.version)));
            }
            next = 1;
            changes.extend((0..self.random.below(3)).map(|_| self.change(&mut next)));
        }
        (part, changes)
    }

    fn change(&mut self, next: &mut u64) -> Vec<u8> {
        let random = &mut self.random;
        match random.below(24) {
            0..9 => {
                let seq = if random.percent(97) { *next } else { next.wrapping_add(random.below(3)).wrapping_sub(1) };
                *next = seq.wrapping_add(1);
                let length = random.pick(&[0, 1, 4, 8, 21, 45]);
                change::record(seq, &random.bytes(length))
            }
            9..12 => {
                let ahead = if random.percent(90) { random.below(4) } else { random.number() };
                let seq = next.saturating_add(ahead);
                *next = seq.wrapping_add(1);
                change::bare_record(seq)
            }
            12..14 => change::next_incoming(random.number()),
            14..16 => change::next_incoming_in_flight(random.number(), random.number()),
            16 => change::in_flight(random.number()),
            17 | 18 => change::created_at(&suiting(random, self.version)),
            19 | 20 => change::marks(&good_marks(random)),
            21 => {
                *next = 1;
                change::reset()
            }
            22 => any_change(random),
            _ => change::next_incoming(*next),
        }
    }

    /// A sending of a stored session, or its frames kept to be given to another handle, in parts.
    fn whole(&mut self, rust: &mut Rust) -> Call {
        let key = self.random.pick(&self.keys);
        let handle = self.handle(rust);
        let last = rust.replica.handle(handle).map_or(0, |handle| handle.commit_no);
        let epoch = rust.replica.epoch();
        if self.random.percent(50) {
            self.sending = match self.random.percent(50) {
                true => self.parts(rust, &key, handle, last),
                false => rust.whole(self.random.line(), (handle, epoch), last, &key, None).frames,
            };
            return Call::State;
        }
        let last = if self.random.percent(80) { last } else { self.random.number() };
        let length = if self.random.percent(80) { None } else { Some(self.random.below(200)) };
        Call::Whole { line: self.random.line(), handle, epoch, last, key, length }
    }

    /// A session's changes cut into batches at any place.
    fn parts(&mut self, rust: &mut Rust, key: &Key, handle: u32, last: u64) -> Vec<Vec<u8>> {
        let state = rust.state();
        let Some(session) = state.sessions.iter().find(|session| session.key == *key) else { return Vec::new() };
        let mut changes = vec![change::reset()];
        changes.extend(session.stamp.iter().map(|stamp| change::created_at(stamp)));
        let mut next = 1;
        for (seq, msg) in &session.messages {
            if *seq > next {
                changes.push(change::bare_record(seq - 1));
            }
            changes.push(change::record(*seq, msg));
            next = seq + 1;
        }
        if session.next_outgoing > next {
            changes.push(change::bare_record(session.next_outgoing - 1));
        }
        changes.push(match session.in_flight {
            Some(in_flight) => change::next_incoming_in_flight(session.next_incoming, in_flight),
            None => change::next_incoming(session.next_incoming),
        });
        changes.push(change::marks(&session.marks));
        self.cut(changes, handle, state.epoch, last)
    }

    fn cut(&mut self, mut changes: Vec<Vec<u8>>, handle: u32, epoch: u64, last: u64) -> Vec<Vec<u8>> {
        let mut frames = Vec::new();
        let mut commit_no = last;
        while !changes.is_empty() {
            let rest = changes.split_off((1 + self.random.below(4) as usize).min(changes.len()));
            let part = if rest.is_empty() { wire::LAST_WHOLE } else { wire::WHOLE };
            commit_no = commit_no.wrapping_add(1);
            frames.push(wire::batch(&Batch { handle, epoch, commit_no, part, changes, records: Vec::new() }));
            changes = rest;
        }
        frames
    }

    fn queue(&mut self) -> Call {
        let random = &mut self.random;
        let mut last = if random.percent(90) { random.below(5) } else { random.number() };
        let drained = if random.percent(60) { last } else { random.number() };
        let max_lag = if random.percent(60) { random.below(6) } else { random.number() };
        let count = if random.percent(10) { 70 } else { random.below(8) };
        let mut push = || {
            last = match random.below(12) {
                0 => random.number(),
                1..6 => last,
                _ => last.saturating_add(random.below(4)),
            };
            last
        };
        let lasts = (0..count).map(|_| push()).collect();
        Call::Queue { max_lag, drained, lasts }
    }

    fn counter(&mut self, rust: &Rust) -> Counter {
        let random = &mut self.random;
        let handles = rust.replica.handles();
        let holding = handles.iter().find(|handle| !handle.held.is_empty());
        match (random.below(8), handles.first(), holding) {
            (0..4, _, Some(holding)) => {
                let sums = [4_294_967_290, 4_294_967_296, 4_294_967_297, u64::MAX - 1, u64::MAX];
                Counter::Bytes(holding.number, random.pick(&sums))
            }
            (0..6, Some(handle), _) => {
                Counter::Commit(handle.number, random.pick(&[u64::MAX - 2, u64::MAX - 1, u64::MAX]))
            }
            (6, ..) => Counter::Connections(random.pick(&[u64::MAX - 1, u64::MAX])),
            _ => Counter::Epoch(if random.percent(80) { random.below(9) } else { random.number() }),
        }
    }
}

/// A row that breaks one rule alone: two used records name one place, have one handle, or both. Beside it the place of a
/// record without which it keeps the rules.
#[cfg(calls)]
pub fn broken_row(random: &mut Random, row: &[Place], in_use: u64) -> Option<(Vec<Place>, usize)> {
    let (len, mut row) = (row.len() as u64, row.to_vec());
    if len < 2 || in_use == 0 {
        return None;
    }
    let first = random.below(len) as usize;
    let second = (first + 1 + random.below(len - 1) as usize) % len as usize;
    let low = random.below(300) as u32;
    let other = low + random.pick(&[1, 2, 255, 256, 512, 1 << 16, 1 << 31]);
    let (handles, places) = match random.below(5) {
        0 | 1 => ([low, other], [random.below(in_use); 2]),
        2 | 3 if in_use > 1 => {
            let place = random.below(in_use);
            ([random.pick(&[low, other]); 2], [place, (place + 1 + random.below(in_use - 1)) % in_use])
        }
        _ => ([other; 2], [random.below(in_use); 2]),
    };
    for record in &mut row {
        if handles.contains(&record.handle) || places.contains(&record.place) {
            record.used = 0;
        }
    }
    for (at, (handle, place)) in [first, second].into_iter().zip(handles.into_iter().zip(places)) {
        let used = random.pick(&[1, 1, 2, 255]);
        row[at] = Place { used, handle, place, commit_no: random.below(3), held_len: 0, held_bytes: random.below(2) };
    }
    Some((row, random.pick(&[first, second])))
}

/// A request for resend ranges of a stored session, now and then of none: mostly ranges near its numbers, with an area
/// of about as many entries as the list has.
pub fn resend(random: &mut Random, rust: &mut Rust) -> Call {
    let sessions = rust.state().sessions;
    let Some(session) = (!sessions.is_empty()).then(|| random.pick(&sessions)) else {
        return Call::Resend { entries: 0, key: key(random), ranges: Vec::new() };
    };
    let count = if random.percent(8) { 62 + random.below(4) } else { random.below(6) };
    let ranges: Vec<Range> = (0..count).map(|_| range(random, session.next_outgoing)).collect();
    let length = ranges::listed(&session, &ranges, u64::MAX).map_or(0, |listed| listed.messages.len() as u64);
    let entries = match random.below(4) {
        0 => length.saturating_sub(1),
        1 => length + random.below(3),
        2 => random.below(70),
        _ => length,
    };
    let key = if random.percent(97) { session.key } else { key(random) };
    Call::Resend { entries, key, ranges }
}

fn range(random: &mut Random, next: u64) -> Range {
    let first = match random.below(60) {
        0 => random.number(),
        1 => next,
        _ => 1 + random.below(next.saturating_sub(1).clamp(1, 40)),
    };
    let last = match random.below(40) {
        0 => random.number(),
        1 => first.saturating_sub(1),
        2..12 => 0,
        12..20 => first,
        _ => first.saturating_add(random.below(6)),
    };
    (first, last)
}
