//! Both sides on the same inputs, timed in turns in one run: a table of ratios.

use std::hint::black_box;
use std::process::ExitCode;

use turbojet::SessionId;
use turbojet::store::SessionStorage;
use turbojet_replica::frame::Frame;
use turbojet_replica::{active, branch};

use crate::call::{Key, Line, Setting, hold_for_any};
use crate::differences::{FIRST, LATEST, reading};
use crate::library::{self, SENDING, line_word, outcome};
use crate::ours::Ours;
use crate::rust::Rust;
use crate::side::Side;
use crate::wire::{self, Batch, change};

const ROUNDS: usize = 7;

/// Nanoseconds a turn: the least of the rounds.
struct Row {
    name: String,
    ours: f64,
    rust: f64,
}

/// A moment, as C has it.
#[repr(C)]
#[derive(Default)]
struct Moment {
    seconds: i64,
    nanoseconds: i64,
}

unsafe extern "C" {
    fn clock_gettime(clock: i32, moment: *mut Moment) -> i32;
}

/// The processor's time of this thread: other work on the machine doesn't count, but for what it takes of the caches.
fn now() -> f64 {
    const THREAD: i32 = 3;
    let mut moment = Moment::default();
    assert_eq!(unsafe { clock_gettime(THREAD, &raw mut moment) }, 0, "Linux has this clock");
    moment.seconds as f64 * 1e9 + moment.nanoseconds as f64
}

fn nanoseconds(turns: u64, turn: &mut impl FnMut()) -> f64 {
    let start = now();
    (0..turns).for_each(|_| turn());
    (now() - start) / turns as f64
}

/// The sides in turns, each as often.
fn timed(name: impl Into<String>, turns: u64, mut ours: impl FnMut(), mut rust: impl FnMut()) -> Row {
    let mut row = Row { name: name.into(), ours: f64::MAX, rust: f64::MAX };
    for _ in 0..ROUNDS {
        row.ours = row.ours.min(nanoseconds(turns, &mut ours));
        row.rust = row.rust.min(nanoseconds(turns, &mut rust));
    }
    row
}

fn key(number: usize) -> Key {
    [b"FIX.4.4".to_vec(), b"A".to_vec(), format!("B{number}").into_bytes(), Vec::new()]
}

fn setting(sessions: u64, bytes: u64, messages: u64, lag: u64) -> Setting {
    let hold = hold_for_any(bytes, messages);
    Setting { incarnation: 1, lag, bytes, messages, sessions, handles: sessions, hold }
}

/// A Commit of one message, whose handle, commit number and message number are set before each use.
struct Commit(Vec<u8>);

impl Commit {
    fn new(length: usize) -> Self {
        let message: Vec<u8> = (0..length).map(|at| b' ' + (at % 90) as u8).collect();
        let changes = vec![change::record(1, &message)];
        Self(wire::batch(&Batch { handle: 0, epoch: 0, commit_no: 1, part: wire::COMMIT, changes, records: vec![] }))
    }

    fn of(&mut self, handle: u32, number: u64) -> &[u8] {
        self.0[5..9].copy_from_slice(&handle.to_le_bytes());
        self.0[17..25].copy_from_slice(&number.to_le_bytes());
        self.0[31..39].copy_from_slice(&number.to_le_bytes());
        &self.0
    }
}

/// Reads a frame, takes it and writes the answer, as a standby's caller does.
fn by_rust(rust: &mut Rust, frame: &[u8], out: &mut Vec<u8>) {
    let (frame, _) = Frame::decode(frame).expect("a good frame").expect("a whole frame");
    let answer = rust.replica.on_frame(frame).expect("taken").expect("answered");
    out.clear();
    answer.encode(out);
}

fn by_us(us: &mut Ours, frame: &[u8]) {
    assert!(outcome(us.ask(frame)).is_ok(), "a frame is taken");
}

/// Two standbys with their sessions bound to handles.
struct Pair {
    us: Ours,
    rust: Rust,
    out: Vec<u8>,
    handles: Vec<u32>,
}

impl Pair {
    /// Handles 0, 1 ...
    fn new(setting: &Setting) -> Self {
        Self::bound(setting, |number| number as u32)
    }

    fn bound(setting: &Setting, handle: impl Fn(u64) -> u32) -> Self {
        let mut us = Ours::lending(setting, setting.named_ends()).expect("made");
        us.tells(false);
        let rust = Rust::make(setting).expect("made");
        let handles: Vec<u32> = (0..setting.sessions).map(handle).collect();
        let binds: Vec<_> =
            (0..).zip(&handles).map(|(number, handle)| wire::bind(*handle, 0, 0, &key(number))).collect();
        let mut pair = Self { us, rust, out: Vec::new(), handles };
        binds.iter().for_each(|bind| pair.both(bind));
        pair
    }

    /// With Commits that tell the lowest message on hand, which the Rust doesn't.
    fn telling(mut self) -> Self {
        self.us.tells(true);
        self
    }

    fn both(&mut self, frame: &[u8]) {
        by_us(&mut self.us, frame);
        by_rust(&mut self.rust, frame, &mut self.out);
        assert_eq!(self.us.answered(self.out.len()), self.out, "the sides answer alike");
    }

    /// Commits of one message to every session in turn, timed; each has `before` of them first.
    fn commits(mut self, name: String, sessions: u32, length: usize, before: u64, turns: u64) -> Row {
        let (mut ours, mut theirs) = (Commit::new(length), Commit::new(length));
        for number in 1..=before {
            (0..sessions as usize).for_each(|at| self.both(ours.of(self.handles[at], number)));
        }
        let Self { mut us, mut rust, mut out, handles } = self;
        let next = |count: &mut u64| {
            let (at, number) = (*count % u64::from(sessions), before + 1 + *count / u64::from(sessions));
            *count += 1;
            (handles[at as usize], number)
        };
        let (mut given, mut taken) = (0, 0);
        timed(
            name,
            turns,
            || {
                let (handle, number) = next(&mut given);
                by_us(&mut us, ours.of(handle, number));
            },
            || {
                let (handle, number) = next(&mut taken);
                by_rust(&mut rust, theirs.of(handle, number), &mut out);
            },
        )
    }
}

fn decoding(name: &str, frame: Vec<u8>) -> Row {
    decoding_in(FIRST, name, frame)
}

fn decoding_in(version: u16, name: &str, frame: Vec<u8>) -> Row {
    reading(version).expect("a version");
    let frame = black_box(frame);
    timed(
        name,
        1_000_000,
        || assert!(outcome(library::read(black_box(&frame), black_box(version))).is_ok()),
        || assert!(black_box(Frame::decode(black_box(&frame))).is_ok()),
    )
}

/// A Commit of 200 bytes: a frame's head, the change's and the count of records are 47 of them.
fn small_commit() -> Vec<u8> {
    let commit = Commit::new(153);
    assert_eq!(commit.0.len(), 200);
    commit.0
}

fn encoding() -> Row {
    let mut pair = Pair::new(&setting(1, 4096, 64, 64));
    let changes = vec![change::created_at(b"20261115-12:00:00.000"), change::marks(b"AB"), change::next_incoming(9)];
    pair.both(&wire::batch(&Batch { handle: 0, epoch: 0, commit_no: 1, part: wire::COMMIT, changes, records: vec![] }));
    let bind = wire::bind(0, 0, 0, &key(0));
    let said = pair.us.said_to(&bind);
    let (frame, _) = Frame::decode(&bind).expect("a good frame").expect("a whole frame");
    let answer = pair.rust.replica.on_frame(frame).expect("taken").expect("answered");
    let Pair { mut us, mut out, .. } = pair;
    timed(
        "encode of a Bound",
        1_000_000,
        || assert!(outcome(us.write(black_box(&said))).is_ok()),
        || {
            out.clear();
            black_box(&answer).encode(&mut out);
            black_box(&out);
        },
    )
}

fn binding() -> Row {
    let mut pair = Pair::new(&setting(1, 1 << 20, 1024, 64));
    let mut commit = Commit::new(200);
    (1..=1024).for_each(|number| pair.both(commit.of(0, number)));
    let bind = wire::bind(0, 0, 64, &key(0));
    pair.both(&bind);
    let Pair { mut us, mut rust, mut out, .. } = pair;
    timed("Bind with lag 64, messages of 200", 10_000, || by_us(&mut us, &bind), || by_rust(&mut rust, &bind, &mut out))
}

const STAMPS: [(u16, &[u8]); 2] =
    [(FIRST, b"20261115-12:00:00.123"), (LATEST, b"20261115-12:00:00.123456789012")];

fn stamped(stamp: &[u8]) -> Vec<u8> {
    let changes = vec![change::created_at(stamp)];
    wire::batch(&Batch { handle: 0, epoch: 0, commit_no: 1, part: wire::COMMIT, changes, records: vec![] })
}

/// Binds of a session that has a stamp, in a version that takes it. The Rust needs no Hello.
fn binding_stamped(version: u16, stamp: &[u8]) -> Row {
    let mut pair = Pair::new(&setting(1, 4096, 64, 64));
    by_us(&mut pair.us, &wire::hello(version, 0, b"active", &[]));
    reading(version).expect("a version");
    let bind = wire::bind(0, 0, 0, &key(0));
    [&bind, &stamped(stamp), &bind].into_iter().for_each(|frame| pair.both(frame));
    let Pair { mut us, mut rust, mut out, .. } = pair;
    let name = format!("Bind with a stamp of {} bytes", stamp.len());
    timed(name, 100_000, || by_us(&mut us, &bind), || by_rust(&mut rust, &bind, &mut out))
}

/// Binds of one session among 50 that are bound: of its own handle, or of two handles that take it from each other. The Rust
/// keeps both.
fn rebinding(name: &str, handles: [u32; 2]) -> Row {
    let mut pair = Pair::new(&setting(50, 4096, 64, 64));
    let mut commit = Commit::new(200);
    (0..50).for_each(|handle| pair.both(commit.of(handle, 1)));
    let binds = handles.map(|handle| wire::bind(handle, 0, 0, &key(25)));
    binds.iter().for_each(|bind| pair.both(bind));
    let Pair { mut us, mut rust, mut out, .. } = pair;
    let (mut given, mut taken) = (0, 0);
    let next = |count: &mut usize| {
        *count += 1;
        &binds[*count % 2]
    };
    timed(name, 100_000, || by_us(&mut us, next(&mut given)), || by_rust(&mut rust, next(&mut taken), &mut out))
}

/// What a session sent whole took: the sending with the taking, the sending, the taking, and the taking by a standby that is lent no
/// words; how many bytes and frames went.
struct Sent {
    rows: [Row; 4],
    bytes: usize,
    frames: usize,
}

/// The time that frames take, each of which has just come into the area, as from a socket.
fn taking(frames: &[Vec<u8>], area: &mut [u8], mut take: impl FnMut(&[u8])) -> f64 {
    let mut sum = 0.0;
    for frame in frames {
        let area = &mut area[..frame.len()];
        area.copy_from_slice(frame);
        sum += nanoseconds(1, &mut || take(area));
    }
    sum
}

/// A session of so many messages of these lengths in turn, sent whole on a line and taken by standbys.
fn sending(line: Line, lengths: std::ops::RangeInclusive<usize>, messages: u64) -> Sent {
    let setting = setting(1, 33_554_432, 65_536, 0);
    let mut pair = Pair::new(&setting);
    let mut commits: Vec<Commit> = lengths.clone().map(Commit::new).collect();
    let turns = commits.len() as u64;
    // By steps of 37, so that lengths that follow each other differ.
    (1..=messages).for_each(|number| pair.both(commits[(number * 37 % turns) as usize].of(0, number)));
    let Pair { mut us, rust: mut theirs, .. } = pair;
    let of =
        if turns == 1 { format!("{}", lengths.start()) } else { format!("{} to {}", lengths.start(), lengths.end()) };
    let Pair { us: mut our_standby, rust: mut their_standby, mut out, .. } = Pair::new(&setting);
    let mut wordless = Ours::lending(&setting, 0).expect("made");
    let [begin, sender, target, _] = key(0).map(|text| String::from_utf8(text).expect("ASCII"));
    let id = SessionId::from_key(begin, sender, target, "").expect("a key");
    let bind = wire::bind(0, 0, 0, &key(0));
    let (mut area, mut frame) = (vec![0; 2 << 20], Vec::new());
    let on = if line == Line::Branch { ", on the branch line" } else { "" };
    let row = |what| Row { name: format!("{messages} messages of {of}{on}{what}"), ours: f64::MAX, rust: f64::MAX };
    let names = ["sent whole into a standby", "the sending alone", "the taking alone", "the taking alone, no words lent"];
    let [mut both, mut sent, mut taken, mut without] = names.map(|what| row(format!(": {what}")));
    let (mut bytes, mut frames) = (0, 0);
    for round in 0..ROUNDS {
        let (mut sending, mut sends, mut made) = ([0; SENDING], 0.0, Vec::new());
        sending[SENDING - 1] = line_word(line);
        loop {
            let mut len = None;
            sends += nanoseconds(1, &mut || len = us.next_frame(&mut sending, &mut area));
            let Some(len) = len else { break };
            made.push(area[..len].to_vec());
        }
        (bytes, frames) = (made.iter().map(Vec::len).sum(), made.len());
        let (mut batches, mut their_sends) = (Vec::new(), 0.0);
        their_sends += nanoseconds(1, &mut || {
            let mut log = theirs.replica.storage().open(&id).expect("stored");
            batches = match line {
                Line::HeadOffice => active::reach::whole(log.as_mut(), 0, 0, 0),
                Line::Branch => branch::reach::whole(log.as_mut(), 0, 0, 0),
            };
        });
        assert_eq!(batches.len(), frames, "both send as many frames");
        for (batch, ours) in batches.into_iter().zip(&made) {
            let batch = Frame::Batch(batch);
            their_sends += nanoseconds(1, &mut || {
                frame.clear();
                batch.encode(&mut frame);
            });
            assert_eq!(*ours, frame, "both send the same");
        }
        by_us(&mut our_standby, &bind);
        let takes = taking(&made, &mut area, |frame| by_us(&mut our_standby, frame));
        by_rust(&mut their_standby, &bind, &mut out);
        let their_takes = taking(&made, &mut area, |frame| by_rust(&mut their_standby, frame, &mut out));
        // On the branch line it takes long without words.
        if line == Line::HeadOffice || round == 0 {
            by_us(&mut wordless, &bind);
            least(&mut without.ours, taking(&made, &mut area, |frame| by_us(&mut wordless, frame)));
            least(&mut without.rust, their_takes);
        }
        for (row, ours, rust) in [(&mut sent, sends, their_sends), (&mut taken, takes, their_takes)] {
            least(&mut row.ours, ours);
            least(&mut row.rust, rust);
        }
        least(&mut both.ours, sends + takes);
        least(&mut both.rust, their_sends + their_takes);
    }
    assert_eq!(our_standby.state().sessions, their_standby.state().sessions, "both have the session");
    assert_eq!(us.state().sessions, theirs.state().sessions, "both sent the same");
    assert_eq!(our_standby.state().sessions, wordless.state().sessions, "without words too");
    Sent { rows: [both, sent, taken, without], bytes, frames }
}

fn least(least: &mut f64, value: f64) {
    *least = least.min(value);
}

/// FNV-1a as standby.rs has it.
fn fnv(bytes: &[u8]) -> u64 {
    bytes.iter().fold(0xcbf2_9ce4_8422_2325, |hash, byte| (hash ^ u64::from(*byte)).wrapping_mul(0x0100_0000_01b3))
}

fn hashing() -> Row {
    let bytes: Vec<u8> = (0..1_u32 << 20).map(|at| (at * 7) as u8).collect();
    assert_eq!(fnv(&bytes), library::fnv(&bytes));
    let mut row = timed(
        "FNV-1a, a byte",
        20,
        || assert_ne!(library::fnv(black_box(&bytes)), 0),
        || assert_ne!(fnv(black_box(&bytes)), 0),
    );
    row.ours /= bytes.len() as f64;
    row.rust /= bytes.len() as f64;
    row
}

fn copying(length: usize) -> f64 {
    let from = vec![7_u8; length];
    let mut to = vec![0_u8; length];
    let mut copy = || black_box(&mut to).copy_from_slice(black_box(&from));
    (0..ROUNDS).map(|_| nanoseconds(1, &mut copy)).fold(f64::MAX, f64::min)
}

fn print(row: &Row) {
    println!("| {} | {:.1} | {:.1} | {:.2} |", row.name, row.ours, row.rust, row.ours / row.rust);
}

pub fn bench() -> ExitCode {
    println!("| | ours, ns | the Rust, ns | ours / Rust |\n|---|---|---|---|");
    calls();
    sendings();
    ExitCode::SUCCESS
}

fn calls() {
    print(&decoding("decode of a 200-byte Commit", small_commit()));
    print(&decoding("decode of a Bind", wire::bind(0, 0, 64, &key(0))));
    print(&encoding());
    for (c, m, sessions) in
        [(4096, 64, 1), (4096, 64, 4), (4096, 64, 50), (4096, 64, 256), (1 << 20, 1024, 1), (1 << 20, 1024, 50)]
    {
        let pair = Pair::new(&setting(sessions, c, m, 0));
        let name = format!("on_frame: Commit of one message of 200, C = {c}, M = {m}, sessions bound {sessions}");
        print(&pair.commits(name, sessions as u32, 200, m + 10, 100_000));
    }
    // An active that counts its handles on, as the Rust's does, comes to numbers that share their low 8 bits.
    let counted = |number: u64| (number * number * 37 + number) as u32;
    for sessions in [4, 50] {
        let pair = Pair::bound(&setting(sessions, 4096, 64, 0), counted);
        let name = format!("the same, C = 4096, M = 64, sessions bound {sessions}, handles that share low bits");
        print(&pair.commits(name, sessions as u32, 200, 74, 100_000));
    }
    print(&binding());
    print(&rebinding("Bind of its own handle again, sessions bound 50", [25, 25]));
    print(&rebinding("Bind of another handle, which takes the session, sessions bound 50", [1000, 25]));
    for messages in [64, 65_536] {
        let pair = Pair::new(&setting(1, 33_554_432, messages, 0));
        let name = format!("on_frame: Commit of one message of 300, C = 32 MiB, M = {messages}, full");
        print(&pair.commits(name, 1, 300, messages + 10, 100_000));
    }
    for messages in [64, 1_024, 65_536] {
        let pair = Pair::new(&setting(1, 33_554_432, messages, 0)).telling();
        let name = format!("the same, telling the lowest message on hand, M = {messages}, full");
        print(&pair.commits(name, 1, 300, messages + 10, 20_000));
    }
    print(&hashing());
    for (version, stamp) in STAMPS {
        let name = format!("decode of a Commit with a stamp of {} bytes", stamp.len());
        print(&decoding_in(version, &name, stamped(stamp)));
        print(&binding_stamped(version, stamp));
    }
}

pub fn sendings() {
    reading(FIRST).expect("a version");
    let head_office = [300..=300, 512..=512, 200..=399].map(|lengths| (Line::HeadOffice, lengths));
    let branch = [300..=300, 512..=512, 200..=399].map(|lengths| (Line::Branch, lengths));
    for (line, lengths) in head_office.into_iter().chain(branch) {
        let Sent { rows, bytes: sent, frames } = sending(line, lengths.clone(), 65_536);
        rows.iter().for_each(print);
        let [both, alone, taken, _] = &rows;
        let (name, frames) = (format!("the sending alone, a frame of {frames}"), frames as f64);
        print(&Row { name, ours: alone.ours / frames, rust: alone.rust / frames });
        let copy = copying(sent);
        let (ours, rust) = (both.ours / copy, both.rust / copy);
        println!(
            "| one memcpy of its {sent} bytes: ours is {ours:.1} of them, the Rust's {rust:.1} | {copy:.1} | {copy:.1} | |"
        );
        let [_, _, half, _] = sending(line, lengths, 32_768).rows;
        let (ours, rust) = (taken.ours / half.ours, taken.rust / half.rust);
        println!("| the taking alone of 65,536 beside 32,768, times as long | {ours:.2} | {rust:.2} | |");
    }
}
