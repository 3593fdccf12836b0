//! The fixed lists under recorded/: inputs, and what the Rust answers to them.

use std::fs;
use std::io;
use std::path::Path;

use crate::call::{Call, Counter, Key, LINES, Line, hold_for_any};
use crate::differences::{self, FIRST, LATEST};
use crate::digits;
use crate::frames::{program, read_by_rust};
use crate::generate::{Player, Random, any_frame, damaged, setting};
use crate::rust::Rust;
use crate::side::{Side, answer, run};
use crate::wire::{self, Batch, Body, COMMIT, LAST_WHOLE, WHOLE, change, framed};

/// A script that grows a line a call.
struct Script(String);

pub fn key(target: &str) -> Key {
    [b"FIX.4.4".to_vec(), b"A".to_vec(), target.into(), Vec::new()]
}

impl Script {
    fn new(setting: &str) -> Self {
        Self(format!("{setting}\n"))
    }

    fn line(mut self, line: &str) -> Self {
        self.0 += line;
        self.0.push('\n');
        self
    }

    fn note(self, words: &str) -> Self {
        self.line(&format!("# {words}"))
    }

    fn call(self, call: &Call) -> Self {
        self.line(&call.to_string())
    }

    fn held(self, frame: Vec<u8>) -> Self {
        self.call(&Call::Held(frame))
    }

    fn frame(self, frame: Vec<u8>) -> Self {
        self.call(&Call::Frame(frame))
    }

    fn state(self) -> Self {
        self.call(&Call::State)
    }

    fn flush(self, connection: u64) -> Self {
        self.call(&Call::Flush(connection))
    }

    fn line_drop(self, connection: u64) -> Self {
        self.call(&Call::Drop(connection))
    }

    fn set(self, counter: Counter) -> Self {
        self.call(&Call::Set(counter))
    }

    fn summary(self, n: u64, key: Key) -> Self {
        self.call(&Call::Summary { n, key })
    }

    fn whole(self, last: u64, key: Key, length: Option<u64>) -> Self {
        self.sent(Line::HeadOffice, last, key, length)
    }

    fn branch(self, last: u64, key: Key, length: Option<u64>) -> Self {
        self.sent(Line::Branch, last, key, length)
    }

    fn sent(self, line: Line, last: u64, key: Key, length: Option<u64>) -> Self {
        self.call(&Call::Whole { line, handle: 3, epoch: 5, last, key, length })
    }

    fn queue(self, max_lag: u64, drained: u64, lasts: &[u64]) -> Self {
        self.call(&Call::Queue { max_lag, drained, lasts: lasts.to_vec() })
    }

    fn all<T>(self, items: impl IntoIterator<Item = T>, add: impl FnMut(Self, T) -> Self) -> Self {
        items.into_iter().fold(self, add)
    }
}

fn batch(part: u8, handle: u32, epoch: u64, commit_no: u64, changes: &[Vec<u8>]) -> Vec<u8> {
    wire::batch(&Batch { handle, epoch, commit_no, part, changes: changes.to_vec(), records: Vec::new() })
}

fn commit(handle: u32, epoch: u64, commit_no: u64, changes: &[Vec<u8>]) -> Vec<u8> {
    batch(COMMIT, handle, epoch, commit_no, changes)
}

fn hello(epoch: u64) -> Vec<u8> {
    hello_in(FIRST, epoch)
}

fn hello_in(version: u16, epoch: u64) -> Vec<u8> {
    wire::hello(version, epoch, b"a", &[])
}

const STAMP: &[u8] = b"20261115-12:00:00";
const LONG_STAMP: &[u8] = b"20261231-23:59:60.999";
/// The longest stamp of version 2.
const LONGEST_STAMP: &[u8] = b"20261231-23:59:60.999999999999";

fn records(numbers: std::ops::RangeInclusive<u64>, msg: &[u8]) -> Vec<Vec<u8>> {
    numbers.map(|seq| change::record(seq, msg)).collect()
}

fn example() -> Script {
    Script::new("7 3 40 4 2 3")
        .frame(hello(5))
        .frame(wire::bind(9, 5, 2, &key("B")))
        .state()
        .queue(2, 0, &[1, 2, 3])
        .line("P")
}

fn life() -> Script {
    let every = [
        change::created_at(STAMP),
        change::record(1, b"one"),
        change::record(2, b""),
        change::bare_record(4),
        change::next_incoming(6),
        change::in_flight(5),
        change::marks(b"m1"),
    ];
    let parts: [&[Vec<u8>]; 3] = [
        &[change::reset(), change::created_at(LONG_STAMP), change::bare_record(2), change::record(3, b"three")],
        &[change::record(4, b"four"), change::bare_record(8)],
        &[change::next_incoming_in_flight(7, 6), change::marks(b"whole")],
    ];
    Script::new("7 3 400 8 2 3")
        .note("an active connects, binds and commits every kind of change")
        .frame(hello(5))
        .frame(wire::bind(1, 5, 3, &key("B")))
        .frame(commit(1, 5, 1, &every))
        .state()
        .frame(commit(1, 5, 2, &[change::record(5, b"five"), change::next_incoming(9)]))
        .summary(3, key("B"))
        .note("the session is sent whole, in three parts; nothing shows before the last")
        .frame(batch(WHOLE, 1, 5, 3, parts[0]))
        .state()
        .held(batch(WHOLE, 1, 5, 4, parts[1]))
        .state()
        .held(batch(LAST_WHOLE, 1, 5, 5, parts[2]))
        .state()
        .note("batches go on from there")
        .frame(commit(1, 5, 6, &[change::record(9, b"nine")]))
        .call(&Call::Whole { line: Line::HeadOffice, handle: 1, epoch: 5, last: 6, key: key("B"), length: None })
        .note("checked, then it takes over, and takes nothing more")
        .line("P")
        .frame(wire::checked(1, 5, 7))
        .line("P")
        .state()
        .frame(hello(6))
        .frame(commit(1, 5, 7, &[]))
        .flush(1)
        .line_drop(1)
        .line("P")
        .state()
}

fn refusals() -> Script {
    let bound = |script: Script| script.frame(hello(5)).frame(wire::bind(1, 5, 0, &key("B")));
    let app =
        Batch { handle: 1, epoch: 6, commit_no: 1, part: COMMIT, changes: vec![], records: vec![(1, b"x".to_vec())] };
    let script = Script::new("7 0 40 4 2 1 30").note("the reader's numbers, and 26");
    let script = script
        .frame(vec![1, 0, 0, 4])
        .frame(framed(&[]))
        .frame(framed(&[9]))
        .frame(wire::hello(1, 5, b"\xed\xa0\x80", &[]))
        .frame(wire::bind(1, 5, 0, &key("")))
        .frame(commit(1, 5, 1, &[change::created_at(b"20261115-24:00:00")]))
        .frame(commit(1, 5, 1, &[change::marks(b"\x7f")]))
        .frame(Vec::new())
        .frame([hello(5), hello(5)].concat())
        .frame(hello(5)[..20].to_vec());
    bound(script.note("11, 12, 14, then bound").frame(wire::hello(3, 5, b"a", &[])).frame(wire::hello(
        1,
        5,
        b"a",
        &[3],
    )))
    .frame(commit(2, 5, 1, &[]))
    .note("13 doesn't raise the epoch, 14 does")
    .frame(wire::batch(&app))
    .state()
    .frame(commit(2, 6, 1, &[]))
    .state()
    .note("16, 18, and 15 while changes are held")
    .frame(batch(WHOLE, 1, 6, 1, &[change::next_incoming(1)]))
    .frame(batch(LAST_WHOLE, 1, 6, 1, &[]))
    .frame(batch(WHOLE, 1, 6, 1, &[change::reset(), change::record(1, &[7; 17])]))
    .state()
    .frame(batch(WHOLE, 1, 7, 1, &[change::reset(), change::record(1, &[7; 16])]))
    .state()
    .frame(commit(1, 7, 2, &[]))
    .frame(batch(WHOLE, 1, 7, 2, &[change::reset()]))
    .note("17 keeps the byte sum raised, and comes before 18")
    .set(Counter::Bytes(1, 4_294_967_296))
    .frame(batch(LAST_WHOLE, 1, 7, 2, &[change::record(2, b"x")]))
    .state()
    .frame(batch(WHOLE, 1, 8, 2, &[]))
    .state()
    .note("19; 21 where the only place is another session's, and opens none; 20 before 21; 22, 23")
    .frame(wire::welcome(5, 7))
    .frame(wire::ack(1, 1))
    .frame(wire::nack(1, 1))
    .frame(wire::bound(1, [1, 1, 0], b"", b"", 0))
    .frame(wire::bind(2, 8, 0, &key("C")))
    .state()
    .frame(wire::bind(2, 8, 0, &key("B")))
    .frame(wire::bind(2, 8, 0, &key("C")))
    .frame(wire::bind(2, 8, 0, &key("D")))
    .frame(wire::bind(1, 8, 0, &key("D")))
    .frame(wire::bind(1, 8, 0, &key("B")))
    .state()
    .flush(0)
    .flush(1)
    .line("P")
    .note("24, 9, 25")
    .whole(u64::MAX, key("B"), None)
    .whole(u64::MAX - 1, key("B"), None)
    .whole(0, key("B"), Some(48))
    .whole(0, key("B"), Some(49))
    .whole(0, key("D"), None)
    .summary(1, key("D"))
    .note("10 and 22 after promotion; a faulty frame keeps its own number")
    .line("U")
    .frame(hello(9))
    .frame(commit(1, 9, 1, &[]))
    .frame(wire::ack(1, 1))
    .frame(framed(&[9]))
    .frame(vec![0])
    .flush(1)
    .line("P")
}

fn nacks() -> Script {
    Script::new("7 3 100 8 2 2")
        .frame(hello(5))
        .note("StaleEpoch and Lag of a Bind, in this order; a Bind doesn't raise the epoch")
        .frame(wire::bind(1, 4, 9, &key("B")))
        .frame(wire::bind(1, 5, 4, &key("B")))
        .frame(wire::bind(1, 9, 3, &key("B")))
        .state()
        .note("StaleEpoch of a Batch comes before its number, and before 14")
        .frame(commit(1, 4, 9, &[]))
        .frame(commit(2, 4, 1, &[]))
        .note("Diverged: the number before, after, and again after that")
        .frame(commit(1, 5, 0, &[]))
        .frame(commit(1, 5, 2, &[]))
        .frame(commit(1, 5, 1, &[change::record(1, b"a"), change::record(2, b"b")]))
        .note("Diverged: an outgoing number below next, a message off next; nothing is applied")
        .frame(commit(1, 5, 2, &[change::next_incoming(8), change::bare_record(2)]))
        .frame(commit(1, 5, 2, &[change::next_incoming(8), change::record(4, b"d")]))
        .frame(commit(1, 6, 2, &[change::reset(), change::record(2, b"b")]))
        .state()
        .note("a bare Record may skip, a Reset starts again at 1")
        .frame(commit(
            1,
            6,
            2,
            &[change::bare_record(7), change::record(8, b"h"), change::reset(), change::record(1, b"")],
        ))
        .state()
        .note("a wrong number clears what is held; the commit number stays")
        .frame(batch(WHOLE, 1, 6, 3, &[change::reset(), change::record(1, b"w")]))
        .state()
        .frame(batch(WHOLE, 1, 6, 3, &[change::record(2, b"x")]))
        .state()
        .note("a LastWhole that doesn't follow on drops what was held")
        .frame(batch(WHOLE, 1, 6, 4, &[change::reset(), change::record(1, b"w")]))
        .frame(batch(LAST_WHOLE, 1, 6, 5, &[change::record(3, b"x")]))
        .state()
        .frame(batch(LAST_WHOLE, 1, 6, 5, &[change::reset(), change::record(1, b"y")]))
        .state()
        .note("Checked: StaleEpoch, Restarted, then taken on a handle that isn't bound")
        .frame(wire::checked(9, 5, 7))
        .frame(wire::checked(9, 6, 8))
        .frame(wire::checked(9, 8, 7))
        .state()
        .note("a Hello of a lower epoch is told the standby's, and changes nothing")
        .frame(hello(7))
        .state()
}

fn handles() -> Script {
    let part = |script: Script, (part, handle, number, msg): (u8, u32, u64, &[u8])| {
        let first = number == 1 && part == WHOLE;
        let changes = if first { vec![change::reset(), change::record(1, msg)] } else { vec![change::record(2, msg)] };
        script.held(batch(part, handle, 1, number, &changes)).state()
    };
    Script::new("7 1 100 8 2 3")
        .note("two handles, each on a session, whole sendings interleaved")
        .frame(hello(1))
        .frame(wire::bind(2, 1, 1, &key("B")))
        .frame(wire::bind(7, 1, 1, &key("C")))
        .state()
        .all([(WHOLE, 2, 1, &b"p"[..]), (WHOLE, 7, 1, b"q"), (LAST_WHOLE, 7, 2, b"r"), (LAST_WHOLE, 2, 2, b"s")], part)
        .note("a session has one handle: a Bind of another takes it, and a Batch on the first is 14")
        .held(wire::bind(1, 1, 1, &key("B")))
        .state()
        .held(commit(2, 1, 3, &[change::record(3, b"t")]))
        .held(commit(1, 1, 1, &[change::record(2, b"t")]))
        .held(commit(1, 1, 1, &[change::record(3, b"t")]))
        .state()
        .note("a Bind on a used handle starts it anew, on the other session too, whose handle goes; the first has none then")
        .held(batch(WHOLE, 1, 1, 2, &[change::reset()]))
        .held(wire::bind(1, 1, 1, &key("C")))
        .state()
        .held(commit(7, 1, 3, &[change::record(3, b"u")]))
        .held(commit(1, 1, 1, &[change::record(3, b"u")]))
        .frame(wire::bind(8, 1, 1, &key("B")))
        .state()
}

fn pending() -> Script {
    let bind = |script: Script, handle: u32| script.held(wire::bind(handle, 1, 0, &key(&format!("T{handle}"))));
    let hold = |number: u64| {
        move |script: Script, handle: u32| script.held(commit(handle, 1, number, &[change::in_flight(number)]))
    };
    Script::new("7 0 10 1 70 70")
        .frame(hello(1))
        .all(0..66, bind)
        .note("64 commits pend, on 64 sessions; the next Batch runs them, whatever its handle and answer")
        .all(0..64, hold(1))
        .state()
        .held(commit(64, 1, 9, &[]))
        .state()
        .all(10..13, hold(2))
        .note("a Batch on a handle with none pending runs none; refused or not, one that pends does")
        .held(commit(65, 1, 1, &[]))
        .state()
        .held(commit(10, 1, 9, &[]))
        .state()
        .held(commit(20, 1, 2, &[change::record(1, b"z")]))
        .state()
        .note("any other frame runs them first, a refused one too, but none that can't be read")
        .held(vec![0])
        .held(framed(&[9]))
        .state()
        .held(wire::ack(1, 1))
        .state()
        .held(commit(21, 1, 2, &[change::next_incoming(4)]))
        .frame(commit(99, 1, 1, &[]))
        .state()
        .note("on_frame runs them after a Nack too")
        .frame(commit(22, 1, 7, &[]))
        .state()
        .held(commit(23, 1, 2, &[change::next_incoming(5)]))
        .flush(0)
        .flush(1)
        .state()
        .note("a drop of another connection drops nothing; of this one, bindings and pending commits")
        .held(commit(24, 1, 2, &[change::next_incoming(6)]))
        .line_drop(0)
        .state()
        .line_drop(1)
        .state()
}

fn restarts() -> Script {
    Script::new("0 2 60 4 3 3")
        .note("an incarnation of 0 is taken as 1; connection 0 needs no Hello")
        .frame(wire::bind(4, 0, 2, &key("B")))
        .frame(commit(4, 0, 1, &[change::record(1, b"a")]))
        .frame(wire::checked(4, 0, 0))
        .frame(wire::checked(4, 0, 1))
        .state()
        .note("a Hello of the same epoch starts a new connection and drops the bindings")
        .held(commit(4, 0, 2, &[change::record(2, b"b")]))
        .frame(hello(0))
        .state()
        .frame(commit(4, 0, 3, &[]))
        .frame(wire::bind(4, 0, 2, &key("B")))
        .frame(commit(4, 0, 1, &[change::record(3, b"c")]))
        .note("a whole sending cut by a drop leaves the session; a new one ends it")
        .frame(batch(WHOLE, 4, 0, 2, &[change::reset(), change::record(1, b"new")]))
        .line_drop(1)
        .state()
        .frame(batch(LAST_WHOLE, 4, 0, 3, &[]))
        .frame(hello(3))
        .frame(wire::bind(4, 3, 0, &key("B")))
        .frame(batch(WHOLE, 4, 3, 1, &[change::reset(), change::record(1, b"new")]))
        .frame(batch(LAST_WHOLE, 4, 3, 2, &[change::next_incoming(2), change::marks(b"")]))
        .state()
}

/// A frame of each kind at this epoch. Handle 1 is bound and at commit number `at`, handle 2 holds changes, 9 is not bound.
fn one_of_each(epoch: u64, at: u64) -> Vec<Vec<u8>> {
    let records = vec![(1, b"r".to_vec())];
    let with_record = Batch { handle: 1, epoch, commit_no: at + 1, part: COMMIT, changes: Vec::new(), records };
    vec![
        hello(epoch),
        wire::hello(3, epoch, b"a", &[]),
        wire::hello(1, epoch, b"a", &[1]),
        wire::welcome(epoch, 7),
        wire::bind(1, epoch, 0, &key("B")),
        wire::bind(3, epoch, 0, &key("D")),
        wire::bind(3, epoch, 1, &key("B")),
        commit(1, epoch, at + 1, &[change::reset()]),
        commit(1, epoch, at + 2, &[]),
        commit(2, epoch, 9, &[]),
        commit(9, epoch, 1, &[]),
        batch(WHOLE, 2, epoch, 2, &[change::record(2, b"x")]),
        batch(LAST_WHOLE, 2, epoch, 2, &[]),
        wire::batch(&with_record),
        wire::checked(1, epoch, 7),
        wire::checked(1, epoch, 8),
    ]
}

/// The active of epoch `high` has a commit pending on handle 1 and changes held on handle 2 as each frame of the lower one comes.
fn stale_ones(script: Script, high: u64, low: u64, first: u64, take: fn(Script, Vec<u8>) -> Script) -> Script {
    (0..one_of_each(low, 0).len()).zip(first..).fold(script, |script, (kind, no)| {
        let pending = script.held(commit(1, high, no, &[change::bare_record(no + 9)]));
        take(pending, one_of_each(low, no).swap_remove(kind)).state()
    })
}

/// A frame that deposes, with a commit pending, and what the other's next Commit on handle 1 and its Hello then get.
fn deposed(script: Script, (old, no, frame): (u64, u64, Vec<u8>)) -> Script {
    let next = commit(1, old, no + 1, &[change::reset()]);
    script.held(commit(1, old, no, &[])).held(frame).held(next.clone()).frame(next).held(hello(old)).state()
}

fn stale_actives() -> Script {
    let long = [change::record(2, &[120; 300])];
    let ways = [
        (8, 33, commit(1, 9, 34, &[change::bare_record(60)])),
        (9, 35, commit(2, 10, 9, &[])),
        (10, 36, commit(9, 11, 1, &[])),
        (11, 37, batch(WHOLE, 3, 12, 1, &[change::marks(b"m")])),
        (12, 38, batch(WHOLE, 3, 13, 1, &[change::reset()])),
        (13, 39, commit(3, 14, 2, &[])),
        (14, 40, batch(WHOLE, 3, 15, 2, &long)),
        (15, 41, batch(LAST_WHOLE, 3, 16, 2, &[change::record(2, b"off")])),
        (16, 42, wire::checked(9, 17, 7)),
    ];
    let none_deposed = [
        wire::bind(3, 30, 0, &key("D")),
        wire::bind(3, 30, 1, &key("C")),
        wire::bind(4, 30, 0, &key("E")),
        wire::hello(3, 30, b"a", &[]),
        wire::hello(1, 30, b"a", &[1]),
        wire::welcome(30, 7),
        wire::checked(1, 30, 8),
        one_of_each(30, 50).swap_remove(13),
    ];
    let script = Script::new("7 0 60 4 3 4")
        .note("two actives: the higher epoch deposes the other by Hello, Batch or Checked, not by Bind")
        .frame(hello(3))
        .frame(wire::bind(1, 3, 0, &key("B")))
        .held(commit(1, 3, 1, &[change::record(1, b"a")]))
        .held(wire::bind(2, 9, 0, &key("C")))
        .state()
        .held(commit(1, 3, 2, &[change::record(2, b"b")]))
        .held(commit(2, 4, 7, &[]))
        .state()
        .held(commit(1, 3, 3, &[change::record(3, b"c")]))
        .held(wire::bind(3, 3, 0, &key("B")))
        .held(wire::checked(1, 3, 7))
        .held(hello(3))
        .state()
        .held(wire::checked(2, 6, 7))
        .held(commit(2, 4, 1, &[]))
        .held(hello(8))
        .held(commit(1, 8, 3, &[]))
        .state()
        .note("the higher one has a commit pending and changes held: a frame of each kind from the lower one, by on_frame_held and by on_frame")
        .held(wire::bind(1, 8, 0, &key("B")))
        .held(wire::bind(2, 8, 0, &key("C")))
        .held(batch(WHOLE, 2, 8, 1, &[change::reset(), change::record(1, b"w")]));
    let script = stale_ones(script, 8, 7, 1, Script::held);
    let script = stale_ones(script, 8, 0, 17, Script::frame)
        .note("frames of epoch 30 that depose nobody: after each the lower one's Commit is taken");
    let script = (43..).zip(none_deposed).fold(script.set(Counter::Commit(1, 42)), |script, (no, frame)| {
        script.held(frame).held(commit(1, 8, no, &[change::bare_record(no + 9)])).state()
    });
    script
        .note("those that depose, each by the next epoch: a Batch acknowledged, Nacked, refused with 14, 16, (acknowledged) 15, 18, Diverged; Checked")
        .set(Counter::Commit(1, 32))
        .all(ways, deposed)
        .note("17 deposes too")
        .held(batch(WHOLE, 3, 17, 2, &[change::reset()]))
        .set(Counter::Bytes(3, 4_294_967_296))
        .held(batch(WHOLE, 3, 18, 3, &[change::record(1, b"x")]))
        .held(commit(1, 17, 43, &[]))
        .note("an accepted Hello; the other's line is dropped and flushed without effect")
        .held(commit(1, 18, 43, &[]))
        .held(hello(19))
        .held(commit(1, 18, 44, &[]))
        .held(wire::bind(1, 19, 0, &key("B")))
        .held(wire::bind(2, 19, 0, &key("C")))
        .held(batch(WHOLE, 2, 19, 1, &[change::reset()]))
        .held(commit(1, 19, 1, &[]))
        .flush(2)
        .line_drop(2)
        .held(commit(1, 18, 2, &[change::reset()]))
        .state()
        .note("after promotion neither changes anything")
        .line("P")
        .state()
        .all(one_of_each(18, 1), Script::held)
        .all(one_of_each(19, 1), Script::frame)
        .all(one_of_each(40, 1), Script::held)
        .flush(3)
        .state()
}

fn limits(setting: &str) -> Script {
    let step = |script: Script, (number, msg): (u64, &[u8])| {
        script.frame(commit(1, 0, number, &[change::record(number, msg)])).state()
    };
    let messages: [&[u8]; 8] = [b"12345", b"6789", b"", b"0123456789", b"", b"01234567890", b"a", b"bcd"];
    Script::new(setting)
        .frame(wire::bind(1, 0, 0, &key("B")))
        .all((1..).zip(messages), step)
        .frame(commit(1, 0, 9, &[change::bare_record(20), change::record(21, b"x"), change::record(22, b"")]))
        .state()
        .frame(wire::bind(1, 0, 0, &key("B")))
        .whole(0, key("B"), None)
}

fn counters() -> Script {
    let last = u64::MAX;
    Script::new("7 5 60 4 2 2")
        .note("a Record of 2^64 - 1 is Diverged, before a Reset too; 2^64 - 2 is the last")
        .frame(wire::bind(1, 0, 0, &key("B")))
        .frame(commit(1, 0, 1, &[change::bare_record(last)]))
        .frame(commit(1, 0, 1, &[change::bare_record(last), change::reset()]))
        .frame(commit(1, 0, 1, &[change::bare_record(last - 2), change::record(last - 1, b"last")]))
        .frame(commit(1, 0, 2, &[change::record(last, b"past")]))
        .frame(commit(1, 0, 2, &[change::bare_record(last - 1)]))
        .state()
        .note("in a Whole it is acknowledged, and its LastWhole is Diverged")
        .frame(batch(WHOLE, 1, 0, 2, &[change::reset(), change::bare_record(last)]))
        .frame(batch(LAST_WHOLE, 1, 0, 3, &[change::reset()]))
        .state()
        .frame(batch(LAST_WHOLE, 1, 0, 3, &[change::reset(), change::bare_record(last)]))
        .state()
        .note("on a handle at 2^64 - 1 every number is wrong")
        .set(Counter::Commit(1, last - 1))
        .frame(batch(WHOLE, 1, 0, last, &[change::reset()]))
        .state()
        .frame(commit(1, 0, 0, &[]))
        .frame(commit(1, 0, 1, &[]))
        .frame(commit(1, 0, last, &[]))
        .state()
        .note("the byte sum stops at 2^64 - 1")
        .frame(wire::bind(2, 0, 0, &key("C")))
        .frame(batch(WHOLE, 2, 0, 1, &[change::reset()]))
        .set(Counter::Bytes(2, last - 1))
        .frame(batch(WHOLE, 2, 0, 2, &[change::record(1, b"123")]))
        .state()
        .note("counters of handles that aren't there, or hold nothing")
        .set(Counter::Bytes(1, 1))
        .set(Counter::Commit(3, 1))
        .note("the connection count stops at 2^64 - 1")
        .set(Counter::Connections(last - 1))
        .frame(hello(0))
        .frame(hello(last))
        .state()
        .flush(0)
        .flush(last)
        .line_drop(last)
        .note("promotion's cap")
        .line("U")
        .state()
        .line("U")
        .state()
}

fn promotion() -> Script {
    let marked: [&[u8]; 5] = [b"", b"xB", &[b'm'; 63], &[b'm'; 64], b"B"];
    let session = |script: Script, (handle, marks): (u32, &[u8])| {
        let changes = [change::marks(marks), change::record(1, b"kept")];
        script.frame(wire::bind(handle, 0, 3, &key(&format!("T{handle}")))).held(commit(handle, 0, 1, &changes))
    };
    Script::new("7 3 60 4 6 6")
        .all((0..).zip(marked), session)
        .frame(wire::bind(5, 0, 3, &key("new")))
        .line("P")
        .held(commit(0, 0, 2, &[change::next_incoming(2)]))
        .line("U")
        .state()
        .note("the skipped numbers hold no messages; a second promotion does it again")
        .summary(3, key("T0"))
        .summary(4, key("T0"))
        .call(&Call::Whole { line: Line::HeadOffice, handle: 0, epoch: 0, last: 0, key: key("T0"), length: None })
        .line("P")
        .line("U")
        .state()
}

fn hold() -> Script {
    let whole =
        [change::reset(), change::created_at(LONG_STAMP), change::bare_record(1), change::record(2, b"0123456789")];
    let end = [change::bare_record(9), change::next_incoming_in_flight(3, 2), change::marks(&[b'm'; 64])];
    let size = hold_for_any(10, 1);
    Script::new(&format!("7 0 10 1 1 2 {size}"))
        .note("the greatest session of C 10 and M 1 fills its hold area to the last byte")
        .frame(wire::bind(1, 0, 0, &key("B")))
        .held(batch(WHOLE, 1, 0, 1, &whole))
        .state()
        .note("one byte more is 18, which keeps what is held and its byte sum, and the commit number")
        .held(batch(LAST_WHOLE, 1, 3, 2, &[&end[..], &[change::reset()]].concat()))
        .state()
        .held(batch(WHOLE, 1, 3, 2, &[&end[..], &[change::reset()]].concat()))
        .held(batch(LAST_WHOLE, 1, 3, 2, &end))
        .state()
        .note("a wrong number, then 16, since nothing is held any more")
        .held(batch(WHOLE, 1, 3, 3, &whole))
        .held(batch(WHOLE, 1, 3, 9, &whole))
        .held(batch(WHOLE, 1, 3, 4, &end))
        .state()
        .note("an empty Whole on held changes is acknowledged; a LastWhole may be empty too")
        .held(batch(WHOLE, 1, 3, 4, &whole))
        .held(batch(WHOLE, 1, 3, 5, &[]))
        .held(batch(LAST_WHOLE, 1, 3, 6, &[]))
        .state()
}

fn sendings() -> Script {
    let target = |name: &str, changes: &[Vec<u8>], script: Script| {
        script.frame(wire::bind(1, 5, 0, &key(name))).frame(commit(1, 5, 1, changes)).whole(0, key(name), None)
    };
    let script = Script::new("7 0 200 8 20 2").frame(hello(5));
    let script = target("new", &[], script.note("nothing in it"));
    let script = target("one", &[change::record(1, b"m")], script.note("one message; an empty one"));
    let script = target("empty", &[change::record(1, b"")], script);
    let script = target(
        "start",
        &[change::bare_record(3), change::record(4, b"d")],
        script.note("a gap at the start, in the middle, at the end, all"),
    );
    let middle = [change::record(1, b"a"), change::bare_record(2), change::bare_record(5), change::record(6, b"f")];
    let script = target("middle", &middle, script);
    let script = target("end", &[change::record(1, b"a"), change::bare_record(9)], script);
    let script = target(
        "all",
        &[
            change::bare_record(1),
            change::record(2, b"b"),
            change::bare_record(3),
            change::record(4, b""),
            change::bare_record(5),
        ],
        script,
    );
    let script = target("none", &[change::bare_record(77)], script.note("numbers used, no message"));
    let script = target(
        "last",
        &[change::bare_record(u64::MAX - 2), change::record(u64::MAX - 1, b"z")],
        script.note("the last numbers"),
    );
    let script = target("flight0", &[change::in_flight(0)], script.note("in flight 0, which is not none; and more"));
    let script = target("flight9", &[change::next_incoming_in_flight(10, 9)], script);
    let script = target("landed", &[change::in_flight(3), change::next_incoming(0)], script);
    let script = target("stamp", &[change::created_at(STAMP)], script.note("stamps of both forms, marks of 64"));
    let script = target("stamps", &[change::created_at(LONG_STAMP), change::marks(&[b'm'; 64])], script);
    let script = target("gone", &records(1..=12, &[b'x'; 30]), script.note("the oldest gone"));
    script
        .note("commit numbers up to 2^64 - 1, and past it")
        .whole(u64::MAX - 1, key("one"), None)
        .whole(u64::MAX, key("one"), None)
        .note("an area of just the frame's length, and one short")
        .whole(0, key("one"), Some(63))
        .whole(0, key("one"), Some(62))
        .whole(0, key("one"), Some(0))
        .note("not stored")
        .whole(0, key("nobody"), None)
}

/// Both lines on one session of two batches, with skipped numbers at the second's start.
fn branch_line() -> Script {
    let both = |script: Script, last: u64, name: &str, length: Option<u64>| {
        script.all(LINES, |script, line| script.sent(line, last, key(name), length))
    };
    let script = Script::new("7 0 40000 4 4 2")
        .note("a new session, and one of few bytes: the same frame on both lines")
        .frame(hello(5))
        .frame(wire::bind(1, 5, 0, &key("new")))
        .frame(wire::bind(1, 5, 0, &key("few")))
        .frame(commit(1, 5, 1, &[change::bare_record(2), change::record(3, b"few"), change::bare_record(7)]));
    let script = both(both(script, 0, "new", None), 0, "few", None)
        .note("16,385 bytes end a batch of the branch line; numbers are skipped before the next message")
        .frame(wire::bind(1, 5, 0, &key("two")))
        .frame(commit(1, 5, 1, &[change::record(1, &[b'a'; 16_385])]))
        .frame(commit(1, 5, 2, &[change::bare_record(3), change::record(4, b"b"), change::in_flight(1)]));
    let script = both(script, 0, "two", None)
        .note("16,384 don't")
        .frame(wire::bind(1, 5, 0, &key("one")))
        .frame(commit(1, 5, 1, &[change::record(1, &[b'a'; 16_384]), change::record(2, b"b")]))
        .branch(0, key("one"), None)
        .branch(u64::MAX - 1, key("one"), Some(0))
        .note("two commit numbers must be left for two batches: 24 on the branch line, 9 on the other; 24 on both");
    let script = both(script, u64::MAX - 1, "two", Some(0));
    let script = both(script, u64::MAX, "two", Some(0))
        .note("and where two are left")
        .branch(u64::MAX - 2, key("two"), Some(0))
        .note("9 for the first frame; 25 for a session that isn't stored, before all others");
    let script = both(both(script, 0, "two", Some(16_000)), u64::MAX, "nobody", Some(0))
        .note("32 over version 1, before 24 and 9")
        .frame(hello_in(LATEST, 5))
        .frame(wire::bind(1, 5, 0, &key("two")))
        .frame(commit(1, 5, 1, &stamped(LONGEST_STAMP)))
        .frame(hello(5));
    both(both(script, 0, "two", Some(0)), u64::MAX, "two", Some(0))
}

fn queues() -> Script {
    let many: Vec<u64> = (0..70).collect();
    Script::new("7 0 0 0 0 0")
        .note("the starred point, and the same from another start")
        .queue(2, 0, &[1, 2, 3])
        .queue(2, 1, &[1, 2, 3, 4, 5])
        .note("a batch with more numbers than the bound waits for itself")
        .queue(2, 0, &[9, 9, 10])
        .queue(0, 0, &[1, 1, 2, 2])
        .note("numbers that don't rise, and fall")
        .queue(3, 5, &[5, 5, 5, 4, 9, 1, 8])
        .queue(1, 10, &[1, 2, 3, 12])
        .note("at most 64 wait, however few numbers they cover")
        .queue(1000, 0, &[0; 67])
        .queue(1000, 0, &many)
        .queue(5, 0, &many)
        .note("boundaries")
        .queue(u64::MAX, 0, &[u64::MAX, 0, u64::MAX])
        .queue(u64::MAX - 1, 0, &[u64::MAX, 1])
        .queue(0, u64::MAX, &[u64::MAX, 0, 1])
        .queue(1 << 63, 0, &[1 << 63, (1 << 63) + 1])
        .queue(0, 0, &[])
        .queue(0, 0, &[0, 0, 1])
}

fn summaries() -> Script {
    let ranges = |script: Script, target: &str| {
        script.all([0, 1, 2, 3, 5, u64::MAX], |script, n| script.summary(n, key(target)))
    };
    let script = Script::new("7 5 100 8 4 4").frame(wire::bind(1, 0, 0, &key("B")));
    let script = ranges(script.note("a new session: 0 for every n"), "B");
    let script = script.frame(commit(1, 0, 1, &[change::bare_record(2)]));
    let script = ranges(script.note("next 3, nothing stored: the start value (starred)"), "B");
    let script =
        script.frame(commit(1, 0, 2, &[change::record(3, b"abc"), change::record(4, b""), change::bare_record(5)]));
    let script = ranges(script.note("messages at 3 and 4 (empty), none at 5"), "B");
    let script = script.frame(commit(1, 0, 3, &[change::in_flight(0), change::created_at(STAMP), change::marks(b"m")]));
    let script = ranges(script.note("in flight 0 is shown as 0, and as none in a Bound"), "B");
    script.all([0, 2, 5], |script, lag| script.frame(wire::bind(2, 0, lag, &key("B")))).summary(1, key("C")).state()
}

/// A message of a log: these fields behind 8 and 9, with its length and sum.
fn logged(fields: &str) -> Vec<u8> {
    let text = format!("8=FIX.4.4|9={}|{fields}", fields.len()).replace('|', "\x01");
    let sum = text.bytes().fold(0_u8, u8::wrapping_add);
    format!("{text}10={sum:03}\x01").into_bytes()
}

fn imports() -> Script {
    let import = |script: Script, target: &str, parts: &[&[u8]]| {
        script.call(&Call::Import { key: key(target), file: parts.concat() })
    };
    let (first, second) = (logged("35=D|34=3|58=a=b|"), logged("35=D|49=A|34=007|"));
    let wrong = [&first[..first.len() - 4], b"999\x01"].concat();
    let script = Script::new("7 3 60 4 3 2").note("no key; two messages with numbers skipped, longer than C together; the key again");
    let script = import(import(script, "", &[&first]), "B", &[&first, &second]);
    let script = import(script, "B", &[&first]).state().whole(0, key("B"), None).summary(9, key("B"));
    let script = script.note("28, 29, 30, of the first faulty message");
    let script = import(import(script, "C", &[&first, b"x"]), "C", &[&first, &wrong]);
    let script = import(import(script, "C", &[&second, &first]), "C", &[&first, &first, b"x"]);
    let script = import(import(script, "C", &[&logged("35=D|58=no number|")]), "C", &[&logged("35=D|34=18446744073709551615|")]);
    let script = script.note("an empty file; the last number; a full store").state();
    let script = import(import(script, "C", &[]), "E", &[&logged("35=D|34=18446744073709551614|")]);
    let script = import(script, "F", &[]).state().whole(0, key("E"), None);
    script
        .note("an imported session is bound and goes on")
        .frame(hello(5))
        .frame(wire::bind(1, 5, 0, &key("B")))
        .frame(commit(1, 5, 1, &[change::record(8, b"next")]))
        .state()
}

fn durable() -> Script {
    let same = [change::next_incoming(1), change::marks(b""), change::reset()];
    Script::new("7 0 3 1 2 3")
        .note("new: not durable; a commit without changes marks it; a change that changes nothing unmarks")
        .frame(wire::bind(1, 0, 0, &key("B")))
        .state()
        .held(commit(1, 0, 1, &[]))
        .state()
        .flush(0)
        .state()
        .all((2..).zip(same), |script, (number, change)| script.held(commit(1, 0, number, &[change])).state().flush(0))
        .note("a message that isn't stored, and a bare Record, unmark too")
        .held(commit(1, 0, 5, &[change::record(1, b"long")]))
        .state()
        .flush(0)
        .held(commit(1, 0, 6, &[change::bare_record(4)]))
        .state()
        .note("a dropped commit doesn't undo, and doesn't mark")
        .line_drop(0)
        .state()
        .note("a Bind by which the session goes to another handle runs the commit that pends first, and it marks")
        .frame(wire::bind(1, 0, 0, &key("B")))
        .held(commit(1, 0, 1, &[change::in_flight(1)]))
        .state()
        .held(wire::bind(2, 0, 0, &key("B")))
        .state()
        .note("a Whole touches nothing; a refused or diverged Batch doesn't unmark")
        .held(commit(2, 0, 1, &[change::next_incoming(5), change::bare_record(1)]))
        .held(batch(WHOLE, 2, 0, 1, &[change::reset()]))
        .held(commit(2, 0, 2, &[change::next_incoming(5)]))
        .state()
}

fn full_row() -> Script {
    let bind = |handle: u32, target: &str| wire::bind(handle, 0, 0, &key(target));
    Script::new("7 0 40 4 3 3")
        .note("three sessions, three places: a new handle finds room where the session's own handle can go, never 21")
        .all([(1, "B"), (2, "C"), (3, "D")], |script, (handle, target)| script.held(bind(handle, target)))
        .all([(4, "C"), (5, "B"), (6, "D"), (1, "C"), (2, "C")], |script, (handle, target)| {
            script.held(bind(handle, target)).state()
        })
        .note("20 comes for a fourth session; two sessions whose handles are exchanged")
        .held(bind(7, "E"))
        .held(bind(5, "D"))
        .state()
        .held(bind(6, "B"))
        .state()
        .note("only the handles that are left are bound")
        .all(1..8, |script, handle| script.held(commit(handle, 0, 1, &[])))
        .state()
}

fn own_place() -> Script {
    Script::new("7 0 40 4 3 3")
        .note("a handle bound again to its own session starts anew, and no other goes")
        .frame(wire::bind(1, 0, 0, &key("B")))
        .frame(wire::bind(2, 0, 0, &key("C")))
        .held(commit(1, 0, 1, &[change::record(1, b"a")]))
        .held(batch(WHOLE, 1, 0, 2, &[change::reset()]))
        .held(batch(WHOLE, 2, 0, 1, &[change::reset(), change::record(1, b"c")]))
        .state()
        .held(wire::bind(1, 0, 0, &key("B")))
        .state()
        .held(commit(1, 0, 1, &[change::record(2, b"b")]))
        .note("one that held another session leaves it without a handle, and takes what the other held away")
        .held(wire::bind(1, 0, 0, &key("C")))
        .state()
        .held(batch(LAST_WHOLE, 2, 0, 2, &[]))
        .held(batch(LAST_WHOLE, 1, 0, 1, &[]))
        .held(commit(1, 0, 1, &[change::record(1, b"d")]))
        .note("the session that has none is bound anew; a handle that went is bound to a third")
        .held(wire::bind(7, 0, 0, &key("B")))
        .held(commit(7, 0, 1, &[change::record(3, b"e")]))
        .held(wire::bind(2, 0, 0, &key("D")))
        .held(commit(2, 0, 1, &[change::record(1, b"f")]))
        .state()
}

fn higher_epoch() -> Script {
    Script::new("7 0 40 4 2 3")
        .note("a Bind of a higher epoch takes the lower active's session, and the epoch stays: its next Batch is 14")
        .frame(hello(3))
        .frame(wire::bind(1, 3, 0, &key("B")))
        .held(commit(1, 3, 1, &[change::record(1, b"a")]))
        .held(wire::bind(2, 9, 0, &key("B")))
        .state()
        .held(commit(1, 3, 2, &[change::record(2, b"b")]))
        .state()
        .note("it isn't deposed: it binds again, and goes on")
        .held(wire::bind(1, 3, 0, &key("B")))
        .held(commit(1, 3, 1, &[change::record(2, b"b")]))
        .state()
        .note("14 for the higher one raises the epoch, as any does; then the lower one's Batches and Binds are Nacked")
        .held(commit(2, 9, 1, &[]))
        .held(commit(1, 3, 2, &[change::record(3, b"c")]))
        .held(wire::bind(3, 3, 0, &key("B")))
        .state()
        .held(wire::bind(2, 9, 0, &key("B")))
        .held(commit(2, 9, 1, &[change::record(3, b"c")]))
        .state()
}

fn held_changes() -> Script {
    let whole = |handle, number, msg| batch(WHOLE, handle, 0, number, &[change::reset(), change::record(1, msg)]);
    Script::new("7 0 40 4 2 2")
        .note("what the removed handle holds goes with it, and is never applied")
        .frame(wire::bind(1, 0, 0, &key("B")))
        .frame(commit(1, 0, 1, &[change::record(1, b"kept")]))
        .held(whole(1, 2, b"old"))
        .state()
        .held(wire::bind(2, 0, 0, &key("B")))
        .state()
        .held(batch(LAST_WHOLE, 1, 0, 3, &[]))
        .held(batch(LAST_WHOLE, 2, 0, 1, &[]))
        .state()
        .note("bound again it holds nothing: 16, then a sending of its own")
        .held(whole(2, 1, b"new"))
        .held(wire::bind(1, 0, 0, &key("C")))
        .held(batch(LAST_WHOLE, 1, 0, 1, &[]))
        .held(whole(1, 1, b"c"))
        .state()
        .held(batch(LAST_WHOLE, 1, 0, 2, &[]))
        .held(batch(LAST_WHOLE, 2, 0, 2, &[change::marks(b"m")]))
        .state()
        .note("the same where the handle that takes the session holds changes for another")
        .held(whole(1, 3, b"x"))
        .held(whole(2, 3, b"y"))
        .held(wire::bind(2, 0, 0, &key("C")))
        .state()
        .held(commit(1, 0, 4, &[]))
        .held(commit(2, 0, 1, &[change::record(2, b"on")]))
        .state()
}

fn stamped(stamp: &[u8]) -> [Vec<u8>; 1] {
    [change::created_at(stamp)]
}

fn versions() -> Script {
    let long = || stamped(LONGEST_STAMP);
    let forms = ["", ".123", ".123456", ".123456789", ".123456789012"];
    let none = [1, 2, 4, 5, 7, 8, 10, 11, 13].map(|count| format!(".{}", &"1234567890123"[..count]));
    let with = |digits: &str| stamped(&[STAMP, digits.as_bytes()].concat());
    let all_forms = |script: Script, first: u64| {
        (first..).zip(forms).fold(script, |script, (no, digits)| script.held(commit(1, 5, no, &with(digits))))
    };
    let no_forms = |script: Script, no: u64| script.all(&none, |script, digits| script.held(commit(1, 5, no, &with(digits))));
    let script = Script::new("7 3 60 4 2 3")
        .note("version 1 until a Hello is accepted: no digits behind the point, or three; 6 for all other counts")
        .frame(wire::bind(1, 5, 0, &key("B")));
    let script = no_forms(all_forms(script, 1), 3)
        .note("11 and 12 leave the version; an accepted Hello of version 2 takes 6, 9 and 12 digits too")
        .frame(hello_in(3, 5))
        .frame(hello_in(0, 5))
        .frame(wire::hello(LATEST, 5, b"a", &[1]))
        .held(commit(1, 5, 3, &long()))
        .frame(hello_in(LATEST, 5))
        .frame(wire::bind(1, 5, 0, &key("B")));
    let script = no_forms(all_forms(script, 1), 6)
        .note("a session sent whole, in version 2")
        .held(commit(1, 5, 6, &[change::created_at(LONGEST_STAMP), change::record(1, b"m")]))
        .whole(9, key("B"), None)
        .note("a drop keeps the version; so do a Hello of a lower epoch, which is answered, and one that is refused")
        .line_drop(1)
        .frame(wire::bind(1, 5, 3, &key("B")))
        .held(commit(1, 5, 1, &long()))
        .frame(hello_in(FIRST, 4))
        .held(commit(1, 5, 2, &long()))
        .frame(wire::hello(FIRST, 6, b"a", &[1]))
        .frame(hello_in(3, 6))
        .held(commit(1, 5, 3, &long()))
        .state()
        .note("back to 1 by an accepted Hello: Nack StaleEpoch and Lag, then 32, which runs the commits due and changes nothing else")
        .frame(wire::bind(2, 5, 0, &key("C")))
        .frame(hello_in(FIRST, 5))
        .frame(wire::bind(2, 5, 0, &key("C")))
        .held(commit(2, 5, 1, &[change::in_flight(1)]))
        .held(wire::bind(1, 4, 9, &key("B")))
        .held(commit(2, 5, 2, &[change::in_flight(2)]))
        .held(wire::bind(1, 5, 9, &key("B")))
        .held(commit(2, 5, 3, &[change::in_flight(3)]))
        .state()
        .held(wire::bind(1, 5, 0, &key("B")))
        .held(wire::bind(2, 5, 0, &key("B")))
        .state()
        .held(commit(2, 5, 4, &long()))
        .note("a sending is 32 too, before 24 and 9; a session without such a stamp is sent")
        .whole(0, key("B"), None)
        .whole(u64::MAX, key("B"), None)
        .whole(0, key("B"), Some(0))
        .whole(0, key("C"), None)
        .note("a drop, and version 2 again")
        .line_drop(2)
        .frame(wire::bind(1, 5, 0, &key("B")))
        .frame(hello_in(LATEST, 5))
        .frame(wire::bind(1, 5, 0, &key("B")))
        .whole(0, key("B"), None)
        .note("with a short stamp, or none, version 1 binds the session again")
        .held(commit(1, 5, 1, &stamped(LONG_STAMP)))
        .frame(hello(5))
        .frame(wire::bind(1, 5, 0, &key("B")))
        .whole(0, key("B"), None);
    script
        .note("promotion keeps the version, and takes nothing more")
        .frame(hello_in(LATEST, 5))
        .frame(wire::bind(1, 5, 0, &key("B")))
        .held(commit(1, 5, 1, &long()))
        .line("U")
        .whole(0, key("B"), None)
        .frame(hello(9))
        .frame(commit(1, 5, 2, &long()))
        .whole(0, key("B"), None)
        .state()
}

/// 32 beside 20 and 21, and beside another handle.
fn long_and_full() -> Script {
    Script::new("7 0 40 4 2 1")
        .note("a row of one place, two sessions: 32 comes before 21, and removes no handle; 21 for a session that the version takes")
        .frame(hello_in(LATEST, 1))
        .frame(wire::bind(1, 1, 0, &key("C")))
        .frame(wire::bind(1, 1, 0, &key("B")))
        .frame(commit(1, 1, 1, &stamped(b"20261115-12:00:00.123456")))
        .frame(hello(1))
        .frame(wire::bind(1, 1, 0, &key("C")))
        .held(batch(WHOLE, 1, 1, 1, &[change::reset(), change::record(1, b"held")]))
        .held(wire::bind(2, 1, 0, &key("B")))
        .held(wire::bind(1, 1, 0, &key("B")))
        .state()
        .note("20 is for a session that isn't stored, which has no stamp")
        .held(wire::bind(2, 1, 0, &key("D")))
        .held(batch(LAST_WHOLE, 1, 1, 2, &[]))
        .state()
        .frame(hello_in(LATEST, 1))
        .frame(wire::bind(1, 1, 0, &key("C")))
        .held(wire::bind(2, 1, 0, &key("B")))
        .held(wire::bind(2, 1, 0, &key("C")))
        .state()
}

/// A whole sending with the longest stamp into a hold area of just its length, and of a byte less.
fn long_hold(less: u64) -> Script {
    let whole =
        [change::reset(), change::created_at(LONGEST_STAMP), change::bare_record(1), change::record(2, b"0123456789")];
    let end = [change::bare_record(9), change::next_incoming_in_flight(3, 2), change::marks(&[b'm'; 64])];
    Script::new(&format!("7 0 10 1 1 2 {}", 10 + 22 + 131 - less))
        .note("with a stamp of 30 bytes the greatest session of C 10 and M 1 needs 131 bytes besides")
        .frame(hello_in(LATEST, 0))
        .frame(wire::bind(1, 0, 0, &key("B")))
        .held(batch(WHOLE, 1, 0, 1, &whole))
        .state()
        .held(batch(LAST_WHOLE, 1, 0, 2, &end))
        .state()
        .note("sent on: with a stamp of 30 bytes a frame has at most 165 bytes besides")
        .whole(0, key("B"), Some(10 + 22 + 165))
        .whole(0, key("B"), Some(10 + 22 + 164))
}

/// A version that no call leaves beside these bindings: it is handed in.
fn version_set() -> Script {
    let whole = [change::reset(), change::created_at(LONGEST_STAMP), change::record(1, b"held")];
    Script::new("7 0 40 4 2 2")
        .note("a handle holds a long stamp as the version is set to 1: what is held is read all the same")
        .frame(hello_in(LATEST, 1))
        .frame(wire::bind(1, 1, 0, &key("B")))
        .held(batch(WHOLE, 1, 1, 1, &whole))
        .set(Counter::Version(FIRST))
        .held(commit(1, 1, 2, &stamped(LONGEST_STAMP)))
        .held(batch(WHOLE, 1, 1, 2, &[change::record(2, b"on")]))
        .state()
        .held(batch(LAST_WHOLE, 1, 1, 3, &[change::next_incoming(2)]))
        .state()
        .note("32 for its session on another handle and on its own, which stays bound and holds what it held")
        .held(batch(WHOLE, 1, 1, 4, &[change::reset()]))
        .held(wire::bind(2, 1, 0, &key("B")))
        .held(wire::bind(1, 1, 0, &key("B")))
        .state()
        .whole(0, key("B"), None)
        .set(Counter::Version(LATEST))
        .held(wire::bind(2, 1, 0, &key("B")))
        .whole(0, key("B"), None)
        .state()
}

/// Two actives that speak different versions.
fn actives_of_two_versions() -> Script {
    let no_change = |script: Script, epoch: u64| {
        script.all([0, 1, 2, 3], |script, version| script.held(hello_in(version, epoch)))
    };
    let script = Script::new("7 0 40 4 2 2")
        .note("an active of version 1, deposed by a Hello of version 2; what the lower one sends then leaves the version")
        .frame(hello(3))
        .frame(wire::bind(1, 3, 0, &key("B")))
        .held(commit(1, 3, 1, &stamped(STAMP)))
        .held(hello_in(LATEST, 4))
        .held(commit(1, 3, 2, &stamped(LONGEST_STAMP)))
        .held(wire::bind(1, 4, 0, &key("B")))
        .held(commit(1, 4, 1, &stamped(LONGEST_STAMP)));
    let script = no_change(script, 3).held(commit(1, 4, 2, &stamped(LONGEST_STAMP))).state();
    let script = script
        .note("and the other way round; a Bind of a higher epoch is 32 too, and deposes nobody")
        .held(hello(5))
        .held(wire::bind(1, 9, 0, &key("B")))
        .held(wire::bind(2, 5, 0, &key("C")))
        .held(commit(2, 4, 1, &[]))
        .held(commit(2, 5, 1, &stamped(STAMP)));
    no_change(script, 4)
        .held(commit(2, 5, 2, &stamped(LONGEST_STAMP)))
        .held(commit(2, 5, 2, &[]))
        .held(wire::checked(2, 5, 7))
        .line("P")
        .note("after promotion a Hello of neither version changes anything")
        .all([0, 1, 2, 3], |script, version| script.held(hello_in(version, 9)))
        .whole(0, key("B"), None)
        .whole(0, key("C"), None)
        .state()
}

fn refused_binds() -> Script {
    Script::new("7 2 40 4 3 2")
        .note("handle 1 holds changes, and its session has another's Bind: Nack StaleEpoch and Lag remove nothing")
        .frame(hello(5))
        .frame(wire::bind(1, 5, 2, &key("B")))
        .frame(wire::bind(2, 5, 2, &key("C")))
        .held(commit(2, 5, 1, &[change::record(1, b"c")]))
        .held(batch(WHOLE, 1, 5, 1, &[change::reset(), change::record(1, b"b")]))
        .state()
        .held(wire::bind(3, 4, 0, &key("B")))
        .state()
        .held(commit(2, 5, 2, &[change::record(2, b"c")]))
        .held(wire::bind(3, 5, 3, &key("B")))
        .held(wire::bind(2, 5, 3, &key("B")))
        .state()
        .note("nor do 20 and 21, which is left for a row full of other sessions' handles")
        .held(wire::bind(2, 5, 0, &key("D")))
        .held(commit(2, 5, 1, &[change::record(1, b"d")]))
        .held(wire::bind(3, 5, 0, &key("E")))
        .held(wire::bind(3, 5, 0, &key("C")))
        .held(wire::bind(1, 5, 0, &key("E")))
        .state()
        .note("the first that is accepted does")
        .held(batch(LAST_WHOLE, 1, 5, 2, &[]))
        .held(wire::bind(3, 5, 0, &key("B")))
        .held(commit(1, 5, 3, &[change::record(2, b"b")]))
        .held(commit(3, 5, 1, &[change::record(2, b"b")]))
        .state()
}

fn unreadable() -> Script {
    [
        "",
        "#",
        "S S",
        "F 0",
        "F 0G",
        "F 0A",
        "f 00",
        "L",
        "L -1",
        "L +1",
        "L 18446744073709551616",
        "X epoch",
        "X commit 1",
        "X version 0",
        "X version 3",
        "X commit 4294967296 1",
        "Y 1 41,42,43",
        "Y 1 41,42,43,4",
        "W 1 2 3",
        "Q",
        "Q 1 0 x",
        "Z",
        "S",
    ]
    .into_iter()
    .fold(Script::new("7 0 0 0 0 0"), Script::line)
}

/// A script made by chance.
fn by_chance(seed: u64) -> Script {
    let mut random = Random(seed);
    let setting = loop {
        let setting = setting(&mut random);
        if setting.sessions < 10 && setting.sessions > 0 && setting.handles > 1 && setting.bytes < 1000 {
            break setting;
        }
    };
    let mut player = Player::new(Random(random.next()), &setting);
    let mut rust = Rust::make(&setting).expect("within the limits");
    let mut next = || {
        let call = player.call(&mut rust);
        answer(&mut rust, &call);
        call
    };
    let calls: Vec<Call> = (0..90).map(|_| next()).collect();
    Script::new(&setting.to_string()).all(&calls, |script, call| script.call(call)).state()
}

fn scripts() -> Vec<(String, Script)> {
    let named = [
        ("00-example", example()),
        ("01-life", life()),
        ("02-refusals", refusals()),
        ("03-nacks", nacks()),
        ("04-handles", handles()),
        ("05-pending", pending()),
        ("06-restarts", restarts()),
        ("07-stale-actives", stale_actives()),
        ("08-limits", limits("7 0 10 3 1 1")),
        ("09-one-message", limits("7 0 10 1 1 1")),
        ("10-no-bytes", limits("7 0 0 2 1 1")),
        ("11-no-messages", limits("7 0 10 0 1 1")),
        ("12-counters", counters()),
        ("13-promotion", promotion()),
        ("14-hold", hold()),
        ("15-sendings", sendings()),
        ("16-queues", queues()),
        ("17-summaries", summaries()),
        ("18-durable", durable()),
        ("19-unreadable", unreadable()),
        ("20-too-many-bytes", Script::new("7 0 33554433 1 1 1").state()),
        ("21-too-many-messages", Script::new("7 0 1 65537 1 1").state()),
        ("22-no-setting", Script::new("7 0 1 1 1").state()),
        ("23-imports", imports()),
        ("24-full-row", full_row()),
        ("25-own-place", own_place()),
        ("26-higher-epoch", higher_epoch()),
        ("27-held-changes", held_changes()),
        ("28-refused-binds", refused_binds()),
        ("29-versions", versions()),
        ("30-long-and-full", long_and_full()),
        ("31-long-hold", long_hold(0)),
        ("32-long-hold-short", long_hold(1)),
        ("33-two-versions", actives_of_two_versions()),
        ("34-version-set", version_set()),
        ("35-branch-line", branch_line()),
    ];
    let chance = (1..=12).map(|seed| (format!("chance-{seed:02}"), by_chance(seed)));
    named.into_iter().map(|(name, script)| (name.into(), script)).chain(chance).collect()
}

/// The smallest input for each listed difference that a script can show.
fn difference_scripts() -> Vec<(&'static str, Script)> {
    let bound = |setting: &str| Script::new(setting).frame(wire::bind(1, 0, 0, &key("B")));
    let taken = |setting: &str| bound(setting).frame(wire::bind(2, 0, 0, &key("B")));
    let held =
        bound("7 0 0 0 1 2").frame(batch(WHOLE, 1, 0, 1, &[change::reset()])).frame(wire::bind(2, 0, 0, &key("B")));
    let last = u64::MAX;
    let long = || {
        let stamp = [change::created_at(b"20261115-12:00:00.123456")];
        Script::new("7 0 0 0 1 1")
            .frame(hello_in(LATEST, 0))
            .frame(wire::bind(1, 0, 0, &key("B")))
            .frame(commit(1, 0, 1, &stamp))
            .frame(hello(0))
    };
    vec![
        ("version-2", Script::new("7 0 0 0 0 0").frame(hello_in(LATEST, 0)).state()),
        ("32-bind", long().frame(wire::bind(1, 0, 0, &key("B"))).state()),
        ("32-sending", long().whole(0, key("B"), None)),
        ("09-area-too-short", bound("7 0 0 0 1 1").whole(0, key("B"), Some(48))),
        ("18-hold-area", bound("7 0 0 0 1 1 0").frame(batch(WHOLE, 1, 0, 1, &[change::reset()])).state()),
        ("20-session-places", bound("7 0 0 0 0 1").state()),
        ("21-handle-places", bound("7 0 0 0 1 0").state()),
        ("24-commit-numbers", bound("7 0 0 0 1 1").whole(last, key("B"), None)),
        ("one-handle", taken("7 0 0 0 1 2").state()),
        ("one-handle-full-row", taken("7 0 0 0 1 1").state()),
        ("one-handle-batch", taken("7 0 0 0 1 2").frame(commit(1, 0, 1, &[])).state()),
        ("one-handle-held", held.frame(batch(LAST_WHOLE, 1, 0, 2, &[change::next_incoming(7)])).state()),
        ("one-handle-pending", taken("7 0 0 0 1 2").held(commit(1, 0, 1, &[])).held(commit(2, 0, 1, &[])).state()),
        ("25-bytes", Script::new("7 0 33554433 0 1 1").state()),
        ("25-messages", Script::new("7 0 0 65537 1 1").state()),
        ("25-not-stored", Script::new("7 0 0 0 1 1").summary(0, key("B"))),
        ("last-record", bound("7 0 0 0 1 1").frame(commit(1, 0, 1, &[change::bare_record(last)])).state()),
        (
            "last-record-held",
            bound("7 0 0 0 1 1")
                .frame(batch(LAST_WHOLE, 1, 0, 1, &[change::reset(), change::bare_record(last)]))
                .state(),
        ),
        ("last-commit-number", bound("7 0 0 0 1 1").set(Counter::Commit(1, last)).frame(commit(1, 0, 0, &[])).state()),
        (
            "promotion-cap",
            bound("7 1 0 0 1 1").frame(commit(1, 0, 1, &[change::bare_record(last - 1)])).line("U").state(),
        ),
        ("connection-count", Script::new("7 0 0 0 0 0").set(Counter::Connections(last)).frame(hello(0)).state()),
        (
            "byte-sum",
            bound("7 0 0 0 1 1")
                .frame(batch(WHOLE, 1, 0, 1, &[change::reset()]))
                .set(Counter::Bytes(1, last))
                .frame(batch(WHOLE, 1, 0, 2, &[change::record(1, b"a")]))
                .state(),
        ),
    ]
}

/// Single frames: good ones, each field at its limits, every cut and some changes of small ones.
fn single_frames() -> Vec<Vec<u8>> {
    let mut frames =
        vec![Vec::new(), vec![0], vec![0; 3], framed(&[]), vec![0, 0, 0, 4], vec![1, 0, 0, 4], vec![255; 4]];
    frames.extend((0..=10).chain([127, 128, 254, 255]).map(|kind| framed(&[kind])));
    let good = good_frames();
    for frame in &good {
        frames.push(frame.clone());
        frames.extend((0..frame.len()).map(|len| frame[..len].to_vec()));
        // Its body cut or longer, behind a length that fits.
        frames.push(framed(&frame[4..frame.len() - 1]));
        frames.push(framed(&[&frame[4..], &[0]].concat()));
    }
    frames.push([good[0].clone(), good[1].clone()].concat());
    for frame in &good[..5] {
        frames.extend((0..frame.len()).flat_map(|at| changed(frame, at)));
    }
    frames.extend(texts().into_iter().map(|text| wire::hello(1, 0, &text, &[])));
    frames.extend(
        stamps().into_iter().flat_map(|stamp| {
            [commit(1, 2, 3, &[change::created_at(&stamp)]), wire::bound(1, [1, 1, 0], &stamp, b"", 0)]
        }),
    );
    frames.extend(
        marks()
            .into_iter()
            .flat_map(|marks| [commit(1, 2, 3, &[change::marks(&marks)]), wire::bound(1, [1, 1, 0], b"", &marks, 0)]),
    );
    frames.extend(keys().iter().map(|key| wire::bind(1, 2, 3, key)));
    frames.extend(counts());
    let mut random = Random(1);
    frames.extend((0..150).flat_map(|_| {
        let frame = any_frame(&mut random);
        let body = damaged(&mut random, frame[4..].to_vec());
        [frame, framed(&body)]
    }));
    frames
}

fn changed(frame: &[u8], at: usize) -> Vec<Vec<u8>> {
    let with = |value: u8| [&frame[..at], &[value], &frame[at + 1..]].concat();
    [frame[at].wrapping_add(1), frame[at].wrapping_sub(1), frame[at] ^ 0x80, 0xff].map(with).into()
}

fn good_frames() -> Vec<Vec<u8>> {
    let edges = [0, 1, 1 << 32, 1 << 63, u64::MAX];
    let every = [
        change::next_incoming(1),
        change::next_incoming_in_flight(2, 0),
        change::in_flight(u64::MAX),
        change::record(3, b"msg"),
        change::record(4, b""),
        change::bare_record(1 << 63),
        change::reset(),
        change::created_at(STAMP),
        change::marks(b"m"),
    ];
    let app = vec![(1, b"x".to_vec()), (u16::MAX, Vec::new())];
    let full = Batch { handle: 1, epoch: 2, commit_no: 3, part: LAST_WHOLE, changes: every.to_vec(), records: app };
    let mut frames = vec![
        hello(5),
        wire::bind(9, 5, 2, &key("B")),
        wire::nack(9, 1),
        commit(1, 2, 3, &[change::record(1, b"a")]),
        wire::bound(1, [2, 3, 4], STAMP, b"m", 5),
        wire::hello(u16::MAX, u64::MAX, b"", &[0, 1, u16::MAX]),
        wire::batch(&full),
        wire::bound(u32::MAX, edges[2..5].try_into().expect("three"), LONG_STAMP, &[b'm'; 64], u64::MAX),
        wire::bound(0, [0; 3], b"", b"", 0),
    ];
    frames.extend(edges.iter().zip(edges.iter().rev()).map(|(a, b)| wire::welcome(*a, *b)));
    frames.extend(edges.map(|edge| wire::ack(u32::MAX, edge)));
    frames.extend(edges.map(|edge| wire::checked(0, edge, u64::MAX - edge)));
    frames.extend([2, 3, 4].map(|reason| wire::nack(0, reason)));
    frames.extend([COMMIT, WHOLE, LAST_WHOLE].map(|part| batch(part, 0, 0, 0, &[])));
    frames
}

/// RFC 3629's borders, both sides of each.
pub fn texts() -> Vec<Vec<u8>> {
    let borders = "00 7f 80 bf c080 c1bf c280 dfbf c27f c2c0 c2 e08080 e09fbf e0a080 e1bfbf ec8080 ed9fbf eda080 edbfbf \
        ee8080 efbfbf e2827f e282c0 e282 e27f80 f0808080 f08fbfbf f0908080 f3bfbfbf f48fbfbf f4908080 \
        f5808080 f7bfbfbf f8888080 fc8480808080 fe ff f09080 f090807f f0907f80 f07f8080 f0908080c3 61c3a962 \
        c3a9e282acf09f9880";
    let text = |text: &str| digits::read(text.as_bytes()).expect("digits");
    [""].into_iter().chain(borders.split(' ')).map(text).collect()
}

pub fn stamps() -> Vec<Vec<u8>> {
    [
        "20261115-12:00:00",
        "20261115-12:00:00.000",
        "00000101-00:00:00",
        "99991231-23:59:60.999",
        "20260228-00:00:00",
        "20260229-00:00:00",
        "20260230-00:00:00",
        "20240229-00:00:00",
        "20240230-00:00:00",
        "19000228-00:00:00",
        "19000229-00:00:00",
        "20000229-00:00:00.000",
        "20000230-00:00:00.000",
        "21000229-00:00:00.000",
        "00000229-00:00:00",
        "00000230-00:00:00",
        "20260131-00:00:00",
        "20260331-00:00:00",
        "20260332-00:00:00",
        "20260430-00:00:00",
        "20260431-00:00:00",
        "20260630-00:00:00",
        "20260631-00:00:00",
        "20260731-00:00:00",
        "20260831-00:00:00",
        "20260930-00:00:00",
        "20260931-00:00:00",
        "20261031-00:00:00",
        "20261130-00:00:00",
        "20261131-00:00:00",
        "20260001-00:00:00",
        "20261301-00:00:00",
        "20260100-00:00:00",
        "20260132-00:00:00",
        "20260101-23:59:60",
        "20260101-24:00:00",
        "20260101-00:60:00",
        "20260101-00:00:61",
        "20260101-00:00:00.00",
        "20260101-00:00:00.0000",
        "20260101-00:00:00.",
        "20260101-00:00:00,000",
        "20260101 00:00:00",
        "20260101-00-00-00",
        "2026010a-00:00:00",
        "20260101-0a:00:00",
        "20260101-00:00:0",
        " 20260101-00:00:00",
        "20260101-00:00:00\u{e9}",
        "20260101-00:00:00.0/0",
        "20260101-00:00:00.0:0",
        "2026\u{e9}01-00:00:00",
    ]
    .map(|stamp| stamp.as_bytes().to_vec())
    .into_iter()
    .chain(digits_behind())
    .collect()
}

/// Stamps of every count of digits behind the point up to 16, each last one also not a digit, and long ones of a day that isn't.
fn digits_behind() -> Vec<Vec<u8>> {
    let with = |digits: &str| format!("20261115-12:00:00.{digits}").into_bytes();
    let mut stamps: Vec<_> = (1..=16).map(|count| with(&"1234567890123456"[..count])).collect();
    stamps.extend(["12345/", "1234567:9", "12345678901x", "123 56", "1234567\u{e9}", "123.56"].map(with));
    stamps.extend(["20260230-00:00:00.123456", "20260101-24:00:00.123456789", "20240229-23:59:60.999999999999"].map(Into::into));
    stamps
}

/// Every frame with a stamp, read in version 2.
fn frames_with_stamps() -> Vec<Vec<u8>> {
    let frames = |stamp: Vec<u8>| [commit(1, 2, 3, &[change::created_at(&stamp)]), wire::bound(1, [1, 1, 0], &stamp, b"", 0)];
    let long = [commit(1, 2, 3, &stamped(LONGEST_STAMP)), wire::bound(1, [2, 3, 4], LONGEST_STAMP, &[b'm'; 64], 5)];
    let cut = |frame: Vec<u8>| (4..frame.len()).map(move |len| framed(&frame[4..len])).collect::<Vec<_>>();
    stamps().into_iter().flat_map(frames).chain(good_frames()).chain(long.into_iter().flat_map(cut)).collect()
}

pub fn marks() -> Vec<Vec<u8>> {
    let edges = [0x1f, 0x20, 0x7e, 0x7f].map(|byte| vec![b'm', byte]);
    let lengths = [63, 64, 65].map(|len| vec![b'm'; len]);
    edges.into_iter().chain(lengths).chain([Vec::new(), "\u{e9}".into(), vec![0x80], vec![b'm', 0xff]]).collect()
}

pub fn keys() -> Vec<Key> {
    let with = |at: usize, part: &[u8]| {
        let mut key = key("B");
        key[at] = part.to_vec();
        key
    };
    let parts: [&[u8]; 8] = [b"", b" ", b"~", b"\x1f", b"\x7f", &[b'k'; 32], &[b'k'; 33], "\u{e9}".as_bytes()];
    let faults = (0..4).flat_map(|at| parts.map(|part| with(at, part)));
    // Not UTF-8 comes first, in reading order, and the key's own rule after all four texts.
    let mut both = key("");
    both[3] = vec![0xff];
    let mut first = key("");
    first[0] = vec![0xc0];
    faults.chain([both, first]).collect()
}

/// Counts and lengths at their limit and one past it.
fn counts() -> Vec<Vec<u8>> {
    let hello = |count: u32, rest: &[u8]| Body::kind(1).u16(1).u64(0).blob(b"").u32(count).raw(rest).frame();
    let head = || Body::kind(4).u32(1).u64(2).u64(3).u8(0);
    let changes = |count: u32, rest: &[u8]| head().u32(count).raw(rest).frame();
    let app = |count: u32, rest: &[u8]| head().u32(0).u32(count).raw(rest).frame();
    let text = |len: u32, rest: &[u8]| Body::kind(1).u16(1).u64(0).u32(len).raw(rest).frame();
    let resets = [6; 3];
    let mut frames = Vec::new();
    for count in [0, 1, 2, 3, 4, 1 << 31, u32::MAX] {
        frames.push(hello(count, &[0; 6]));
        frames.push(changes(count, &[&resets[..], &[0; 4]].concat()));
        frames.push(changes(count, &resets));
        frames.push(app(count, &[0; 18]));
        frames.push(app(count, &[0; 17]));
        frames.push(text(count, b"abc\0\0\0\0"));
        frames.push(text(count, b"abc\0\0\0"));
        let record = |rest: &[u8]| head().u32(1).u8(4).u64(1).u32(count).raw(rest).frame();
        frames.push(record(b"abc\0\0\0\0"));
        frames.push(record(b"abc"));
    }
    // The first fault in reading order decides.
    frames.push(changes(2, &[&[9][..], &[0xff; 8]].concat()));
    frames.push(changes(1, &[0; 0]));
    frames.push(head().u32(2).raw(&change::marks(b"\x7f")).u8(9).u32(0).frame());
    frames.push(Body::kind(4).u32(1).u64(2).u64(3).u8(3).u32(u32::MAX).frame());
    frames
}

fn lines(frames: &[Vec<u8>]) -> String {
    frames.iter().map(|frame| digits::write(frame) + "\n").collect()
}

fn program_life() -> String {
    let changes = [change::created_at(STAMP), change::record(1, &[b'x'; 4096]), change::next_incoming_in_flight(3, 2)];
    lines(&[
        hello(1),
        wire::bind(1, 1, 0, &key("B")),
        wire::bind(1, 1, 1, &key("B")),
        commit(1, 1, 1, &changes),
        commit(1, 1, 2, &[change::record(2, b"y"), change::marks(b"m")]),
        wire::bind(2, 1, 0, &key("B")),
        batch(WHOLE, 2, 1, 1, &[change::reset(), change::record(1, b"z")]),
        batch(LAST_WHOLE, 2, 1, 2, &[change::bare_record(5), change::next_incoming(6), change::marks(b"")]),
        commit(2, 1, 3, &[change::record(6, b"six")]),
        wire::bind(3, 1, 0, &key("B")),
        wire::checked(1, 1, 7),
        wire::checked(1, 1, 8),
        wire::checked(1, 0, 7),
        hello(0),
        hello(2),
        commit(1, 2, 4, &[]),
    ])
}

/// 20 for a fifth session; 21 never comes, for the four places are enough where each of four sessions has one handle.
fn program_limits() -> String {
    let bind = |handle: u32, target: &str| wire::bind(handle, 0, 0, &key(target));
    let whole = |len: usize| batch(WHOLE, 1, 0, 1, &[change::reset(), change::record(1, &vec![b'x'; len])]);
    lines(&[
        bind(1, "a"),
        bind(2, "b"),
        bind(3, "c"),
        bind(4, "d"),
        bind(5, "e"),
        bind(5, "a"),
        bind(4, "e"),
        bind(4, "a"),
        commit(5, 0, 1, &[]),
        bind(1, "d"),
        // A hold area is 5,626 bytes: a Reset, 13 bytes and the message.
        whole(5613),
        whole(5612),
        batch(LAST_WHOLE, 1, 0, 2, &[]),
        bind(1, "a"),
        wire::bind(1, 0, 1, &key("a")),
    ])
}

fn program_versions() -> String {
    let (short, long) = (stamped(LONG_STAMP), stamped(LONGEST_STAMP));
    let whole = [change::reset(), change::created_at(b"20261115-12:00:00.123456"), change::record(1, b"m")];
    lines(&[
        // Version 1: 6. Then 11, 11, 12, which leave it.
        hello(1),
        wire::bind(1, 1, 0, &key("B")),
        commit(1, 1, 1, &long),
        hello_in(0, 1),
        hello_in(3, 1),
        wire::hello(LATEST, 1, b"a", &[1]),
        commit(1, 1, 1, &long),
        // Version 2: taken, told in a Bound, and sent whole; 6 for 7 digits.
        hello_in(LATEST, 1),
        wire::bind(1, 1, 0, &key("B")),
        commit(1, 1, 1, &long),
        commit(1, 1, 2, &stamped(b"20261115-12:00:00.1234567")),
        wire::bind(1, 1, 0, &key("B")),
        wire::bind(2, 1, 0, &key("C")),
        batch(WHOLE, 2, 1, 1, &whole),
        batch(LAST_WHOLE, 2, 1, 2, &[change::next_incoming(2), change::marks(b"m")]),
        wire::bind(2, 1, 0, &key("C")),
        // A lower Hello of version 1 is answered and leaves version 2.
        hello(0),
        commit(1, 1, 1, &long),
        // Back to 1: Nack StaleEpoch, Nack Lag, 32; a new session is bound; 6.
        hello(1),
        wire::bind(1, 0, 1, &key("B")),
        wire::bind(1, 1, 1, &key("B")),
        wire::bind(1, 1, 0, &key("B")),
        wire::bind(2, 1, 0, &key("C")),
        wire::bind(3, 1, 0, &key("D")),
        commit(3, 1, 1, &long),
        commit(3, 1, 1, &short),
        wire::bind(3, 1, 0, &key("B")),
        commit(3, 1, 2, &[]),
        // Version 2 again: B gets a short stamp, C keeps its own. Then B is bound in version 1.
        hello_in(LATEST, 2),
        wire::bind(1, 2, 0, &key("B")),
        commit(1, 2, 1, &short),
        hello(3),
        wire::bind(1, 3, 0, &key("B")),
        wire::bind(2, 3, 0, &key("C")),
        wire::checked(1, 3, 7),
    ])
}

fn program_inputs() -> Vec<(&'static str, Vec<u8>)> {
    let good = digits::write(&hello(5));
    let unbound = digits::write(&commit(9, 5, 1, &[]));
    // 16,384 digits are 8,192 bytes: a Hello with a long node.
    let longest = digits::write(&wire::hello(1, 5, &vec![b'n'; 8192 - 23], &[]));
    assert_eq!(longest.len(), 16_384, "the longest line");
    let longer = digits::write(&wire::hello(1, 5, &vec![b'n'; 8193 - 23], &[]));
    let faults = [
        "",
        "0",
        "0g",
        "0G",
        "0A",
        " ",
        "00 00",
        "00\r",
        "+0",
        "\u{e9}\u{e9}",
        "00",
        "000000",
        "00000000",
        "00000004",
        "01000004",
        "ffffffff",
        &good[..good.len() - 1],
        &good[..good.len() - 2],
        &format!("{good}00"),
        &format!("{good}{good}"),
        &unbound.to_uppercase(),
        &longest,
        &longer,
        &longest[1..],
        &good,
    ];
    let faults = faults.map(|line| format!("{line}\n")).concat();
    let mut random = Random(2);
    let mut rubbish: Vec<u8> = (0..3000).map(|_| random.next() as u8).collect();
    rubbish.extend(format!("\n{good}\n\0\n{good}\0\n").bytes());
    vec![
        ("01-document", format!("{good}\n{unbound}\n").into()),
        ("02-no-final-line-feed", format!("{good}\n{unbound}").into()),
        ("03-faults", faults.into()),
        ("04-empty", Vec::new()),
        ("05-one-empty-line", b"\n".into()),
        ("06-two-empty-lines", b"\n\n".into()),
        ("07-odd-at-the-end", format!("{good}\n0").into()),
        ("08-rubbish", rubbish),
        ("09-life", program_life().into()),
        ("10-limits", program_limits().into()),
        ("11-versions", program_versions().into()),
    ]
}

/// Sendings too long to write out: each frame by its length and FNV-1a.
fn large_sendings() -> String {
    let lengths: [&[usize]; 8] = [
        &[1_048_576, 0, 1],
        &[1_048_577, 0, 1],
        &[1_048_575, 1, 1, 1],
        &[524_288, 524_288, 7, 7],
        &[524_288, 524_289, 7, 7],
        &[1_048_577, 1_048_577, 1_048_577],
        &[0, 3_000_000, 0, 1_048_577],
        &[1_048_577],
    ];
    let doubled = |lengths: &[usize]| lengths.iter().map(|len| (1, *len)).collect::<Vec<_>>();
    let line = |lengths: &[usize]| {
        let lengths_text: Vec<_> = lengths.iter().map(usize::to_string).collect();
        format!("{} -> {}\n", lengths_text.join(","), frames_of(Line::HeadOffice, &doubled(lengths)))
    };
    lengths.into_iter().map(line).collect()
}

/// The same about the branch line's limit; before a message with a `+` two numbers are skipped.
fn branch_sendings() -> String {
    const LENGTHS: [&str; 19] = [
        "",
        "16384,0,1",
        "16385,1",
        "16383,1,1",
        "40000",
        "16384",
        "16385",
        "16384,+0,+1",
        "16385,+1",
        "16383,1,+1",
        "+16383,+1,+1",
        "+16385,+0,1",
        "8192,8192,7,7",
        "8192,8193,7,7",
        "8192,8193,+7,7",
        "16385,16385,+16385,16384,16385",
        "0,+40000,0,16385",
        "40000,+40000,40000",
        "16384,16384,16384,16384,16384,16384,16384,16384",
    ];
    let message = |word: &str| (if word.starts_with('+') { 2 } else { 0 }, word.parse().expect("a length"));
    let line = |text: &str| {
        let lengths: Vec<_> = text.split_terminator(',').map(message).collect();
        format!("{text} -> {}\n", frames_of(Line::Branch, &lengths))
    };
    LENGTHS.into_iter().map(line).collect()
}

/// Each frame of a sending, by its length and FNV-1a, where before each message so many numbers are skipped.
fn frames_of(line: Line, lengths: &[(u64, usize)]) -> String {
    let setting = crate::call::Setting::read("7 0 8000000 16 1 1").expect("a setting");
    let mut rust = Rust::make(&setting).expect("within the limits");
    rust.frame(&wire::bind(1, 0, 0, &key("B")), false).expect("taken");
    let mut next = 1;
    for (number, (skipped, len)) in (1..).zip(lengths) {
        let msg: Vec<u8> = (0..*len as u64).map(|at| ((number + at) % 251) as u8).collect();
        let seq = next + skipped;
        let bare = (seq > next).then(|| change::bare_record(seq - 1));
        let changes: Vec<_> = bare.into_iter().chain([change::record(seq, &msg)]).collect();
        rust.frame(&commit(1, 0, number, &changes), false).expect("taken");
        next = seq + 1;
    }
    let sent = rust.whole(line, (1, 0), 0, &key("B"), None);
    let frame = |frame: &Vec<u8>| format!("{}:{:016x}", frame.len(), fnv_1a(frame));
    sent.frames.iter().map(frame).collect::<Vec<_>>().join(" ")
}

/// FNV-1a, 64 bits.
pub fn fnv_1a(bytes: &[u8]) -> u64 {
    bytes.iter().fold(0xcbf2_9ce4_8422_2325, |hash, byte| (hash ^ u64::from(*byte)).wrapping_mul(0x100_0000_01b3))
}

/// Each frame once, with the answer in this version.
fn frame_lines(version: u16, mut frames: Vec<Vec<u8>>) -> String {
    let line = |frame: &Vec<u8>| format!("{} -> {}\n", digits::write(frame), read_by_rust(version, frame).text());
    let mut seen = std::collections::HashSet::new();
    frames.retain(|frame| seen.insert(frame.clone()));
    frames.iter().map(line).collect()
}

/// Every recorded file: its path below recorded/, and what stands in it.
pub fn files() -> Vec<(String, Vec<u8>)> {
    let mut files = vec![
        ("frames.txt".into(), frame_lines(FIRST, single_frames()).into()),
        ("frames-2.txt".into(), frame_lines(LATEST, frames_with_stamps()).into()),
        ("large-sendings.txt".into(), large_sendings().into()),
        ("branch-sendings.txt".into(), branch_sendings().into()),
    ];
    for (name, Script(text)) in scripts() {
        files.push((format!("scripts/{name}.out"), run::<Rust>(&text).into()));
        files.push((format!("scripts/{name}.in"), text.into()));
    }
    for (name, Script(text)) in difference_scripts() {
        files.push((format!("differences/{name}.out"), run::<Rust>(&text).into()));
        differences::leave_out(true);
        files.push((format!("differences/{name}.alone"), run::<Rust>(&text).into()));
        differences::leave_out(false);
        files.push((format!("differences/{name}.in"), text.into()));
    }
    for (name, input) in program_inputs() {
        files.push((format!("frames/{name}.out"), program(&input).into()));
        files.push((format!("frames/{name}.in"), input));
    }
    files
}

pub fn record(folder: &Path) -> io::Result<usize> {
    for part in ["scripts", "frames", "differences"] {
        fs::create_dir_all(folder.join(part))?;
    }
    let files = files();
    for (name, contents) in &files {
        fs::write(folder.join(name), contents)?;
    }
    Ok(files.len())
}
