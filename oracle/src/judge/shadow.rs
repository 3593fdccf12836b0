//! What a call may write of the areas that it is lent. A copy of them is moved on after each call: what the call surely
//! writes is written into it, what the call may write is taken over, and all else must be equal.

use std::ops::Range;

use crate::call::{Call, Counter, Setting};
use crate::library::{Areas, Place, Size};
use crate::rust::Holding;
use crate::walk::{self, Change, Walk};
use crate::wire;

/// The kinds of frames, by document 01's table.
const WELCOME: u8 = 2;
const BATCH: u8 = 4;
const ACK: u8 = 5;
const NACK: u8 = 6;
const BOUND: u8 = 7;

/// The words of a place: durable, the lengths of the marks and of the key's texts, the log's head and tail, its entries.
const DURABLE: usize = 4;
const MARKS_LEN: usize = 6;
const KEY_LENS: usize = 7;
const HEAD: usize = 14;
const TAIL: usize = 15;
const ENTRIES: usize = 16;

/// The bytes of a place: the key's four texts of 32 come first, then stamp, marks and the ring of messages.
const STAMP: usize = 128;
const MARKS: usize = 160;
const RING: usize = 224;

/// What a call may have written.
#[derive(Default)]
struct Free {
    words: Vec<Range<usize>>,
    bytes: Vec<Range<usize>>,
    row: Records,
    /// The held length that a record must have.
    held_len: Option<(usize, u64)>,
}

#[derive(Default)]
enum Records {
    #[default]
    Stay,
    One(usize),
    StayOrAreFreed,
}

pub struct Shadow {
    areas: Areas,
    size: Size,
    hold: usize,
    /// All changes of the last Whole or LastWhole, joined to those held.
    joined: Vec<u8>,
    /// What the last Whole did with the words of its place.
    pub wrote: Option<&'static str>,
}

/// What a Whole may do with the words of its place.
pub const WAYS: [&str; 4] = ["a segment closed", "a word cleared", "no word left", "no word lent"];

/// What a run of changes writes besides numbers.
#[derive(Default)]
struct Written {
    changes: usize,
    stamp: usize,
    marks: usize,
    resets: bool,
    messages: Vec<usize>,
}

impl Written {
    fn by(run: &[u8]) -> Self {
        let mut written = Self::default();
        for change in walk::changes(run) {
            written.changes += 1;
            match change {
                Change::Record(_, message) => written.messages.push(message.len()),
                Change::Reset => written.resets = true,
                Change::Stamp(stamp) => written.stamp = written.stamp.max(stamp.len()),
                Change::Marks(marks) => written.marks = written.marks.max(marks.len()),
                Change::Numbers => {}
            }
        }
        written
    }
}

/// The ranges that `count` items from `start` take of a ring of `len`.
fn in_ring(start: usize, count: usize, len: usize) -> [Range<usize>; 2] {
    let start = start.checked_rem(len).unwrap_or(0);
    let end = start + count.min(len);
    [start..end.min(len), 0..end.saturating_sub(len)]
}

/// The first item that differs outside the ranges, which are put in order.
fn first_change<T: PartialEq>(ours: &[T], copy: &[T], free: &mut [Range<usize>]) -> Option<usize> {
    free.sort_by_key(|range| range.start);
    let mut from = 0;
    for range in free.iter().chain([&(copy.len()..copy.len())]) {
        let until = range.start.max(from);
        if ours[from..until] != copy[from..until] {
            return (from..until).find(|at| ours[*at] != copy[*at]);
        }
        from = range.end.max(from);
    }
    None
}

fn take_over<T: Copy>(ours: &[T], copy: &mut [T], free: Vec<Range<usize>>) {
    free.into_iter().for_each(|range| copy[range.clone()].copy_from_slice(&ours[range]));
}

/// The kind of the frame that an answer's digits show; none of a refusal.
fn kind(answer: &str) -> Option<u8> {
    u8::from_str_radix(answer.get(8..10)?, 16).ok()
}

fn handle(frame: &[u8]) -> u32 {
    Walk(&frame[5..]).u32()
}

/// Whether a refusal comes before the commits that are due run.
fn is_early(answer: &str) -> bool {
    matches!(answer, "R 1" | "R 2" | "R 3" | "R 4" | "R 5" | "R 6" | "R 7" | "R 10" | "R 25" | "R 26")
}

impl Shadow {
    /// The areas after making: only the two counts are written.
    pub fn new(setting: &Setting, size: Size) -> Self {
        let hold = setting.hold as usize;
        let mut areas = Areas::new(size, setting.handles as usize, hold, setting.ends() as usize);
        areas.words[..2].fill(0);
        Self { areas, size, hold, joined: Vec::new(), wrote: None }
    }

    /// Looks at the areas after a call that gave this answer; the first thing that isn't as it must be.
    pub fn look(&mut self, areas: &Areas, call: &Call, answer: &str, held: Option<Holding>) -> Result<(), String> {
        held.into_iter().for_each(|held| self.hold(held));
        let free = self.moved_on(areas, call, answer);
        self.compare(areas, free)
    }

    /// Takes over the words of the hold areas, which the driver has changed.
    pub fn lend(&mut self, areas: &Areas) {
        self.areas.ends.clone_from(&areas.ends);
    }

    /// Compares the areas with the copy, and takes over what may have been written.
    fn compare(&mut self, areas: &Areas, mut free: Free) -> Result<(), String> {
        let wrong = |what: &str, at: usize| Err(format!("{what} {at} isn't as the call must leave it"));
        let copy = &mut self.areas;
        if let Some(at) = first_change(&areas.words, &copy.words, &mut free.words) {
            return wrong("word", at);
        }
        if let Some(at) = first_change(&areas.bytes, &copy.bytes, &mut free.bytes) {
            return wrong("byte", at);
        }
        if let Some(at) = first_change(&areas.holds, &copy.holds, &mut []) {
            return wrong("byte of the hold areas", at);
        }
        if let Some(at) = first_change(&areas.ends, &copy.ends, &mut []) {
            return wrong("word of the hold areas", at);
        }
        let mut row = match free.row {
            Records::One(at) => vec![at..at + 1],
            Records::StayOrAreFreed if areas.row.iter().all(|record| record.used == 0) => vec![0..areas.row.len()],
            _ => Vec::new(),
        };
        if let Some(at) = first_change(&areas.row, &copy.row, &mut row) {
            return wrong("record", at);
        }
        if let Some((at, len)) = free.held_len
            && areas.row[at].held_len != len
        {
            return wrong("held length of record", at);
        }
        take_over(&areas.words, &mut copy.words, free.words);
        take_over(&areas.bytes, &mut copy.bytes, free.bytes);
        copy.row.clone_from(&areas.row);
        Ok(())
    }

    /// The changes stand behind those held. A Whole writes a word besides.
    fn hold(&mut self, Holding { handle, mut before, form, is_last }: Holding) {
        let index = self.areas.index(handle).expect("a bound handle");
        let start = index * self.hold + before.len();
        self.areas.holds[start..start + form.len()].copy_from_slice(&form);
        if !is_last {
            self.close(index, (before.len() + form.len()) as u64);
        }
        before.extend(form);
        self.joined = before;
    }

    /// Those words of a place count that are above all before them, the first above 0, and within the length held. The word behind them
    /// becomes the new length if from the last of them on there are 65,536 bytes, else 0.
    fn close(&mut self, index: usize, len: u64) {
        let held = self.areas.row[index].held_len;
        let share = self.areas.ends.len() / self.areas.row.len();
        self.wrote = Some(WAYS[if share > 0 { 2 } else { 3 }]);
        let mut from = 0;
        for word in &mut self.areas.ends[index * share..][..share] {
            if *word <= from || *word > held {
                let closed = len >= from + 65_536;
                *word = if closed { len } else { 0 };
                self.wrote = Some(WAYS[usize::from(!closed)]);
                return;
            }
            from = *word;
        }
    }

    /// Moves the copy on by what a call surely wrote; what else it may have written.
    fn moved_on(&mut self, areas: &Areas, call: &Call, answer: &str) -> Free {
        match call {
            Call::Held(frame) => self.frame(areas, frame, answer),
            Call::Frame(frame) => {
                let free = self.frame(areas, frame, answer);
                if kind(answer).is_some() {
                    self.run_pending();
                }
                free
            }
            Call::Flush(_) if answer == "ok" => {
                self.run_pending();
                Free::default()
            }
            Call::Drop(_) => {
                if areas.words[1] == 0 {
                    self.areas.words[1] = 0;
                }
                Free { row: Records::StayOrAreFreed, ..Free::default() }
            }
            Call::Promote | Call::Unchecked if answer == "ok" => self.promotion(),
            Call::Import { .. } if answer == "ok" => self.imported(),
            Call::Set(counter) => {
                self.areas.row.clone_from(&areas.row);
                if matches!(counter, Counter::Held(..)) {
                    self.areas.holds.clone_from(&areas.holds);
                    self.areas.ends.clone_from(&areas.ends);
                }
                Free::default()
            }
            _ => Free::default(),
        }
    }

    fn frame(&mut self, areas: &Areas, frame: &[u8], answer: &str) -> Free {
        if is_early(answer) {
            return Free::default();
        }
        self.run_due(frame);
        let record = |index: Option<usize>| index.map_or(Records::Stay, Records::One);
        let row = match (kind(answer), frame[4]) {
            (Some(ACK), BATCH) => return self.acknowledged(frame),
            (Some(BOUND), _) => {
                self.bind(areas, handle(frame));
                return if areas.words[0] > self.areas.words[0] { self.opened(frame) } else { Free::default() };
            }
            (Some(WELCOME), _) => Records::StayOrAreFreed,
            // A wrong commit number and a LastWhole that doesn't fit let held changes go.
            (Some(NACK), BATCH) if answer.ends_with("02") => {
                let index = self.areas.index(handle(frame));
                return Free { row: record(index), held_len: index.map(|at| (at, 0)), ..Free::default() };
            }
            (None, BATCH) if answer == "R 17" => record(self.areas.index(handle(frame))),
            _ => Records::Stay,
        };
        Free { row, ..Free::default() }
    }

    /// Pending commits mark their sessions.
    fn run_pending(&mut self) {
        for at in 2..2 + self.areas.words[1] as usize {
            let place = self.areas.words[at] >> 32;
            self.areas.words[self.size.start(place as usize).0 + DURABLE] = 1;
        }
        self.areas.words[1] = 0;
    }

    /// Pending commits run before any frame but a Batch, and before that if 64 pend or one on its handle.
    fn run_due(&mut self, frame: &[u8]) {
        let pending = &self.areas.words[2..][..self.areas.words[1] as usize];
        let on_handle = || pending.iter().any(|word| *word as u32 == handle(frame));
        if frame[4] != BATCH || pending.len() >= 64 || on_handle() {
            self.run_pending();
        }
    }

    /// The record of another handle on the session is freed and keeps its other fields; the handle's stands at its own place,
    /// else at the first that is free then.
    fn bind(&mut self, areas: &Areas, handle: u32) {
        let Some(place) = areas.index(handle).map(|index| areas.row[index].place) else { return };
        let own = self.areas.index(handle);
        let row = &mut self.areas.row;
        let goes = |record: &&mut Place| record.used != 0 && record.place == place && record.handle != handle;
        row.iter_mut().filter(goes).for_each(|record| record.used = 0);
        let index = own.or_else(|| row.iter().position(|record| record.used == 0)).expect("a free place");
        row[index] = Place { used: 1, handle, place, ..Place::default() };
    }

    /// A new session at the next place: its key's texts, and what a Reset writes.
    fn opened(&mut self, frame: &[u8]) -> Free {
        let place = self.areas.words[0] as usize;
        self.areas.words[0] += 1;
        let (w, b) = self.size.start(place);
        let mut walk = Walk(&frame[4 + 1 + 4 + 8 + 8..]);
        let text = |at| b + at..b + at + walk.blob().len();
        let bytes = [0, 32, 64, 96].map(text).into();
        let words = [w..w + 3, w + DURABLE..w + KEY_LENS + 4].into_iter().chain([self.newest(place)]).collect();
        Free { words, bytes, ..Free::default() }
    }

    /// A session built at the next place: nothing outside of it and the count.
    fn imported(&mut self) -> Free {
        let place = self.areas.words[0] as usize;
        self.areas.words[0] += 1;
        let ((w, b), (w_end, b_end)) = (self.size.start(place), self.size.start(place + 1));
        Free { words: vec![w..w_end], bytes: vec![b..b_end], ..Free::default() }
    }

    /// A Whole is held; a Commit or LastWhole is applied, and pends.
    fn acknowledged(&mut self, frame: &[u8]) -> Free {
        let index = self.areas.index(handle(frame)).expect("a bound handle");
        let row = Records::One(index);
        let (part, form) = (frame[25], walk::form(frame));
        if part == wire::WHOLE {
            return Free { row, held_len: Some((index, self.joined.len() as u64)), ..Free::default() };
        }
        let run = if part == wire::COMMIT { form } else { &self.joined[..] };
        let place = self.areas.row[index].place;
        let free = Free { row, held_len: Some((index, 0)), ..self.applied(place as usize, &Written::by(run)) };
        let pending = self.areas.words[1];
        self.areas.words[2 + pending as usize] = place << 32 | u64::from(handle(frame));
        self.areas.words[1] = pending + 1;
        free
    }

    /// What changes may write of their place: its numbers, its stamp and marks, and the log where it goes on.
    fn applied(&self, place: usize, written: &Written) -> Free {
        if written.changes == 0 {
            return Free::default();
        }
        let (w, b) = self.size.start(place);
        let (c, m) = (self.size.bytes as usize, self.size.messages as usize);
        let mut words = vec![w..w + KEY_LENS];
        let mut bytes = vec![b + STAMP..b + STAMP + written.stamp, b + MARKS..b + MARKS + written.marks];
        if written.resets {
            words.push(self.newest(place));
        }
        let kept: Vec<usize> = written.messages.iter().copied().filter(|len| m > 0 && *len <= c).collect();
        if !kept.is_empty() {
            let (head, tail) = self.log(place);
            words.push(w + HEAD..w + ENTRIES);
            let entry = |slot: Range<usize>| w + ENTRIES + 2 * slot.start..w + ENTRIES + 2 * slot.end;
            words.extend(in_ring(head, kept.len(), m).map(entry));
            let part = |range: Range<usize>| b + RING + range.start..b + RING + range.end;
            bytes.extend(in_ring(tail, kept.iter().sum(), c).map(part));
        }
        Free { words, bytes, ..Free::default() }
    }

    /// A log's head and tail; one out of range counts as 0.
    fn log(&self, place: usize) -> (usize, usize) {
        let (w, _) = self.size.start(place);
        let within = |word: usize, most: u64| if self.areas.words[word] <= most { self.areas.words[word] } else { 0 };
        let (head, tail) = (within(w + HEAD, self.size.messages.into()), within(w + TAIL, self.size.bytes.into()));
        (head as usize, tail as usize)
    }

    /// The number of a log's newest entry, which a Reset ends.
    fn newest(&self, place: usize) -> Range<usize> {
        let (w, m) = (self.size.start(place).0, self.size.messages as usize);
        let slot = (self.log(place).0 + m).saturating_sub(1).checked_rem(m);
        slot.map_or(0..0, |slot| w + ENTRIES + 2 * slot..w + ENTRIES + 2 * slot + 1)
    }

    /// Every session is taken over: next outgoing, durable, and a final B with the marks' length.
    fn promotion(&mut self) -> Free {
        self.areas.words[1] = 0;
        let mut free = Free { row: Records::StayOrAreFreed, ..Free::default() };
        for place in 0..self.areas.words[0] as usize {
            let (w, b) = self.size.start(place);
            let last = b + MARKS + self.areas.words[w + MARKS_LEN].min(63) as usize;
            free.words.extend([w, w + DURABLE, w + MARKS_LEN].map(|at| at..at + 1));
            free.bytes.push(last..last + 1);
        }
        free
    }
}
