//! A stand-in for our side: document 01, and U2, U4, U7, U9 and U10 of document 02, read a second time, without the Rust and without the
//! areas' real layout, but for the counts and the durable mark. It tries the comparison out, and faults can be put into
//! it one at a time (WIZHDULET_FAULT) to see that the comparison finds each.

pub mod read;
pub mod segments;
mod session;

use std::cell::RefCell;
use std::collections::{BTreeMap, HashMap};

use crate::faults::fault;
use crate::call::Key;
use crate::fix;
use crate::library::{Areas, Ask, Counters, Imported, Place, Resent, Settings, Size};
use crate::wire;
use read::{Batch, Change, Fault, Frame, LATEST};
use segments::Held;
use session::{SHORT, Session};

const WORK: u64 = 1 << 63;

/// Writes an answer, or says 9.
fn put(out: &mut [u8], answer: &[u8]) -> u64 {
    let Some(out) = out.get_mut(..answer.len()) else { return refusal(9) };
    out.copy_from_slice(answer);
    WORK + answer.len() as u64
}

fn refusal(number: u32) -> u64 {
    u64::from(number) << 40
}

thread_local! {
    /// The sessions of each store, by where its words lie.
    static STORES: RefCell<HashMap<usize, Vec<Session>>> = RefCell::default();
}

/// The name of a store.
fn store(areas: &Areas) -> usize {
    areas.words.as_ptr() as usize
}

/// The versions that there are (document 02, U7).
fn is_version(version: u16) -> bool {
    version == 1 || version == 2
}

pub fn frame(frame: &[u8], out: &mut [u8], version: u16) -> u64 {
    if !is_version(version) {
        return refusal(11);
    }
    match read::read(frame, version) {
        Err(Fault::More) => 0,
        Err(Fault::Refused(4, _)) if fault(1) => refusal(2),
        Err(Fault::Refused(number, detail)) => refusal(number) + detail,
        Ok((_, used)) => put(out, &frame[..used as usize]),
    }
}

pub fn read(bytes: &[u8], version: u16) -> u64 {
    frame(bytes, &mut vec![0; bytes.len()], version)
}

/// All that a call works on.
struct Standby<'a> {
    counters: &'a mut Counters,
    row: &'a mut [Place],
    words: &'a mut [u64],
    holds: &'a mut [u8],
    ends: &'a mut [u64],
    sessions: Vec<Session>,
    size: Size,
    places: u64,
    c: u64,
    m: u64,
    incarnation: u64,
    lag: u64,
    hold: u64,
}

type Answer = Result<Vec<u8>, u32>;

const STALE_EPOCH: u8 = 1;
const DIVERGED: u8 = 2;
const LAG: u8 = 3;
const RESTARTED: u8 = 4;

impl Standby<'_> {
    fn pending(&self) -> &[u64] {
        &self.words[2..][..self.words[1] as usize]
    }

    fn run_pending(&mut self) {
        for word in self.pending().to_vec() {
            let place = (word >> 32) as usize;
            self.sessions[place].durable = true;
            self.words[self.size.start(place).0 + 4] = 1;
        }
        self.words[1] = 0;
    }

    /// The rules of the row: places in use, held lengths that fit, and no two used records with one place or one handle.
    fn keeps_rules(&self) -> bool {
        let used: Vec<&Place> = self.row.iter().filter(|record| record.used != 0).collect();
        let fits = |record: &&Place| record.place < self.sessions.len() as u64 && record.held_len <= self.hold;
        let places = |a: &Place, b: &Place| if fault(36) { a.place % 256 != b.place % 256 } else { a.place != b.place };
        let handles = |a: &Place, b: &Place| {
            let low = fault(35) && a.handle % 256 == b.handle % 256;
            !low && (a.handle != b.handle || fault(33) && a.handle > 255)
        };
        let apart = |a: &Place, b: &Place| (places(a, b) || fault(31)) && (handles(a, b) || fault(32));
        let before = |at: usize| if fault(34) { at.saturating_sub(1)..at } else { 0..at };
        used.iter().all(fits) && (0..used.len()).all(|at| used[before(at)].iter().all(|a| apart(a, used[at])))
    }

    fn drop_bindings(&mut self) {
        self.row.iter_mut().for_each(|place| place.used = 0);
        self.words[1] = 0;
    }

    fn index(&self, handle: u32) -> Option<usize> {
        self.row.iter().position(|place| place.used != 0 && place.handle == handle)
    }

    fn flush(&mut self, connection: u64) -> Answer {
        if connection != self.counters.connections || self.counters.promoted != 0 {
            return Err(22);
        }
        self.run_pending();
        Ok(Vec::new())
    }

    fn promote(&mut self, unchecked: bool) -> Answer {
        if !unchecked && self.counters.checked == 0 {
            return Err(23);
        }
        self.counters.promoted = 1;
        if fault(45) {
            self.counters.version2 = 0;
        }
        self.drop_bindings();
        let lag = self.lag;
        self.sessions.iter_mut().for_each(|session| session.taken_over(lag));
        Ok(Vec::new())
    }

    fn on_frame(&mut self, bytes: &[u8], held: bool) -> Answer {
        let frame = match read::read(bytes, self.version()) {
            Ok((frame, used)) if used == bytes.len() as u64 => frame,
            Ok(_) | Err(Fault::More) => return Err(26),
            Err(Fault::Refused(number, _)) => return Err(number),
        };
        if self.counters.promoted != 0 {
            return Err(10);
        }
        let due = match &frame {
            Frame::Batch(batch) => {
                self.words[1] >= if fault(18) { 63 } else { 64 }
                    || self.pending().iter().any(|word| *word as u32 == batch.handle)
            }
            Frame::Bind { key, .. } if fault(50) => {
                let version = self.version();
                self.sessions.iter().all(|session| session.key != *key || session.suits(version))
            }
            _ => true,
        };
        if due && !fault(2) {
            self.run_pending();
        }
        let answer = self.take(frame)?;
        if !held {
            self.run_pending();
        }
        Ok(answer)
    }

    fn take(&mut self, frame: Frame) -> Answer {
        match frame {
            Frame::Hello { version, .. } if !is_version(version) && !(fault(44) && version == 3) => Err(11),
            Frame::Hello { kinds, version, .. } if kinds > 0 => {
                if fault(46) {
                    self.speak(version);
                }
                Err(12)
            }
            Frame::Hello { version, epoch, .. } => {
                if epoch >= self.counters.epoch || fault(39) {
                    self.speak(version);
                }
                if epoch >= self.counters.epoch {
                    self.drop_bindings();
                    self.counters.connections = self.counters.connections.saturating_add(1);
                    self.counters.epoch = epoch;
                }
                Ok(wire::welcome(self.counters.epoch, self.incarnation))
            }
            Frame::Bind { handle, epoch, max_lag, key } => self.bind(handle, epoch, max_lag, key),
            Frame::Batch(batch) => self.batch(&batch),
            Frame::Checked { handle, epoch, .. } if epoch < self.counters.epoch => Ok(wire::nack(handle, STALE_EPOCH)),
            Frame::Checked { handle, incarnation, .. } if incarnation != self.incarnation => {
                Ok(wire::nack(handle, RESTARTED))
            }
            Frame::Checked { handle, epoch, .. } => {
                self.counters.epoch = epoch;
                self.counters.checked = 1;
                Ok(wire::ack(handle, 0))
            }
            Frame::Other => Err(19),
        }
    }

    /// The connection's version (document 02, U7): 1 until a Hello is accepted, then that Hello's.
    fn version(&self) -> u16 {
        if self.counters.version2 == 0 || fault(53) && self.counters.version2 != 1 { 1 } else { 2 }
    }

    fn speak(&mut self, version: u16) {
        let kept = fault(37) || fault(51) && version == 1;
        if !kept {
            self.counters.version2 = u8::from(version != 1);
        }
    }

    fn bind(&mut self, handle: u32, epoch: u64, max_lag: u64, key: [Vec<u8>; 4]) -> Answer {
        if epoch < self.counters.epoch {
            return Ok(wire::nack(handle, STALE_EPOCH));
        }
        let known = self.sessions.iter().position(|session| session.key == key);
        let long = known.is_some_and(|known| !self.sessions[known].suits(self.version()) && !fault(42));
        if long && fault(41) {
            return Err(32);
        }
        if max_lag > self.lag {
            if fault(26) {
                self.remove(self.other(handle, known.unwrap_or(usize::MAX) as u64));
            }
            return Ok(wire::nack(handle, LAG));
        }
        if long && !fault(40) {
            if fault(52) {
                self.remove(self.other(handle, known.unwrap_or(usize::MAX) as u64));
            }
            return Err(32);
        }
        if known.is_none() && self.sessions.len() as u64 >= self.places {
            return Err(20);
        }
        let place = known.unwrap_or(self.sessions.len()) as u64;
        let other = self.other(handle, place);
        let index = self.place_for(handle, other).ok_or(21_u32)?;
        if long {
            return Err(32);
        }
        if known.is_none() {
            self.sessions.push(Session::new(key));
        }
        if fault(3) {
            self.counters.epoch = epoch;
        }
        let held = other.filter(|_| fault(23)).map(|other| self.row[other].clone()).unwrap_or_default();
        self.remove(other);
        if fault(25) {
            self.remove(self.index(handle));
        }
        let Place { held_len, held_bytes, .. } = held;
        self.row[index] = Place { used: 1, handle, place, commit_no: 0, held_len, held_bytes };
        self.words[0] = self.sessions.len() as u64;
        let session = &self.sessions[place as usize];
        let numbers = [session.out, session.incoming, session.flight.unwrap_or(0)];
        let short = if self.version() == 1 { SHORT } else { usize::MAX };
        let stamp = &session.stamp[..session.stamp.len().min(short)];
        Ok(wire::bound(handle, numbers, stamp, &session.marks, session.last_outgoing(max_lag)))
    }

    /// One handle for a session (document 02, U4): where another handle that holds it stands.
    fn other(&self, handle: u32, place: u64) -> Option<usize> {
        let holds = |record: &Place| record.used != 0 && record.place == place && record.handle != handle;
        self.row.iter().position(holds)
    }

    /// Where a handle's record goes: its own place, else the first of those that are free, the other's counted.
    fn place_for(&self, handle: u32, other: Option<usize>) -> Option<usize> {
        let free = self.row.iter().position(|record| record.used == 0);
        let own = self.index(handle).filter(|_| !fault(25) || free.is_none());
        let first = match (free, other) {
            (free, _) if fault(24) => free,
            (Some(free), Some(_)) if fault(27) => Some(free),
            (Some(_), Some(other)) if fault(28) => Some(other),
            (Some(free), Some(other)) => Some(free.min(other)),
            (free, other) => free.or(other),
        };
        own.or(first)
    }

    /// Frees a record, which keeps its other fields; what it held stands where it stood.
    fn remove(&mut self, index: Option<usize>) {
        let Some(index) = index.filter(|_| !fault(22)) else { return };
        self.row[index].used = 0;
        if fault(29) {
            self.row[index] = Place::default();
        }
        if fault(30) && self.hold > 0 {
            self.holds[index * self.hold as usize] ^= 1;
        }
    }

    fn hold_start(&self, index: usize) -> usize {
        index * self.hold as usize
    }

    /// The words of a place.
    fn words_of(&mut self, index: usize) -> &mut [u64] {
        let index = index + usize::from(fault(72));
        segments::own(self.ends, self.row.len() as u64, index as u64)
    }

    fn held(&mut self, index: usize) -> Held {
        let (start, len) = (self.hold_start(index), self.row[index].held_len as usize);
        let version = if fault(54) { self.version() } else { LATEST };
        let words = segments::own(self.ends, self.row.len() as u64, index as u64);
        segments::held(version, &self.holds[start..start + len], words)
    }

    /// Holds a part: 16, 17, 18, or its changes written after those held, which it gives.
    fn hold(&mut self, index: usize, batch: &Batch) -> Result<Vec<Change>, u32> {
        let before = self.held(index);
        let none = before.changes.is_empty();
        let held_bytes = if none { 0 } else { self.row[index].held_bytes };
        if none && !matches!(batch.changes.first(), Some(Change::Reset)) {
            return Err(16);
        }
        let of = |change: &Change| if let Change::Record(_, Some(msg)) = change { msg.len() as u64 } else { 0 };
        let sum = held_bytes.saturating_add(batch.changes.iter().map(of).sum());
        if sum > 4_294_967_296 {
            self.row[index].held_len = before.used as u64;
            self.row[index].held_bytes = if fault(5) { held_bytes } else { sum };
            return Err(17);
        }
        let len = (before.used + batch.form.len()) as u64;
        if len > self.hold {
            return Err(18);
        }
        let start = self.hold_start(index) + before.used;
        self.holds[start..start + batch.form.len()].copy_from_slice(&batch.form);
        if fault(10) && (start + batch.form.len()) % self.hold as usize != 0 {
            self.holds[start + batch.form.len()] = 0;
        }
        (self.row[index].held_len, self.row[index].held_bytes) = (len, sum);
        if batch.part == wire::WHOLE || fault(73) {
            segments::close(self.words_of(index), &before, len as usize);
        }
        Ok(before.changes)
    }

    fn let_go(&mut self, index: usize) {
        (self.row[index].held_len, self.row[index].held_bytes) = (0, 0);
    }

    fn batch(&mut self, batch: &Batch) -> Answer {
        let Batch { handle, epoch, commit_no, part, .. } = *batch;
        if batch.records > 0 {
            return Err(13);
        }
        if fault(15) && self.index(handle).is_some_and(|index| commit_no != self.row[index].commit_no + 1) {
            return Ok(wire::nack(handle, DIVERGED));
        }
        if epoch < self.counters.epoch {
            return Ok(wire::nack(handle, STALE_EPOCH));
        }
        self.counters.epoch = epoch;
        if fault(11) && self.index(handle).is_none() {
            self.words[65] ^= 1;
        }
        let index = self.index(handle).ok_or(14_u32)?;
        if self.row[index].commit_no.checked_add(1) != Some(commit_no) {
            self.let_go(index);
            return Ok(wire::nack(handle, DIVERGED));
        }
        match part {
            wire::COMMIT if !self.held(index).changes.is_empty() => Err(15),
            wire::COMMIT => {
                // Where nothing is held the record says so, whatever it said before.
                self.row[index].held_len = 0;
                self.commit(index, commit_no, &batch.changes)
            }
            _ => self.whole(index, batch),
        }
    }

    /// A Whole is held, a LastWhole joined to all held before it.
    fn whole(&mut self, index: usize, batch: &Batch) -> Answer {
        let Batch { handle, commit_no, part, .. } = *batch;
        let mut changes = self.hold(index, batch)?;
        if part == wire::WHOLE {
            if fault(17) {
                let session = &mut self.sessions[self.row[index].place as usize];
                batch.changes.iter().for_each(|change| session.apply(change, self.c, self.m));
            }
            self.row[index].commit_no = commit_no;
            return Ok(wire::ack(handle, commit_no));
        }
        changes.extend(batch.changes.iter().cloned());
        if !fault(6) {
            self.let_go(index);
        }
        self.commit(index, commit_no, &changes)
    }

    fn commit(&mut self, index: usize, commit_no: u64, changes: &[Change]) -> Answer {
        let Place { handle, place, .. } = self.row[index];
        let session = &mut self.sessions[place as usize];
        if !session.fits(changes) && !(fault(7) && changes.len() > 3) {
            return Ok(wire::nack(handle, DIVERGED));
        }
        if !(fault(16) && changes.len() > 4) {
            changes.iter().for_each(|change| session.apply(change, self.c, self.m));
        }
        self.words[2 + self.words[1] as usize] = place << 32 | u64::from(handle);
        self.words[1] += 1;
        self.row[index].commit_no = commit_no;
        Ok(wire::ack(handle, commit_no))
    }
}

/// What a call gives: the answer's frame, or a refusal; and the lowest message on hand, if it is handed up (document 02, U10).
pub struct Said(pub Answer, Option<u64>);

impl Said {
    pub fn handed_up(&self) -> Option<u64> {
        self.1
    }
}

impl Standby<'_> {
    /// Of a Commit or LastWhole that is acknowledged, the first number that its session still has.
    fn lowest(&self, frame: &[u8], answer: &Answer) -> Option<u64> {
        let acknowledged = matches!(answer, Ok(answer) if answer.get(4) == Some(&5));
        if !acknowledged || frame[4] != 4 || (frame[25] == 1) != fault(74) {
            return None;
        }
        let handle = u32::from_le_bytes([frame[5], frame[6], frame[7], frame[8]]);
        let messages = &self.sessions[self.row[self.index(handle)?].place as usize].messages;
        let told = if fault(75) { messages.last() } else { messages.first() };
        Some(told.map_or(0, |(number, _)| *number))
    }
}

/// Makes a store, and a standby over it.
pub fn made(_: &mut Counters, areas: &mut Areas, settings: Settings) -> u64 {
    if settings.size.bytes > 33_554_432 || settings.size.messages > 65_536 {
        return refusal(25);
    }
    areas.words[..2].fill(0);
    STORES.with_borrow_mut(|stores| stores.insert(store(areas), Vec::new()));
    WORK
}

pub fn said(counters: &mut Counters, areas: &mut Areas, settings: Settings, ask: Ask) -> Said {
    let store = store(areas);
    let Size { sessions, bytes: c, messages: m } = settings.size;
    let mut standby = Standby {
        counters,
        hold: (areas.holds.len() / areas.row.len().max(1)) as u64,
        row: &mut areas.row,
        words: &mut areas.words,
        holds: &mut areas.holds,
        ends: &mut areas.ends,
        sessions: STORES.with_borrow_mut(|stores| stores.remove(&store)).unwrap_or_default(),
        size: settings.size,
        places: sessions.into(),
        c: c.into(),
        m: m.into(),
        incarnation: settings.incarnation.max(1),
        lag: settings.max_lag,
    };
    let answer = match ask {
        _ if !standby.keeps_rules() => Err(25),
        Ask::Held(frame) => standby.on_frame(frame, true),
        Ask::Frame(frame) => standby.on_frame(frame, false),
        Ask::Flush(connection) => standby.flush(connection),
        Ask::Drop(connection) => {
            if connection == standby.counters.connections || fault(8) {
                standby.drop_bindings();
                if fault(38) {
                    standby.counters.version2 = 0;
                }
            }
            Ok(Vec::new())
        }
        Ask::Promote => standby.promote(false),
        Ask::Unchecked => standby.promote(true),
    };
    let lowest = match ask {
        Ask::Held(frame) | Ask::Frame(frame) => standby.lowest(frame, &answer),
        _ => None,
    };
    STORES.with_borrow_mut(|stores| stores.insert(store, standby.sessions));
    Said(answer, lowest)
}

/// Where a Bound's frame has the length of its stamp.
const STAMP_LEN: usize = 4 + 1 + 4 + 3 * 8;

/// Writes an answer's frame. A stamp that the version doesn't take is 8.
pub fn answer(said: &Said, _: &[u8], out: &mut [u8], version: u16) -> u64 {
    if !is_version(version) {
        return refusal(11);
    }
    let long = |frame: &[u8]| frame[4] == 7 && usize::from(frame[STAMP_LEN]) > SHORT;
    match &said.0 {
        Err(number) => refusal(*number),
        Ok(frame) if version == 1 && frame.len() > STAMP_LEN && long(frame) => refusal(8),
        Ok(frame) => put(out, frame),
    }
}

fn stored(areas: &Areas, place: u64) -> Option<Session> {
    STORES.with_borrow(|stores| stores.get(&store(areas))?.get(usize::try_from(place).ok()?).cloned())
}

pub fn session(areas: &Areas, _: Size, out: &mut [u8], place: u64, n: u64) -> u64 {
    let Some(session) = stored(areas, place) else { return refusal(25) };
    let head = wire::Body::default().u8(session.durable.into()).u8(session.flight.is_some().into());
    let keyed = session.key.iter().fold(head, |body, part| body.blob(part));
    let numbers = keyed.u64(session.out).u64(session.incoming).u64(session.flight.unwrap_or(0));
    put(out, &numbers.blob(&session.stamp).blob(&session.marks).u64(session.last_outgoing(n)).0)
}

/// How many message bytes a batch must exceed for a new one to start, by the number of a line (document 02, U9).
fn limit(line: u64) -> Option<usize> {
    let (head_office, branch) = if fault(56) { (16_384, 1_048_576) } else { (1_048_576, 16_384) };
    match line {
        0 => Some(head_office),
        1 if fault(55) => Some(16_385),
        1 if fault(62) => Some(16_383),
        1 => Some(branch),
        _ if fault(58) => Some(branch),
        _ => None,
    }
}

/// A session's batches, each a list of changes in frame form.
fn batches(session: &Session, limit: usize) -> Vec<Vec<Vec<u8>>> {
    let mut batches = vec![vec![wire::change::reset()]];
    if !session.stamp.is_empty() {
        batches[0].push(wire::change::created_at(&session.stamp));
    }
    let (mut next, mut bytes) = (1, 0);
    for (seq, msg) in &session.messages {
        if bytes > limit {
            batches.push(Vec::new());
            bytes = 0;
        }
        let current = batches.last_mut().expect("one at least");
        if *seq > next {
            current.push(wire::change::bare_record(seq - 1));
        }
        current.push(wire::change::record(*seq, msg));
        (next, bytes) = (seq + 1, bytes + msg.len());
    }
    let current = batches.last_mut().expect("one at least");
    if session.out > next {
        current.push(wire::change::bare_record(session.out - 1));
    }
    current.push(match session.flight {
        Some(flight) => wire::change::next_incoming_in_flight(session.incoming, flight),
        None => wire::change::next_incoming(session.incoming),
    });
    current.push(wire::change::marks(&session.marks));
    batches
}

pub fn send(
    areas: &Areas,
    _: Size,
    sending: &mut [u64],
    out: &mut [u8],
    place: u64,
    (handle, epoch): (u32, u64),
    version: u16,
) -> u64 {
    let Some(mut session) = stored(areas, place) else { return refusal(25) };
    let words = sending.len() >= if fault(64) { 4 } else { 5 };
    // Its own count of batches given stands for the next message number.
    let &[last, given, _, _] = sending.first_chunk().unwrap_or(&[0; 4]);
    let line = sending.get(4).copied().unwrap_or(0);
    let chosen = limit(line).or((fault(60) && given > 0).then_some(1_048_576));
    if fault(59) && chosen.is_none() && !is_version(version) {
        return refusal(11);
    }
    let Some(limit) = chosen.filter(|_| words) else { return refusal(25) };
    if !is_version(version) {
        return refusal(11);
    }
    if !session.suits(version) && fault(42) {
        session.stamp.truncate(SHORT);
    }
    let batches = batches(&session, if fault(61) && given > 0 { 1_048_576 } else { limit });
    let counted = if fault(57) { self::batches(&session, 1_064_960 - limit).len() } else { batches.len() };
    let spent = given == 0 && last.checked_add(counted as u64).is_none();
    if given == 0 && !session.suits(version) && !(fault(47) && spent) {
        return refusal(32);
    }
    if spent {
        return refusal(24);
    }
    let Some(changes) = batches.get(given as usize) else { return WORK + (1 << 62) };
    let part = if given as usize + 1 == batches.len() { wire::LAST_WHOLE } else { wire::WHOLE };
    let (changes, records) = (changes.clone(), Vec::new());
    let frame = wire::batch(&wire::Batch { handle, epoch, commit_no: last + 1, part, changes, records });
    if frame.len() <= out.len() {
        (sending[0], sending[1]) = (last + 1, given + 1);
        if fault(63) {
            sending[4] = 0;
        }
    }
    put(out, &frame)
}

pub fn queue(queue: &mut [u64], max_lag: u64, last: u64) -> u64 {
    let mut waiting: Vec<u64> = queue[2..][..queue[1] as usize].to_vec();
    waiting.push(last);
    let mut count = 0;
    let bound = if fault(12) { 63 } else { 64 };
    while last.saturating_sub(queue[0]) > max_lag || waiting.len() > bound {
        queue[0] = waiting.remove(0);
        count += 1;
    }
    queue[1] = waiting.len() as u64;
    queue[2..][..waiting.len()].copy_from_slice(&waiting);
    WORK + count
}

/// Range after range, gathering the sets by number. There is no ring here, so an entry's four last words are 0.
pub fn resend(areas: &Areas, _: Size, ranges: &[u64], entries: &mut [u64], place: u64) -> Resent {
    let refused = |refusal| Resent { refusal, length: 0, bytes: 0 };
    let Some(session) = stored(areas, place).filter(|_| ranges.len() % 2 == 0) else { return refused(25) };
    let bad = |range: &[u64]| range[0] == 0 || range[1] != 0 && range[1] < range[0];
    if ranges.len() > 128 || ranges.chunks(2).any(bad) {
        return refused(35);
    }
    let mut sets: BTreeMap<u64, u64> = BTreeMap::new();
    for (at, range) in ranges.chunks(2).enumerate() {
        let last = if range[1] == 0 { u64::MAX } else { range[1] };
        let within = session.messages.iter().filter(|(number, _)| (range[0]..=last).contains(number));
        within.for_each(|(number, _)| *sets.entry(*number).or_default() |= 1 << at);
    }
    if entries.len() / 6 < sets.len() + usize::from(fault(19)) {
        return refused(36);
    }
    for (entry, (number, set)) in entries.chunks_mut(6).zip(&sets) {
        entry.copy_from_slice(&[*number, *set, 0, 0, 0, 0]);
    }
    let listed = session.messages.iter().filter(|(number, _)| sets.contains_key(number));
    Resent { refusal: 0, length: sets.len(), bytes: listed.map(|(_, message)| message.len()).sum() }
}

/// Each message is recorded with all its bytes; what is skipped has none.
pub fn import(areas: &mut Areas, size: Size, key: &Key, file: &[u8]) -> Imported {
    let refused = |refusal, at| Imported { refusal, place: 0, at, lowest: 0 };
    let printable = |text: &[u8]| text.len() <= 32 && text.iter().all(|byte| (0x20..0x7f).contains(byte));
    if !key.iter().all(|text| printable(text)) || key[..3].iter().any(Vec::is_empty) {
        return refused(5, 0);
    }
    let mut sessions = STORES.with_borrow(|stores| stores.get(&store(areas)).cloned()).unwrap_or_default();
    if sessions.iter().any(|session| session.key == *key) || sessions.len() as u64 >= u64::from(size.sessions) {
        return refused(20, 0);
    }
    let messages = match fix::read(file) {
        Err((number, at)) => return refused(number as u8, at as usize),
        Ok(messages) => messages,
    };
    let mut session = Session::new(key.clone());
    for (seq, text) in messages {
        let text = text[..text.len() - usize::from(fault(20))].to_vec();
        session.apply(&Change::Record(seq, Some(text)), size.bytes.into(), size.messages.into());
    }
    let lowest = session.messages.first().map_or(0, |(number, _)| *number);
    let place = sessions.len();
    sessions.push(session);
    areas.words[0] += 1;
    STORES.with_borrow_mut(|stores| stores.insert(store(areas), sessions));
    Imported { refusal: 0, place, at: 0, lowest }
}
