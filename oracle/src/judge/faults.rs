//! Faults that are put in between our side and the comparison, one at a time, by the number in WIZHDULET_FAULT: the
//! comparison must find each (oracle/judge-test). The stand-in has those from 1 to 73 in its own text.

use std::sync::OnceLock;

use crate::call::Line;
use crate::library::{Areas, DONE, Imported, Outcome, Resent, Size};
#[cfg(calls)]
use crate::library::{Ask, Counters, Place};
use crate::out::Out;
#[cfg(calls)]
use crate::side::Answer;

/// Whether the fault of this number is put in.
pub fn fault(number: u32) -> bool {
    static FAULT: OnceLock<u32> = OnceLock::new();
    *FAULT.get_or_init(|| std::env::var("WIZHDULET_FAULT").map_or(0, |n| n.parse().unwrap_or(0))) == number
}

fn flip(byte: Option<&mut u8>) {
    byte.into_iter().for_each(|byte| *byte ^= 1);
}

fn flip_word(word: Option<&mut u64>) {
    word.into_iter().for_each(|word| *word ^= 2);
}

/// The version that a frame is read in.
pub fn read_in(version: u16) -> u16 {
    match version {
        3.. if fault(165) => 1,
        2 if fault(166) => 1,
        _ => version,
    }
}

/// A frame read and written again.
pub fn after_reading(outcome: &mut Outcome, out: &mut Out) {
    match *outcome {
        Err((4, _)) if fault(101) => *outcome = Err((2, 0)),
        Ok(len) if fault(102) && len > 30 => out.flip(len as usize - 1),
        Err((9, _)) if fault(117) => out.flip(0),
        Err((9, _)) if fault(118) => *outcome = Err((8, 0)),
        _ => {}
    }
}

/// The line that a session is sent on.
pub fn line(line: Line) -> Line {
    match line {
        Line::Branch if fault(173) => Line::HeadOffice,
        Line::HeadOffice if fault(174) => Line::Branch,
        _ => line,
    }
}

/// A step of a sending.
pub fn after_sending(outcome: Outcome, out: &mut Out, sending: &mut [u64]) -> Outcome {
    match outcome {
        Err((32, _)) if fault(167) => out.flip(0),
        Err((32, _)) if fault(168) && sending[0] == u64::MAX => return Err((24, 0)),
        Err((11, _)) if fault(169) => flip_word(sending.first_mut()),
        Err((25, _)) if fault(175) && sending.get(4).is_some_and(|line| *line > 1) => return Err((11, 0)),
        Err((25, _)) if fault(176) => flip_word(sending.get_mut(4)),
        Ok(len) if fault(177) && len != DONE => flip_word(sending.get_mut(4)),
        Ok(DONE) if fault(119) => flip_word(sending.get_mut(2)),
        Ok(len) if fault(120) && len != DONE => out.flip(len as usize),
        Err((9, _)) if fault(121) => out.flip(0),
        Err((24, _)) if fault(122) => flip_word(sending.first_mut()),
        _ => {}
    }
    outcome
}

/// A session told of.
pub fn after_telling(outcome: &mut Outcome, out: &mut Out, bytes: &mut [u8]) {
    match *outcome {
        Ok(len) if fault(123) => out.flip(len as usize),
        Ok(_) if fault(124) => flip(bytes.last_mut()),
        Err((9, _)) if fault(140) => out.flip(0),
        Err((9, _)) if fault(141) => *outcome = Err((25, 0)),
        _ => {}
    }
}

/// A push on a queue of so many.
pub fn after_push(queue: &mut [u64], waiting: usize) {
    if fault(115) && queue[1] == 64 {
        queue[0] += 1;
    }
    if fault(125) {
        flip_word(queue.get_mut(waiting + 3));
    }
    if fault(126) && queue[1] > 0 {
        flip_word(queue.get_mut(2));
    }
}

/// Resend ranges listed.
pub fn after_resend(said: &mut Resent, entries: &mut [u64]) {
    match *said {
        Resent { refusal: 36, .. } if fault(142) => said.refusal = 35,
        Resent { refusal: 0, length, .. } if fault(143) && length > 1 => flip_word(entries.get_mut(6 * length - 5)),
        Resent { length, .. } if fault(144) => flip_word(entries.get_mut(6 * length)),
        Resent { refusal: 0, length, .. } if fault(145) && length > 0 => said.bytes += 1,
        _ => {}
    }
}

/// A file imported, or refused.
pub fn after_import(said: &mut Imported, areas: &mut Areas, size: Size) {
    let (words, bytes) = size.start(areas.words[0] as usize);
    match *said {
        Imported { refusal: 29, .. } if fault(146) => said.refusal = 28,
        Imported { refusal: 28..=30, .. } if fault(147) => said.at += 1,
        Imported { refusal: 28..=30, .. } if fault(148) => flip_word(areas.words.get_mut(words)),
        Imported { refusal: 28..=30, .. } if fault(149) => flip(areas.bytes.get_mut(bytes + 224)),
        Imported { refusal: 0, .. } if fault(150) => flip_word(areas.words.get_mut(66)),
        _ => {}
    }
}

/// An answer's frame written.
#[cfg(calls)]
pub fn after_writing(outcome: &mut Outcome, out: &mut Out) {
    match *outcome {
        Err((9, _)) if fault(127) => out.flip(0),
        Err((9, _)) if fault(128) => *outcome = Err((8, 0)),
        Err((8, _)) if fault(170) => *outcome = Err((9, 0)),
        Err((11, _)) if fault(171) => out.flip(0),
        _ => {}
    }
}

/// A store made, or refused.
#[cfg(calls)]
pub fn after_making(made: bool, areas: &mut Areas) {
    if made && fault(129) || !made && fault(139) {
        flip_word(areas.words.get_mut(2));
    }
}

/// A Hello's version, and its epoch.
#[cfg(calls)]
fn hello(frame: &[u8]) -> Option<(u16, u64)> {
    let (head, rest) = frame.get(4..15)?.split_at(3);
    (head[0] == 1).then(|| (u16::from_le_bytes([head[1], head[2]]), u64::from_le_bytes(rest.try_into().expect("eight"))))
}

/// A Hello of version 3 as one of version 2.
#[cfg(calls)]
pub fn lowered(frame: &[u8]) -> Vec<u8> {
    let mut lowered = if fault(164) { frame.to_vec() } else { Vec::new() };
    if hello(&lowered).is_some_and(|(version, _)| version == 3) {
        lowered[5] = 2;
    }
    lowered
}

/// What is asked in a call's place.
#[cfg(calls)]
pub fn asked<'a>(ask: Ask<'a>, connections: u64, lowered: &'a [u8]) -> Ask<'a> {
    match ask {
        Ask::Held(_) if fault(164) => Ask::Held(lowered),
        Ask::Frame(_) if fault(164) => Ask::Frame(lowered),
        Ask::Held(frame) if fault(103) => Ask::Frame(frame),
        Ask::Frame(frame) if fault(104) => Ask::Held(frame),
        Ask::Flush(_) if fault(105) => Ask::Flush(connections),
        Ask::Drop(_) if fault(106) => Ask::Drop(connections),
        Ask::Promote if fault(107) => Ask::Unchecked,
        _ => ask,
    }
}

/// What a fault needs of the time before a call.
#[cfg(calls)]
pub struct Before {
    row: Vec<Place>,
    epoch: u64,
    version2: u8,
}

#[cfg(calls)]
impl Before {
    pub fn new(counters: &Counters, areas: &Areas) -> Self {
        let row = if fault(111) || (151..=158).any(fault) { areas.row.clone() } else { Vec::new() };
        Self { row, epoch: counters.epoch, version2: counters.version2 }
    }

    /// What is changed after the call.
    pub fn after(self, counters: &mut Counters, areas: &mut Areas, size: Size, ask: Ask, answer: &mut Answer) {
        if (151..=158).any(fault) {
            return self.after_bind(areas, ask, answer);
        }
        if (159..=163).any(fault) {
            return self.after_version(counters, areas, ask, answer);
        }
        match answer.as_mut().map(|frame| (frame.get(4).copied().unwrap_or(0), frame)) {
            Ok((2, _)) if fault(111) => areas.row = self.row,
            Ok((5, _)) if fault(110) => flip(areas.holds.last_mut()),
            Ok((5, _)) if fault(178) => flip_word(areas.ends.last_mut()),
            Ok((5, _)) if fault(179) => flip_word(areas.ends.first_mut()),
            Ok((5, _)) if fault(112) => counters.epoch = self.epoch,
            Ok((5, frame)) => acknowledged(areas, size, frame),
            Ok((6, _)) if fault(108) => flip_word(areas.words.last_mut()),
            Ok((7, frame)) if fault(109) => flip(frame.last_mut()),
            Ok((0, _)) => done(areas, size, ask),
            Err(_) if fault(113) => flip(areas.bytes.last_mut()),
            _ => {}
        }
    }

    /// The connection's version after a Hello, a drop and a promotion; and 32.
    fn after_version(&self, counters: &mut Counters, areas: &Areas, ask: Ask, answer: &mut Answer) {
        let said = if let Ask::Held(frame) | Ask::Frame(frame) = ask { hello(frame) } else { None };
        match (&*answer, ask, said) {
            (Ok(_), _, Some(_)) if fault(159) => counters.version2 = self.version2,
            (Ok(_), Ask::Drop(_), _) if fault(160) => counters.version2 = 0,
            (Ok(_), Ask::Promote | Ask::Unchecked, _) if fault(161) => counters.version2 = 0,
            (Ok(_), _, Some((version, epoch))) if fault(162) && epoch < counters.epoch => {
                counters.version2 = u8::from(version == 2);
            }
            (Err(32), Ask::Held(frame) | Ask::Frame(frame), _) if fault(163) => {
                let handle = u32::from_le_bytes(frame[5..9].try_into().expect("four"));
                if areas.index(handle).is_none() && areas.row.iter().all(|record| record.used != 0) {
                    *answer = Err(21);
                }
            }
            _ => {}
        }
    }

    /// After a Bind: what became of another handle on its session, and where the record stands. Over a row that breaks the
    /// rules: its refusal.
    fn after_bind(&self, areas: &mut Areas, ask: Ask, answer: &mut Answer) {
        let (Ask::Held(frame) | Ask::Frame(frame)) = ask else { return };
        let used = self.row.iter().position(|record| record.used != 0);
        match (&*answer, used) {
            (Err(25), _) if fault(157) => *answer = Err(26),
            (Err(25), Some(used)) if fault(158) => areas.row[used].used = 0,
            (Ok(_), _) if frame.get(4) == Some(&3) => self.bound(areas, frame, answer),
            _ => {}
        }
    }

    fn bound(&self, areas: &mut Areas, frame: &[u8], answer: &mut Answer) {
        let handle = u32::from_le_bytes(frame[5..9].try_into().expect("four"));
        let bound = answer.as_ref().is_ok_and(|answer| answer[4] == 7);
        let others = || (0..self.row.len()).filter(|at| self.row[*at].used != 0 && self.row[*at].handle != handle);
        let Some(at) = areas.index(handle).filter(|_| bound) else {
            return others().take(usize::from(fault(156))).for_each(|other| areas.row[other].used = 0);
        };
        let own = self.row[at].used != 0 && self.row[at].handle == handle;
        let free = self.row.iter().position(|record| record.used == 0);
        let gone = others().find(|other| *other == at || areas.row[*other].used == 0);
        match (gone, free) {
            (Some(gone), _) if fault(151) && gone != at => areas.row[gone].used = self.row[gone].used,
            (Some(gone), _) if fault(152) => {
                (areas.row[at].held_len, areas.row[at].held_bytes) =
                    (self.row[gone].held_len, self.row[gone].held_bytes);
            }
            (_, None) if fault(153) && !own => *answer = Err(21),
            (_, Some(free)) if fault(154) && own => areas.row.swap(at, free),
            (Some(gone), _) if fault(155) && gone != at => areas.row[gone] = Place::default(),
            _ => {}
        }
    }
}

/// After an Ack on a bound handle: around the session at its place.
#[cfg(calls)]
fn acknowledged(areas: &mut Areas, size: Size, frame: &[u8]) {
    let handle = u32::from_le_bytes(frame[5..9].try_into().expect("four"));
    let Some(index) = areas.index(handle) else { return };
    let place = areas.row[index].place as usize;
    let (words, bytes) = size.start(place);
    let other = (place + 1) % size.sessions as usize;
    let tail = areas.words[words + 15] as usize % (size.bytes as usize).max(1);
    match frame[9] {
        _ if fault(172) => areas.words[words + 5] = areas.words[words + 5].min(21),
        _ if fault(130) && other != place => flip(areas.bytes.get_mut(size.start(other).1)),
        1 if fault(131) && areas.bytes.len() > 1 << 20 => flip(areas.bytes.last_mut()),
        _ if fault(132) => flip_word(areas.words.get_mut(words + 11)),
        _ if fault(133) => flip_word(areas.words.get_mut(words + 7)),
        _ if fault(134) && size.bytes > 0 => flip(areas.bytes.get_mut(bytes + 224 + tail)),
        _ if fault(135) => areas.row.iter_mut().filter(|row| row.handle != handle).for_each(|row| row.commit_no ^= 1),
        _ => {}
    }
}

/// After a call without a frame: a flush, a drop, a promotion.
#[cfg(calls)]
fn done(areas: &mut Areas, size: Size, ask: Ask) {
    let (words, bytes) = size.start(0);
    match ask {
        Ask::Flush(_) if fault(136) => flip_word(areas.words.get_mut(words)),
        Ask::Promote | Ask::Unchecked if fault(137) => flip_word(areas.words.get_mut(words + 3)),
        Ask::Promote | Ask::Unchecked if fault(138) => flip(areas.bytes.get_mut(bytes + 128)),
        _ => {}
    }
}
