//! Scripts by chance.

use std::collections::BTreeMap;
use std::fmt::Write;

use crate::digits;
use crate::library::Ask;
use crate::script::{Lent, made};
use crate::splitmix::Chance;
use crate::wire::{self, change};

/// A script that grows, and the second reading's standby, which has run it so far.
struct Script {
    out: String,
    chance: Chance,
    lent: Lent,
    hold: u64,
    words: u64,
}

impl Script {
    fn line(&mut self, text: std::fmt::Arguments) {
        let text = text.to_string();
        self.lent.line(&text, &mut String::new(), &mut BTreeMap::new());
        writeln!(self.out, "{text}").expect("a string can be written");
    }

    fn frame(&mut self, frame: &[u8]) {
        let letter = if self.chance.below(3) == 0 { 'g' } else { 'f' };
        self.line(format_args!("{letter} {}", digits::write(frame)));
    }

    fn bind(&mut self, handle: u32) {
        let key = [b"FIX.4.4".to_vec(), b"A".to_vec(), format!("B{handle}").into_bytes(), Vec::new()];
        self.frame(&wire::bind(handle, 0, 0, &key));
    }

    /// A new standby with two handles, at the places 0 and 1 of the row.
    fn begin(&mut self) {
        let large = self.chance.below(4) == 0;
        self.hold = if large { self.chance.of(&[65_536, 70_000, 140_000]) } else { self.chance.of(&[0, 40, 90, 200, 400]) };
        let handles = 2 + self.chance.below(2);
        self.words = self.chance.of(&[0, 1, 2, 3, 6, 8, 11, 19]);
        let (c, hold, words) = (if large { 140_000 } else { 60 }, self.hold, self.words);
        self.words /= handles;
        self.line(format_args!("n 2 {c} 8 {handles} {hold} {words}"));
        let version = 1 + self.chance.below(2) as u16;
        self.frame(&wire::hello(version, 0, b"node", &[]));
        self.bind(1);
        self.bind(2);
    }

    /// Words that rise for a while, mostly where a change ends.
    fn set_words(&mut self, place: u64, ends: &[u64], held: u64) {
        let words = self.chance.words(self.words, ends, held);
        for (at, word) in (place * self.words..).zip(words) {
            self.line(format_args!("w {at} {word}"));
        }
    }

    /// What a handle holds: changes that follow on with bytes between them that are none, or any.
    fn set_held(&mut self, handle: u32) {
        let place = u64::from(handle) - 1;
        let (mut bytes, ends) = if self.chance.below(3) == 0 { self.any() } else { self.following() };
        bytes.truncate(self.hold.min(4000) as usize);
        let len = bytes.len() as u64;
        let held = match self.chance.below(12) {
            0 => len.saturating_sub(1 + self.chance.below(3)),
            1 => (len + 1 + self.chance.below(3)).min(self.hold),
            2 if self.chance.below(4) == 0 => self.hold + 1,
            _ => len,
        };
        if !bytes.is_empty() {
            self.line(format_args!("x {} {}", place * self.hold, digits::write(&bytes)));
        }
        let sum = match self.chance.below(12) {
            0 => 4_294_967_290,
            1 => self.chance.next(),
            _ => self.chance.below(50),
        };
        self.line(format_args!("h {place} {held} {sum}"));
        self.set_words(place, &ends, held);
    }

    fn any(&mut self) -> (Vec<u8>, Vec<u64>) {
        let count = self.chance.below(14);
        self.chance.pieces(count)
    }

    fn following(&mut self) -> (Vec<u8>, Vec<u64>) {
        let (mut bytes, mut ends, mut next) = (change::reset(), Vec::new(), 1);
        for _ in 0..self.chance.below(12) {
            if self.chance.below(4) == 0 {
                let none = self.chance.of(&[0, 9, 0x99, 255]);
                bytes.extend(vec![none; 1 + self.chance.below(3) as usize]);
                next = 1;
            }
            let length = self.chance.below(12) as usize;
            bytes.extend(change::record(next, &vec![b'm'; length]));
            ends.push(bytes.len() as u64);
            next += 1;
        }
        (bytes, ends)
    }

    /// A Batch of made Records, or of any changes.
    fn batch(&mut self, handle: u32, part: u8) {
        let found = self.lent.found(&Ask::Frame(&made([handle.into(), 0, 1, 0, 0, 0, 0])));
        let (held, from) = found.map_or((0, 0), |found| (found.used as u64, found.from as u64));
        let last = self.lent.row.iter().find(|record| record.used != 0 && record.handle == handle);
        let commit_no = last.map_or(0, |record| record.commit_no) + if self.chance.below(20) == 0 { 2 } else { 1 };
        if self.chance.below(4) == 0 {
            let count = 1 + self.chance.below(3);
            let (bytes, _) = self.chance.pieces(count);
            let body = wire::Body::kind(4).u32(handle).u64(0).u64(commit_no).u8(part).u32(count as u32);
            return self.frame(&body.raw(&bytes).u32(0).frame());
        }
        let reset = u64::from(held == 0 && self.chance.below(12) > 0 || self.chance.below(6) == 0);
        let (count, len) = match self.chance.below(5) {
            0 | 1 if self.hold >= 65_536 && part == 1 => {
                let so_far = held.saturating_sub(from) + reset + 13;
                (1, (65_535 + self.chance.below(3)).saturating_sub(so_far))
            }
            _ => (self.chance.below(4), self.chance.below(9)),
        };
        let seq = if reset == 1 || self.chance.below(3) > 0 { 1 } else { self.chance.below(4) };
        let letter = if self.chance.below(3) == 0 { 'G' } else { 'F' };
        self.line(format_args!("{letter} {handle} {commit_no} {part} {reset} {seq} {count} {len}"));
    }

    /// What one handle holds is set, and Wholes, a LastWhole and a Commit follow.
    fn round(&mut self) {
        let handle = 1 + self.chance.below(2) as u32;
        if self.chance.below(5) > 0 {
            self.set_held(handle);
        }
        if self.chance.below(3) == 0 {
            self.batch(handle, 0);
        }
        for _ in 0..self.chance.below(4) {
            self.batch(handle, 1);
        }
        self.batch(handle, 2);
        if self.chance.below(2) == 0 {
            self.batch(handle, 0);
        }
        match self.chance.below(14) {
            0 => self.line(format_args!("l 1")),
            1 => self.bind(handle),
            2 => {
                // A Bind after a drop or a Hello finds the row free.
                let drop = self.chance.below(2) == 0;
                if drop { self.line(format_args!("d 1")) } else { self.frame(&wire::hello(2, 0, b"node", &[])) }
                self.bind(1);
                self.bind(2);
            }
            _ => {}
        }
    }
}

/// A script of about so many bytes.
pub fn script(bytes: usize, seed: u64) -> String {
    let mut script = Script { out: String::new(), chance: Chance(seed), lent: Lent::new(), hold: 0, words: 0 };
    while script.out.len() < bytes {
        script.begin();
        for _ in 0..6 + script.chance.below(12) {
            script.round();
        }
        let last = script.chance.of(&["p", "u", "l 1", "d 0", "d 1"]);
        script.line(format_args!("{last}"));
        if script.chance.below(2) == 0 {
            script.batch(1, 1);
        }
    }
    script.out
}
