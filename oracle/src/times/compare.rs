//! Both sides on the same stamps and numbers by chance: the answers; what is left in the area, and past it; and that each number comes home.

use std::collections::BTreeMap;
use std::process::ExitCode;

use crate::formula::{Formula, date_of};
use crate::ours::Ours;
use crate::splitmix::Chance;
use crate::{LONGEST, Side};

/// Milliseconds from 1 January 1970 to the end of 31 December 9999.
const END: u64 = 253_402_300_800_000;
const RUBBISH: u8 = 0xA5;

/// The answers that must come.
const WAYS: [&str; 20] = [
    "stamp of 0 digits",
    "stamp of 3 digits",
    "stamp of 6 digits",
    "stamp of 9 digits",
    "stamp of 12 digits",
    "stamp shortened",
    "stamp before 1970: 33",
    "stamp with second 60: 33",
    "day that is none: 6",
    "form that is none: 6",
    "number of 0 digits",
    "number of 3 digits",
    "number of 6 digits",
    "number of 9 digits",
    "number of 12 digits",
    "number with groups of zeros within",
    "number past 9999: 34",
    "remainder too large: 34",
    "area just long enough",
    "area too short: 9",
];

struct Judge {
    chance: Chance,
    inputs: u64,
    fault: u64,
    met: BTreeMap<&'static str, u64>,
    differences: u64,
}

impl Judge {
    fn meet(&mut self, way: &'static str) {
        *self.met.entry(way).or_default() += 1;
    }

    fn differ(&mut self, what: String) {
        self.differences += 1;
        if self.differences <= 10 {
            println!("difference: {what}");
        }
    }

    /// Our reading; a fault between our side and the comparison must be found.
    fn our_read(&self, stamp: &[u8]) -> Result<(u64, u64), u8> {
        let read = Ours::read(stamp);
        match (self.fault, read) {
            (2, Ok((millis, picos))) if self.inputs % 1_000 == 0 => Ok((millis + 1, picos)),
            (3, Err(33)) => Err(6),
            (4, Ok((millis, picos))) if picos % 1_000 == 999 => Ok((millis, picos - 1)),
            _ => read,
        }
    }

    fn our_write(&self, millis: u64, picos: u64, area: &mut [u8]) -> Result<usize, u8> {
        let room = area.len().saturating_sub(1);
        let written = Ours::write(millis, picos, &mut area[..room]);
        match self.fault {
            5 if written == Err(34) => return Err(9),
            6 if self.inputs % 512 == 0 && written.is_err() => area[0] ^= 1,
            7 if self.inputs % 512 == 0 => area[room] ^= 1,
            _ => {}
        }
        written
    }

    fn stamp(&mut self, stamp: &[u8]) -> Result<(u64, u64), u8> {
        self.inputs += 1;
        let (said, expected) = (self.our_read(stamp), Formula::read(stamp));
        if said != expected {
            self.differ(format!("{}: we say {said:?}, the formula {expected:?}", String::from_utf8_lossy(stamp)));
        }
        expected
    }

    /// A number written into an area of so many bytes, one more past it.
    fn number(&mut self, millis: u64, picos: u64, room: usize) -> Result<usize, u8> {
        self.inputs += 1;
        let mut ours = [RUBBISH; 64];
        let mut expected = [RUBBISH; 64];
        let said = self.our_write(millis, picos, &mut ours[..=room]);
        let right = Formula::write(millis, picos, &mut expected[..room]);
        if said != right || ours != expected {
            let text = String::from_utf8_lossy(&expected[..right.unwrap_or(0)]).into_owned();
            self.differ(format!("{millis} {picos} into {room} bytes: we say {said:?}, the formula {right:?} {text}, or a byte is another"));
        }
        right
    }

    /// A stamp of a day by chance, which need not exist, and what may be amiss with it.
    fn some_stamp(&mut self) {
        let digits = self.chance.of(&[0, 3, 6, 9, 12]);
        let (year, month, day) = if self.chance.below(4) == 0 {
            let year = self.chance.of(&[0, 1, 1969, 1970, 1972, 1999, 2000, 2100, 2369, 2370, 2399, 2400, 9999]);
            (year, 1 + self.chance.below(12) as i64, 1 + self.chance.below(31) as i64)
        } else {
            date_of(self.chance.below(2_932_897) as i64)
        };
        let second = if self.chance.below(64) == 0 { 60 } else { self.chance.below(60) };
        let mut text = [0; LONGEST];
        let mut at = 0;
        put(&mut text, &mut at, year as u64, 4);
        put(&mut text, &mut at, month as u64, 2);
        put(&mut text, &mut at, day as u64, 2);
        let clock = [(b'-', self.chance.below(24)), (b':', self.chance.below(60)), (b':', second)];
        for (mark, n) in clock {
            text[at] = mark;
            at += 1;
            put(&mut text, &mut at, n, 2);
        }
        if digits > 0 {
            text[at] = b'.';
            at += 1;
            for _ in 0..digits / 3 {
                let group = if self.chance.below(3) == 0 { 0 } else { self.chance.below(1_000) };
                put(&mut text, &mut at, group, 3);
            }
        }
        let whole = self.stamp(&text[..at]);
        match whole {
            Ok((millis, picos)) => {
                self.meet(WAYS[digits / 3]);
                self.home(&text[..at], millis, picos);
            }
            Err(33) => self.meet(if second == 60 { WAYS[7] } else { WAYS[6] }),
            Err(_) => self.meet(WAYS[8]),
        }
        // One byte another, or one less or more.
        let mut bad = [0; LONGEST + 1];
        bad[..at].copy_from_slice(&text[..at]);
        let len = match self.chance.below(4) {
            0 => at - 1 - self.chance.below(at as u64) as usize,
            1 => {
                bad[at] = b'0';
                at + 1
            }
            _ => {
                let place = self.chance.below(at as u64) as usize;
                bad[place] = self.chance.of(&[b'/', b'0', b'5', b'9', b':', b'-', b'.', b' ', 0, 0x7f, 0x80, 0xff]);
                at
            }
        };
        if self.stamp(&bad[..len]) == Err(6) {
            self.meet(WAYS[9]);
        }
    }

    /// A stamp comes back from its number as its front, the rest of its digits being zeros.
    fn home(&mut self, stamp: &[u8], millis: u64, picos: u64) {
        let mut area = [0; LONGEST];
        let len = Ours::write(millis, picos, &mut area).unwrap_or(0);
        if len < stamp.len() {
            self.meet(WAYS[5]);
        }
        let rest = stamp.get(len..).unwrap_or(b"x");
        if len < 17
            || area[..len] != stamp[..len]
            || !rest.iter().all(|byte| matches!(byte, b'0' | b'.'))
            || (len > 17 && area[..len].ends_with(b"000"))
        {
            self.differ(format!(
                "{}: it comes back as {}",
                String::from_utf8_lossy(stamp),
                String::from_utf8_lossy(&area[..len])
            ));
        }
    }

    fn some_number(&mut self) {
        let chance = &mut self.chance;
        let millis = match chance.below(16) {
            0 => chance.of(&[
                0,
                1,
                999,
                1_000,
                86_399_999,
                86_400_000,
                END - 1,
                END,
                END + 1,
                u64::MAX,
                946_684_799_999,
                946_684_800_000,
            ]),
            1 => chance.next(),
            2 => END - 1 - chance.below(1_000_000_000),
            3 => chance.below(END / 86_400_000) * 86_400_000 + chance.of(&[0, 86_399_999]),
            4..=6 => chance.below(END / 1_000) * 1_000,
            _ => chance.below(END),
        };
        let picos = match chance.below(8) {
            0 => chance.of(&[0, 1, 999, 1_000, 999_999, 1_000_000, 999_999_999, 1_000_000_000, u64::MAX]),
            1 => chance.below(2_000_000_000),
            2 | 3 => 0,
            4 => chance.below(1_000) * 1_000_000,
            5 => chance.below(1_000_000) * 1_000,
            _ => chance.below(1_000_000_000),
        };
        match self.number(millis, picos, LONGEST + 20) {
            Ok(len) => {
                self.meet(WAYS[10 + len.saturating_sub(18).div_ceil(3)]);
                if len > 21 && (millis % 1_000 == 0 || picos / 1_000_000 == 0) {
                    self.meet(WAYS[15]);
                }
                let mut area = [0; LONGEST];
                let len = Ours::write(millis, picos, &mut area).unwrap_or(0);
                if self.stamp(&area[..len]) != Ok((millis, picos)) {
                    self.differ(format!(
                        "{millis} {picos}: it doesn't come home from {}",
                        String::from_utf8_lossy(&area[..len])
                    ));
                }
                if self.chance.below(8) == 0 {
                    self.number(millis, picos, len).ok();
                    self.meet(WAYS[18]);
                    let short = self.chance.below(len as u64) as usize;
                    self.number(millis, picos, short).ok();
                    self.meet(WAYS[19]);
                }
            }
            Err(_) => self.meet(if millis < END { WAYS[17] } else { WAYS[16] }),
        }
    }
}

fn put(text: &mut [u8; LONGEST], at: &mut usize, n: u64, digits: u32) {
    for place in (0..digits).rev() {
        text[*at] = b'0' + (n / 10_u64.pow(place) % 10) as u8;
        *at += 1;
    }
}

pub fn compare(inputs: u64, seed: u64, fault: u64) -> ExitCode {
    let mut judge = Judge { chance: Chance(seed), inputs: 0, fault, met: BTreeMap::new(), differences: 0 };
    while judge.inputs < inputs && judge.differences == 0 {
        judge.some_stamp();
        judge.some_number();
    }
    println!("times: {} stamps and numbers, {} differences", judge.inputs, judge.differences);
    let mut missing = false;
    for way in WAYS {
        let met = judge.met.get(way).copied().unwrap_or(0);
        missing |= met == 0;
        println!("    {way}: {met}");
    }
    if judge.differences > 0 || missing { ExitCode::FAILURE } else { ExitCode::SUCCESS }
}
