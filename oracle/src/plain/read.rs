//! Reading, by document 01's table alone, and document 02's rules for a stamp: the day, and the digits behind its point.

use super::fault;

pub enum Fault {
    More,
    /// Its number, and the detail: the length for 1, field × 256 + value for 3.
    Refused(u32, u64),
}

fn refused<T>(number: u32) -> Result<T, Fault> {
    Err(Fault::Refused(number, 0))
}

fn unknown<T>(field: u64, value: u8) -> Result<T, Fault> {
    Err(Fault::Refused(3, field * 256 + u64::from(value)))
}

#[derive(Clone)]
pub enum Change {
    NextIncoming(u64),
    NextIncomingInFlight(u64, u64),
    InFlight(u64),
    Record(u64, Option<Vec<u8>>),
    Reset,
    Stamp(Vec<u8>),
    Marks(Vec<u8>),
}

pub struct Batch {
    pub handle: u32,
    pub epoch: u64,
    pub commit_no: u64,
    pub part: u8,
    pub changes: Vec<Change>,
    /// The changes as they stand in the frame.
    pub form: Vec<u8>,
    pub records: u32,
}

pub enum Frame {
    Hello { version: u16, epoch: u64, kinds: u32 },
    Bind { handle: u32, epoch: u64, max_lag: u64, key: [Vec<u8>; 4] },
    Batch(Batch),
    Checked { handle: u32, epoch: u64, incarnation: u64 },
    Other,
}

/// What is left to read, and the version that it is read in.
pub struct Left<'a>(pub &'a [u8], pub u16);

/// The version that reads all that either reads.
pub const LATEST: u16 = 2;

impl<'a> Left<'a> {
    fn take(&mut self, count: u64) -> Result<&'a [u8], Fault> {
        if count > self.0.len() as u64 {
            return refused(2);
        }
        let (head, rest) = self.0.split_at(count as usize);
        self.0 = rest;
        Ok(head)
    }

    fn number(&mut self, width: u64) -> Result<u64, Fault> {
        Ok(self.take(width)?.iter().rev().fold(0, |sum, byte| sum * 256 + u64::from(*byte)))
    }

    fn blob(&mut self) -> Result<&'a [u8], Fault> {
        let len = self.number(4)?;
        self.take(len)
    }

    fn text(&mut self) -> Result<&'a [u8], Fault> {
        let bytes = self.blob()?;
        if is_utf8(bytes) { Ok(bytes) } else { refused(4) }
    }

    fn count(&mut self, least: u64) -> Result<u64, Fault> {
        let count = self.number(4)?;
        if count * least > self.0.len() as u64 { refused(2) } else { Ok(count) }
    }

    fn stamp(&mut self) -> Result<Vec<u8>, Fault> {
        let text = self.text()?;
        if is_stamp(text, self.1) { Ok(text.to_vec()) } else { refused(6) }
    }

    fn marks(&mut self) -> Result<Vec<u8>, Fault> {
        let text = self.text()?;
        if printable(text, 0, 64) { Ok(text.to_vec()) } else { refused(7) }
    }

    pub fn change(&mut self) -> Result<Change, Fault> {
        Ok(match self.number(1)? as u8 {
            1 => Change::NextIncoming(self.number(8)?),
            2 => Change::NextIncomingInFlight(self.number(8)?, self.number(8)?),
            3 => Change::InFlight(self.number(8)?),
            4 => Change::Record(self.number(8)?, Some(self.blob()?.to_vec())),
            5 => Change::Record(self.number(8)?, None),
            6 => Change::Reset,
            7 => Change::Stamp(self.stamp()?),
            8 => Change::Marks(self.marks()?),
            other => return unknown(3, other),
        })
    }

    fn batch(&mut self) -> Result<Frame, Fault> {
        let (handle, epoch, commit_no) = (self.number(4)? as u32, self.number(8)?, self.number(8)?);
        let part = self.number(1)? as u8;
        if part > 2 {
            return unknown(1, part);
        }
        let count = self.count(1)?;
        let start = self.0;
        let mut changes = Vec::new();
        for _ in 0..count {
            changes.push(self.change()?);
        }
        let form = start[..start.len() - self.0.len()].to_vec();
        let records = self.count(6)?;
        for _ in 0..records {
            self.take(2)?;
            self.blob()?;
        }
        Ok(Frame::Batch(Batch { handle, epoch, commit_no, part, changes, form, records: records as u32 }))
    }

    fn bind(&mut self) -> Result<Frame, Fault> {
        let (handle, epoch, max_lag) = (self.number(4)? as u32, self.number(8)?, self.number(8)?);
        let key = [self.text()?, self.text()?, self.text()?, self.text()?].map(<[u8]>::to_vec);
        let good = key[..3].iter().all(|part| printable(part, 1, 32)) && printable(&key[3], 0, 32);
        if good { Ok(Frame::Bind { handle, epoch, max_lag, key }) } else { refused(5) }
    }

    fn bound(&mut self) -> Result<Frame, Fault> {
        self.take(4 + 3 * 8)?;
        let stamp = self.text()?;
        if !stamp.is_empty() && !is_stamp(stamp, self.1) {
            return refused(6);
        }
        self.marks()?;
        self.take(8)?;
        Ok(Frame::Other)
    }

    fn body(&mut self) -> Result<Frame, Fault> {
        let frame = match self.number(1)? as u8 {
            1 => {
                let (version, epoch) = (self.number(2)? as u16, self.number(8)?);
                self.text()?;
                let kinds = self.count(2)?;
                self.take(2 * kinds)?;
                Frame::Hello { version, epoch, kinds: kinds as u32 }
            }
            2 => self.take(16).map(|_| Frame::Other)?,
            3 => self.bind()?,
            4 => self.batch()?,
            5 => self.take(12).map(|_| Frame::Other)?,
            6 => {
                self.take(4)?;
                match self.number(1)? as u8 {
                    1..=4 => Frame::Other,
                    other => return unknown(2, other),
                }
            }
            7 => self.bound()?,
            8 => {
                let handle = self.number(4)? as u32;
                Frame::Checked { handle, epoch: self.number(8)?, incarnation: self.number(8)? }
            }
            other => return unknown(0, other),
        };
        if self.0.is_empty() { Ok(frame) } else { refused(2) }
    }
}

/// The frame at the start of `bytes`, read in this version, and how many it took.
pub fn read(bytes: &[u8], version: u16) -> Result<(Frame, u64), Fault> {
    if bytes.len() < 4 {
        return Err(Fault::More);
    }
    let len = Left(bytes, version).number(4)?;
    if len > 67_108_864 {
        return Err(Fault::Refused(1, len));
    }
    let rest = &bytes[4..];
    if (rest.len() as u64) < len {
        return Err(Fault::More);
    }
    Ok((Left(&rest[..len as usize], version).body()?, 4 + len))
}

pub fn printable(bytes: &[u8], least: usize, most: usize) -> bool {
    bytes.len() >= least && bytes.len() <= most && bytes.iter().all(|byte| *byte >= 0x20 && *byte <= 0x7e)
}

/// RFC 3629 by code points: the first byte's own bits, then six of each following byte.
fn is_utf8(mut bytes: &[u8]) -> bool {
    while let Some(&first) = bytes.first() {
        let (len, own, least) = match first.leading_ones() {
            0 => (1, u32::from(first), 0),
            2 => (2, u32::from(first & 0x1f), 0x80),
            3 => (3, u32::from(first & 0x0f), 0x800),
            4 => (4, u32::from(first & 0x07), 0x1_0000),
            _ => return false,
        };
        let Some(following) = bytes.get(1..len) else { return false };
        if following.iter().any(|byte| byte & 0xc0 != 0x80) {
            return false;
        }
        let point = following.iter().fold(own, |point, byte| point << 6 | u32::from(byte & 0x3f));
        if point < least || point > 0x10_ffff || (0xd800..0xe000).contains(&point) {
            return false;
        }
        bytes = &bytes[len..];
    }
    true
}

fn two_digits(text: &[u8], at: usize) -> Option<u32> {
    let digit = |byte: u8| byte.is_ascii_digit().then(|| u32::from(byte - b'0'));
    Some(digit(text[at])? * 10 + digit(text[at + 1])?)
}

/// 29 February is a day where a fourth year comes, but not with the century, unless four centuries are full.
fn is_day(century: u32, year: u32, month: u32, day: u32) -> bool {
    match (month, day) {
        (2, 29) if year == 0 => century % 4 == 0,
        (2, 29) => year % 4 == 0,
        (2, 30..) | (4 | 6 | 9 | 11, 31..) => false,
        _ => true,
    }
}

/// Version 1 has no digits behind the point's place, or three; version 2 has whole groups of three, four at most.
fn has_digits(count: usize, version: u16) -> bool {
    match version {
        1 => count == 0 || count == 3 || fault(48) && count == 6,
        _ => count % 3 == 0 && count <= if fault(49) { 15 } else { 12 },
    }
}

fn is_stamp(text: &[u8], version: u16) -> bool {
    let Some((moment, behind)) = text.split_at_checked(17) else { return false };
    let fraction = match behind {
        [] => true,
        [b'.', digits @ ..] => {
            !digits.is_empty() && has_digits(digits.len(), version) && digits.iter().all(u8::is_ascii_digit)
        }
        _ => false,
    };
    fraction && is_moment(moment)
}

/// Year, month, day, hour, minute and second.
fn is_moment(text: &[u8]) -> bool {
    let within = |at: usize, least: u32, most: u32| two_digits(text, at).is_some_and(|n| n >= least && n <= most);
    let points = text[8] == b'-' && text[11] == b':' && text[14] == b':';
    let [Some(century), Some(year), Some(month), Some(day)] = [0, 2, 4, 6].map(|at| two_digits(text, at)) else {
        return false;
    };
    points
        && within(4, 1, 12)
        && within(6, 1, 31)
        && within(9, 0, 23)
        && within(12, 0, 59)
        && within(15, 0, 60)
        && (fault(21) || is_day(century, year, month, day))
}
