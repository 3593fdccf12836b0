//! A plain walk over good frames and held changes, for the drivers' own looks at our side.

use std::iter::from_fn;

pub struct Walk<'a>(pub &'a [u8]);

/// A change, as far as a look needs it.
#[cfg_attr(not(calls), allow(dead_code))]
pub enum Change<'a> {
    Record(u64, &'a [u8]),
    Reset,
    Stamp(&'a [u8]),
    Marks(&'a [u8]),
    Numbers,
}

impl<'a> Walk<'a> {
    fn take(&mut self, count: usize) -> &'a [u8] {
        let (head, rest) = self.0.split_at(count);
        self.0 = rest;
        head
    }

    pub fn u8(&mut self) -> u8 {
        self.take(1)[0]
    }

    pub fn u32(&mut self) -> u32 {
        u32::from_le_bytes(self.take(4).try_into().expect("four"))
    }

    pub fn u64(&mut self) -> u64 {
        u64::from_le_bytes(self.take(8).try_into().expect("eight"))
    }

    pub fn blob(&mut self) -> &'a [u8] {
        let len = self.u32() as usize;
        self.take(len)
    }

    fn change(&mut self) -> Change<'a> {
        match self.u8() {
            1 | 3 | 5 => drop(self.take(8)),
            2 => drop(self.take(16)),
            4 => return Change::Record(self.u64(), self.blob()),
            6 => return Change::Reset,
            7 => return Change::Stamp(self.blob()),
            _ => return Change::Marks(self.blob()),
        }
        Change::Numbers
    }
}

/// The changes that stand in `form`.
pub fn changes(form: &[u8]) -> impl Iterator<Item = Change<'_>> {
    let mut walk = Walk(form);
    from_fn(move || (!walk.0.is_empty()).then(|| walk.change()))
}

/// The changes of a batch without application records, in frame form.
pub fn form(frame: &[u8]) -> &[u8] {
    &frame[4 + 1 + 4 + 8 + 8 + 1 + 4..frame.len() - 4]
}

/// The stamp that a Bound's frame tells, empty for none; none of another frame.
#[cfg(calls)]
pub fn stamp_of_bound(frame: &[u8]) -> Option<&[u8]> {
    (frame.get(4) == Some(&7)).then(|| Walk(&frame[4 + 1 + 4 + 3 * 8..]).blob())
}

/// The messages that a batch's frame records.
pub fn messages(frame: &[u8]) -> impl Iterator<Item = (u64, Vec<u8>)> {
    let recorded = |change| if let Change::Record(seq, msg) = change { Some((seq, msg.to_vec())) } else { None };
    changes(form(frame)).filter_map(recorded)
}
