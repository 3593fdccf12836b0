//! A stored session, by document 01 alone.

use super::read::Change;
use crate::faults::fault;

/// The longest stamp of version 1.
pub const SHORT: usize = 21;

#[derive(Clone)]
pub struct Session {
    pub key: [Vec<u8>; 4],
    pub stamp: Vec<u8>,
    pub out: u64,
    pub incoming: u64,
    pub flight: Option<u64>,
    pub marks: Vec<u8>,
    pub messages: Vec<(u64, Vec<u8>)>,
    pub durable: bool,
}

impl Session {
    pub fn new(key: [Vec<u8>; 4]) -> Self {
        let (stamp, marks, messages) = (Vec::new(), Vec::new(), Vec::new());
        Self { key, stamp, out: 1, incoming: 1, flight: None, marks, messages, durable: false }
    }

    /// Whether a version takes the stamp, which is never shortened (document 02, U7).
    pub fn suits(&self, version: u16) -> bool {
        version == 2 || self.stamp.len() <= SHORT
    }

    /// Whether the outgoing numbers of `changes` follow on.
    pub fn fits(&self, changes: &[Change]) -> bool {
        let mut next = self.out;
        for change in changes {
            match change {
                Change::Record(seq, msg) => {
                    if *seq == u64::MAX || *seq < next || msg.is_some() && *seq != next {
                        return false;
                    }
                    next = seq + 1;
                }
                Change::Reset => next = 1,
                _ => {}
            }
        }
        true
    }

    pub fn apply(&mut self, change: &Change, c: u64, m: u64) {
        self.durable = false;
        match change {
            Change::NextIncoming(n) => {
                self.incoming = *n;
                if !fault(4) {
                    self.flight = None;
                }
            }
            Change::NextIncomingInFlight(n, flight) => (self.incoming, self.flight) = (*n, Some(*flight)),
            Change::InFlight(n) => self.flight = Some(*n),
            Change::Record(seq, msg) => {
                self.out = seq + 1;
                msg.iter().for_each(|msg| self.store(*seq, msg, c, m));
            }
            Change::Reset => *self = Self::new(self.key.clone()),
            Change::Stamp(stamp) if fault(43) => self.stamp = stamp[..stamp.len().min(SHORT)].to_vec(),
            Change::Stamp(stamp) => self.stamp = stamp.clone(),
            Change::Marks(marks) => self.marks = marks.clone(),
        }
    }

    /// The longest run of the newest messages that is within the limits.
    fn store(&mut self, seq: u64, msg: &[u8], c: u64, m: u64) {
        if msg.len() as u64 > c || m == 0 || fault(14) && msg.is_empty() {
            return;
        }
        self.messages.push((seq, msg.to_vec()));
        let size = |messages: &[(u64, Vec<u8>)]| messages.iter().map(|(_, msg)| msg.len() as u64).sum::<u64>();
        let over = |messages: &[(u64, Vec<u8>)]| messages.len() as u64 > m || size(messages) > c;
        let gone = (0..self.messages.len()).find(|gone| !over(&self.messages[*gone..])).expect("the new one fits");
        self.messages.drain(..gone);
    }

    pub fn last_outgoing(&self, n: u64) -> u64 {
        if n == 0 || self.out == 1 {
            return 0;
        }
        let first = self.out.saturating_sub(n).max(1);
        if fault(13) && self.messages.iter().all(|(seq, _)| *seq < first) {
            return 0;
        }
        let bytes =
            |(seq, msg): &(u64, Vec<u8>)| [&seq.to_le_bytes()[..], &(msg.len() as u64).to_le_bytes(), msg].concat();
        let hashed = self.messages.iter().filter(|(seq, _)| *seq >= first).flat_map(bytes);
        hashed.fold(0xcbf2_9ce4_8422_2325, |hash: u64, byte| (hash ^ u64::from(byte)).wrapping_mul(0x100_0000_01b3))
    }

    pub fn taken_over(&mut self, lag: u64) {
        self.out = if fault(9) { self.out + lag.min(1) } else { self.out.saturating_add(lag) };
        if self.marks.last() != Some(&b'B') {
            self.marks.truncate(63);
            self.marks.push(b'B');
        }
        self.durable = true;
    }
}
