//! Changes, whole and damaged, and words that say where segments end, by chance.

use crate::splitmix::Chance;

/// A Record with a made message.
pub fn record(seq: u64, len: usize) -> Vec<u8> {
    let mut bytes: Vec<u8> = (0..len + 13).map(|i| (i as u64).wrapping_add(seq) as u8).collect();
    bytes[0] = 4;
    bytes[1..9].copy_from_slice(&seq.to_le_bytes());
    bytes[9..13].copy_from_slice(&(len as u32).to_le_bytes());
    bytes
}

impl Chance {
    fn text(&mut self, text: &[u8]) -> Vec<u8> {
        let mut bytes = (text.len() as u32).to_le_bytes().to_vec();
        bytes.extend_from_slice(text);
        bytes
    }

    fn stamp(&mut self) -> &'static [u8] {
        self.of(&[
            b"20240229-23:59:59.123".as_slice(),
            b"20230229-10:00:00.000",
            b"20240101-00:00:00",
            b"2024",
            b"",
            b"20240101-00:00:00.123456",
            b"20240101-00:00:00.123456789",
            b"20240229-23:59:60.123456789012",
            b"20240101-00:00:00.1234",
            b"20240101-00:00:00.1234567890123",
        ])
    }

    /// A change, whole or damaged.
    pub fn piece(&mut self) -> Vec<u8> {
        let seq = [0, 1, 2, 7, u64::MAX, self.next()][self.below(6) as usize];
        let mut bytes = match self.below(10) {
            0 => [&[1][..], &seq.to_le_bytes()].concat(),
            1 => [&[2][..], &seq.to_le_bytes(), &self.next().to_le_bytes()].concat(),
            2 => [&[3][..], &seq.to_le_bytes()].concat(),
            3 | 4 => record(seq, self.below(30) as usize),
            5 => [&[5][..], &seq.to_le_bytes()].concat(),
            6 => vec![6],
            7 => {
                let stamp = self.stamp();
                [&[7][..], &self.text(stamp)].concat()
            }
            8 => {
                let len = self.below(70) as usize;
                let byte = self.of(&[b'a', b'B', 0x7f, b' ']);
                [&[8][..], &self.text(&vec![byte; len])].concat()
            }
            _ => (0..self.below(9)).map(|_| self.next() as u8).collect(),
        };
        match self.below(8) {
            0 if !bytes.is_empty() => bytes.truncate(self.below(bytes.len() as u64) as usize),
            1 if !bytes.is_empty() => {
                let at = self.below(bytes.len() as u64) as usize;
                bytes[at] ^= 1 << self.below(8);
            }
            _ => {}
        }
        bytes
    }

    /// Bytes, and where the pieces in them end.
    pub fn pieces(&mut self, count: u64) -> (Vec<u8>, Vec<u64>) {
        let (mut bytes, mut ends) = (Vec::new(), Vec::new());
        for _ in 0..count {
            bytes.extend(self.piece());
            ends.push(bytes.len() as u64);
        }
        (bytes, ends)
    }

    /// The words of a place: they rise for a while, mostly where a piece ends.
    pub fn words(&mut self, count: u64, ends: &[u64], held: u64) -> Vec<u64> {
        let mut last = 0;
        (0..count)
            .map(|_| {
                let later: Vec<u64> = ends.iter().copied().filter(|end| *end > last).collect();
                let word = match self.below(12) {
                    0 => 0,
                    1 => last,
                    2 => last.saturating_sub(1),
                    3 => held,
                    4 => held + 1,
                    5 => u64::MAX,
                    6 => last + 1,
                    7 => last + 1 + self.below(40),
                    _ if later.is_empty() => held + self.below(3),
                    8 => later[self.below(later.len() as u64) as usize] - 1,
                    _ => later[0],
                };
                last = word;
                word
            })
            .collect()
    }
}
