//! Areas lent for output, and a look at what was not written.

/// A byte that isn't to be written: areas are filled with it, and looked at afterwards.
pub const UNTOUCHED: u8 = 0xa5;

/// How far past an area is looked.
const PAST: usize = 64;

pub fn untouched(area: &[u8]) -> bool {
    const BLOCK: [u8; 4096] = [UNTOUCHED; 4096];
    area.chunks(BLOCK.len()).all(|part| *part == BLOCK[..part.len()])
}

/// Memory that is lent again and again, in any length.
#[derive(Default)]
pub struct Out {
    bytes: Vec<u8>,
    lent: usize,
}

impl Out {
    pub fn lend(&mut self, len: usize) -> &mut [u8] {
        if self.bytes.len() < len + PAST {
            self.bytes.resize(len + PAST, UNTOUCHED);
        }
        self.lent = len;
        &mut self.bytes[..len]
    }

    /// What a function wrote, which is put back; no other byte may have changed.
    pub fn taken(&mut self, len: usize, function: &str) -> Vec<u8> {
        assert!(len <= self.lent, "{function} says {len} bytes in an area of {}", self.lent);
        assert!(untouched(&self.bytes[len..self.lent + PAST]), "{function} wrote past its {len} bytes");
        let written = self.bytes[..len].to_vec();
        self.bytes[..len].fill(UNTOUCHED);
        written
    }

    /// Puts a fault in.
    pub fn flip(&mut self, at: usize) {
        self.bytes[at] ^= 1;
    }

    /// The first bytes as they are.
    #[cfg(all(calls, not(plain)))]
    pub fn start(&self, len: usize) -> &[u8] {
        &self.bytes[..len]
    }
}
