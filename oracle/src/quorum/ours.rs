//! Our library, over a lent area with words past its end that no call may touch.

use crate::{Call, Side};

/// The words of the lent area, by docs/AREAS.md, and how many are lent beyond them.
pub const WORDS: usize = 2564;
pub const MORE: usize = 8;
const RUBBISH: u64 = 0xA5A5_A5A5_A5A5_A5A5;

#[repr(C)]
struct Shown {
    refusal: u8,
    number: u64,
}

unsafe extern "C" {
    fn wz_quorum_make(words: *mut u64, words_len: usize, n: u64, k: u64) -> u8;
    fn wz_quorum_bind(words: *mut u64, words_len: usize, handle: u32) -> u8;
    fn wz_quorum_sent(words: *mut u64, words_len: usize, handle: u32, number: u64) -> u8;
    fn wz_quorum_acknowledged(words: *mut u64, words_len: usize, member: usize, handle: u32, number: u64) -> u8;
    fn wz_quorum_stale_epoch(words: *mut u64, words_len: usize, member: usize) -> u8;
    fn wz_quorum_figure(words: *const u64, words_len: usize, handle: u32) -> Shown;
}

/// Each function over a slice.
pub fn make(words: &mut [u64], n: u64, k: u64) -> u8 {
    unsafe { wz_quorum_make(words.as_mut_ptr(), words.len(), n, k) }
}

pub fn call(words: &mut [u64], call: Call) -> u8 {
    let (at, len) = (words.as_mut_ptr(), words.len());
    unsafe {
        match call {
            Call::Bind(handle) => wz_quorum_bind(at, len, handle),
            Call::Sent(handle, number) => wz_quorum_sent(at, len, handle, number),
            Call::Ack(member, handle, number) => wz_quorum_acknowledged(at, len, member, handle, number),
            Call::Stale(member) => wz_quorum_stale_epoch(at, len, member),
        }
    }
}

pub fn figure(words: &[u64], handle: u32) -> (u8, u64) {
    let shown = unsafe { wz_quorum_figure(words.as_ptr(), words.len(), handle) };
    (shown.refusal, shown.number)
}

/// An area full of rubbish.
pub fn lent() -> Vec<u64> {
    vec![RUBBISH; WORDS + MORE]
}

/// Whether the words past the area are as they were lent.
pub fn is_untouched(words: &[u64]) -> bool {
    words[WORDS..].iter().all(|word| *word == RUBBISH)
}

pub struct Ours {
    pub words: Vec<u64>,
}

fn said(refusal: u8) -> Result<(), u8> {
    if refusal == 0 { Ok(()) } else { Err(refusal) }
}

impl Side for Ours {
    fn make(n: u64, k: u64) -> Result<Self, u8> {
        let mut words = lent();
        said(make(&mut words, n, k)).map(|()| Self { words })
    }

    fn call(&mut self, call: Call) -> Result<(), u8> {
        said(self::call(&mut self.words, call))
    }

    fn figure(&self, handle: u32) -> Result<u64, u8> {
        let (refusal, number) = figure(&self.words, handle);
        said(refusal).map(|()| number)
    }
}
