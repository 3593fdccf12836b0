//! The functions of include/wizhdulet.h that the program calls, and their records.

/// The version of the header that these declarations are of.
pub const VERSION: u32 = 65_536;

#[repr(C)]
#[derive(Clone, Copy, Default)]
pub struct Replica {
    pub epoch: u64,
    pub connections: u64,
    pub promoted: u8,
    pub checked: u8,
    pub version2: u8,
}

/// The protocol's oldest version and its newest: what this reads is all that any version reads.
pub const FIRST: u16 = 1;
pub const LATEST: u16 = 2;

/// The longest stamp that every version takes.
pub const LONGEST_SHORT: usize = 21;

impl Replica {
    /// The version that the connection speaks.
    pub fn version(&self) -> u16 {
        if self.version2 == 0 { FIRST } else { LATEST }
    }
}

#[repr(C)]
#[derive(Clone, Copy, Default)]
pub struct Bound {
    pub used: u8,
    pub handle: u32,
    pub place: usize,
    pub commit_no: u64,
    pub held_len: usize,
    pub held_bytes: u64,
}

#[repr(C)]
#[derive(Clone, Copy)]
pub struct Shape {
    pub places: u32,
    pub bytes: u32,
    pub messages: u32,
}

#[repr(C)]
#[derive(Clone, Copy)]
pub struct Settings {
    pub shape: Shape,
    pub incarnation: u64,
    pub max_lag: u64,
    pub tells_lowest: u8,
}

#[repr(C)]
#[derive(Clone, Copy)]
pub struct Span {
    pub at: usize,
    pub len: u32,
}

#[repr(C)]
#[derive(Clone, Copy)]
pub struct BoundSummary {
    pub next_outgoing: u64,
    pub next_incoming: u64,
    pub has_in_flight: u8,
    pub in_flight: u64,
    pub created_at: Span,
    pub marks: Span,
    pub last_outgoing: u64,
}

#[repr(C)]
#[derive(Clone, Copy)]
pub struct Answer {
    pub refusal: u8,
    pub kind: u8,
    pub handle: u32,
    pub epoch: u64,
    pub incarnation: u64,
    pub commit_no: u64,
    pub reason: u8,
    pub summary: BoundSummary,
    pub has_lowest: u8,
    pub lowest: u64,
}

#[repr(C)]
#[derive(Clone, Copy)]
pub struct Listed {
    pub refusal: u8,
    pub length: usize,
    pub bytes: usize,
}

#[repr(C)]
#[derive(Clone, Copy)]
pub struct Built {
    pub refusal: u8,
    pub place: usize,
    pub at: usize,
    pub lowest: u64,
}

#[repr(C)]
pub struct Numbered {
    pub refusal: u8,
    pub millis: u64,
    pub picos: u64,
}

#[rustfmt::skip]
#[link(name = "wizhdulet", kind = "static")]
unsafe extern "C" {
    pub fn wz_version() -> u32;
    pub fn wz_read(frame: *const u8, frame_len: usize, version: u16) -> u64;
    pub fn wz_store_make(words: *mut u64, words_len: usize, bytes: *const u8, bytes_len: usize, shape: Shape) -> u8;
    pub fn wz_standby_make(counters: &mut Replica, row: *mut Bound, row_len: usize, words: *mut u64, words_len: usize, bytes: *const u8,
        bytes_len: usize, settings: Settings) -> Answer;
    pub fn wz_on_frame(counters: &mut Replica, row: *mut Bound, row_len: usize, words: *mut u64, words_len: usize, bytes: *mut u8,
        bytes_len: usize, holds: *mut u8, holds_len: usize, ends: *mut u64, ends_len: usize, frame: *const u8, frame_len: usize,
        settings: Settings) -> Answer;
    pub fn wz_on_frame_held(counters: &mut Replica, row: *mut Bound, row_len: usize, words: *mut u64, words_len: usize, bytes: *mut u8,
        bytes_len: usize, holds: *mut u8, holds_len: usize, ends: *mut u64, ends_len: usize, frame: *const u8, frame_len: usize,
        settings: Settings) -> Answer;
    pub fn wz_flush(counters: &mut Replica, row: *mut Bound, row_len: usize, words: *mut u64, words_len: usize, bytes: *mut u8,
        bytes_len: usize, holds: *mut u8, holds_len: usize, ends: *mut u64, ends_len: usize, connection: u64, settings: Settings) -> Answer;
    pub fn wz_disconnected_from(counters: &mut Replica, row: *mut Bound, row_len: usize, words: *mut u64, words_len: usize, bytes: *mut u8,
        bytes_len: usize, holds: *mut u8, holds_len: usize, ends: *mut u64, ends_len: usize, connection: u64, settings: Settings) -> Answer;
    pub fn wz_promote(counters: &mut Replica, row: *mut Bound, row_len: usize, words: *mut u64, words_len: usize, bytes: *mut u8,
        bytes_len: usize, holds: *mut u8, holds_len: usize, ends: *mut u64, ends_len: usize, settings: Settings) -> Answer;
    pub fn wz_promote_unchecked(counters: &mut Replica, row: *mut Bound, row_len: usize, words: *mut u64, words_len: usize, bytes: *mut u8,
        bytes_len: usize, holds: *mut u8, holds_len: usize, ends: *mut u64, ends_len: usize, settings: Settings) -> Answer;
    pub fn wz_answer(answer: Answer, bytes: *const u8, bytes_len: usize, out: *mut u8, out_len: usize, version: u16) -> u64;
    pub fn wz_session(words: *const u64, words_len: usize, bytes: *const u8, bytes_len: usize, out: *mut u8, out_len: usize, sessions: u32,
        c: u32, m: u32, place: usize, n: u64) -> u64;
    pub fn wz_send(words: *const u64, words_len: usize, bytes: *const u8, bytes_len: usize, sending: *mut u64, sending_len: usize, out: *mut u8,
        out_len: usize, sessions: u32, c: u32, m: u32, place: usize, handle: u32, epoch: u64, version: u16) -> u64;
    pub fn wz_resend(words: *const u64, words_len: usize, bytes: *const u8, bytes_len: usize, ranges: *const u64, ranges_len: usize,
        entries: *mut u64, entries_len: usize, sessions: u32, c: u32, m: u32, place: usize) -> Listed;
    pub fn wz_find(words: *const u64, words_len: usize, bytes: *const u8, bytes_len: usize, begin: *const u8, begin_len: usize, sender: *const u8,
        sender_len: usize, target: *const u8, target_len: usize, suffix: *const u8, suffix_len: usize, sessions: u32, c: u32, m: u32) -> u64;
    pub fn wz_import(words: *mut u64, words_len: usize, bytes: *mut u8, bytes_len: usize, begin: *const u8, begin_len: usize, sender: *const u8,
        sender_len: usize, target: *const u8, target_len: usize, suffix: *const u8, suffix_len: usize, file: *const u8, file_len: usize,
        sessions: u32, c: u32, m: u32) -> Built;
    pub fn wz_choose(copies: *const u64, copies_len: usize, w0: *const u64, w0_len: usize, b0: *const u8, b0_len: usize, w1: *const u64,
        w1_len: usize, b1: *const u8, b1_len: usize, w2: *const u64, w2_len: usize, b2: *const u8, b2_len: usize, w3: *const u64, w3_len: usize,
        b3: *const u8, b3_len: usize, w4: *const u64, w4_len: usize, b4: *const u8, b4_len: usize) -> u64;
    pub fn wz_stamp_read(stamp: *const u8, stamp_len: usize) -> Numbered;
    pub fn wz_screen_session(words: *const u64, words_len: usize, bytes: *const u8, bytes_len: usize, out: *mut u8, out_len: usize,
        sessions: u32, c: u32, m: u32, place: usize) -> u64;
    pub fn wz_screen_frame(number: u64, offset: u64, frame: *const u8, frame_len: usize, refusal: u8, reply: *const u8, reply_len: usize,
        out: *mut u8, out_len: usize) -> u64;
    pub fn wz_screen_refusal(number: u8, out: *mut u8, out_len: usize) -> u64;
    pub fn wz_stamp_write(millis: u64, picos: u64, out: *mut u8, out_len: usize) -> u64;
}

/// What a code's count is, or its refusal.
pub fn count(code: u64) -> Result<usize, u8> {
    if code >> 63 == 1 { Ok((code & (u64::MAX >> 2)) as usize) } else { Err((code >> 40) as u8) }
}

/// A text for a screen: every one fits.
pub fn screen(write: impl FnOnce(&mut [u8]) -> u64) -> String {
    let mut area = [0; 1500];
    let len = count(write(&mut area)).unwrap_or(0);
    String::from_utf8_lossy(&area[..len]).into_owned()
}
