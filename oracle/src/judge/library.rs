//! The boundary: the functions of the static libraries, over slices. README.md has their signatures and what they
//! answer. The stand-in gives the same functions.

use crate::call::Line;
use crate::out::UNTOUCHED;
#[cfg(calls)]
use crate::out::untouched;

/// A word full of bytes that aren't to be written.
pub const RUBBISH: u64 = u64::from_ne_bytes([UNTOUCHED; 8]);

/// The standby's counters, as the library has them; a flag is set if it isn't 0.
#[repr(C)]
#[derive(Debug, Clone, Default, PartialEq, Eq)]
pub struct Counters {
    pub epoch: u64,
    pub connections: u64,
    pub promoted: u8,
    pub checked: u8,
    pub version2: u8,
}

impl Counters {
    /// The connection's version, which the call that answered has left.
    pub fn version(&self) -> u16 {
        if self.version2 == 0 { 1 } else { 2 }
    }
}

/// A place of the row of handles, as the library has it.
#[repr(C)]
#[derive(Debug, Clone, Default, PartialEq, Eq)]
pub struct Place {
    pub used: u8,
    pub handle: u32,
    pub place: u64,
    pub commit_no: u64,
    pub held_len: u64,
    pub held_bytes: u64,
}

/// The store's size: session places, C and M.
#[repr(C)]
#[derive(Debug, Clone, Copy)]
pub struct Size {
    pub sessions: u32,
    pub bytes: u32,
    pub messages: u32,
}

/// The lengths of the areas, by docs/AREAS.md.
impl Size {
    pub fn words_of_place(self) -> usize {
        16 + 2 * self.messages as usize
    }

    pub fn bytes_of_place(self) -> usize {
        4 * 32 + 32 + 64 + self.bytes as usize
    }

    /// Where the words and the bytes of a place begin.
    pub fn start(self, place: usize) -> (usize, usize) {
        (66 + place * self.words_of_place(), place * self.bytes_of_place())
    }
}

/// What no call changes.
#[repr(C)]
#[derive(Debug, Clone, Copy)]
pub struct Settings {
    pub size: Size,
    pub incarnation: u64,
    pub max_lag: u64,
    pub tells_lowest: u8,
}

/// The areas that a standby is lent.
#[derive(Clone, PartialEq, Eq)]
pub struct Areas {
    pub row: Vec<Place>,
    pub words: Vec<u64>,
    pub bytes: Vec<u8>,
    pub holds: Vec<u8>,
    pub ends: Vec<u64>,
}

impl Areas {
    /// Areas for a store of this size, full of rubbish, and a free row.
    pub fn new(size: Size, handles: usize, hold: usize, ends: usize) -> Self {
        let (words, bytes) = size.start(size.sessions as usize);
        Self {
            row: vec![Place::default(); handles],
            words: vec![RUBBISH; words],
            bytes: vec![UNTOUCHED; bytes],
            holds: vec![UNTOUCHED; handles * hold],
            ends: vec![RUBBISH; ends],
        }
    }

    /// Whether the store's two areas are as they were lent.
    #[cfg(calls)]
    pub fn are_untouched(&self) -> bool {
        self.words.iter().all(|word| *word == RUBBISH) && untouched(&self.bytes)
    }

    /// Where a handle stands in the row.
    pub fn index(&self, handle: u32) -> Option<usize> {
        self.row.iter().position(|place| place.used != 0 && place.handle == handle)
    }
}

/// What a standby is asked.
#[derive(Debug, Clone, Copy)]
#[cfg_attr(not(calls), allow(dead_code))]
pub enum Ask<'a> {
    Held(&'a [u8]),
    Frame(&'a [u8]),
    Flush(u64),
    Drop(u64),
    Promote,
    Unchecked,
}

/// The bits of an answer: work was done; a sending has nothing more to give.
const WORK: u64 = 1 << 63;
pub const DONE: u64 = 1 << 62;

/// How many words a sending has: the last commit number, whether it has begun, where it goes on, whether it is done, and the line,
/// which no call writes.
pub const SENDING: usize = 5;

/// A line as a sending's last word has it. Every other number breaks the rules.
pub fn line_word(line: Line) -> u64 {
    match line {
        Line::HeadOffice => 0,
        Line::Branch => 1,
    }
}

pub const NO_LINES: [u64; 6] = [2, 3, 255, 256, 1 << 32, u64::MAX];

/// What a function answers: a length, or a refusal with its detail.
pub type Outcome = Result<u64, (u32, u64)>;

pub fn outcome(answer: u64) -> Outcome {
    if answer & WORK != 0 { Ok(answer & !WORK) } else { Err(((answer >> 40) as u32, answer & ((1 << 40) - 1))) }
}

/// What a request for resend ranges answers: 0 or the refusal, the list's length, and its messages' bytes.
#[repr(C)]
#[derive(Debug, Clone, Copy)]
pub struct Resent {
    pub refusal: u8,
    pub length: usize,
    pub bytes: usize,
}

/// What an import answers: 0 or the refusal, the new session's place, the offset of the first faulty message.
#[repr(C)]
#[derive(Debug, Clone, Copy)]
pub struct Imported {
    pub refusal: u8,
    pub place: usize,
    pub at: usize,
    pub lowest: u64,
}

#[cfg(plain)]
pub use crate::plain::{Said, answer, frame, import, made, queue, read, resend, said, send, session};

#[cfg(not(plain))]
pub use exports::{frame, import, queue, read, resend, send, session};

#[cfg(all(calls, not(plain)))]
pub use entry::{Said, answer, fnv, made, said};

#[cfg(not(plain))]
mod exports {
    use super::{Areas, Imported, Resent, Size};
    use crate::call::Key;

    unsafe extern "C" {
        fn wz_frame(frame: *const u8, frame_len: usize, out: *mut u8, out_len: usize, version: u16) -> u64;

        fn wz_read(frame: *const u8, frame_len: usize, version: u16) -> u64;

        fn wz_queue(queue: *mut u64, queue_len: usize, max_lag: u64, last: u64) -> u64;

        fn wz_resend(
            words: *const u64,
            words_len: usize,
            bytes: *const u8,
            bytes_len: usize,
            ranges: *const u64,
            ranges_len: usize,
            entries: *mut u64,
            entries_len: usize,
            sessions: u32,
            c: u32,
            m: u32,
            place: u64,
        ) -> Resent;

        fn wz_import(
            words: *mut u64,
            words_len: usize,
            bytes: *mut u8,
            bytes_len: usize,
            begin: *const u8,
            begin_len: usize,
            sender: *const u8,
            sender_len: usize,
            target: *const u8,
            target_len: usize,
            suffix: *const u8,
            suffix_len: usize,
            file: *const u8,
            file_len: usize,
            sessions: u32,
            c: u32,
            m: u32,
        ) -> Imported;
    }

    /// Functions that read a store: their own parameters stand before the output area, and after the place.
    macro_rules! readers {
        ($(fn $name:ident($($own:ident: $own_ty:ty),*; $($more:ident: $more_ty:ty),*);)*) => {
            unsafe extern "C" {
                $(fn $name(
                    words: *const u64,
                    words_len: usize,
                    bytes: *const u8,
                    bytes_len: usize,
                    $($own: $own_ty,)*
                    out: *mut u8,
                    out_len: usize,
                    sessions: u32,
                    c: u32,
                    m: u32,
                    place: u64,
                    $($more: $more_ty,)*
                ) -> u64;)*
            }
        };
    }

    readers! {
        fn wz_session(; n: u64);
        fn wz_send(sending: *mut u64, sending_len: usize; handle: u32, epoch: u64, version: u16);
    }

    macro_rules! read {
        ($name:ident, $areas:ident, $size:ident, ($($own:expr),*), $out:ident, $($more:expr),*) => {{
            let Size { sessions, bytes: c, messages: m } = $size;
            let Areas { words, bytes, .. } = $areas;
            let (words, words_len, bytes, bytes_len) = (words.as_ptr(), words.len(), bytes.as_ptr(), bytes.len());
            let (out, out_len) = ($out.as_mut_ptr(), $out.len());
            unsafe { $name(words, words_len, bytes, bytes_len, $($own,)* out, out_len, sessions, c, m, $($more),*) }
        }};
    }

    pub fn frame(frame: &[u8], out: &mut [u8], version: u16) -> u64 {
        unsafe { wz_frame(frame.as_ptr(), frame.len(), out.as_mut_ptr(), out.len(), version) }
    }

    /// Reads a frame only.
    pub fn read(frame: &[u8], version: u16) -> u64 {
        unsafe { wz_read(frame.as_ptr(), frame.len(), version) }
    }

    pub fn queue(queue: &mut [u64], max_lag: u64, last: u64) -> u64 {
        unsafe { wz_queue(queue.as_mut_ptr(), queue.len(), max_lag, last) }
    }

    /// Ranges are two words each, entries six.
    pub fn resend(areas: &Areas, size: Size, ranges: &[u64], entries: &mut [u64], place: u64) -> Resent {
        let Size { sessions, bytes: c, messages: m } = size;
        let Areas { words, bytes, .. } = areas;
        let (words, words_len, bytes, bytes_len) = (words.as_ptr(), words.len(), bytes.as_ptr(), bytes.len());
        let (from, from_len, to, to_len) = (ranges.as_ptr(), ranges.len(), entries.as_mut_ptr(), entries.len());
        unsafe { wz_resend(words, words_len, bytes, bytes_len, from, from_len, to, to_len, sessions, c, m, place) }
    }

    pub fn import(areas: &mut Areas, size: Size, key: &Key, file: &[u8]) -> Imported {
        let Size { sessions, bytes: c, messages: m } = size;
        let Areas { words, bytes, .. } = areas;
        let (w, wl, b, bl) = (words.as_mut_ptr(), words.len(), bytes.as_mut_ptr(), bytes.len());
        let [(k, kl), (s, sl), (t, tl), (x, xl)] = key.each_ref().map(|part| (part.as_ptr(), part.len()));
        unsafe { wz_import(w, wl, b, bl, k, kl, s, sl, t, tl, x, xl, file.as_ptr(), file.len(), sessions, c, m) }
    }

    pub fn session(areas: &Areas, size: Size, out: &mut [u8], place: u64, n: u64) -> u64 {
        read!(wz_session, areas, size, (), out, place, n)
    }

    pub fn send(
        areas: &Areas,
        size: Size,
        sending: &mut [u64],
        out: &mut [u8],
        place: u64,
        (handle, epoch): (u32, u64),
        version: u16,
    ) -> u64 {
        read!(wz_send, areas, size, (sending.as_mut_ptr(), sending.len()), out, place, handle, epoch, version)
    }
}

#[cfg(all(calls, not(plain)))]
mod entry {
    use super::{Areas, Ask, Counters, Place, Settings, Size};

    /// A part of the store's bytes.
    #[repr(C)]
    #[derive(Debug, Clone, Copy)]
    struct Span {
        at: usize,
        len: u32,
    }

    /// What a Bound says of a session.
    #[repr(C)]
    #[derive(Debug, Clone, Copy)]
    struct BoundSummary {
        next_outgoing: u64,
        next_incoming: u64,
        has_in_flight: u8,
        in_flight: u64,
        created_at: Span,
        marks: Span,
        last_outgoing: u64,
    }

    /// What an entry point answers; `answer` makes bytes of it.
    #[repr(C)]
    #[derive(Debug, Clone, Copy)]
    pub struct Said {
        refusal: u8,
        kind: u8,
        handle: u32,
        epoch: u64,
        incarnation: u64,
        commit_no: u64,
        reason: u8,
        summary: BoundSummary,
        has_lowest: u8,
        lowest: u64,
    }

    impl Said {
        /// The lowest message on hand, if it is handed up: the flag is 0 or 1, and the number 0 without it.
        pub fn handed_up(&self) -> Option<u64> {
            assert!(self.has_lowest < 2 && (self.has_lowest == 1 || self.lowest == 0), "a flag and its number");
            (self.has_lowest != 0).then_some(self.lowest)
        }
    }

    /// Entry points: with a frame; with a number, which is a connection; with neither.
    macro_rules! entry {
        ($(fn $name:ident($($more:ident: $ty:ty),*);)*) => {
            unsafe extern "C" {
                $(fn $name(
                    counters: *mut Counters,
                    row: *mut Place,
                    row_len: usize,
                    words: *mut u64,
                    words_len: usize,
                    bytes: *mut u8,
                    bytes_len: usize,
                    $($more: $ty,)*
                    settings: Settings,
                ) -> Said;)*
            }
        };
    }

    entry! {
        fn make();
    }

    /// Of these, calls, which are lent the hold areas and their words too.
    macro_rules! calls {
        ($(fn $name:ident($($more:ident: $ty:ty),*);)*) => {
            entry! {
                $(fn $name(holds: *mut u8, holds_len: usize, ends: *mut u64, ends_len: usize $(, $more: $ty)*);)*
            }
        };
    }

    calls! {
        fn on_frame_held(frame: *const u8, frame_len: usize);
        fn on_frame(frame: *const u8, frame_len: usize);
        fn flush(connection: u64);
        fn disconnected_from(connection: u64);
        fn promote();
        fn promote_unchecked();
    }

    unsafe extern "C" {
        fn store_make(words: *mut u64, words_len: usize, bytes: *const u8, bytes_len: usize, shape: Size) -> u8;

        fn wz_answer(said: Said, bytes: *const u8, bytes_len: usize, out: *mut u8, out_len: usize, version: u16) -> u64;

        fn store_fnv(hash: u64, bytes: *const u8, bytes_len: usize) -> u64;
    }

    macro_rules! made {
        ($name:ident, $counters:expr, $areas:expr, $settings:expr $(, $more:expr)*) => {{
            let Areas { row, words, bytes, .. } = $areas;
            let (row, row_len, words, words_len) = (row.as_mut_ptr(), row.len(), words.as_mut_ptr(), words.len());
            let (bytes, bytes_len) = (bytes.as_mut_ptr(), bytes.len());
            unsafe { $name($counters, row, row_len, words, words_len, bytes, bytes_len, $($more,)* $settings) }
        }};
    }

    macro_rules! ask {
        ($name:ident, $counters:expr, $areas:expr, $settings:expr $(, $more:expr)*) => {{
            let (holds, holds_len) = ($areas.holds.as_mut_ptr(), $areas.holds.len());
            let (ends, ends_len) = ($areas.ends.as_mut_ptr(), $areas.ends.len());
            made!($name, $counters, $areas, $settings, holds, holds_len, ends, ends_len $(, $more)*)
        }};
    }

    /// Makes a store, and a standby over it.
    pub fn made(counters: &mut Counters, areas: &mut Areas, settings: Settings) -> u64 {
        let (words, words_len) = (areas.words.as_mut_ptr(), areas.words.len());
        let refused = unsafe { store_make(words, words_len, areas.bytes.as_ptr(), areas.bytes.len(), settings.size) };
        if refused != 0 {
            return u64::from(refused) << 40;
        }
        answer(&made!(make, counters, &mut *areas, settings), &areas.bytes, &mut [], counters.version())
    }

    pub fn said(counters: &mut Counters, areas: &mut Areas, settings: Settings, ask: Ask) -> Said {
        match ask {
            Ask::Held(f) => ask!(on_frame_held, counters, areas, settings, f.as_ptr(), f.len()),
            Ask::Frame(f) => ask!(on_frame, counters, areas, settings, f.as_ptr(), f.len()),
            Ask::Flush(connection) => ask!(flush, counters, areas, settings, connection),
            Ask::Drop(connection) => ask!(disconnected_from, counters, areas, settings, connection),
            Ask::Promote => ask!(promote, counters, areas, settings),
            Ask::Unchecked => ask!(promote_unchecked, counters, areas, settings),
        }
    }

    /// Writes an answer's frame in a version.
    pub fn answer(said: &Said, bytes: &[u8], out: &mut [u8], version: u16) -> u64 {
        unsafe { wz_answer(*said, bytes.as_ptr(), bytes.len(), out.as_mut_ptr(), out.len(), version) }
    }

    pub fn fnv(bytes: &[u8]) -> u64 {
        unsafe { store_fnv(0xcbf2_9ce4_8422_2325, bytes.as_ptr(), bytes.len()) }
    }
}
