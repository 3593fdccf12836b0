//! A standby in Rust over libwizhdulet.a: what examples/standby.c does, behind a safe `Standby`.
//!
//!     rustc -O examples/standby.rs -L ~/wizhdulet/lib -o standby
//!     xxd -r -p <oracle/recorded/frames/09-life.in | ./standby
//!
//! The records and functions are those of include/wizhdulet.h, in its order.
use std::io::Read;
#[repr(C)] #[derive(Clone, Copy, Default)] struct Replica { epoch: u64, connections: u64, promoted: u8, checked: u8, version2: u8 }
#[repr(C)] #[derive(Clone, Copy, Default)] struct Bound { used: u8, handle: u32, place: usize, commit_no: u64, held_len: usize, held_bytes: u64 }
#[repr(C)] #[derive(Clone, Copy)] struct Shape { places: u32, bytes: u32, messages: u32 }
#[repr(C)] #[derive(Clone, Copy)] struct Settings { shape: Shape, incarnation: u64, max_lag: u64, tells_lowest: u8 }
#[repr(C)] #[derive(Clone, Copy)] struct Span { at: usize, len: u32 }
#[repr(C)] #[derive(Clone, Copy)] struct Summary { next_outgoing: u64, next_incoming: u64, has_in_flight: u8, in_flight: u64, created_at: Span, marks: Span, last_outgoing: u64 }
#[repr(C)] #[derive(Clone, Copy)] struct Answer { refusal: u8, kind: u8, handle: u32, epoch: u64, incarnation: u64, commit_no: u64, reason: u8, summary: Summary, has_lowest: u8, lowest: u64 }

#[link(name = "wizhdulet", kind = "static")]
unsafe extern "C" {
    fn wz_version() -> u32;
    fn wz_store_make(words: *mut u64, words_len: usize, bytes: *const u8, bytes_len: usize, shape: Shape) -> u8;
    fn wz_standby_make(counters: &mut Replica, row: *mut Bound, row_len: usize, words: *mut u64, words_len: usize, bytes: *const u8, bytes_len: usize, settings: Settings) -> Answer;
    fn wz_on_frame(counters: &mut Replica, row: *mut Bound, row_len: usize, words: *mut u64, words_len: usize, bytes: *mut u8, bytes_len: usize, holds: *mut u8, holds_len: usize, ends: *mut u64, ends_len: usize, frame: *const u8, frame_len: usize, settings: Settings) -> Answer;
    fn wz_disconnected_from(counters: &mut Replica, row: *mut Bound, row_len: usize, words: *mut u64, words_len: usize, bytes: *mut u8, bytes_len: usize, holds: *mut u8, holds_len: usize, ends: *mut u64, ends_len: usize, connection: u64, settings: Settings) -> Answer;
    fn wz_promote(counters: &mut Replica, row: *mut Bound, row_len: usize, words: *mut u64, words_len: usize, bytes: *mut u8, bytes_len: usize, holds: *mut u8, holds_len: usize, ends: *mut u64, ends_len: usize, settings: Settings) -> Answer;
    fn wz_answer(answer: Answer, bytes: *const u8, bytes_len: usize, out: *mut u8, out_len: usize, version: u16) -> u64;
    fn wz_read(frame: *const u8, frame_len: usize, version: u16) -> u64;
    fn wz_session(words: *const u64, words_len: usize, bytes: *const u8, bytes_len: usize, out: *mut u8, out_len: usize, sessions: u32, c: u32, m: u32, place: usize, n: u64) -> u64;
    fn wz_find(words: *const u64, words_len: usize, bytes: *const u8, bytes_len: usize, begin: *const u8, begin_len: usize, sender: *const u8, sender_len: usize, target: *const u8, target_len: usize, suffix: *const u8, suffix_len: usize, sessions: u32, c: u32, m: u32) -> u64;
    fn wz_message(words: *const u64, words_len: usize, bytes: *const u8, bytes_len: usize, out: *mut u8, out_len: usize, sessions: u32, c: u32, m: u32, place: usize, number: u64) -> u64;
}

/// A code's count, or the refusal; a stream that isn't a whole frame yet is `Ok(0)`.
fn count(code: u64) -> Result<usize, u8> {
    if code >> 63 == 1 { Ok((code & (u64::MAX >> 2)) as usize) } else if code == 0 { Ok(0) } else { Err((code >> 40) as u8) }
}

/// The count of wz_find and wz_message, whose 0 says that nothing is stored there.
fn stored(code: u64) -> Option<usize> { if code == 0 { None } else { count(code).ok() } }

/// The lent memory of one standby; every call borrows it whole, so no two overlap.
struct Standby { counters: Replica, row: Vec<Bound>, words: Vec<u64>, bytes: Vec<u8>, holds: Vec<u8>, ends: Vec<u64>, settings: Settings }

/// All that a call lends, in the header's order.
macro_rules! lent {
    ($s:ident) => {
        (&mut $s.counters, $s.row.as_mut_ptr(), $s.row.len(), $s.words.as_mut_ptr(), $s.words.len(), $s.bytes.as_mut_ptr(), $s.bytes.len(), $s.holds.as_mut_ptr(), $s.holds.len(), $s.ends.as_mut_ptr(), $s.ends.len())
    };
}

impl Standby {
    /// `places` sessions of at most `bytes` message bytes and `messages` messages, over a new store.
    fn new(shape: Shape, handles: usize, incarnation: u64, max_lag: u64) -> Result<Self, u8> {
        let (s, c, m) = (shape.places as usize, shape.bytes as usize, shape.messages as usize);
        let (words, bytes) = (vec![0; 66 + s * (16 + 2 * m)], vec![0; s * (224 + c)]);
        let hold = c + 22 * m + 131; // A word for each 65,536 bytes of a hold area says where a closed segment ends.
        let (holds, ends) = (vec![0; handles * hold], vec![0; handles * (hold / 65_536)]);
        let mut made = Standby { counters: Replica::default(), row: vec![Bound::default(); handles], words, bytes, holds, ends, settings: Settings { shape, incarnation, max_lag, tells_lowest: 1 } };
        let (k, r, rl, w, wl, b, bl, ..) = lent!(made);
        match unsafe { wz_store_make(w, wl, b, bl, shape) } {
            0 => match unsafe { wz_standby_make(k, r, rl, w, wl, b, bl, made.settings) }.refusal { 0 => Ok(made), refusal => Err(refusal) },
            refusal => Err(refusal),
        }
    }

    /// The version that the connection speaks: 1 until a Hello is accepted, then that Hello's.
    fn version(&self) -> u16 { if self.counters.version2 == 0 { 1 } else { 2 } }

    /// The kind of the answer and its bytes, or the refusal.
    fn on_frame(&mut self, frame: &[u8]) -> Result<(u8, Vec<u8>), u8> {
        let (k, r, rl, w, wl, b, bl, h, hl, e, el) = lent!(self);
        let answer = unsafe { wz_on_frame(k, r, rl, w, wl, b, bl, h, hl, e, el, frame.as_ptr(), frame.len(), self.settings) };
        let mut out = vec![0; 143];
        let written = count(unsafe { wz_answer(answer, b, bl, out.as_mut_ptr(), out.len(), self.version()) })?;
        out.truncate(written);
        Ok((answer.kind, out))
    }

    fn disconnected(&mut self) {
        let (connection, (k, r, rl, w, wl, b, bl, h, hl, e, el)) = (self.counters.connections, lent!(self));
        unsafe { wz_disconnected_from(k, r, rl, w, wl, b, bl, h, hl, e, el, connection, self.settings) };
    }

    fn promote(&mut self) -> Result<(), u8> {
        let (k, r, rl, w, wl, b, bl, h, hl, e, el) = lent!(self);
        match unsafe { wz_promote(k, r, rl, w, wl, b, bl, h, hl, e, el, self.settings) }.refusal { 0 => Ok(()), refusal => Err(refusal) }
    }

    /// The stored message with a number of the session with a key; none if there is no such session or message.
    fn message(&self, key: [&str; 4], number: u64) -> Option<Vec<u8>> {
        let Shape { places, bytes, messages } = self.settings.shape;
        let (w, wl, b, bl, mut out) = (self.words.as_ptr(), self.words.len(), self.bytes.as_ptr(), self.bytes.len(), vec![0; bytes as usize]);
        let [(begin, n0), (sender, n1), (target, n2), (suffix, n3)] = key.map(|text| (text.as_ptr(), text.len()));
        let place = stored(unsafe { wz_find(w, wl, b, bl, begin, n0, sender, n1, target, n2, suffix, n3, places, bytes, messages) })?;
        let code = unsafe { wz_message(w, wl, b, bl, out.as_mut_ptr(), out.len(), places, bytes, messages, place, number) };
        out.truncate(stored(code)?);
        Some(out)
    }

    fn show(&self, when: &str) {
        let said = |flag: u8, word: &str| if flag != 0 { word.to_string() } else { format!("not {word}") };
        println!("{when}: epoch {}, {}, {}", self.counters.epoch, said(self.counters.checked, "checked"), said(self.counters.promoted, "promoted"));
        let (Shape { places, bytes, messages }, mut told) = (self.settings.shape, vec![0; 280]);
        let (w, wl, b, bl, out, room) = (self.words.as_ptr(), self.words.len(), self.bytes.as_ptr(), self.bytes.len(), told.as_mut_ptr(), told.len());
        for place in 0..self.words[0] as usize {
            if count(unsafe { wz_session(w, wl, b, bl, out, room, places, bytes, messages, place, u64::MAX) }).is_ok() { show_session(&told); }
        }
    }
}

/// The next `n` bytes of what was told.
fn take<'a>(left: &mut &'a [u8], n: usize) -> &'a [u8] { let (now, rest) = left.split_at(n); *left = rest; now }
fn number(left: &mut &[u8]) -> u64 { take(left, 8).iter().rev().fold(0, |value, byte| value << 8 | u64::from(*byte)) }
fn text(left: &mut &[u8]) -> String {
    let len = take(left, 4).iter().rev().fold(0, |value, byte| value << 8 | usize::from(*byte));
    String::from_utf8_lossy(take(left, len)).into_owned()
}

fn show_session(told: &[u8]) {
    let mut left = &told[2..];
    let [begin, sender, target, suffix] = [(); 4].map(|()| text(&mut left));
    let [outgoing, incoming, flight] = [(); 3].map(|()| number(&mut left));
    let (stamp, marks, hash) = (text(&mut left), text(&mut left), number(&mut left));
    let (slash, given) = (if suffix.is_empty() { "" } else { " / " }, if told[1] != 0 { format!(", in flight {flight}") } else { String::new() });
    println!("  {begin} {sender} -> {target}{slash}{suffix}: next outgoing {outgoing}, next incoming {incoming}{given}");
    println!("    since {}, marks '{marks}', {}, messages' hash {hash:016x}", if stamp.is_empty() { "no time" } else { &stamp }, if told[0] != 0 { "durable" } else { "not durable" });
}

const KINDS: [&str; 9] = ["none", "Hello", "Welcome", "Bind", "Batch", "Ack", "Nack", "Bound", "Checked"];
fn main() {
    assert_eq!(unsafe { wz_version() }, 65_536, "these declarations are those of version 1.0");
    let mut standby = Standby::new(Shape { places: 4, bytes: 4096, messages: 64 }, 4, 7, 0).expect("the areas fit the settings");
    let mut stream = Vec::new();
    std::io::stdin().read_to_end(&mut stream).expect("standard input is read");
    let mut left = &stream[..];
    while let Ok(len @ 1..) = count(unsafe { wz_read(left.as_ptr(), left.len(), standby.version()) }) {
        let frame = take(&mut left, len);
        match standby.on_frame(frame) {
            Ok((kind, out)) => println!("{}: {} {}", KINDS[frame[4] as usize], KINDS[kind as usize], out.iter().map(|byte| format!("{byte:02x}")).collect::<String>()),
            Err(refusal) => { println!("{}: refused, {refusal} (docs/REFUSALS.md); the connection ends", KINDS[frame[4] as usize]); break; }
        }
    }
    standby.disconnected();
    standby.show("the connection has ended");
    standby.promote().expect("an unchecked copy isn't taken over here");
    standby.show("taken over");
    // What a counterparty's ResendRequest gets: each stored message again, a gap fill where none is.
    for number in 1..=6 {
        println!("    {number} {}", standby.message(["FIX.4.4", "A", "B", ""], number).map_or("as a gap fill".into(), |message| format!("again: {}", String::from_utf8_lossy(&message))));
    }
}
