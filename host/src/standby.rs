//! A standby, with all that is lent to its calls.
use crate::library::*;
use crate::words::Failure;

/// What the areas are made for.
#[derive(Clone, Copy)]
pub struct Limits {
    pub sessions: u32,
    pub handles: usize,
    pub bytes: u32,
    pub messages: u32,
    pub lag: u64,
    pub incarnation: Option<u64>,
}

/// What the options say of the limits.
#[derive(Clone, Copy, Default)]
pub struct Given {
    pub sessions: Option<u32>,
    pub handles: Option<usize>,
    pub bytes: Option<u32>,
    pub messages: Option<u32>,
    pub lag: Option<u64>,
    pub incarnation: Option<u64>,
}

/// So many handles for each session, where their number isn't given: each opening takes one until the next Hello.
const OPENINGS: usize = 16;

impl Limits {
    /// Those that an option gives and a copy is kept with, by their names.
    pub fn named(&self) -> [(&'static str, u64); 5] {
        [
            ("sessions", self.sessions.into()),
            ("handles", self.handles as u64),
            ("bytes", self.bytes.into()),
            ("messages", self.messages.into()),
            ("lag", self.lag),
        ]
    }
}

impl Given {
    /// The limits: what is given, else those that a copy is kept with, else the usual ones.
    pub fn over(&self, kept: Option<Limits>) -> Limits {
        let (bytes, messages) = (1 << 20, 1024);
        let usual = Limits { sessions: 16, handles: 16 * OPENINGS, bytes, messages, lag: 0, incarnation: None };
        let kept = kept.unwrap_or(usual);
        let sessions = self.sessions.unwrap_or(kept.sessions);
        let handles = if sessions == kept.sessions { kept.handles } else { sessions as usize * OPENINGS };
        Limits {
            sessions,
            handles: self.handles.unwrap_or(handles),
            bytes: self.bytes.unwrap_or(kept.bytes),
            messages: self.messages.unwrap_or(kept.messages),
            lag: self.lag.unwrap_or(kept.lag),
            incarnation: self.incarnation.or(kept.incarnation),
        }
    }

    /// Whether nothing else is given than a copy is kept with; if not, that.
    pub fn agrees_with(&self, kept: &Limits) -> Result<(), String> {
        let mut pairs = self.over(Some(*kept)).named().into_iter().zip(kept.named());
        let other = pairs.find(|(given, kept)| given != kept);
        other.map_or(Ok(()), |(_, (name, kept))| Err(format!("--{name} {kept}")))
    }
}

pub struct Standby {
    pub counters: Replica,
    pub row: Vec<Bound>,
    pub words: Vec<u64>,
    bytes: Vec<u8>,
    holds: Vec<u8>,
    ends: Vec<u64>,
    pub settings: Settings,
}

/// A session as wz_session tells it, with its messages.
#[derive(PartialEq)]
pub struct Session {
    pub key: [Vec<u8>; 4],
    pub next_outgoing: u64,
    pub next_incoming: u64,
    pub in_flight: Option<u64>,
    pub stamp: Vec<u8>,
    pub marks: Vec<u8>,
    pub durable: bool,
    pub messages: Vec<(u64, Vec<u8>)>,
}

/// A call over all that is lent to a standby, with what it is handed besides.
macro_rules! over {
    ($standby:ident, $call:ident $(, $handed:expr)*) => {
        unsafe {
            $call(
                &mut $standby.counters,
                $standby.row.as_mut_ptr(),
                $standby.row.len(),
                $standby.words.as_mut_ptr(),
                $standby.words.len(),
                $standby.bytes.as_mut_ptr(),
                $standby.bytes.len(),
                $standby.holds.as_mut_ptr(),
                $standby.holds.len(),
                $standby.ends.as_mut_ptr(),
                $standby.ends.len(),
                $($handed,)*
                $standby.settings,
            )
        }
    };
}

/// A call over a standby's store, lent by `as_ptr` or `as_mut_ptr`: with slices that are read, slices that are written, and what stands behind the shape.
macro_rules! over_store {
    ($standby:ident.$lent:ident, $call:ident, [$($read:expr),*], [$($written:expr),*] $(, $handed:expr)*) => {{
        let Shape { places, bytes, messages } = $standby.settings.shape;
        unsafe {
            $call(
                $standby.words.$lent(),
                $standby.words.len(),
                $standby.bytes.$lent(),
                $standby.bytes.len(),
                $($read.as_ptr(), $read.len(),)*
                $($written.as_mut_ptr(), $written.len(),)*
                places,
                bytes,
                messages,
                $($handed,)*
            )
        }
    }};
}

/// So many zeros, if the system gives as many; those of bytes and numbers take memory where they are written only.
fn zeros<T: Clone + Default>(count: Option<usize>) -> Result<Vec<T>, Failure> {
    let given = count.filter(|count| Vec::<T>::new().try_reserve_exact(*count).is_ok());
    let given = given.ok_or_else(|| Failure::usage("the system doesn't give the memory that these limits need"))?;
    Ok(vec![T::default(); given])
}

impl Standby {
    /// A new one, where the limits fit and the system gives its memory.
    pub fn new(limits: &Limits) -> Result<Standby, Failure> {
        let (s, c, m) = (limits.sessions as usize, limits.bytes as usize, limits.messages as usize);
        let shape = Shape { places: limits.sessions, bytes: limits.bytes, messages: limits.messages };
        let settings = Settings { shape, incarnation: limits.incarnation.unwrap_or(1), max_lag: limits.lag, tells_lowest: 1 };
        let fits = |refusal| match refusal {
            0 => Ok(()),
            _ => Err(Failure::usage(format!("the limits don't fit: R {refusal}"))),
        };
        fits(if c > 33_554_432 || m > 65_536 { 25 } else { 0 })?;
        // Any session fits a hold area of this length; a word for each 65,536 bytes of it says where a closed segment ends.
        let hold = c + 22 * m + 131;
        let mut made = Standby {
            counters: Replica::default(),
            words: zeros(Some(66 + s * (16 + 2 * m)))?,
            bytes: zeros(Some(s * (224 + c)))?,
            holds: zeros(limits.handles.checked_mul(hold))?,
            ends: zeros(limits.handles.checked_mul(hold / 65_536))?,
            row: zeros(Some(limits.handles))?,
            settings,
        };
        let (row, words, bytes) = (&mut made.row, &mut made.words, &made.bytes);
        fits(unsafe { wz_store_make(words.as_mut_ptr(), words.len(), bytes.as_ptr(), bytes.len(), shape) })?;
        let answer = unsafe {
            wz_standby_make(
                &mut made.counters,
                row.as_mut_ptr(),
                row.len(),
                words.as_mut_ptr(),
                words.len(),
                bytes.as_ptr(),
                bytes.len(),
                settings,
            )
        };
        fits(answer.refusal).map(|()| made)
    }

    /// Takes one frame.
    pub fn take(&mut self, frame: &[u8]) -> Answer {
        over!(self, wz_on_frame, frame.as_ptr(), frame.len())
    }

    /// Takes one frame, whose commit runs with `flush` or a later frame: its answer is sent after that.
    pub fn take_held(&mut self, frame: &[u8]) -> Answer {
        over!(self, wz_on_frame_held, frame.as_ptr(), frame.len())
    }

    /// Runs the commits of the current line; the refusal, or 0.
    pub fn flush(&mut self) -> u8 {
        let connection = self.counters.connections;
        over!(self, wz_flush, connection).refusal
    }

    /// The last answer's bytes, in the version that its call left; none for a refusal.
    pub fn reply(&self, answer: Answer) -> Vec<u8> {
        let mut out = [0; 143];
        let (bytes, version) = (&self.bytes, self.counters.version());
        let code = unsafe { wz_answer(answer, bytes.as_ptr(), bytes.len(), out.as_mut_ptr(), out.len(), version) };
        out[..count(code).unwrap_or(0)].to_vec()
    }

    /// The current line has ended.
    pub fn drop_line(&mut self) {
        self.drop_line_of(self.counters.connections);
    }

    /// The line of a connection has ended: where that isn't the current one, nothing is dropped.
    pub fn drop_line_of(&mut self, connection: u64) {
        over!(self, wz_disconnected_from, connection);
    }

    /// The lowest version that takes every session's stamp.
    pub fn lowest_version(&self) -> u16 {
        let long = |place| self.session(place).stamp.len() > LONGEST_SHORT;
        if (0..self.sessions()).any(long) { LATEST } else { FIRST }
    }

    /// The frames that send a session whole, on a handle that has just been bound over a connection of this version.
    pub fn send_whole<E>(
        &self,
        place: usize,
        handle: u32,
        version: u16,
        mut each: impl FnMut(&[u8]) -> Result<(), E>,
    ) -> Result<(), E> {
        let Shape { bytes, messages, .. } = self.settings.shape;
        let (mut sending, epoch) = ([0; 5], self.counters.epoch);
        let mut out = vec![0; bytes as usize + 22 * messages as usize + 165];
        loop {
            let code = over_store!(self.as_ptr, wz_send, [], [sending, out], place, handle, epoch, version);
            match count(code) {
                Ok(0) => return Ok(()),
                Ok(len) => each(&out[..len])?,
                Err(refusal) => unreachable!("a session of the store is sent whole: R {refusal}"),
            }
        }
    }

    /// Takes over; unchecked, if that is said. The refusal, or 0.
    pub fn promote(&mut self, unchecked: bool) -> u8 {
        let call = if unchecked { wz_promote_unchecked } else { wz_promote };
        over!(self, call).refusal
    }

    pub fn sessions(&self) -> usize {
        self.words[0] as usize
    }

    /// The sessions, in their order.
    pub fn all(&self) -> Vec<Session> {
        (0..self.sessions()).map(|place| self.session(place)).collect()
    }

    /// A session as a screen shows it.
    pub fn screen(&self, place: usize) -> String {
        screen(|out| over_store!(self.as_ptr, wz_screen_session, [], [out], place))
    }

    pub fn session(&self, place: usize) -> Session {
        let mut out = [0; 280];
        over_store!(self.as_ptr, wz_session, [], [out], place, 0);
        let mut left = &out[2..];
        let key = [(); 4].map(|()| text(&mut left));
        let [next_outgoing, next_incoming, flight] = [(); 3].map(|()| number(&mut left, 8));
        let (stamp, marks) = (text(&mut left), text(&mut left));
        let in_flight = (out[1] != 0).then_some(flight);
        let messages = self.messages(place);
        Session { key, next_outgoing, next_incoming, in_flight, stamp, marks, durable: out[0] != 0, messages }
    }

    /// The place of a session by its key.
    pub fn find(&self, key: &[Vec<u8>; 4]) -> Option<usize> {
        let [begin, sender, target, suffix] = key;
        count(over_store!(self.as_ptr, wz_find, [begin, sender, target, suffix], [])).ok()
    }

    /// A new session from a file of sent messages; or the refusal, and the offset of the first faulty message.
    pub fn import(&mut self, key: &[Vec<u8>; 4], file: &[u8]) -> Result<usize, (u8, usize)> {
        let [begin, sender, target, suffix] = key;
        let built = over_store!(self.as_mut_ptr, wz_import, [begin, sender, target, suffix, file], []);
        if built.refusal == 0 { Ok(built.place) } else { Err((built.refusal, built.at)) }
    }

    /// The stored messages of a session that lie in some range: number, set of ranges, bytes; or the refusal.
    pub fn resend(&self, place: usize, ranges: &[u64]) -> Result<Vec<(u64, u64, Vec<u8>)>, u8> {
        let mut entries = vec![0u64; 6 * self.settings.shape.messages as usize];
        let listed = over_store!(self.as_ptr, wz_resend, [ranges], [entries], place);
        if listed.refusal != 0 {
            return Err(listed.refusal);
        }
        let part = |at: u64, len: u64| &self.bytes[at as usize..(at + len) as usize];
        let entry = |e: &[u64]| (e[0], e[1], [part(e[2], e[3]), part(e[4], e[5])].concat());
        Ok(entries.chunks_exact(6).take(listed.length).map(entry).collect())
    }

    /// The stored messages of a session.
    fn messages(&self, place: usize) -> Vec<(u64, Vec<u8>)> {
        let all = self.resend(place, &[1, 0]).unwrap_or_default();
        all.into_iter().map(|(number, _, text)| (number, text)).collect()
    }
}

/// Which of up to five copies takes over; the refusal where none fits.
pub fn choose(copies: &[&Standby]) -> Result<usize, u8> {
    let mut told = [0u64; 30];
    for (words, copy) in told.chunks_exact_mut(6).zip(copies) {
        let Shape { places, bytes, messages } = copy.settings.shape;
        let checked = u64::from(copy.counters.checked != 0);
        words.copy_from_slice(&[1, checked, copy.counters.epoch, places.into(), bytes.into(), messages.into()]);
    }
    let words = |i: usize| copies.get(i).map_or(&[][..], |copy| &copy.words);
    let bytes = |i: usize| copies.get(i).map_or(&[][..], |copy| &copy.bytes);
    let ([w0, w1, w2, w3, w4], [b0, b1, b2, b3, b4]) = ([0, 1, 2, 3, 4].map(words), [0, 1, 2, 3, 4].map(bytes));
    macro_rules! over_all {
        ($($slice:ident),*) => { unsafe { wz_choose($($slice.as_ptr(), $slice.len()),*) } };
    }
    count(over_all!(told, w0, b0, w1, b1, w2, b2, w3, b3, w4, b4))
}

/// What bytes begin with: a part of a frame, a whole one with its length, or one that no version reads, with the refusal.
pub enum First {
    More,
    Frame(usize),
    Fault(u8),
}

pub fn first_frame(bytes: &[u8]) -> First {
    match count(unsafe { wz_read(bytes.as_ptr(), bytes.len(), LATEST) }) {
        Ok(len) => First::Frame(len),
        Err(0) => First::More,
        Err(refusal) => First::Fault(refusal),
    }
}

/// The next bytes of what is left, as a little-endian number, and as a text behind its length.
pub fn number(left: &mut &[u8], count: usize) -> u64 {
    let (now, rest) = left.split_at(count);
    *left = rest;
    now.iter().rev().fold(0, |value, byte| value << 8 | u64::from(*byte))
}

fn text(left: &mut &[u8]) -> Vec<u8> {
    let len = number(left, 4) as usize;
    let (now, rest) = left.split_at(len);
    *left = rest;
    now.to_vec()
}
