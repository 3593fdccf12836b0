//! Stand-in for the crate `turbojet`: what the Rust under judgement takes from it, by document
//! 01's rules that are called added (key, stamp, marks, stored session).

/// Whether `bytes` are `least` to `most` bytes of 20 to 7E (hexadecimal).
fn printable(bytes: &[u8], least: usize, most: usize) -> bool {
    (least..=most).contains(&bytes.len()) && bytes.iter().all(|byte| (0x20..=0x7e).contains(byte))
}

/// A session's key: begin string, sender and target of 1 to 32 printable bytes, suffix of 0 to 32.
#[derive(Debug, Clone, PartialEq, Eq, Hash)]
pub struct SessionId {
    pub begin_string: String,
    pub sender_comp_id: String,
    pub target_comp_id: String,
    suffix: String,
}

impl SessionId {
    pub fn from_key(begin_string: String, sender: String, target: String, suffix: &str) -> Option<Self> {
        let named = [&begin_string, &sender, &target].iter().all(|part| printable(part.as_bytes(), 1, 32));
        (named && printable(suffix.as_bytes(), 0, 32)).then(|| Self {
            begin_string,
            sender_comp_id: sender,
            target_comp_id: target,
            suffix: suffix.into(),
        })
    }

    pub fn key_suffix(&self) -> String {
        self.suffix.clone()
    }
}

pub mod fields {
    //! FIX field values: of these, the UTC timestamp.

    use std::cell::Cell;

    pub trait FromFix: Sized {
        type Error;
        fn from_fix(text: &str) -> Result<Self, Self::Error>;
    }

    pub trait ToFix {
        fn to_fix(&self) -> String;
    }

    /// A stamp, kept as written: `YYYYMMDD-HH:MM:SS`, or that with `.` and three digits, of a day that exists; in version 2 also with
    /// six, nine or twelve (document 02, U7).
    #[derive(Debug, Clone, Copy, PartialEq, Eq)]
    pub struct UtcTimestamp {
        len: usize,
        bytes: [u8; LONGEST],
    }

    /// The longest stamp that version 1 takes, and the longest of all.
    const LONGEST_SHORT: usize = 21;
    const LONGEST: usize = 30;

    thread_local! {
        /// Stamps are read in this version: the driver sets it before each reading.
        static VERSION: Cell<u16> = const { Cell::new(1) };
    }

    pub fn read_in(version: u16) {
        VERSION.set(version);
    }

    #[derive(Debug)]
    pub struct NotAStamp;

    /// The form: `d` stands for a digit, every other byte for itself.
    const FORM: &[u8; LONGEST] = b"dddddddd-dd:dd:dd.dddddddddddd";

    fn has_form(text: &[u8]) -> bool {
        (matches!(text.len(), 17 | LONGEST_SHORT) || VERSION.get() == 2 && matches!(text.len(), 24 | 27 | LONGEST))
            && text.iter().zip(FORM).all(|(byte, form)| match form {
                b'd' => byte.is_ascii_digit(),
                _ => byte == form,
            })
    }

    fn two(text: &[u8], at: usize) -> u8 {
        (text[at] - b'0') * 10 + (text[at + 1] - b'0')
    }

    fn in_range(text: &[u8], at: usize, least: u8, most: u8) -> bool {
        (least..=most).contains(&two(text, at))
    }

    /// The day exists in its month by the Gregorian calendar (document 02, U2).
    fn day_exists(text: &[u8]) -> bool {
        let year = u32::from(two(text, 0)) * 100 + u32::from(two(text, 2));
        let leap = year.is_multiple_of(4) && (!year.is_multiple_of(100) || year.is_multiple_of(400));
        let days = [31, if leap { 29 } else { 28 }, 31, 30, 31, 30, 31, 31, 30, 31, 30, 31];
        two(text, 6) <= days[usize::from(two(text, 4)) - 1]
    }

    impl FromFix for UtcTimestamp {
        type Error = NotAStamp;

        fn from_fix(text: &str) -> Result<Self, NotAStamp> {
            let text = text.as_bytes();
            let ranges = [(4, 1, 12), (6, 1, 31), (9, 0, 23), (12, 0, 59), (15, 0, 60)];
            let in_ranges = |text| ranges.iter().all(|&(at, least, most)| in_range(text, at, least, most));
            if !has_form(text) || !in_ranges(text) || !day_exists(text) {
                return Err(NotAStamp);
            }
            let mut bytes = [0; LONGEST];
            bytes[..text.len()].copy_from_slice(text);
            Ok(Self { len: text.len(), bytes })
        }
    }

    impl ToFix for UtcTimestamp {
        fn to_fix(&self) -> String {
            self.bytes[..self.len].iter().copied().map(char::from).collect()
        }
    }

    impl UtcTimestamp {
        /// Whether only version 2 takes it.
        pub fn is_long(&self) -> bool {
            self.len > LONGEST_SHORT
        }
    }
}

pub mod store {
    //! The stored session, in memory, and the jobs that a store hands out.

    use std::collections::VecDeque;
    use std::fmt;
    use std::io;
    use std::str::FromStr;
    use std::sync::{Arc, Mutex};

    use crate::SessionId;
    use crate::fields::UtcTimestamp;

    /// 0 to 64 printable bytes.
    #[derive(Debug, Clone, Copy, PartialEq, Eq)]
    pub struct Marks {
        len: usize,
        bytes: [u8; 64],
    }

    #[derive(Debug)]
    pub struct NotMarks;

    /// What a take-over may have handed the application already.
    #[derive(Debug, Clone, Copy, PartialEq, Eq)]
    pub enum MaybeHandled {
        BelowLogon,
    }

    impl Marks {
        pub const NONE: Self = Self { len: 0, bytes: [0; 64] };

        pub fn as_bytes(&self) -> &[u8] {
            &self.bytes[..self.len]
        }

        /// A final B: already B, unchanged; 64 bytes, the last replaced.
        #[must_use]
        pub fn with_maybe_handled(mut self, handled: Option<MaybeHandled>) -> Self {
            if handled.is_none() || self.as_bytes().last() == Some(&b'B') {
                return self;
            }
            self.len = (self.len + 1).min(64);
            self.bytes[self.len - 1] = b'B';
            self
        }
    }

    impl FromStr for Marks {
        type Err = NotMarks;

        fn from_str(text: &str) -> Result<Self, NotMarks> {
            if !crate::printable(text.as_bytes(), 0, 64) {
                return Err(NotMarks);
            }
            let mut marks = Self::NONE;
            marks.len = text.len();
            marks.bytes[..text.len()].copy_from_slice(text.as_bytes());
            Ok(marks)
        }
    }

    impl fmt::Display for Marks {
        fn fmt(&self, f: &mut fmt::Formatter<'_>) -> fmt::Result {
            f.write_str(std::str::from_utf8(self.as_bytes()).expect("printable"))
        }
    }

    /// Work of a store's, done at once on the thread that runs it.
    pub struct Job<T>(Box<dyn FnOnce() -> io::Result<T> + Send>);

    pub type Commit = Job<()>;

    impl<T: 'static> Job<T> {
        pub fn blocking(work: impl FnOnce() -> io::Result<T> + Send + 'static) -> Self {
            Self(Box::new(work))
        }

        pub fn run(self) -> io::Result<T> {
            (self.0)()
        }

        pub fn map_result<U: 'static>(
            self,
            then: impl FnOnce(io::Result<T>) -> io::Result<U> + Send + 'static,
        ) -> Job<U> {
            Job::blocking(move || then(self.run()))
        }
    }

    impl Job<()> {
        pub fn join(self, other: Self) -> Self {
            Self::blocking(move || self.run().and(other.run()))
        }
    }

    /// Messages by number, rising.
    pub type SentMessages = Vec<(u64, Vec<u8>)>;

    pub enum Fetched {
        Ready(SentMessages),
        Pending(Job<SentMessages>),
    }

    pub enum Opened {
        Ready(Box<dyn StoredSession>),
        Pending(Job<Box<dyn StoredSession>>),
    }

    pub trait SessionStorage: Send + Sync {
        fn open(&self, id: &SessionId) -> io::Result<Box<dyn StoredSession>>;
        fn begin_open(&self, id: &SessionId) -> io::Result<Opened>;
        fn is_durable(&self) -> bool;
        fn marked(&self) -> Job<Vec<(SessionId, Marks)>>;
        fn sessions(&self) -> Job<Vec<SessionId>>;
    }

    pub trait StoredSession: Send {
        fn next_outgoing(&self) -> u64;
        fn next_incoming(&self) -> u64;
        fn set_next_incoming(&mut self, seq: u64) -> io::Result<()>;
        fn record_outgoing(&mut self, seq: u64, msg: Option<&[u8]>) -> io::Result<()>;
        fn sent_messages(&mut self, begin: u64, end: u64) -> io::Result<SentMessages>;
        fn fetch(&mut self, begin: u64, end: u64) -> io::Result<Fetched>;
        fn commit(&mut self) -> io::Result<Option<Commit>>;
        fn reset(&mut self) -> io::Result<()>;
        fn evicted_through(&self) -> Option<u64>;
        fn in_flight(&self) -> Option<u64>;
        fn set_next_incoming_in_flight(&mut self, seq: u64, in_flight: u64) -> io::Result<()>;
        fn set_in_flight(&mut self, seq: u64) -> io::Result<()>;
        fn created_at(&self) -> Option<UtcTimestamp>;
        fn set_created_at(&mut self, at: UtcTimestamp) -> io::Result<()>;
        fn marks(&self) -> Marks;
        fn set_marks(&mut self, marks: Marks) -> io::Result<()>;

        /// For the drivers alone: which session this is.
        fn id(&self) -> Option<SessionId> {
            None
        }
    }

    /// A stored session's six parts, and its durable mark.
    #[derive(Debug, Clone)]
    pub struct Stored {
        pub created_at: Option<UtcTimestamp>,
        pub next_outgoing: u64,
        pub next_incoming: u64,
        pub in_flight: Option<u64>,
        pub marks: Marks,
        pub messages: VecDeque<(u64, Vec<u8>)>,
        pub durable: bool,
        message_bytes: usize,
    }

    impl Stored {
        fn new() -> Self {
            Self {
                created_at: None,
                next_outgoing: 1,
                next_incoming: 1,
                in_flight: None,
                marks: Marks::NONE,
                messages: VecDeque::new(),
                durable: false,
                message_bytes: 0,
            }
        }

        /// A message longer than C, or any with M = 0, isn't stored; else the oldest go until it fits.
        fn store(&mut self, seq: u64, msg: &[u8], limits: Limits) {
            if msg.len() > limits.bytes || limits.messages == 0 {
                return;
            }
            while self.messages.len() >= limits.messages || self.message_bytes + msg.len() > limits.bytes {
                let (_, oldest) = self.messages.pop_front().expect("over a limit with messages stored");
                self.message_bytes -= oldest.len();
            }
            self.message_bytes += msg.len();
            self.messages.push_back((seq, msg.to_vec()));
        }
    }

    /// Each session's limits: C message bytes, M messages.
    #[derive(Debug, Clone, Copy)]
    pub struct Limits {
        pub bytes: usize,
        pub messages: usize,
    }

    /// A session open in memory: those who open it share it.
    struct Log {
        id: SessionId,
        limits: Limits,
        stored: Arc<Mutex<Stored>>,
    }

    impl Log {
        fn read<T>(&self, part: impl FnOnce(&Stored) -> T) -> T {
            part(&self.stored.lock().expect("no panic under it"))
        }

        /// Any change takes the durable mark.
        fn change(&mut self, make: impl FnOnce(&mut Stored)) -> io::Result<()> {
            let mut stored = self.stored.lock().expect("no panic under it");
            stored.durable = false;
            make(&mut stored);
            Ok(())
        }
    }

    impl StoredSession for Log {
        fn next_outgoing(&self) -> u64 {
            self.read(|stored| stored.next_outgoing)
        }

        fn next_incoming(&self) -> u64 {
            self.read(|stored| stored.next_incoming)
        }

        fn set_next_incoming(&mut self, seq: u64) -> io::Result<()> {
            self.change(|stored| (stored.next_incoming, stored.in_flight) = (seq, None))
        }

        fn record_outgoing(&mut self, seq: u64, msg: Option<&[u8]>) -> io::Result<()> {
            let limits = self.limits;
            self.change(|stored| {
                stored.next_outgoing = seq.wrapping_add(1);
                if let Some(msg) = msg {
                    stored.store(seq, msg, limits);
                }
            })
        }

        fn sent_messages(&mut self, begin: u64, end: u64) -> io::Result<SentMessages> {
            let wanted = begin..=end;
            Ok(self.read(|stored| stored.messages.iter().filter(|(seq, _)| wanted.contains(seq)).cloned().collect()))
        }

        fn fetch(&mut self, begin: u64, end: u64) -> io::Result<Fetched> {
            self.sent_messages(begin, end).map(Fetched::Ready)
        }

        fn commit(&mut self) -> io::Result<Option<Commit>> {
            let stored = self.stored.clone();
            Ok(Some(Commit::blocking(move || {
                stored.lock().expect("no panic under it").durable = true;
                Ok(())
            })))
        }

        fn reset(&mut self) -> io::Result<()> {
            self.change(|stored| *stored = Stored::new())
        }

        fn evicted_through(&self) -> Option<u64> {
            None
        }

        fn in_flight(&self) -> Option<u64> {
            self.read(|stored| stored.in_flight)
        }

        fn set_next_incoming_in_flight(&mut self, seq: u64, in_flight: u64) -> io::Result<()> {
            self.change(|stored| (stored.next_incoming, stored.in_flight) = (seq, Some(in_flight)))
        }

        fn set_in_flight(&mut self, seq: u64) -> io::Result<()> {
            self.change(|stored| stored.in_flight = Some(seq))
        }

        fn created_at(&self) -> Option<UtcTimestamp> {
            self.read(|stored| stored.created_at)
        }

        fn set_created_at(&mut self, at: UtcTimestamp) -> io::Result<()> {
            self.change(|stored| stored.created_at = Some(at))
        }

        fn marks(&self) -> Marks {
            self.read(|stored| stored.marks)
        }

        fn set_marks(&mut self, marks: Marks) -> io::Result<()> {
            self.change(|stored| stored.marks = marks)
        }

        fn id(&self) -> Option<SessionId> {
            Some(self.id.clone())
        }
    }

    /// Sessions in memory, in the order they were first opened.
    #[derive(Clone)]
    pub struct MemoryStorage {
        limits: Limits,
        sessions: Arc<Mutex<Vec<(SessionId, Arc<Mutex<Stored>>)>>>,
    }

    impl MemoryStorage {
        pub fn new(limits: Limits) -> Self {
            Self { limits, sessions: Arc::default() }
        }

        pub fn count(&self) -> usize {
            self.sessions.lock().expect("no panic under it").len()
        }

        /// The session stored under `id`, which isn't opened for this.
        pub fn stored(&self, id: &SessionId) -> Option<Arc<Mutex<Stored>>> {
            let sessions = self.sessions.lock().expect("no panic under it");
            sessions.iter().find(|(known, _)| known == id).map(|(_, stored)| stored.clone())
        }

        pub fn all(&self) -> Vec<(SessionId, Stored)> {
            let sessions = self.sessions.lock().expect("no panic under it");
            let copy = |stored: &Mutex<Stored>| stored.lock().expect("no panic under it").clone();
            sessions.iter().map(|(id, stored)| (id.clone(), copy(stored))).collect()
        }
    }

    impl SessionStorage for MemoryStorage {
        fn open(&self, id: &SessionId) -> io::Result<Box<dyn StoredSession>> {
            let stored = self.stored(id).unwrap_or_else(|| {
                let new = Arc::new(Mutex::new(Stored::new()));
                self.sessions.lock().expect("no panic under it").push((id.clone(), new.clone()));
                new
            });
            Ok(Box::new(Log { id: id.clone(), limits: self.limits, stored }))
        }

        fn begin_open(&self, id: &SessionId) -> io::Result<Opened> {
            self.open(id).map(Opened::Ready)
        }

        fn is_durable(&self) -> bool {
            false
        }

        fn marked(&self) -> Job<Vec<(SessionId, Marks)>> {
            let all = self.all();
            Job::blocking(move || Ok(all.into_iter().map(|(id, stored)| (id, stored.marks)).collect()))
        }

        fn sessions(&self) -> Job<Vec<SessionId>> {
            let all = self.all();
            Job::blocking(move || Ok(all.into_iter().map(|(id, _)| id).collect()))
        }
    }
}
