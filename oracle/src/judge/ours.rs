//! Our side: the library's functions over areas that this driver lends, with a look at what they write of each.

use crate::call::{Counter, Key, LINES, Line, Setting};
use crate::differences::{FIRST, LATEST, NO_VERSIONS};
#[cfg(calls)]
use crate::differences;
use crate::faults::{self, fault};
use crate::frames::Reading;
use crate::held;
#[cfg(calls)]
use crate::library::Said;
use crate::library::{self, Areas, Ask, Counters, DONE, Imported, NO_LINES, Place, RUBBISH, SENDING, Settings, Size, line_word, outcome};
use crate::out::Out;
use crate::ranges::{Listed, Range};
use crate::side::{Answer, Handle, Pushed, Sent, Session, Side, State, Summary};
use crate::walk::{self, Walk};

/// Frames read and written again, by the library.
#[derive(Default)]
pub struct Reader(Out);

impl Reader {
    /// In a version, into an area of `length` bytes. Where that is long enough, a frame only read gives the same.
    pub fn read(&mut self, version: u16, frame: &[u8], length: usize) -> Reading {
        let mut answer = outcome(library::frame(frame, self.0.lend(length), faults::read_in(version)));
        let same = || answer == outcome(library::read(frame, faults::read_in(version)));
        assert!(length < frame.len() || same(), "wz_read and wz_frame differ");
        faults::after_reading(&mut answer, &mut self.0);
        let written = self.0.taken(answer.unwrap_or(0) as usize, "wz_frame");
        match answer {
            Ok(used) => Reading::Frame(used, written),
            Err((0, _)) => Reading::More,
            Err((3, detail)) => Reading::Refused(3, detail >> 8, detail & 255),
            Err((number, detail)) => Reading::Refused(number, detail, 0),
        }
    }
}

/// Reads a frame in a version and writes it again, by the library.
pub fn read(version: u16, frame: &[u8]) -> Reading {
    Reader::default().read(version, frame, frame.len())
}

pub struct Ours {
    counters: Counters,
    areas: Areas,
    settings: Settings,
    hold: u64,
    /// What the last call handed up: the lowest message on hand.
    #[cfg_attr(not(calls), allow(dead_code))]
    pub lowest: Option<u64>,
    /// Where answers, sessions and frames of sendings are written.
    #[cfg(calls)]
    answered: Out,
    told: Out,
    sent: Out,
}

/// What one call of a sending gives: a frame, none where it is done, or a refusal.
type Step = Result<Option<Vec<u8>>, u32>;

/// A sending's words, and two past them.
type Sending = [u64; SENDING + 2];

/// Words in a state, on a line.
fn sending_of(state: [u64; 4], line: u64) -> Sending {
    let mut words = [RUBBISH; SENDING + 2];
    words[..4].copy_from_slice(&state);
    words[SENDING - 1] = line;
    words
}

/// What `wz_session` tells of a place.
struct Told {
    durable: bool,
    key: Key,
    summary: Summary,
}

/// Longer than any answer.
const LONG: usize = 4096;

#[cfg(calls)]
impl Ours {
    /// Whether the library makes the store.
    fn made(&mut self) -> bool {
        let made = outcome(library::made(&mut self.counters, &mut self.areas, self.settings)).is_ok();
        faults::after_making(made, &mut self.areas);
        assert!(made || self.areas.are_untouched(), "a store that can't be made stays as it was");
        made
    }

    fn call(&mut self, ask: Ask) -> Answer {
        let before = faults::Before::new(&self.counters, &self.areas);
        let lowered = if let Ask::Held(frame) | Ask::Frame(frame) = ask { faults::lowered(frame) } else { Vec::new() };
        let ask = faults::asked(ask, self.counters.connections, &lowered);
        let said = self.said(ask);
        self.lowest = said.handed_up();
        let mut answer = self.written(&said);
        before.after(&mut self.counters, &mut self.areas, self.settings.size, ask, &mut answer);
        answer
    }

    fn said(&mut self, ask: Ask) -> Said {
        library::said(&mut self.counters, &mut self.areas, self.settings, ask)
    }

    /// An answer's frame, in the version that the call left. It must be the same in an area of just its length, and 9 in every
    /// shorter one; the same in the other version, but 8 for a stamp that version 1 doesn't take; and 11 in no version.
    fn written(&mut self, said: &Said) -> Answer {
        let version = self.counters.version();
        for number in NO_VERSIONS {
            assert_eq!(self.written_into(said, LONG, number), Err(11), "wz_answer in version {number}");
        }
        let frame = self.written_into(said, LONG, version)?;
        for length in 0..=frame.len() {
            let expected = differences::no_room(frame.len(), length).map_or_else(|| Ok(frame.clone()), Err);
            assert_eq!(self.written_into(said, length, version), expected, "wz_answer into an area of {length}");
        }
        let long = walk::stamp_of_bound(&frame).is_some_and(|stamp| stamp.len() > 21);
        let in_first = if long { Err(8) } else { Ok(frame.clone()) };
        assert_eq!(self.written_into(said, LONG, FIRST), in_first, "wz_answer in version 1");
        assert_eq!(self.written_into(said, LONG, LATEST), Ok(frame.clone()), "wz_answer in version 2");
        Ok(frame)
    }

    fn written_into(&mut self, said: &Said, length: usize, version: u16) -> Answer {
        let mut answer = outcome(library::answer(said, &self.areas.bytes, self.answered.lend(length), version));
        faults::after_writing(&mut answer, &mut self.answered);
        let written = self.answered.taken(answer.unwrap_or(0) as usize, "wz_answer");
        answer.map(|_| written).map_err(|(number, _)| number)
    }

    /// Each of the six calls over a row that breaks the rules: 25, and all stays as it was. The row without the record at
    /// `spoiling`, which alone breaks them, is taken: a drop of another connection does nothing.
    pub fn refuses(&mut self, row: &[Place], spoiling: usize, frame: &[u8]) {
        let connection = self.counters.connections;
        let other = Ask::Drop(connection.wrapping_add(1));
        let kept = std::mem::replace(&mut self.areas.row, row.to_vec());
        let calls = [
            Ask::Held(frame),
            Ask::Frame(frame),
            Ask::Flush(connection),
            Ask::Drop(connection),
            Ask::Promote,
            Ask::Unchecked,
        ];
        for ask in calls {
            self.leaves_all(ask, &Err(25));
        }
        self.areas.row[spoiling].used = 0;
        self.leaves_all(other, &Ok(Vec::new()));
        self.areas.row = kept;
    }

    /// A call that must answer this and change nothing of what is lent.
    fn leaves_all(&mut self, ask: Ask, expected: &Answer) {
        let (counters, areas) = (self.counters.clone(), self.areas.clone());
        let answer = self.call(ask);
        assert_eq!(answer, *expected, "{ask:?} over the row {:?}", areas.row);
        assert!(
            counters == self.counters && areas == self.areas,
            "{ask:?} over the row {:?} changes something",
            areas.row
        );
    }

    pub fn areas(&self) -> &Areas {
        &self.areas
    }

    /// Puts other words behind those of each place that count: any that mean the same.
    pub fn foreign_words(&mut self, turn: u64) {
        let places = self.areas.row.len();
        for index in 0..places {
            let Place { used, held_len, .. } = self.areas.row[index];
            let held_len = if used == 0 { 0 } else { held_len };
            let words = held::own(&mut self.areas.ends, places, index);
            let (count, last) = held::closed(words, held_len as usize);
            // The first of these must not count.
            let none = [0, last, last.saturating_sub(1), held_len + 1, u64::MAX];
            let mut turn = turn.wrapping_add(index as u64);
            for (at, word) in words[count..].iter_mut().enumerate() {
                *word = none[turn as usize % none.len()];
                if at > 0 && turn % 3 == 0 {
                    *word = last + at as u64;
                }
                turn = turn.wrapping_mul(7).wrapping_add(3);
            }
        }
    }

    pub fn size(&self) -> Size {
        self.settings.size
    }
}

/// For the bench: calls without the driver's looks.
#[cfg(all(calls, not(plain)))]
impl Ours {
    pub fn ask(&mut self, frame: &[u8]) -> u64 {
        let said = self.said_to(frame);
        self.write(&said)
    }

    pub fn said_to(&mut self, frame: &[u8]) -> Said {
        self.said(Ask::Frame(frame))
    }

    pub fn write(&mut self, said: &Said) -> u64 {
        library::answer(said, &self.areas.bytes, self.answered.lend(LONG), self.counters.version())
    }

    pub fn answered(&self, len: usize) -> &[u8] {
        self.answered.start(len)
    }

    /// The next frame's length in a sending of place 0.
    pub fn next_frame(&mut self, sending: &mut [u64; SENDING], out: &mut [u8]) -> Option<usize> {
        let answer = library::send(&self.areas, self.settings.size, sending, out, 0, (0, 0), FIRST);
        let len = outcome(answer).expect("stored");
        (len != DONE).then_some(len as usize)
    }
}

/// A library without the entry points: the driver makes stores alone.
#[cfg(not(calls))]
impl Ours {
    /// A store whose areas hold these sessions, written by docs/AREAS.md. Each log starts at another
    /// entry and at another byte of its rings.
    pub fn filled(setting: &Setting, sessions: &[Session], version: u16) -> Option<Self> {
        let mut ours = Self::make(setting)?;
        ours.counters.version2 = u8::from(version == LATEST);
        ours.areas.words[0] = sessions.len() as u64;
        sessions.iter().enumerate().for_each(|(place, session)| ours.fill(place, session));
        Some(ours)
    }

    fn fill(&mut self, place: usize, session: &Session) {
        let (words, bytes) = self.settings.size.start(place);
        let words = &mut self.areas.words[words..];
        let bytes = &mut self.areas.bytes[bytes..];
        words[..5].copy_from_slice(&[
            session.next_outgoing,
            session.next_incoming,
            session.in_flight.is_some().into(),
            session.in_flight.unwrap_or(0),
            session.durable.into(),
        ]);
        let none = Vec::new();
        let stamp = session.stamp.as_ref().unwrap_or(&none);
        let [begin, sender, target, suffix] = &session.key;
        let texts = [(5, 128, stamp), (6, 160, &session.marks), (7, 0, begin), (8, 32, sender), (9, 64, target)];
        for (word, at, text) in texts.into_iter().chain([(10, 96, suffix)]) {
            words[word] = text.len() as u64;
            bytes[at..at + text.len()].copy_from_slice(text);
        }
        fill_log(self.settings.size, &mut words[14..], &mut bytes[224..], session);
    }

    fn made(&mut self) -> bool {
        self.areas.words[..2].fill(0);
        true
    }

    fn call(&mut self, _: Ask) -> Answer {
        unreachable!("the library has no entry points")
    }
}

/// A log's head, tail and entries, and its ring.
#[cfg(not(calls))]
fn fill_log(size: Size, words: &mut [u64], bytes: &mut [u8], session: &Session) {
    let (c, m) = (size.bytes as usize, size.messages as usize);
    let mut at = if c == 0 { 0 } else { session.next_outgoing as usize % c };
    let mut slot = if m == 0 { 0 } else { session.next_incoming as usize % m };
    if m > 0 {
        words[2 + 2 * ((slot + m - 1) % m)] = 0;
    }
    for (number, message) in &session.messages {
        words[2 + 2 * slot] = *number;
        words[3 + 2 * slot] = message.len() as u64;
        slot = (slot + 1) % m;
        for byte in message {
            bytes[at] = *byte;
            at = (at + 1) % c;
        }
    }
    (words[0], words[1]) = (slot as u64, at as u64);
}

impl Ours {
    /// What `wz_session` writes into an area of so many bytes.
    fn telling(&mut self, place: u64, n: u64, room: usize) -> Result<Vec<u8>, u32> {
        let mut answer = outcome(library::session(&self.areas, self.settings.size, self.told.lend(room), place, n));
        faults::after_telling(&mut answer, &mut self.told, &mut self.areas.bytes);
        let bytes = self.told.taken(answer.unwrap_or(0) as usize, "wz_session");
        answer.map(|_| bytes).map_err(|(number, _)| number)
    }

    fn told(&mut self, place: u64, n: u64) -> Result<Told, u32> {
        self.telling(place, n, LONG).map(|bytes| told(&bytes))
    }

    fn place_of(&mut self, key: &Key) -> Option<u64> {
        (0..self.areas.words[0]).find(|place| self.told(*place, 0).is_ok_and(|told| told.key == *key))
    }

    /// One call of a sending, which may write its first four words and the area.
    fn send_next(&mut self, sending: &mut [u64], place: u64, to: (u32, u64), length: usize, version: u16) -> Step {
        let out = self.sent.lend(length);
        let answer = outcome(library::send(&self.areas, self.settings.size, sending, out, place, to, version));
        let answer = faults::after_sending(answer, &mut self.sent, sending);
        let frame = self.sent.taken(answer.map_or(0, |len| len & !DONE) as usize, "wz_send");
        answer.map(|len| (len != DONE).then_some(frame)).map_err(|(number, _)| number)
    }

    /// What a sending answers before it gives a frame, at its beginning and later on: 25 before 11, 11 before 32, 32 before 24 and 9.
    /// No third line and no fewer words are taken. A refusal writes nothing.
    fn refuses_to_send(&mut self, place: u64) {
        const STATES: [[u64; 4]; 4] = [[0; 4], [0, 1, 0, 0], [0, 1, 0, 1], [0, 1, 1, 0]];
        let states = if cfg!(plain) { &STATES[..1] } else { &STATES };
        LINES.map(line_word).into_iter().for_each(|line| self.refuses_on(line, states, place));
        let mut asks = |state: [u64; 4], line: u64, words: usize| {
            let mut sending = sending_of(state, line);
            let before = sending;
            for version in NO_VERSIONS.into_iter().chain([FIRST, LATEST]) {
                let step = self.send_next(&mut sending[..words], place, (1, 0), LONG, version);
                assert_eq!((step, sending), (Err(25), before), "wz_send with {words} words in version {version}");
            }
        };
        for state in STATES.into_iter().chain([[u64::MAX, 0, 0, 0]]) {
            NO_LINES.into_iter().for_each(|line| asks(state, line, SENDING + 2));
            (0..SENDING).for_each(|words| asks(state, 0, words));
        }
    }

    fn refuses_on(&mut self, line: u64, states: &[[u64; 4]], place: u64) {
        let stored = place < self.areas.words[0];
        let long = stored && self.told(place, 0).expect("stored").summary.stamp.is_some_and(|stamp| stamp.len() > 21);
        let mut ask = |words: [u64; 4], version: u16| {
            let mut sending = sending_of(words, line);
            let before = sending;
            let step = self.send_next(&mut sending, place, (1, 0), 0, version);
            assert_eq!(before, sending, "wz_send changes its sending only with a frame");
            step
        };
        let unless = |is: bool, number: u32, other: Step| if is { Err(number) } else { other };
        for words in states {
            for number in NO_VERSIONS {
                assert_eq!(ask(*words, number), Err(if stored { 11 } else { 25 }), "wz_send in version {number}");
            }
            let next = if words[3] == 1 { Ok(None) } else { Err(9) };
            let stamped = words[2..] == [0, 0];
            assert_eq!(ask(*words, FIRST), unless(!stored, 25, unless(long && stamped, 32, next.clone())));
            assert_eq!(ask(*words, LATEST), unless(!stored, 25, next));
        }
        assert_eq!(ask([u64::MAX, 0, 0, 0], FIRST), Err(if !stored { 25 } else if long { 32 } else { 24 }));
        assert_eq!(ask([u64::MAX, 0, 0, 0], LATEST), Err(if stored { 24 } else { 25 }));
    }

    /// A sending of a place on a line as a handle and an epoch, after a commit number, into an area of `length` bytes.
    fn send_all(
        &mut self,
        line: Line,
        place: u64,
        (handle, epoch): (u32, u64),
        last: u64,
        length: usize,
        version: u16,
    ) -> Sent {
        let handle = if fault(114) && handle > 1 { handle - 1 } else { handle };
        let (mut sending, mut frames) = (sending_of([last, 0, 0, 0], line_word(faults::line(line))), Vec::new());
        loop {
            let before = sending;
            let step = self.send_next(&mut sending, place, (handle, epoch), length, version);
            assert_eq!(before[4..], sending[4..], "wz_send writes the first four words of its sending alone");
            let end = match step {
                Ok(None) => Ok(()),
                Ok(Some(frame)) => {
                    assert_eq!(before[0].checked_add(1), Some(sending[0]), "wz_send counts each frame");
                    frames.push(frame);
                    assert!(frames.len() < 1 << 20, "wz_send never says done");
                    continue;
                }
                Err(number) => Err(number),
            };
            assert_eq!(before, sending, "wz_send changes its sending only with a frame");
            return Sent { frames, end };
        }
    }

    /// An area that takes any frame of a sending on either line: the greater of their limits, one message more, and the
    /// changes' own bytes.
    fn long_enough(&self) -> usize {
        let Size { bytes, messages, .. } = self.settings.size;
        (1_048_576.min(bytes as usize)) + bytes as usize + 22 * messages as usize + 256
    }

    /// A session's parts, its messages taken from its own sending. It must be told alike in an area of just its length, and
    /// 9 in one shorter by a byte.
    fn session(&mut self, place: u64) -> Session {
        let bytes = self.telling(place, 0, LONG).expect("a place in use");
        let told = told(&bytes);
        assert_eq!(self.telling(place, 0, bytes.len() - 1), Err(9), "wz_session in an area too short");
        assert_eq!(self.telling(place, 0, bytes.len()), Ok(bytes), "wz_session in an area of its length");
        let sent = self.send_all(Line::HeadOffice, place, (0, 0), 0, self.long_enough(), LATEST);
        assert_eq!(sent.end, Ok(()), "a stored session can be sent in version 2");
        Session {
            key: told.key,
            stamp: told.summary.stamp,
            next_outgoing: told.summary.next_outgoing,
            next_incoming: told.summary.next_incoming,
            in_flight: told.summary.in_flight,
            marks: told.summary.marks,
            messages: sent.frames.iter().flat_map(|frame| walk::messages(frame)).collect(),
            durable: told.durable,
        }
    }

    /// A list of resend ranges into an area of so many entries and a part of one more. What isn't the list's stays, and
    /// each entry's bytes are the stored message's.
    fn resend_into(&mut self, place: u64, ranges: &[u64], room: usize) -> Result<Listed, u32> {
        let mut entries = vec![RUBBISH; 6 * room + place as usize % 6];
        let mut said = library::resend(&self.areas, self.settings.size, ranges, &mut entries, place);
        faults::after_resend(&mut said, &mut entries);
        let written = 6 * said.length;
        assert!(entries[written..].iter().all(|word| *word == RUBBISH), "wz_resend wrote past its list");
        if said.refusal != 0 {
            assert_eq!((said.length, said.bytes), (0, 0), "wz_resend refuses with a list");
            return Err(said.refusal.into());
        }
        let list = &entries[..written];
        self.looked_up(place, list);
        let messages = list.chunks(6).map(|entry| (entry[0], entry[1])).collect();
        Ok(Listed { messages, bytes: said.bytes as u64 })
    }

    /// The bytes that entries name, beside those of the session's own sending.
    #[cfg(not(plain))]
    fn looked_up(&mut self, place: u64, list: &[u64]) {
        let stored = if list.is_empty() { Vec::new() } else { self.session(place).messages };
        let part = |at: u64, len: u64| &self.areas.bytes[at as usize..][..len as usize];
        for entry in list.chunks(6) {
            let bytes = [part(entry[2], entry[3]), part(entry[4], entry[5])].concat();
            assert!(stored.contains(&(entry[0], bytes)), "wz_resend names other bytes for message {}", entry[0]);
        }
    }

    /// The stand-in has no ring.
    #[cfg(plain)]
    fn looked_up(&mut self, _: u64, _: &[u64]) {}

    /// The changes that a place's hold area holds, each in frame form.
    fn hold_of(&mut self, index: usize) -> Vec<Vec<u8>> {
        let Areas { row, holds, ends, .. } = &mut self.areas;
        let start = index * self.hold as usize;
        held::changes(&holds[start..start + row[index].held_len as usize], held::own(ends, row.len(), index))
    }

    fn handle(&mut self, index: usize) -> Handle {
        let Place { handle, place, commit_no, held_bytes, .. } = self.areas.row[index];
        let key = self.told(place, 0).expect("a place in use").key;
        let changes = self.hold_of(index);
        let held = changes.len() as u64;
        Handle { number: handle, key, commit_no, held, held_bytes, changes: changes.concat() }
    }

    /// What a handle holds: false where it isn't bound, or its area is too short.
    fn set_held(&mut self, handle: u32, bytes: &[u8], words: &[u64]) -> bool {
        let (start, index) = match self.areas.index(handle) {
            Some(index) if bytes.len() as u64 <= self.hold => (index * self.hold as usize, index),
            _ => return false,
        };
        self.areas.holds[start..start + bytes.len()].copy_from_slice(bytes);
        let places = self.areas.row.len();
        held::set_words(held::own(&mut self.areas.ends, places, index), words);
        self.areas.row[index].held_len = bytes.len() as u64;
        self.areas.row[index].held_bytes = held::message_bytes(&self.hold_of(index));
        true
    }

    fn bound(&mut self, handle: u32) -> Option<&mut Place> {
        self.areas.index(handle).map(|index| &mut self.areas.row[index])
    }
}

/// Durable, in flight given, four key blobs, then the summary's fields as in a Bound.
fn told(bytes: &[u8]) -> Told {
    let mut walk = Walk(bytes);
    let (durable, flying) = (walk.u8() == u8::from(!fault(116)), walk.u8() == 1);
    let key = [walk.blob(), walk.blob(), walk.blob(), walk.blob()].map(<[u8]>::to_vec);
    let (next_outgoing, next_incoming, in_flight) = (walk.u64(), walk.u64(), walk.u64());
    let (stamp, marks, last_outgoing) = (walk.blob(), walk.blob().to_vec(), walk.u64());
    let in_flight = flying.then_some(in_flight);
    let stamp = (!stamp.is_empty()).then(|| stamp.to_vec());
    let summary = Summary { next_outgoing, next_incoming, in_flight, stamp, marks, last_outgoing };
    Told { durable, key, summary }
}

/// One push on a queue, which may write its two counts, the numbers that wait and the one just behind them.
fn push(queue: &mut [u64], max_lag: u64, last: u64) -> Result<Pushed, u32> {
    let before = queue.to_vec();
    let waiting = before[1] as usize;
    let answer = outcome(library::queue(queue, max_lag, last));
    faults::after_push(queue, waiting);
    if let Err((number, _)) = answer {
        assert_eq!(queue, before, "wz_queue changes nothing where it refuses");
        return Err(number);
    }
    let numbers: Vec<u64> = before[2..][..waiting].iter().copied().chain([last]).collect();
    let (went, left) = numbers.split_at(answer.unwrap_or(0) as usize);
    assert_eq!(queue[2..][..queue[1] as usize], *left, "wz_queue keeps the numbers that wait");
    assert_eq!(queue[3 + waiting..], before[3 + waiting..], "wz_queue wrote past its numbers");
    Ok(Pushed { went: went.to_vec(), drained_through: queue[0], waiting: queue[1] as usize })
}

impl Ours {
    /// Made with so many words lent beside the hold areas.
    pub fn lending(setting: &Setting, ends: u64) -> Option<Self> {
        let fits = |n: u64| u32::try_from(n).unwrap_or(u32::MAX);
        let size =
            Size { sessions: fits(setting.sessions), bytes: fits(setting.bytes), messages: fits(setting.messages) };
        // A store with C or M too great is refused before its area is looked at.
        let small = setting.bytes <= 1 << 26 && setting.messages <= 1 << 20;
        let lent = if small { size } else { Size { sessions: 0, bytes: 0, messages: 0 } };
        let mut ours = Self {
            counters: Counters::default(),
            areas: Areas::new(lent, setting.handles as usize, setting.hold as usize, ends as usize),
            settings: Settings { size, incarnation: setting.incarnation, max_lag: setting.lag, tells_lowest: 1 },
            hold: setting.hold,
            lowest: None,
            #[cfg(calls)]
            answered: Out::default(),
            told: Out::default(),
            sent: Out::default(),
        };
        ours.made().then_some(ours)
    }

    /// Whether Commits tell the lowest message on hand, as made settings have it.
    pub fn tells(&mut self, commits: bool) {
        self.settings.tells_lowest = u8::from(commits);
    }
}

impl Side for Ours {
    fn make(setting: &Setting) -> Option<Self> {
        Self::lending(setting, setting.ends())
    }

    /// Version 2 is lent as one value after the other.
    fn frame(&mut self, bytes: &[u8], held: bool) -> Answer {
        if self.counters.version2 != 0 {
            self.counters.version2 = self.counters.version2 % 255 + 1;
        }
        self.call(if held { Ask::Held(bytes) } else { Ask::Frame(bytes) })
    }

    fn flush(&mut self, connection: u64) -> Result<(), u32> {
        self.call(Ask::Flush(connection)).map(drop)
    }

    fn line_dropped(&mut self, connection: u64) -> Result<(), u32> {
        self.call(Ask::Drop(connection)).map(drop)
    }

    fn promote(&mut self) -> Result<(), u32> {
        self.call(Ask::Promote).map(drop)
    }

    fn promote_unchecked(&mut self) -> Result<(), u32> {
        self.call(Ask::Unchecked).map(drop)
    }

    fn state(&mut self) -> State {
        let words = &self.areas.words;
        let pending = words[2..][..words[1] as usize].iter().map(|word| *word as u32).collect();
        let sessions = (0..words[0]).map(|place| self.session(place)).collect();
        let row = &self.areas.row;
        let used: Vec<usize> = (0..row.len()).filter(|index| row[*index].used != 0).collect();
        let mut handles: Vec<_> = used.into_iter().map(|index| self.handle(index)).collect();
        handles.sort_by_key(|handle| handle.number);
        State {
            epoch: self.counters.epoch,
            incarnation: self.settings.incarnation.max(1),
            lag: self.settings.max_lag,
            promoted: self.counters.promoted != 0,
            checked: self.counters.checked != 0,
            connections: self.counters.connections,
            version: self.counters.version(),
            pending,
            sessions,
            handles,
        }
    }

    fn summary(&mut self, n: u64, key: &Key) -> Result<Summary, u32> {
        let place = self.place_of(key).unwrap_or(self.areas.words[0]);
        self.told(place, n).map(|told| told.summary)
    }

    fn whole(&mut self, line: Line, to: (u32, u64), last: u64, key: &Key, length: Option<u64>) -> Sent {
        let place = self.place_of(key).unwrap_or(self.areas.words[0]);
        let length = length.map_or_else(|| self.long_enough(), |length| length.min(1 << 28) as usize);
        self.refuses_to_send(place);
        self.send_all(line, place, to, last, length, self.counters.version())
    }

    fn queue(&mut self, max_lag: u64, drained: u64, lasts: &[u64]) -> Result<Vec<Pushed>, u32> {
        let mut queue = [RUBBISH; 66 + 4];
        queue[..2].copy_from_slice(&[drained, 0]);
        lasts.iter().map(|last| push(&mut queue, max_lag, *last)).collect()
    }

    fn resend(&mut self, entries: u64, key: &Key, ranges: &[Range]) -> Result<Listed, u32> {
        let place = self.place_of(key).unwrap_or(self.areas.words[0]);
        let words: Vec<u64> = ranges.iter().flat_map(|(first, last)| [*first, *last]).collect();
        self.resend_into(place, &words, entries.min(1 << 20) as usize)
    }

    fn import(&mut self, key: &Key, file: &[u8]) -> Result<(), (u32, Option<u64>)> {
        let before = self.areas.words[0];
        let mut said = library::import(&mut self.areas, self.settings.size, key, file);
        faults::after_import(&mut said, &mut self.areas, self.settings.size);
        let Imported { refusal, place, at, lowest } = said;
        self.lowest = (refusal == 0).then_some(lowest);
        assert!(refusal == 0 || lowest == 0, "wz_import refuses with a number");
        if refusal == 0 {
            assert_eq!((place as u64, at), (before, 0), "wz_import names another place");
            return Ok(());
        }
        assert_eq!(place, 0, "wz_import refuses with a place");
        assert!(at == 0 || (28..=30).contains(&refusal), "wz_import tells an offset with {refusal}");
        Err((refusal.into(), (28..=30).contains(&refusal).then_some(at as u64)))
    }

    fn set(&mut self, counter: &Counter) -> bool {
        match *counter {
            Counter::Connections(n) => self.counters.connections = n,
            Counter::Epoch(n) => self.counters.epoch = n,
            Counter::Version(n) => self.counters.version2 = u8::from(n == LATEST),
            Counter::Commit(handle, n) => return self.bound(handle).map(|place| place.commit_no = n).is_some(),
            Counter::Bytes(handle, n) => {
                let Some(index) = self.areas.index(handle) else { return false };
                let holding = !self.hold_of(index).is_empty();
                if holding {
                    self.areas.row[index].held_bytes = n;
                }
                return holding;
            }
            Counter::Held(handle, ref bytes, ref words) => return self.set_held(handle, bytes, words),
        }
        true
    }
}
