//! The Rust's side: the unchanged Rust over the stand-ins, its answers by document 01's numbers.

use std::io;

use turbojet::SessionId;
use turbojet::fields::ToFix;
use turbojet::store::{Limits, MemoryStorage, SessionStorage, Stored, StoredSession};
use turbojet_replica::active::reach::{self as head_office, Lag};
use turbojet_replica::branch::reach as branch;
use turbojet_replica::frame::reach::form;
#[cfg(calls)]
use turbojet_replica::frame::Part;
use turbojet_replica::frame::{Frame, FrameError};
use turbojet_replica::standby::Replica;
use turbojet_replica::standby::reach::{self, summary};

use crate::call::{Counter, Key, LINES, Line, Setting};
use crate::differences::{self, Taken};
use crate::fix;
use crate::held;
use crate::ranges::{self, Listed, Range};
use crate::side::{Answer, Handle, Pushed, Sent, Session, Side, State, Summary};
use crate::wire;

pub struct Rust {
    pub replica: Replica<MemoryStorage>,
    /// Session and handle places, and the length of a hold area, which the Rust doesn't limit.
    pub sessions: u64,
    pub handles: u64,
    pub hold: u64,
    /// How many words are lent beside the hold areas.
    ends: u64,
    /// The connection's version, which the Rust doesn't have (document 02, U7).
    pub version: u16,
    /// What the last frame took from another handle, for the counts.
    pub taken: Option<Taken>,
    /// C and M.
    limits: (u64, u64),
}

/// What a Whole or LastWhole puts into its handle's hold area behind what is held there, in frame form.
#[cfg(calls)]
pub struct Holding {
    pub handle: u32,
    pub before: Vec<u8>,
    pub form: Vec<u8>,
    pub is_last: bool,
}

/// Document 01's number for a frame that can't be read.
pub fn read_refusal(error: &FrameError) -> u32 {
    match error {
        FrameError::TooLong(_) => 1,
        FrameError::Truncated => 2,
        FrameError::Unknown(..) => 3,
        FrameError::Invalid("text") => 4,
        FrameError::Invalid("session") => 5,
        FrameError::Invalid("timestamp") => 6,
        FrameError::Invalid("marks") => 7,
        FrameError::Invalid(other) => unreachable!("the Rust has no field {other}"),
    }
}

/// Document 01's number for a frame the standby refused, by the words of its error: an active's
/// name can stand only in those of a Hello, which begin with `active`.
fn taken_refusal(error: &io::Error) -> u32 {
    if error.kind() == io::ErrorKind::ConnectionRefused {
        return 10;
    }
    let why = error.to_string();
    match why.as_str() {
        why if why.starts_with("active ") && why.ends_with("which this standby can't") => 12,
        why if why.starts_with("active ") => 11,
        "a batch has application records, which this standby can't apply" => 13,
        why if why.starts_with("a batch for unbound handle") => 14,
        why if why.starts_with("a commit on handle") => 15,
        why if why.ends_with("that doesn't begin with a reset") => 16,
        why if why.ends_with("bytes of messages") => 17,
        "the active sent a standby's frame" => 19,
        _ => unreachable!("the Rust refuses with no words but these: {why}"),
    }
}

pub fn encoded(frame: &Frame) -> Vec<u8> {
    let mut bytes = Vec::new();
    frame.encode(&mut bytes);
    bytes
}

pub fn key_of(id: &SessionId) -> Key {
    [&id.begin_string, &id.sender_comp_id, &id.target_comp_id, &id.key_suffix()].map(|part| part.clone().into_bytes())
}

fn id_of(key: &Key) -> Option<SessionId> {
    let [begin_string, sender, target, suffix] = key.clone().map(|part| String::from_utf8(part).ok());
    SessionId::from_key(begin_string?, sender?, target?, &suffix?)
}

fn session((id, stored): (SessionId, Stored)) -> Session {
    Session {
        key: key_of(&id),
        stamp: stored.created_at.map(|at| at.to_fix().into_bytes()),
        next_outgoing: stored.next_outgoing,
        next_incoming: stored.next_incoming,
        in_flight: stored.in_flight,
        marks: stored.marks.as_bytes().to_vec(),
        messages: stored.messages.into(),
        durable: stored.durable,
    }
}

fn handle(handle: reach::Handle<'_>) -> Handle {
    Handle {
        number: handle.number,
        key: key_of(&handle.session),
        commit_no: handle.commit_no,
        held: handle.held.len() as u64,
        held_bytes: handle.held_bytes,
        changes: form(handle.held),
    }
}

impl Rust {
    /// A stored session's log; none if it isn't stored (opening it would make it).
    fn log(&self, key: &Key) -> Option<Box<dyn StoredSession>> {
        let id = id_of(key)?;
        if differences::is_missing(self, &id) {
            return None;
        }
        self.replica.storage().open(&id).ok()
    }

    /// What a frame would put into a hold area, and what is held there before.
    #[cfg(calls)]
    pub fn will_hold(&self, bytes: &[u8]) -> Option<Holding> {
        match self.decode(bytes) {
            Ok(Some((Frame::Batch(batch), used))) if used == bytes.len() && !self.replica.promoted() => {
                let (handle, is_last) = (batch.handle, batch.part == Part::LastWhole);
                let before = self.replica.handle(handle).map_or_else(Vec::new, |handle| form(handle.held));
                let form = form(&batch.ops);
                let held = differences::would_hold(self, &batch) && (before.len() + form.len()) as u64 <= self.hold;
                held.then_some(Holding { handle, before, form, is_last })
            }
            _ => None,
        }
    }

    /// What a handle holds, by the second reading of the hold area and its words: false where it isn't bound, or its area is too short.
    fn set_held(&mut self, handle: u32, bytes: &[u8], words: &[u64]) -> bool {
        if self.replica.handle(handle).is_none() || bytes.len() as u64 > self.hold {
            return false;
        }
        let mut own = vec![0; self.ends.checked_div(self.handles).unwrap_or(0) as usize];
        held::set_words(&mut own, words);
        let changes = held::changes(bytes, &own);
        let sum = held::message_bytes(&changes);
        let batch = wire::Batch { handle, epoch: 0, commit_no: 1, part: wire::COMMIT, changes, records: Vec::new() };
        differences::reading(differences::LATEST).expect("a version");
        let Ok(Some((Frame::Batch(batch), _))) = Frame::decode(&wire::batch(&batch)) else { panic!("a good frame") };
        self.replica.set_held(handle, batch.ops, sum);
        true
    }

    /// Reads in the connection's version.
    fn decode(&self, bytes: &[u8]) -> Result<Option<(Frame, usize)>, FrameError> {
        differences::reading(self.version).expect("a version");
        Frame::decode(bytes)
    }

    /// A standby with one session, made by Hello, Bind and one Commit of these changes.
    fn fed(&self, key: &Key, changes: Vec<Vec<u8>>) -> Self {
        let (bytes, messages) = self.limits;
        let setting = Setting { incarnation: 1, lag: 0, bytes, messages, sessions: 1, handles: 1, hold: 0 };
        let mut fed = Self::make(&setting).expect("within the limits");
        let commit = wire::Batch { handle: 1, epoch: 0, commit_no: 1, part: wire::COMMIT, changes, records: Vec::new() };
        for frame in [wire::hello(1, 0, b"import", &[]), wire::bind(1, 0, 0, key), wire::batch(&commit)] {
            fed.frame(&frame, true).expect("a good frame");
        }
        fed
    }

    pub fn is_stored(&self, id: &SessionId) -> bool {
        self.replica.storage().stored(id).is_some()
    }
}

impl Side for Rust {
    fn make(setting: &Setting) -> Option<Self> {
        let limits = differences::limits(setting)?;
        let mut replica = Replica::new(MemoryStorage::new(limits)).accepting_lag(setting.lag);
        differences::given_incarnation(&mut replica, setting.incarnation);
        let limits = (setting.bytes, setting.messages);
        let Setting { sessions, handles, hold, .. } = *setting;
        Some(Self { replica, sessions, handles, hold, ends: setting.ends(), version: differences::FIRST, taken: None, limits })
    }

    fn frame(&mut self, bytes: &[u8], held: bool) -> Answer {
        let frame = match self.decode(bytes) {
            Ok(Some((frame, used))) if used == bytes.len() => frame,
            Ok(_) => return Err(differences::NOT_ONE_FRAME),
            Err(error) => return Err(read_refusal(&error)),
        };
        let frame = differences::before_frame(self, frame)?;
        let connections = self.replica.connection();
        let answer = if held { self.replica.on_frame_held(frame) } else { self.replica.on_frame(frame) };
        differences::connections_end(&mut self.replica, connections);
        match answer {
            Ok(answer) => Ok(encoded(&answer.expect("the Rust answers every frame it takes"))),
            Err(error) => Err(taken_refusal(&error)),
        }
    }

    fn flush(&mut self, connection: u64) -> Result<(), u32> {
        self.replica.flush(connection).map_err(|_| 22)
    }

    fn line_dropped(&mut self, connection: u64) -> Result<(), u32> {
        self.replica.disconnected_from(connection);
        Ok(())
    }

    fn promote(&mut self) -> Result<(), u32> {
        let capped = differences::promotion_capped(&self.replica);
        self.replica.promote().map_err(|_| 23_u32)?;
        differences::cap_promotion(&self.replica, &capped);
        Ok(())
    }

    fn promote_unchecked(&mut self) -> Result<(), u32> {
        let capped = differences::promotion_capped(&self.replica);
        self.replica.promote_unchecked().expect("a stand-in's store doesn't fail");
        differences::cap_promotion(&self.replica, &capped);
        Ok(())
    }

    fn state(&mut self) -> State {
        let replica = &self.replica;
        State {
            epoch: replica.epoch(),
            incarnation: replica.incarnation(),
            lag: replica.accepted_lag(),
            promoted: replica.promoted(),
            checked: replica.checked(),
            connections: replica.connection(),
            version: self.version,
            pending: replica.pending(),
            sessions: replica.storage().all().into_iter().map(session).collect(),
            handles: replica.handles().into_iter().map(handle).collect(),
        }
    }

    fn summary(&mut self, n: u64, key: &Key) -> Result<Summary, u32> {
        let mut log = self.log(key).ok_or(differences::MISSING)?;
        let summary = summary(log.as_mut(), n);
        Ok(Summary {
            next_outgoing: summary.next_outgoing,
            next_incoming: summary.next_incoming,
            in_flight: summary.in_flight,
            stamp: summary.created_at.map(|at| at.to_fix().into_bytes()),
            marks: summary.marks.as_bytes().to_vec(),
            last_outgoing: summary.last_outgoing,
        })
    }

    /// By the text whose batch limit is the line's.
    fn whole(&mut self, line: Line, (handle, epoch): (u32, u64), last: u64, key: &Key, length: Option<u64>) -> Sent {
        let Some(mut log) = self.log(key) else { return Sent { frames: Vec::new(), end: Err(differences::MISSING) } };
        let batches = match line {
            Line::HeadOffice => head_office::whole(log.as_mut(), handle, epoch, last),
            Line::Branch => branch::whole(log.as_mut(), handle, epoch, last),
        };
        let frames = batches.into_iter().map(|batch| encoded(&Frame::Batch(batch))).collect();
        differences::sending(self, log.as_ref(), last, frames, length)
    }

    fn queue(&mut self, max_lag: u64, drained: u64, lasts: &[u64]) -> Result<Vec<Pushed>, u32> {
        let mut lag = Lag::new(max_lag, drained);
        let push = |last: &u64| {
            let pushed = lag.push(*last);
            Pushed { went: pushed.went, drained_through: pushed.drained_through, waiting: pushed.waiting }
        };
        Ok(lasts.iter().map(push).collect())
    }

    /// The Rust has no such call: a second reading over its stored session.
    fn resend(&mut self, entries: u64, key: &Key, ranges: &[Range]) -> Result<Listed, u32> {
        let session = self.state().sessions.into_iter().find(|session| session.key == *key);
        ranges::listed(&session.ok_or(differences::MISSING)?, ranges, entries)
    }

    /// The Rust has no such call: a second reading of the file, and the Records that it gives.
    fn import(&mut self, key: &Key, file: &[u8]) -> Result<(), (u32, Option<u64>)> {
        let id = id_of(key).ok_or((5, None))?;
        if self.is_stored(&id) || self.replica.storage().count() as u64 >= self.sessions {
            return Err((20, None));
        }
        let messages = fix::read(file).map_err(|(number, at)| (number, Some(at)))?;
        let mut log = self.replica.storage().open(&id).expect("a stand-in's store doesn't fail");
        let mut changes = Vec::new();
        for (seq, text) in messages {
            if log.next_outgoing() < seq {
                log.record_outgoing(seq - 1, None).expect("a stand-in's store doesn't fail");
                changes.push(wire::change::bare_record(seq - 1));
            }
            log.record_outgoing(seq, Some(text)).expect("a stand-in's store doesn't fail");
            changes.push(wire::change::record(seq, text));
        }
        // The same Records by Bind and Commit: the same six parts, and the same frames when sent whole.
        let mut fed = self.fed(key, changes);
        let session = self.state().sessions.into_iter().find(|session| session.key == *key);
        assert_eq!(fed.state().sessions.pop(), session, "a session fed by frames");
        for line in LINES {
            assert_eq!(fed.whole(line, (1, 0), 1, key, None).frames, self.whole(line, (1, 0), 1, key, None).frames);
        }
        Ok(())
    }

    fn set(&mut self, counter: &Counter) -> bool {
        match *counter {
            Counter::Connections(n) => self.replica.set_connections(n),
            Counter::Epoch(n) => self.replica.set_epoch(n),
            Counter::Version(n) => self.version = n,
            Counter::Commit(handle, n) => return self.replica.set_commit_no(handle, n),
            Counter::Bytes(handle, n) => return self.replica.set_held_bytes(handle, n),
            Counter::Held(handle, ref bytes, ref words) => return self.set_held(handle, bytes, words),
        }
        true
    }
}

/// The limits as the stand-in takes them.
pub fn stand_in_limits(setting: &Setting) -> Limits {
    Limits { bytes: setting.bytes as usize, messages: setting.messages as usize }
}
