//! Document 01's listed differences, and document 02's of U4 and U7, each applied here and nowhere else,
//! around the unchanged Rust. docs/DIFFERENCES.md has the reasons.
//!
//! 8 and 1 in writing don't show here: the drivers write only frames that can be written. The
//! byte sum's cap needs nothing: the Rust's own addition saturates.

#[cfg(ours)]
use std::borrow::Cow;
use std::sync::atomic::{AtomicBool, Ordering};

use turbojet::SessionId;
use turbojet::fields::{UtcTimestamp, read_in};
use turbojet::store::{Limits, MemoryStorage, StoredSession};
use turbojet_replica::frame::reach::form;
use turbojet_replica::frame::{AppRecord, Batch, Frame, Op, Part};
use turbojet_replica::standby::Replica;
use turbojet_replica::standby::reach::WHOLE_SESSION_BYTES;

use crate::call::Setting;
#[cfg(ours)]
use crate::frames::Reading;
use crate::rust::{Rust, stand_in_limits};
use crate::side::Sent;

/// Set to see the Rust alone, without the differences (all but 26 and the incarnation).
static ALONE: AtomicBool = AtomicBool::new(false);

pub fn leave_out(alone: bool) {
    ALONE.store(alone, Ordering::Relaxed);
}

fn alone() -> bool {
    ALONE.load(Ordering::Relaxed)
}

/// Difference 26: what is handed over isn't just one whole frame.
pub const NOT_ONE_FRAME: u32 = 26;

/// Difference 25, for a session that isn't stored: the Rust would make it.
pub fn is_missing(rust: &Rust, id: &SessionId) -> bool {
    !alone() && !rust.is_stored(id)
}

pub const MISSING: u32 = 25;

/// Difference 25, for a store with C or M too great.
pub fn limits(setting: &Setting) -> Option<Limits> {
    (alone() || setting.bytes <= 33_554_432 && setting.messages <= 65_536).then(|| stand_in_limits(setting))
}

/// The protocol's versions (document 02, U7). The Rust knows the first alone.
pub const FIRST: u16 = 1;
pub const LATEST: u16 = 2;

/// Numbers that are no version, for looks at what is handed in.
pub const NO_VERSIONS: [u16; 4] = [0, LATEST + 1, 258, u16::MAX];

/// What is read next is read in this version, by the stand-in for a stamp; 11 for any other number. The Rust alone has one rule.
pub fn reading(version: u16) -> Result<(), u32> {
    read_in(if alone() { FIRST } else { version });
    if alone() || is_version(version) { Ok(()) } else { Err(11) }
}

fn is_version(version: u16) -> bool {
    version == FIRST || version == LATEST
}

/// A Hello of version 2 goes to the Rust as one of version 1. The connection's version is that of a Hello that is accepted: its
/// epoch isn't lower, and it names no kinds.
fn hello(rust: &mut Rust, version: u16, epoch: u64, kinds: &[u16]) -> u16 {
    if !is_version(version) {
        return version;
    }
    if kinds.is_empty() && epoch >= rust.replica.epoch() {
        rust.version = version;
    }
    FIRST
}

/// Difference 32: the connection's version doesn't take the stored session's stamp, which is never shortened.
fn suits(rust: &Rust, stamp: Option<UtcTimestamp>) -> Result<(), u32> {
    let short = stamp.is_none_or(|stamp| !stamp.is_long());
    if alone() || short || rust.version == LATEST { Ok(()) } else { Err(32) }
}

/// The incarnation is given, not random; 0 is taken as 1.
pub fn given_incarnation(replica: &mut Replica<MemoryStorage>, incarnation: u64) {
    replica.set_incarnation(incarnation.max(1));
}

/// What goes to the Rust in a frame's place, or the refusal that the Rust doesn't have.
pub fn before_frame(rust: &mut Rust, frame: Frame) -> Result<Frame, u32> {
    if alone() || rust.replica.promoted() {
        return Ok(frame);
    }
    match frame {
        Frame::Hello { version, epoch, node, app_record_kinds } => {
            let version = hello(rust, version, epoch, &app_record_kinds);
            Ok(Frame::Hello { version, epoch, node, app_record_kinds })
        }
        Frame::Bind { handle, epoch, max_lag, session } => {
            if epoch >= rust.replica.epoch() && max_lag <= rust.replica.accepted_lag() {
                if let Err(refusal) = may_bind(rust, handle, &session) {
                    // The Rust runs the commits due before it refuses a frame of the standby's own.
                    let _ = rust.replica.on_frame_held(Frame::Ack { handle, commit_no: 0 });
                    return Err(refusal);
                }
                one_handle(rust, handle, &session);
            }
            Ok(Frame::Bind { handle, epoch, max_lag, session })
        }
        Frame::Batch(batch) if batch.app_records.is_empty() && batch.epoch >= rust.replica.epoch() => {
            let batch = last_commit_number(rust, batch);
            hold_area(rust, &batch)?;
            Ok(Frame::Batch(last_outgoing_number(rust, batch)))
        }
        other => Ok(other),
    }
}

/// Differences 32, 20 and 21: a stamp that the version doesn't take; no free place for a new session, or for a new handle. The
/// place of another handle on the session counts as free (document 02, U4).
fn may_bind(rust: &Rust, handle: u32, session: &SessionId) -> Result<(), u32> {
    let stored = rust.replica.storage().stored(session);
    suits(rust, stored.and_then(|stored| stored.lock().expect("no panic under it").created_at))?;
    let kept = rust.replica.handle_count() - rust.replica.others(handle, session).len();
    if !rust.is_stored(session) && rust.replica.storage().count() as u64 >= rust.sessions {
        Err(20)
    } else if rust.replica.handle(handle).is_none() && kept as u64 >= rust.handles {
        Err(21)
    } else {
        Ok(())
    }
}

/// What an accepted Bind found where it took a session from another handle.
pub struct Taken {
    /// No place of the row was free.
    pub full: bool,
    /// The Bind's own handle was bound, to another session.
    pub bound: bool,
    /// The other handle held changes.
    pub held: bool,
}

/// One handle for a session (document 02, U4): an accepted Bind removes any other handle on its session, with what it
/// holds. Its commit has run by then, as Bind is no Batch.
fn one_handle(rust: &mut Rust, handle: u32, session: &SessionId) {
    for other in rust.replica.others(handle, session) {
        rust.taken = Some(Taken {
            full: rust.replica.handle_count() as u64 >= rust.handles,
            bound: rust.replica.handle(handle).is_some(),
            held: rust.replica.handle(other).is_some_and(|other| !other.held.is_empty()),
        });
        rust.replica.unbind(other);
    }
}

/// On a handle at 2^64 - 1 any commit number is wrong: the Rust's own sum would come to 0.
fn last_commit_number(rust: &Rust, mut batch: Batch) -> Batch {
    if rust.replica.handle(batch.handle).is_some_and(|handle| handle.commit_no == u64::MAX) {
        batch.commit_no = u64::MAX;
    }
    batch
}

fn message_bytes(changes: &[Op]) -> u64 {
    let of = |change: &Op| if let Op::Record { msg: Some(msg), .. } = change { msg.len() as u64 } else { 0 };
    changes.iter().map(of).sum()
}

/// Whether a Batch is a Whole or LastWhole that the Rust would hold.
pub fn would_hold(rust: &Rust, batch: &Batch) -> bool {
    let Some(handle) = rust.replica.handle(batch.handle) else { return false };
    let sum = handle.held_bytes.saturating_add(message_bytes(&batch.ops));
    batch.part != Part::Commit
        && batch.app_records.is_empty()
        && batch.epoch >= rust.replica.epoch()
        && handle.commit_no.checked_add(1) == Some(batch.commit_no)
        && (!handle.held.is_empty() || batch.ops.first() == Some(&Op::Reset))
        && sum <= WHOLE_SESSION_BYTES
}

/// The length of a handle's held changes in frame form.
pub fn held_len(rust: &Rust, handle: u32) -> u64 {
    rust.replica.handle(handle).map_or(0, |handle| form(handle.held).len() as u64)
}

/// Difference 18: a Whole or LastWhole that the Rust would hold outgrows the hold area.
fn hold_area(rust: &mut Rust, batch: &Batch) -> Result<(), u32> {
    if !would_hold(rust, batch) || held_len(rust, batch.handle) + form(&batch.ops).len() as u64 <= rust.hold {
        return Ok(());
    }
    // The Rust runs the commits due before it refuses application records.
    let app_records = vec![AppRecord { kind: 0, bytes: Vec::new() }];
    let _ = rust.replica.on_frame_held(Frame::Batch(Batch { ops: Vec::new(), app_records, ..*batch }));
    rust.replica.set_epoch(batch.epoch);
    Err(18)
}

/// A Record of 2^64 - 1 is Diverged wherever it stands: a change is added that can't follow on.
fn last_outgoing_number(rust: &Rust, mut batch: Batch) -> Batch {
    let last = |change: &Op| matches!(change, Op::Record { seq: u64::MAX, .. });
    let held = rust.replica.handle(batch.handle).is_some_and(|handle| handle.held.iter().any(last));
    let joined = batch.part == Part::LastWhole && held;
    if batch.part != Part::Whole && (joined || batch.ops.iter().any(last)) {
        batch.ops.extend([Op::Reset, Op::Record { seq: 0, msg: None }]);
    }
    batch
}

/// The connection count stops at 2^64 - 1: the Rust's would go on at 0.
pub fn connections_end(replica: &mut Replica<MemoryStorage>, before: u64) {
    if before == u64::MAX && !alone() {
        replica.set_connections(before);
    }
}

/// The sessions whose next outgoing number promotion would take past 2^64 - 1.
pub fn promotion_capped(replica: &Replica<MemoryStorage>) -> Vec<SessionId> {
    let past = |next: u64| !alone() && next.checked_add(replica.accepted_lag()).is_none();
    let all = replica.storage().all().into_iter();
    all.filter(|(_, stored)| past(stored.next_outgoing)).map(|(id, _)| id).collect()
}

/// Promotion's cap: those end at 2^64 - 1.
pub fn cap_promotion(replica: &Replica<MemoryStorage>, capped: &[SessionId]) {
    for stored in capped.iter().filter_map(|id| replica.storage().stored(id)) {
        stored.lock().expect("no panic under it").next_outgoing = u64::MAX;
    }
}

/// Difference 9: what is written is longer than its area, where the Rust's buffer grows.
pub fn no_room(len: usize, area: usize) -> Option<u32> {
    (!alone() && len > area).then_some(9)
}

/// Difference 9 where a frame that was read is written again.
#[cfg(ours)]
pub fn writing(rust: &Reading, area: usize) -> Cow<'_, Reading> {
    let refusal = if let Reading::Frame(_, frame) = rust { no_room(frame.len(), area) } else { None };
    refusal.map_or(Cow::Borrowed(rust), |number| Cow::Owned(Reading::Refused(number, 0, 0)))
}

/// Differences 32, 24 and 9: a stamp that the version doesn't take, commit numbers past 2^64 - 1, and a frame too long for its
/// area.
pub fn sending(rust: &Rust, log: &dyn StoredSession, last: u64, frames: Vec<Vec<u8>>, length: Option<u64>) -> Sent {
    if alone() {
        return Sent { frames, end: Ok(()) };
    }
    if let Err(refusal) = suits(rust, log.created_at()) {
        return Sent { frames: Vec::new(), end: Err(refusal) };
    }
    if last.checked_add(frames.len() as u64).is_none() {
        return Sent { frames: Vec::new(), end: Err(24) };
    }
    let area = length.map_or(usize::MAX, |length| length as usize);
    let room = |frame: &Vec<u8>| no_room(frame.len(), area);
    let end = frames.iter().find_map(room).map_or(Ok(()), Err);
    Sent { frames: frames.into_iter().take_while(|frame| room(frame).is_none()).collect(), end }
}
