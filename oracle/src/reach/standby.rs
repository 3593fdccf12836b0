//! What the drivers reach of standby.rs: a standby's private parts, read and set.

use turbojet::SessionId;

use super::{Bound, Op, Replica, SessionStorage, StoredSession, Summary};

pub const WHOLE_SESSION_BYTES: u64 = super::MAX_WHOLE_SESSION_BYTES as u64;

/// A bound handle.
pub struct Handle<'a> {
    pub number: u32,
    pub session: SessionId,
    pub commit_no: u64,
    pub held: &'a [Op],
    pub held_bytes: u64,
}

fn view<'a>((number, bound): (&'a u32, &'a Bound)) -> Handle<'a> {
    Handle {
        number: *number,
        session: bound.log.id().expect("a stand-in's log"),
        commit_no: bound.commit_no,
        held: &bound.held,
        held_bytes: bound.held_bytes as u64,
    }
}

impl<S: SessionStorage> Replica<S> {
    pub fn set_incarnation(&mut self, incarnation: u64) {
        self.incarnation = incarnation;
    }

    pub fn set_epoch(&mut self, epoch: u64) {
        self.epoch = epoch;
    }

    pub fn set_connections(&mut self, connections: u64) {
        self.connections = connections;
    }

    /// Sets a bound handle's commit number; false if the handle isn't bound.
    pub fn set_commit_no(&mut self, handle: u32, commit_no: u64) -> bool {
        self.bound.get_mut(&handle).map(|bound| bound.commit_no = commit_no).is_some()
    }

    /// Sets the byte sum of a handle that holds changes; false if there's none such.
    pub fn set_held_bytes(&mut self, handle: u32, bytes: u64) -> bool {
        let holding = self.bound.get_mut(&handle).filter(|bound| !bound.held.is_empty());
        holding.map(|bound| bound.held_bytes = bytes as usize).is_some()
    }

    /// Sets what a bound handle holds, and the sum of its message bytes.
    pub fn set_held(&mut self, handle: u32, held: Vec<Op>, bytes: u64) {
        if let Some(bound) = self.bound.get_mut(&handle) {
            (bound.held, bound.held_bytes) = (held, bytes as usize);
        }
    }

    pub fn promoted(&self) -> bool {
        self.promoted
    }

    pub fn accepted_lag(&self) -> u64 {
        self.max_lag
    }

    /// The handles of the pending commits, oldest first.
    pub fn pending(&self) -> Vec<u32> {
        self.held.iter().map(|(handle, _)| *handle).collect()
    }

    /// The handles that hold a session, but for this one.
    pub fn others(&self, handle: u32, session: &SessionId) -> Vec<u32> {
        let holds = |bound: &Handle<'_>| bound.number != handle && bound.session == *session;
        self.handles().into_iter().filter(holds).map(|bound| bound.number).collect()
    }

    /// Takes a handle's binding away, with what it holds.
    pub fn unbind(&mut self, handle: u32) {
        self.bound.remove(&handle);
    }

    pub fn handle_count(&self) -> usize {
        self.bound.len()
    }

    pub fn handle(&self, number: u32) -> Option<Handle<'_>> {
        self.bound.get_key_value(&number).map(view)
    }

    /// The bound handles, by rising number.
    pub fn handles(&self) -> Vec<Handle<'_>> {
        let mut handles: Vec<_> = self.bound.iter().map(view).collect();
        handles.sort_by_key(|handle| handle.number);
        handles
    }
}

/// The number that follows on these changes, after a session's next.
pub fn next_after(next: u64, changes: &[Op]) -> u64 {
    changes.iter().fold(next, |next, change| match change {
        Op::Record { seq, .. } => seq.wrapping_add(1),
        Op::Reset => 1,
        _ => next,
    })
}

pub fn summary(log: &mut dyn StoredSession, n: u64) -> Summary {
    super::summary(log, n).expect("a stand-in's store doesn't fail")
}
