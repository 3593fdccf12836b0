//! What is private in active.rs, for the drivers: the state of the catch-up and its calls, and a storage whose link and listing are scripted.

use super::*;

fn no_link() -> io::Error {
    io::ErrorKind::Unsupported.into()
}

struct Nothing;

impl Link for Nothing {
    fn bind(&self, _: u32, _: u64, _: u64, _: &SessionId) -> io::Result<(Summary, u64)> {
        Err(no_link())
    }

    fn send(&self, _: Batch) -> Commit {
        Commit::blocking(|| Ok(()))
    }

    fn incarnation(&self) -> io::Result<u64> {
        Err(no_link())
    }

    fn checked(&self, _: u32, _: u64, _: u64) -> io::Result<()> {
        Err(no_link())
    }
}

fn no_storage() -> turbojet::store::MemoryStorage {
    turbojet::store::MemoryStorage::new(turbojet::store::Limits { bytes: 0, messages: 0 })
}

/// The whole state of the catch-up: behind in its order, open counts, incarnations compared with, the one being caught up, the one checked.
pub struct Seen {
    pub behind: Vec<SessionId>,
    pub open: Vec<(SessionId, u64)>,
    pub compared: Vec<(SessionId, u64)>,
    pub catching: Option<SessionId>,
    pub checked: Option<u64>,
}

fn seen(state: &State) -> Seen {
    Seen {
        behind: state.behind.iter().cloned().collect(),
        open: state.open.iter().map(|(id, count)| (id.clone(), *count as u64)).collect(),
        compared: state.compared.iter().map(|(id, incarnation)| (id.clone(), *incarnation)).collect(),
        catching: state.catching_up.clone(),
        checked: state.checked,
    }
}

/// The calls of a degrading active without a lease: its `fall_behind` never fails.
pub struct Books(Arc<Replication>);

impl Books {
    pub fn new() -> Self {
        Self(ReplicatedStorage::new(no_storage(), Arc::new(Nothing), 1).degrading().shared)
    }

    pub fn fall_behind(&self, id: &SessionId) {
        self.0.fall_behind(id, io::Error::other("lost")).expect("degrading, without a lease");
    }

    /// Line 362, of `ask_lease`.
    pub fn all_fall_behind(&self, ids: Vec<SessionId>) {
        self.0.state().behind.extend(ids);
    }

    pub fn caught_up(&self, id: &SessionId, incarnation: u64) {
        self.0.caught_up(id, incarnation);
    }

    pub fn behind_unless_compared_open(&self, incarnation: u64) {
        self.0.behind_unless_compared_open(incarnation);
    }

    pub fn next_to_catch_up(&self, ids: &[SessionId], incarnation: u64) -> Option<SessionId> {
        self.0.next_to_catch_up(ids, incarnation)
    }

    pub fn all_compared(&self, ids: &[SessionId], incarnation: u64) -> bool {
        self.0.all_compared(ids, incarnation)
    }

    pub fn is_behind(&self, id: &SessionId) -> bool {
        self.0.is_behind(id)
    }

    /// Whether it wouldn't wait; where it wouldn't, it is called.
    pub fn opening(&self, id: &SessionId) -> bool {
        if self.0.state().catching_up.as_ref() == Some(id) {
            return false;
        }
        self.0.opening(id);
        true
    }

    pub fn closed(&self, id: &SessionId) {
        self.0.closed(id);
    }

    /// Lines 318 to 322, of `catch_up`.
    pub fn ended(&self, id: &SessionId, incarnation: u64) -> bool {
        let mut state = self.0.state();
        state.catching_up = None;
        state.compared.get(id) == Some(&incarnation)
    }

    /// Line 332, of `catch_up`.
    pub fn acknowledged(&self, incarnation: u64) {
        self.0.state().checked = Some(incarnation);
    }

    pub fn seen(&self) -> Seen {
        seen(&self.0.state())
    }
}

impl Default for Books {
    fn default() -> Self {
        Self::new()
    }
}

pub fn seen_of<S>(storage: &ReplicatedStorage<S>) -> Seen {
    seen(&storage.shared.state())
}

/// The summary that a standby with nothing stored answers.
pub fn empty_summary(id: &SessionId, max_lag: u64) -> io::Result<Summary> {
    let mut log = no_storage().open(id)?;
    summary(log.as_mut(), max_lag)
}
