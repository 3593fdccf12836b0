//! What the drivers reach of active.rs: a session sent whole, and the lag queue.

use std::io;
use std::sync::{Arc, Mutex};

use turbojet::SessionId;
use turbojet::store::{Commit, Limits, MemoryStorage, SessionStorage, StoredSession};

use super::{AtomicU64, Batch, Link, ReplicatedLog, ReplicatedStorage, Replication, Summary, VecDeque, Whole};

/// A link that keeps what is sent on it.
#[derive(Default)]
struct Kept(Mutex<Vec<Batch>>);

impl Link for Kept {
    fn bind(&self, _: u32, _: u64, _: u64, _: &SessionId) -> io::Result<(Summary, u64)> {
        Err(io::ErrorKind::Unsupported.into())
    }

    fn send(&self, batch: Batch) -> Commit {
        self.0.lock().expect("no panic under it").push(batch);
        Commit::blocking(|| Ok(()))
    }

    fn incarnation(&self) -> io::Result<u64> {
        Err(io::ErrorKind::Unsupported.into())
    }

    fn checked(&self, _: u32, _: u64, _: u64) -> io::Result<()> {
        Err(io::ErrorKind::Unsupported.into())
    }
}

fn no_storage() -> MemoryStorage {
    MemoryStorage::new(Limits { bytes: 0, messages: 0 })
}

fn replication(link: Arc<Kept>, epoch: u64, max_lag: u64) -> Arc<Replication> {
    ReplicatedStorage::new(no_storage(), link, epoch).asynchronous(max_lag).shared
}

/// The batches that send `log`'s session whole, numbered on from `last`.
pub fn whole(log: &mut dyn StoredSession, handle: u32, epoch: u64, last: u64) -> Vec<Batch> {
    let link = Arc::new(Kept::default());
    let Whole { header, fetched } = Whole::of(log).expect("a stand-in's store doesn't fail");
    let messages = super::messages(fetched).expect("a stand-in's store doesn't fail");
    let shared = replication(link.clone(), epoch, 0);
    super::send_whole(&shared, handle, &AtomicU64::new(last), header, messages).expect("the link keeps all");
    std::mem::take(&mut *link.0.lock().expect("no panic under it"))
}

/// A lag queue.
pub struct Lag(ReplicatedLog);

/// What one push did: the numbers that went, and what was left.
pub struct Pushed {
    pub went: Vec<u64>,
    pub drained_through: u64,
    pub waiting: usize,
}

impl Lag {
    pub fn new(max_lag: u64, drained_through: u64) -> Self {
        let session = SessionId::from_key("FIX.4.4".into(), "A".into(), "B".into(), "").expect("a key");
        Self(ReplicatedLog {
            inner: no_storage().open(&session).expect("a stand-in's store doesn't fail"),
            shared: replication(Arc::default(), 0, max_lag),
            session,
            handle: 0,
            commit_no: Arc::default(),
            bound: Arc::default(),
            ops: Vec::new(),
            queued: VecDeque::new(),
            drained_through,
        })
    }

    pub fn push(&mut self, last: u64) -> Pushed {
        let log = &mut self.0;
        let mut went: Vec<u64> = log.queued.iter().map(|(number, _)| *number).chain([last]).collect();
        drop(log.queue(last, Commit::blocking(|| Ok(()))));
        went.truncate(went.len() - log.queued.len());
        Pushed { went, drained_through: log.drained_through, waiting: log.queued.len() }
    }
}
