//! Whole passes: `catch_up()` of the Rust over a link whose answers are scripted, beside the calls of the books that a pass makes. Held
//! against each other: the sessions bound, in their order; when Checked was told; the state after each event.

use crate::rust::{id, ids, meet, number, state};
use crate::script::{Answer, Call, Side};
use crate::splitmix::Chance;
use books_rs::ReplicatedStorage;
use books_rs::active::Link;
use books_rs::active::reach::{empty_summary, seen_of};
use books_rs::frame::{Batch, Summary};
use books_rs::lease::Lease;
use std::io::{self, ErrorKind};
use std::sync::{Arc, Mutex};
use std::time::Duration;
use turbojet::SessionId;
use turbojet::store::{Commit, Job, Limits, Marks, MemoryStorage, Opened, SessionStorage, StoredSession};

/// What the link answers: its incarnation, if it can be reached; each bind in its turn, then its incarnation; Checked.
#[derive(Debug, Clone, Default)]
struct Answers {
    incarnation: Option<u64>,
    binds: Vec<Result<u64, ErrorKind>>,
    checked: Option<ErrorKind>,
}

impl Answers {
    fn bind(&mut self) -> Result<u64, ErrorKind> {
        if self.binds.is_empty() {
            return self.incarnation.ok_or(ErrorKind::TimedOut);
        }
        self.binds.remove(0)
    }
}

#[derive(Default)]
struct Scripted(Mutex<(Answers, Vec<String>)>);

impl Link for Scripted {
    fn bind(&self, _: u32, _: u64, max_lag: u64, id: &SessionId) -> io::Result<(Summary, u64)> {
        let mut script = self.0.lock().expect("no panic under it");
        script.1.push(format!("bind {}", number(id)));
        let incarnation = script.0.bind().map_err(io::Error::from)?;
        Ok((empty_summary(id, max_lag)?, incarnation))
    }

    fn send(&self, _: Batch) -> Commit {
        Commit::blocking(|| Ok(()))
    }

    fn incarnation(&self) -> io::Result<u64> {
        self.0.lock().expect("no panic under it").0.incarnation.ok_or_else(|| ErrorKind::TimedOut.into())
    }

    fn checked(&self, _: u32, _: u64, incarnation: u64) -> io::Result<()> {
        let mut script = self.0.lock().expect("no panic under it");
        script.1.push(format!("checked {incarnation}"));
        script.0.checked.map_or(Ok(()), |kind| Err(kind.into()))
    }
}

/// A store whose listing is told, and which fails to open some of its sessions.
struct Listed(MemoryStorage, Arc<Mutex<(Vec<SessionId>, Vec<SessionId>)>>);

impl SessionStorage for Listed {
    fn open(&self, id: &SessionId) -> io::Result<Box<dyn StoredSession>> {
        if self.1.lock().expect("no panic under it").1.contains(id) {
            return Err(ErrorKind::NotFound.into());
        }
        self.0.open(id)
    }

    fn begin_open(&self, id: &SessionId) -> io::Result<Opened> {
        self.open(id).map(Opened::Ready)
    }

    fn is_durable(&self) -> bool {
        self.0.is_durable()
    }

    fn marked(&self) -> Job<Vec<(SessionId, Marks)>> {
        self.0.marked()
    }

    fn sessions(&self) -> Job<Vec<SessionId>> {
        let listing = self.1.lock().expect("no panic under it").0.clone();
        Job::blocking(move || Ok(listing))
    }
}

/// A lease that says whether an earlier run left the standby in sync.
struct Says(bool);

impl Lease for Says {
    fn duration(&self) -> Duration {
        Duration::MAX
    }

    fn acquire(&self) -> Job<u64> {
        Job::blocking(|| Ok(1))
    }

    fn renew(&self, _: u64) -> Job<()> {
        Job::blocking(|| Ok(()))
    }

    fn release(&self, _: u64) -> Job<()> {
        Job::blocking(|| Ok(()))
    }

    fn set_in_sync(&self, _: u64, _: bool) -> Job<()> {
        Job::blocking(|| Ok(()))
    }

    fn in_sync(&self, _: u64) -> Job<bool> {
        let says = self.0;
        Job::blocking(move || Ok(says))
    }
}

#[derive(Default)]
pub struct Counts {
    pub passes: u64,
    binds: u64,
    stopped: u64,
    told: u64,
    acknowledged: u64,
    all_fell: u64,
}

impl Counts {
    pub fn print(&self) {
        println!("{:>10}  whole passes", self.passes);
        println!("{:>10}  sessions bound in them", self.binds);
        println!("{:>10}  passes that stopped at a session", self.stopped);
        println!("{:>10}  passes that told Checked", self.told);
        println!("{:>10}  of them acknowledged", self.acknowledged);
        println!("{:>10}  first passes at which all fell behind", self.all_fell);
    }

    pub fn complete(&self) -> bool {
        ![self.binds, self.stopped, self.told, self.acknowledged, self.all_fell].contains(&0)
    }
}

/// The books' calls that an active makes: its openings, closings and passes.
struct Driver<S> {
    side: S,
    log: Vec<String>,
    asked: bool,
}

impl<S: Side> Driver<S> {
    /// Bound, or not; the error of a deposed active goes up (`attach`).
    fn attach(&mut self, session: u64, answers: &mut Answers) -> Result<bool, ErrorKind> {
        self.log.push(format!("bind {session}"));
        match answers.bind() {
            Ok(incarnation) => {
                self.side.call(&Call::Compared(session, incarnation));
                Ok(true)
            }
            Err(ErrorKind::PermissionDenied) => Err(ErrorKind::PermissionDenied),
            Err(_) => {
                self.side.call(&Call::Behind(session));
                Ok(false)
            }
        }
    }

    /// An opening, whether the log is open then (`open_attached`).
    fn open(&mut self, session: u64, refuses: bool, answers: &mut Answers) -> bool {
        self.side.call(&Call::Open(session));
        let opened = !refuses && self.attach(session, answers).is_ok();
        if !opened {
            self.side.call(&Call::Close(session));
        }
        opened
    }

    fn pass(&mut self, listing: &[u64], refused: &[u64], in_sync: bool, answers: &mut Answers, counts: &mut Counts) {
        if !self.asked && !in_sync {
            self.side.call(&Call::All(listing.to_vec()));
            counts.all_fell += 1;
        }
        self.asked = true;
        let Some(incarnation) = answers.incarnation else { return };
        self.side.call(&Call::Pass(incarnation));
        while let Answer::Session(session) = self.side.call(&Call::Next(incarnation, listing.to_vec())) {
            let caught = !refused.contains(&session) && self.attach(session, answers) == Ok(true);
            counts.binds += u64::from(caught);
            let compared = self.side.call(&Call::Ended(session, incarnation)) == Answer::Says(true);
            if !caught || !compared {
                counts.stopped += 1;
                return;
            }
        }
        if self.side.call(&Call::Check(incarnation, listing.to_vec())) == Answer::Says(true) {
            self.log.push(format!("checked {incarnation}"));
            counts.told += 1;
            if answers.checked.is_none() {
                counts.acknowledged += 1;
                self.side.call(&Call::Acked(incarnation));
            }
        }
    }
}

struct Both<S> {
    link: Arc<Scripted>,
    listed: Arc<Mutex<(Vec<SessionId>, Vec<SessionId>)>>,
    storage: ReplicatedStorage<Listed>,
    logs: Vec<(u64, Box<dyn StoredSession>)>,
    met: Vec<u64>,
    in_sync: bool,
    ours: Driver<S>,
    events: Vec<String>,
}

impl<S: Side> Both<S> {
    fn new(in_sync: bool) -> Self {
        ordered::forget();
        let link = Arc::new(Scripted::default());
        let listed = Arc::new(Mutex::default());
        let store = Listed(MemoryStorage::new(Limits { bytes: 100, messages: 10 }), listed.clone());
        let storage = ReplicatedStorage::new(store, link.clone(), 1).with_lease(Arc::new(Says(in_sync))).degrading();
        let ours = Driver { side: S::new(), log: Vec::new(), asked: false };
        Self { link, listed, storage, logs: Vec::new(), met: Vec::new(), in_sync, ours, events: Vec::new() }
    }

    fn open(&mut self, session: u64, refuses: bool, mut answers: Answers) {
        self.events.push(format!("open {session}, the store refuses: {refuses}, {answers:?}"));
        meet(&mut self.met, &[session]);
        self.link.0.lock().expect("no panic under it").0 = answers.clone();
        self.listed.lock().expect("no panic under it").1 = if refuses { vec![id(session)] } else { Vec::new() };
        if let Ok(log) = self.storage.open(&id(session)) {
            self.logs.push((session, log));
        }
        self.ours.open(session, refuses, &mut answers);
    }

    fn close(&mut self, at: usize) {
        let (session, log) = self.logs.swap_remove(at);
        self.events.push(format!("close {session}"));
        drop(log);
        self.ours.side.call(&Call::Close(session));
    }

    fn pass(&mut self, listing: &[u64], refused: &[u64], mut answers: Answers, counts: &mut Counts) {
        self.events.push(format!("pass over {listing:?}, the store refuses {refused:?}, {answers:?}"));
        counts.passes += 1;
        if answers.incarnation.is_some() || (!self.ours.asked && !self.in_sync) {
            meet(&mut self.met, listing);
        }
        self.link.0.lock().expect("no panic under it").0 = answers.clone();
        *self.listed.lock().expect("no panic under it") = (ids(listing), ids(refused));
        let _ = self.storage.catch_up().run();
        self.ours.pass(listing, refused, self.in_sync, &mut answers, counts);
    }

    fn check(&mut self) -> Result<(), String> {
        let log = std::mem::take(&mut self.link.0.lock().expect("no panic under it").1);
        let ours = std::mem::take(&mut self.ours.log);
        let (state, our_state) = (state(&seen_of(&self.storage), &self.met), self.ours.side.state());
        if log == ours && state == our_state {
            return Ok(());
        }
        let events = self.events.join("\n");
        Err(format!("{events}\nthe Rust: {log:?}, then {state:?}\nour side: {ours:?}, then {our_state:?}"))
    }
}

fn answers(chance: &mut Chance) -> Answers {
    let incarnation = [0, 7, 7, 8][chance.below(4) as usize];
    let kinds = [ErrorKind::TimedOut, ErrorKind::ConnectionReset, ErrorKind::PermissionDenied];
    let few = if chance.one_in(3) { chance.below(6) } else { 0 };
    let bind = |chance: &mut Chance| match chance.below(8) {
        0 => Err(kinds[chance.below(3) as usize]),
        1 => Ok(incarnation + 1),
        _ => Ok(incarnation),
    };
    Answers {
        incarnation: (!chance.one_in(12)).then_some(incarnation),
        binds: (0..few).map(|_| bind(chance)).collect(),
        checked: chance.one_in(4).then(|| kinds[chance.below(3) as usize]),
    }
}

/// So many passes, between openings and closings, over 3, 6, 20 and 200 sessions in turn.
pub fn by_chance<S: Side>(passes: u64, seed: u64, counts: &mut Counts) -> Result<(), String> {
    let mut chance = Chance(seed);
    let mut runs = 0;
    while counts.passes < passes {
        let sessions = [3, 6, 20, 200][runs % 4];
        let in_sync = !chance.one_in(3);
        let mut both = Both::<S>::new(in_sync);
        for _ in 0..40 {
            match chance.below(4) {
                0 if !both.logs.is_empty() => {
                    let at = chance.below(both.logs.len() as u64) as usize;
                    both.close(at);
                }
                0 | 1 => {
                    let (session, refuses) = (chance.below(sessions), chance.one_in(8));
                    let answers = answers(&mut chance);
                    both.open(session, refuses, answers);
                }
                _ => {
                    let listing = chance.listing(sessions);
                    let refused = if chance.one_in(6) { vec![chance.below(sessions)] } else { Vec::new() };
                    let answers = answers(&mut chance);
                    both.pass(&listing, &refused, answers, counts);
                }
            }
            both.check()?;
        }
        runs += 1;
    }
    Ok(())
}

/// That an opening of the session being caught up blocks until its catch-up ends and then goes on, with real threads: the books say `wait`
/// meanwhile, and `ok` then.
pub mod threads {
    use super::*;
    use std::sync::mpsc::{Receiver, Sender, channel};
    use std::time::Instant;

    /// A link that stands at each bind of session 1 until it is told to go on.
    struct Held(Mutex<(Sender<()>, Receiver<()>)>);

    impl Link for Held {
        fn bind(&self, _: u32, _: u64, max_lag: u64, id: &SessionId) -> io::Result<(Summary, u64)> {
            if number(id) == 1 {
                let held = self.0.lock().expect("no panic under it");
                held.0.send(()).expect("the test listens");
                held.1.recv().expect("the test tells");
            }
            Ok((empty_summary(id, max_lag)?, 7))
        }

        fn send(&self, _: Batch) -> Commit {
            Commit::blocking(|| Ok(()))
        }

        fn incarnation(&self) -> io::Result<u64> {
            Ok(7)
        }

        fn checked(&self, _: u32, _: u64, _: u64) -> io::Result<()> {
            Ok(())
        }
    }

    fn opened(storage: &Arc<ReplicatedStorage<Listed>>, session: u64) -> Receiver<Instant> {
        let (tell, told) = channel();
        let storage = storage.clone();
        std::thread::spawn(move || {
            let log = storage.open(&id(session)).expect("it opens");
            tell.send(Instant::now()).expect("the test listens");
            drop(log);
        });
        told
    }

    pub fn blocks_and_wakes<S: Side>() -> Result<(), String> {
        let (reached, at_bind) = channel();
        let (go_on, told) = channel();
        let link = Arc::new(Held(Mutex::new((reached, told))));
        let listed = Arc::new(Mutex::new((ids(&[1, 2]), Vec::new())));
        let store = Listed(MemoryStorage::new(Limits { bytes: 100, messages: 10 }), listed);
        let storage = Arc::new(ReplicatedStorage::new(store, link, 1).degrading());
        let mut ours = S::new();
        let pass = {
            let storage = storage.clone();
            std::thread::spawn(move || storage.catch_up().run())
        };
        at_bind.recv().expect("the pass binds 1");
        let next = ours.call(&Call::Next(7, vec![1, 2]));
        let waits = opened(&storage, 1);
        let goes = opened(&storage, 2);
        goes.recv_timeout(Duration::from_secs(10)).map_err(|_| "an opening of another session waits".to_string())?;
        if waits.recv_timeout(Duration::from_millis(200)).is_ok() {
            return Err("an opening of the session being caught up doesn't wait".into());
        }
        let meanwhile = (ours.call(&Call::Open(1)), ours.call(&Call::Open(2)));
        go_on.send(()).expect("the pass listens");
        // The opening that waited binds session 1 itself.
        at_bind.recv_timeout(Duration::from_secs(10)).map_err(|_| "it never wakes".to_string())?;
        go_on.send(()).expect("the opening listens");
        waits.recv_timeout(Duration::from_secs(10)).map_err(|_| "it never goes on".to_string())?;
        pass.join().expect("no panic").map_err(|error| error.to_string())?;
        ours.call(&Call::Compared(1, 7));
        let then = (ours.call(&Call::Ended(1, 7)), ours.call(&Call::Open(1)));
        let said = (next, meanwhile, then);
        if said != (Answer::Session(1), (Answer::Wait, Answer::Ok), (Answer::Says(true), Answer::Ok)) {
            return Err(format!("the books say {said:?}"));
        }
        Ok(())
    }
}
