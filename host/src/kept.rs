//! A copy on disk: a capture that is only appended to, by one process at a time, and beside it the limits that it is kept with.
use crate::standby::{First, Given, Limits, Standby, first_frame};
use crate::wire;
use crate::words::{Failure, counted, failed, grouped};
use std::fs::{File, TryLockError};
use std::io::{self, BufWriter, Read, Seek, Write};
use std::os::unix::fs::MetadataExt;
use std::path::Path;

/// Bytes as they come, of a line or of a file, from which whole frames are taken.
#[derive(Default)]
pub struct Stream {
    bytes: Vec<u8>,
    taken: usize,
    piece: Vec<u8>,
}

impl Stream {
    /// One read; how many bytes came.
    pub fn fill(&mut self, from: &mut impl Read) -> io::Result<usize> {
        self.bytes.drain(..std::mem::take(&mut self.taken));
        if self.bytes.is_empty() {
            self.bytes.shrink_to(1 << 22);
        }
        self.piece.resize(1 << 18, 0);
        let read = from.read(&mut self.piece)?;
        self.bytes.extend_from_slice(&self.piece[..read]);
        Ok(read)
    }

    /// The bytes that haven't been taken.
    pub fn left(&self) -> &[u8] {
        &self.bytes[self.taken..]
    }

    pub fn take(&mut self, len: usize) {
        self.taken += len;
    }
}

/// What is kept beside a copy, in NAME.state: its limits, with the incarnation of the last run, and where that run listens and to whom.
pub struct State {
    pub limits: Limits,
    pub address: String,
    pub line: String,
}

const HEAD: &str = "wizhdulet standby 1";

impl State {
    /// That of a copy, if it has one.
    pub fn of(name: &str) -> Result<Option<State>, Failure> {
        let path = format!("{name}.state");
        let text = match std::fs::read_to_string(&path) {
            Err(error) if error.kind() == io::ErrorKind::NotFound => return Ok(None),
            text => text.map_err(failed(&path))?,
        };
        let other = || Failure::usage(format!("{path}: isn't what a standby keeps beside its copy"));
        State::read(&text).ok_or_else(other).map(Some)
    }

    fn read(text: &str) -> Option<State> {
        let mut lines = text.strip_prefix(HEAD)?.strip_prefix('\n')?.lines();
        let mut field = |name: &str| Some(lines.next()?.strip_prefix(name)?.strip_prefix(' ')?.to_string());
        let limits = Limits {
            sessions: field("sessions")?.parse().ok()?,
            handles: field("handles")?.parse().ok()?,
            bytes: field("bytes")?.parse().ok()?,
            messages: field("messages")?.parse().ok()?,
            lag: field("lag")?.parse().ok()?,
            incarnation: Some(field("incarnation")?.parse().ok()?),
        };
        Some(State { limits, address: field("address")?, line: field("line")? })
    }

    pub fn write(&self, name: &str) -> Result<(), Failure> {
        let limits = self.limits.named().map(|(name, number)| format!("{name} {number}\n")).concat();
        let (incarnation, address, line) = (self.limits.incarnation.unwrap_or(0), &self.address, &self.line);
        let text = format!("{HEAD}\n{limits}incarnation {incarnation}\naddress {address}\nline {line}\n");
        replace(&format!("{name}.state"), |file| file.write_all(text.as_bytes()).map_err(failed(name))).map(drop)
    }
}

/// Puts a new file in the place of another, in one step and on disk before it returns; where that can't be, the other stays. Nobody else may write it before the file returned is closed.
pub fn replace<T>(name: &str, write: impl FnOnce(&mut File) -> Result<T, Failure>) -> Result<(File, T), Failure> {
    let new = format!("{name}.new");
    let opened = File::options().read(true).write(true).create(true).truncate(true).open(&new);
    let mut file = opened.map_err(failed(&new))?;
    let written = write(&mut file).and_then(|written| {
        let placed = file.try_lock().map_err(io::Error::from).and_then(|()| file.sync_all());
        let placed = placed.and_then(|()| std::fs::rename(&new, name)).and_then(|()| sync_folder(name));
        placed.map(|()| written).map_err(failed(name))
    });
    if written.is_err() {
        let _ = std::fs::remove_file(&new);
    }
    Ok((file, written?))
}

fn sync_folder(name: &str) -> io::Result<()> {
    let folder = Path::new(name).parent().filter(|folder| !folder.as_os_str().is_empty());
    File::open(folder.unwrap_or(Path::new(".")))?.sync_all()
}

/// The process that holds a file's lock, as the system lists it.
pub fn holder(file: &File) -> Option<u32> {
    let ours = file.metadata().ok()?;
    let same = |there: std::fs::Metadata| (there.dev(), there.ino()) == (ours.dev(), ours.ino());
    // The list has the number of the file; that another disk has a file with it is seen at the process, where this one may look.
    let has_it = |pid: &u32| match std::fs::read_dir(format!("/proc/{pid}/fd")) {
        Ok(open) => open.flatten().any(|entry| std::fs::metadata(entry.path()).is_ok_and(same)),
        Err(_) => true,
    };
    let locks = std::fs::read_to_string("/proc/locks").ok()?;
    let listed = locks.lines().filter_map(|line| {
        let fields: Vec<&str> = line.split_whitespace().collect();
        let [_, "FLOCK", _, _, pid, place, ..] = fields.as_slice() else { return None };
        (place.rsplit(':').next()? == ours.ino().to_string()).then(|| pid.parse().ok())?
    });
    listed.into_iter().find(has_it)
}

/// A copy that this process alone may write.
pub struct Kept {
    pub name: String,
    pub file: File,
    pub len: u64,
}

impl Kept {
    pub fn lock(name: &str, create: bool) -> Result<Kept, Failure> {
        if std::fs::metadata(name).is_ok_and(|there| !there.is_file()) {
            return Err(Failure::usage(format!("{name}: not a file")));
        }
        loop {
            let file = File::options().read(true).append(true).create(create).open(name).map_err(failed(name))?;
            match file.try_lock() {
                Ok(()) => {}
                Err(TryLockError::WouldBlock) => {
                    let who = holder(&file).map_or("another process".to_string(), |pid| format!("process {pid}"));
                    return Err(Failure::usage(format!("{name}: in use by {who}")));
                }
                Err(TryLockError::Error(error)) => return Err(failed(name)(error)),
            }
            // Another process may have put a new file in its place before the lock was there.
            let ours = file.metadata().map_err(failed(name))?;
            if std::fs::metadata(name).is_ok_and(|there| (there.dev(), there.ino()) == (ours.dev(), ours.ino())) {
                sync_folder(name).map_err(failed(name))?;
                return Ok(Kept { name: name.to_string(), file, len: ours.len() });
            }
        }
    }

    /// Appends and syncs: the outer error is that nobody knows what is on disk, the inner one that nothing more is.
    pub fn append(&mut self, frames: &[u8]) -> io::Result<io::Result<()>> {
        if let Err(error) = self.file.write_all(frames) {
            return self.cut(self.len).map(|()| Err(error));
        }
        self.len += frames.len() as u64;
        self.file.sync_data().map(Ok)
    }

    pub fn cut(&mut self, len: u64) -> io::Result<()> {
        self.len = len;
        self.file.set_len(len)
    }
}

/// What a copy had: whole frames, their bytes, and what is left behind them.
#[derive(Default)]
pub struct Replayed {
    pub frames: u64,
    pub bytes: u64,
    pub left: Vec<u8>,
    /// Whether the first frame is a Hello.
    pub begins: bool,
    /// The node of the last Hello.
    pub node: Vec<u8>,
}

/// A standby that has taken the frames of a copy, with the incarnation given or that of the first Checked.
pub fn replay(limits: &Limits, name: &str, file: &mut File) -> Result<(Standby, Replayed), Failure> {
    let mut standby = Standby::new(limits)?;
    let (mut stream, mut all, mut named) = (Stream::default(), Replayed::default(), limits.incarnation.is_some());
    file.rewind().map_err(failed(name))?;
    loop {
        let len = match first_frame(stream.left()) {
            First::Frame(len) => len,
            First::More if stream.fill(file).map_err(failed(name))? > 0 => continue,
            First::More => {
                all.left = stream.left().to_vec();
                return Ok((standby, all));
            }
            First::Fault(refusal) => {
                let (at, offset, frames) = (all.bytes, grouped(all.bytes), counted(all.frames as usize, "frame"));
                return Err(Failure::usage(format!(
                    "{name}: DAMAGED, or no copy: the frame at offset {offset} can't be read (R {refusal}). The {frames} before it are whole;\nto go on from there: truncate -s {at} {name}"
                )));
            }
        };
        let frame = &stream.left()[..len];
        if frame[4] == wire::HELLO {
            all.begins |= all.frames == 0;
            all.node = wire::node_of(frame).to_vec();
        } else if frame[4] == wire::CHECKED && !named {
            standby.settings.incarnation = wire::incarnation_of(frame);
            named = true;
        }
        standby.take(frame);
        stream.take(len);
        all.frames += 1;
        all.bytes += len as u64;
    }
}

/// A copy by its name, read without a lock: a standby may be appending to it.
pub fn read(given: &Given, name: &str) -> Result<(Standby, Replayed, Option<State>), Failure> {
    let state = State::of(name)?;
    let limits = given.over(state.as_ref().map(|state| state.limits));
    let mut file = File::open(name).map_err(failed(name))?;
    let (standby, all) = replay(&limits, name, &mut file)?;
    Ok((standby, all, state))
}

/// Sends the sessions as an active does: of each a Bind, and itself whole where that doesn't say all of it. `ask` is handed each frame with the kind of its answer, and gives the answer, empty where nobody answers.
pub fn send_sessions<E>(standby: &Standby, mut ask: impl FnMut(&[u8], u8) -> Result<Vec<u8>, E>) -> Result<(), E> {
    let (epoch, version) = (standby.counters.epoch, standby.lowest_version());
    for place in 0..standby.sessions() {
        let session = standby.session(place);
        let bound = ask(&wire::bind(1, epoch, &session.key), wire::BOUND)?;
        // A session without a commit is as new.
        if session.durable || !wire::is_new(&bound) {
            standby.send_whole(place, 1, version, |frame| ask(frame, wire::ACK).map(drop))?;
        }
    }
    Ok(())
}

/// Writes Hello and the sessions, last a Checked where the copy was checked; how many bytes and frames that is.
pub fn write_whole(standby: &Standby, file: &File) -> io::Result<(u64, u64)> {
    let (mut out, mut bytes, mut frames, epoch) = (BufWriter::new(file), 0, 0, standby.counters.epoch);
    let mut put = |frame: &[u8]| {
        bytes += frame.len() as u64;
        frames += 1;
        out.write_all(frame)
    };
    put(&wire::hello(standby.lowest_version(), epoch, "wizhdulet"))?;
    send_sessions(standby, |frame, _| put(frame).map(|()| Vec::new()))?;
    if standby.counters.checked != 0 {
        put(&wire::checked(1, epoch, standby.settings.incarnation))?;
    }
    out.flush()?;
    Ok((bytes, frames))
}
