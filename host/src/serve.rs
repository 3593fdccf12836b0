//! A standby that listens. What one read of a line gives is appended to the copy on disk and synced, then the proved standby takes it, then its commits run, and only then is it answered.
use crate::kept::{Kept, State, Stream, replay};
use crate::library::{Answer, screen, wz_stamp_write};
use crate::show::{frame_words, refusal_words};
use crate::standby::{First, Given, Limits, Standby, first_frame};
use crate::wire;
use crate::words::{Failure, counted, failed, on_one_line, plain, reason, visible};
use std::collections::BTreeMap;
use std::io::{ErrorKind, Read, Write};
use std::net::{Shutdown, SocketAddr, TcpListener, TcpStream};
use std::sync::{Arc, Mutex};
use std::time::{Duration, UNIX_EPOCH};

/// More lines than these aren't kept open: the one that came first goes, but never the current one.
const LINES: usize = 16;

/// The time as a FIX stamp of whole seconds.
fn now() -> String {
    let seconds = UNIX_EPOCH.elapsed().unwrap_or_default().as_secs();
    screen(|out| unsafe { wz_stamp_write(seconds * 1000, 0, out.as_mut_ptr(), out.len()) })
}

fn log(name: &str, text: &str) {
    let _ = writeln!(std::io::stderr(), "wizhdulet: {name}: {} {text}", now());
}

/// What is on disk isn't what is in memory, or nobody knows: nothing may be answered any more.
fn give_up(name: &str, error: &std::io::Error) -> ! {
    log(name, &format!("the disk failed, so this standby ends: {}", plain(error)));
    std::process::exit(3)
}

/// A refusal's words on one line.
fn words_of(refusal: u8) -> String {
    on_one_line(&refusal_words(refusal))
}

/// What is known of an open line.
struct Line {
    peer: SocketAddr,
    socket: Arc<TcpStream>,
    /// The epoch of its last Hello; without one nothing else is taken.
    epoch: Option<u64>,
    /// The connection that its last accepted Hello made, or 0.
    connection: u64,
    frames: u64,
    /// Why it was ended from here, if it was.
    ended: Option<String>,
}

impl Line {
    fn end(&mut self, why: String) {
        self.ended = Some(why);
        let _ = self.socket.shutdown(Shutdown::Both);
    }
}

/// What is behind one lock: the standby, its copy on disk, and the lines.
struct Host {
    standby: Standby,
    kept: Kept,
    state: State,
    /// By their numbers, so the one that came first first.
    lines: BTreeMap<u64, Line>,
}

/// The lengths of the whole frames that may be taken, and why nothing behind them may.
fn cut(bytes: &[u8], mut epoch: Option<u64>) -> (Vec<usize>, Option<String>) {
    let (mut frames, mut at) = (Vec::new(), 0);
    loop {
        let len = match first_frame(&bytes[at..]) {
            First::More => return (frames, None),
            First::Frame(len) => len,
            First::Fault(refusal) => return (frames, Some(words_of(refusal))),
        };
        let frame = &bytes[at..at + len];
        let named = wire::epoch_of(frame);
        if frame[4] == wire::HELLO {
            epoch = named;
        } else if epoch.is_none() {
            return (frames, Some("the first frame of a line must be a Hello".to_string()));
        } else if named.is_some() && named != epoch {
            return (frames, Some(format!("{}: another epoch than that of the line's Hello", frame_words(frame))));
        }
        frames.push(len);
        at += len;
    }
}

impl Host {
    fn log(&self, text: &str) {
        log(&self.kept.name, text);
    }

    fn line(&mut self, id: u64) -> &mut Line {
        self.lines.get_mut(&id).expect("an open line is listed")
    }

    /// Takes what has come on a line: the answers, and why it ends, if it does.
    fn take(&mut self, id: u64, stream: &mut Stream) -> (Vec<u8>, Option<String>) {
        let (epoch, connection) = (self.standby.counters.epoch, self.standby.counters.connections);
        let line = self.line(id);
        let (frames, mut end) = cut(stream.left(), line.epoch);
        // A line with the same epoch has taken the place of this one.
        let replaced = line.epoch == Some(epoch) && line.connection != connection;
        if replaced && (frames.is_empty() || stream.left()[4] != wire::HELLO) {
            return (Vec::new(), Some(words_of(22)));
        }
        if frames.is_empty() {
            return (Vec::new(), end);
        }
        let begin = self.kept.len;
        let kept = self.kept.append(&stream.left()[..frames.iter().sum()]);
        if let Err(error) = kept.unwrap_or_else(|error| give_up(&self.kept.name, &error)) {
            return (Vec::new(), Some(format!("NOT KEPT, and not answered: {}", plain(&error))));
        }
        let (mut answers, mut at) = (Vec::new(), 0);
        for len in frames {
            let frame = &stream.left()[at..at + len];
            let answer = self.standby.take_held(frame);
            at += len;
            self.line(id).frames += 1;
            if answer.refusal != 0 {
                end = Some(format!("{}: {}", frame_words(frame), words_of(answer.refusal)));
                break;
            }
            answers.extend(self.standby.reply(answer));
            self.note(id, frame, answer);
        }
        self.settle(id, begin + at as u64);
        stream.take(at);
        (answers, end)
    }

    /// Runs the commits, before their answers are sent, and cuts off what came behind a refused frame: this standby has not taken it, so a replay may not.
    fn settle(&mut self, id: u64, taken: u64) {
        if self.kept.len > taken {
            self.kept.cut(taken).unwrap_or_else(|error| give_up(&self.kept.name, &error));
        }
        if self.line(id).connection == self.standby.counters.connections {
            assert_eq!(self.standby.flush(), 0, "the current line's commits run");
        }
    }

    /// What an answered frame changes for the lines, or is worth a line in the log.
    fn note(&mut self, id: u64, frame: &[u8], answer: Answer) {
        let peer = self.line(id).peer;
        match (frame[4], answer.kind) {
            (wire::HELLO, _) => self.greeted(id, frame),
            (wire::CHECKED, wire::ACK) => {
                let sessions = counted(self.standby.sessions(), "session");
                self.log(&format!("{peer}: checked: {sessions} may be taken over"));
            }
            (_, wire::NACK) => self.log(&format!("{peer}: {}: Nack {}", frame_words(frame), reason(answer.reason))),
            _ => {}
        }
    }

    /// A Hello was answered: where it was accepted the line is the current one, and another of the same epoch ends.
    fn greeted(&mut self, id: u64, hello: &[u8]) {
        let (epoch, node) = (wire::epoch_of(hello).unwrap_or(0), visible(wire::node_of(hello)));
        let (seen, connection) = (self.standby.counters.epoch, self.standby.counters.connections);
        let line = self.line(id);
        line.epoch = Some(epoch);
        let peer = line.peer;
        if epoch != seen {
            return self.log(&format!("{peer}: {node}, epoch {epoch}: deposed, epoch {seen} has been here"));
        }
        line.connection = connection;
        for (_, other) in self.lines.iter_mut().filter(|(other, line)| **other != id && line.epoch == Some(epoch)) {
            other.end(format!("a newer line of its epoch is the current one; {}", words_of(22)));
        }
        self.log(&format!("{peer}: {node}, epoch {epoch}, line {connection}"));
        self.tell_line(format!("{peer} of {node}, epoch {epoch}, since {}", now()));
    }

    /// To whom the current line is, for those who look.
    fn tell_line(&mut self, line: String) {
        self.state.line = line;
        let _ = self.state.write(&self.kept.name);
    }

    /// A new line; how many are open is bounded.
    fn open(&mut self, id: u64, peer: SocketAddr, socket: Arc<TcpStream>) {
        self.log(&format!("{peer}: connected"));
        let current = self.standby.counters.connections;
        let may_go = |l: &&mut Line| l.ended.is_none() && (l.connection == 0 || l.connection != current);
        if self.lines.len() >= LINES
            && let Some(old) = self.lines.values_mut().find(may_go)
        {
            old.end(format!("ended: more than {LINES} lines are open"));
        }
        self.lines.insert(id, Line { peer, socket, epoch: None, connection: 0, frames: 0, ended: None });
    }

    fn close(&mut self, id: u64, why: &str) {
        let Some(line) = self.lines.remove(&id) else { return };
        let frames = counted(line.frames as usize, "frame");
        self.log(&format!("{}: closed behind {frames}: {}", line.peer, line.ended.as_deref().unwrap_or(why)));
        if line.connection != 0 && line.connection == self.standby.counters.connections {
            self.standby.drop_line_of(line.connection);
            self.tell_line("none".to_string());
        }
    }
}

/// Reads a line to its end; why it ended.
fn serve(host: &Mutex<Host>, id: u64, mut socket: &TcpStream) -> String {
    let mut stream = Stream::default();
    loop {
        match stream.fill(&mut socket) {
            Ok(0) if stream.left().is_empty() => return "the other side has ended it".to_string(),
            Ok(0) => return format!("ended within a frame, {} of it", counted(stream.left().len(), "byte")),
            Ok(_) => {}
            Err(error) if error.kind() == ErrorKind::Interrupted => continue,
            Err(error) => return plain(&error),
        }
        let (answers, end) = host.lock().unwrap().take(id, &mut stream);
        if let Err(error) = socket.write_all(&answers) {
            return format!("the answers can't be sent: {}", plain(&error));
        }
        if let Some(why) = end {
            return why;
        }
    }
}

/// Lets the last answers reach the other side: were bytes left that nobody has read, the system would drop them.
fn linger(mut socket: &TcpStream) {
    let _ = socket.shutdown(Shutdown::Write);
    let _ = socket.set_read_timeout(Some(Duration::from_secs(1)));
    let mut piece = [0; 1 << 14];
    let _ = (0..1 << 14).all(|_| matches!(socket.read(&mut piece), Ok(1..)));
}

/// An address; a port alone, or without a host, is one of this machine alone.
fn listen(address: &str) -> Result<TcpListener, Failure> {
    let port = address.strip_prefix(':').unwrap_or(address);
    let whole = if port.parse::<u16>().is_ok() { format!("127.0.0.1:{port}") } else { address.to_string() };
    TcpListener::bind(&whole).map_err(failed(&whole))
}

/// The limits of a copy: those that it is kept with, where it is; others are refused.
fn limits_of(given: &Given, name: &str) -> Result<Limits, Failure> {
    let Some(state) = State::of(name)? else { return Ok(given.over(None)) };
    given.agrees_with(&state.limits).map_err(|option| {
        Failure::usage(format!("{name}: kept with {option}: wizhdulet compact {name} with other limits changes them"))
    })?;
    Ok(state.limits)
}

/// Opens a copy, replays it, cuts off what is left of a last frame, and begins a new run.
fn start(given: &Given, address: &str, name: &str) -> Result<(TcpListener, Host), Failure> {
    let mut kept = Kept::lock(name, true)?;
    let mut limits = limits_of(given, name)?;
    let known = limits.incarnation.unwrap_or(0);
    let (mut standby, all) = replay(&limits, name, &mut kept.file)?;
    if known == 0 && kept.len > 0 && !all.begins {
        return Err(Failure::usage(format!(
            "{name}: no copy of a standby: it doesn't begin with a Hello, and has no {name}.state"
        )));
    }
    let listener = listen(address)?;
    let mut cut = String::new();
    if !all.left.is_empty() {
        std::fs::write(format!("{name}.left"), &all.left).map_err(failed(name))?;
        let bytes = counted(all.left.len(), "byte");
        cut = format!("; {bytes} of a half-written frame cut off, to {name}.left");
    }
    kept.cut(all.bytes).and_then(|()| kept.file.sync_all()).map_err(failed(name))?;
    // A run never has the incarnation of one before it, so that an active compares anew.
    let incarnation = (UNIX_EPOCH.elapsed().unwrap_or_default().as_nanos() as u64).max(known + 1);
    standby.drop_line();
    standby.counters.checked = 0;
    standby.settings.incarnation = incarnation;
    limits.incarnation = Some(incarnation);
    let address = listener.local_addr().map_err(failed(name))?.to_string();
    let state = State { limits, address: address.clone(), line: "none".to_string() };
    state.write(name)?;
    let host = Host { standby, kept, state, lines: BTreeMap::new() };
    let (frames, sessions) = (counted(all.frames as usize, "frame"), counted(host.standby.sessions(), "session"));
    host.log(&format!("{frames}, {sessions}, epoch {}{cut}", host.standby.counters.epoch));
    if std::fs::exists(format!("{name}.promoted")).unwrap_or(true) {
        host.log(&format!("{name}.promoted is there: this copy has been taken over"));
    }
    host.log(&format!("listening on {address}, not checked"));
    Ok((listener, host))
}

/// The command `standby`: it ends by a signal, or with status 3 where the disk fails.
pub fn standby(given: &Given, address: &str, name: &str) -> Result<u8, Failure> {
    let (listener, host) = start(given, address, name)?;
    // A panic ends the process (host/build), so no thread finds the lock poisoned.
    let host = Arc::new(Mutex::new(host));
    for id in 0.. {
        let (socket, peer) = match listener.accept() {
            Ok((socket, peer)) => (Arc::new(socket), peer),
            Err(error) => {
                // Too many open files, or the line was gone before it was taken.
                host.lock().unwrap().log(&format!("a line can't be taken: {}", plain(&error)));
                std::thread::sleep(Duration::from_millis(100));
                continue;
            }
        };
        let _ = socket.set_nodelay(true);
        host.lock().unwrap().open(id, peer, socket.clone());
        let shared = host.clone();
        let thread = std::thread::Builder::new().spawn(move || {
            let why = serve(&shared, id, &socket);
            shared.lock().unwrap().close(id, &why);
            linger(&socket);
        });
        if let Err(error) = thread {
            host.lock().unwrap().close(id, &plain(&error));
        }
    }
    Ok(0)
}
