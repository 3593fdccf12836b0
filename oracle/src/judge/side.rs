//! What both sides of the comparison give: the answers to calls, in the one text form.

use std::fmt::Write;

use crate::call::{Call, Counter, Key, Line, Setting, key_text};
use crate::digits;
use crate::ranges::{Listed, Range};

/// The answer's bytes, or document 01's number of the refusal.
pub type Answer = Result<Vec<u8>, u32>;

/// A stored session: its six parts, key and durable mark.
#[derive(Debug, Clone, PartialEq, Eq)]
pub struct Session {
    pub key: Key,
    pub stamp: Option<Vec<u8>>,
    pub next_outgoing: u64,
    pub next_incoming: u64,
    pub in_flight: Option<u64>,
    pub marks: Vec<u8>,
    pub messages: Vec<(u64, Vec<u8>)>,
    pub durable: bool,
}

/// A bound handle; `changes` are those held, in frame form.
#[derive(Debug, Clone, PartialEq, Eq)]
pub struct Handle {
    pub number: u32,
    pub key: Key,
    pub commit_no: u64,
    pub held: u64,
    pub held_bytes: u64,
    pub changes: Vec<u8>,
}

#[derive(Debug, Clone, PartialEq, Eq)]
pub struct State {
    pub epoch: u64,
    pub incarnation: u64,
    pub lag: u64,
    pub promoted: bool,
    pub checked: bool,
    pub connections: u64,
    /// Compared, though no line shows it.
    pub version: u16,
    pub pending: Vec<u32>,
    pub sessions: Vec<Session>,
    pub handles: Vec<Handle>,
}

#[derive(Debug, Clone, PartialEq, Eq)]
pub struct Summary {
    pub next_outgoing: u64,
    pub next_incoming: u64,
    pub in_flight: Option<u64>,
    pub stamp: Option<Vec<u8>>,
    pub marks: Vec<u8>,
    pub last_outgoing: u64,
}

/// A whole sending to a handle in an epoch: its frames up to "done" or the refusal that ended it.
pub struct Sent {
    pub frames: Vec<Vec<u8>>,
    pub end: Result<(), u32>,
}

/// One push on a lag queue.
pub struct Pushed {
    pub went: Vec<u64>,
    pub drained_through: u64,
    pub waiting: usize,
}

/// A standby with its store, on one side of the comparison.
pub trait Side: Sized {
    /// None where the store can't be made (25).
    fn make(setting: &Setting) -> Option<Self>;
    fn frame(&mut self, bytes: &[u8], held: bool) -> Answer;
    fn flush(&mut self, connection: u64) -> Result<(), u32>;
    fn line_dropped(&mut self, connection: u64) -> Result<(), u32>;
    fn promote(&mut self) -> Result<(), u32>;
    fn promote_unchecked(&mut self) -> Result<(), u32>;
    fn state(&mut self) -> State;
    fn summary(&mut self, n: u64, key: &Key) -> Result<Summary, u32>;
    fn whole(&mut self, line: Line, to: (u32, u64), last: u64, key: &Key, length: Option<u64>) -> Sent;
    fn queue(&mut self, max_lag: u64, drained: u64, lasts: &[u64]) -> Result<Vec<Pushed>, u32>;
    fn resend(&mut self, entries: u64, key: &Key, ranges: &[Range]) -> Result<Listed, u32>;
    /// A message log built into a new session; the offset of the first faulty message stands beside 28, 29 and 30.
    fn import(&mut self, key: &Key, file: &[u8]) -> Result<(), (u32, Option<u64>)>;
    /// False where there's no such handle, or it holds nothing.
    fn set(&mut self, counter: &Counter) -> bool;
}

fn or_dash(value: Option<String>) -> String {
    value.unwrap_or_else(|| "-".into())
}

fn stamp_text(stamp: &Option<Vec<u8>>) -> String {
    or_dash(stamp.as_deref().map(digits::write))
}

fn joined<T: ToString>(items: &[T]) -> String {
    items.iter().map(T::to_string).collect::<Vec<_>>().join(",")
}

fn done(result: Result<(), u32>) -> String {
    result.map_or_else(refusal, |()| "ok".into())
}

pub fn refusal(number: u32) -> String {
    format!("R {number}")
}

pub fn answer_text(answer: &Answer) -> String {
    answer.as_ref().map_or_else(|number| refusal(*number), |bytes| digits::write(bytes))
}

impl Session {
    fn line(&self) -> String {
        let messages: Vec<_> = self.messages.iter().map(|(seq, msg)| format!("{seq}:{}", digits::write(msg))).collect();
        format!(
            "session key={} stamp={} out={} in={} flight={} marks={} messages={} durable={}",
            key_text(&self.key),
            stamp_text(&self.stamp),
            self.next_outgoing,
            self.next_incoming,
            or_dash(self.in_flight.map(|n| n.to_string())),
            digits::write(&self.marks),
            messages.join(";"),
            u8::from(self.durable)
        )
    }
}

impl Handle {
    fn line(&self) -> String {
        format!(
            "handle {} key={} commit={} held={} bytes={} form={} changes={}",
            self.number,
            key_text(&self.key),
            self.commit_no,
            self.held,
            self.held_bytes,
            self.changes.len(),
            digits::write(&self.changes)
        )
    }
}

impl State {
    pub fn lines(&self) -> String {
        let mut text = format!(
            "standby epoch={} incarnation={} lag={} promoted={} checked={} connections={} pending={}",
            self.epoch,
            self.incarnation,
            self.lag,
            u8::from(self.promoted),
            u8::from(self.checked),
            self.connections,
            joined(&self.pending)
        );
        self.sessions.iter().for_each(|session| write!(text, "\n{}", session.line()).expect("text grows"));
        self.handles.iter().for_each(|handle| write!(text, "\n{}", handle.line()).expect("text grows"));
        text
    }
}

impl Summary {
    fn line(&self) -> String {
        format!(
            "out={} in={} flight={} stamp={} marks={} last={}",
            self.next_outgoing,
            self.next_incoming,
            or_dash(self.in_flight.map(|n| n.to_string())),
            stamp_text(&self.stamp),
            digits::write(&self.marks),
            self.last_outgoing
        )
    }
}

impl Sent {
    fn lines(&self) -> String {
        let end = self.end.map_or_else(refusal, |()| "done".into());
        self.frames.iter().map(|frame| digits::write(frame)).chain([end]).collect::<Vec<_>>().join("\n")
    }
}

impl Pushed {
    fn line(&self) -> String {
        let Self { went, drained_through, waiting } = self;
        format!("drained={} through={drained_through} waiting={waiting} numbers={}", went.len(), joined(went))
    }
}

impl Listed {
    fn lines(&self) -> String {
        let head = format!("count={} bytes={}", self.messages.len(), self.bytes);
        let messages = self.messages.iter().map(|(number, set)| format!("\n{number} {set}"));
        messages.fold(head, |text, line| text + &line)
    }
}

/// What a call writes, without the last line feed; nothing for a queue without pushes.
pub fn answer<S: Side>(side: &mut S, call: &Call) -> String {
    match call {
        Call::Held(bytes) => answer_text(&side.frame(bytes, true)),
        Call::Frame(bytes) => answer_text(&side.frame(bytes, false)),
        Call::Flush(connection) => done(side.flush(*connection)),
        Call::Drop(connection) => done(side.line_dropped(*connection)),
        Call::Promote => done(side.promote()),
        Call::Unchecked => done(side.promote_unchecked()),
        Call::State => side.state().lines(),
        Call::Summary { n, key } => side.summary(*n, key).map_or_else(refusal, |summary| summary.line()),
        Call::Whole { line, handle, epoch, last, key, length } => {
            side.whole(*line, (*handle, *epoch), *last, key, *length).lines()
        }
        Call::Queue { max_lag, drained, lasts } => {
            let lines = |pushes: Vec<Pushed>| pushes.iter().map(Pushed::line).collect::<Vec<_>>().join("\n");
            side.queue(*max_lag, *drained, lasts).map_or_else(refusal, lines)
        }
        Call::Resend { entries, key, ranges } => {
            side.resend(*entries, key, ranges).map_or_else(refusal, |listed| listed.lines())
        }
        Call::Import { key, file } => match side.import(key, file) {
            Ok(()) => "ok".into(),
            Err((number, None)) => refusal(number),
            Err((number, Some(at))) => format!("{} {at}", refusal(number)),
        },
        Call::Set(counter) if side.set(counter) => "ok".into(),
        Call::Set(_) => format!("? {call}"),
    }
}

/// What a script writes.
pub fn run<S: Side>(script: &str) -> String {
    let mut lines = script.lines().filter(|line| !line.is_empty() && !line.starts_with('#'));
    let Some(first) = lines.next() else { return String::new() };
    let Some(setting) = Setting::read(first) else { return format!("? {first}\n") };
    let Some(mut side) = S::make(&setting) else { return "R 25\n".into() };
    let mut text = String::new();
    for line in lines {
        let answer = Call::read(line).map_or_else(|| format!("? {line}"), |call| answer(&mut side, &call));
        if !answer.is_empty() {
            text += &answer;
            text.push('\n');
        }
    }
    text
}
