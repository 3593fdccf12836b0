//! Call scripts: a standby's setting and the calls on it, as text.

use std::fmt;

use crate::digits;
use crate::ranges::Range;

/// A script's first line.
#[derive(Debug, Clone, PartialEq, Eq)]
pub struct Setting {
    pub incarnation: u64,
    pub lag: u64,
    /// C, the message bytes of a session.
    pub bytes: u64,
    /// M, the messages of a session.
    pub messages: u64,
    pub sessions: u64,
    pub handles: u64,
    /// The length of each handle's hold area.
    pub hold: u64,
}

/// A hold area's length that takes any session.
pub fn hold_for_any(bytes: u64, messages: u64) -> u64 {
    bytes.saturating_add(messages.saturating_mul(22)).saturating_add(122)
}

/// Begin string, sender, target, suffix.
pub type Key = [Vec<u8>; 4];

/// The line that a session is sent on (document 02, U9).
#[derive(Debug, Clone, Copy, PartialEq, Eq)]
pub enum Line {
    HeadOffice,
    Branch,
}

pub const LINES: [Line; 2] = [Line::HeadOffice, Line::Branch];

#[derive(Debug, Clone, PartialEq, Eq)]
pub enum Call {
    Held(Vec<u8>),
    Frame(Vec<u8>),
    Flush(u64),
    Drop(u64),
    Promote,
    Unchecked,
    State,
    Summary { n: u64, key: Key },
    Whole { line: Line, handle: u32, epoch: u64, last: u64, key: Key, length: Option<u64> },
    Queue { max_lag: u64, drained: u64, lasts: Vec<u64> },
    Resend { entries: u64, key: Key, ranges: Vec<Range> },
    Import { key: Key, file: Vec<u8> },
    Set(Counter),
}

/// What an `X` line sets.
#[derive(Debug, Clone, PartialEq, Eq)]
pub enum Counter {
    Connections(u64),
    Epoch(u64),
    Commit(u32, u64),
    Bytes(u32, u64),
    Version(u16),
    /// What a handle holds: the bytes at the start of its hold area, as many as its held length says, and the words of its place, the rest of
    /// which are all ones.
    Held(u32, Vec<u8>, Vec<u64>),
}

fn number(word: &str) -> Option<u64> {
    word.bytes().all(|byte| byte.is_ascii_digit()).then(|| word.parse().ok())?
}

fn handle(word: &str) -> Option<u32> {
    number(word)?.try_into().ok()
}

fn key(word: &str) -> Option<Key> {
    let parts: Option<Vec<_>> = word.split(',').map(|part| digits::read(part.as_bytes())).collect();
    parts?.try_into().ok()
}

fn range(word: &str) -> Option<Range> {
    let (first, last) = word.split_once('-')?;
    Some((number(first)?, number(last)?))
}

fn or_dash(text: String) -> String {
    if text.is_empty() { "-".into() } else { text }
}

fn or_empty(word: &str) -> &str {
    if word == "-" { "" } else { word }
}

fn held(handle: u32, bytes: &str, words: &str) -> Option<Counter> {
    let words = or_empty(words).split(',').filter(|word| !word.is_empty());
    Some(Counter::Held(handle, digits::read(or_empty(bytes).as_bytes())?, words.map(number).collect::<Option<_>>()?))
}

pub fn key_text(key: &Key) -> String {
    key.iter().map(|part| digits::write(part)).collect::<Vec<_>>().join(",")
}

impl Setting {
    pub fn read(line: &str) -> Option<Self> {
        let numbers: Option<Vec<u64>> = line.split_whitespace().map(number).collect();
        let (first, hold) = match numbers?[..] {
            [a, b, c, d, e, f] => ([a, b, c, d, e, f], None),
            [a, b, c, d, e, f, hold] => ([a, b, c, d, e, f], Some(hold)),
            _ => return None,
        };
        let [incarnation, lag, bytes, messages, sessions, handles] = first;
        let hold = hold.unwrap_or_else(|| hold_for_any(bytes, messages));
        Some(Self { incarnation, lag, bytes, messages, sessions, handles, hold })
    }
}

impl Setting {
    /// As many words as docs/AREAS.md names: one for each 65,536 bytes of each hold area.
    pub fn named_ends(&self) -> u64 {
        self.handles.saturating_mul(self.hold / 65_536)
    }

    /// How many words are lent beside the hold areas, which no script says: none, fewer than there are places, one or three for each and one
    /// more, as many as docs/AREAS.md names, or some more than that.
    pub fn ends(&self) -> u64 {
        let Self { incarnation, lag, bytes, messages, sessions, handles, hold } = *self;
        let named = self.named_ends();
        let sum = [incarnation, lag, bytes, messages, sessions, handles, hold].into_iter().fold(0, u64::wrapping_add);
        match sum % 6 {
            0 => 0,
            1 => handles.saturating_sub(1),
            2 => handles,
            3 => 3 * handles + 1,
            4 => named,
            _ => named + handles + handles / 2,
        }
    }
}

impl fmt::Display for Setting {
    fn fmt(&self, f: &mut fmt::Formatter<'_>) -> fmt::Result {
        let Self { incarnation, lag, bytes, messages, sessions, handles, hold } = self;
        write!(f, "{incarnation} {lag} {bytes} {messages} {sessions} {handles}")?;
        if *hold == hold_for_any(*bytes, *messages) { Ok(()) } else { write!(f, " {hold}") }
    }
}

impl Call {
    pub fn read(line: &str) -> Option<Self> {
        let words: Vec<&str> = line.split_whitespace().collect();
        Some(match words[..] {
            ["H"] => Self::Held(Vec::new()),
            ["F"] => Self::Frame(Vec::new()),
            ["H", bytes] => Self::Held(digits::read(bytes.as_bytes())?),
            ["F", bytes] => Self::Frame(digits::read(bytes.as_bytes())?),
            ["L", n] => Self::Flush(number(n)?),
            ["D", n] => Self::Drop(number(n)?),
            ["P"] => Self::Promote,
            ["U"] => Self::Unchecked,
            ["S"] => Self::State,
            ["Y", n, k] => Self::Summary { n: number(n)?, key: key(k)? },
            [letter @ ("W" | "B"), h, epoch, last, k] => Self::whole(letter, h, epoch, last, k, None)?,
            [letter @ ("W" | "B"), h, epoch, last, k, length] => {
                Self::whole(letter, h, epoch, last, k, Some(number(length)?))?
            }
            ["Q", max_lag, drained, ref lasts @ ..] => Self::Queue {
                max_lag: number(max_lag)?,
                drained: number(drained)?,
                lasts: lasts.iter().copied().map(number).collect::<Option<_>>()?,
            },
            ["G", entries, k, ref ranges @ ..] => Self::Resend {
                entries: number(entries)?,
                key: key(k)?,
                ranges: ranges.iter().copied().map(range).collect::<Option<_>>()?,
            },
            ["I", k] => Self::Import { key: key(k)?, file: Vec::new() },
            ["I", k, bytes] => Self::Import { key: key(k)?, file: digits::read(bytes.as_bytes())? },
            ["X", "connections", n] => Self::Set(Counter::Connections(number(n)?)),
            ["X", "epoch", n] => Self::Set(Counter::Epoch(number(n)?)),
            ["X", "version", n @ ("1" | "2")] => Self::Set(Counter::Version(n.parse().ok()?)),
            ["X", "commit", h, n] => Self::Set(Counter::Commit(handle(h)?, number(n)?)),
            ["X", "bytes", h, n] => Self::Set(Counter::Bytes(handle(h)?, number(n)?)),
            ["X", "held", h, bytes, words] => Self::Set(held(handle(h)?, bytes, words)?),
            _ => return None,
        })
    }

    fn whole(letter: &str, h: &str, epoch: &str, last: &str, k: &str, length: Option<u64>) -> Option<Self> {
        let line = if letter == "B" { Line::Branch } else { Line::HeadOffice };
        Some(Self::Whole { line, handle: handle(h)?, epoch: number(epoch)?, last: number(last)?, key: key(k)?, length })
    }
}

impl fmt::Display for Call {
    fn fmt(&self, f: &mut fmt::Formatter<'_>) -> fmt::Result {
        match self {
            Self::Held(bytes) => f.write_str(format!("H {}", digits::write(bytes)).trim_end()),
            Self::Frame(bytes) => f.write_str(format!("F {}", digits::write(bytes)).trim_end()),
            Self::Flush(n) => write!(f, "L {n}"),
            Self::Drop(n) => write!(f, "D {n}"),
            Self::Promote => f.write_str("P"),
            Self::Unchecked => f.write_str("U"),
            Self::State => f.write_str("S"),
            Self::Summary { n, key } => write!(f, "Y {n} {}", key_text(key)),
            Self::Whole { line, handle, epoch, last, key, length } => {
                let letter = if *line == Line::Branch { 'B' } else { 'W' };
                write!(f, "{letter} {handle} {epoch} {last} {}", key_text(key))?;
                length.map_or(Ok(()), |length| write!(f, " {length}"))
            }
            Self::Queue { max_lag, drained, lasts } => {
                write!(f, "Q {max_lag} {drained}")?;
                lasts.iter().try_for_each(|last| write!(f, " {last}"))
            }
            Self::Resend { entries, key, ranges } => {
                write!(f, "G {entries} {}", key_text(key))?;
                ranges.iter().try_for_each(|(first, last)| write!(f, " {first}-{last}"))
            }
            Self::Import { key, file } => {
                f.write_str(format!("I {} {}", key_text(key), digits::write(file)).trim_end())
            }
            Self::Set(Counter::Connections(n)) => write!(f, "X connections {n}"),
            Self::Set(Counter::Epoch(n)) => write!(f, "X epoch {n}"),
            Self::Set(Counter::Version(n)) => write!(f, "X version {n}"),
            Self::Set(Counter::Commit(handle, n)) => write!(f, "X commit {handle} {n}"),
            Self::Set(Counter::Bytes(handle, n)) => write!(f, "X bytes {handle} {n}"),
            Self::Set(Counter::Held(handle, bytes, words)) => {
                let numbers: Vec<String> = words.iter().map(u64::to_string).collect();
                write!(f, "X held {handle} {} {}", or_dash(digits::write(bytes)), or_dash(numbers.join(",")))
            }
        }
    }
}
