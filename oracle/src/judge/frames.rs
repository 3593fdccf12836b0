//! Single frames, and the program `frames` of document 01, over the Rust.

use turbojet_replica::frame::{Frame, FrameError};

use crate::call::{Setting, hold_for_any};
use crate::differences;
use crate::digits;
use crate::lowest;
use crate::rust::{Rust, encoded, read_refusal};
use crate::side::{Side, answer_text, refusal};

/// What reading gives: more needed, a refusal, or the bytes taken and the frame written again.
#[derive(Debug, Clone, PartialEq, Eq)]
pub enum Reading {
    More,
    /// Its number; the length for 1; the field (0 frame kind, 1 part, 2 refusal, 3 change) and
    /// the value for 3; else zeros.
    Refused(u32, u64, u64),
    Frame(u64, Vec<u8>),
}

const FIELDS: [(&str, &str); 4] =
    [("frame kind", "kind"), ("part", "part"), ("refusal", "refusal"), ("change", "change")];

pub fn read_by_rust(version: u16, bytes: &[u8]) -> Reading {
    if let Err(refusal) = differences::reading(version) {
        return Reading::Refused(refusal, 0, 0);
    }
    match Frame::decode(bytes) {
        Ok(None) => Reading::More,
        Ok(Some((frame, used))) => Reading::Frame(used as u64, encoded(&frame)),
        Err(FrameError::TooLong(len)) => Reading::Refused(1, len as u64, 0),
        Err(FrameError::Unknown(field, value)) => {
            let place = FIELDS.iter().position(|(name, _)| *name == field).expect("the Rust has no other field");
            Reading::Refused(3, place as u64, value.into())
        }
        Err(error) => Reading::Refused(read_refusal(&error), 0, 0),
    }
}

impl Reading {
    pub fn text(&self) -> String {
        match self {
            Self::More => "more".into(),
            Self::Refused(1, len, _) => format!("R 1 {len}"),
            Self::Refused(3, field, value) => {
                let name = FIELDS.get(*field as usize).map_or("?", |(_, short)| short);
                format!("R 3 {name} {value}")
            }
            Self::Refused(number, ..) => refusal(*number),
            Self::Frame(used, bytes) => format!("{used} {}", digits::write(bytes)),
        }
    }
}

/// The lines of an input whose last line feed may lack.
fn lines(input: &[u8]) -> Vec<&[u8]> {
    let mut lines: Vec<&[u8]> = input.split(|byte| *byte == b'\n').collect();
    if lines.last() == Some(&&b""[..]) {
        lines.pop();
    }
    lines
}

/// Single frames, a line of digits each.
pub fn read_lines(input: &[u8], read: impl Fn(&[u8]) -> Reading) -> String {
    let answer = |line: &[u8]| match digits::read(line) {
        Some(bytes) => read(&bytes).text(),
        None => format!("? {}", String::from_utf8_lossy(line)),
    };
    lines(input).into_iter().map(|line| answer(line) + "\n").collect()
}

const LONGEST_LINE: usize = 16_384;

/// What a program prints for an input, over the Rust: of each frame what is said of it, and of a line that is none.
fn told(input: &[u8], say: impl Fn(&mut Rust, &[u8]) -> String, bad: &str) -> String {
    let (bytes, messages) = (4_096, 64);
    let hold = hold_for_any(bytes, messages);
    let setting = Setting { incarnation: 7, lag: 0, bytes, messages, sessions: 4, handles: 4, hold };
    let mut rust = Rust::make(&setting).expect("within the limits");
    let mut answer = |line: &[u8]| match digits::read(line) {
        Some(frame) if !line.is_empty() && line.len() <= LONGEST_LINE => say(&mut rust, &frame),
        _ => bad.into(),
    };
    lines(input).into_iter().map(|line| answer(line) + "\n").collect()
}

/// What `frames` prints.
pub fn program(input: &[u8]) -> String {
    told(input, |rust, frame| answer_text(&rust.frame(frame, false)), &refusal(26))
}

/// What `lowest` prints.
pub fn lowest_program(input: &[u8]) -> String {
    let say = |rust: &mut Rust, frame: &[u8]| {
        let answer = rust.frame(frame, false);
        lowest::text(lowest::handed_up(frame, &answer, &rust.state()))
    };
    told(input, say, "-")
}
