//! Captures of the active's direction of the line: read, and cut into frames.
use crate::standby::{First, first_frame, number};
use crate::wire;
use crate::words::{Failure, failed, grouped};
use std::io::Read;

/// The longest body of a frame.
const MOST: u64 = 67_108_864;

/// A whole frame, or one that can't be read, with the refusal.
pub struct Frame {
    pub at: usize,
    pub len: usize,
    pub fault: u8,
}

pub struct Capture {
    pub name: String,
    pub bytes: Vec<u8>,
    pub frames: Vec<Frame>,
    /// How many bytes are left behind the last whole frame.
    pub left: usize,
}

/// Hexadecimal digits with any white space between them stand for bytes; anything else is raw.
fn raw(text: Vec<u8>) -> Vec<u8> {
    if text.is_empty() || !text.iter().all(|c| c.is_ascii_hexdigit() || c.is_ascii_whitespace()) {
        return text;
    }
    let digits: Vec<u8> = text.iter().filter_map(|c| (*c as char).to_digit(16)).map(|d| d as u8).collect();
    digits.chunks_exact(2).map(|pair| pair[0] << 4 | pair[1]).collect()
}

impl Capture {
    /// A capture by its name, `-` for standard input.
    pub fn read(name: &str) -> Result<Capture, Failure> {
        let capture = Capture::open(name)?;
        capture.judge()?;
        Ok(capture)
    }

    /// The standby's direction.
    pub fn answers(name: &str) -> Result<Capture, Failure> {
        Capture::open(name)
    }

    fn open(name: &str) -> Result<Capture, Failure> {
        let mut text = Vec::new();
        let read = if name == "-" {
            std::io::stdin().lock().read_to_end(&mut text)
        } else {
            std::fs::File::open(name).and_then(|mut file| file.read_to_end(&mut text))
        };
        let name = if name == "-" { "standard input" } else { name };
        read.map_err(failed(name))?;
        Ok(Capture::cut(name.to_string(), raw(text)))
    }

    /// Cuts bytes into frames, whichever version each connection speaks: what its own doesn't take the standby refuses. Behind a frame
    /// that can't be read the next one is taken where its length says.
    fn cut(name: String, bytes: Vec<u8>) -> Capture {
        let (mut frames, mut at) = (Vec::new(), 0);
        while at < bytes.len() {
            let rest = &bytes[at..];
            let (len, fault) = match first_frame(rest) {
                First::More => break,
                First::Frame(len) => (len, 0),
                First::Fault(1) => (rest.len(), 1),
                First::Fault(refusal) => (4 + number(&mut &rest[..4], 4) as usize, refusal),
            };
            if len > rest.len() {
                break;
            }
            frames.push(Frame { at, len, fault });
            at += len;
        }
        let left = bytes.len() - at;
        Capture { name, bytes, frames, left }
    }

    /// Whether it can be the active's direction: status 2 if not.
    fn judge(&self) -> Result<(), Failure> {
        let Some(start) = self.bytes.get(..5) else { return Ok(()) };
        let len = number(&mut &start[..4], 4);
        if len > MOST {
            return Err(Failure::usage(format!(
                "{}: not a capture: the first 4 bytes say a frame of\n{} bytes (the limit is {}). Is it a text log, a pcap\nfile, or a capture that began in the middle?",
                self.name,
                grouped(len),
                grouped(MOST)
            )));
        }
        let answers = ["", "", "a Welcome", "", "", "an Ack", "a Nack", "a Bound"];
        match answers.get(start[4] as usize) {
            Some(answer) if !answer.is_empty() => Err(Failure::usage(format!(
                "{}: the standby's direction (the first frame is {answer}).\nGive the active's; for both: wizhdulet audit ACTIVE ANSWERS",
                self.name
            ))),
            _ => Ok(()),
        }
    }

    pub fn bytes_of(&self, frame: &Frame) -> &[u8] {
        &self.bytes[frame.at..frame.at + frame.len]
    }

    /// The incarnation that the first Checked names: the standby of the capture drew it.
    pub fn incarnation(&self) -> Option<u64> {
        self.first(wire::CHECKED).map(wire::incarnation_of)
    }

    /// The incarnation that the first Welcome names.
    pub fn welcome(&self) -> Option<u64> {
        self.first(wire::WELCOME).map(wire::incarnation_of)
    }

    /// The first frame of a kind.
    fn first(&self, kind: u8) -> Option<&[u8]> {
        self.frames.iter().filter(|frame| frame.fault == 0).map(|frame| self.bytes_of(frame)).find(|f| f[4] == kind)
    }
}
