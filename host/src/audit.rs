//! Whether a standby in the field answered as a right one does.
use crate::capture::Capture;
use crate::show::frame_words;
use crate::standby::{Given, Standby};
use crate::words::{Failure, counted, grouped, wrapped};
use std::io::Write;

/// The command `audit`.
pub fn audit(given: &Given, asked: &str, answered: &str, out: &mut impl Write) -> Result<u8, Failure> {
    let asked = Capture::read(asked)?;
    let answered = Capture::answers(answered)?;
    let mut limits = given.over(None);
    limits.incarnation = limits.incarnation.or_else(|| answered.welcome()).or_else(|| asked.incarnation());
    let mut standby = Standby::new(&limits)?;
    let mut said = answered.frames.iter().map(|frame| answered.bytes_of(frame));
    for (i, frame) in asked.frames.iter().enumerate() {
        let bytes = asked.bytes_of(frame);
        let number = grouped(i as u64 + 1);
        let answer = standby.take(bytes);
        if frame.fault != 0 || answer.refusal != 0 {
            let left = said.len();
            let words =
                format!("frame {number} is refused: the line ends there, and {} follow", counted(left, "answer"));
            writeln!(out, "{}", wrapped("", &words))?;
            return Ok(u8::from(left > 0));
        }
        let right = standby.reply(answer);
        match said.next() {
            Some(theirs) if theirs == right => {}
            Some(theirs) => {
                writeln!(out, "{}", wrapped("", &format!("NOT THE SAME  frame {number} ({})", frame_words(bytes))))?;
                writeln!(out, "{}", wrapped("      ", &format!("the standby said: {}", frame_words(theirs))))?;
                writeln!(out, "{}", wrapped("      ", &format!("a right one says: {}", frame_words(&right))))?;
                if i < 16 && theirs.get(4) == Some(&7) {
                    let words = "It began with sessions that this capture doesn't have, or it has drifted.";
                    writeln!(out, "{}", wrapped("      ", words))?;
                }
                return Ok(1);
            }
            None => {
                let words = format!(
                    "the first {} are those of a right standby; those to the {} after them are missing",
                    counted(i, "answer"),
                    counted(asked.frames.len() - i, "frame")
                );
                writeln!(out, "{}", wrapped("", &words))?;
                return Ok(1);
            }
        }
    }
    let (count, left) = (asked.frames.len(), said.len());
    writeln!(out, "all {} are those of a right standby", counted(count, "answer"))?;
    if left > 0 {
        writeln!(out, "{} more follow, to frames that the capture doesn't have", counted(left, "answer"))?;
    }
    Ok(u8::from(left > 0 || asked.left > 0 || answered.left > 0))
}
