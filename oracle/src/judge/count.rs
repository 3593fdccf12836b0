//! Counts of answers, by what was asked.

use std::collections::BTreeMap;

use crate::call::{Call, Line};
use crate::differences::Taken;
use crate::frames::Reading;

#[derive(Default)]
pub struct Counts(BTreeMap<String, BTreeMap<String, u64>>);

/// The first byte of a body, as document 01 names it.
fn kind(frame: &[u8]) -> &'static str {
    match frame.get(4) {
        Some(1) => "Hello",
        Some(2) => "Welcome",
        Some(3) => "Bind",
        Some(4) => match frame.get(25) {
            Some(0) => "Batch Commit",
            Some(1) => "Batch Whole",
            Some(2) => "Batch LastWhole",
            _ => "Batch of no part",
        },
        Some(5) => "Ack",
        Some(6) => "Nack",
        Some(7) => "Bound",
        Some(8) => "Checked",
        _ => "no kind",
    }
}

/// An answer's own kind, from its digits: a Nack with its reason.
fn frame_name(digits: &str) -> String {
    match (digits.get(8..10), digits.get(18..20)) {
        (Some("02"), _) => "Welcome".into(),
        (Some("05"), _) => "Ack".into(),
        (Some("06"), Some("01")) => "Nack StaleEpoch".into(),
        (Some("06"), Some("02")) => "Nack Diverged".into(),
        (Some("06"), Some("03")) => "Nack Lag".into(),
        (Some("06"), Some("04")) => "Nack Restarted".into(),
        (Some("07"), _) => "Bound".into(),
        _ => format!("? {digits}"),
    }
}

/// Where a stamp's length stands in a Bound's frame and in the first frame of a sending.
const LONG_STAMPS: [(&str, usize); 3] = [("take Bind", 4 + 1 + 4 + 3 * 8), (WHOLE, SENT), (BRANCH, SENT)];
const SENT: usize = 4 + 1 + 4 + 8 + 8 + 1 + 4 + 1 + 1;

/// A sending on the head office's line, and on the branch line.
const WHOLE: &str = "whole sending";
const BRANCH: &str = "whole sending on the branch line";

/// Whether the answer's digits have a stamp there that version 1 doesn't take. A sending without a stamp has another change there,
/// whose bytes after the first are of a number or a length.
fn long_stamp(digits: &str, at: usize) -> bool {
    let byte = |at: usize| digits.get(2 * at..2 * at + 2).and_then(|byte| u8::from_str_radix(byte, 16).ok());
    let kind = byte(4) == Some(7) || byte(at - 1) == Some(7);
    kind && byte(at).is_some_and(|len| (22..=30).contains(&len))
}

fn last_line(text: &str) -> &str {
    text.rsplit('\n').next().unwrap_or_default()
}

impl Counts {
    fn add(&mut self, asked: String, answered: String) {
        *self.0.entry(asked).or_default().entry(answered).or_default() += 1;
    }

    pub fn reading(&mut self, version: u16, frame: &[u8], reading: &Reading) {
        let answered = match reading {
            Reading::More => "more".into(),
            Reading::Refused(number, ..) => format!("R {number}"),
            Reading::Frame(..) => "frame".into(),
        };
        match version {
            1 | 2 => self.add(format!("read {} in version {version}", kind(frame)), answered),
            _ => self.add("read in no version".into(), answered),
        }
    }

    /// A frame written again into an area that is too short.
    #[cfg(ours)]
    pub fn written_short(&mut self, frame: &[u8]) {
        self.add(format!("write {}", kind(frame)), "R 9".into());
    }

    pub fn call(&mut self, call: &Call, answer: &str) {
        let frame = |bytes: &[u8]| {
            let answered = if answer.starts_with('R') { answer.into() } else { frame_name(answer) };
            (format!("take {}", kind(bytes)), answered)
        };
        let (asked, answered) = match call {
            Call::Held(bytes) | Call::Frame(bytes) => frame(bytes),
            Call::Flush(_) => ("flush".into(), answer.into()),
            Call::Drop(_) => ("drop".into(), answer.into()),
            Call::Promote => ("promote".into(), answer.into()),
            Call::Unchecked => ("promote_unchecked".into(), answer.into()),
            Call::State => ("state".into(), "dumped".into()),
            Call::Summary { .. } if answer.starts_with('R') => ("summary".into(), answer.into()),
            Call::Summary { .. } => ("summary".into(), "summary".into()),
            Call::Whole { line, .. } => {
                let asked = if *line == Line::Branch { BRANCH } else { WHOLE };
                if answer.lines().count() > 2 {
                    self.add("several frames".into(), asked.into());
                }
                (asked.into(), last_line(answer).into())
            }
            Call::Queue { .. } => {
                let drained = answer.lines().any(|line| !line.starts_with("drained=0"));
                ("lag queue".into(), if drained { "drained" } else { "all wait" }.into())
            }
            Call::Resend { .. } if answer.starts_with('R') => ("resend ranges".into(), answer.into()),
            Call::Resend { .. } => ("resend ranges".into(), "listed".into()),
            Call::Import { .. } => ("import".into(), answer.split(' ').take(2).collect::<Vec<_>>().join(" ")),
            Call::Set(_) => ("counter set".into(), if answer == "ok" { "ok" } else { "no such handle" }.into()),
        };
        if LONG_STAMPS.iter().any(|(name, at)| asked == *name && long_stamp(answer, *at)) {
            self.add("a stamp of version 2".into(), format!("{asked}, told"));
        }
        self.add(asked, answered);
    }

    /// The connection's version before a call and after it.
    pub fn version(&mut self, before: u16, after: u16) {
        if before != after {
            self.add("the connection's version".into(), format!("{before} to {after}"));
        }
    }

    /// A Bind that took a session from another handle.
    pub fn taken(&mut self, taken: &Taken) {
        let mut add = |answered: &str| self.add("session taken from another handle".into(), answered.into());
        add("taken");
        [(taken.full, "in a full row"), (taken.bound, "by a bound handle"), (taken.held, "with held changes")]
            .into_iter()
            .filter(|(is, _)| *is)
            .for_each(|(_, answered)| add(answered));
    }

    /// As many commits pend as may.
    pub fn full_of_pending(&mut self) {
        self.add("commits that pend".into(), "64 pend".into());
    }

    /// What a Whole did with the words of its place.
    pub fn word(&mut self, way: &str) {
        self.add("words of a Whole".into(), way.into());
    }

    /// A row that breaks the rules, handed to each of the six calls.
    pub fn broken_row(&mut self) {
        self.add("a row that breaks its rules".into(), "R 25".into());
    }

    pub fn made(&mut self, made: bool) {
        self.add("make".into(), if made { "ok" } else { "R 25" }.into());
    }

    /// Which of the answers that these inputs can show were never given.
    pub fn not_reached(&self) -> Vec<String> {
        let names = "frame more Welcome Bound Ack done drained listed taken";
        let taken = ["in a full row", "by a bound handle", "with held changes", "64 pend"].map(String::from);
        let nacks = ["StaleEpoch", "Diverged", "Lag", "Restarted"].map(|reason| format!("Nack {reason}"));
        let numbers = (1..=26).filter(|number| *number != 8).chain([28, 29, 30, 35, 36]).map(|number| format!("R {number}"));
        let versions = ["1 to 2", "2 to 1", "take Bind, told", "whole sending, told"].map(String::from);
        let sent = ["done", "R 9", "R 24", "R 25", "R 32"].into_iter().filter(|answered| !self.was(BRANCH, answered));
        let several = [WHOLE, BRANCH].into_iter().filter(|asked| !self.was("several frames", asked));
        let given = |name: &String| self.0.values().any(|answers| answers.contains_key(name));
        let all = names.split(' ').map(String::from).chain(taken).chain(nacks).chain(numbers).chain(versions);
        let long = ["take Bind", "whole sending"].into_iter().filter(|asked| !self.was(asked, "R 32"));
        let sent = sent.map(|answered| format!("{answered} ({BRANCH})"));
        let words = ["a segment closed", "a word cleared", "no word left", "no word lent"].map(String::from);
        let sent = sent.chain(words.into_iter().filter(|way| !given(way)));
        let sent = sent.chain(several.map(|asked| format!("several frames ({asked})")));
        all.filter(|name| !given(name)).chain(long.map(|asked| format!("R 32 ({asked})"))).chain(sent).collect()
    }

    fn was(&self, asked: &str, answered: &str) -> bool {
        self.0.get(asked).is_some_and(|answers| answers.contains_key(answered))
    }

    /// Which answers to an import were never given.
    pub fn missing<const N: usize>(&self, answers: [&str; N]) -> Vec<String> {
        let given = |name: &&str| self.0.get("import").is_some_and(|answers| answers.contains_key(*name));
        answers.into_iter().filter(|name| !given(name)).map(String::from).collect()
    }

    pub fn table(&self) -> String {
        let line = |(asked, answers): (&String, &BTreeMap<String, u64>)| {
            let answers: Vec<_> = answers.iter().map(|(answer, count)| format!("{answer} {count}")).collect();
            format!("{asked}: {}\n", answers.join(", "))
        };
        self.0.iter().map(line).collect()
    }
}
