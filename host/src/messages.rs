//! Stored messages against what they say of themselves, and against the active's own log.
use crate::show::load;
use crate::standby::{Given, Limits, Session, Standby};
use crate::words::{Failure, counted, failed, grouped, key, visible, wrapped};
use std::io::Write;

/// The first field with a tag in a message that was judged as one.
fn field<'a>(text: &'a [u8], tag: &str) -> Option<&'a [u8]> {
    let start = format!("{tag}=");
    text.split(|byte| *byte == 1).find_map(|field| field.strip_prefix(start.as_bytes()))
}

/// A store for one session.
fn scratch(bytes: u32, messages: u32) -> Result<Standby, Failure> {
    Standby::new(&Limits { sessions: 1, handles: 1, bytes, messages, lag: 0, incarnation: None })
}

/// Which of the length and the sum is false.
fn sum_or_length(text: &[u8]) -> String {
    let place = |start: &[u8]| text.windows(start.len()).position(|part| part == start);
    let (Some(at), Some(end)) = (place(b"\x019="), place(b"\x0110=")) else {
        return "field 9 or 10 is false".to_string();
    };
    let begin = at + 1 + text[at + 1..].iter().position(|byte| *byte == 1).unwrap_or(0) + 1;
    let (said, is) = (visible(field(text, "9").unwrap_or(b"")), end + 1 - begin);
    if said.trim_start_matches('0') != is.to_string() {
        return format!("field 9 says {said}, and the bytes give {is}");
    }
    let sum = text[..=end].iter().fold(0u8, |sum, byte| sum.wrapping_add(*byte));
    format!("field 10 says {}, and the bytes give {sum:03}", visible(field(text, "10").unwrap_or(b"")))
}

/// What a stored message says that isn't so, if anything.
fn fault(session: &Session, number: u64, text: &[u8]) -> Result<Option<String>, Failure> {
    let mut one = scratch(text.len() as u32, 1)?;
    let told = match one.import(&session.key, text) {
        Ok(place) => one.session(place),
        Err((29, _)) => return Ok(Some(sum_or_length(text))),
        Err((28 | 30, _)) => return Ok(Some("isn't one FIX message (R 28)".to_string())),
        Err((refusal, _)) => return Err(Failure::usage(format!("R {refusal}"))),
    };
    if told.messages.last().is_none_or(|(_, last)| last != text) {
        return Ok(Some("isn't one FIX message (R 28)".to_string()));
    }
    let told = told.next_outgoing - 1;
    if told != number {
        return Ok(Some(format!("field 34 says {told}")));
    }
    let texts = [("8", &session.key[0]), ("49", &session.key[1]), ("56", &session.key[2])];
    let other = texts.iter().find(|(tag, key)| field(text, tag) != Some(key));
    Ok(other.map(|(tag, key)| {
        let says = field(text, tag).map_or("isn't there".to_string(), |text| format!("says {}", visible(text)));
        format!("field {tag} {says}, and the key has {}", visible(key))
    }))
}

/// The command `check --self`: each stored message's 34, 9, 10, 8, 49 and 56 against its number, its bytes and the key.
pub fn check_self(given: &Given, names: &[String], out: &mut impl Write) -> Result<u8, Failure> {
    let loaded = load(given, names)?;
    let Some(taken) = loaded.first() else { return Err(Failure::usage("check --self needs a capture")) };
    let (mut all, mut wrong, mut said) = (0, 0, Vec::new());
    for place in 0..taken.standby.sessions() {
        let session = taken.standby.session(place);
        let before = said.len();
        for (number, text) in &session.messages {
            if let Some(words) = fault(&session, *number, text)? {
                wrong += 1;
                said.push(wrapped(&format!("      message {number:<15} "), &words));
            }
        }
        all += session.messages.len();
        if said.len() > before {
            said.insert(before, wrapped("  ", &key(&session.key)));
        }
    }
    if said.is_empty() {
        let words = format!("{}, {}", counted(taken.standby.sessions(), "session"), counted(all, "stored message"));
        writeln!(
            out,
            "right         {words}: of each 34 is the number, 9 and 10\n{:14}are right, 8, 49 and 56 are the key's",
            ""
        )?;
        return Ok(0);
    }
    writeln!(out, "NOT RIGHT     {} of {}", grouped(wrong), counted(all, "stored message"))?;
    for line in said {
        writeln!(out, "{line}")?;
    }
    Ok(1)
}

/// The session that a log of sent messages makes.
fn logged(name: &str, of: &[Vec<u8>; 4]) -> Result<Session, Failure> {
    let file = std::fs::read(name).map_err(failed(name))?;
    let mut store = scratch(file.len().min(33_554_432) as u32, 65_536)?;
    let place = store.import(of, &file).map_err(|(refusal, at)| match refusal {
        28..=30 => {
            Failure::refused(format!("{name}: the message at offset {} is faulty: R {refusal}", grouped(at as u64)))
        }
        _ => Failure::usage(format!("{name}: R {refusal}")),
    })?;
    Ok(store.session(place))
}

/// What differs in the numbers that both have, a line each.
fn compared(copy: &Session, log: &Session, lines: &mut Vec<String>) -> usize {
    let label = |n: u64| format!("      message {n:<15} ");
    let from = copy.messages.first().map_or(u64::MAX, |m| m.0);
    let (mut count, mut more) = (0, 0);
    for (number, text) in log.messages.iter().filter(|m| m.0 >= from && m.0 < copy.next_outgoing) {
        count += 1;
        let words = match copy.messages.iter().find(|m| m.0 == *number) {
            Some(ours) if ours.1 == *text => continue,
            Some(ours) => {
                let at = ours.1.iter().zip(text).take_while(|(a, b)| a == b).count();
                format!("differs from byte {} on", at + 1)
            }
            None => "isn't in the copy".to_string(),
        };
        more += 1;
        if more <= 10 {
            lines.push(wrapped(&label(*number), &words));
        }
    }
    let strange = copy.messages.iter().filter(|m| log.messages.first().is_none_or(|first| m.0 >= first.0));
    for (number, _) in strange.filter(|m| !log.messages.iter().any(|l| l.0 == m.0)) {
        more += 1;
        if more <= 10 {
            lines.push(wrapped(&label(*number), "isn't in the log"));
        }
    }
    if more > 10 {
        lines.push(format!("      .. and {} more", more - 10));
    }
    count
}

/// The command `check SOURCE --log FILE --key KEY`: a session of a copy against the active's own log.
pub fn check_log(
    given: &Given,
    names: &[String],
    log: &str,
    of: &[Vec<u8>; 4],
    out: &mut impl Write,
) -> Result<u8, Failure> {
    let loaded = load(given, names)?;
    let Some(taken) = loaded.first() else { return Err(Failure::usage("check --log needs a capture")) };
    let name = &taken.capture.name;
    let place = taken.standby.find(of).ok_or_else(|| Failure::refused(format!("{name}: no session {}", key(of))))?;
    let (copy, log) = (taken.standby.session(place), logged(log, of)?);
    let mut lines = Vec::new();
    let (ours, theirs) = (copy.next_outgoing, log.next_outgoing);
    if ours != theirs {
        let side = if ours < theirs { "THE COPY IS" } else { "the log is" };
        let words = format!("copy {ours}, log {theirs}: {side} {} BEHIND", grouped(ours.abs_diff(theirs)));
        lines.push(wrapped(&format!("      {:<23} ", "next outgoing"), &words));
    }
    let count = compared(&copy, &log, &mut lines);
    let head = if lines.is_empty() { "the same      " } else { "NOT THE SAME  " };
    writeln!(out, "{}", wrapped(head, &key(of)))?;
    for line in &lines {
        writeln!(out, "{line}")?;
    }
    writeln!(out, "      {} of both compared, next outgoing {ours}", counted(count, "message"))?;
    Ok(u8::from(!lines.is_empty()))
}
