//! Whether two copies are the same: the numbers, marks and messages of each session.
use crate::show::load;
use crate::standby::{Given, Session};
use crate::words::{Failure, counted, key, visible, wrapped};
use std::io::Write;

/// So much of a message is shown on each side.
const BEFORE: usize = 20;
const EXCERPT: usize = 46;

/// An excerpt around a byte.
fn excerpt(text: &[u8], at: usize) -> String {
    let from = at.saturating_sub(BEFORE);
    let to = text.len().min(from + EXCERPT);
    let dots = |is: bool| if is { ".." } else { "" };
    format!("{}{}{}", dots(from > 0), visible(&text[from.min(to)..to]), dots(to < text.len()))
}

/// The first message that differs: what is said of it, and further lines.
fn first_message(a: &Session, b: &Session, names: [&str; 2]) -> Option<(String, Vec<String>)> {
    let (mut i, mut j) = (0, 0);
    loop {
        match (a.messages.get(i), b.messages.get(j)) {
            (None, None) => return None,
            (Some(p), Some(q)) if p.0 == q.0 => {
                if p.1 != q.1 {
                    let at = p.1.iter().zip(&q.1).take_while(|(x, y)| x == y).count();
                    let label = format!("message {}, byte {}", p.0, at + 1);
                    return Some((label, vec![excerpt(&p.1, at), excerpt(&q.1, at)]));
                }
                (i, j) = (i + 1, j + 1);
            }
            (Some(p), q) if q.is_none_or(|q| p.0 < q.0) => {
                return Some((format!("message {}", p.0), vec![format!("only in {}", names[0])]));
            }
            (_, Some(q)) => return Some((format!("message {}", q.0), vec![format!("only in {}", names[1])])),
            (Some(_), None) => return None,
        }
    }
}

/// What differs in a session, a line each; empty where nothing does.
fn differences(a: &Session, b: &Session, names: [&str; 2]) -> Vec<String> {
    let mut lines = Vec::new();
    let mut say = |label: &str, x: String, y: String| {
        if x != y {
            lines.push(format!("      {label:<23} {x}"));
            lines.push(format!("      {:23} {y}", ""));
        }
    };
    let flight = |s: &Session| s.in_flight.map_or("none".to_string(), |n| n.to_string());
    say("next outgoing", a.next_outgoing.to_string(), b.next_outgoing.to_string());
    say("next incoming", a.next_incoming.to_string(), b.next_incoming.to_string());
    say("in flight", flight(a), flight(b));
    say("since", visible(&a.stamp), visible(&b.stamp));
    say("marks", visible(&a.marks), visible(&b.marks));
    say("durable", a.durable.to_string(), b.durable.to_string());
    let numbers_differ = !lines.is_empty();
    if let Some((label, texts)) = first_message(a, b, names) {
        for (i, text) in texts.iter().enumerate() {
            let label = if i == 0 { label.as_str() } else { "" };
            if label.len() > 23 {
                lines.push(format!("      {label}"));
                lines.push(format!("      {:23} {text}", ""));
            } else {
                lines.push(format!("      {label:<23} {text}"));
            }
        }
        if !numbers_differ {
            lines.push("      Both copies answer Bind and Checked alike: the line can't see this.".to_string());
        }
    }
    lines
}

/// The command `check`.
pub fn check(given: &Given, names: [&str; 2], out: &mut impl Write) -> Result<u8, Failure> {
    let mut copies = Vec::new();
    for name in names {
        let taken = load(given, &[name.to_string()])?;
        copies.extend(taken.iter().map(|t| t.standby.all()));
    }
    let (a, b) = (&copies[0], &copies[1]);
    let mut said = Vec::new();
    for s in a {
        let lines = match b.iter().find(|t| t.key == s.key) {
            Some(t) => differences(s, t, names),
            None => vec![format!("      only in {}", names[0])],
        };
        if !lines.is_empty() {
            said.push((key(&s.key), lines));
        }
    }
    for t in b.iter().filter(|t| !a.iter().any(|s| s.key == t.key)) {
        said.push((key(&t.key), vec![format!("      only in {}", names[1])]));
    }
    if said.is_empty() {
        let stored: usize = a.iter().map(|s| s.messages.len()).sum();
        writeln!(out, "the same      {}, {}", counted(a.len(), "session"), counted(stored, "stored message"))?;
        return Ok(0);
    }
    let sessions = a.len() + b.iter().filter(|t| !a.iter().any(|s| s.key == t.key)).count();
    let differ = if said.len() == 1 { "differs" } else { "differ" };
    writeln!(out, "NOT THE SAME  {} of {} {differ}", said.len(), counted(sessions, "session"))?;
    for (key, lines) in said {
        writeln!(out, "{}\n{}", wrapped("  ", &key), lines.join("\n"))?;
    }
    Ok(1)
}
