//! What is said, and how a run that can't go on ends.
use std::io::{self, Write};

/// Wrong usage or input, with what is said; something that is turned down; or output that can't be written.
pub enum Failure {
    Usage(String),
    Refused(String),
    Output(io::Error),
}

impl Failure {
    pub fn usage(text: impl Into<String>) -> Failure {
        Failure::Usage(text.into())
    }

    pub fn refused(text: impl Into<String>) -> Failure {
        Failure::Refused(text.into())
    }
}

impl From<io::Error> for Failure {
    fn from(error: io::Error) -> Failure {
        Failure::Output(error)
    }
}

/// The system's words for an error, without the number that std puts behind them.
pub fn plain(error: &io::Error) -> String {
    let text = error.to_string();
    text.split_once(" (os error ").map_or(text.clone(), |(words, _)| words.to_string())
}

/// What can't be done with a file or an address, in the system's words.
pub fn failed(name: &str) -> impl Fn(io::Error) -> Failure {
    move |error| Failure::usage(format!("{name}: {}", plain(&error)))
}

/// A number in threes of digits.
pub fn grouped(n: u64) -> String {
    let digits = n.to_string();
    let comma = |i: usize| i > 0 && (digits.len() - i) % 3 == 0;
    digits
        .char_indices()
        .fold(String::new(), |text, (i, d)| if comma(i) { text + "," + &d.to_string() } else { text + &d.to_string() })
}

/// A thing or several of them.
pub fn counted(n: usize, what: &str) -> String {
    format!("{} {what}{}", grouped(n as u64), if n == 1 { "" } else { "s" })
}

/// Bytes that may be anything, as a screen shows them: 01 as `|`, what isn't printable as `.`.
pub fn visible(bytes: &[u8]) -> String {
    bytes
        .iter()
        .map(|&b| {
            if b == 1 {
                '|'
            } else if (32..127).contains(&b) {
                b as char
            } else {
                '.'
            }
        })
        .collect()
}

pub fn key(key: &[Vec<u8>; 4]) -> String {
    let [begin, sender, target, suffix] = key.each_ref().map(|text| visible(text));
    let suffix = if suffix.is_empty() { suffix } else { format!(" / {suffix}") };
    format!("{begin} {sender} -> {target}{suffix}")
}

/// `BEGIN,SENDER,TARGET` or `BEGIN,SENDER,TARGET,SUFFIX`.
pub fn read_key(text: &str) -> Option<[Vec<u8>; 4]> {
    let parts: Vec<Vec<u8>> = text.split(',').map(|part| part.as_bytes().to_vec()).collect();
    match parts.as_slice() {
        [begin, sender, target] => Some([begin.clone(), sender.clone(), target.clone(), Vec::new()]),
        [begin, sender, target, suffix] => Some([begin.clone(), sender.clone(), target.clone(), suffix.clone()]),
        _ => None,
    }
}

/// Words on one line, with one space between them.
pub fn on_one_line(text: &str) -> String {
    text.split_whitespace().collect::<Vec<_>>().join(" ")
}

/// Words in lines of at most 80 columns, the first behind a label, the others behind as many spaces.
pub fn wrapped(label: &str, text: &str) -> String {
    let (mut lines, mut column) = (String::from(label), label.len());
    for word in text.split(' ') {
        if column > label.len() && column + 1 + word.len() > 80 {
            lines += &format!("\n{:1$}{word}", "", label.len());
            column = label.len() + word.len();
        } else {
            let space = if column > label.len() { " " } else { "" };
            lines += &format!("{space}{word}");
            column += space.len() + word.len();
        }
    }
    lines
}

/// A label, and parts behind it that go on to a next line at column 80.
pub fn labelled(out: &mut impl Write, label: &str, parts: &[String]) -> io::Result<()> {
    let mut line = if label.len() < 14 { format!("{label:<14}") } else { format!("{label}\n{:14}", "") };
    let mut column = 14;
    for (i, part) in parts.iter().enumerate() {
        let comma = if i + 1 < parts.len() { "," } else { "" };
        if column > 14 && column + 1 + part.len() + comma.len() > 80 {
            line += &format!("\n{:14}", "");
            column = 14;
        }
        if column > 14 {
            line += " ";
            column += 1;
        }
        line += part;
        line += comma;
        column += part.len() + comma.len();
    }
    writeln!(out, "{}", line.trim_end())
}

/// What a Nack means.
pub fn reason(byte: u8) -> &'static str {
    match byte {
        1 => "StaleEpoch: an active with a higher epoch has been here.",
        2 => "Diverged: it doesn't follow on this copy; the session must be sent whole.",
        3 => "Lag: the active leaves more unanswered than --lag allows.",
        4 => "Restarted: it was compared before this standby began.",
        _ => "",
    }
}
