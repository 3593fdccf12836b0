//! Scripts, as docs/SCRIPTS.md has them.

use crate::plain::Answer;
use crate::{Copy, Key, MOST};

fn text(digits: &str) -> Option<Vec<u8>> {
    let pairs: Vec<&str> = (0..digits.len()).step_by(2).map(|at| digits.get(at..at + 2)).collect::<Option<_>>()?;
    let bytes: Vec<u8> = pairs.iter().map(|pair| u8::from_str_radix(pair, 16).ok()).collect::<Option<_>>()?;
    (bytes.len() <= 32).then_some(bytes)
}

/// Four texts in digits with commas between, or one word that stands for itself.
fn key(word: &str) -> Option<Key> {
    if word.contains(',') {
        let texts: Vec<Vec<u8>> = word.split(',').map(text).collect::<Option<_>>()?;
        return texts.try_into().ok();
    }
    let bytes = word.as_bytes().to_vec();
    (bytes.len() <= 32).then_some([bytes, Vec::new(), Vec::new(), Vec::new()])
}

fn copy(words: &[&str]) -> Option<Copy> {
    let [epoch, checked, sessions @ ..] = words else { return None };
    let session = |word: &&str| {
        let (name, next) = word.rsplit_once('=')?;
        Some((key(name)?, next.parse().ok()?))
    };
    let checked = match *checked {
        "0" => false,
        "1" => true,
        _ => return None,
    };
    let sessions = sessions.iter().map(session).collect::<Option<_>>()?;
    Some(Copy { listed: true, checked, epoch: epoch.parse().ok()?, sessions, broken: false })
}

/// The answers to a script, a line for each call.
pub fn run(text: &str, choose: impl Fn(&[Copy]) -> Answer) -> String {
    let mut copies: Vec<Copy> = Vec::new();
    let mut out = String::new();
    for line in text.lines().filter(|line| !line.trim().is_empty() && !line.starts_with('#')) {
        let words: Vec<&str> = line.split_whitespace().collect();
        let answer = match words[..] {
            ["copy", ref rest @ ..] if copies.len() < MOST => copy(rest).map(|copy| {
                copies.push(copy);
                "ok".to_string()
            }),
            ["choose"] => Some(match choose(&std::mem::take(&mut copies)) {
                Ok(number) => number.to_string(),
                Err(refusal) => format!("R {refusal}"),
            }),
            _ => None,
        };
        out += &(answer.unwrap_or_else(|| format!("? {line}")) + "\n");
    }
    out
}
