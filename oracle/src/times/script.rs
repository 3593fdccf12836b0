//! Scripts, as docs/SCRIPTS.md has them.

use crate::{LONGEST, Side};

fn bytes(digits: &str) -> Option<Vec<u8>> {
    let digit = |byte: u8| match byte {
        b'0'..=b'9' => Some(byte - b'0'),
        b'a'..=b'f' => Some(byte - b'a' + 10),
        _ => None,
    };
    let pairs = digits.as_bytes().chunks(2);
    pairs.map(|pair| Some(digit(pair[0])? * 16 + digit(*pair.get(1)?)?)).collect()
}

fn answer<S: Side>(line: &str) -> Option<String> {
    let words: Vec<&str> = line.split_whitespace().collect();
    let refused = |refusal: u8| format!("R {refusal}");
    Some(match words[..] {
        ["T"] => S::read(&[]).map_or_else(refused, |(millis, picos)| format!("{millis} {picos}")),
        ["T", digits] => S::read(&bytes(digits)?).map_or_else(refused, |(millis, picos)| format!("{millis} {picos}")),
        ["N", millis, picos] => {
            let mut area = [0; LONGEST];
            let written = S::write(number(millis)?, number(picos)?, &mut area);
            written.map_or_else(refused, |len| String::from_utf8_lossy(&area[..len]).into_owned())
        }
        _ => return None,
    })
}

/// Digits alone.
fn number(word: &str) -> Option<u64> {
    if word.bytes().all(|byte| byte.is_ascii_digit()) { word.parse().ok() } else { None }
}

/// The answers to a script, a line for each call.
pub fn run<S: Side>(text: &str) -> String {
    let lines = text.lines().filter(|line| !line.trim().is_empty() && !line.starts_with('#'));
    lines.map(|line| answer::<S>(line).unwrap_or_else(|| format!("? {line}")) + "\n").collect()
}
