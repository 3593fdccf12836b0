//! Scripts, as docs/SCRIPTS.md has them.

use crate::{Call, Side};

fn numbers<const N: usize>(words: &[&str]) -> Option<[u64; N]> {
    let numbers: Vec<u64> = words.iter().map(|word| word.parse().ok()).collect::<Option<_>>()?;
    numbers.try_into().ok()
}

fn call(words: &[&str]) -> Option<Call> {
    let (name, rest) = words.split_first()?;
    let handle = |number: u64| u32::try_from(number).ok();
    Some(match *name {
        "bind" => numbers(rest).and_then(|[on]| handle(on)).map(Call::Bind)?,
        "sent" => numbers(rest).and_then(|[on, number]| Some(Call::Sent(handle(on)?, number)))?,
        "ack" => {
            numbers(rest).and_then(|[member, on, number]| Some(Call::Ack(member as usize, handle(on)?, number)))?
        }
        "stale" => numbers(rest).map(|[member]| Call::Stale(member as usize))?,
        _ => return None,
    })
}

fn answer<S: Side>(side: &mut S, line: &str) -> String {
    let words: Vec<&str> = line.split_whitespace().collect();
    if let ["figure", handle] = words[..]
        && let Ok(handle) = handle.parse()
    {
        return side.figure(handle).map_or_else(|refusal| format!("R {refusal}"), |figure| figure.to_string());
    }
    match call(&words).map(|call| side.call(call)) {
        Some(Ok(())) => "ok".to_string(),
        Some(Err(refusal)) => format!("R {refusal}"),
        None => format!("? {line}"),
    }
}

/// The answers to a script, a line for each call; the first line makes the state.
pub fn run<S: Side>(text: &str) -> String {
    let mut lines = text.lines().filter(|line| !line.trim().is_empty() && !line.starts_with('#'));
    let Some(first) = lines.next() else { return String::new() };
    let Some([n, k]) = numbers(&first.split_whitespace().collect::<Vec<_>>()) else { return format!("? {first}\n") };
    match S::make(n, k) {
        Err(refusal) => format!("R {refusal}\n"),
        Ok(mut side) => lines.map(|line| answer(&mut side, line) + "\n").collect(),
    }
}
