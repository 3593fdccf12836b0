//! Which stored messages answer a counterparty's ResendRequests, several together.
use crate::show::{load, refusal_words};
use crate::standby::Given;
use crate::words::{Failure, counted, grouped, key, wrapped};
use std::io::Write;

/// `FIRST-LAST`, or one number; a last of 0 means to the end.
fn range(text: &str) -> Option<[u64; 2]> {
    let (first, last) = text.split_once('-').unwrap_or((text, text));
    Some([first.parse().ok()?, last.parse().ok()?])
}

/// The command `resend`.
pub fn resend(
    given: &Given,
    name: &str,
    of: &[Vec<u8>; 4],
    texts: &[String],
    tsv: bool,
    out: &mut impl Write,
) -> Result<u8, Failure> {
    let ranges: Option<Vec<[u64; 2]>> = texts.iter().map(|text| range(text)).collect();
    let ranges = ranges.ok_or_else(|| Failure::usage("a range is FIRST-LAST, or one number"))?;
    let loaded = load(given, &[name.to_string()])?;
    let Some(taken) = loaded.first() else { return Err(Failure::usage("resend needs a capture")) };
    let place = taken.standby.find(of).ok_or_else(|| Failure::refused(format!("{name}: no session {}", key(of))))?;
    let served = taken.standby.resend(place, &ranges.concat()).map_err(|refusal| {
        let words = refusal_words(refusal);
        Failure::refused(format!("{name}: {}", words.trim_end()))
    })?;
    if tsv {
        writeln!(out, "message\tbytes\tranges")?;
        for (number, set, text) in &served {
            writeln!(out, "{number}\t{}\t{}", text.len(), ranges_in(*set).join(","))?;
        }
        return Ok(0);
    }
    writeln!(out, "{}", wrapped("", &key(of)))?;
    listed(&ranges, &served, out)?;
    Ok(0)
}

/// The ranges of a set, counted from 1.
fn ranges_in(set: u64) -> Vec<String> {
    (0..64).filter(|i| set >> i & 1 == 1).map(|i| (i + 1).to_string()).collect()
}

/// What each range gets, and each message with its ranges.
fn listed(ranges: &[[u64; 2]], served: &[(u64, u64, Vec<u8>)], out: &mut impl Write) -> Result<(), Failure> {
    let bytes: usize = served.iter().map(|(_, _, text)| text.len()).sum();
    writeln!(out, "{}, {} in all", counted(served.len(), "message"), counted(bytes, "byte"))?;
    for (i, [first, last]) in ranges.iter().enumerate() {
        let ours = served.iter().filter(|(_, set, _)| set >> i & 1 == 1);
        let (count, bytes) = ours.fold((0, 0), |(n, bytes), (_, _, text)| (n + 1, bytes + text.len()));
        let last = if *last == 0 { "the end".to_string() } else { grouped(*last) };
        let words = format!("{} to {last}: {}, {}", grouped(*first), counted(count, "message"), counted(bytes, "byte"));
        writeln!(out, "{}", wrapped(&format!("range {:<4}", i + 1), &words))?;
    }
    writeln!(out, "\n{:>20} {:>10}  for the ranges", "message", "bytes")?;
    for (number, set, text) in served {
        let label = format!("{number:>20} {:>10}  ", grouped(text.len() as u64));
        writeln!(out, "{}", wrapped(&label, &ranges_in(*set).join(" ")))?;
    }
    writeln!(out, "every other number of a range goes as a gap fill")?;
    Ok(())
}
