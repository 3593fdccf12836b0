//! Which of several copies takes over, and why not the others.
use crate::show::{Taken, load, refusal_words};
use crate::standby::{Given, Session, choose as chosen};
use crate::words::{Failure, grouped, key, wrapped};
use std::io::Write;

/// In which session a copy is behind another, with both numbers.
fn behind(copy: &[Session], other: &[Session]) -> Option<(String, u64, u64)> {
    let ours = |s: &Session| copy.iter().find(|t| t.key == s.key).map_or(1, |t| t.next_outgoing);
    let first = other.iter().find(|s| ours(s) < s.next_outgoing)?;
    Some((key(&first.key), ours(first), first.next_outgoing))
}

/// Why a copy takes over, or not.
fn why(copies: &[Taken], all: &[Vec<Session>], i: usize, taken: Option<usize>) -> String {
    let counters = |copy: &Taken| copy.standby.counters;
    let ours = counters(&copies[i]);
    let highest = copies.iter().map(counters).filter(|c| c.checked != 0).map(|c| c.epoch).max().unwrap_or(0);
    if ours.checked == 0 {
        return "not checked".to_string();
    }
    if ours.epoch < highest {
        return format!("of epoch {}, and a checked copy has {highest}", ours.epoch);
    }
    if taken == Some(i) {
        return "no other checked copy of its epoch is ahead of it in any session".to_string();
    }
    let candidate = |j: &usize| *j != i && counters(&copies[*j]).checked != 0 && counters(&copies[*j]).epoch == highest;
    let ahead = (0..copies.len()).filter(candidate).find_map(|j| Some((j, behind(&all[i], &all[j])?)));
    match ahead {
        Some((j, (key, ours, theirs))) => {
            format!("behind {} in {key}: {}, and there {}", copies[j].capture.name, grouped(ours), grouped(theirs))
        }
        None => "as good, and listed later".to_string(),
    }
}

/// The command `choose`.
pub fn choose(given: &Given, names: &[String], out: &mut impl Write) -> Result<u8, Failure> {
    if names.len() > 5 {
        return Err(Failure::usage("choose takes five copies at most"));
    }
    let mut copies = Vec::new();
    for name in names {
        copies.extend(load(given, std::slice::from_ref(name))?);
    }
    let all: Vec<_> = copies.iter().map(|copy| copy.standby.all()).collect();
    let taken = chosen(&copies.iter().map(|copy| &copy.standby).collect::<Vec<_>>());
    match taken {
        Ok(i) => writeln!(out, "{}", wrapped("TAKES OVER    ", &copies[i].capture.name))?,
        Err(refusal) => write!(out, "NONE FITS\n{}", refusal_words(refusal))?,
    }
    for (i, copy) in copies.iter().enumerate() {
        writeln!(out, "{:>2}  {}", i + 1, copy.capture.name)?;
        writeln!(out, "{}", wrapped("      ", &why(&copies, &all, i, taken.ok())))?;
    }
    Ok(u8::from(taken.is_err()))
}
