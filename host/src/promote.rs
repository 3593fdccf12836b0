//! Taking over: a rehearsal, and the numbers that each session goes on with.
use crate::show::load;
use crate::standby::{Given, Session, Standby};
use crate::words::{Failure, grouped, key, labelled, wrapped};
use std::io::Write;

/// What the counterparty of a session expects next: sender, target, number.
pub struct Expected {
    pub sender: String,
    pub target: String,
    pub number: u64,
}

impl Expected {
    /// `SENDER,TARGET=NUMBER`.
    pub fn read(text: &str) -> Option<Expected> {
        let (names, number) = text.rsplit_once('=')?;
        let (sender, target) = names.split_once(',')?;
        Some(Expected { sender: sender.to_string(), target: target.to_string(), number: number.parse().ok()? })
    }

    fn is_of(&self, session: &Session) -> bool {
        session.key[1] == self.sender.as_bytes() && session.key[2] == self.target.as_bytes()
    }

    /// What it makes of a next number.
    fn judge(&self, next: u64) -> String {
        match next.checked_sub(self.number) {
            None => format!("the counterparty expects {}: {next} is TOO LOW, the logon is refused.", self.number),
            Some(0) => format!("the counterparty expects {}: no gap.", self.number),
            Some(gap) => format!(
                "the counterparty expects {}: {next} leaves a gap of {}, which it asks for and gets as gap fill.",
                self.number,
                grouped(gap)
            ),
        }
    }
}

/// The sessions of a standby that takes over, as they were before; or the status where it may not.
pub fn taken_over(standby: &mut Standby, name: &str, unchecked: bool) -> Result<Vec<Session>, Failure> {
    let before = standby.all();
    match standby.promote(unchecked) {
        0 => Ok(before),
        23 => Err(Failure::refused(format!(
            "{name}: NOT CHECKED since this standby started:\nsessions may be missing (R 23). If you know that the copy is whole: --unchecked"
        ))),
        refusal => Err(Failure::usage(format!("{name}: not taken over, R {refusal}"))),
    }
}

/// The numbers before and after, and what the counterparties make of them.
pub fn table(before: &[Session], after: &Standby, expected: &[Expected], out: &mut impl Write) -> Result<(), Failure> {
    writeln!(out, "\n{:>45}{:>18}{:>11}", "out now", "takes over with", "incoming")?;
    for (place, s) in before.iter().enumerate() {
        let next = after.session(place).next_outgoing;
        let name = wrapped(&format!("{place:>2}  "), &key(&s.key));
        let columns = format!("{:>12} {next:>17} {:>10}", s.next_outgoing, s.next_incoming);
        if name.len() <= 33 {
            writeln!(out, "{name:<33}{columns}")?;
        } else if columns.len() <= 47 {
            writeln!(out, "{name}\n{:33}{columns}", "")?;
        } else {
            writeln!(out, "{name}\n{columns:>80}")?;
        }
        for expected in expected.iter().filter(|e| e.is_of(s)) {
            writeln!(out, "{}", wrapped("      ", &expected.judge(next)))?;
        }
        if let Some(n) = s.in_flight {
            let words = format!(
                "incoming {n} was in flight: the application may have had it. It comes again as a possible duplicate (mark B)."
            );
            writeln!(out, "{}", wrapped("      ", &words))?;
        }
    }
    Ok(())
}

pub fn allowed(checked: bool) -> &'static str {
    if checked { "the copy was checked, so promote is allowed" } else { "the copy was NOT checked" }
}

/// The command `promote` of captures, and of a copy with `--rehearse`: nothing is changed.
pub fn rehearse(
    given: &Given,
    names: &[String],
    unchecked: bool,
    expected: &[Expected],
    out: &mut impl Write,
) -> Result<u8, Failure> {
    let mut loaded = load(given, names)?;
    let Some(taken) = loaded.first_mut() else { return Err(Failure::usage("promote needs a capture")) };
    let checked = taken.standby.counters.checked != 0;
    let before = taken_over(&mut taken.standby, &taken.capture.name, unchecked)?;
    labelled(out, "REHEARSAL", &[format!("nothing is changed; {}", allowed(checked))])?;
    table(&before, &taken.standby, expected, out)?;
    Ok(0)
}
