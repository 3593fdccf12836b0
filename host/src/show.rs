//! What a capture leaves: its sessions, and what was refused; or its frames, one by one.
use crate::capture::Capture;
use crate::kept::State;
use crate::library::{Answer, screen, wz_screen_frame, wz_screen_refusal, wz_stamp_read};
use crate::standby::{Given, Standby};
use crate::wire::NACK;
use crate::words::{Failure, counted, grouped, labelled, on_one_line, reason, visible};
use std::io::Write;

/// How many refused frames are shown.
const SHOWN: usize = 20;

/// A frame that was refused, or whose answer is a Nack.
struct Turned {
    line: String,
    refusal: u8,
    reason: u8,
}

/// A capture, and the standby that has taken it.
pub struct Taken {
    pub capture: Capture,
    pub standby: Standby,
    turned: Vec<Turned>,
    count: usize,
}

/// A frame with its number, its offset and its refusal or answer.
fn screened(number: u64, offset: u64, frame: &[u8], refusal: u8, reply: &[u8]) -> String {
    let (bytes, len, answer, answer_len) = (frame.as_ptr(), frame.len(), reply.as_ptr(), reply.len());
    screen(|out| unsafe {
        wz_screen_frame(number, offset, bytes, len, refusal, answer, answer_len, out.as_mut_ptr(), out.len())
    })
}

/// Frame i of a capture, with its answer.
fn frame_line(standby: &Standby, capture: &Capture, i: usize, refusal: u8, answer: Option<Answer>) -> String {
    let (frame, reply) = (&capture.frames[i], answer.map_or(Vec::new(), |answer| standby.reply(answer)));
    screened(i as u64 + 1, frame.at as u64, capture.bytes_of(frame), refusal, &reply)
}

/// What a frame is, on one line.
pub fn frame_words(bytes: &[u8]) -> String {
    on_one_line(screened(0, 0, bytes, 0, &[]).get(17..64).unwrap_or(""))
}

/// A stamp's time, in picoseconds since 1 January 1970; none where it has no number.
fn time_of(stamp: &[u8]) -> Option<u128> {
    let number = unsafe { wz_stamp_read(stamp.as_ptr(), stamp.len()) };
    (number.refusal == 0).then(|| u128::from(number.millis) * 1_000_000_000 + u128::from(number.picos))
}

pub fn refusal_words(number: u8) -> String {
    screen(|out| unsafe { wz_screen_refusal(number, out.as_mut_ptr(), out.len()) })
}

/// Gives a capture's frames to a standby; `each` is told of each with its refusal, and its answer if it has one.
fn take(
    standby: &mut Standby,
    capture: Capture,
    mut each: impl FnMut(&Standby, &Capture, usize, u8, Option<Answer>) -> Result<(), Failure>,
) -> Result<(Capture, Vec<Turned>, usize), Failure> {
    let (mut turned, mut count) = (Vec::new(), 0);
    for (i, frame) in capture.frames.iter().enumerate() {
        let answer = (frame.fault == 0).then(|| standby.take(capture.bytes_of(frame)));
        let refusal = answer.map_or(frame.fault, |answer| answer.refusal);
        each(standby, &capture, i, refusal, answer)?;
        let reason = answer.filter(|a| a.refusal == 0 && a.kind == NACK).map_or(0, |a| a.reason);
        if refusal != 0 || reason != 0 {
            count += 1;
            if turned.len() < SHOWN {
                turned.push(Turned { line: frame_line(standby, &capture, i, refusal, answer), refusal, reason });
            }
        }
    }
    Ok((capture, turned, count))
}

/// A new standby for captures, with the limits that the last of them is kept with, and the incarnation that it counts as checked in.
fn standby_for(given: &Given, captures: &[Capture]) -> Result<Standby, Failure> {
    let kept = captures.last().map(|capture| State::of(&capture.name)).transpose()?.flatten();
    let mut limits = given.over(kept.map(|state| state.limits));
    limits.incarnation = limits.incarnation.or_else(|| captures.iter().find_map(Capture::incarnation));
    Standby::new(&limits)
}

/// A standby over several captures, one line after the other.
pub fn load(given: &Given, names: &[String]) -> Result<Vec<Taken>, Failure> {
    let mut captures = names.iter().map(|name| Capture::read(name)).collect::<Result<Vec<_>, _>>()?;
    let mut standby = standby_for(given, &captures)?;
    let last = captures.pop();
    for capture in captures {
        let (capture, turned, count) = take(&mut standby, capture, |_, _, _, _, _| Ok(()))?;
        if capture.left > 0 || count > 0 {
            let words = format!(
                "{}: {} turned down, {} left over",
                capture.name,
                grouped(count as u64),
                counted(capture.left, "byte")
            );
            eprintln!("wizhdulet: {words}");
        }
        drop(turned);
        standby.drop_line();
    }
    let Some(capture) = last else { return Ok(Vec::new()) };
    let (capture, turned, count) = take(&mut standby, capture, |_, _, _, _, _| Ok(()))?;
    Ok(vec![Taken { capture, standby, turned, count }])
}

impl Taken {
    /// Nothing was turned down, nothing is left over, and the copy was checked.
    pub fn is_fine(&self) -> bool {
        self.count == 0 && self.capture.left == 0 && self.standby.counters.checked != 0
    }

    pub fn head(&self, out: &mut impl Write) -> Result<(), Failure> {
        let (capture, standby) = (&self.capture, &self.standby);
        let end = match capture.left {
            0 => "ends with a whole frame".to_string(),
            n => format!("CUT SHORT: {} of a last frame", counted(n, "byte")),
        };
        let frames = format!("{}; {end}", counted(capture.frames.len(), "frame"));
        labelled(out, &capture.name, &[counted(capture.bytes.len(), "byte"), frames])?;
        let said = |flag: u8, word: &str| if flag != 0 { word.to_string() } else { format!("not {word}") };
        let counters = &standby.counters;
        let (lag, line) = (standby.settings.max_lag, counters.connections);
        let parts = [
            format!("epoch {}", counters.epoch),
            said(counters.checked, "checked"),
            said(counters.promoted, "promoted"),
            format!("accepts lag {lag}"),
            format!("line {line}"),
        ];
        labelled(out, "standby", &parts)?;
        let shape = standby.settings.shape;
        let used = standby.row.iter().filter(|b| b.used != 0).count();
        let parts = [
            format!("{} of {} sessions", standby.sessions(), shape.places),
            format!("{used} of {} handles", standby.row.len()),
            format!("C {}", grouped(shape.bytes.into())),
            format!("M {}", grouped(shape.messages.into())),
        ];
        Ok(labelled(out, "limits", &parts)?)
    }

    /// The places, by the sessions' stamps if that is asked for: stamps without a number come last, as texts.
    fn places(&self, sort: bool) -> Vec<usize> {
        let mut places: Vec<usize> = (0..self.standby.sessions()).collect();
        if sort {
            places.sort_by_cached_key(|place| {
                let stamp = self.standby.session(*place).stamp;
                let time = time_of(&stamp);
                (time.is_none(), time, stamp)
            });
        }
        places
    }

    /// The sessions, each with its handles and what is held back.
    fn sessions(&self, sort: bool, out: &mut impl Write) -> Result<(), Failure> {
        for place in self.places(sort) {
            let mut text = self.standby.screen(place).trim_end_matches('\n').to_string();
            for bound in self.standby.row.iter().filter(|b| b.used != 0 && b.place == place) {
                let column = text.len() - text.rfind('\n').map_or(0, |at| at + 1);
                let gap = if column < 36 { " ".repeat(36 - column) } else { format!("\n{:36}", "") };
                text += &format!("{gap}handle      {}, commit {}", bound.handle, bound.commit_no);
                if bound.held_len > 0 {
                    let held = counted(bound.held_len, "byte");
                    text += &format!(
                        "\n      HELD BACK {held} of a whole sending that has not ended. The session\n      is as it was before that sending."
                    );
                }
            }
            writeln!(out, "{text}")?;
        }
        Ok(())
    }

    fn turned_down(&self, out: &mut impl Write) -> Result<(), Failure> {
        if self.count == 0 {
            labelled(out, "refused", &["nothing".to_string()])?;
        } else {
            labelled(out, "refused", &[grouped(self.count as u64)])?;
        }
        for turned in &self.turned {
            write!(out, "{}", turned.line)?;
        }
        if self.count > self.turned.len() {
            writeln!(out, "       .. and {} more", grouped((self.count - self.turned.len()) as u64))?;
        }
        // The words of each, once.
        let mut told = Vec::new();
        for turned in &self.turned {
            if told.contains(&(turned.refusal, turned.reason)) {
                continue;
            }
            told.push((turned.refusal, turned.reason));
            if turned.refusal != 0 {
                write!(out, "{}", refusal_words(turned.refusal))?;
            } else {
                writeln!(out, "Nack   {}", reason(turned.reason))?;
            }
        }
        Ok(())
    }

    fn left_over(&self, out: &mut impl Write) -> Result<(), Failure> {
        let capture = &self.capture;
        if capture.left == 0 {
            return Ok(());
        }
        let at = capture.bytes.len() - capture.left;
        let mut parts = vec![format!("the {} at offset {}", counted(capture.left, "byte"), grouped(at as u64))];
        if let Some(start) = capture.bytes.get(at..at + 4) {
            let whole = 4 + start.iter().rev().fold(0, |value, byte| value << 8 | usize::from(*byte));
            parts.push(format!("{} of the frame missing", grouped((whole - capture.left) as u64)));
        }
        Ok(labelled(out, "not shown", &parts)?)
    }
}

/// The command `show`.
pub fn show(given: &Given, names: &[String], tsv: bool, sort: bool, out: &mut impl Write) -> Result<u8, Failure> {
    let loaded = load(given, names)?;
    let Some(taken) = loaded.first() else { return Err(Failure::usage("show needs a capture")) };
    if tsv {
        table(taken, sort, out)?;
        return Ok(u8::from(!taken.is_fine()));
    }
    taken.head(out)?;
    writeln!(out)?;
    taken.sessions(sort, out)?;
    writeln!(out)?;
    taken.turned_down(out)?;
    taken.left_over(out)?;
    Ok(u8::from(!taken.is_fine()))
}

/// The sessions as lines of fields with tabs between them.
fn table(taken: &Taken, sort: bool, out: &mut impl Write) -> Result<(), Failure> {
    writeln!(
        out,
        "place\tbegin\tsender\ttarget\tsuffix\tnext_outgoing\tnext_incoming\tin_flight\tstamp\tmarks\tdurable\tfirst\tlast\tmessages\tbytes\ttime"
    )?;
    for place in taken.places(sort) {
        let s = taken.standby.session(place);
        let key = s.key.each_ref().map(|text| visible(text)).join("\t");
        let flight = s.in_flight.map_or(String::new(), |n| n.to_string());
        let number = |message: Option<&(u64, Vec<u8>)>| message.map_or(String::new(), |m| m.0.to_string());
        let (first, last) = (number(s.messages.first()), number(s.messages.last()));
        let bytes: usize = s.messages.iter().map(|m| m.1.len()).sum();
        let (stamp, marks, durable) = (visible(&s.stamp), visible(&s.marks), u8::from(s.durable));
        let time = time_of(&s.stamp).map_or(String::new(), |picos| picos.to_string());
        let (outgoing, incoming, count) = (s.next_outgoing, s.next_incoming, s.messages.len());
        writeln!(
            out,
            "{place}\t{key}\t{outgoing}\t{incoming}\t{flight}\t{stamp}\t{marks}\t{durable}\t{first}\t{last}\t{count}\t{bytes}\t{time}"
        )?;
    }
    Ok(())
}

/// The command `frames`.
pub fn frames(given: &Given, name: &str, tsv: bool, out: &mut impl Write) -> Result<u8, Failure> {
    let captures = [Capture::read(name)?];
    let mut standby = standby_for(given, &captures)?;
    let [capture] = captures;
    if tsv {
        writeln!(out, "frame\toffset\tlength\tkind\trefusal\tanswer")?;
    } else {
        writeln!(out, " frame    offset  {:46} answer", "what")?;
    }
    let (capture, turned, count) = take(&mut standby, capture, |standby, capture, i, refusal, answer| {
        if tsv {
            let frame = &capture.frames[i];
            let (at, len, kind) = (frame.at, frame.len, capture.bytes_of(frame).get(4).copied().unwrap_or(0));
            writeln!(out, "{}\t{at}\t{len}\t{kind}\t{refusal}\t{}", i + 1, answer.map_or(0, |a| a.kind))?;
        } else {
            write!(out, "{}", frame_line(standby, capture, i, refusal, answer))?;
        }
        Ok(())
    })?;
    let taken = Taken { capture, standby, turned, count };
    if !tsv {
        taken.left_over(out)?;
    }
    Ok(u8::from(!taken.is_fine()))
}
