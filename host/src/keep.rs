//! What is done with a copy on disk: told, taken over, written anew, sent.
use crate::kept::{Kept, State, Stream, holder, read, replace, replay, send_sessions, write_whole};
use crate::promote::{Expected, allowed, table, taken_over};
use crate::show::frame_words;
use crate::standby::{First, Given, Limits, Standby, first_frame, number};
use crate::wire;
use crate::words::{Failure, counted, failed, grouped, labelled, plain, reason, visible};
use std::fs::File;
use std::io::Write;
use std::net::TcpStream;
use std::time::Duration;

/// Since when a file hasn't been written.
fn silence(file: &File) -> String {
    let since = file.metadata().and_then(|meta| meta.modified()).ok();
    let for_ = since.and_then(|since| since.elapsed().ok()).unwrap_or_default();
    format!("last written {} s ago", grouped(for_.as_secs()))
}

/// The command `status`: whether a standby runs on a copy, and what the copy is.
pub fn status(given: &Given, name: &str, out: &mut impl Write) -> Result<u8, Failure> {
    let (standby, all, state) = read(given, name)?;
    let file = File::open(name).map_err(failed(name))?;
    let end = match all.left.len() {
        0 => "ends with a whole frame".to_string(),
        n => format!("then {} of a frame", counted(n, "byte")),
    };
    let frames = format!("{}; {end}", counted(all.frames as usize, "frame"));
    labelled(out, name, &[counted(all.bytes as usize + all.left.len(), "byte"), frames, silence(&file)])?;
    let pid = holder(&file);
    match (&state, pid) {
        (Some(state), Some(pid)) => {
            labelled(out, "standby", &[format!("RUNNING, process {pid}"), format!("on {}", state.address)])?;
            labelled(out, "line", std::slice::from_ref(&state.line))?;
        }
        (None, Some(pid)) => labelled(out, "standby", &[format!("none has run; in use by process {pid}")])?,
        _ => labelled(out, "standby", &["NOT RUNNING".to_string()])?,
    }
    let checked = standby.counters.checked != 0;
    let words = if checked { "checked in its last run" } else { "NOT CHECKED in its last run" };
    let (sessions, epoch) = (counted(standby.sessions(), "session"), standby.counters.epoch);
    labelled(out, "copy", &[sessions, format!("epoch {epoch}"), words.to_string()])?;
    let (shape, lag) = (standby.settings.shape, standby.settings.max_lag);
    let limits = [
        counted(shape.places as usize, "session"),
        counted(standby.row.len(), "handle"),
        format!("C {}", grouped(shape.bytes.into())),
        format!("M {}", grouped(shape.messages.into())),
        format!("accepts lag {lag}"),
    ];
    labelled(out, "limits", &limits)?;
    Ok(u8::from(pid.is_none() || !checked))
}

/// The command `promote` of a copy that a standby has kept: the sessions taken over, sent whole, in NAME.promoted.
pub fn promote(
    given: &Given,
    name: &str,
    unchecked: bool,
    expected: &[Expected],
    out: &mut impl Write,
) -> Result<u8, Failure> {
    let mut kept = Kept::lock(name, false)?;
    let Some(state) = State::of(name)? else { return Err(Failure::usage(format!("{name}.state: No such file"))) };
    let other = |option| Failure::usage(format!("{name}: kept with {option}, and so taken over"));
    given.agrees_with(&state.limits).map_err(other)?;
    let target = format!("{name}.promoted");
    if std::fs::exists(&target).map_err(failed(&target))? {
        return Err(Failure::usage(format!("{target}: is there already: this copy has been taken over")));
    }
    let (mut standby, _) = replay(&state.limits, name, &mut kept.file)?;
    let checked = standby.counters.checked != 0;
    let before = taken_over(&mut standby, name, unchecked)?;
    State { line: "none".to_string(), address: "none".to_string(), ..state }.write(&target)?;
    replace(&target, |file| write_whole(&standby, file).map_err(failed(&format!("{target}.new"))))?;
    labelled(out, "PROMOTED", &[format!("written to {target}"), allowed(checked).to_string()])?;
    table(&before, &standby, expected, out)?;
    Ok(0)
}

/// Whether a copy has what another has.
fn is_same(a: &Standby, b: &Standby) -> bool {
    let mut places = 0..a.sessions();
    a.counters.epoch == b.counters.epoch
        && a.sessions() == b.sessions()
        && places.all(|place| a.session(place) == b.session(place))
}

/// The command `compact`: the same copy in as few frames as there may be, also for other limits.
pub fn compact(given: &Given, name: &str, out: &mut impl Write) -> Result<u8, Failure> {
    let mut kept = Kept::lock(name, false)?;
    let state = State::of(name)?;
    let old = state.as_ref().map_or(given.over(None), |state| state.limits);
    let (standby, all) = replay(&old, name, &mut kept.file)?;
    let limits = Limits { incarnation: Some(standby.settings.incarnation), ..given.over(Some(old)) };
    // It stays locked until what stands beside it is written too.
    let (_locked, now) = replace(name, |file| {
        let written = write_whole(&standby, file).map_err(failed(&format!("{name}.new")))?;
        let (new, _) = replay(&limits, name, file)?;
        if !is_same(&standby, &new) {
            return Err(Failure::refused(format!(
                "{name}: the sessions don't fit in these limits; nothing is changed"
            )));
        }
        Ok(written)
    })?;
    if let Some(state) = state {
        State { limits, ..state }.write(name)?;
    }
    let size = |(bytes, frames): (u64, u64)| {
        format!("{} in {}", counted(bytes as usize, "byte"), counted(frames as usize, "frame"))
    };
    labelled(out, name, &[format!("before {}", size((kept.len, all.frames))), format!("now {}", size(now))])?;
    Ok(0)
}

/// Sends a frame as an active; the answer, which must be of a kind.
fn ask(line: (&mut TcpStream, &mut Stream), address: &str, frame: &[u8], kind: u8) -> Result<Vec<u8>, Failure> {
    let (socket, stream) = line;
    let refused = |why: String| Failure::refused(format!("{address}: {}: {why}", frame_words(frame)));
    socket.write_all(frame).map_err(|error| refused(plain(&error)))?;
    let len = loop {
        if let First::Frame(len) = first_frame(stream.left()) {
            break len;
        }
        if stream.fill(socket).map_err(|error| refused(plain(&error)))? == 0 {
            return Err(refused("the other side has ended the line".to_string()));
        }
    };
    let answer = stream.left()[..len].to_vec();
    stream.take(len);
    if answer[4] == kind {
        return Ok(answer);
    }
    let why = if answer[4] == wire::NACK { reason(answer[9]) } else { "" };
    Err(refused(format!("answered with {} {why}", frame_words(&answer))))
}

/// The command `send`: plays an active that holds what a copy has.
pub fn send(given: &Given, name: &str, address: &str, unchecked: bool, out: &mut impl Write) -> Result<u8, Failure> {
    let (standby, all, _) = read(given, name)?;
    if standby.counters.checked == 0 && !unchecked {
        return Err(Failure::refused(format!(
            "{name}: NOT CHECKED since this standby started:\nsessions may be missing. If you know that the copy is whole: --unchecked"
        )));
    }
    let mut socket = TcpStream::connect(address).map_err(failed(address))?;
    socket.set_nodelay(true).map_err(failed(address))?;
    socket.set_read_timeout(Some(Duration::from_secs(60))).map_err(failed(address))?;
    let mut stream = Stream::default();
    let mut ask = |frame: &[u8], kind| ask((&mut socket, &mut stream), address, frame, kind);
    let (epoch, version) = (standby.counters.epoch, standby.lowest_version());
    let welcome = ask(&wire::hello(version, epoch, "wizhdulet"), wire::WELCOME)?;
    let seen = number(&mut &welcome[5..], 8);
    if seen != epoch {
        return Err(Failure::refused(format!("{address}: epoch {seen} has been there, and the copy has {epoch}")));
    }
    send_sessions(&standby, &mut ask)?;
    ask(&wire::checked(1, epoch, wire::incarnation_of(&welcome)), wire::ACK)?;
    let sessions = format!("{} to {address}", counted(standby.sessions(), "session"));
    let (from, checked) = (format!("the copy of {}", visible(&all.node)), format!("epoch {epoch}, checked there"));
    labelled(out, "SENT", &[sessions, from, checked])?;
    Ok(0)
}
