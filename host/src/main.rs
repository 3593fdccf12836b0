//! The standby (docs/STANDBY.md) and the console (docs/CONSOLE.md) over the proved library.
mod audit;
mod capture;
mod check;
mod choose;
mod keep;
mod kept;
mod library;
mod messages;
mod promote;
mod resend;
mod serve;
mod show;
mod standby;
mod wire;
mod words;

use promote::Expected;
use standby::Given;
use std::io::{BufWriter, ErrorKind, Write};
use std::process::ExitCode;
use words::{Failure, plain};

const USAGE: &str = "wizhdulet: a standby copy of FIX sessions, and what it holds

  wizhdulet standby ADDRESS COPY    keeps COPY, the file of what an active sends
  wizhdulet status  COPY            whether a standby runs on it, and how it is
  wizhdulet promote COPY            takes over: its sessions to COPY.promoted
  wizhdulet compact COPY            the same sessions in few frames
  wizhdulet send    COPY ADDRESS    fills a new standby, or a gateway

  wizhdulet show    SOURCE..        its sessions, and what was refused
  wizhdulet frames  SOURCE          each frame with its answer
  wizhdulet check   SOURCE SOURCE   are two copies the same? what differs first
  wizhdulet check   --self SOURCE   is each stored message what it says it is?
  wizhdulet check   SOURCE --log FILE --key KEY    against the active's own log
  wizhdulet audit   ACTIVE ANSWERS  did the standby in the field answer rightly?
  wizhdulet promote SOURCE..        rehearsal: the numbers after taking over
  wizhdulet choose  SOURCE..        which of up to five copies takes over
  wizhdulet resend  SOURCE --key KEY RANGE..       what answers ResendRequests
  wizhdulet explain NUMBER          a refusal in words, and what to do
  wizhdulet version

ADDRESS: HOST:PORT, or PORT for this machine alone. SOURCE: a COPY, or a capture
of the active's direction of the line, raw or in hexadecimal, cut short
anywhere; - is standard input. Several: one line after the other.
KEY: BEGIN,SENDER,TARGET or with ,SUFFIX. RANGE: FIRST-LAST, 0 the end; or one.
Options: --sessions 16 --handles (16 x sessions) --bytes 1048576 --messages 1024
--lag 0 (those that a COPY is kept with) --incarnation (that of the last run, or
of the first Checked) --tsv; of show: --sort, by their stamps; of promote and
send: --unchecked; of promote: --rehearse --expect SENDER,TARGET=NUMBER
Status: 0 fine; 1 refused, cut short, different or not checked; 2 wrong usage or
input; 3 the output or the COPY can't be written.";

/// The arguments: words, limits, and what else is said.
#[derive(Default)]
struct Arguments {
    words: Vec<String>,
    given: Given,
    tsv: bool,
    sort: bool,
    unchecked: bool,
    rehearse: bool,
    itself: bool,
    log: Option<String>,
    key: Option<[Vec<u8>; 4]>,
    expected: Vec<Expected>,
}

fn number<T: TryFrom<u64>>(option: &str, value: Option<String>) -> Result<T, Failure> {
    let number = value.and_then(|text| text.replace(',', "").parse::<u64>().ok()).and_then(|n| T::try_from(n).ok());
    number.ok_or_else(|| Failure::usage(format!("{option} needs a number")))
}

fn arguments(mut given: impl Iterator<Item = String>) -> Result<Arguments, Failure> {
    let mut read = Arguments::default();
    while let Some(word) = given.next() {
        let limits = &mut read.given;
        match word.as_str() {
            "--sessions" => limits.sessions = Some(number(&word, given.next())?),
            "--handles" => limits.handles = Some(number(&word, given.next())?),
            "--bytes" => limits.bytes = Some(number(&word, given.next())?),
            "--messages" => limits.messages = Some(number(&word, given.next())?),
            "--lag" => limits.lag = Some(number(&word, given.next())?),
            "--incarnation" => limits.incarnation = Some(number(&word, given.next())?),
            "--rehearse" => read.rehearse = true,
            "--self" => read.itself = true,
            "--log" => read.log = Some(given.next().ok_or_else(|| Failure::usage("--log needs a file"))?),
            "--key" => {
                let key = given.next().as_deref().and_then(words::read_key);
                read.key = Some(key.ok_or_else(|| Failure::usage("--key needs BEGIN,SENDER,TARGET or with ,SUFFIX"))?);
            }
            "--tsv" => read.tsv = true,
            "--sort" => read.sort = true,
            "--unchecked" => read.unchecked = true,
            "--expect" => {
                let expected = given.next().as_deref().and_then(Expected::read);
                read.expected.push(expected.ok_or_else(|| Failure::usage("--expect needs SENDER,TARGET=NUMBER"))?);
            }
            option if option.starts_with("--") => return Err(Failure::usage(format!("no option {option}"))),
            _ => read.words.push(word),
        }
    }
    Ok(read)
}

fn explain(text: &str, out: &mut impl Write) -> Result<u8, Failure> {
    let number = text.trim_start_matches("R ").parse::<u8>().ok();
    let words = number.map(show::refusal_words).filter(|words| words.starts_with("R "));
    let words = words.ok_or_else(|| Failure::usage(format!("no refusal has the number {text}")))?;
    write!(out, "{words}")?;
    Ok(0)
}

fn run(out: &mut impl Write) -> Result<u8, Failure> {
    let version = unsafe { library::wz_version() };
    if version != library::VERSION {
        return Err(Failure::usage(format!("the library's version is {}.{}", version >> 16, version & 0xffff)));
    }
    let read = arguments(std::env::args().skip(1))?;
    let (words, given): (Vec<&str>, _) = (read.words.iter().map(String::as_str).collect(), &read.given);
    match words.as_slice() {
        ["standby", ..] | ["compact", ..] if given.incarnation.is_some() => {
            Err(Failure::usage("the incarnation is another in each run: none can be given"))
        }
        ["standby", address, name] => serve::standby(given, address, name),
        ["status", name] => keep::status(given, name, out),
        ["compact", name] => keep::compact(given, name, out),
        ["send", name, address] => keep::send(given, name, address, read.unchecked, out),
        ["promote", name] if !read.rehearse && kept::State::of(name)?.is_some() => {
            keep::promote(given, name, read.unchecked, &read.expected, out)
        }
        ["promote", _, ..] => promote::rehearse(given, &read.words[1..], read.unchecked, &read.expected, out),
        _ => look(&read, &words, out),
    }
}

/// The commands that only read.
fn look(read: &Arguments, words: &[&str], out: &mut impl Write) -> Result<u8, Failure> {
    let (given, names) = (&read.given, read.words.get(1..).unwrap_or(&[]));
    match words {
        ["show", _, ..] => show::show(given, names, read.tsv, read.sort, out),
        ["frames", name] => show::frames(given, name, read.tsv, out),
        ["check", _] if read.itself => messages::check_self(given, names, out),
        ["check", _] if read.log.is_some() && read.key.is_some() => {
            let (log, key) = read.log.as_deref().zip(read.key.as_ref()).expect("both are there");
            messages::check_log(given, names, log, key, out)
        }
        ["check", a, b] => check::check(given, [a, b], out),
        ["audit", asked, answered] => audit::audit(given, asked, answered, out),
        ["choose", _, ..] => choose::choose(given, names, out),
        ["resend", name, _, ..] if let Some(key) = &read.key => {
            resend::resend(given, name, key, &names[1..], read.tsv, out)
        }
        ["explain", number] => explain(number, out),
        ["version"] => {
            writeln!(out, "wizhdulet {}", include_str!("../../VERSION").trim())?;
            Ok(0)
        }
        _ => Err(Failure::usage(USAGE)),
    }
}

fn main() -> ExitCode {
    let mut out = BufWriter::new(std::io::stdout().lock());
    let done = run(&mut out).and_then(|status| Ok(out.flush().map(|()| status)?));
    match done {
        Ok(status) => ExitCode::from(status),
        Err(Failure::Usage(text)) => {
            let _ = out.flush();
            eprintln!("{}", if text == USAGE { text } else { format!("wizhdulet: {text}") });
            ExitCode::from(2)
        }
        Err(Failure::Refused(text)) => {
            let _ = out.flush();
            eprintln!("wizhdulet: {text}");
            ExitCode::from(1)
        }
        // Nobody reads any more: as SIGPIPE would end it.
        Err(Failure::Output(error)) if error.kind() == ErrorKind::BrokenPipe => ExitCode::from(141),
        Err(Failure::Output(error)) => {
            eprintln!("wizhdulet: standard output: {}", plain(&error));
            ExitCode::from(3)
        }
    }
}
