//! Both sides on the same inputs, for a number of seconds; without our side, the Rust's answers
//! are counted alone.

use std::process::ExitCode;
use std::time::{Duration, Instant};

use crate::call::{Call, LINES, Setting};
use crate::count::Counts;
#[cfg(ours)]
use crate::differences;
use crate::differences::{FIRST, LATEST, NO_VERSIONS};
use crate::digits;
use crate::frames::{Reading, read_by_rust};
use crate::generate::{
    Player, Random, any_frame, branch_setting, cycle, key, many_setting, reading, resend, setting, wide_setting,
};
use crate::holding::{self, Holding};
use crate::imports;
#[cfg(calls)]
use crate::ours::Ours;
#[cfg(ours)]
use crate::ours::Reader;
#[cfg(ours)]
use crate::run::looked;
use crate::run::{Difference, Run};
use crate::rust::Rust;
use crate::side::Side;
use crate::wire::{self, Batch, COMMIT, change, framed};

#[derive(Default)]
struct Round {
    counts: Counts,
    frames: u64,
    scripts: u64,
    calls: u64,
    #[cfg(ours)]
    reader: Reader,
}

impl Round {
    /// A frame read and written again into an area that is long enough; if it is a good one, also into one of just its
    /// length, and into a shorter one.
    #[cfg(ours)]
    fn read_by_us(&mut self, version: u16, frame: &[u8], rust: &Reading) -> Result<(), Difference> {
        self.read_into(version, frame, rust, frame.len() + 16)?;
        let Reading::Frame(used, _) = rust else { return Ok(()) };
        self.read_into(version, frame, rust, *used as usize)?;
        let shorter = Random(self.frames).below(*used) as usize;
        self.counts.written_short(frame);
        self.read_into(version, frame, rust, shorter)
    }

    #[cfg(ours)]
    fn read_into(&mut self, version: u16, frame: &[u8], rust: &Reading, length: usize) -> Result<(), Difference> {
        let us = looked(|| self.reader.read(version, frame, length));
        let rust = differences::writing(rust, length);
        if us.as_ref() == Ok(&rust) {
            return Ok(());
        }
        let (line, rust, us) = (digits::write(frame), rust.text(), us.map_or_else(|words| words, |us| us.text()));
        let told = format!(
            "one frame in version {version}, written into {length} bytes\n{line}\nthe Rust: {rust}\nours:     {us}\n"
        );
        Err(Difference(told))
    }

    #[cfg(not(ours))]
    fn read_by_us(&mut self, _: u16, _: &[u8], _: &Reading) -> Result<(), Difference> {
        Ok(())
    }

    /// A frame in both versions.
    fn frame(&mut self, frame: &[u8]) -> Result<(), Difference> {
        self.frame_in(FIRST, frame)?;
        self.frame_in(LATEST, frame)
    }

    fn frame_in(&mut self, version: u16, frame: &[u8]) -> Result<(), Difference> {
        let rust = read_by_rust(version, frame);
        if let Reading::Frame(used, written) = &rust {
            let same = frame.get(..*used as usize) == Some(written);
            assert!(same, "the Rust writes a frame otherwise than it read it: {}", digits::write(frame));
        }
        self.counts.reading(version, frame, &rust);
        self.frames += 1;
        self.read_by_us(version, frame, &rust)
    }

    /// A frame by chance in both versions, and in a number that is none.
    fn by_chance(&mut self, random: &mut Random) -> Result<(), Difference> {
        let frame = reading(random);
        self.frame(&frame)?;
        self.frame_in(random.pick(&NO_VERSIONS), &frame)
    }

    /// Every string of `len` bytes as a body; those of three bytes, too short for a stamp, in the two versions in turn.
    fn bodies(&mut self, len: u32, end: Instant) -> Result<(), Difference> {
        for number in 0..1_u32 << (8 * len) {
            if number % 4096 == 0 && Instant::now() >= end {
                return Ok(());
            }
            let frame = framed(&number.to_le_bytes()[..len as usize]);
            if len < 3 { self.frame(&frame)? } else { self.frame_in(FIRST + (number % 2) as u16, &frame)? }
        }
        Ok(())
    }

    /// Every year, month and day of a whole cycle of the calendar, and the day 32, in a change 7; the days from 28 on also
    /// in a Bound.
    fn days(&mut self) -> Result<(), Difference> {
        for (year, month, day) in cycle() {
            let stamp = format!("{year:04}{month:02}{day:02}-23:59:60").into_bytes();
            let changes = vec![change::created_at(&stamp)];
            let batch = Batch { handle: 1, epoch: 0, commit_no: 1, part: COMMIT, changes, records: Vec::new() };
            self.frame(&wire::batch(&batch))?;
            if day >= 28 {
                self.frame(&wire::bound(1, [1, 1, 0], &stamp, b"", 0))?;
            }
        }
        Ok(())
    }

    /// Every cut and every single-byte change of a frame.
    fn around(&mut self, frame: &[u8]) -> Result<(), Difference> {
        for len in 0..frame.len() {
            self.frame(&frame[..len])?;
        }
        for at in 0..frame.len() {
            for value in 0..=255 {
                let mut changed = frame.to_vec();
                changed[at] = value;
                self.frame(&changed)?;
            }
        }
        Ok(())
    }

    /// A script made as the Rust runs it.
    fn script(&mut self, random: &mut Random) -> Result<(), Difference> {
        let setting = if random.below(4000) == 0 { wide_setting() } else { setting(random) };
        self.script_of(random, &setting)
    }

    fn script_of(&mut self, random: &mut Random, setting: &Setting) -> Result<(), Difference> {
        let length = match setting {
            _ if setting.sessions > 256 => 380,
            _ if setting.sessions > 60 => 160,
            _ if setting.bytes > 1 << 20 => 25,
            _ => 20 + random.below(100),
        };
        let mut player = Player::new(Random(random.next()), setting);
        let mut rust = Rust::make(setting).expect("within the limits");
        let mut run = Run::new(setting)?;
        let mut requests = Random(random.next());
        for _ in 0..length {
            let call = player.call(&mut rust);
            self.call(&mut run, &mut rust, &call)?;
            if setting.bytes <= 1 << 20 && requests.percent(5) {
                self.broken_row(&mut run, &mut requests, &call)?;
            }
            if setting.bytes <= 1 << 20 && requests.percent(10) {
                let call = resend(&mut requests, &mut rust);
                self.call(&mut run, &mut rust, &call)?;
            }
            if setting.bytes <= 1 << 20 && requests.percent(4) {
                self.import(&mut run, &mut rust, &mut requests)?;
            }
        }
        run.call(&mut rust, &Call::State)?;
        self.scripts += 1;
        Ok(())
    }

    /// A script over hold areas of any content.
    fn holding(&mut self, random: &mut Random) -> Result<(), Difference> {
        let setting = holding::setting(random);
        let mut player = Holding::new(Random(random.next()), &setting);
        let mut rust = Rust::make(&setting).expect("within the limits");
        let mut run = Run::new(&setting)?;
        for _ in 0..40 {
            let call = player.call(&rust);
            self.call(&mut run, &mut rust, &call)?;
        }
        run.call(&mut rust, &Call::State)?;
        self.scripts += 1;
        Ok(())
    }

    /// A row that breaks the rules, with the frame of the last call or any.
    fn broken_row(&mut self, run: &mut Run, random: &mut Random, call: &Call) -> Result<(), Difference> {
        let frame = match call {
            Call::Held(frame) | Call::Frame(frame) if random.percent(70) => frame.clone(),
            _ => any_frame(random),
        };
        if run.broken_row(random, &frame)? {
            self.counts.broken_row();
        }
        Ok(())
    }

    /// A message log under a key by chance, and the session sent whole.
    fn import(&mut self, run: &mut Run, rust: &mut Rust, random: &mut Random) -> Result<(), Difference> {
        let key = key(random);
        self.call(run, rust, &Call::Import { key: key.clone(), file: imports::file(random) })?;
        LINES.into_iter().try_for_each(|line| {
            self.call(run, rust, &Call::Whole { line, handle: 1, epoch: 0, last: 0, key: key.clone(), length: None })
        })
    }

    /// So many files, each into a small store of its own.
    pub fn imports(&mut self, random: &mut Random, files: u64) -> Result<(), Difference> {
        for _ in 0..files {
            let (bytes, messages, sessions) = (random.below(400), random.below(4), random.below(8).min(1));
            let setting = Setting { incarnation: 1, lag: 0, bytes, messages, sessions, handles: 0, hold: 0 };
            let mut rust = Rust::make(&setting).expect("within the limits");
            let mut run = Run::new(&setting)?;
            self.import(&mut run, &mut rust, random)?;
        }
        Ok(())
    }

    fn call(&mut self, run: &mut Run, rust: &mut Rust, call: &Call) -> Result<(), Difference> {
        rust.taken = None;
        let version = rust.version;
        let answered = run.call(rust, call)?;
        self.counts.call(call, &answered);
        if let Some(way) = run.wrote() {
            self.counts.word(way);
        }
        if !matches!(call, Call::Set(_)) {
            self.counts.version(version, rust.version);
        }
        if let Some(taken) = &rust.taken {
            self.counts.taken(taken);
        }
        if rust.replica.pending().len() == 64 {
            self.counts.full_of_pending();
        }
        self.calls += 1;
        Ok(())
    }

    /// Stores that can't be made.
    fn making(&mut self) -> Result<(), Difference> {
        for (bytes, messages) in
            [(33_554_433, 1), (1, 65_537), (u64::MAX, 0), (0, u64::MAX), (33_554_432, 1), (0, 65_536)]
        {
            let setting = Setting { incarnation: 1, lag: 0, bytes, messages, sessions: 1, handles: 0, hold: 0 };
            let made = Rust::make(&setting).is_some();
            self.counts.made(made);
            made_by_us(&setting, made)?;
        }
        Ok(())
    }
}

#[cfg(calls)]
fn made_by_us(setting: &Setting, made: bool) -> Result<(), Difference> {
    let us = looked(|| Ours::make(setting).is_some());
    if us == Ok(made) {
        Ok(())
    } else {
        Err(Difference(format!("making\n{setting}\nthe Rust: {made}\nours: {us:?}\n")))
    }
}

#[cfg(not(calls))]
fn made_by_us(_: &Setting, _: bool) -> Result<(), Difference> {
    Ok(())
}

/// The days of a cycle, a hundred scripts, three with commits on many handles, five with several batches on the branch line, one over
/// many sessions and a hundred over hold areas of any content, which always have their time; then all inputs, in turn, until the time is over.
fn inputs(round: &mut Round, seconds: u64, seed: u64) -> Result<(), Difference> {
    let mut random = Random(seed);
    round.days()?;
    (0..100).try_for_each(|_| round.script(&mut random))?;
    (0..3).try_for_each(|_| round.script_of(&mut random, &many_setting()))?;
    (0..5).try_for_each(|_| round.script_of(&mut random, &branch_setting()))?;
    round.script_of(&mut random, &wide_setting())?;
    (0..100).try_for_each(|_| round.holding(&mut random))?;
    let end = Instant::now() + Duration::from_secs(seconds);
    round.making()?;
    (0..=2).try_for_each(|len| round.bodies(len, end))?;
    if seconds >= 60 {
        round.bodies(3, end)?;
    }
    while Instant::now() < end {
        (0..2000).try_for_each(|_| round.by_chance(&mut random))?;
        round.around(&any_frame(&mut random))?;
        (0..100).try_for_each(|_| round.script(&mut random))?;
        (0..20).try_for_each(|_| round.holding(&mut random))?;
    }
    Ok(())
}

/// So many message logs by chance, most of them damaged.
pub fn compare_imports(files: u64, seed: u64) -> ExitCode {
    let mut round = Round::default();
    let result = round.imports(&mut Random(seed), files);
    print!("{}", round.counts.table());
    let missing = round.counts.missing(["ok", "R 5", "R 20", "R 28", "R 29", "R 30"]);
    println!("seed {seed}: {files} files, answers not reached: {}", missing.join(", "));
    match result {
        Err(Difference(told)) => println!("DIFFERENCE in {told}"),
        Ok(()) if !missing.is_empty() => println!("too few files for every answer"),
        Ok(()) if cfg!(calls) => {
            println!("no difference");
            return ExitCode::SUCCESS;
        }
        Ok(()) => println!("nothing compared: name the static libraries in WIZHDULET_LIB"),
    }
    ExitCode::FAILURE
}

pub fn compare(seconds: u64, seed: u64) -> ExitCode {
    let mut round = Round::default();
    let result = inputs(&mut round, seconds, seed);
    print!("{}", round.counts.table());
    println!("answers not reached: {}", round.counts.not_reached().join(", "));
    let Round { frames, scripts, calls, .. } = round;
    println!("seed {seed}: {frames} frames read, {scripts} scripts of {calls} calls");
    match result {
        Err(Difference(told)) => {
            println!("DIFFERENCE in {told}");
            ExitCode::FAILURE
        }
        Ok(()) if cfg!(calls) => {
            println!("no difference");
            ExitCode::SUCCESS
        }
        Ok(()) if cfg!(ours) => {
            println!("no difference in frames, summaries, sendings and queues: the library has no entry points");
            ExitCode::SUCCESS
        }
        Ok(()) => {
            println!("nothing compared: our side is absent (name the static library in WIZHDULET_LIB)");
            ExitCode::from(2)
        }
    }
}
