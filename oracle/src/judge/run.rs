//! A script on both sides, call by call; without our side, on the Rust's alone.

#[cfg(ours)]
use std::any::Any;
#[cfg(ours)]
use std::panic::{AssertUnwindSafe, catch_unwind};
#[cfg(calls)]
use std::panic::{set_hook, take_hook};
#[cfg(calls)]
use std::time::{Duration, Instant};

use crate::call::{Call, Setting};
#[cfg(calls)]
use crate::digits;
use crate::generate::Random;
#[cfg(calls)]
use crate::generate::broken_row;
#[cfg(calls)]
use crate::lowest;
#[cfg(ours)]
use crate::ours::Ours;
use crate::rust::Rust;
#[cfg(calls)]
use crate::shadow::Shadow;
#[cfg(ours)]
use crate::side::Side;
#[cfg(calls)]
use crate::side::State;
use crate::side::answer;

/// A difference, told as a reader would run it again.
pub struct Difference(pub String);

/// What our side gives, or the words of a look at it that failed.
#[cfg(ours)]
pub fn looked<T>(ask: impl FnOnce() -> T) -> Result<T, String> {
    let words = |panic: Box<dyn Any + Send>| match panic.downcast::<String>() {
        Ok(words) => *words,
        Err(panic) => panic.downcast_ref::<&str>().map_or_else(|| "see above".into(), |words| words.to_string()),
    };
    catch_unwind(AssertUnwindSafe(ask)).map_err(words)
}

/// Our side, and a copy of the areas lent to it.
#[cfg(calls)]
struct Watched {
    us: Ours,
    shadow: Shadow,
    /// How many calls there were.
    turn: u64,
}

/// What isn't alike, or what isn't as it must be in our areas.
#[cfg(calls)]
struct Unlike(String);

#[cfg(calls)]
impl Unlike {
    fn answers(rust: &str, us: &str) -> Self {
        Self(format!("the Rust: {rust}\nours:     {us}"))
    }

    fn areas(what: String) -> Self {
        Self(format!("ours:     {what}"))
    }
}

#[cfg(calls)]
impl Watched {
    fn new(setting: &Setting) -> Result<Self, Unlike> {
        let us = Ours::make(setting).expect("the Rust's side was made");
        let mut shadow = Shadow::new(setting, us.size());
        shadow.look(us.areas(), &Call::State, "", None).map_err(Unlike::areas)?;
        Ok(Self { us, shadow, turn: 0 })
    }

    /// Asks the Rust, and our side the same: the Rust's answer, or what isn't alike.
    fn call(&mut self, rust: &mut Rust, call: &Call) -> Result<String, Unlike> {
        let held = match call {
            Call::Held(bytes) | Call::Frame(bytes) => rust.will_hold(bytes),
            _ => None,
        };
        self.us.foreign_words(self.turn);
        self.shadow.lend(self.us.areas());
        self.turn += 1;
        let answered = answer(rust, call);
        let us = looked(|| answer(&mut self.us, call)).unwrap_or_else(|words| words);
        if us != answered {
            return Err(Unlike::answers(&answered, &us));
        }
        let state = rust.state();
        let us = looked(|| self.us.state());
        if us.as_ref() != Ok(&state) {
            let lines = |state: &State| format!("version {}, {}", state.version, state.lines());
            return Err(Unlike::answers(&lines(&state), &us.map_or_else(|words| words, |us| lines(&us))));
        }
        self.lowest(call, &answered, &state)?;
        let look = looked(|| self.shadow.look(self.us.areas(), call, &answered, held));
        look.and_then(|look| look).map_err(Unlike::areas)?;
        Ok(answered)
    }
}

#[cfg(calls)]
impl Watched {
    /// What the call handed up, beside the Rust's session after it.
    fn lowest(&self, call: &Call, answered: &str, state: &State) -> Result<(), Unlike> {
        let rust = match call {
            Call::Held(frame) | Call::Frame(frame) => {
                let answer = digits::read(answered.as_bytes()).ok_or(0);
                lowest::handed_up(frame, &answer, state)
            }
            Call::Flush(_) | Call::Drop(_) | Call::Promote | Call::Unchecked => None,
            Call::Import { .. } if answered.starts_with("R ") => None,
            Call::Import { key, .. } => lowest::of(key, state),
            _ => return Ok(()),
        };
        if self.us.lowest == rust {
            return Ok(());
        }
        let told = |lowest| format!("the lowest message on hand {}", lowest::text(lowest));
        Err(Unlike::answers(&told(rust), &told(self.us.lowest)))
    }
}

/// Both sides of a script.
#[cfg(calls)]
pub struct Run {
    setting: Setting,
    calls: Vec<Call>,
    us: Watched,
}

#[cfg(calls)]
impl Run {
    pub fn new(setting: &Setting) -> Result<Self, Difference> {
        let new = |us| Self { setting: setting.clone(), calls: Vec::new(), us };
        Watched::new(setting).map(new).map_err(|unlike| difference(setting, &[], &unlike))
    }

    pub fn call(&mut self, rust: &mut Rust, call: &Call) -> Result<String, Difference> {
        self.calls.push(call.clone());
        self.us.call(rust, call).map_err(|unlike| difference(&self.setting, &self.calls, &unlike))
    }

    /// What the last call did with the words of its handle's hold area.
    pub fn wrote(&mut self) -> Option<&'static str> {
        self.us.shadow.wrote.take()
    }

    /// A row that breaks the rules, handed to each of the six calls of our side with this frame: whether one can be made.
    pub fn broken_row(&mut self, random: &mut Random, frame: &[u8]) -> Result<bool, Difference> {
        let us = &mut self.us.us;
        let Some((row, spoiling)) = broken_row(random, &us.areas().row, us.areas().words[0]) else { return Ok(false) };
        let told = |words| {
            let calls: String = self.calls.iter().map(|call| format!("{call}\n")).collect();
            Difference(format!("a row that breaks the rules, after\n{}\n{calls}ours:     {words}\n", self.setting))
        };
        looked(|| us.refuses(&row, spoiling, frame)).map(|()| true).map_err(told)
    }
}

/// How long a script is shortened: one over many sessions takes long.
#[cfg(calls)]
const SHORTENING: Duration = Duration::from_secs(20);

/// The script, with every call that doesn't matter left out, as far as the time goes.
#[cfg(calls)]
fn difference(setting: &Setting, calls: &[Call], Unlike(told): &Unlike) -> Difference {
    let hook = take_hook();
    set_hook(Box::new(|_| {}));
    let mut calls = calls.to_vec();
    let end = Instant::now() + SHORTENING;
    while let Some(fewer) = without_one_in_turn(setting, &calls, end) {
        calls = fewer;
    }
    set_hook(hook);
    let script: String = calls.iter().map(|call| format!("{call}\n")).collect();
    Difference(format!("a script\n{setting}\n{script}first seen as\n{told}\n"))
}

/// The calls without those that can go one by one until then, if any can and the sides still differ.
#[cfg(calls)]
fn without_one_in_turn(setting: &Setting, calls: &[Call], end: Instant) -> Option<Vec<Call>> {
    let mut fewer = calls.to_vec();
    for at in (0..calls.len()).rev().take_while(|_| Instant::now() < end) {
        let gone = fewer.remove(at);
        if !differ(setting, &fewer) {
            fewer.insert(at, gone);
        }
    }
    (fewer.len() < calls.len()).then_some(fewer)
}

/// Whether the sides answer a script differently, end it in different states, or ours writes what it may not.
#[cfg(calls)]
fn differ(setting: &Setting, calls: &[Call]) -> bool {
    let Some(mut rust) = Rust::make(setting) else { return false };
    let Ok(mut us) = Watched::new(setting) else { return true };
    calls.iter().chain([&Call::State]).any(|call| us.call(&mut rust, call).is_err())
}

/// A library without the entry points: a sending, a summary, a queue and the sessions of a state, over areas that
/// the driver fills from the Rust's state.
#[cfg(all(ours, not(calls)))]
pub struct Run {
    setting: Setting,
}

#[cfg(all(ours, not(calls)))]
impl Run {
    pub fn new(setting: &Setting) -> Result<Self, Difference> {
        Ok(Self { setting: setting.clone() })
    }

    pub fn call(&mut self, state: &mut Rust, call: &Call) -> Result<String, Difference> {
        let rust = answer(state, call);
        let reads = matches!(call, Call::State | Call::Summary { .. } | Call::Whole { .. } | Call::Queue { .. } | Call::Resend { .. });
        if !reads {
            return Ok(rust);
        }
        let sessions = state.state().sessions;
        let mut us = Ours::filled(&self.setting, &sessions, state.version).expect("the Rust's side was made");
        let (rust, answered) = match call {
            Call::State => (format!("{sessions:?}"), format!("{:?}", us.state().sessions)),
            _ => (rust, answer(&mut us, call)),
        };
        if rust == answered {
            return Ok(rust);
        }
        let told = format!("a call\n{}\n{sessions:?}\n{call}\nthe Rust: {rust}\nours:     {answered}\n", self.setting);
        Err(Difference(told))
    }
}

/// Without the entry points there is no row.
#[cfg(not(calls))]
impl Run {
    pub fn broken_row(&mut self, _: &mut Random, _: &[u8]) -> Result<bool, Difference> {
        Ok(false)
    }

    pub fn wrote(&mut self) -> Option<&'static str> {
        None
    }
}

#[cfg(not(ours))]
pub struct Run;

#[cfg(not(ours))]
impl Run {
    pub fn new(_: &Setting) -> Result<Self, Difference> {
        Ok(Self)
    }

    pub fn call(&mut self, rust: &mut Rust, call: &Call) -> Result<String, Difference> {
        Ok(answer(rust, call))
    }
}
