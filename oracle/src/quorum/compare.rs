//! Both sides on the same calls: the answers, the figures of all handles after each call, that a refusal changes no
//! word and that no word past the area changes.

use std::collections::BTreeMap;
use std::process::ExitCode;

use crate::history::History;
use crate::ours::{self, Ours};
use crate::splitmix::Chance;
use crate::{Call, Side};

/// The answers that must come, each call with its ways.
const WAYS: [&str; 24] = [
    "make ok",
    "make 25",
    "make 37",
    "bind new",
    "bind again",
    "bind deposed",
    "bind 25",
    "bind 37",
    "sent ok",
    "sent 25",
    "sent 37",
    "sent 38",
    "ack newer",
    "ack older",
    "ack deposed",
    "ack 25",
    "ack 37",
    "ack 38",
    "stale ok",
    "stale 25",
    "stale 37",
    "figure",
    "figure 25",
    "figure 37",
];

struct Judge {
    chance: Chance,
    calls: u64,
    fault: u64,
    met: BTreeMap<String, u64>,
    differences: Vec<String>,
}

impl Judge {
    fn meet(&mut self, way: &str) {
        *self.met.entry(way.to_string()).or_default() += 1;
    }

    fn differ(&mut self, what: String) {
        if self.differences.len() < 10 {
            println!("difference: {what}");
        }
        self.differences.push(what);
    }

    /// A fault between our side and the comparison, which must be found.
    fn spoil(&mut self, refused: u8, figure: u64, words: &mut [u64]) -> (u8, u64) {
        match self.fault {
            2 if refused == 38 => (37, figure),
            3 if refused == 37 => (38, figure),
            4 if refused == 0 && figure == 3 => (0, 2),
            5 if refused != 0 && self.calls % 64 == 0 => {
                words[300] ^= 1;
                (refused, figure)
            }
            6 if self.calls % 512 == 0 => {
                words[ours::WORDS] = 0;
                (refused, figure)
            }
            7 if refused == 25 => (0, figure),
            _ => (refused, figure),
        }
    }

    fn one(&mut self, ours: &mut Ours, history: &mut History, call: Call) {
        let way = self.way(history, call);
        let before = ours.words.clone();
        let expected = history.call(call).err().unwrap_or(0);
        let said = ours::call(&mut ours.words, call);
        let (said, _) = self.spoil(said, 0, &mut ours.words);
        self.calls += 1;
        self.meet(&if expected == 0 { way } else { format!("{} {expected}", name(call)) });
        if said != expected {
            self.differ(format!("{call:?}: we say {said}, the history {expected}"));
        }
        if said != 0 && ours.words != before {
            self.differ(format!("{call:?}: refused, and a word changed"));
        }
        if !ours::is_untouched(&ours.words) {
            self.differ(format!("{call:?}: a word past the area changed"));
        }
    }

    /// How a call goes that isn't refused.
    fn way(&self, history: &History, call: Call) -> String {
        let deposed = history.is_deposed();
        let kind = match call {
            Call::Bind(handle) if !history.is_bound(handle) => "bind new",
            Call::Bind(_) if deposed => "bind deposed",
            Call::Bind(_) => "bind again",
            Call::Sent(..) => "sent ok",
            Call::Ack(..) if deposed => "ack deposed",
            Call::Ack(member, handle, number) if history.has_acknowledged(member, handle, number) => "ack older",
            Call::Ack(..) => "ack newer",
            Call::Stale(_) => "stale ok",
        };
        kind.to_string()
    }

    fn figures(&mut self, ours: &mut Ours, history: &History, handles: &[u32]) {
        for handle in handles {
            let expected = history.figure(*handle);
            let (refusal, number) = ours::figure(&ours.words, *handle);
            let (refusal, number) = self.spoil(refusal, number, &mut ours.words);
            self.calls += 1;
            self.meet(if expected.is_ok() { "figure" } else { "figure 37" });
            let said = if refusal == 0 { Ok(number) } else { Err(refusal) };
            if said != expected || (refusal != 0 && number != 0) {
                self.differ(format!("figure {handle}: we say {said:?}, the history {expected:?}"));
            }
        }
    }

    /// A call by chance, mostly near the border of what is accepted.
    fn pick(&mut self, history: &History, n: u64, handles: &[u32], deposing: bool) -> Call {
        let handle = self.chance.of(handles);
        let last = history.sent(handle).last().copied().unwrap_or(0);
        let member = self.chance.below(n + u64::from(self.chance.0 % 8 == 0)) as usize;
        if !history.is_bound(handle) && self.chance.below(3) == 0 {
            return Call::Bind(handle);
        }
        match self.chance.below(100) {
            40..=93 if last == 0 && self.chance.below(4) > 0 => Call::Sent(handle, 1),
            0..=2 if deposing => Call::Stale(member),
            0..=3 => Call::Bind(handle),
            4..=39 => Call::Sent(handle, last.wrapping_add(1)),
            40..=43 => Call::Sent(handle, self.chance.of(&[0, last, last.wrapping_add(2), u64::MAX])),
            44..=93 => Call::Ack(member, handle, self.chance.below(last.saturating_add(1)) + 1),
            94..=97 => Call::Ack(member, handle, self.chance.of(&[0, last.wrapping_add(1), u64::MAX])),
            98 => Call::Stale(n as usize + self.chance.below(2) as usize),
            _ if deposing => Call::Stale(member),
            _ => Call::Bind(handle),
        }
    }

    /// One active from making on.
    fn run(&mut self, n: u64, k: u64, handles: &[u32], steps: u64) {
        let mut ours = Ours { words: ours::lent() };
        let made = ours::make(&mut ours.words, n, k);
        let Ok(mut history) = History::make(n, k) else { return };
        self.calls += 1;
        self.meet("make ok");
        if made != 0 || !ours::is_untouched(&ours.words) {
            self.differ(format!("make {n} {k}: we say {made}"));
        }
        for step in 0..steps {
            let call = self.pick(&history, n, handles, step * 3 > steps * 2);
            self.one(&mut ours, &mut history, call);
            self.figures(&mut ours, &history, &handles[..handles.len().min(6)]);
        }
        self.figures(&mut ours, &history, handles);
        self.broken(&ours.words, n, handles);
    }

    /// All handles that there is room for, then one more, then work on some of them.
    fn many(&mut self, n: u64, k: u64) {
        let stride = self.chance.of(&[1, 3, 256, 257, 1 << 20]);
        let first = self.chance.next() as u32;
        let handles: Vec<u32> = (0..258).map(|i: u32| first.wrapping_add(i.wrapping_mul(stride))).collect();
        let mut ours = Ours { words: ours::lent() };
        ours::make(&mut ours.words, n, k);
        let Ok(mut history) = History::make(n, k) else { return };
        for handle in &handles {
            self.one(&mut ours, &mut history, Call::Bind(*handle));
        }
        for _ in 0..200 {
            let call = self.pick(&history, n, &handles[250..], false);
            self.one(&mut ours, &mut history, call);
        }
        self.figures(&mut ours, &history, &handles);
    }

    /// States handed in with an n, a k or a count outside theirs, and short areas: 25, and all as it was.
    fn broken(&mut self, words: &[u64], n: u64, handles: &[u32]) {
        let handle = self.chance.of(handles);
        let calls = [Call::Bind(handle), Call::Sent(handle, 1), Call::Ack(9, handle, 0), Call::Stale(9)];
        let (at, value) =
            self.chance.of(&[(0, 0), (0, 6), (0, u64::MAX), (1, 0), (1, n + 1), (3, 257), (3, u64::MAX), (4, 0)]);
        let mut area = words.to_vec();
        if at == 4 {
            area.truncate(self.chance.below(ours::WORDS as u64) as usize);
        } else {
            area[at] = value;
        }
        let before = area.clone();
        for call in calls {
            let said = ours::call(&mut area, call);
            let (said, _) = self.spoil(said, 0, &mut area.clone());
            self.calls += 1;
            self.meet(&format!("{} 25", name(call)));
            if said != 25 || area != before {
                self.differ(format!("{call:?} on a broken area: we say {said}"));
            }
        }
        let (said, number) = ours::figure(&area, handle);
        self.meet("figure 25");
        if said != 25 || number != 0 {
            self.differ(format!("figure on a broken area: we say {said} {number}"));
        }
        let (n, k) = self.chance.of(&[(0, 0), (0, 1), (1, 0), (6, 1), (2, 3), (5, 6), (u64::MAX, 1), (3, u64::MAX)]);
        let expected = if at == 4 { 25 } else { 37 };
        let said = ours::make(&mut area, n, k);
        self.meet(&format!("make {expected}"));
        self.calls += 2;
        if said != expected || area != before {
            self.differ(format!("make {n} {k}: we say {said}, not {expected}, or a word changed"));
        }
    }
}

fn name(call: Call) -> &'static str {
    match call {
        Call::Bind(_) => "bind",
        Call::Sent(..) => "sent",
        Call::Ack(..) => "ack",
        Call::Stale(_) => "stale",
    }
}

/// At least so many calls, over all n and k.
pub fn compare(calls: u64, seed: u64, fault: u64) -> ExitCode {
    let mut judge = Judge { chance: Chance(seed), calls: 0, fault, met: BTreeMap::new(), differences: Vec::new() };
    let mut round = 0;
    while judge.calls < calls && judge.differences.is_empty() {
        for n in 1..=5 {
            for k in 1..=n {
                let base = judge.chance.next() as u32;
                let handles = [base, base.wrapping_add(256), base.wrapping_add(1), judge.chance.next() as u32];
                judge.run(n, k, &handles, 80);
                if round % 16 == n {
                    judge.many(n, k);
                }
            }
        }
        round += 1;
    }
    for (way, count) in &judge.met {
        println!("{way:14} {count}");
    }
    let missed: Vec<&str> = WAYS.into_iter().filter(|way| !judge.met.contains_key(*way)).collect();
    println!("{} calls, {} differences, ways never met: {missed:?}", judge.calls, judge.differences.len());
    let whole = calls < 50_000 || missed.is_empty();
    if judge.differences.is_empty() && whole { ExitCode::SUCCESS } else { ExitCode::FAILURE }
}
