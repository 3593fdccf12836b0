//! Hold areas of any content: what a handle holds is set, with words of every kind, and Wholes, LastWholes and Commits follow.

use turbojet_replica::standby::reach::next_after;

use crate::call::{Call, Counter, Key, Setting};
use crate::differences::held_len;
use crate::generate::Random;
use crate::held;
use crate::rust::Rust;
use crate::splitmix::Chance;
use crate::wire::{self, Batch, change};

pub fn setting(random: &mut Random) -> Setting {
    let large = random.percent(40);
    let hold = if large { random.pick(&[65_536, 70_000, 140_000, 262_144]) } else { random.pick(&[0, 30, 90, 400]) };
    let (incarnation, bytes) = (random.below(6), if large { 100_000 } else { 40 });
    Setting { incarnation, lag: 3, bytes, messages: 12, sessions: 2, handles: 2 + random.below(2), hold }
}

/// Changes that follow on, with bytes between them that are none: in a closed segment each counts as a Reset.
fn following(random: &mut Random) -> (Vec<u8>, Vec<u64>) {
    let (mut bytes, mut words, mut next) = (change::reset(), Vec::new(), 1);
    for _ in 0..random.below(4) {
        for _ in 0..random.below(5) {
            if random.percent(30) {
                bytes.extend(vec![random.pick(&[0, 9, 0x99, 255]); 1 + random.below(3) as usize]);
                next = 1;
            }
            let length = random.below(20) as usize;
            bytes.extend(if random.percent(80) { change::record(next, &vec![b'm'; length]) } else { change::bare_record(next) });
            next += 1;
        }
        words.push(bytes.len() as u64);
    }
    for _ in 0..random.below(3) {
        bytes.extend(change::record(next, b"open"));
        next += 1;
    }
    if random.percent(20) {
        bytes.push(0);
    }
    (bytes, words)
}

/// What a handle holds: mostly as much as there is room for.
fn held_set(random: &mut Random, handle: u32, hold: u64) -> Call {
    let mut chance = Chance(random.next());
    let (mut bytes, words) = match random.below(10) {
        0..5 => following(random),
        5..9 => {
            let count = chance.below(14);
            let (bytes, ends) = chance.pieces(count);
            let words = chance.words(random.below(7), &ends, bytes.len() as u64);
            (bytes, words)
        }
        _ => ((0..random.below(40)).map(|_| random.next() as u8).collect(), vec![random.below(40), random.below(40)]),
    };
    bytes.truncate(hold as usize);
    Call::Set(Counter::Held(handle, bytes, words))
}

/// Calls on the handles 0 and 1 of two sessions.
pub struct Holding {
    random: Random,
    opening: Vec<Call>,
    hold: u64,
    /// Where each handle's last segment that a Whole here has closed ends.
    from: [u64; 2],
}

impl Holding {
    pub fn new(random: Random, setting: &Setting) -> Self {
        let key = |n: u32| -> Key { [b"FIX.4.4".to_vec(), b"A".to_vec(), format!("B{n}").into(), Vec::new()] };
        let bind = |n: u32| Call::Held(wire::bind(n, 0, 0, &key(n)));
        let hello = Call::Held(wire::hello(2, 0, b"node", &[]));
        Self { random, opening: vec![bind(1), bind(0), hello], hold: setting.hold, from: [0; 2] }
    }

    pub fn call(&mut self, rust: &Rust) -> Call {
        if let Some(call) = self.opening.pop() {
            return call;
        }
        let handle = self.random.below(2) as u32;
        match self.random.below(100) {
            0..22 => held_set(&mut self.random, handle, self.hold),
            22..64 => self.batch(rust, handle, wire::WHOLE),
            64..80 => self.batch(rust, handle, wire::LAST_WHOLE),
            80..88 => self.batch(rust, handle, wire::COMMIT),
            88..93 => Call::Flush(rust.replica.connection()),
            93..96 => Call::Set(Counter::Version(3 - rust.version)),
            _ => Call::State,
        }
    }

    fn batch(&mut self, rust: &Rust, handle: u32, part: u8) -> Call {
        let random = &mut self.random;
        let (last, held, next) = match rust.replica.handle(handle) {
            Some(bound) => (bound.commit_no, held_len(rust, handle), next_of(rust, handle)),
            None => (0, 0, 1),
        };
        let commit_no = if random.percent(96) { last.wrapping_add(1) } else { last };
        let mut changes = Vec::new();
        if held == 0 && random.percent(95) && part != wire::COMMIT {
            changes.push(change::reset());
        }
        let from = if held == 0 { 0 } else { self.from[handle as usize] };
        if self.hold >= 65_536 && part == wire::WHOLE && random.percent(60) {
            // The segment has just as many bytes as close it, or a few less or more.
            let so_far = held.saturating_sub(from) + 13 + changes.len() as u64;
            let length = (65_535 + random.below(3)).saturating_sub(so_far);
            changes.push(change::record(next, &vec![b'x'; length as usize]));
        } else if random.percent(70) {
            (next..next + random.below(4)).for_each(|seq| changes.push(change::record(seq, b"whole")));
        } else {
            let mut chance = Chance(random.next());
            changes.extend(held::changes(&chance.pieces(4).0, &[]));
        }
        let end = held + changes.iter().map(|change| change.len() as u64).sum::<u64>();
        if part == wire::WHOLE && end <= self.hold && end - from.min(end) >= 65_536 {
            self.from[handle as usize] = end;
        } else if held == 0 {
            self.from[handle as usize] = 0;
        }
        let frame = wire::batch(&Batch { handle, epoch: 0, commit_no, part, changes, records: Vec::new() });
        if random.percent(60) { Call::Held(frame) } else { Call::Frame(frame) }
    }
}

/// The number that would follow on what a handle holds, or on its session.
fn next_of(rust: &Rust, handle: u32) -> u64 {
    let Some(bound) = rust.replica.handle(handle) else { return 1 };
    let stored = rust.replica.storage().stored(&bound.session);
    let next = stored.map_or(1, |stored| stored.lock().expect("no panic under it").next_outgoing);
    next_after(next, bound.held)
}
