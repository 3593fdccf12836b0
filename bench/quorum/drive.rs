//! Times an Ack on our area and in straight Rust over a `HashMap<u32, ..>`, with 1, 16 and 256 handles, in rising order and by chance. Every
//! Ack is newer than its member's last, so each moves a count; the two sides take turns, and the least of the turns counts.
#[path = "../../oracle/src/thread_time.rs"]
mod thread_time;

use std::collections::HashMap;
use std::hint::black_box;
use thread_time::now;

unsafe extern "C" {
    fn wz_quorum_make(words: *mut u64, words_len: usize, n: u64, k: u64) -> u8;
    fn wz_quorum_bind(words: *mut u64, words_len: usize, handle: u32) -> u8;
    fn wz_quorum_sent(words: *mut u64, words_len: usize, handle: u32, number: u64) -> u8;
    fn wz_quorum_acknowledged(words: *mut u64, words_len: usize, member: usize, handle: u32, number: u64) -> u8;
    fn wz_quorum_figure(words: *const u64, words_len: usize, handle: u32) -> Shown;
}

#[repr(C)]
struct Shown {
    refusal: u8,
    number: u64,
}

const MEMBERS: usize = 5;
const NEEDED: usize = 3;
const TURNS: usize = 15;

trait Active {
    fn new() -> Self;
    fn bind(&mut self, handle: u32) -> u8;
    fn sent(&mut self, handle: u32, number: u64) -> u8;
    fn ack(&mut self, member: usize, handle: u32, number: u64) -> u8;
    fn figure(&self, handle: u32) -> u64;
}

struct Ours(Vec<u64>);

impl Active for Ours {
    fn new() -> Self {
        let mut words = vec![0; 2564];
        let made = unsafe { wz_quorum_make(words.as_mut_ptr(), words.len(), MEMBERS as u64, NEEDED as u64) };
        assert_eq!(made, 0);
        Self(words)
    }

    fn bind(&mut self, handle: u32) -> u8 {
        unsafe { wz_quorum_bind(self.0.as_mut_ptr(), self.0.len(), handle) }
    }

    fn sent(&mut self, handle: u32, number: u64) -> u8 {
        unsafe { wz_quorum_sent(self.0.as_mut_ptr(), self.0.len(), handle, number) }
    }

    fn ack(&mut self, member: usize, handle: u32, number: u64) -> u8 {
        unsafe { wz_quorum_acknowledged(self.0.as_mut_ptr(), self.0.len(), member, handle, number) }
    }

    fn figure(&self, handle: u32) -> u64 {
        let shown = unsafe { wz_quorum_figure(self.0.as_ptr(), self.0.len(), handle) };
        assert_eq!(shown.refusal, 0);
        shown.number
    }
}

#[derive(Default)]
struct Count {
    last: u64,
    figure: u64,
    acks: [u64; MEMBERS],
}

struct Straight {
    members: usize,
    needed: usize,
    deposed: bool,
    counts: HashMap<u32, Count>,
}

impl Active for Straight {
    fn new() -> Self {
        Self { members: black_box(MEMBERS), needed: black_box(NEEDED), deposed: false, counts: HashMap::new() }
    }

    fn bind(&mut self, handle: u32) -> u8 {
        if self.counts.len() == 256 && !self.counts.contains_key(&handle) {
            return 37;
        }
        self.counts.insert(handle, Count::default());
        0
    }

    fn sent(&mut self, handle: u32, number: u64) -> u8 {
        let Some(count) = self.counts.get_mut(&handle) else { return 37 };
        if count.last.checked_add(1) != Some(number) {
            return 38;
        }
        count.last = number;
        0
    }

    fn ack(&mut self, member: usize, handle: u32, number: u64) -> u8 {
        if member >= self.members {
            return 37;
        }
        let Some(count) = self.counts.get_mut(&handle) else { return 37 };
        if number == 0 || number > count.last {
            return 38;
        }
        if self.deposed || number <= count.acks[member] {
            return 0;
        }
        count.acks[member] = number;
        let mut held = count.acks;
        let held = &mut held[..self.members];
        held.sort_unstable_by(|a, b| b.cmp(a));
        count.figure = held[self.needed - 1];
        0
    }

    fn figure(&self, handle: u32) -> u64 {
        self.counts[&handle].figure
    }
}

/// Nanoseconds an Ack, of one turn.
fn turn<A: Active>(handles: &[u32]) -> f64 {
    let rounds = 40_000 / handles.len() as u64;
    let mut active = A::new();
    for handle in handles {
        assert_eq!(active.bind(*handle), 0);
        for number in 1..=rounds {
            assert_eq!(active.sent(*handle, number), 0);
        }
    }
    let began = now();
    let mut refused = 0;
    for number in 1..=rounds {
        for member in 0..MEMBERS {
            for handle in handles {
                refused += u64::from(active.ack(black_box(member), black_box(*handle), black_box(number)));
            }
        }
    }
    let took = now() - began;
    assert_eq!(refused, 0);
    for handle in handles {
        assert_eq!(active.figure(*handle), rounds);
    }
    took / (rounds * MEMBERS as u64 * handles.len() as u64) as f64
}

fn row(name: &str, handles: &[u32]) -> bool {
    let (mut ours, mut straight) = (f64::MAX, f64::MAX);
    for _ in 0..TURNS {
        ours = ours.min(turn::<Ours>(handles));
        straight = straight.min(turn::<Straight>(handles));
    }
    println!(
        "{name:24} {:3} handles: {ours:6.1} ns, straight Rust {straight:6.1} ns, ratio {:.2}",
        handles.len(),
        ours / straight
    );
    ours <= straight
}

fn main() {
    let mut met = true;
    for many in [1, 16, 256] {
        let rising: Vec<u32> = (1..=many).collect();
        met &= row("in rising order", &rising);
    }
    for many in [16, 256] {
        let mut chance = 0x9E37_79B9_7F4A_7C15u64;
        let mut handles: Vec<u32> = Vec::new();
        while handles.len() < many {
            chance = chance.wrapping_mul(6_364_136_223_846_793_005).wrapping_add(1_442_695_040_888_963_407);
            let handle = (chance >> 32) as u32;
            if !handles.contains(&handle) {
                handles.push(handle);
            }
        }
        row("by chance", &handles);
    }
    let far: Vec<u32> = (0..256u32).map(|i| i * 256).collect();
    row("all of one chain", &far);
    if !met {
        println!("the bar is not met");
        std::process::exit(1);
    }
}
