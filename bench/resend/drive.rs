//! Times lists of resend ranges over a full store, beside straight Rust that holds each message against every range; the lists are
//! compared first.
#[path = "../../oracle/src/thread_time.rs"]
mod thread_time;

use std::hint::black_box;
use thread_time::now;

#[repr(C)]
#[derive(Clone, Copy)]
struct Shape {
    places: u32,
    bytes: u32,
    messages: u32,
}

#[repr(C)]
#[derive(Clone, Copy)]
struct Listed {
    refusal: u8,
    length: usize,
    bytes: usize,
}

/// A refusal by its number, or 0 and the value.
#[repr(C)]
struct StoreAnswer {
    refusal: u8,
    value: u64,
}

extern "C" {
    fn store_make(w: *mut u64, wl: usize, b: *const u8, bl: usize, shape: Shape) -> u8;
    #[allow(clippy::too_many_arguments)]
    fn store_open(
        w: *mut u64, wl: usize, b: *mut u8, bl: usize, shape: Shape,
        begin: *const u8, beginl: usize, sender: *const u8, senderl: usize,
        target: *const u8, targetl: usize, suffix: *const u8, suffixl: usize,
    ) -> StoreAnswer;
    fn store_record(
        w: *mut u64, wl: usize, b: *mut u8, bl: usize, shape: Shape, i: usize, text: *const u8, textl: usize,
    ) -> StoreAnswer;
    #[allow(clippy::too_many_arguments)]
    fn wz_resend(
        w: *const u64, wl: usize, b: *const u8, bl: usize, ranges: *const u64, rl: usize, entries: *mut u64, el: usize,
        sessions: u32, c: u32, m: u32, place: usize,
    ) -> Listed;
}

const MESSAGES: u64 = 65_536;
const LENGTH: usize = 300;
const ROUNDS: usize = 300;

struct Store {
    words: Vec<u64>,
    bytes: Vec<u8>,
    shape: Shape,
}

impl Store {
    /// A session whose messages fill the store.
    fn full() -> Self {
        let shape = Shape { places: 1, bytes: MESSAGES as u32 * LENGTH as u32, messages: MESSAGES as u32 };
        let (words, bytes) = (66 + 16 + 2 * MESSAGES as usize, 224 + shape.bytes as usize);
        let mut it = Self { words: vec![0; words], bytes: vec![0; bytes], shape };
        let (w, b) = (it.words.as_mut_ptr(), it.bytes.as_mut_ptr());
        unsafe {
            assert_eq!(store_make(w, words, b, bytes, shape), 0);
            let key = [b"FIX.4.4".as_slice(), b"A", b"B", b""];
            let part = |i: usize| (key[i].as_ptr(), key[i].len());
            let ((k0, l0), (k1, l1), (k2, l2), (k3, l3)) = (part(0), part(1), part(2), part(3));
            let opened = store_open(w, words, b, bytes, shape, k0, l0, k1, l1, k2, l2, k3, l3);
            assert_eq!((opened.refusal, opened.value), (0, 0));
            for _ in 0..MESSAGES + 1000 {
                assert_eq!(store_record(w, words, b, bytes, shape, 0, [7u8; LENGTH].as_ptr(), LENGTH).refusal, 0);
            }
        }
        it
    }

    fn list(&self, ranges: &[u64], entries: &mut [u64]) -> Listed {
        let (w, b) = (&self.words, &self.bytes);
        let Shape { places, bytes, messages } = self.shape;
        let (r, e) = (ranges.as_ptr(), entries.as_mut_ptr());
        unsafe {
            wz_resend(
                w.as_ptr(), w.len(), b.as_ptr(), b.len(), r, ranges.len(), e, entries.len(), places, bytes, messages, 0,
            )
        }
    }
}

/// The same list, by a test of every range for each message: numbers and lengths stand in a plain list.
fn plain(messages: &[(u64, usize)], ranges: &[u64], out: &mut Vec<(u64, u64)>) -> usize {
    out.clear();
    let mut sum = 0;
    for (number, length) in messages {
        let mut set = 0;
        for (at, range) in ranges.chunks_exact(2).enumerate() {
            if range[0] <= *number && (range[1] == 0 || *number <= range[1]) {
                set |= 1 << at;
            }
        }
        if set != 0 {
            out.push((*number, set));
            sum += length;
        }
    }
    sum
}

/// Nanoseconds a call, in rounds of so many: the round below which one in a hundred lies. Other programs may run beside this one, and
/// the least of all can be a single false reading of the clock.
fn time(calls: usize, mut work: impl FnMut()) -> f64 {
    let mut rounds: Vec<f64> = (0..ROUNDS)
        .map(|_| {
            let begun = now();
            (0..calls).for_each(|_| work());
            (now() - begun) / calls as f64
        })
        .collect();
    rounds.sort_by(f64::total_cmp);
    rounds[ROUNDS / 100]
}

fn main() {
    let store = Store::full();
    let messages: Vec<(u64, usize)> = (1001..1001 + MESSAGES).map(|number| (number, LENGTH)).collect();
    let mut entries = vec![0u64; 6 * MESSAGES as usize];
    let (mut list, mut one) = (Vec::new(), 0.0);
    let overlapping: Vec<u64> = (0..64).flat_map(|at| [1001 + at * 500, 1001 + at * 500 + 33_000]).collect();
    let apart: Vec<u64> = (0..64).rev().flat_map(|at| [1001 + at * 1024, 1001 + at * 1024 + 99]).collect();
    println!("| {MESSAGES} messages of {LENGTH} | listed | ours, ns | a message listed | / one range | 64 tests a message, ns | ours / that |");
    println!("|---|---|---|---|---|---|---|");
    for (name, ranges) in [
        ("one range over all", vec![1, 0]),
        ("64 overlapping ranges", overlapping),
        ("64 ranges over all", [1, 0].repeat(64)),
        ("64 ranges apart, unsorted", apart),
        ("the newest 100", vec![1001 + MESSAGES - 100, 0]),
    ] {
        let said = store.list(&ranges, &mut entries);
        let sum = plain(&messages, &ranges, &mut list);
        assert_eq!((said.refusal, said.length, said.bytes), (0, list.len(), sum), "{name}");
        let listed = entries.chunks_exact(6).map(|entry| (entry[0], entry[1]));
        assert!(listed.take(said.length).eq(list.iter().copied()), "{name}");
        // A list that is short is asked for again and again in a round, so that the clock's own time counts for nothing.
        let calls = 1 + 10_000 / (1 + said.length);
        let ours = time(calls, || {
            black_box(store.list(black_box(&ranges), &mut entries));
        });
        let tests = time(1, || {
            black_box(plain(black_box(&messages), &ranges, &mut list));
        });
        if one == 0.0 {
            one = ours;
        }
        let each = ours / said.length as f64;
        println!("| {name} | {} | {ours:.0} | {each:.1} | {:.2} | {tests:.0} | {:.2} |", said.length, ours / one, ours / tests);
    }
}
