//! Times recordings in a full store, the hash and the walk, beside straight Rust stores of the same rules, and compares the two
//! on random sequences and on areas of random contents.
use std::collections::{BTreeMap, VecDeque};
use std::hint::black_box;
use std::time::Instant;

#[repr(C)]
#[derive(Clone, Copy)]
struct Shape {
    places: u32,
    bytes: u32,
    messages: u32,
}

/// A refusal by its number, or 0 and the value.
#[repr(C)]
#[derive(Clone, Copy, Debug, PartialEq, Eq)]
struct StoreAnswer {
    refusal: u8,
    value: u64,
}

impl StoreAnswer {
    fn value(self) -> u64 {
        assert_eq!(self.refusal, 0);
        self.value
    }
}

extern "C" {
    fn store_make(w: *mut u64, wl: usize, b: *const u8, bl: usize, shape: Shape) -> u8;
    #[allow(clippy::too_many_arguments)]
    fn store_open(
        w: *mut u64, wl: usize, b: *mut u8, bl: usize, shape: Shape,
        begin: *const u8, beginl: usize, sender: *const u8, senderl: usize,
        target: *const u8, targetl: usize, suffix: *const u8, suffixl: usize,
    ) -> StoreAnswer;
    fn store_record(
        w: *mut u64, wl: usize, b: *mut u8, bl: usize, shape: Shape,
        i: usize, text: *const u8, textl: usize,
    ) -> StoreAnswer;
    fn store_record_none(
        w: *mut u64, wl: usize, b: *const u8, bl: usize, shape: Shape, i: usize, seq: u64,
    ) -> u8;
    fn store_reset(w: *mut u64, wl: usize, b: *const u8, bl: usize, shape: Shape, i: usize) -> u8;
    fn store_take_over(
        w: *mut u64, wl: usize, b: *mut u8, bl: usize, shape: Shape, i: usize, lag: u64,
    ) -> u8;
    fn store_set_created_at(
        w: *mut u64, wl: usize, b: *mut u8, bl: usize, shape: Shape, i: usize, text: *const u8, textl: usize,
    ) -> u8;
    fn store_set_marks(
        w: *mut u64, wl: usize, b: *mut u8, bl: usize, shape: Shape, i: usize, text: *const u8, textl: usize,
    ) -> u8;
    fn store_next_outgoing(w: *const u64, wl: usize, b: *const u8, bl: usize, shape: Shape, i: usize) -> StoreAnswer;
    fn store_last_outgoing(
        w: *const u64, wl: usize, b: *const u8, bl: usize, shape: Shape, i: usize, n: u64,
    ) -> StoreAnswer;
    fn store_count(w: *const u64, wl: usize, b: *const u8, bl: usize, shape: Shape, i: usize) -> StoreAnswer;
    fn store_fnv(h: u64, s: *const u8, sl: usize) -> u64;
}

/// An outgoing number that can't be recorded: outside the documents' 1 to 39.
const NUMBER_NOT_RECORDED: u8 = 40;
const START: u64 = 0xcbf2_9ce4_8422_2325;

/// The store in its two areas.
struct Ours {
    words: Vec<u64>,
    bytes: Vec<u8>,
    shape: Shape,
}

impl Ours {
    fn areas(places: u32, cap: u32, max: u32) -> (usize, usize) {
        let (s, c, m) = (places as usize, cap as usize, max as usize);
        (66 + s * (16 + 2 * m), s * (224 + c))
    }

    fn new(places: u32, cap: u32, max: u32) -> Self {
        let (w, b) = Self::areas(places, cap, max);
        let shape = Shape { places, bytes: cap, messages: max };
        let mut it = Self { words: vec![0; w], bytes: vec![0; b], shape };
        let made = unsafe { store_make(it.words.as_mut_ptr(), w, it.bytes.as_ptr(), b, shape) };
        assert_eq!(made, 0);
        for i in 0..places {
            assert_eq!(it.open(&format!("T{i}")).value(), u64::from(i));
        }
        it
    }

    fn open(&mut self, target: &str) -> StoreAnswer {
        unsafe {
            store_open(
                self.words.as_mut_ptr(), self.words.len(), self.bytes.as_mut_ptr(), self.bytes.len(), self.shape,
                b"FIX.4.4".as_ptr(), 7, b"GATE".as_ptr(), 4, target.as_ptr(), target.len(), b"".as_ptr(), 0,
            )
        }
    }

    #[inline]
    fn record(&mut self, i: usize, text: &[u8]) -> StoreAnswer {
        unsafe {
            store_record(
                self.words.as_mut_ptr(), self.words.len(), self.bytes.as_mut_ptr(), self.bytes.len(), self.shape,
                i, text.as_ptr(), text.len(),
            )
        }
    }

    fn stamp(&mut self, i: usize, text: &[u8]) -> u8 {
        let (w, b) = (&mut self.words, &mut self.bytes);
        unsafe { store_set_created_at(w.as_mut_ptr(), w.len(), b.as_mut_ptr(), b.len(), self.shape, i, text.as_ptr(), text.len()) }
    }

    fn marks(&mut self, i: usize, text: &[u8]) -> u8 {
        let (w, b) = (&mut self.words, &mut self.bytes);
        unsafe { store_set_marks(w.as_mut_ptr(), w.len(), b.as_mut_ptr(), b.len(), self.shape, i, text.as_ptr(), text.len()) }
    }

    fn bare(&mut self, i: usize, seq: u64) -> u8 {
        unsafe { store_record_none(self.words.as_mut_ptr(), self.words.len(), self.bytes.as_ptr(), self.bytes.len(), self.shape, i, seq) }
    }

    fn reset(&mut self, i: usize) -> u8 {
        unsafe { store_reset(self.words.as_mut_ptr(), self.words.len(), self.bytes.as_ptr(), self.bytes.len(), self.shape, i) }
    }

    fn take_over(&mut self, i: usize, lag: u64) -> u8 {
        unsafe { store_take_over(self.words.as_mut_ptr(), self.words.len(), self.bytes.as_mut_ptr(), self.bytes.len(), self.shape, i, lag) }
    }

    fn next(&self, i: usize) -> StoreAnswer {
        unsafe { store_next_outgoing(self.words.as_ptr(), self.words.len(), self.bytes.as_ptr(), self.bytes.len(), self.shape, i) }
    }

    fn last(&self, i: usize, n: u64) -> StoreAnswer {
        unsafe { store_last_outgoing(self.words.as_ptr(), self.words.len(), self.bytes.as_ptr(), self.bytes.len(), self.shape, i, n) }
    }

    fn count(&self, i: usize) -> StoreAnswer {
        unsafe { store_count(self.words.as_ptr(), self.words.len(), self.bytes.as_ptr(), self.bytes.len(), self.shape, i) }
    }
}

/// The straight store of the same rules, with a VecDeque.
struct Queue {
    cap: usize,
    max: usize,
    next: u64,
    sum: usize,
    messages: VecDeque<(u64, Vec<u8>)>,
}

impl Queue {
    fn new(cap: usize, max: usize) -> Self {
        Self { cap, max, next: 1, sum: 0, messages: VecDeque::new() }
    }

    fn record(&mut self, text: &[u8]) {
        let seq = self.next;
        self.next = seq + 1;
        if text.len() > self.cap || self.max == 0 {
            return;
        }
        while self.sum + text.len() > self.cap || self.messages.len() + 1 > self.max {
            let (_, old) = self.messages.pop_front().unwrap();
            self.sum -= old.len();
        }
        self.sum += text.len();
        self.messages.push_back((seq, text.to_vec()));
    }

    fn last(&self, n: u64) -> u64 {
        if n == 0 || self.next == 1 {
            return 0;
        }
        let low = self.next.saturating_sub(n).max(1);
        let mut h = START;
        for (seq, text) in &self.messages {
            if *seq >= low {
                h = fnv(h, &seq.to_le_bytes());
                h = fnv(h, &(text.len() as u64).to_le_bytes());
                h = fnv(h, text);
            }
        }
        h
    }
}

/// The same with a BTreeMap.
struct Tree {
    cap: usize,
    max: usize,
    next: u64,
    sum: usize,
    messages: BTreeMap<u64, Vec<u8>>,
}

impl Tree {
    fn new(cap: usize, max: usize) -> Self {
        Self { cap, max, next: 1, sum: 0, messages: BTreeMap::new() }
    }

    fn record(&mut self, text: &[u8]) {
        let seq = self.next;
        self.next = seq + 1;
        if text.len() > self.cap || self.max == 0 {
            return;
        }
        while self.sum + text.len() > self.cap || self.messages.len() + 1 > self.max {
            let (_, old) = self.messages.pop_first().unwrap();
            self.sum -= old.len();
        }
        self.sum += text.len();
        self.messages.insert(seq, text.to_vec());
    }
}

fn fnv(mut h: u64, s: &[u8]) -> u64 {
    for &x in s {
        h = (h ^ u64::from(x)).wrapping_mul(0x100_0000_01b3);
    }
    h
}

struct Random(u64);

impl Random {
    fn below(&mut self, n: u64) -> u64 {
        self.0 ^= self.0 << 13;
        self.0 ^= self.0 >> 7;
        self.0 ^= self.0 << 17;
        self.0 % n
    }
}

/// Nanoseconds for a turn: the best of thirty short rounds, 3 n turns in all, since other programs may interrupt a long one.
fn time(n: u64, mut turn: impl FnMut(u64)) -> f64 {
    let short = (n / 10).max(1);
    let mut best = f64::MAX;
    for _ in 0..30 {
        let begin = Instant::now();
        for k in 0..short {
            turn(k);
        }
        best = best.min(begin.elapsed().as_nanos() as f64 / short as f64);
    }
    best
}

/// Nanoseconds for a copy of the text alone, round a ring of cap bytes.
fn copy_round(cap: usize, text: &[u8], n: u64) -> f64 {
    let mut ring = vec![1u8; cap];
    let mut at = 0;
    time(n, |_| {
        if cap < at + text.len() {
            at = 0;
        }
        ring[at..at + text.len()].copy_from_slice(black_box(text));
        black_box(&mut ring);
        at += text.len();
    })
}

/// The same messages in stores that differ in C only, beside a copy alone.
fn by_bytes() {
    println!("record, ns each, M 64, 4000 bytes, by C     ours   copy alone   VecDeque");
    let text = vec![0x41u8; 4_000];
    for &cap in &[262_144u32, 1_048_576, 4_194_304, 33_554_432] {
        let mut ours = Ours::new(1, cap, 64);
        let mut queue = Queue::new(cap as usize, 64);
        for _ in 0..10_000 {
            ours.record(0, &text);
            queue.record(&text);
        }
        let a = time(60_000, |_| {
            black_box(ours.record(0, black_box(&text)));
        });
        let b = copy_round(cap as usize, &text, 60_000);
        let c = time(60_000, |_| queue.record(black_box(&text)));
        println!("C {cap:8}  {a:37.1}    {b:9.1}    {c:7.1}");
    }
}

fn compare(rounds: u64) {
    let mut r = Random(88_172_645_463_325_252);
    let mut calls = 0u64;
    for _ in 0..rounds {
        let (cap, max) = (r.below(60) as u32, r.below(9) as u32);
        let mut ours = Ours::new(3, cap, max);
        let mut theirs: Vec<Queue> = (0..3).map(|_| Queue::new(cap as usize, max as usize)).collect();
        for _ in 0..300 {
            let i = r.below(3) as usize;
            match r.below(24) {
                0 => {
                    assert_eq!(ours.reset(i), 0);
                    theirs[i] = Queue::new(cap as usize, max as usize);
                }
                1 | 2 => {
                    let seq = theirs[i].next + r.below(4);
                    assert_eq!(ours.bare(i, seq), 0);
                    theirs[i].next = seq + 1;
                }
                3 => {
                    let lag = r.below(4);
                    assert_eq!(ours.take_over(i, lag), 0);
                    theirs[i].next += lag;
                }
                _ => {
                    let len = if r.below(16) == 0 { u64::from(cap) + r.below(2) } else { r.below(24) * r.below(2) };
                    let text: Vec<u8> = (0..len).map(|_| r.below(256) as u8).collect();
                    let told = ours.record(i, &text);
                    theirs[i].record(&text);
                    assert_eq!(told, StoreAnswer { refusal: 0, value: theirs[i].messages.front().map_or(0, |(number, _)| *number) });
                }
            }
            for (k, q) in theirs.iter().enumerate() {
                assert_eq!(ours.next(k).value(), q.next);
                assert_eq!(ours.count(k).value(), q.messages.len() as u64);
                assert_eq!(ours.last(k, 5).value(), q.last(5));
                assert_eq!(ours.last(k, u64::MAX).value(), q.last(u64::MAX));
            }
            calls += 1;
        }
    }
    // areas of random contents: every call ends, and recording then gives the message back
    for _ in 0..rounds * 10 {
        let (cap, max) = (r.below(40) as u32, r.below(6) as u32);
        let mut ours = Ours::new(2, cap, max);
        for w in ours.words.iter_mut().skip(66) {
            *w = match r.below(3) {
                0 => r.below(u64::MAX),
                1 => r.below(70),
                _ => r.below(5),
            };
        }
        for b in ours.bytes.iter_mut() {
            *b = r.below(256) as u8;
        }
        let (next, count) = (ours.next(1), ours.count(1));
        let code = ours.record(0, b"abc").refusal;
        assert!(code == 0 || (code == NUMBER_NOT_RECORDED && ours.next(0).value() == u64::MAX));
        assert_eq!((next, count), (ours.next(1), ours.count(1)));
        if code == 0 && cap >= 3 && max > 0 {
            let seq = ours.next(0).value() - 1;
            let text = fnv(fnv(fnv(START, &seq.to_le_bytes()), &3u64.to_le_bytes()), b"abc");
            assert_eq!(ours.last(0, 1).value(), text);
        }
        calls += 1;
    }
    println!("{calls} random calls agree with the VecDeque store");
}

/// Each refusal by its number, and both areas as they were: the first for a place that holds no session and for broken areas, before all else.
fn refusals() {
    let no = |refusal| StoreAnswer { refusal, value: 0 };
    let mut ours = Ours::new(2, 20, 2);
    assert_eq!(ours.stamp(0, b"20260101-00:00:00"), 0);
    assert_eq!(ours.marks(0, b"PossDup"), 0);
    assert_eq!(ours.record(0, b"abc"), StoreAnswer { refusal: 0, value: 1 });
    let before = (ours.words.clone(), ours.bytes.clone());
    assert_eq!(ours.open("T1"), StoreAnswer { refusal: 0, value: 1 });
    assert_eq!(ours.open(""), no(5));
    assert_eq!(ours.open("T9"), no(20));
    assert_eq!(ours.bare(0, 1), NUMBER_NOT_RECORDED);
    assert_eq!(ours.bare(0, u64::MAX), NUMBER_NOT_RECORDED);
    assert_eq!(ours.stamp(0, b"today"), 6);
    assert_eq!(ours.marks(0, &[b'A'; 65]), 7);
    for broken in [false, true] {
        let i = if broken { 0 } else { 2 };
        ours.words[0] += u64::from(broken);
        assert_eq!((ours.next(i), ours.count(i), ours.last(i, 5)), (no(25), no(25), no(25)));
        assert_eq!((ours.record(i, b"abc"), ours.bare(i, 0), ours.reset(i), ours.take_over(i, 1)), (no(25), 25, 25, 25));
        assert_eq!((ours.stamp(i, b"today"), ours.marks(i, &[b'A'; 65])), (25, 25));
        if broken {
            assert_eq!(ours.open(""), no(25));
        }
        ours.words[0] -= u64::from(broken);
    }
    assert!(before == (ours.words, ours.bytes));
    println!("each refusal has its number and leaves both areas");
}

fn main() {
    refusals();
    compare(60);
    println!("record, ns each, full store       ours   VecDeque   BTreeMap");
    for &(places, cap, max) in &[
        (1u32, 33_554_432u32, 64u32),
        (1, 33_554_432, 65_536),
        (8, 4_194_304, 65_536),
        (64, 1_048_576, 1_024),
    ] {
        for &len in &[100usize, 300, 4_000] {
            let text = vec![0x41u8; len];
            let mut ours = Ours::new(places, cap, max);
            let mut queue = Queue::new(cap as usize, max as usize);
            let mut tree = Tree::new(cap as usize, max as usize);
            // a full round through the ring of entries and the ring of bytes
            let fill = (u64::from(max)).max(u64::from(cap) / len as u64) + 1;
            for _ in 0..fill {
                ours.record(0, &text);
                queue.record(&text);
                tree.record(&text);
            }
            let n = if len > 1000 { 60_000 } else { 300_000 };
            let a = time(n, |_| {
                black_box(ours.record(0, black_box(&text)));
            });
            let b = time(n, |_| queue.record(black_box(&text)));
            let c = time(n, |_| tree.record(black_box(&text)));
            println!("S {places:2} C {cap:8} M {max:5} bytes {len:4}  {a:7.1}    {b:7.1}    {c:7.1}");
        }
    }
    by_bytes();
    let mut ours = Ours::new(1, 33_554_432, 65_536);
    let mut queue = Queue::new(33_554_432, 65_536);
    let text = vec![0x41u8; 100];
    for _ in 0..70_000 {
        ours.record(0, &text);
        queue.record(&text);
    }
    println!("last_outgoing, us, 100-byte messages   ours   VecDeque (which walks the whole queue)");
    for &n in &[16u64, 1_024, 65_536] {
        let turns = (200_000 / n).clamp(3, 2_000);
        let a = time(turns, |_| {
            black_box(ours.last(0, black_box(n)));
        }) / 1_000.0;
        let b = time(turns.min(40), |_| {
            black_box(queue.last(black_box(n)));
        }) / 1_000.0;
        println!("over {n:5}  {a:9.2}  {b:9.2}");
    }
    let c = time(2_000, |_| {
        black_box(ours.count(black_box(0)));
    });
    println!("walk over 65,536 messages: {:.1} us", c / 1_000.0);
    let long = vec![0x41u8; 65_536];
    let a = time(200, |_| {
        black_box(unsafe { store_fnv(START, black_box(&long).as_ptr(), long.len()) });
    }) / 65_536.0;
    let b = time(200, |_| {
        black_box(fnv(START, black_box(&long)));
    }) / 65_536.0;
    println!("FNV-1a, ns a byte: ours {a:.2}, Rust {b:.2}");
}
