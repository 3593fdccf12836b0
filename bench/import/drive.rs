//! An import of 32 MiB of FIX messages beside straight Rust of the same rules, which judges every message and keeps its place
//! in a list, then copies into a ring. Both take the same files; the answer and the next outgoing number are compared first.
#[path = "../../oracle/src/thread_time.rs"]
mod thread_time;

use std::collections::VecDeque;
use std::hint::black_box;
use thread_time::now;

#[repr(C)]
#[derive(Debug, Clone, Copy, PartialEq)]
struct Built {
    refusal: u8,
    place: usize,
    at: usize,
    #[allow(dead_code)]
    lowest: u64,
}

unsafe extern "C" {
    fn wz_import(
        words: *mut u64, words_len: usize, bytes: *mut u8, bytes_len: usize, begin: *const u8, begin_len: usize, sender: *const u8, sender_len: usize,
        target: *const u8, target_len: usize, suffix: *const u8, suffix_len: usize, file: *const u8, file_len: usize, sessions: u32, c: u32, m: u32,
    ) -> Built;
}

const C: usize = 32 << 20;
const M: usize = 65_536;
const ROUNDS: usize = 15;

// ---- straight Rust
#[derive(Clone, Copy)]
struct Field<'a> {
    tag: &'a [u8],
    value: &'a [u8],
    end: usize,
}

fn field(file: &[u8], at: usize) -> Option<Field<'_>> {
    let rest = file.get(at..)?;
    let eq = rest.iter().position(|byte| !byte.is_ascii_digit())?;
    if eq == 0 || rest[eq] != b'=' || rest[0] == b'0' {
        return None;
    }
    let len = rest[eq + 1..].iter().position(|&byte| byte == 1)?;
    if len == 0 {
        return None;
    }
    Some(Field { tag: &rest[..eq], value: &rest[eq + 1..eq + 1 + len], end: at + eq + 1 + len + 1 })
}

fn number(text: &[u8]) -> Option<u64> {
    let mut value: u64 = 0;
    for &byte in text {
        if !byte.is_ascii_digit() {
            return None;
        }
        value = value.saturating_mul(10).saturating_add((byte - b'0') as u64);
    }
    Some(value)
}

fn message(file: &[u8], at: usize) -> Result<(u64, usize), u8> {
    let eight = field(file, at).filter(|f| f.tag == b"8").ok_or(28u8)?;
    let nine = field(file, eight.end).filter(|f| f.tag == b"9").ok_or(28u8)?;
    let length = number(nine.value).ok_or(28u8)?;
    let mut next = field(file, nine.end).filter(|f| f.tag == b"35").ok_or(28u8)?.end;
    let (mut seq, mut twice) = (None, false);
    loop {
        let found = field(file, next).ok_or(28u8)?;
        if found.tag == b"10" {
            let told = number(found.value).filter(|_| found.value.len() == 3).ok_or(28u8)?;
            let seq = seq.filter(|seq| !twice && *seq != 0 && *seq != u64::MAX).ok_or(28u8)?;
            let sum = file[at..next].iter().fold(0u8, |sum, &byte| sum.wrapping_add(byte));
            if length != (next - nine.end) as u64 || told != sum as u64 {
                return Err(29);
            }
            return Ok((seq, found.end));
        }
        if found.tag == b"34" {
            twice |= seq.is_some();
            seq = Some(number(found.value).ok_or(28u8)?);
        }
        next = found.end;
    }
}

struct Session {
    ring: Vec<u8>,
    at: usize,
    held: usize,
    entries: VecDeque<(u64, usize)>,
}

impl Session {
    fn import(&mut self, file: &[u8]) -> Result<(), (u8, usize)> {
        let (mut at, mut last, mut all) = (0, 0, Vec::new());
        while at < file.len() {
            let (seq, end) = message(file, at).map_err(|refusal| (refusal, at))?;
            if seq <= last {
                return Err((30, at));
            }
            all.push((seq, at, end));
            (last, at) = (seq, end);
        }
        (self.at, self.held) = (0, 0);
        self.entries.clear();
        all.into_iter().for_each(|(seq, from, to)| self.record(seq, &file[from..to]));
        Ok(())
    }

    fn record(&mut self, seq: u64, text: &[u8]) {
        if text.len() > C {
            return;
        }
        while self.held + text.len() > C || self.entries.len() + 1 > M {
            self.held -= self.entries.pop_front().unwrap().1;
        }
        let first = text.len().min(C - self.at);
        self.ring[self.at..self.at + first].copy_from_slice(&text[..first]);
        self.ring[..text.len() - first].copy_from_slice(&text[first..]);
        self.at = (self.at + text.len()) % C;
        self.held += text.len();
        self.entries.push_back((seq, text.len()));
    }
}

// ---- ours
struct Store {
    words: Vec<u64>,
    bytes: Vec<u8>,
}

impl Store {
    fn import(&mut self, file: &[u8]) -> Built {
        self.words[0] = 0;
        self.words[1] = 0;
        let (w, b) = (&mut self.words, &mut self.bytes);
        unsafe {
            wz_import(
                w.as_mut_ptr(), w.len(), b.as_mut_ptr(), b.len(), b"FIX.4.4".as_ptr(), 7, b"A".as_ptr(), 1, b"B".as_ptr(), 1, b"".as_ptr(), 0, file.as_ptr(),
                file.len(), 1, C as u32, M as u32,
            )
        }
    }
}

// ---- files
fn text_of(seq: u64, value: usize, fields: usize) -> Vec<u8> {
    let mut body = format!("35=D\x0134={seq}\x0149=BROKER\x0152=20240102-10:11:12.345\x0156=VENUE\x01").into_bytes();
    for k in 0..fields {
        body.extend(format!("{}=", 1000 + k).into_bytes());
        body.extend(std::iter::repeat_n(b'a' + (k % 26) as u8, value));
        body.push(1);
    }
    let mut text = format!("8=FIX.4.4\x019={}\x01", body.len()).into_bytes();
    text.extend(body);
    let sum = text.iter().fold(0u8, |sum, &byte| sum.wrapping_add(byte));
    text.extend(format!("10={sum:03}\x01").into_bytes());
    text
}

fn filled(value: usize, fields: usize) -> (Vec<u8>, usize) {
    let (mut file, mut count) = (Vec::new(), 0);
    while file.len() < C {
        count += 1;
        file.extend(text_of(count as u64, value, fields));
    }
    (file, count)
}

fn least(mut work: impl FnMut()) -> f64 {
    let start = now();
    work();
    (now() - start) * 1e-9
}

fn main() {
    let mut store = Store { words: vec![1; 66 + 16 + 2 * M], bytes: vec![1; 224 + C] };
    let mut session = Session { ring: vec![1; C], at: 0, held: 0, entries: VecDeque::with_capacity(M) };
    println!("| messages of | messages | ours, ns a byte | straight Rust | ratio | memcpys of the file |");
    println!("|-|-|-|-|-|-|");
    for (value, fields) in [(14, 1), (10, 14), (10, 244), (3_900, 1)] {
        let (file, count) = filled(value, fields);
        assert_eq!(session.import(&file), Ok(()));
        assert_eq!(store.import(&file), Built { refusal: 0, place: 0, at: 0, lowest: session.entries[0].0 });
        assert_eq!(store.words[66], count as u64 + 1);
        let mut copy = vec![0u8; file.len()];
        let (mut ours, mut theirs, mut copied) = (f64::MAX, f64::MAX, f64::MAX);
        for _ in 0..ROUNDS {
            ours = ours.min(least(|| { black_box(store.import(black_box(&file))); }));
            theirs = theirs.min(least(|| { black_box(session.import(black_box(&file))).unwrap(); }));
            copied = copied.min(least(|| black_box(&mut copy).copy_from_slice(black_box(&file))));
        }
        let each = 1e9 / file.len() as f64;
        println!(
            "| {} bytes{} | {count} | {:.3} | {:.3} | {:.2} | {:.1} |",
            file.len() / count, if value > 1000 { ", one long field" } else { "" }, ours * each, theirs * each, ours / theirs, ours / copied
        );
    }
}
