//! What must hold of the Rust's side before anything is compared with it: document 01's examples
//! and starred points, the public vectors, and the recorded lists.

use std::fs;
use std::panic::{catch_unwind, set_hook, take_hook};
use std::path::Path;

use turbojet_replica::frame::Frame;

use crate::differences::FIRST;
use crate::digits;
use crate::frames::{program, read_by_rust};
use crate::generate::{cycle, last_day};
use crate::record::{self, fnv_1a, key};
use crate::rust::{Rust, encoded};
use crate::side::{Side, run};
use crate::wire::{self, Batch, COMMIT, change};

#[derive(Default)]
struct Checks {
    made: u32,
    failed: u32,
}

impl Checks {
    fn same(&mut self, what: &str, is: &str, must: &str) {
        self.made += 1;
        if is != must {
            self.failed += 1;
            println!("FAILED {what}\n  is   {is}\n  must {must}");
        }
    }

    fn frame(&mut self, hex: &str, must: &str) {
        let bytes = digits::read(hex.as_bytes()).expect("digits");
        self.same(&format!("frame {hex}"), &read_by_rust(FIRST, &bytes).text(), must);
    }
}

const LINES_IN: &str = "\
140000000101000500000000000000010000006100000000
1e000000040900000005000000000000000100000000000000000000000000000000
";

const LINES_OUT: &str = "\
110000000205000000000000000700000000000000
R 14
";

const SCRIPT_IN: &str = "\
7 3 40 4 2 3
F 140000000101000500000000000000010000006100000000
F 2e000000030900000005000000000000000200000000000000070000004649582e342e340100000041010000004200000000
S
Q 2 0 1 2 3
P
";

const SCRIPT_OUT: &str = "\
110000000205000000000000000700000000000000
2d000000070900000001000000000000000100000000000000000000000000000000000000000000000000000000000000
standby epoch=5 incarnation=7 lag=3 promoted=0 checked=0 connections=1 pending=
session key=4649582e342e34,41,42, stamp=- out=1 in=1 flight=- marks= messages= durable=0
handle 9 key=4649582e342e34,41,42, commit=0 held=0 bytes=0 form=0 changes=
drained=0 through=0 waiting=1 numbers=
drained=0 through=0 waiting=2 numbers=
drained=1 through=1 waiting=2 numbers=1
R 23
";

fn examples(checks: &mut Checks) {
    checks.same("document 01's lines", &program(LINES_IN.as_bytes()), LINES_OUT);
    checks.same("lines without the last line feed", &program(LINES_IN.trim_end().as_bytes()), LINES_OUT);
    checks.same("the example of docs/SCRIPTS.md", &run::<Rust>(SCRIPT_IN), SCRIPT_OUT);
}

fn stamped(stamp: &str) -> String {
    let changes = vec![change::created_at(stamp.as_bytes())];
    let batch = Batch { handle: 1, epoch: 0, commit_no: 1, part: COMMIT, changes, records: Vec::new() };
    digits::write(&wire::batch(&batch))
}

/// Taken: as many bytes as the frame has, and the same digits again.
fn taken(hex: &str) -> String {
    format!("{} {hex}", hex.len() / 2)
}

fn starred(checks: &mut Checks) {
    checks.frame("", "more");
    checks.frame("00000000", "R 2");
    checks.frame("00000004", "more");
    checks.frame("01000004", "R 1 67108865");
    checks.frame("06000000060900000001", "10 06000000060900000001");
    checks.frame("06000000060900000005", "R 3 refusal 5");
    let text = |bytes: &[u8]| digits::write(&wire::hello(1, 0, bytes, &[]));
    let last_point = text(b"\xf4\x8f\xbf\xbf");
    checks.frame(&last_point, &taken(&last_point));
    checks.frame(&text(b"\xed\xa0\x80"), "R 4");
    let leap = stamped("20261115-23:59:60");
    checks.frame(&leap, &taken(&leap));
    checks.frame(&stamped("20261115-24:00:00"), "R 6");
    let script = format!("7 0 9 9 1 1\nF {}\nF {}\nY 5 {}\n", bind(), commit(vec![change::bare_record(2)]), key_text());
    let start = 0xcbf2_9ce4_8422_2325_u64;
    let last = run::<Rust>(&script).lines().last().map(String::from).unwrap_or_default();
    checks.same("next 3, n 5, nothing stored", &last, &format!("out=3 in=1 flight=- stamp=- marks= last={start}"));
    let third = run::<Rust>("7 0 0 0 0 0\nQ 2 0 1 2 3\n");
    checks.same(
        "the third push drains one",
        third.lines().last().unwrap_or_default(),
        "drained=1 through=1 waiting=2 numbers=1",
    );
}

/// The days of each month, by hand, and those of a whole cycle: 146,097 (document 02, U8).
fn days(checks: &mut Checks) {
    let taken = |year: u64, month: u64, day: u64| {
        let stamp = format!("{year:04}{month:02}{day:02}-00:00:00");
        let frame = digits::read(stamped(&stamp).as_bytes()).expect("digits");
        read_by_rust(FIRST, &frame).text() != "R 6"
    };
    let last = |year, month| (28..=32).filter(|day| taken(year, month, *day)).max().unwrap_or(0);
    let common: Vec<u64> = (1..=12).map(|month| last(2023, month)).collect();
    checks.same("months of 2023", &format!("{common:?}"), "[31, 28, 31, 30, 31, 30, 31, 31, 30, 31, 30, 31]");
    let february = [2023, 2024, 1900, 2000, 2100, 0].map(|year| last(year, 2));
    checks.same("February", &format!("{february:?}"), "[28, 29, 28, 29, 28, 29]");
    let days = cycle().filter(|(year, month, day)| taken(*year, *month, *day));
    checks.same("days of 400 years", &days.count().to_string(), "146097");
    let made = cycle().filter(|(year, month, day)| *day <= last_day(*year, *month));
    checks.same("days of 400 years for good stamps", &made.count().to_string(), "146097");
}

fn bind() -> String {
    digits::write(&wire::bind(1, 0, 0, &key("B")))
}

fn commit(changes: Vec<Vec<u8>>) -> String {
    let batch = Batch { handle: 1, epoch: 0, commit_no: 1, part: COMMIT, changes, records: Vec::new() };
    digits::write(&wire::batch(&batch))
}

fn key_text() -> String {
    crate::call::key_text(&key("B"))
}

/// FNV-1a's own public vectors, then the summary's hash against it.
fn fnv(checks: &mut Checks) {
    for (text, must) in
        [("", 0xcbf2_9ce4_8422_2325_u64), ("a", 0xaf63_dc4c_8601_ec8c), ("foobar", 0x8594_4171_f739_67e8)]
    {
        checks.same(&format!("FNV-1a of {text:?}"), &fnv_1a(text.as_bytes()).to_string(), &must.to_string());
    }
    let hashed =
        [&1_u64.to_le_bytes()[..], &3_u64.to_le_bytes(), b"abc", &2_u64.to_le_bytes(), &0_u64.to_le_bytes()].concat();
    let changes = vec![change::record(1, b"abc"), change::record(2, b""), change::bare_record(3)];
    let script = format!("7 0 9 9 1 1\nF {}\nF {}\nY 9 {}\n", bind(), commit(changes), key_text());
    let must = format!("out=4 in=1 flight=- stamp=- marks= last={}", fnv_1a(&hashed));
    checks.same("last_outgoing", run::<Rust>(&script).lines().last().unwrap_or_default(), &must);
}

/// RFC 3629 by its table of byte ranges (section 4), against what reading takes.
fn utf_8(checks: &mut Checks) {
    let table: [&[(u8, u8)]; 9] = [
        &[(0x00, 0x7f)],
        &[(0xc2, 0xdf), (0x80, 0xbf)],
        &[(0xe0, 0xe0), (0xa0, 0xbf), (0x80, 0xbf)],
        &[(0xe1, 0xec), (0x80, 0xbf), (0x80, 0xbf)],
        &[(0xed, 0xed), (0x80, 0x9f), (0x80, 0xbf)],
        &[(0xee, 0xef), (0x80, 0xbf), (0x80, 0xbf)],
        &[(0xf0, 0xf0), (0x90, 0xbf), (0x80, 0xbf), (0x80, 0xbf)],
        &[(0xf1, 0xf3), (0x80, 0xbf), (0x80, 0xbf), (0x80, 0xbf)],
        &[(0xf4, 0xf4), (0x80, 0x8f), (0x80, 0xbf), (0x80, 0xbf)],
    ];
    let one = |bytes: &[u8]| {
        let fits =
            |row: &&[(u8, u8)]| row.len() == bytes.len() && row.iter().zip(bytes).all(|(r, b)| (r.0..=r.1).contains(b));
        table.iter().any(|row| fits(row))
    };
    let borders = [0x00, 0x7f, 0x80, 0x8f, 0x90, 0x9f, 0xa0, 0xbf, 0xc0, 0xff];
    let refused = read_by_rust(FIRST, &wire::hello(1, 0, b"\xff", &[]));
    let mut wrong = Vec::new();
    let mut judge = |text: &[u8]| {
        // A character with more after it is judged by the shorter text.
        let goes_on = (1..text.len()).any(|cut| one(&text[..cut]));
        if !goes_on && (read_by_rust(FIRST, &wire::hello(1, 0, text, &[])) != refused) != one(text) {
            wrong.push(digits::write(text));
        }
    };
    for first in 0..=255 {
        judge(&[first]);
        for second in borders {
            judge(&[first, second]);
            for third in borders {
                judge(&[first, second, third]);
                borders.iter().for_each(|fourth| judge(&[first, second, third, *fourth]));
            }
        }
    }
    checks.same("RFC 3629's table", &wrong.join(" "), "");
}

/// The longest frame is written; one byte more makes the Rust panic (difference 1 in writing).
fn longest(checks: &mut Checks) {
    let body = |len: usize| {
        let frame = Frame::Hello { version: 1, epoch: 0, node: "n".repeat(len - 19), app_record_kinds: Vec::new() };
        catch_unwind(|| encoded(&frame).len()).ok()
    };
    checks.same("a body at the limit", &format!("{:?}", body(67_108_864)), "Some(67108868)");
    set_hook(Box::new(|_| {}));
    checks.same("a body past the limit", &format!("{:?}", body(67_108_865)), "None");
    drop(take_hook());
}

/// What the recorded lists say is what the Rust answers today.
fn recorded(checks: &mut Checks, folder: &Path) {
    for (name, must) in record::files() {
        checks.made += 1;
        if fs::read(folder.join(&name)).ok() != Some(must) {
            checks.failed += 1;
            println!("FAILED recorded/{name} isn't what the Rust gives now");
        }
    }
}

/// Stored sessions: the plain cases of document 01's rules.
fn store(checks: &mut Checks) {
    let state = |setting: &str, changes: Vec<Vec<u8>>| {
        let script = format!("{setting}\nF {}\nF {}\nS\n", bind(), commit(changes));
        let text = run::<Rust>(&script);
        text.lines()
            .find(|line| line.starts_with("session"))
            .map(|line| line[line.find("out=").unwrap_or(0)..].to_string())
    };
    let must = |line: &str| Some(line.to_string());
    let three = || vec![change::record(1, b"aaa"), change::record(2, b"bb"), change::record(3, b"c")];
    let cases = [
        ("7 0 6 3 1 1", "out=4 in=1 flight=- marks= messages=1:616161;2:6262;3:63 durable=1"),
        ("7 0 5 3 1 1", "out=4 in=1 flight=- marks= messages=2:6262;3:63 durable=1"),
        ("7 0 6 2 1 1", "out=4 in=1 flight=- marks= messages=2:6262;3:63 durable=1"),
        ("7 0 2 3 1 1", "out=4 in=1 flight=- marks= messages=3:63 durable=1"),
        ("7 0 0 3 1 1", "out=4 in=1 flight=- marks= messages= durable=1"),
        ("7 0 6 0 1 1", "out=4 in=1 flight=- marks= messages= durable=1"),
    ];
    for (setting, line) in cases {
        checks.same(setting, &format!("{:?}", state(setting, three())), &format!("{:?}", must(line)));
    }
    // A message longer than C leaves the others.
    let long = vec![change::record(1, b"aa"), change::record(2, b"bbbb")];
    let line = must("out=3 in=1 flight=- marks= messages=1:6161 durable=1");
    checks.same("too long", &format!("{:?}", state("7 0 3 3 1 1", long)), &format!("{line:?}"));
}

pub fn selftest(folder: &Path) -> bool {
    let mut checks = Checks::default();
    examples(&mut checks);
    starred(&mut checks);
    days(&mut checks);
    fnv(&mut checks);
    store(&mut checks);
    utf_8(&mut checks);
    longest(&mut checks);
    recorded(&mut checks, folder);
    let setting = crate::call::Setting::read("7 0 33554433 0 1 1").expect("a setting");
    checks.same("C too great", &Rust::make(&setting).is_none().to_string(), "true");
    println!("selftest: {} checks, {} failed", checks.made, checks.failed);
    checks.failed == 0
}
