//! Times the proved test of a stamp, before and now, beside straight Rust of the same rule: the sides take turns, the least of many rounds counts.
//! First they are compared on every day of 10,000 years, each with the day 00 and those to 32, and on each stamp cut or with one byte changed; the test
//! before only up to 23 bytes, since it may not know the longer forms.
use std::hint::black_box;
use std::time::Instant;

extern "C" {
    fn stamp_before(s: *const u8, len: usize) -> u8;
    fn stamp_now(s: *const u8, len: usize) -> u8;
}

fn before(s: &[u8]) -> bool {
    unsafe { stamp_before(s.as_ptr(), s.len()) != 0 }
}

fn now(s: &[u8]) -> bool {
    unsafe { stamp_now(s.as_ptr(), s.len()) != 0 }
}

/// Form and ranges, then the day.
fn straight(s: &[u8]) -> bool {
    in_ranges(s) && two(s, 6) <= last_day(two(s, 0) * 100 + two(s, 2), two(s, 4))
}

fn two(s: &[u8], at: usize) -> u32 {
    u32::from(s[at] - b'0') * 10 + u32::from(s[at + 1] - b'0')
}

fn last_day(year: u32, month: u32) -> u32 {
    match month {
        2 if year % 4 == 0 && (year % 100 != 0 || year % 400 == 0) => 29,
        2 => 28,
        4 | 6 | 9 | 11 => 30,
        _ => 31,
    }
}

fn in_ranges(s: &[u8]) -> bool {
    let form = b"dddddddd-dd:dd:dd.dddddddddddd";
    matches!(s.len(), 17 | 21 | 24 | 27 | 30)
        && s.iter().zip(form).all(|(byte, form)| if *form == b'd' { byte.is_ascii_digit() } else { byte == form })
        && (1..=12).contains(&two(s, 4))
        && (1..=31).contains(&two(s, 6))
        && two(s, 9) <= 23
        && two(s, 12) <= 59
        && two(s, 15) <= 60
}

fn compare(s: &[u8]) {
    let is = straight(s);
    assert_eq!((s.len() > 23 || before(s) == is, now(s)), (true, is), "{}", String::from_utf8_lossy(s));
}

/// So many stamps of days that exist, by chance, with this many digits behind the point.
fn stamps(count: usize, digits: usize) -> Vec<Vec<u8>> {
    let mut state = 7_u64;
    let mut below = |n: u64| {
        state = state.wrapping_mul(6_364_136_223_846_793_005).wrapping_add(1_442_695_040_888_963_407);
        ((state >> 33) % n) as u32
    };
    let mut one = || {
        let (year, month) = (below(10_000), 1 + below(12));
        let day = 1 + below(u64::from(last_day(year, month)));
        let text = format!("{year:04}{month:02}{day:02}-{:02}:{:02}:{:02}", below(24), below(60), below(61));
        let behind: String = (0..digits).map(|_| char::from(b'0' + below(10) as u8)).collect();
        if digits > 0 { format!("{text}.{behind}").into_bytes() } else { text.into_bytes() }
    };
    (0..count).map(|_| one()).collect()
}

/// Nanoseconds a stamp.
fn time(test: fn(&[u8]) -> bool, stamps: &[Vec<u8>]) -> f64 {
    let start = Instant::now();
    let taken = stamps.iter().filter(|stamp| test(black_box(stamp))).count();
    black_box(taken);
    start.elapsed().as_nanos() as f64 / stamps.len() as f64
}

fn main() {
    for year in 0..10_000 {
        for month in 0..=13 {
            (0..=32).for_each(|day| compare(format!("{year:04}{month:02}{day:02}-23:59:60").as_bytes()));
        }
    }
    let forms = [0, 3, 6, 9, 12].map(|digits| stamps(1_024, digits));
    for stamp in forms.iter().flatten() {
        (0..=stamp.len()).for_each(|end| compare(&stamp[..end]));
        for at in 0..stamp.len() {
            for byte in 0..=255 {
                let mut changed = stamp.clone();
                changed[at] = byte;
                compare(&changed);
            }
        }
    }
    println!("| 1,024 stamps by chance | before, ns | now, ns | now - before | straight Rust, ns | now / Rust |\n|---|---|---|---|---|---|");
    for stamps in &forms {
        let (mut least, len) = ([f64::MAX; 3], stamps[0].len());
        for _ in 0..3_000 {
            for (slot, test) in least.iter_mut().zip([before as fn(&[u8]) -> bool, now, straight]) {
                *slot = slot.min(time(test, stamps));
            }
        }
        let [b, n, s] = least;
        let known = before(&stamps[0]);
        let (b, more) = if known { (format!("{b:.1}"), format!("{:+.1}", n - b)) } else { ("-".into(), "-".into()) };
        println!("| of {len} bytes | {b} | {n:.1} | {more} | {s:.1} | {:.2} |", n / s);
    }
}
