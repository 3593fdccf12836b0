//! Times the proved test for UTF-8, before and now, beside `std::str::from_utf8`: the sides take turns, the least of many rounds counts.
//! First all three are compared on every string of one and two bytes, and on each text cut at every byte.
use std::hint::black_box;
use std::time::Instant;

extern "C" {
    fn utf8_before(s: *const u8, len: usize) -> u8;
    fn utf8_now(s: *const u8, len: usize) -> u8;
}

fn before(s: &[u8]) -> bool {
    unsafe { utf8_before(s.as_ptr(), s.len()) != 0 }
}

fn now(s: &[u8]) -> bool {
    unsafe { utf8_now(s.as_ptr(), s.len()) != 0 }
}

fn std_utf8(s: &[u8]) -> bool {
    std::str::from_utf8(s).is_ok()
}

fn compare(s: &[u8]) {
    let expected = std_utf8(s);
    assert_eq!((before(s), now(s)), (expected, expected), "{s:02x?}");
}

/// Nanoseconds a call.
fn time(test: fn(&[u8]) -> bool, text: &[u8], calls: u32) -> f64 {
    let start = Instant::now();
    for _ in 0..calls {
        black_box(test(black_box(text)));
    }
    start.elapsed().as_nanos() as f64 / f64::from(calls)
}

fn main() {
    let prose = |s: &str| s.repeat(4_096 / s.len()).into_bytes();
    let texts: Vec<(&str, Vec<u8>)> = vec![
        ("ASCII, 7 bytes", b"FIX.4.4".to_vec()),
        ("ASCII, 17 bytes", b"20240229-23:59:60".to_vec()),
        ("ASCII, 21 bytes", b"20240229-23:59:59.999".to_vec()),
        ("ASCII, 30 bytes", vec![b'A'; 30]),
        ("ASCII, 64 bytes", vec![b'A'; 64]),
        ("ASCII, 4,096 bytes", vec![b'A'; 4_096]),
        ("Greek", prose("Οι συναλλαγές της ημέρας έκλεισαν. ")),
        ("Japanese", prose("本日の取引は終了しました。")),
        ("emoji", prose("📈📉💹🏦")),
        ("German", prose("Die Geschäfte des Tages wurden für alle Kunden abgeschlossen und geprüft. ")),
        ("mixed", prose("Order 17 für 取引 💹 συναλλαγή, filled at 101.25. ")),
    ];
    for k in 0..=0xFFFFu16 {
        compare(&k.to_be_bytes());
        compare(&k.to_be_bytes()[1..]);
    }
    for (_, text) in &texts {
        (0..=text.len()).for_each(|end| compare(&text[..end]));
    }
    println!("| text | before, ns | now, ns | now / before | before / std | now / std |\n|---|---|---|---|---|---|");
    for (name, text) in &texts {
        let calls = (200_000 / text.len().max(16)).max(20) as u32;
        let mut least = [f64::MAX; 3];
        for _ in 0..300 {
            for (slot, test) in least.iter_mut().zip([before as fn(&[u8]) -> bool, now, std_utf8]) {
                *slot = slot.min(time(test, text, calls));
            }
        }
        let [b, n, s] = least;
        println!("| {name} | {b:.1} | {n:.1} | {:.2} | {:.2} | {:.2} |", n / b, b / s, n / s);
    }
}
