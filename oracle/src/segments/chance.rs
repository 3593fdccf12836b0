//! Scripts by chance.

use std::fmt::Write;

use crate::splitmix::Chance;

fn hex(bytes: &[u8]) -> String {
    bytes.iter().fold(String::new(), |mut text, byte| {
        write!(text, "{byte:02x}").expect("a string can be written");
        text
    })
}

fn line(out: &mut String, text: std::fmt::Arguments) {
    writeln!(out, "{text}").expect("a string can be written");
}

/// One hold area: what stands in it, and Wholes.
fn case(chance: &mut Chance, out: &mut String) {
    let places = [0, 1, 1, 2, 3, 5][chance.below(6) as usize];
    let place = if chance.below(20) == 0 { chance.next() } else { chance.below(places.max(1)) };
    let share = [0, 1, 2, 5, 6][chance.below(5) as usize];
    let lent = (places.max(1) * share + chance.below(3)).min(32);
    let large = chance.below(6) == 0;
    let mut ends = Vec::new();
    let held = if large {
        let (count, len) = ([300, 700, 2000][chance.below(3) as usize], [40, 87, 300][chance.below(3) as usize]);
        line(out, format_args!("r 0 {count} {len}"));
        for i in 1..=count {
            ends.push(i * (13 + len));
        }
        ends.iter().copied().filter(|end| *end <= 200_000).next_back().unwrap_or(0) - chance.below(3)
    } else {
        let count = chance.below(14);
        let (bytes, all) = chance.pieces(count);
        ends = all;
        if !bytes.is_empty() {
            line(out, format_args!("x 0 {}", hex(&bytes)));
        }
        (bytes.len() as u64).saturating_sub(chance.below(3)) + chance.below(2)
    };
    line(out, format_args!("n {held} {places} {place} {lent}"));
    if large {
        // A few of the ends, far apart.
        let step = 1 + chance.below(700) as usize;
        ends = ends.into_iter().step_by(step).skip(1).collect();
    }
    for (at, word) in chance.words(lent, &ends, held).into_iter().enumerate() {
        line(out, format_args!("w {at} {word}"));
    }
    line(out, format_args!("Q"));
    for _ in 0..chance.below(5) {
        if large {
            let (count, len) = ([1, 20, 400, 900][chance.below(4) as usize], [0, 65, 151, 399][chance.below(4) as usize]);
            line(out, format_args!("R {count} {len}"));
        } else {
            let count = 1 + chance.below(5);
            let (bytes, _) = chance.pieces(count);
            if bytes.is_empty() {
                continue;
            }
            line(out, format_args!("W {}", hex(&bytes)));
        }
        line(out, format_args!("Q"));
    }
    if chance.below(3) == 0 {
        // Cleared, and another session begins over the old words.
        line(out, format_args!("n 0 {places} {place} {lent}"));
        line(out, format_args!("Q"));
        for _ in 0..chance.below(4) {
            // A segment of 65,536 bytes, and of one less, among them.
            let (count, len) = if large { [(500, 120), (1, 65_523), (1, 65_522)][chance.below(3) as usize] } else { (2, 3) };
            line(out, format_args!("R {count} {len}"));
            line(out, format_args!("Q"));
        }
    }
}

/// A script of about so many bytes.
pub fn script(bytes: usize, seed: u64) -> String {
    let (mut chance, mut out) = (Chance(seed), String::new());
    while out.len() < bytes {
        case(&mut chance, &mut out);
    }
    out
}
