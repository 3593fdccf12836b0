//! FIX message logs by chance: good ones, and ones with a fault of each kind.

use crate::generate::Random;

const TAGS: [&[u8]; 12] = [b"34", b"34", b"49", b"52", b"8", b"9", b"35", b"10", b"58", b"034", b"340", b"3333333333333333333333333"];
const VALUES: [&[u8]; 16] = [
    b"1", b"0", b"2", b"007", b"18446744073709551614", b"18446744073709551615", b"18446744073709551616", b"0000000000000000000000000000000000000002",
    b"99999999999999999999999999999999999999999", b"-1", b"a", b"", b"x=y", b"\x80\xff\x00", b" 3", b"3 ",
];
const SALT: &[u8] = b"0123456789=\x01\x01=";

fn field(tag: &[u8], value: &[u8]) -> Vec<u8> {
    [tag, b"=", value, &[1]].concat()
}

/// A message of this number; now and then with other fields, a false length, a false sum.
fn message(random: &mut Random, number: u64) -> Vec<u8> {
    let mut body = field(b"35", b"D");
    let zeros = if random.percent(6) { "0".repeat(random.below(40) as usize) } else { String::new() };
    let sequence = field(b"34", format!("{zeros}{number}").as_bytes());
    let at = random.below(3);
    for turn in 0..=at {
        if turn == at && !random.percent(2) {
            body.extend(&sequence);
        } else if random.percent(12) {
            body.extend(field(random.pick(&TAGS), random.pick(&VALUES)));
        } else {
            body.extend(field(b"58", &vec![b'a' + random.below(26) as u8; 1 + random.below(40) as usize]));
        }
    }
    let length = match random.below(40) {
        0 => (body.len() + 1).to_string(),
        1 => (body.len() - 1).to_string(),
        2 => format!("{}{}", "0".repeat(random.below(40) as usize), body.len()),
        3 => String::from_utf8_lossy(random.pick(&VALUES)).into_owned(),
        _ => body.len().to_string(),
    };
    let text = [field(b"8", b"FIX.4.4"), field(b"9", length.as_bytes()), body].concat();
    let sum: u64 = text.iter().map(|byte| u64::from(*byte)).sum::<u64>() % 256;
    let told = match random.below(40) {
        0 => format!("{:03}", (sum + 1) % 256),
        1 => format!("{sum}"),
        2 => format!("{sum:04}"),
        3 => format!("{:03}", sum + 256),
        _ => format!("{sum:03}"),
    };
    [text, field(b"10", told.as_bytes())].concat()
}

/// A byte changed, left out, doubled or put in; or the file cut.
fn damage(random: &mut Random, file: &mut Vec<u8>) {
    let at = random.below(file.len() as u64) as usize;
    match random.below(6) {
        0 => file[at] = random.below(256) as u8,
        1 => file[at] = random.pick(SALT),
        2 => drop(file.remove(at)),
        3 => file.insert(at, random.pick(SALT)),
        4 => file[at] ^= 1 << random.below(8),
        _ => file.truncate(at),
    }
}

/// A file of up to five messages whose numbers mostly rise, damaged more often than not.
pub fn file(random: &mut Random) -> Vec<u8> {
    let (mut file, mut next) = (Vec::new(), 1);
    for _ in 0..random.below(6) {
        let number = match random.below(24) {
            0 => random.below(next),
            1 => u64::MAX - random.below(3),
            2..8 => next.saturating_add(random.below(1000)),
            _ => next,
        };
        file.extend(message(random, number));
        next = number.saturating_add(1);
    }
    if !file.is_empty() && random.percent(55) {
        for _ in 0..=random.below(2) {
            if !file.is_empty() {
                damage(random, &mut file);
            }
        }
    }
    file
}
