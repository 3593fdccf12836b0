//! Times both directions beside the conversion by formula, which is straight Rust: the sides take turns, the least of many rounds counts.

use std::hint::black_box;
use std::time::Instant;

use crate::formula::Formula;
use crate::ours::Ours;
use crate::{LONGEST, Side};

const COUNT: usize = 1_024;
const ROUNDS: usize = 400;

/// Numbers by chance to the end of 9999, of so many digits after the point.
fn numbers(digits: u32) -> Vec<(u64, u64)> {
    let mut state = 7_u64;
    let mut below = |n: u64| {
        state = state.wrapping_mul(6_364_136_223_846_793_005).wrapping_add(1_442_695_040_888_963_407);
        u64::try_from(u128::from(state) * u128::from(n) >> 64).unwrap_or(0)
    };
    let mut one = || {
        let seconds = below(253_402_300_800);
        let fraction = (1 + below(999)) * 1_000_u64.pow(4 - digits / 3);
        let fraction = if digits == 0 {
            0
        } else {
            fraction + below(10_u64.pow(digits.saturating_sub(3))) * 1_000_u64.pow(5 - digits / 3)
        };
        let fraction = fraction % 1_000_000_000_000;
        (seconds * 1_000 + fraction / 1_000_000_000, fraction % 1_000_000_000)
    };
    (0..COUNT).map(|_| one()).collect()
}

fn nanos(work: impl Fn()) -> f64 {
    let start = Instant::now();
    work();
    start.elapsed().as_nanos() as f64 / COUNT as f64
}

fn reading<S: Side>(stamps: &[Vec<u8>]) -> f64 {
    nanos(|| {
        for stamp in stamps {
            black_box(S::read(black_box(stamp)).ok());
        }
    })
}

fn writing<S: Side>(numbers: &[(u64, u64)]) -> f64 {
    nanos(|| {
        let mut area = [0; LONGEST];
        for (millis, picos) in numbers {
            black_box(S::write(black_box(*millis), black_box(*picos), &mut area).ok());
        }
    })
}

pub fn run() {
    println!("{:>8} {:>12} {:>12} {:>12} {:>12}", "digits", "read ours", "by formula", "write ours", "by formula");
    for digits in [0, 3, 6, 9, 12] {
        let numbers = numbers(digits);
        let text = |(millis, picos): &(u64, u64)| {
            let mut area = [0; LONGEST];
            let len = Formula::write(*millis, *picos, &mut area).expect("it is in range");
            area[..len].to_vec()
        };
        let stamps: Vec<Vec<u8>> = numbers.iter().map(text).collect();
        let mut least = [f64::MAX; 4];
        for _ in 0..ROUNDS {
            let round = [
                reading::<Ours>(&stamps),
                reading::<Formula>(&stamps),
                writing::<Ours>(&numbers),
                writing::<Formula>(&numbers),
            ];
            for (least, now) in least.iter_mut().zip(round) {
                *least = least.min(now);
            }
        }
        println!("{digits:>8} {:>12.1} {:>12.1} {:>12.1} {:>12.1}", least[0], least[1], least[2], least[3]);
    }
}
