//! Times our side and lease.rs on the same questions and attempts in one run.

use crate::ours::{Lease, wz_lease_attempt, wz_lease_new, wz_lease_renewal};
use crate::thread_time::now;
use lease_std::lease::reach::Clocked;
use std::hint::black_box;
use std::time::Duration;

const CALLS: usize = 2_000;
const ROUNDS: usize = 3_000;
/// So many leases are asked in turn; of one alone, each call waits for the stores of the one before it.
const LEASES: usize = 64;
const HOUR: Duration = Duration::from_secs(3600);

/// Nanoseconds a call: the round below which one in a hundred lies. Other programs may run beside this one, and the least of all can be
/// a single false reading of the clock.
fn time(mut call: impl FnMut(usize)) -> f64 {
    let mut rounds: Vec<f64> = (0..ROUNDS)
        .map(|_| {
            let began = now();
            for i in 0..CALLS {
                call(i);
            }
            (now() - began) / CALLS as f64
        })
        .collect();
    rounds.sort_by(f64::total_cmp);
    rounds[ROUNDS / 100]
}

/// Our calls on some leases of this duration in turn, at a time that never falls.
fn ours(duration: Duration, leases: usize, call: impl Fn(&mut Lease, u64)) -> f64 {
    let mut words = vec![[0; 4]; leases];
    for lease in &mut words {
        wz_lease_new(lease, duration.as_nanos() as u64, 0);
    }
    let mut now = 0;
    time(|i| {
        now += 1;
        call(&mut words[i & (leases - 1)], now);
    })
}

fn question(lease: &mut Lease, now: u64) {
    black_box(wz_lease_renewal(lease, now).due);
}

fn attempt(lease: &mut Lease, now: u64) {
    black_box(wz_lease_attempt(lease, now, now, black_box(0)));
}

fn row(name: &str, ours: f64, rust: f64) {
    println!("| {name} | {ours:.1} | {rust:.1} | {:.2} |", ours / rust);
}

pub fn bench() {
    println!("| call | ours, ns | the Rust, ns | ratio |\n|-|-|-|-|");
    let (far, near) = (Clocked::new(HOUR), Clocked::new(Duration::ZERO));
    let not_due = time(|_| drop(black_box(far.plain_renewal())));
    let due = time(|_| drop(black_box(near.plain_renewal())));
    let renewed = time(|_| drop(black_box(near.plain_renewal().map(|job| job.run()))));
    for (whose, leases) in [("", LEASES), (", of the same lease again at once", 1)] {
        row(&format!("a question, not due{whose}"), ours(HOUR, leases, question), not_due);
        row(&format!("a question, due{whose}"), ours(Duration::ZERO, leases, question), due);
        row(&format!("an attempt, renewed{whose} (the Rust: with its question)"), ours(HOUR, leases, attempt), renewed);
    }
}
