//! Times our side and active.rs over its own collections on the same calls in one run.

use crate::ours::{
    Incarnation, wz_books_all_compared, wz_books_caught_up, wz_books_closed, wz_books_ended, wz_books_fall_behind,
    wz_books_make, wz_books_next_to_catch_up, wz_books_opening,
};
use crate::rust::ids;
use books_std::active::reach::Books;
use std::hint::black_box;
use std::time::Instant;
use turbojet::SessionId;

const SEVEN: Incarnation = Incarnation(7);

/// Nanoseconds of one call: the least of many short rounds, since other programs may run beside this one.
fn time(rounds: usize, calls: usize, mut call: impl FnMut(usize)) -> f64 {
    let mut least = f64::INFINITY;
    for _ in 0..rounds {
        let began = Instant::now();
        for i in 0..calls {
            call(i);
        }
        least = least.min(began.elapsed().as_nanos() as f64 / calls as f64);
    }
    least
}

/// Every session met in rising order and compared with 7, on both sides.
struct Both {
    words: Vec<u64>,
    books: Books,
    ids: Vec<SessionId>,
    listing: Vec<u64>,
    listed: Vec<SessionId>,
}

impl Both {
    fn new(sessions: u64, reversed: bool) -> Self {
        let all: Vec<u64> = (0..sessions).collect();
        let listing: Vec<u64> = if reversed { all.iter().rev().copied().collect() } else { all.clone() };
        let mut words = vec![0; 1286];
        wz_books_make(&mut words);
        let (books, names) = (Books::new(), ids(&all));
        for (session, id) in all.iter().zip(&names) {
            wz_books_caught_up(&mut words, *session, SEVEN);
            books.caught_up(id, 7);
        }
        Self { words, books, ids: names, listed: ids(&listing), listing }
    }

    fn opening_and_closing(&mut self) -> (f64, f64) {
        let n = self.ids.len();
        let ours = time(200, 2_000, |i| {
            wz_books_opening(&mut self.words, (i % n) as u64);
            wz_books_closed(&mut self.words, (i % n) as u64);
        });
        let rust = time(200, 2_000, |i| {
            self.books.opening(&self.ids[i % n]);
            self.books.closed(&self.ids[i % n]);
        });
        (ours, rust)
    }

    fn falling_and_caught_up(&mut self) -> (f64, f64) {
        let n = self.ids.len();
        let ours = time(200, 2_000, |i| {
            wz_books_fall_behind(&mut self.words, (i % n) as u64);
            wz_books_caught_up(&mut self.words, (i % n) as u64, SEVEN);
        });
        let rust = time(200, 2_000, |i| {
            self.books.fall_behind(&self.ids[i % n]);
            self.books.caught_up(&self.ids[i % n], 7);
        });
        (ours, rust)
    }

    fn next_with_none(&mut self) -> (f64, f64) {
        let ours = time(200, 50, |_| {
            let next = wz_books_next_to_catch_up(&mut self.words, &self.listing, SEVEN);
            assert_eq!((next.refusal, next.flag), (0, 0));
        });
        let rust = time(200, 50, |_| assert!(black_box(self.books.next_to_catch_up(&self.listed, 7)).is_none()));
        (ours, rust)
    }

    fn all_compared(&mut self) -> (f64, f64) {
        let ours = time(200, 50, |_| assert_eq!(wz_books_all_compared(&mut self.words, &self.listing, SEVEN).flag, 1));
        let rust = time(200, 50, |_| assert!(black_box(self.books.all_compared(&self.listed, 7))));
        (ours, rust)
    }

    fn all_fall_and_a_pass(&mut self) -> (f64, f64) {
        let ours = time(60, 1, |_| {
            (0..self.ids.len() as u64).for_each(|session| {
                wz_books_fall_behind(&mut self.words, session);
            });
            loop {
                let next = wz_books_next_to_catch_up(&mut self.words, &self.listing, SEVEN);
                if next.flag == 0 {
                    return;
                }
                wz_books_caught_up(&mut self.words, next.session, SEVEN);
                wz_books_ended(&mut self.words, next.session, SEVEN);
            }
        });
        let rust = time(60, 1, |_| {
            self.ids.iter().for_each(|id| self.books.fall_behind(id));
            while let Some(id) = self.books.next_to_catch_up(&self.listed, 7) {
                self.books.caught_up(&id, 7);
                self.books.ended(&id, 7);
            }
        });
        (ours, rust)
    }
}

type Timing = fn(&mut Both) -> (f64, f64);

const ROWS: [(&str, Timing); 5] = [
    ("opening and closing", Both::opening_and_closing),
    ("falling behind and being caught up", Both::falling_and_caught_up),
    ("next with none", Both::next_with_none),
    ("all_compared", Both::all_compared),
    ("all fall behind and a pass", Both::all_fall_and_a_pass),
];

pub fn bench() {
    println!("| sessions, listing | call | ours, ns | the Rust, ns | ratio |\n|-|-|-|-|-|");
    for (sessions, reversed) in [(1, false), (16, false), (256, false), (16, true), (256, true)] {
        let order = if reversed { "reversed" } else { "in the order met" };
        for (name, timing) in ROWS {
            let (ours, rust) = timing(&mut Both::new(sessions, reversed));
            println!("| {sessions}, {order} | {name} | {ours:.1} | {rust:.1} | {:.2} |", ours / rust);
        }
    }
}
