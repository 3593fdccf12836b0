//! A `std` whose clock is a list of times handed in, in nanoseconds; all else is the standard library's.

pub use std::*;

pub mod time {
    pub use std::time::Duration;

    use std::cell::RefCell;
    use std::collections::VecDeque;

    thread_local! {
        static TIMES: RefCell<VecDeque<u64>> = const { RefCell::new(VecDeque::new()) };
    }

    /// The times that the next questions for the time are answered with, one each; the last stays.
    pub fn hand_in(times: &[u64]) {
        TIMES.with_borrow_mut(|queue| {
            queue.clear();
            queue.extend(times);
        });
    }

    #[derive(Debug, Clone, Copy, PartialEq, Eq, PartialOrd, Ord)]
    pub struct Instant(pub u64);

    impl Instant {
        pub fn now() -> Self {
            Self(TIMES.with_borrow_mut(|queue| if queue.len() > 1 { queue.pop_front().unwrap() } else { queue[0] }))
        }

        /// None past the last time there is.
        pub fn checked_add(self, duration: Duration) -> Option<Self> {
            self.0.checked_add(u64::try_from(duration.as_nanos()).ok()?).map(Self)
        }

        pub fn checked_duration_since(self, earlier: Self) -> Option<Duration> {
            self.0.checked_sub(earlier.0).map(Duration::from_nanos)
        }
    }

    /// At most the last time there is.
    impl std::ops::Add<Duration> for Instant {
        type Output = Self;

        fn add(self, duration: Duration) -> Self {
            self.checked_add(duration).unwrap_or(Self(u64::MAX))
        }
    }
}
