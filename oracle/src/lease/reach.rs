//! What is private in lease.rs, for the drivers: a lease whose duration and outcome are told, and the active's hold on it.

use super::*;

struct Told {
    duration: Mutex<Duration>,
    outcome: Mutex<Option<io::ErrorKind>>,
}

impl Lease for Told {
    fn duration(&self) -> Duration {
        *self.duration.lock().unwrap()
    }

    fn acquire(&self) -> Job<u64> {
        Job::blocking(|| Ok(1))
    }

    fn renew(&self, _: u64) -> Job<()> {
        let outcome = *self.outcome.lock().unwrap();
        Job::blocking(move || outcome.map_or(Ok(()), |kind| Err(kind.into())))
    }

    fn release(&self, _: u64) -> Job<()> {
        Job::blocking(|| Ok(()))
    }

    fn set_in_sync(&self, _: u64, _: bool) -> Job<()> {
        Job::blocking(|| Ok(()))
    }

    fn in_sync(&self, _: u64) -> Job<bool> {
        Job::blocking(|| Ok(true))
    }
}

pub struct Clocked(Arc<Told>, Arc<Held>);

impl Clocked {
    pub fn new(duration: Duration) -> Self {
        let told = Arc::new(Told { duration: Mutex::new(duration), outcome: Mutex::new(None) });
        let held = Held::new(told.clone(), 1);
        Self(told, held)
    }

    /// `renewal`, of a lease that says this duration; the attempt, if one is made, ends so.
    pub fn renewal(&self, duration: Duration, outcome: Option<io::ErrorKind>) -> Option<Job<()>> {
        *self.0.duration.lock().unwrap() = duration;
        *self.0.outcome.lock().unwrap() = outcome;
        self.1.renewal()
    }

    /// `renewal` and nothing else, for timing.
    pub fn plain_renewal(&self) -> Option<Job<()>> {
        self.1.renewal()
    }

    #[cfg(clocked)]
    pub fn until(&self) -> u64 {
        self.1.until.lock().unwrap().0
    }

    #[cfg(clocked)]
    pub fn set_until(&self, until: u64) {
        *self.1.until.lock().unwrap() = Instant(until);
    }
}
