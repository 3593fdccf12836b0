//! The crate under judgement: the Rust's own files; active.rs is followed by one line that names a child module of ours (reach.rs).

pub mod active;
pub mod frame;
pub mod lease;
pub mod standby;

pub use active::ReplicatedStorage;
pub use lease::Lease;

/// Stand-in for the crate's own module of locks and counters.
pub mod sync {
    pub use std::sync::atomic::{AtomicBool, AtomicU32, AtomicU64, Ordering};
    pub use std::sync::{Condvar, Mutex, MutexGuard};
}
