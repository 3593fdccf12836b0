//! The crate under judgement: the Rust's own files, each followed by one line that names a child
//! module of ours (folder `reach`), so that the drivers can call what is private in it.

pub mod active;
/// active.rs with the batch limit of a branch's line.
pub mod branch;
pub mod frame;
pub mod lease;
pub mod standby;

pub use active::ReplicatedStorage;
pub use lease::Lease;

/// Stand-in for the crate's own module of locks and counters.
pub mod sync {
    pub use std::sync::atomic::{AtomicBool, AtomicU32, AtomicU64, Ordering};
    pub use std::sync::{Condvar, Mutex, MutexGuard};
}
