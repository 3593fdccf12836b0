//! The crate under judgement: lease.rs, followed by one line that names a child module of ours (reach.rs).

pub mod lease;
