//! What tests and measures the archives through the crates `nungakes` and `nungakes_replica`: models of them, a plain
//! Rust implementation to be measured against, and memory that notices what it should not.
pub mod call;
pub mod faults;
pub mod guarded;
pub mod memory;
pub mod model;
pub mod random;
pub mod replica;
pub mod tally;
