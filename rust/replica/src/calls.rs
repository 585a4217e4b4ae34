//! Each exported function over slices, as C has it: it gives 0 or the code of its [`Refusal`](nungakes::Refusal), and a
//! lookup's answer goes to words that are lent. The number of rows is the first word of `rows`.
//!
//! Nothing is tested here: no exported function has a precondition, and Rust's slices are valid, aligned and apart
//! from each other.
use crate::raw;
use nungakes::calls::Lent;
use nungakes::over_slices;

// The record's words of a replay are as the crate `nungakes` has them.
over_slices! {
    insert = replica_insert(rows: &mut [u64], table: &mut [u8], work: &mut [u8], key: &[u8], value: &[u8]);
    clone = replica_clone(rows: &mut [u64], table: &mut [u8], work: &mut [u8], from: &[u8], to: &[u8]);
    lookup = replica_lookup(rows: &[u64], table: &[u8], key: &[u8], answer: &mut [u64]);
    replay = replica_replay(words: &mut [u64], replay: &[u8], rows: &mut [u64], table: &mut [u8], work: &mut [u8]);
}
