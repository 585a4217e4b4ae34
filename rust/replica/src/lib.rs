//! The centre's replica: entries of journals, replayed into a table from keys to values that lies in memory which the
//! caller lends.
//!
//! The table is one insert's wire form for each present key (a 32-bit key length, lowest byte first, the key, a 32-bit
//! value length, the value), keys ascending byte by byte, then zeros; the number of rows goes with it. Zeros with 0
//! rows are an empty table. `work` is working space of the table's length, all zeros after an accepted step.
//!
//! Every call is proved to meet its contract on all inputs: it ends inside the lent memory and gives its result or one
//! [`Refusal`], and a refused call changes nothing. This crate is the Rust side of the archive that
//! `tools/archive replica_c` writes; c/replica.h has the same calls for C. The build script takes
//! target/staticlib/libreplica_c.a of the repository, or the one that `NUNGAKES_REPLICA_ARCHIVE` names.
//!
//! ```
//! use nungakes::{Journal, Refusal, BLOCK, PAYLOAD};
//! use nungakes_replica as replica;
//!
//! fn main() -> Result<(), Refusal> {
//!     // a station journals a spawning, a trial line and a correction, and sends them as blocks
//!     let mut ring = [0; PAYLOAD];
//!     let mut station = Journal::open(1, ring.len())?;
//!     station.append_insert(&mut ring, b"fish/17", b"dam 4, sire 9")?;
//!     station.append_clone(&mut ring, b"fish/", b"trial/")?;
//!     station.append_insert(&mut ring, b"fish/17", b"dam 4, sire 8")?;
//!     let mut image = [0; BLOCK];
//!     station.package_in_memory(&ring, &mut image)?;
//!
//!     // the centre loads them, and replays one after the other into an empty table
//!     let [mut payload, mut front, mut entries] = [[0; PAYLOAD]; 3];
//!     nungakes::strip(&image, &mut payload)?;
//!     let mut centre = Journal::open(1, 0)?;
//!     centre.set_front(&payload, &mut front)?;
//!     centre.load(&front, &[], &mut entries)?;
//!     let (mut rows, mut table, mut work) = (0, [0; 1_000], [0; 1_000]);
//!     while !centre.is_replay_empty()? {
//!         replica::replay(&mut centre, &entries, &mut rows, &mut table, &mut work)?;
//!     }
//!     assert_eq!(rows, 2);
//!     assert_eq!(replica::lookup(rows, &table, b"fish/17")?, b"dam 4, sire 8");
//!     assert_eq!(replica::lookup(rows, &table, b"trial/17")?, b"dam 4, sire 9");
//!     assert_eq!(replica::lookup(rows, &table, b"trial/18"), Err(Refusal::NothingThere));
//!
//!     // steps of the centre's own
//!     replica::insert(&mut rows, &mut table, &mut work, b"fish/18", b"dam 4, sire 9")?;
//!     replica::clone(&mut rows, &mut table, &mut work, b"fish/18", b"fish/17")?;
//!     assert_eq!(replica::lookup(rows, &table, b"fish/17")?, b"dam 4, sire 9");
//!     Ok(())
//! }
//! ```
#![no_std]

pub mod calls;
pub mod raw;

use core::slice;
use nungakes::{answered, Journal, Refusal};

/// Sets the value of a key, which may have no bytes: 2, 3, 4, 21. 2 is for a table that is not of its form with
/// this number of rows, and for a `work` of another length.
pub fn insert(
    rows: &mut u64,
    table: &mut [u8],
    work: &mut [u8],
    key: &[u8],
    value: &[u8],
) -> Result<(), Refusal> {
    answered(calls::insert(slice::from_mut(rows), table, work, key, value))
}

/// Copies a line: 2, 3, 4, 20, 21. A key that begins with `to` then has the value that `from` followed by its remaining
/// bytes had before, or is absent; each other key keeps its value.
pub fn clone(
    rows: &mut u64,
    table: &mut [u8],
    work: &mut [u8],
    from: &[u8],
    to: &[u8],
) -> Result<(), Refusal> {
    answered(calls::clone(slice::from_mut(rows), table, work, from, to))
}

/// The value of a key, as it is in the table: 2, 8. An absent key may have any length.
pub fn lookup<'a>(rows: u64, table: &'a [u8], key: &[u8]) -> Result<&'a [u8], Refusal> {
    let mut answer = [0; 2];
    answered(calls::lookup(&[rows], table, key, &mut answer))?;
    let [place, len] = answer.map(|n| n as usize);
    Ok(&table[place..place + len])
}

/// Makes the step of the replay's next entry, and goes past it: 2, 8, 14 as [`Journal::pop`], then the step's 2,
/// 20, 21. Where the step is refused, the entry is still the next.
pub fn replay(
    journal: &mut Journal,
    replay: &[u8],
    rows: &mut u64,
    table: &mut [u8],
    work: &mut [u8],
) -> Result<(), Refusal> {
    answered(calls::replay(journal.words_mut(), replay, slice::from_mut(rows), table, work))
}
