//! A proved journal for tagging units: spawnings (inserts) and copied trial lines (clones) go to a ring that the
//! caller lends, are handed out as blocks with checksums, stored on the unit's card, and read back after a power cut.
//!
//! Every call is proved to meet its contract on all inputs: it ends inside the lent memory and gives its result or one
//! [`Refusal`], and a refused call changes nothing. This crate is the Rust side of the archive that
//! `tools/archive journal_c` writes; README.md has the whole, c/journal.h the same calls for C. The build script takes
//! target/staticlib/libjournal_c.a of the repository, or the one that `NUNGAKES_ARCHIVE` names.
//!
//! ```
//! use nungakes::{card, Entry, Journal, BLOCK, PAYLOAD};
//!
//! fn main() -> Result<(), nungakes::Refusal> {
//!     // a region of 4 blocks; the ring is lent to each call
//!     let mut ring = [0; 4 * PAYLOAD];
//!     let mut journal = Journal::open(4, ring.len())?;
//!     journal.append_insert(&mut ring, b"fish/17", b"dam 4, sire 9")?;
//!     journal.append_clone(&mut ring, b"fish/", b"trial/")?;
//!     assert_eq!(journal.waiting_clones()?, 1);
//!
//!     // closed too early: the freeze is taken back, and a missing spawning goes behind
//!     journal.freeze()?;
//!     journal.thaw()?;
//!     journal.append_insert(&mut ring, b"fish/18", b"dam 4, sire 9")?;
//!
//!     // what is pending, as blocks: from here on the card has to keep them. One call stores one block, which is
//!     // brought to the medium before the next call
//!     let (mut unit, mut image) = ([0; 6 * BLOCK], [0; 4 * BLOCK]);
//!     card::format(4, &mut unit)?;
//!     let blocks = journal.package_in_memory(&ring, &mut image)?;
//!     let mut made = 0;
//!     while card::store(4, &mut unit, &image[..blocks * BLOCK], made)? {
//!         made += 1;
//!     }
//!
//!     // after a power cut: the live payload, if every checksum agrees, as front, and nothing as back
//!     let mut journal = Journal::open(4, ring.len())?;
//!     let [mut payload, mut front, mut replay] = [[0; 4 * PAYLOAD]; 3];
//!     let blocks = card::find(4, &unit, &mut payload)?;
//!     journal.set_front(&payload[..blocks * PAYLOAD], &mut front)?;
//!     journal.set_back(&[], &mut [])?;
//!     journal.load(&front, &[], &mut replay)?;
//!     let first = journal.top(&replay)?.entry(&replay);
//!     assert_eq!(first, Entry::Insert { key: b"fish/17", value: b"dam 4, sire 9" });
//!     journal.pop(&replay)?;
//!     let second = journal.top(&replay)?.entry(&replay);
//!     assert_eq!(second, Entry::Clone { from: b"fish/", to: b"trial/" });
//!     journal.pop(&replay)?;
//!     let third = journal.top(&replay)?.entry(&replay);
//!     assert_eq!(third, Entry::Insert { key: b"fish/18", value: b"dam 4, sire 9" });
//!     journal.set_written(blocks)
//! }
//! ```
#![no_std]

pub mod calls;
pub mod card;
mod image;
mod journal;
pub mod places;
pub mod raw;
mod refusal;
mod words;

pub use image::{checksum, crc32c, range, strip, Totals};
pub use journal::{Entry, Journal, Kind, Piece, Top};
pub use refusal::{answered, Refusal};
pub use words::*;

/// The library's version, as c/journal.h has it.
pub const LIBRARY_VERSION: &str = env!("NUNGAKES_VERSION");
