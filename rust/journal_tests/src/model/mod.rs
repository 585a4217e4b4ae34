//! What the exported functions do, written separately from the documents: nothing is shared with
//! the Rattle crates.
pub mod block;
pub mod card;
pub mod crc;
pub mod entries;
pub mod journalist;
pub mod places;
pub mod plain;
pub mod reading;
pub mod record;
pub mod replica;
pub mod writing;
