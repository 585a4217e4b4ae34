//! The record as words, and the numbers that a caller sizes its buffers by. The tests compare them with c/journal.h.

/// The words of a record. Words behind them are neither read nor changed.
pub const WORDS: usize = 21;
/// What stands at [`word::LAYOUT`]: other layouts are refused with 2.
pub const LAYOUT: u64 = 3;
/// Bytes of a block of an image: 32 of checksum, then the payload.
pub const BLOCK: usize = 4096;
/// Bytes of a block's payload.
pub const PAYLOAD: usize = 4064;
/// The most blocks of a region.
pub const MOST_BLOCKS: usize = 1024;
/// The most bytes of a ring.
pub const MOST_RING: usize = 8_388_608;
/// The most first bytes of an entry: an insert's key, a clone's from.
pub const FIRST_LIMIT: usize = 512;
/// The most bytes of an insert's value.
pub const VALUE_LIMIT: usize = 16_384;
/// The most bytes of a clone's to.
pub const TO_LIMIT: usize = 512;
/// Where in a card the live interval's start stands, and where its length: 32 bits each, lowest byte first.
pub const CARD_START: usize = 38;
pub const CARD_LENGTH: usize = 42;

/// Where each of a record's words stands.
pub mod word {
    /// The version of the layout.
    pub const LAYOUT: usize = 0;
    /// Blocks of the region.
    pub const N: usize = 1;
    /// Bytes of the ring.
    pub const R: usize = 2;
    /// The place in the ring of the first pending byte.
    pub const START: usize = 3;
    pub const FROZEN_ENTRIES: usize = 4;
    pub const FROZEN_BYTES: usize = 5;
    pub const MEMORY_ENTRIES: usize = 6;
    pub const MEMORY_BYTES: usize = 7;
    /// Blocks that were handed out; a packaging adds those of its image.
    pub const WRITTEN: usize = 8;
    /// Blocks that the frozen list takes.
    pub const FROZEN_BLOCKS: usize = 9;
    pub const REPLAY_PLACE: usize = 10;
    pub const REPLAY_BYTES: usize = 11;
    pub const REPLAY_ENTRIES: usize = 12;
    /// 0 or 1; 0 blocks where absent.
    pub const FRONT_PRESENT: usize = 13;
    pub const FRONT_BLOCKS: usize = 14;
    pub const BACK_PRESENT: usize = 15;
    pub const BACK_BLOCKS: usize = 16;
    /// Clones that are pending, in both lists together.
    pub const CLONES: usize = 17;
    /// Of the last freeze that moved any entries, which a thaw takes back: what it moved, and the blocks that it added.
    /// All 0 where no freeze is remembered.
    pub const LAST_ENTRIES: usize = 18;
    pub const LAST_BYTES: usize = 19;
    pub const LAST_BLOCKS: usize = 20;
}
