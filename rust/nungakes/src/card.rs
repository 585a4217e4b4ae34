//! The region of `n` blocks on the unit's card: a slice of `(2 + n) * BLOCK` bytes, whose block 0 says which blocks are
//! live. Each call may refuse with 1 and 18. It writes one block of the slice, or none; the caller brings that block to
//! the medium, whole or not at all.
use crate::refusal::{answered, words};
use crate::{calls, Refusal};

/// Block 0 of a card without live blocks. 18 is for the slice's length alone.
pub fn format(n: usize, card: &mut [u8]) -> Result<(), Refusal> {
    answered(calls::card_format(n as u64, card))
}

/// The live blocks' payload, in order, to the start of `out`, and their number: also 9, 12. A block that 12 names is
/// counted from the live start.
pub fn find(n: usize, card: &[u8], out: &mut [u8]) -> Result<usize, Refusal> {
    words(|answer| calls::card_find(n as u64, card, out, answer)).map(|[blocks]| blocks as usize)
}

/// Makes the next block store of an image, of which `made` are made, and says whether one was left: also 11, 12, 14 for
/// the image, and 19 where one is left and there is no room.
///
/// Told 0, 1, 2, .. until none is left, each once, the calls put the image's blocks behind the live ones, and then
/// block 0. After each, the stored block goes to the medium and is synced. Which it is: block 0 of the slice where
/// `made` is the image's blocks; else that behind the interval of start and length + `made` ([`next_start`], and
/// [`of_block`] for its address), as they stand at [`CARD_START`] and [`CARD_LENGTH`]. A cut between two stores leaves
/// the live blocks as they were or, from the last store on, those and the image's. Told the last number twice, with
/// room for it, block 0 has live blocks that nobody stored.
///
/// [`next_start`]: crate::places::next_start
/// [`of_block`]: crate::places::of_block
/// [`CARD_START`]: crate::CARD_START
/// [`CARD_LENGTH`]: crate::CARD_LENGTH
pub fn store(n: usize, card: &mut [u8], image: &[u8], made: usize) -> Result<bool, Refusal> {
    words(|answer| calls::card_store(n as u64, card, image, made as u64, answer))
        .map(|[stored]| stored == 1)
}

/// Drops the first batch from the live interval, and gives its blocks: also 8, 12, 14 for the whole live range. Block 0
/// alone is written; it is on the medium before those blocks are used again.
pub fn release(n: usize, card: &mut [u8]) -> Result<usize, Refusal> {
    words(|answer| calls::card_release(n as u64, card, answer)).map(|[blocks]| blocks as usize)
}
