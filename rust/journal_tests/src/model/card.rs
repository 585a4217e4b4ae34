//! The region on the unit's card, as the document has it: block 0 says which of the n blocks from byte
//! 8,192 on are live, and block 1 is unused.
use super::block::{BLOCK, HEAD, PAYLOAD};
use super::journalist::{code, require};
use super::record::MOST_BLOCKS;
use super::{entries, writing};
use crate::random::Random;

/// Where the region starts, in blocks of the card.
pub const FIRST: usize = 2;

/// Where in the card a block of the region is, counted past the region's end too.
pub fn place(n: usize, block: usize) -> usize {
    BLOCK * (FIRST + block % n)
}

/// Block 0 for a live interval, valid or not.
pub fn block_0(start: u32, len: u32) -> Vec<u8> {
    let numbers = [start, len].map(u32::to_le_bytes);
    let mut payload = [&10_u32.to_le_bytes()[..], &1_u16.to_le_bytes(), &numbers.concat()].concat();
    payload.resize(PAYLOAD, 0);
    writing::image(&payload)
}

/// A card on which an image is live, from a block on. All that is not live is anything.
pub fn with_live(n: usize, start: usize, image: &[u8], random: &mut Random) -> Vec<u8> {
    let mut card = random.bytes(place(n, n - 1) + BLOCK);
    card[..BLOCK].copy_from_slice(&block_0(start as u32, (image.len() / BLOCK) as u32));
    for (k, block) in image.chunks(BLOCK).enumerate() {
        card[place(n, start + k)..][..BLOCK].copy_from_slice(block);
    }
    card
}

/// What block 0 says.
struct Live {
    n: usize,
    start: usize,
    len: usize,
}

impl Live {
    /// That of a card, which is refused with 1 and then with 18.
    fn of(n: u64, card: &[u8]) -> Result<Self, u64> {
        let n = size(n, card)?;
        let [start, len] =
            [38, 42].map(|at| u32::from_le_bytes(*card[at..].first_chunk().unwrap()));
        let live = Live { n, start: start as usize, len: len as usize };
        require(live.start < n && live.len <= n && card[..BLOCK] == block_0(start, len), 18)?;
        Ok(live)
    }

    /// Where in the card the block is that is so many behind the live start.
    fn at(&self, k: usize) -> usize {
        place(self.n, self.start + k)
    }

    /// The live blocks, as an image.
    fn image(&self, card: &[u8]) -> Vec<u8> {
        (0..self.len).flat_map(|k| &card[self.at(k)..][..BLOCK]).copied().collect()
    }

    /// To block 0.
    fn store(&self, card: &mut [u8]) {
        card[..BLOCK].copy_from_slice(&block_0(self.start as u32, self.len as u32));
    }
}

/// N, if the card is of its length.
fn size(n: u64, card: &[u8]) -> Result<usize, u64> {
    require((1..=MOST_BLOCKS).contains(&n), 1)?;
    require(card.len() as u64 == (FIRST as u64 + n) * BLOCK as u64, 18)?;
    Ok(n as usize)
}

/// The payload of whole blocks, or 12 for the first that is not as it would be written.
fn stripped(image: &[u8]) -> Result<Vec<u8>, u64> {
    let mut all = vec![];
    for (k, block) in image.chunks(BLOCK).enumerate() {
        let payload = &block[HEAD..];
        require(block == writing::image(payload), 12 + 256 * k as u64)?;
        all.extend(payload);
    }
    Ok(all)
}

fn reads(payload: &[u8]) -> Result<(), u64> {
    require(entries::range(payload).is_some(), 14)
}

/// The word of the answer, for which there has to be room: that is tested last.
fn put(answer: &mut [u64], word: usize) -> Result<(), u64> {
    *answer.first_mut().ok_or(9_u64)? = word as u64;
    Ok(())
}

pub fn format(n: u64, card: &mut [u8]) -> u64 {
    code(size(n, card).map(|n| Live { n, start: 0, len: 0 }.store(card)))
}

pub fn find(n: u64, card: &[u8], out: &mut [u8], answer: &mut [u64]) -> u64 {
    code(Live::of(n, card).and_then(|live| {
        let out = out.get_mut(..PAYLOAD * live.len).ok_or(9_u64)?;
        let payload = stripped(&live.image(card))?;
        put(answer, live.len)?;
        out.copy_from_slice(&payload);
        Ok(())
    }))
}

pub fn store(n: u64, card: &mut [u8], image: &[u8], made: u64, answer: &mut [u64]) -> u64 {
    code(Live::of(n, card).and_then(|live| {
        require(image.len().is_multiple_of(BLOCK), 11)?;
        reads(&stripped(image)?)?;
        let blocks = image.len() / BLOCK;
        let left = blocks > 0 && made <= blocks as u64;
        require(!left || live.len + blocks <= live.n, 19)?;
        put(answer, left.into())?;
        let made = made as usize;
        if left && made < blocks {
            let to = live.at(live.len + made);
            card[to..to + BLOCK].copy_from_slice(&image[BLOCK * made..][..BLOCK]);
        } else if left {
            Live { len: live.len + blocks, ..live }.store(card);
        }
        Ok(())
    }))
}

pub fn release(n: u64, card: &mut [u8], answer: &mut [u64]) -> u64 {
    code(Live::of(n, card).and_then(|live| {
        require(live.len > 0, 8)?;
        let payload = stripped(&live.image(card))?;
        reads(&payload)?;
        let blocks = u32::from_le_bytes(*payload[4..].first_chunk().unwrap()) as usize;
        put(answer, blocks)?;
        Live { start: (live.start + blocks) % live.n, len: live.len - blocks, ..live }.store(card);
        Ok(())
    }))
}
