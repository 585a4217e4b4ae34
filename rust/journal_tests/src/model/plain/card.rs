//! The region on the unit's card: its blocks are checked and read where they lie.
use super::super::block::{agrees, head, BLOCK, HEAD, PAYLOAD};
use super::super::crc;
use super::super::reading::Range;
use super::record::in_range;
use super::{code, require};

/// What the payload of block 0 begins with: a length and a kind.
const BEGINS: [u8; 6] = [10, 0, 0, 0, 1, 0];

/// Where in block 0 the live interval's start and length are, and the zeros behind them.
const START: usize = HEAD + BEGINS.len();
const LEN: usize = START + 4;
const ZEROS: usize = LEN + 4;

/// N, if the card is of its length.
fn size(n: u64, card: &[u8]) -> Result<usize, u64> {
    let n = n as usize;
    require(in_range(n, 0), 1)?;
    require(card.len() == BLOCK * (2 + n), 18)?;
    Ok(n)
}

/// The first word of `answer`, if there is one.
fn put(answer: &mut [u64], word: usize) -> Result<(), u64> {
    *answer.first_mut().ok_or(9_u64)? = word as u64;
    Ok(())
}

/// Whole blocks in two parts; a place is one of their payload.
struct Blocks<'a> {
    front: &'a [[u8; BLOCK]],
    back: &'a [[u8; BLOCK]],
}

impl Blocks<'_> {
    fn all(&self) -> impl Iterator<Item = &[u8; BLOCK]> {
        self.front.iter().chain(self.back)
    }

    fn check(&self) -> Result<(), u64> {
        match self.all().position(|block| !agrees(block)) {
            Some(k) => Err(12 + 256 * k as u64),
            None => Ok(()),
        }
    }

    /// The payload of the block so many from the first.
    fn payload(&self, k: usize) -> &[u8] {
        let block = self.front.get(k).unwrap_or_else(|| &self.back[k - self.front.len()]);
        &block[HEAD..]
    }
}

impl Range for Blocks<'_> {
    fn len(&self) -> usize {
        PAYLOAD * (self.front.len() + self.back.len())
    }

    fn word(&self, at: usize, end: usize) -> Option<u32> {
        if at + 4 > end {
            return None;
        }
        let k = at / PAYLOAD;
        let own = &self.payload(k)[at % PAYLOAD..];
        let word = own.first_chunk().copied().unwrap_or_else(|| {
            let mut bytes = own.iter().chain(self.payload(k + 1));
            [0; 4].map(|_| *bytes.next().unwrap())
        });
        Some(u32::from_le_bytes(word))
    }
}

/// What block 0 says.
struct Live {
    n: usize,
    start: usize,
    len: usize,
}

impl Live {
    /// That of a card, or 1 or 18.
    fn of(n: u64, card: &[u8]) -> Result<Self, u64> {
        let n = size(n, card)?;
        let block = card.first_chunk::<BLOCK>().ok_or(18_u64)?;
        let number = |at: usize| block[at..].first_chunk().map_or(0, |s| u32::from_le_bytes(*s));
        let live = Live { n, start: number(START) as usize, len: number(LEN) as usize };
        let formed = block[HEAD..START] == BEGINS
            && live.start < n
            && live.len <= n
            && block[ZEROS..].iter().all(|byte| *byte == 0)
            && agrees(block);
        require(formed, 18)?;
        Ok(live)
    }

    fn blocks<'a>(&self, card: &'a [u8]) -> Blocks<'a> {
        let (region, _) = card[2 * BLOCK..].as_chunks();
        let (before, from_start) = region.split_at(self.start);
        let front = self.len.min(from_start.len());
        Blocks { front: &from_start[..front], back: &before[..self.len - front] }
    }

    /// The block so many behind the live start.
    fn place(&self, k: usize) -> usize {
        let at = self.start + k;
        if at < self.n {
            at
        } else {
            at - self.n
        }
    }

    fn store(&self, card: &mut [u8]) {
        let (checksum, payload) = card[..BLOCK].split_at_mut(HEAD);
        let (own, zeros) = payload.split_at_mut(ZEROS - HEAD);
        own[..6].copy_from_slice(&BEGINS);
        own[6..10].copy_from_slice(&(self.start as u32).to_le_bytes());
        own[10..].copy_from_slice(&(self.len as u32).to_le_bytes());
        zeros.fill(0);
        checksum.copy_from_slice(&head(crc::slicing_by_8(payload)));
    }
}

#[inline(never)]
pub fn format(n: u64, card: &mut [u8]) -> u64 {
    code(size(n, card).map(|n| Live { n, start: 0, len: 0 }.store(card)))
}

#[inline(never)]
pub fn find(n: u64, card: &[u8], out: &mut [u8], answer: &mut [u64]) -> u64 {
    code(try_find(n, card, out, answer))
}

fn try_find(n: u64, card: &[u8], out: &mut [u8], answer: &mut [u64]) -> Result<(), u64> {
    let live = Live::of(n, card)?;
    let blocks = live.blocks(card);
    let out = out.get_mut(..blocks.len()).ok_or(9_u64)?;
    blocks.check()?;
    put(answer, live.len)?;
    for (block, out) in blocks.all().zip(out.chunks_exact_mut(PAYLOAD)) {
        out.copy_from_slice(&block[HEAD..]);
    }
    Ok(())
}

#[inline(never)]
pub fn store(n: u64, card: &mut [u8], image: &[u8], made: u64, answer: &mut [u64]) -> u64 {
    code(try_store(n, card, image, made as usize, answer))
}

fn try_store(
    n: u64,
    card: &mut [u8],
    image: &[u8],
    made: usize,
    answer: &mut [u64],
) -> Result<(), u64> {
    let live = Live::of(n, card)?;
    let (blocks, rest) = image.as_chunks();
    require(rest.is_empty(), 11)?;
    let image = Blocks { front: blocks, back: &[] };
    image.check()?;
    image.read().ok_or(14_u64)?;
    if blocks.is_empty() || made > blocks.len() {
        return put(answer, 0);
    }
    require(blocks.len() <= live.n - live.len, 19)?;
    put(answer, 1)?;
    match blocks.get(made) {
        Some(block) => {
            let at = BLOCK * (2 + live.place(live.len + made));
            card[at..at + BLOCK].copy_from_slice(block);
        }
        None => Live { len: live.len + blocks.len(), ..live }.store(card),
    }
    Ok(())
}

#[inline(never)]
pub fn release(n: u64, card: &mut [u8], answer: &mut [u64]) -> u64 {
    code(try_release(n, card, answer))
}

fn try_release(n: u64, card: &mut [u8], answer: &mut [u64]) -> Result<(), u64> {
    let live = Live::of(n, card)?;
    require(live.len > 0, 8)?;
    let blocks = live.blocks(card);
    blocks.check()?;
    blocks.read().ok_or(14_u64)?;
    let first = blocks.word(4, PAYLOAD).ok_or(14_u64)? as usize;
    put(answer, first)?;
    Live { start: live.place(first), len: live.len - first, ..live }.store(card);
    Ok(())
}
