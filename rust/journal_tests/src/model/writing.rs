//! Entries, their wire forms, batches and images. What is written is not held to the limits.
use super::block::{head, PAYLOAD};
use super::crc;
use super::reading::{CLONE, CLONED, FIRST, INSERTED};
use crate::random::Random;

/// An insert (key, value) or a clone (from, to).
#[derive(Clone, Debug, PartialEq)]
pub struct Entry {
    pub is_clone: bool,
    pub first: Vec<u8>,
    pub second: Vec<u8>,
}

impl Entry {
    /// One of either kind, within the limits, neither of its two longer than `most`.
    pub fn random(random: &mut Random, most: usize) -> Self {
        let is_clone = random.below(2) == 1;
        let second = if is_clone { CLONED } else { INSERTED };
        let [first, second] = [FIRST, second].map(|limit| {
            let len = random.below(most.min(limit as usize) + 1);
            random.bytes(len)
        });
        Entry { is_clone, first, second }
    }

    /// An insert that is as long as can be.
    pub fn largest(random: &mut Random) -> Self {
        let [first, second] = [FIRST, INSERTED].map(|limit| random.bytes(limit as usize));
        Entry { is_clone: false, first, second }
    }

    /// Whether it is no insert without a key, which append refuses.
    pub fn has_key(&self) -> bool {
        self.is_clone || !self.first.is_empty()
    }

    /// One of the same weight that has a key: the last byte of its value. Without a value it is a clone.
    pub fn keyed(mut self) -> Self {
        if !self.has_key() {
            self.first.extend(self.second.pop());
            self.is_clone = self.first.is_empty();
        }
        self
    }

    /// The bytes of its wire form.
    pub fn weight(&self) -> usize {
        8 + self.first.len() + self.second.len()
    }

    pub fn wire_form(&self) -> Vec<u8> {
        let kind = if self.is_clone { CLONE } else { 0 };
        let first = kind + self.first.len() as u32;
        let second = self.second.len() as u32;
        [&first.to_le_bytes()[..], &self.first, &second.to_le_bytes(), &self.second].concat()
    }
}

/// The payload of a batch: as few blocks as hold it, and `more`.
pub fn batch(entries: &[Entry], more: usize) -> Vec<u8> {
    let forms: Vec<u8> = entries.iter().flat_map(Entry::wire_form).collect();
    payload(entries.len(), (8 + forms.len()).div_ceil(PAYLOAD) + more, &forms)
}

/// The payload of so many blocks: a batch's two words, its wire forms, and zeros.
pub fn payload(entries: usize, blocks: usize, forms: &[u8]) -> Vec<u8> {
    let header = [entries, blocks].map(|n| (n as u32).to_le_bytes());
    let mut payload = [header.as_flattened(), forms].concat();
    assert!(payload.len() <= PAYLOAD * blocks, "{} bytes in {blocks} blocks", payload.len());
    payload.resize(PAYLOAD * blocks, 0);
    payload
}

/// Entries of exactly this weight together, which is 0 or at least 8: as few as can be, or some more.
pub fn weighing(random: &mut Random, weight: usize) -> Vec<Entry> {
    let least = weight.div_ceil((8 + FIRST + INSERTED) as usize);
    let more = random.one_of(&[1, 32]);
    let n = (least + random.below(more)).min(weight / 8);
    let entry = |i: usize| {
        let bytes = weight * (i + 1) / n - weight * i / n - 8;
        let is_clone = bytes <= (FIRST + CLONED) as usize && random.below(2) == 1;
        let limit = if is_clone { CLONED } else { INSERTED } as usize;
        let [fewest, most] = [bytes.saturating_sub(limit), bytes.min(FIRST as usize)];
        let first = fewest + random.below(most - fewest + 1);
        Entry { is_clone, first: random.bytes(first), second: random.bytes(bytes - first) }
    };
    (0..n).map(entry).collect()
}

/// A few entries, which may be long, or such as fill one block or two, or nearly so.
pub fn some(random: &mut Random) -> Vec<Entry> {
    if random.below(4) == 0 {
        let weight = PAYLOAD * (1 + random.below(2)) - 8 - random.below(3);
        return weighing(random, weight);
    }
    let (most, count) =
        random.one_of(&[(0, 6), (3, 6), (40, 6), (400, 6), (1_024, 6), (INSERTED as usize, 2)]);
    (0..1 + random.below(count)).map(|_| Entry::random(random, most)).collect()
}

/// The payload of a batch of so many blocks: entries from `next`, until one finds no room.
pub fn full_batch(blocks: usize, mut next: impl FnMut() -> Entry) -> Vec<u8> {
    let mut entries = Vec::new();
    let mut room = PAYLOAD * blocks - 8;
    loop {
        let entry = next();
        let Some(left) = room.checked_sub(entry.weight()) else {
            return batch(&entries, 0);
        };
        room = left;
        entries.push(entry);
    }
}

/// The image with this payload: a head before that of each block.
pub fn image(payload: &[u8]) -> Vec<u8> {
    let block = |s: &[u8]| [&head(crc::bit_by_bit(s)), s].concat();
    payload.chunks(PAYLOAD).flat_map(block).collect()
}
