//! Wire forms: into a ring, to an image's blocks, and read again.
use super::super::block::{head, BLOCK, HEAD};
use super::super::crc;
use super::super::reading::{Joined, Range, CLONE, CLONED, FIRST, INSERTED};

/// Writes an entry's form into the ring from `at` on, which may be past its end by less than its
/// length. There is room.
pub fn put(ring: &mut [u8], at: usize, is_clone: bool, first: &[u8], second: &[u8]) {
    let mark = if is_clone { CLONE } else { 0 };
    let lengths = [mark + first.len() as u32, second.len() as u32].map(u32::to_le_bytes);
    let mut at = if at < ring.len() { at } else { at - ring.len() };
    if let Some(room) = ring.get_mut(at..at + 8 + first.len() + second.len()) {
        let (to_first, to_second) = room.split_at_mut(4 + first.len());
        to_first[..4].copy_from_slice(&lengths[0]);
        to_first[4..].copy_from_slice(first);
        to_second[..4].copy_from_slice(&lengths[1]);
        to_second[4..].copy_from_slice(second);
        return;
    }
    for piece in [&lengths[0][..], first, &lengths[1], second] {
        let (before_end, from_start) = piece.split_at(piece.len().min(ring.len() - at));
        ring[at..at + before_end.len()].copy_from_slice(before_end);
        ring[..from_start.len()].copy_from_slice(from_start);
        at += piece.len();
        if at >= ring.len() {
            at -= ring.len();
        }
    }
}

/// Writes a batch's image, of whole blocks: so many entries, whose forms are those of the two parts.
/// They fit.
pub fn image(entries: usize, [a, b]: [&[u8]; 2], out: &mut [u8]) {
    let header = [entries, out.len() / BLOCK].map(|n| (n as u32).to_le_bytes());
    let mut pieces = [header.as_flattened(), a, b];
    for block in out.chunks_exact_mut(BLOCK) {
        let (checksum, payload) = block.split_at_mut(HEAD);
        let mut room = &mut *payload;
        for piece in &mut pieces {
            let (now, later) = piece.split_at(piece.len().min(room.len()));
            let (filled, rest) = room.split_at_mut(now.len());
            filled.copy_from_slice(now);
            (*piece, room) = (later, rest);
        }
        room.fill(0);
        checksum.copy_from_slice(&head(crc::slicing_by_8(payload)));
    }
}

/// Copies the forms of a range that was read, one batch's behind the other's.
pub fn copy(range: &Joined, mut to: &mut [u8]) {
    let mut start = 0;
    while start < range.len() {
        let batch = range.batch(start).unwrap();
        for part in range.parts(batch.forms, batch.forms_end) {
            let (now, later) = to.split_at_mut(part.len());
            now.copy_from_slice(part);
            to = later;
        }
        start = batch.end;
    }
}

/// An entry's kind and lengths.
pub struct Lengths {
    pub is_clone: bool,
    pub first: usize,
    pub second: usize,
}

impl Lengths {
    /// Those of the entry at the start of `s`, if it is one.
    pub fn of(s: &[u8]) -> Option<Self> {
        let word = |s: &[u8]| s.first_chunk().map(|word| u32::from_le_bytes(*word));
        let kind_and_length = word(s)?;
        let is_clone = kind_and_length >= CLONE;
        let (first, limit) =
            if is_clone { (kind_and_length - CLONE, CLONED) } else { (kind_and_length, INSERTED) };
        if first > FIRST {
            return None;
        }
        let first = first as usize;
        let second = word(s.get(4 + first..)?)?;
        let lengths = Lengths { is_clone, first, second: second as usize };
        (second <= limit && lengths.weight() <= s.len()).then_some(lengths)
    }

    pub fn weight(&self) -> usize {
        8 + self.first + self.second
    }
}
