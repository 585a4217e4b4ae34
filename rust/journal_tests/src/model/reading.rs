//! A range: payload blocks, which are read batch by batch. A batch starts with two words, the number
//! of its entries and that of its blocks; its entries follow, and what is behind the last is ignored.
use super::block::PAYLOAD;

/// The most first bytes of an entry, and the most second bytes of an insert and of a clone.
pub const FIRST: u32 = 512;
pub const INSERTED: u32 = 16_384;
pub const CLONED: u32 = 512;

/// What is added to a clone's first length.
pub const CLONE: u32 = 4_096;

/// The entries of `front` and `back`, one behind the other, and the bytes of their wire forms, to
/// the first two of `totals`. Refused with 14 where they don't read, then with 9 where `totals` is
/// too short.
#[inline(never)]
pub fn range(front: &[u8], back: &[u8], totals: &mut [u64]) -> u64 {
    let Some(read) = (Joined { front, back }).read() else {
        return 14;
    };
    let Some(totals) = totals.first_chunk_mut() else {
        return 9;
    };
    *totals = read;
    0
}

/// A batch: how many entries, where their forms start and end, and where its blocks end.
pub struct Batch {
    pub entries: u32,
    pub forms: usize,
    pub forms_end: usize,
    pub end: usize,
}

/// Bytes that are read as one, wherever they lie: a place is counted from their start.
pub trait Range {
    fn len(&self) -> usize;

    /// The word at `at`, lowest byte first, if it ends by `end`.
    fn word(&self, at: usize, end: usize) -> Option<u32>;

    fn is_empty(&self) -> bool {
        self.len() == 0
    }

    /// How many entries there are in all batches, and how many bytes of wire forms.
    fn read(&self) -> Option<[u64; 2]> {
        if !self.len().is_multiple_of(PAYLOAD) {
            return None;
        }
        let mut totals = [0; 2];
        let mut start = 0;
        while start < self.len() {
            let batch = self.batch(start)?;
            totals[0] += u64::from(batch.entries);
            totals[1] += (batch.forms_end - batch.forms) as u64;
            start = batch.end;
        }
        Some(totals)
    }

    /// The batch at `start`.
    fn batch(&self, start: usize) -> Option<Batch> {
        let entries = self.word(start, self.len())?;
        let blocks = self.word(start + 4, self.len())?;
        let end = start + PAYLOAD * blocks as usize;
        if blocks == 0 || end > self.len() {
            return None;
        }
        let forms = start + 8;
        let (forms_end, _) = self.counted(forms, end, entries as usize)?;
        Some(Batch { entries, forms, forms_end, end })
    }

    /// The place behind so many entries from `at` on, if they are that and end by `end`, and the
    /// clones among them.
    fn counted(&self, mut at: usize, end: usize, entries: usize) -> Option<(usize, usize)> {
        let mut clones = 0;
        for _ in 0..entries {
            let (behind, is_clone) = self.after_entry(at, end)?;
            at = behind;
            clones += usize::from(is_clone);
        }
        Some((at, clones))
    }

    /// The place behind the entry at `at`, if it is one and ends by `end`, and whether it is a clone.
    fn after_entry(&self, at: usize, end: usize) -> Option<(usize, bool)> {
        let word = self.word(at, end)?;
        let is_clone = word >= CLONE;
        let (first, limit) = if is_clone { (word - CLONE, CLONED) } else { (word, INSERTED) };
        if first > FIRST {
            return None;
        }
        let at = at + 4 + first as usize;
        let second = self.word(at, end)?;
        let after = at + 4 + second as usize;
        (second <= limit && after <= end).then_some((after, is_clone))
    }
}

/// Front and back.
pub struct Joined<'a> {
    pub front: &'a [u8],
    pub back: &'a [u8],
}

impl Range for Joined<'_> {
    fn len(&self) -> usize {
        self.front.len() + self.back.len()
    }

    fn word(&self, at: usize, end: usize) -> Option<u32> {
        if at + 4 > end {
            return None;
        }
        let word = if at >= self.front.len() {
            *self.back[at - self.front.len()..].first_chunk()?
        } else if let Some(word) = self.front[at..].first_chunk() {
            *word
        } else {
            let mut bytes = self.front[at..].iter().chain(self.back);
            [0; 4].map(|_| *bytes.next().unwrap())
        };
        Some(u32::from_le_bytes(word))
    }
}

impl Joined<'_> {
    /// The bytes from `at` to `end`, in two parts.
    pub fn parts(&self, at: usize, end: usize) -> [&[u8]; 2] {
        let n = self.front.len();
        let front = &self.front[at.min(n)..end.min(n)];
        [front, &self.back[at.saturating_sub(n)..end.saturating_sub(n)]]
    }
}
