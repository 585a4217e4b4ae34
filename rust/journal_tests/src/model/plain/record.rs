//! A record's words as numbers, and whether they hang together.
use super::super::block::PAYLOAD;

/// Words that calls change.
pub const START: usize = 3;
pub const FROZEN: usize = 4;
pub const MEMORY: usize = 6;
pub const WRITTEN: usize = 8;
pub const HELD: usize = 9;
pub const PLACE: usize = 10;
pub const FRONT: usize = 13;
pub const BACK: usize = 15;
pub const CLONES: usize = 17;
pub const LAST: usize = 18;

pub use super::super::record::{LAYOUT, WORDS};

const MOST_BLOCKS: usize = 1_024;
const LONGEST_RING: usize = 8_388_608;

/// The count of some entries, and that of the bytes of their wire forms.
#[derive(Clone, Copy)]
pub struct List {
    pub entries: usize,
    pub bytes: usize,
}

impl List {
    fn of(entries: u64, bytes: u64) -> Self {
        List { entries: entries as usize, bytes: bytes as usize }
    }

    /// Of a list that is in a ring, so that the sum is small.
    pub fn weight(self) -> usize {
        if self.entries == 0 {
            0
        } else {
            8 + self.bytes
        }
    }

    /// The blocks that a batch of them needs.
    pub fn blocks(self) -> usize {
        self.weight().div_ceil(PAYLOAD)
    }

    pub fn plus(self, other: List) -> List {
        List { entries: self.entries + other.entries, bytes: self.bytes + other.bytes }
    }

    /// Without a part.
    pub fn less(self, part: List) -> List {
        List { entries: self.entries - part.entries, bytes: self.bytes - part.bytes }
    }

    /// To the two words from `at` on.
    pub fn store(self, words: &mut [u64], at: usize) {
        words[at] = self.entries as u64;
        words[at + 1] = self.bytes as u64;
    }

    pub fn hangs(self) -> bool {
        if self.entries == 0 {
            self.bytes == 0
        } else {
            self.entries <= self.bytes / 8
        }
    }
}

pub struct Record {
    pub n: usize,
    pub r: usize,
    pub start: usize,
    pub frozen: List,
    pub memory: List,
    pub written: usize,
    /// The frozen blocks.
    pub held: usize,
    pub place: usize,
    pub replay: List,
    /// The blocks of front and of back; nothing where the side is absent.
    pub front: Option<usize>,
    pub back: Option<usize>,
    /// Those in both lists.
    pub clones: usize,
    /// What the last freeze that moved any entries moved, and the blocks that it added; all 0 where no
    /// freeze is remembered.
    pub last: List,
    pub last_blocks: usize,
}

pub fn in_range(n: usize, r: usize) -> bool {
    (1..=MOST_BLOCKS).contains(&n) && r <= LONGEST_RING
}

fn side(present: u64, blocks: u64) -> Option<Option<usize>> {
    match (present, blocks) {
        (0, 0) => Some(None),
        (1, blocks) => Some(Some(blocks as usize)),
        _ => None,
    }
}

impl Record {
    /// The record of these words, or 2.
    pub fn of(words: &[u64]) -> Result<Self, u64> {
        Record::said(words).filter(Record::hangs).ok_or(2)
    }

    fn said(words: &[u64]) -> Option<Self> {
        let w = words.first_chunk::<WORDS>().filter(|words| words[0] == LAYOUT)?;
        Some(Record {
            n: w[1] as usize,
            r: w[2] as usize,
            start: w[START] as usize,
            frozen: List::of(w[FROZEN], w[FROZEN + 1]),
            memory: List::of(w[MEMORY], w[MEMORY + 1]),
            written: w[WRITTEN] as usize,
            held: w[HELD] as usize,
            place: w[PLACE] as usize,
            replay: List::of(w[PLACE + 2], w[PLACE + 1]),
            front: side(w[FRONT], w[FRONT + 1])?,
            back: side(w[BACK], w[BACK + 1])?,
            clones: w[CLONES] as usize,
            last: List::of(w[LAST], w[LAST + 1]),
            last_blocks: w[LAST + 2] as usize,
        })
    }

    /// A test that stands behind another may count on it: no sum or product is too large.
    fn hangs(&self) -> bool {
        let Record { n, r, start, frozen, memory, written, held, .. } = *self;
        in_range(n, r)
            && (start < r || start == 0 && r == 0)
            && frozen.bytes <= r
            && memory.bytes <= r - frozen.bytes
            && frozen.hangs()
            && memory.hangs()
            && self.replay.hangs()
            && written <= n
            && held <= n - written
            && memory.weight() <= PAYLOAD * (n - written - held)
            && frozen.weight() <= PAYLOAD * held
            && self.front.unwrap_or(0) <= n
            && self.back.unwrap_or(0) <= n
            && self.clones <= frozen.entries + memory.entries
            && self.remembers()
    }

    /// Whether what is remembered is frozen, and the counts would hang together after a thaw, as the
    /// record's own do. (Every call is slower where it is not built in.)
    #[inline(always)]
    fn remembers(&self) -> bool {
        let Record { n, frozen, memory, written, held, last, last_blocks, .. } = *self;
        if last.entries == 0 {
            return last.bytes == 0 && last_blocks == 0;
        }
        if last.entries > frozen.entries || last.bytes > frozen.bytes || last_blocks > held {
            return false;
        }
        let (rest, joined) = (frozen.less(last), memory.plus(last));
        let left = held - last_blocks;
        rest.hangs()
            && joined.hangs()
            && joined.weight() <= PAYLOAD * (n - written - left)
            && rest.weight() <= PAYLOAD * left
    }
}
