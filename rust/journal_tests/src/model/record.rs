//! The record: words in a lent slice, and the conditions under which their counts hang together. The
//! numbers are so wide that no sum or product of theirs is too large.
use super::block::PAYLOAD;

/// The words of a record, and their layout, which is the first of them.
pub const WORDS: usize = 21;
pub const LAYOUT: u64 = 3;

pub const MOST_BLOCKS: u64 = 1_024;
pub const LONGEST_RING: u64 = 8_388_608;

/// The count of some entries, and that of the bytes of their wire forms.
#[derive(Clone, Copy, Default)]
pub struct List {
    pub entries: u128,
    pub bytes: u128,
}

impl List {
    pub fn weight(self) -> u128 {
        if self.entries == 0 {
            0
        } else {
            8 + self.bytes
        }
    }

    /// The blocks that a batch of them needs.
    pub fn blocks(self) -> u128 {
        self.weight().div_ceil(PAYLOAD as u128)
    }

    /// Both, one behind the other.
    pub fn plus(self, other: List) -> List {
        List { entries: self.entries + other.entries, bytes: self.bytes + other.bytes }
    }

    /// Without a part, if it is one.
    fn less(self, part: List) -> Option<List> {
        let entries = self.entries.checked_sub(part.entries)?;
        Some(List { entries, bytes: self.bytes.checked_sub(part.bytes)? })
    }

    /// Each has 8 bytes or more, and there are no bytes where there is none.
    pub fn conditions(self, [each, none]: [&'static str; 2]) -> [Condition; 2] {
        let of_none = if self.entries == 0 { self.bytes } else { 0 };
        [(each, 8 * self.entries, self.bytes), (none, of_none, 0)]
    }
}

#[derive(Clone, Copy)]
pub struct Record {
    pub n: u128,
    pub r: u128,
    pub start: u128,
    pub frozen: List,
    pub memory: List,
    pub written: u128,
    /// The frozen blocks.
    pub held: u128,
    pub place: u128,
    pub replay: List,
    /// The blocks of front and of back; nothing where the side is absent.
    pub front: Option<u128>,
    pub back: Option<u128>,
    /// Those in both lists.
    pub clones: u128,
    /// What the last freeze that moved any entries moved, and the blocks that it added; all 0 where no
    /// freeze is remembered.
    pub last: List,
    pub last_blocks: u128,
}

/// A condition's name, and two numbers: it holds where the first is at most the second.
pub type Condition = (&'static str, u128, u128);

/// The conditions under which the counts of a record hang together, if its words are one.
pub fn conditions(words: &[u64]) -> Option<Vec<Condition>> {
    let record = Record::of(words)?;
    let mut all = record.sizes();
    all.extend(record.of_lists(
        ["region", "frozen weight"],
        [["frozen", "none frozen"], ["in memory", "none in memory"]],
    ));
    all.extend(record.replay.conditions(["replay", "no replay"]));
    all.extend(record.of_last());
    // with none remembered, it is the record itself that a thaw would give
    if let Some(thawed) = record.thawed().filter(|_| record.last.entries > 0) {
        all.extend(thawed.of_lists(
            ["region, thawed", "frozen weight, thawed"],
            [
                ["frozen, thawed", "none frozen, thawed"],
                ["in memory, thawed", "none in memory, thawed"],
            ],
        ));
    }
    Some(all)
}

/// Whether the words are a record whose counts hang together.
pub fn hang_together(words: &[u64]) -> bool {
    conditions(words).is_some_and(|all| all.iter().all(|(_, a, b)| a <= b))
}

fn side(present: u128, blocks: u128) -> Option<Option<u128>> {
    match (present, blocks) {
        (0, 0) => Some(None),
        (1, _) => Some(Some(blocks)),
        _ => None,
    }
}

impl Record {
    fn of(words: &[u64]) -> Option<Self> {
        let words = words.first_chunk::<WORDS>().filter(|words| words[0] == LAYOUT)?;
        let w = words.map(u128::from);
        Some(Record {
            n: w[1],
            r: w[2],
            start: w[3],
            frozen: List { entries: w[4], bytes: w[5] },
            memory: List { entries: w[6], bytes: w[7] },
            written: w[8],
            held: w[9],
            place: w[10],
            replay: List { entries: w[12], bytes: w[11] },
            front: side(w[13], w[14])?,
            back: side(w[15], w[16])?,
            clones: w[17],
            last: List { entries: w[18], bytes: w[19] },
            last_blocks: w[20],
        })
    }

    /// The record of these words, or 2.
    pub fn hanging(words: &[u64]) -> Result<Self, u64> {
        Record::of(words).filter(|_| hang_together(words)).ok_or(2)
    }

    pub fn store(&self, words: &mut [u64]) {
        let side = |side: Option<u128>| [side.is_some().into(), side.unwrap_or(0)];
        let list = |List { entries, bytes }| [entries, bytes];
        let own = [
            &[LAYOUT.into(), self.n, self.r, self.start][..],
            &list(self.frozen),
            &list(self.memory),
            &[self.written, self.held],
            &[self.place, self.replay.bytes, self.replay.entries],
            &side(self.front),
            &side(self.back),
            &[self.clones],
            &list(self.last),
            &[self.last_blocks],
        ]
        .concat();
        for (word, number) in words.iter_mut().zip(own) {
            *word = number.try_into().unwrap();
        }
    }

    /// What a thaw makes of it, if the remembered numbers are in the frozen ones.
    pub fn thawed(&self) -> Option<Self> {
        Some(Record {
            frozen: self.frozen.less(self.last)?,
            memory: self.last.plus(self.memory),
            held: self.held.checked_sub(self.last_blocks)?,
            last: List::default(),
            last_blocks: 0,
            ..*self
        })
    }

    /// What no thaw changes, or only to less.
    fn sizes(&self) -> Vec<Condition> {
        let Record { n, r, frozen, memory, .. } = *self;
        let [front, back] = [self.front, self.back].map(|side| side.unwrap_or(0));
        let pending = frozen.plus(memory);
        vec![
            ("no blocks", 1, n),
            ("blocks", n, MOST_BLOCKS.into()),
            ("ring", r, LONGEST_RING.into()),
            ("start", self.start, r.saturating_sub(1)),
            ("pending", pending.bytes, r),
            ("written", self.written, n),
            ("held", self.held, n),
            ("front", front, n),
            ("back", back, n),
            ("clones", self.clones, pending.entries),
        ]
    }

    /// Both lists, and the blocks that they take.
    fn of_lists(
        &self,
        [region, weight]: [&'static str; 2],
        [frozen, memory]: [[&'static str; 2]; 2],
    ) -> Vec<Condition> {
        let payload = PAYLOAD as u128;
        let used = payload * (self.written + self.held) + self.memory.weight();
        let mut all = vec![
            (region, used, payload * self.n),
            (weight, self.frozen.weight(), payload * self.held),
        ];
        all.extend(self.frozen.conditions(frozen));
        all.extend(self.memory.conditions(memory));
        all
    }

    /// What is remembered is frozen, and there are no bytes and no blocks of no entries.
    fn of_last(&self) -> [Condition; 5] {
        let Record { frozen, held, last, last_blocks, .. } = *self;
        let of_none = |number| if last.entries == 0 { number } else { 0 };
        [
            ("last entries", last.entries, frozen.entries),
            ("last bytes", last.bytes, frozen.bytes),
            ("last blocks", last_blocks, held),
            ("bytes of no last", of_none(last.bytes), 0),
            ("blocks of no last", of_none(last_blocks), 0),
        ]
    }
}
