//! A journal: its record, and the calls on it.
use crate::refusal::answered;
use crate::{calls, word, Refusal, WORDS};

/// The record of a journal. Ring, front, back and replay are lent to each call that needs them; the same ring to every
/// call of the journal, of exactly as many bytes as it was opened with.
///
/// Any words may be taken for a record ([`Journal::from`]): a damaged one is refused with 2 by every call.
#[derive(Clone, Debug, PartialEq, Eq)]
pub struct Journal {
    words: [u64; WORDS],
}

/// What the replay's next entry is, and where its two pieces lie in the replay buffer.
#[derive(Clone, Copy, Debug, PartialEq, Eq)]
pub struct Top {
    pub kind: Kind,
    pub first: Piece,
    pub second: Piece,
}

#[derive(Clone, Copy, Debug, PartialEq, Eq)]
pub enum Kind {
    Insert,
    Clone,
}

/// Bytes of the replay buffer.
#[derive(Clone, Copy, Debug, PartialEq, Eq)]
pub struct Piece {
    pub place: usize,
    pub len: usize,
}

/// An entry of the replay: a spawning that was inserted, or a trial line that was copied.
#[derive(Clone, Copy, Debug, PartialEq, Eq)]
pub enum Entry<'a> {
    Insert { key: &'a [u8], value: &'a [u8] },
    Clone { from: &'a [u8], to: &'a [u8] },
}

impl Piece {
    /// The bytes, of the buffer that [`Journal::top`] was lent. Panics where a shorter one is lent.
    pub fn of(self, replay: &[u8]) -> &[u8] {
        &replay[self.place..self.place + self.len]
    }
}

impl Top {
    /// The entry, of the buffer that [`Journal::top`] was lent. Panics where a shorter one is lent.
    pub fn entry(self, replay: &[u8]) -> Entry<'_> {
        let (first, second) = (self.first.of(replay), self.second.of(replay));
        match self.kind {
            Kind::Insert => Entry::Insert { key: first, value: second },
            Kind::Clone => Entry::Clone { from: first, to: second },
        }
    }
}

/// The record that was kept as words.
impl From<[u64; WORDS]> for Journal {
    fn from(words: [u64; WORDS]) -> Self {
        Journal { words }
    }
}

impl From<Journal> for [u64; WORDS] {
    fn from(journal: Journal) -> Self {
        journal.words
    }
}

type Query = fn(&[u64], &mut [u64]) -> u64;
type Packaging = fn(&mut [u64], &[u8], &mut [u8]) -> u64;

impl Journal {
    /// An empty one, for a region of `n` blocks and a ring of `r` bytes: 1.
    pub fn open(n: usize, r: usize) -> Result<Self, Refusal> {
        let mut words = [0; WORDS];
        answered(calls::open(&mut words, n as u64, r as u64))?;
        Ok(Journal { words })
    }

    /// The record's words; [`word`] says which is which.
    pub fn words(&self) -> &[u64; WORDS] {
        &self.words
    }

    /// The same, to lend to calls that are not this crate's. Whatever they leave may be taken for a record.
    pub fn words_mut(&mut self) -> &mut [u64; WORDS] {
        &mut self.words
    }

    /// Puts an insert behind the in-memory list: 2, 3, 4, 22, 5, 6. Only appends write the ring. The key has one
    /// byte at least.
    pub fn append_insert(
        &mut self,
        ring: &mut [u8],
        key: &[u8],
        value: &[u8],
    ) -> Result<(), Refusal> {
        answered(calls::append_insert(&mut self.words, ring, key, value))
    }

    /// Puts a clone behind the in-memory list: 2, 3, 4, 5, 6.
    pub fn append_clone(&mut self, ring: &mut [u8], from: &[u8], to: &[u8]) -> Result<(), Refusal> {
        answered(calls::append_clone(&mut self.words, ring, from, to))
    }

    /// Moves the in-memory list behind the frozen one: 2. Where that moves any entries, a thaw can take it back.
    pub fn freeze(&mut self) -> Result<(), Refusal> {
        answered(calls::freeze(&mut self.words))
    }

    /// Takes back the last freeze that moved any entries: 2, 17. They go in front of the in-memory list, so that
    /// appends made since stay behind them, and the freeze's blocks are taken off. Packaging the frozen list
    /// forgets that freeze, and so does a thaw. No byte of the ring moves.
    pub fn thaw(&mut self) -> Result<(), Refusal> {
        answered(calls::thaw(&mut self.words))
    }

    /// The frozen list's image to the start of `out`, and its blocks: 2, 8, 15, 9. Until it is stored
    /// ([`card::store`](crate::card::store)), `out` is the only copy of these entries.
    pub fn package_frozen(&mut self, ring: &[u8], out: &mut [u8]) -> Result<usize, Refusal> {
        self.package(calls::package_frozen, ring, out)
    }

    /// The same of the in-memory list, with nothing frozen: 2, 7, 8, 15, 9.
    pub fn package_in_memory(&mut self, ring: &[u8], out: &mut [u8]) -> Result<usize, Refusal> {
        self.package(calls::package_in_memory, ring, out)
    }

    fn package(&mut self, call: Packaging, ring: &[u8], out: &mut [u8]) -> Result<usize, Refusal> {
        let before = self.words[word::WRITTEN];
        answered(call(&mut self.words, ring, out))?;
        Ok((self.words[word::WRITTEN] - before) as usize)
    }

    /// Sets the written blocks of a journal with nothing pending: 2, 7, 10.
    pub fn set_written(&mut self, len: usize) -> Result<(), Refusal> {
        answered(calls::set_written(&mut self.words, len as u64))
    }

    /// Lowers the written blocks, after the oldest were dropped: 2, 10.
    pub fn update_written(&mut self, len: usize) -> Result<(), Refusal> {
        answered(calls::update_written(&mut self.words, len as u64))
    }

    /// Whole blocks of payload, copied to `front`, which the caller keeps until the load: 2, 13, 9.
    pub fn set_front(&mut self, payload: &[u8], front: &mut [u8]) -> Result<(), Refusal> {
        answered(calls::set_front(&mut self.words, payload, front))
    }

    /// The same with `back`.
    pub fn set_back(&mut self, payload: &[u8], back: &mut [u8]) -> Result<(), Refusal> {
        answered(calls::set_back(&mut self.words, payload, back))
    }

    /// Reads front, then back, as one range, and puts its entries to the replay buffer: 2, 14, 9.
    pub fn load(&mut self, front: &[u8], back: &[u8], replay: &mut [u8]) -> Result<(), Refusal> {
        answered(calls::load(&mut self.words, front, back, replay))
    }

    /// The replay's next entry: 2, 8, 14.
    pub fn top(&self, replay: &[u8]) -> Result<Top, Refusal> {
        let mut top = [0; 5];
        answered(calls::top(&self.words, replay, &mut top))?;
        let [kind, lens_and_places @ ..] = top;
        let [len, place, second_len, second_place] = lens_and_places.map(|n| n as usize);
        let kind = if kind == 0 { Kind::Insert } else { Kind::Clone };
        let second = Piece { place: second_place, len: second_len };
        Ok(Top { kind, first: Piece { place, len }, second })
    }

    /// Goes past it: 2, 8, 14.
    pub fn pop(&mut self, replay: &[u8]) -> Result<(), Refusal> {
        answered(calls::pop(&mut self.words, replay))
    }

    fn query(&self, query: Query) -> Result<u64, Refusal> {
        let mut answer = [0];
        answered(query(&self.words, &mut answer))?;
        Ok(answer[0])
    }

    /// Whether entries are frozen: 2, as each query.
    pub fn has_frozen(&self) -> Result<bool, Refusal> {
        Ok(self.query(calls::has_frozen)? == 1)
    }

    /// Whether entries are in memory.
    pub fn has_in_memory(&self) -> Result<bool, Refusal> {
        Ok(self.query(calls::has_in_memory)? == 1)
    }

    /// The blocks that were handed out.
    pub fn get_written(&self) -> Result<usize, Refusal> {
        Ok(self.query(calls::get_written)? as usize)
    }

    /// The clones that are pending, in both lists together.
    pub fn waiting_clones(&self) -> Result<usize, Refusal> {
        Ok(self.query(calls::waiting_clones)? as usize)
    }

    /// Whether no entry is left of the replay.
    pub fn is_replay_empty(&self) -> Result<bool, Refusal> {
        Ok(self.query(calls::is_replay_empty)? == 1)
    }

    /// Whether a front is set, also one of no blocks.
    pub fn has_front(&self) -> Result<bool, Refusal> {
        Ok(self.query(calls::has_front)? == 1)
    }

    /// Whether a back is set, also one of no blocks.
    pub fn has_back(&self) -> Result<bool, Refusal> {
        Ok(self.query(calls::has_back)? == 1)
    }
}
