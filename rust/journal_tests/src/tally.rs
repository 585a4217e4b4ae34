//! A journal as its words and its ring, and calls on it: each is made of the library and of the plain Rust
//! implementation and compared with the model. A record is given as its words, so that any start can be had.
use crate::call::{compared, Call, Call::*};
use crate::memory::{Lent, Memory};
use crate::model::block::{BLOCK, PAYLOAD};
use crate::model::entries;
use crate::model::record::{LAYOUT, WORDS};
use crate::model::writing::Entry;
use nungakes::calls;
use std::collections::BTreeMap;

/// How often each number was given.
#[derive(Default)]
pub struct Tally {
    pub memory: Memory,
    given: BTreeMap<u64, usize>,
}

impl Tally {
    /// What the call gives, and what it leaves of the written bytes.
    pub fn call(&mut self, call: Call, lent: Lent) -> (u64, Lent) {
        let ways = [&Call::of_plain as _, &Call::of_library as _];
        let code = compared(&mut self.memory, call, &lent, &ways).unwrap_or_else(|e| panic!("{e}"));
        *self.given.entry(code).or_default() += 1;
        (code, self.memory.lent())
    }

    /// Appends to a journal, if that is not refused.
    pub fn append(&mut self, journal: &mut Journal, entry: &Entry) -> u64 {
        let Entry { is_clone, first, second } = entry.clone();
        let call = if is_clone { AppendClone } else { AppendInsert };
        let Journal { words, ring } = std::mem::take(journal);
        let lent = Lent { read: [first, second], written: ring, words, answer: vec![] };
        let (code, Lent { words, written: ring, .. }) = self.call(call, lent);
        *journal = Journal { words, ring };
        code
    }

    /// Packages a list to an output with this room. An image reads as the entries.
    pub fn package(&mut self, journal: &Journal, call: Call, room: usize, list: &[Entry]) -> u64 {
        let Journal { words, ring } = journal.clone();
        let read = [ring, vec![]];
        let lent = Lent { read, written: vec![0xA5; room], words, answer: vec![] };
        let (code, Lent { words, written: mut image, .. }) = self.call(call, lent);
        if code == 0 {
            let blocks = (words[8] - journal.words[8]) as usize;
            image.truncate(BLOCK * blocks);
            let mut payload = vec![0; PAYLOAD * blocks];
            assert_eq!(calls::strip(&image, &mut payload), 0);
            assert!(entries::range(&payload).is_some_and(|read| read == list), "other entries");
        }
        code
    }

    /// These were the numbers, and there were so many calls.
    pub fn ends(&self, numbers: &[u64], at_least: usize) {
        assert!(self.given.keys().eq(numbers), "{:?}", self.given);
        let calls: usize = self.given.values().sum();
        assert!(calls >= at_least, "{calls} calls");
    }
}

/// A record and its ring.
#[derive(Clone, Default)]
pub struct Journal {
    pub words: Vec<u64>,
    pub ring: Vec<u8>,
}

/// The words of the frozen list, of the one in memory, of the frozen blocks and of the clones.
pub const FROZEN: usize = 4;
pub const MEMORY: usize = 6;
pub const HELD: usize = 9;
pub const CLONES: usize = 17;

impl Journal {
    /// An empty one, whose pending bytes will start at a place. No length word has a byte of its ring.
    pub fn new(n: usize, r: usize, start: usize) -> Self {
        let mut words = vec![0; WORDS];
        words[0] = LAYOUT;
        words[1..4].copy_from_slice(&[n, r, start].map(|n| n as u64));
        Journal { words, ring: vec![0xA5; r] }
    }

    /// With a list that is in its ring, and counted where `list` says; `held` blocks are frozen.
    pub fn holding(
        n: usize,
        r: usize,
        start: usize,
        list: usize,
        entries: &[Entry],
        held: usize,
    ) -> Self {
        let mut journal = Journal::new(n, r, start);
        let forms = forms(entries);
        journal.words[list] = entries.len() as u64;
        journal.words[list + 1] = forms.len() as u64;
        journal.words[HELD] = held as u64;
        journal.words[CLONES] = entries::clones(entries);
        for (i, byte) in forms.into_iter().enumerate() {
            journal.ring[(start + i) % r] = byte;
        }
        journal
    }
}

/// Their wire forms, one behind the other.
pub fn forms(entries: &[Entry]) -> Vec<u8> {
    entries.iter().flat_map(Entry::wire_form).collect()
}

/// The blocks of a batch that has so many bytes of wire forms.
pub fn needed(bytes: usize) -> usize {
    (8 + bytes).div_ceil(PAYLOAD)
}
