//! The document's table of refusals: each row's example, each number of each call, the order of a
//! call's tests, and each condition under which the counts hang together. A refusal changes no word
//! and no byte that is lent.
mod card;
mod examples;
mod hanging;
mod order;

use journal_tests::call::Call;
use journal_tests::memory::{Lent, Memory};
use journal_tests::model::record::{LAYOUT, WORDS};
use journal_tests::model::writing::Entry;
use std::collections::{BTreeMap, BTreeSet};

/// The numbers that were given, by the name of the call.
#[derive(Default)]
struct Table {
    memory: Memory,
    seen: BTreeMap<String, BTreeSet<u64>>,
}

/// A call, and what it is lent.
#[derive(Clone)]
struct Case {
    call: Call,
    lent: Lent,
}

impl Table {
    /// What the call gives: 0, or a refusal, which leaves all as it was.
    fn gives(&mut self, Case { call, lent }: &Case) -> u64 {
        self.memory.hold(lent);
        let code = call.of_library(self.memory.slices());
        if code != 0 {
            let different = self.memory.different(lent);
            assert!(different.is_empty(), "{call:?} gives {code}, and changes {different:?}");
        }
        self.seen.entry(call.name()).or_default().insert(code % 256);
        code
    }

    fn refused(&mut self, case: &Case, code: u64) {
        let Case { call, lent } = case;
        assert_eq!(self.gives(case), code, "{call:?} on {:?}", lent.words);
    }

    /// What is lent to an accepted call, afterwards.
    fn accepted(&mut self, case: &Case) -> Lent {
        self.refused(case, 0);
        self.memory.lent()
    }
}

/// The words of an empty record.
fn empty(n: u64, r: u64) -> Vec<u64> {
    let mut words = vec![0; WORDS];
    words[..3].copy_from_slice(&[LAYOUT, n, r]);
    words
}

/// Places of words, and what stands there.
type Others = [(usize, u64)];

/// The record with other words at these places.
fn with(mut words: Vec<u64>, others: &Others) -> Vec<u64> {
    for (at, word) in others {
        words[*at] = *word;
    }
    words
}

/// An insert of this weight, 9 to 16,904, with the shortest key.
fn weighing(weight: usize) -> Entry {
    let second = (weight - 9).min(16_384);
    Entry { is_clone: false, first: vec![1; weight - 8 - second], second: vec![2; second] }
}

/// The smallest entry.
fn smallest() -> Entry {
    Entry { is_clone: true, first: vec![], second: vec![] }
}

fn forms(entries: &[Entry]) -> Vec<u8> {
    entries.iter().flat_map(Entry::wire_form).collect()
}

/// Each part alone can fail; the numbers are those of all together.
#[test]
fn every_number_of_every_call() {
    let mut table = Table::default();
    order::run(&mut table);
    card::run(&mut table);
    examples::run(&mut table);
    hanging::run(&mut table);
    let all: BTreeSet<u64> = table.seen.values().flatten().copied().collect();
    // 16 is for places alone
    assert!(all.into_iter().eq((0..=15).chain(17..=19).chain([22])), "{:?}", table.seen);
    assert_eq!(table.seen.len(), 26, "{:?}", table.seen.keys());
}
