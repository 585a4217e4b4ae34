//! Appends: entries of one weight, until the largest region is full. Half of them are before the end
//! of the longest ring, and half of them from its start on. Every other one is a clone, where it may be so long.
use crate::{filling, mixed, record, Case, Timed, Way};
use journal_tests::model::block::PAYLOAD;
use journal_tests::model::plain;
use journal_tests::model::reading::{CLONED, FIRST};
use journal_tests::model::writing::Entry;
use journal_tests::random::Random;
use nungakes::calls;
use std::cell::RefCell;
use std::hint::black_box;

const RING: usize = 8 << 20;

/// So many entries are appended again and again.
const SOME: usize = 1_000;

pub struct Appends {
    weight: usize,
    /// The appends of a round.
    count: usize,
    entries: Vec<Entry>,
    ring: RefCell<Vec<u8>>,
}

type Append = fn(&mut [u64], &mut [u8], &[u8], &[u8]) -> u64;

impl Appends {
    pub fn new(weight: usize) -> Self {
        let random = &mut Random(1);
        let first = ((weight - 8) / 2).min(FIRST as usize);
        let second = weight - 8 - first;
        let entry = |k| Entry {
            is_clone: k % 2 == 1 && second <= CLONED as usize,
            first: random.bytes(first),
            second: random.bytes(second),
        };
        let count = (PAYLOAD * 1_024 - 8) / weight;
        let entries = (0..SOME.min(count)).map(entry).collect();
        Appends { weight, count, entries, ring: RefCell::new(vec![0; RING]) }
    }

    fn start(&self) -> usize {
        RING - self.weight * self.count / 2
    }

    fn entries(&self) -> impl Iterator<Item = &Entry> {
        black_box(&self.entries).iter().cycle().take(self.count)
    }

    fn round(&self, [insert, clone]: [Append; 2]) -> Timed {
        let mut words = record(RING, &[(3, self.start())]);
        let timed = filling(&mut self.ring.borrow_mut(), |ring| {
            let append = |Entry { is_clone, first, second }: &Entry| {
                let append = if *is_clone { clone } else { insert };
                append(&mut words, ring, first, second)
            };
            self.entries().map(append).sum()
        });
        assert_eq!(words[6], self.count as u64);
        timed.and(mixed(&[words]))
    }

    /// The third way, a limit for the others, is to copy the entries' wire forms.
    pub fn case(&self) -> Case<'_> {
        let forms: Vec<u8> = self.entries().flat_map(Entry::wire_form).collect();
        let copy = move || {
            filling(&mut self.ring.borrow_mut(), |ring| {
                let (before_end, from_start) = black_box(&forms).split_at(RING - self.start());
                ring[self.start()..].copy_from_slice(before_end);
                ring[..from_start.len()].copy_from_slice(from_start);
                0
            })
        };
        let of_library = [calls::append_insert as Append, calls::append_clone];
        let of_plain = [plain::append_insert as Append, plain::append_clone];
        Case {
            name: format!("append {}", self.weight),
            calls: self.count,
            bytes: self.weight * self.count,
            often: 1,
            ways: vec![
                Way::new("rattle", move || self.round(of_library)),
                Way::new("rust", move || self.round(of_plain)),
                Way::limit("memcpy", copy),
            ],
        }
    }
}
