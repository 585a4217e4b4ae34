//! Rings and regions with just enough room for an entry, and with too little.
use crate::{goes_through, insert, LENGTHS};
use journal_tests::model::block::PAYLOAD;
use journal_tests::model::writing::Entry;
use journal_tests::random::Random;
use journal_tests::tally::{needed, Journal, Tally, FROZEN, HELD, MEMORY};

const WRITTEN: usize = 8;

/// One of each length, and the largest.
fn entries(random: &mut Random) -> Vec<Entry> {
    let lengths = LENGTHS.map(|len| insert(1 + random.below(512), len, random));
    lengths.into_iter().chain([Entry::largest(random)]).collect()
}

/// Rings that have a byte less than the entry, or many, or just as many, with nothing in them and with an entry
/// that is frozen.
#[test]
fn in_the_ring() {
    let mut tally = Tally::default();
    let random = &mut Random(1);
    for entry in &entries(random) {
        let weight = entry.weight();
        for pending in [None, Some(Entry::random(random, 100))] {
            let frozen = pending.as_slice();
            let before = pending.as_ref().map_or(0, Entry::weight);
            for room in [1, 8, 1_000, PAYLOAD, weight - 513, weight - 1, weight, weight + 1] {
                let start = random.below(before + room);
                let held = frozen.len();
                let mut journal = Journal::holding(6, before + room, start, FROZEN, frozen, held);
                let wanted = if room < weight { 6 } else { 0 };
                assert_eq!(tally.append(&mut journal, entry), wanted, "{room} for {weight}");
            }
        }
    }
    tally.ends(&[0, 6], 100);
}

/// Of a region of `n` blocks so many are written and so many held; the ring has room for more.
fn in_a_region(tally: &mut Tally, [n, written, held]: [usize; 3], entry: &Entry, wanted: u64) {
    let mut journal = Journal::new(n, 2 * entry.weight(), entry.weight() + 9);
    journal.words[WRITTEN] = written as u64;
    journal.words[HELD] = held as u64;
    assert_eq!(
        tally.append(&mut journal, entry),
        wanted,
        "{n} blocks, {written} and {held} not free"
    );
}

/// The largest needs five blocks; each other entry, among them those that fill their blocks and those with a byte
/// more, as many as it needs. They are all that there are, or those left by what is written and held.
#[test]
fn in_the_region() {
    let mut tally = Tally::default();
    let random = &mut Random(2);
    let largest = Entry::largest(random);
    for n in 1..=8 {
        in_a_region(&mut tally, [n, 0, 0], &largest, if n < 5 { 5 } else { 0 });
    }
    let full = (1..=4).flat_map(|blocks| [0, 1].map(|more| PAYLOAD * blocks - 8 + more));
    let full: Vec<_> = full.map(|weight| insert(100, weight - 108, random)).collect();
    for entry in full.iter().chain(&entries(random)) {
        let blocks = needed(entry.weight());
        for (written, held) in
            [(0, 0), (1, 0), (0, 1), (3, 4), (1_024 - blocks, 0), (0, 1_024 - blocks)]
        {
            let n = written + held + blocks;
            in_a_region(&mut tally, [n, written, held], entry, 0);
            let no_room = if n == 1 { [1, 1, 0] } else { [n - 1, written, held] };
            in_a_region(&mut tally, no_room, entry, 5);
        }
    }
    tally.ends(&[0, 5], 200);
}

/// Behind others in memory, whose batch has its header already: the region's last byte is used, and one byte more
/// is refused.
#[test]
fn behind_others() {
    let mut tally = Tally::default();
    let random = &mut Random(3);
    for len in LENGTHS {
        for first in [1, 512] {
            let entry = insert(first, len, random);
            let n = needed(entry.weight() + 8);
            let room = PAYLOAD * n - 8 - entry.weight();
            for (before, wanted) in [(room, 0), (room + 1, 5)] {
                let other = insert(0, before - 8, random);
                let r = before + entry.weight();
                let list = [other, entry.clone()];
                let mut journal = Journal::holding(n, r, random.below(r), MEMORY, &list[..1], 0);
                assert_eq!(tally.append(&mut journal, &entry), wanted, "{before} and {len}");
                if wanted == 0 {
                    goes_through(&mut tally, &journal, &list);
                }
            }
        }
    }
    tally.ends(&[0, 5, 8], 600);
}
