//! Where a value lies in the blocks, and in the ring.
use crate::{goes_through, insert, LENGTHS};
use journal_tests::model::block::PAYLOAD;
use journal_tests::model::writing::{self, Entry};
use journal_tests::random::Random;
use journal_tests::tally::{forms, needed, Journal, Tally};

/// Appends all, and has what is then in memory go through. The list's bytes start at a place of a ring that is
/// so much longer than them.
fn appended(tally: &mut Tally, list: &[Entry], start: usize, more: usize) {
    let bytes = forms(list).len();
    let mut journal = Journal::new(needed(bytes), bytes + more, start % (bytes + more));
    for entry in list {
        assert_eq!(tally.append(&mut journal, entry), 0);
    }
    goes_through(tally, &journal, list);
}

/// A value of this length that starts at a place of a block, with entries before and behind it.
fn placed(at: usize, len: usize, random: &mut Random) -> Vec<Entry> {
    let first = random.one_of(&[1, 5, 512]);
    // the batch's two words, the entry's two, its first bytes, and none or at least 8 of entries before it
    let before = (PAYLOAD + at - 16 - first) % PAYLOAD;
    let before = if (1..8).contains(&before) { before + PAYLOAD } else { before };
    let list = writing::weighing(random, before).into_iter();
    let mut list: Vec<_> = list.map(Entry::keyed).collect();
    assert_eq!((8 + forms(&list).len() + 8 + first) % PAYLOAD, at);
    list.push(insert(first, len, random));
    list.push(Entry::random(random, 40).keyed());
    list
}

/// Each length at places of a block: first and last ones, those at which a length word that stands before it
/// crosses the block's end, and others.
#[test]
fn at_places_of_a_block() {
    let mut tally = Tally::default();
    let random = &mut Random(1);
    for len in LENGTHS {
        for at in (0..=8).chain([11, 12, 13, 2_031, 2_032, 2_033]).chain(4_052..=4_063) {
            let list = placed(at, len, random);
            let bytes = forms(&list).len();
            appended(&mut tally, &list, random.below(bytes), random.below(3));
        }
    }
    tally.ends(&[0, 8], 30_000);
}

/// The ring's end before each byte of the entry at which something changes: a piece's first and last ones, one in
/// its middle, and in the value those at blocks' ends.
#[test]
fn over_the_end_of_a_ring() {
    let mut tally = Tally::default();
    let random = &mut Random(2);
    for (first, len) in [1, 5, 512].into_iter().flat_map(|first| LENGTHS.map(|len| (first, len))) {
        let list =
            [Entry::random(random, 40), insert(first, len, random), Entry::random(random, 40)]
                .map(Entry::keyed);
        let before = list[0].weight();
        let value = 8 + first;
        let pieces = [(0, 4), (4, 4 + first), (4 + first, value), (value, value + len)];
        let ends = pieces
            .into_iter()
            .flat_map(|(start, end)| [start, start + 1, (start + end) / 2, end - 1, end]);
        let in_blocks = (1..).map(|k| PAYLOAD * k - 8 - before).take_while(|at| *at < value + len);
        let mut cuts: Vec<usize> = ends.chain(in_blocks).collect();
        cuts.sort();
        cuts.dedup();
        let bytes = forms(&list).len();
        for cut in cuts {
            let more = random.one_of(&[0, 0, 1, 5_000]);
            appended(&mut tally, &list, 2 * (bytes + more) - before - cut, more);
        }
    }
    tally.ends(&[0, 8], 20_000);
}

/// Lists of nothing but the largest, over five blocks and over many.
#[test]
fn many_of_the_longest() {
    let mut tally = Tally::default();
    let random = &mut Random(3);
    for count in [1, 2, 3, 4, 5, 9, 14] {
        let list: Vec<_> = (0..count).map(|_| Entry::largest(random)).collect();
        let bytes = forms(&list).len();
        for start in [0, bytes - 1, random.below(bytes)] {
            appended(&mut tally, &list, start, 0);
        }
    }
    tally.ends(&[0, 8], 10_000);
}
