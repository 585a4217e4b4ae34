//! At the limit and past it, with room for all and all bytes there; and values whose last bytes are not there.
use crate::{insert, read, reads_as, record, LENGTHS};
use journal_tests::call::Call::*;
use journal_tests::memory::Lent;
use journal_tests::model::block::{BLOCK, PAYLOAD};
use journal_tests::model::card::with_live;
use journal_tests::model::writing::{self, Entry};
use journal_tests::random::Random;
use journal_tests::tally::{forms, needed, Journal, Tally, FROZEN, MEMORY};

/// Second bytes past the limit of an insert, some of them few in their lower 16 bits; and past that of a clone.
const LONGER: [usize; 8] = [16_385, 16_386, 16_896, 20_000, 32_768, 65_535, 65_536, 81_920];
const CLONED: [usize; 8] = [513, 514, 1_024, 4_064, 4_065, 8_128, 16_383, 16_384];

/// What is too long, and the same entry with as much as its kind may have.
fn pairs(random: &mut Random) -> Vec<[Entry; 2]> {
    let inserts = LONGER.map(|len| (false, len, 16_384));
    let clones = CLONED.map(|len| (true, len, 512));
    let first = [0, 5, 512].into_iter().cycle();
    let kinds = inserts.into_iter().chain(clones).zip(first);
    kinds
        .map(|((is_clone, len, most), first)| {
            let longer = Entry { is_clone, ..insert(first, len, random) };
            [longer.clone(), Entry { second: longer.second[..most].into(), ..longer }]
        })
        .collect()
}

/// All of them, each with what a call gives on it: this number where it is too long.
fn answered(number: u64, random: &mut Random) -> Vec<(Entry, u64)> {
    pairs(random).into_iter().flat_map(|pair| pair.into_iter().zip([number, 0])).collect()
}

/// Lists that have the entry alone, last, first and between others.
fn lists(entry: &Entry, random: &mut Random) -> [Vec<Entry>; 4] {
    [[0, 0], [2, 0], [0, 1], [3, 2]].map(|[before, behind]| {
        let mut list: Vec<_> = (0..before + behind).map(|_| Entry::random(random, 40)).collect();
        list.insert(before, entry.clone());
        list
    })
}

/// 4, where region and ring have room for the longer one too; also where there is no key, for which the shorter one is
/// refused.
#[test]
fn appended() {
    let mut tally = Tally::default();
    let random = &mut Random(1);
    for [longer, right] in pairs(random) {
        for pending in [0, 1] {
            let before: Vec<_> = (0..pending).map(|_| Entry::random(random, 40)).collect();
            let r = forms(&before).len() + longer.weight();
            let start = random.below(r);
            let journal = || Journal::holding(needed(r), r, start, MEMORY, &before, 0);
            assert_eq!(tally.append(&mut journal(), &longer), 4);
            let wanted = if right.has_key() { 0 } else { 22 };
            assert_eq!(tally.append(&mut journal(), &right), wanted);
        }
    }
    tally.ends(&[0, 4, 22], 64);
}

/// 14 by range and load, wherever the entry is in its batch and however that is split; by top and pop when it is
/// next.
#[test]
fn read_back() {
    let mut tally = Tally::default();
    let random = &mut Random(2);
    for [longer, right] in pairs(random) {
        for list in lists(&longer, random) {
            let payload = writing::batch(&list, 0);
            let n = payload.len() / PAYLOAD;
            let split = random.below(n + 1);
            let (front, back) = payload.split_at(PAYLOAD * split);
            let sides = record(n, &[(13, 1), (14, split), (15, 1), (16, n - split)]);
            for (call, words) in [(Range, &[][..]), (Load, &sides)] {
                assert_eq!(read(&mut tally, call, words, [front, back], payload.len()).0, 14);
            }
            let replay = forms(&list);
            let before = list.iter().position(|entry| *entry == longer).unwrap();
            let place = forms(&list[..before]).len();
            let left = [(11, replay.len() - place), (12, list.len() - before)];
            let words = record(n, &[&[(10, place)], &left[..]].concat());
            for call in [Top, Pop] {
                assert_eq!(read(&mut tally, call, &words, [&replay, &[]], 0).0, 14);
            }
        }
        for list in lists(&right, random) {
            reads_as(&mut tally, &writing::batch(&list, 0), &list);
        }
    }
    tally.ends(&[0, 8, 14], 900);
}

/// 15 by both packagings, wherever in the ring the entry is: in the packaged list, or in memory behind it.
#[test]
fn packaged() {
    let mut tally = Tally::default();
    let random = &mut Random(3);
    for (entry, wanted) in answered(15, random) {
        for list in lists(&entry, random) {
            let bytes = forms(&list).len();
            let (blocks, start) = (needed(bytes), random.below(bytes));
            for (call, at, held) in [(PackageInMemory, MEMORY, 0), (PackageFrozen, FROZEN, blocks)]
            {
                let journal = Journal::holding(blocks, bytes, start, at, &list, held);
                assert_eq!(tally.package(&journal, call, BLOCK * blocks, &list), wanted);
            }
        }
        let list = [Entry::random(random, 40), entry];
        let [frozen, memory] = [0, 1].map(|k| list[k].weight());
        let (held, r) = (needed(frozen), frozen + memory);
        let n = held + needed(memory);
        let mut journal = Journal::holding(n, r, random.below(r), FROZEN, &list, held);
        journal.words[FROZEN..MEMORY + 2]
            .copy_from_slice(&[1, frozen, 1, memory].map(|n| n as u64));
        assert_eq!(tally.package(&journal, PackageFrozen, BLOCK * held, &list[..1]), wanted);
    }
    tally.ends(&[0, 15], 250);
}

/// 14 by a store of the image, and by a release where it is live, from any block on.
#[test]
fn on_a_card() {
    let mut tally = Tally::default();
    let random = &mut Random(4);
    for (entry, wanted) in answered(14, random) {
        for list in lists(&entry, random) {
            let image = writing::image(&writing::batch(&list, 0));
            let blocks = image.len() / BLOCK;
            let n = blocks as u64;
            for (call, live) in [(CardStore { n, made: 0 }, &[][..]), (CardRelease { n }, &image)] {
                let written = with_live(blocks, random.below(blocks), live, random);
                let read = [image.clone(), vec![]];
                let lent = Lent { read, written, answer: vec![7], ..Lent::default() };
                assert_eq!(tally.call(call, lent).0, wanted, "{call:?}");
            }
        }
    }
    tally.ends(&[0, 14], 250);
}

/// A value that goes on behind the end of its batch, of a list in the ring, or of a replay is not read short: 14, 15.
#[test]
fn cut_short() {
    let mut tally = Tally::default();
    let random = &mut Random(5);
    for (len, over) in
        LENGTHS.into_iter().flat_map(|len| [0, 1, 100, 4_063].map(|over| (len, over)))
    {
        let wanted = |number| if over == 0 { 0 } else { number };
        let entry = insert(random.one_of(&[0, 5, 512]), len, random);
        let blocks = needed(entry.weight()) + 1;
        let end = PAYLOAD * blocks;
        let mut list = writing::weighing(random, end - 8 + over - entry.weight());
        list.push(entry);
        let mut payload = writing::batch(&list, 0);
        payload.truncate(end);
        payload[4..8].copy_from_slice(&(blocks as u32).to_le_bytes());
        let sides = record(blocks, &[(13, 1), (14, blocks)]);
        for (call, words) in [(Range, &[][..]), (Load, &sides)] {
            assert_eq!(read(&mut tally, call, words, [&payload, &[]], end).0, wanted(14));
        }

        let last = &list[list.len() - 1..];
        let bytes = last[0].weight();
        for (call, at, held) in [(PackageInMemory, MEMORY, 0), (PackageFrozen, FROZEN, blocks - 1)]
        {
            let mut journal = Journal::holding(blocks, bytes, random.below(bytes), at, last, held);
            journal.words[at + 1] -= over as u64;
            assert_eq!(tally.package(&journal, call, BLOCK * blocks, last), wanted(15));
        }
        let words = record(1, &[(11, bytes - over), (12, 1)]);
        for call in [Top, Pop] {
            assert_eq!(read(&mut tally, call, &words, [&forms(last), &[]], 0).0, wanted(14));
        }
    }
    tally.ends(&[0, 14, 15], 190);
}
