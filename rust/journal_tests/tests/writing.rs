//! Append and the packagings, of the library and of the plain Rust implementation, against the model:
//! entries that wrap at every byte of a ring, lists that end around a block's end, and the largest.
//! What is packaged is read again.
use journal_tests::call::Call::*;
use journal_tests::model::block::{BLOCK, HEAD, PAYLOAD};
use journal_tests::model::crc;
use journal_tests::model::writing::{self, Entry};
use journal_tests::random::Random;
use journal_tests::tally::{forms, needed, Journal, Tally, FROZEN, HELD, MEMORY};
use nungakes::calls;

/// None, one short of the blocks, exactly that, one more, and a block more.
fn rooms(blocks: usize) -> [usize; 5] {
    let least = BLOCK * blocks;
    [0, least - 1, least, least + 1, least + BLOCK]
}

#[test]
fn the_cases_of_the_document() {
    let mut tally = Tally::default();
    for (is_clone, form) in
        [(false, b"\x02\0\0\0ab\x01\0\0\0c"), (true, b"\x02\x10\0\0ab\x01\0\0\0c")]
    {
        let entry = Entry { is_clone, first: b"ab".into(), second: b"c".into() };
        let mut journal = Journal::new(1, 12, 6);
        assert_eq!(tally.append(&mut journal, &entry), 0);
        assert_eq!(journal.ring, [&form[6..], b"\xA5", &form[..6]].concat());
        assert_eq!(tally.package(&journal, PackageInMemory, BLOCK, &[entry]), 0);

        let mut payload = [b"\x01\0\0\0\x01\0\0\0", &form[..]].concat();
        payload.resize(PAYLOAD, 0);
        let mut block = crc::bit_by_bit(&payload).to_le_bytes().to_vec();
        block.resize(HEAD, 0);
        block.extend(payload);
        assert_eq!(tally.memory.lent().written, block);
    }
    tally.ends(&[0], 4);
}

/// Small rings from every start, with every number of bytes pending in one list or the other: each word
/// and each byte run wraps at each of its bytes. A start or a pending list that can't be is refused.
#[test]
fn small_entries_in_every_small_ring() {
    let mut tally = Tally::default();
    let random = &mut Random(1);
    for (first, second) in [(0, 0), (0, 3), (1, 0), (2, 1), (3, 3)] {
        for is_clone in [false, true] {
            let [first, second] = [first, second].map(|n| random.bytes(n));
            let entry = Entry { is_clone, first, second };
            for len in 0..=30 {
                for start in 0..=len + 1 {
                    for pending in [0].into_iter().chain(7..=len + 1) {
                        for list in [FROZEN, MEMORY] {
                            let mut journal = Journal::new(2, len, start);
                            journal.words[list] = u64::from(pending > 0);
                            journal.words[list + 1] = pending as u64;
                            journal.words[HELD] = u64::from(list == FROZEN);
                            tally.append(&mut journal, &entry);
                        }
                    }
                }
            }
        }
    }
    tally.ends(&[0, 2, 6, 22], 100_000);
}

/// The longest insert and the longest clone, in rings that they fill and nearly so: the clone from every start,
/// the insert from the first ones and the last, from those that have a piece's end near the ring's, and from
/// some of the others.
#[test]
fn long_entries_from_every_start() {
    let mut tally = Tally::default();
    let random = &mut Random(2);
    for (is_clone, second, step) in [(false, 16_384, 61), (true, 512, 1)] {
        let entry = Entry { is_clone, first: random.bytes(512), second: random.bytes(second) };
        let weight = entry.weight();
        for len in [weight - 1, weight, weight + 1, weight + 700] {
            let near = |start: &usize| {
                let pieces = [4, 516, 520, weight].map(|end| (start + end).abs_diff(len));
                *start < 40 || start + 40 > len || pieces.iter().any(|distance| *distance < 6)
            };
            for start in (0..=len).filter(|start| start % step == 0 || near(start)) {
                let wanted = if start == len {
                    2
                } else if len < weight {
                    6
                } else {
                    0
                };
                assert_eq!(tally.append(&mut Journal::new(5, len, start), &entry), wanted);
            }
        }
    }
    tally.ends(&[0, 2, 6], 6_000);
}

/// Lengths at their limits, with and without room.
#[test]
fn entries_at_their_limits() {
    let mut tally = Tally::default();
    let random = &mut Random(3);
    for (first, second) in [0, 511, 512, 513, 1_024, 4_096]
        .into_iter()
        .flat_map(|n| [0, 511, 512, 513, 4_064, 16_383, 16_384, 16_385].map(|m| (n, m)))
    {
        for is_clone in [false, true] {
            let [first, second] = [first, second].map(|n| random.bytes(n));
            let entry = Entry { is_clone, first, second };
            let weight = entry.weight();
            for len in [0, 1, weight - 1, weight, weight + 1, 24_000] {
                for start in [0, len.saturating_sub(1)] {
                    for written in [0, 1, 5] {
                        let mut journal = Journal::new(5, len, start);
                        journal.words[8] = written;
                        tally.append(&mut journal, &entry);
                    }
                }
            }
        }
    }
    tally.ends(&[0, 3, 4, 5, 6, 22], 2_000);
}

/// A random list goes into a ring by appends; some of it is frozen, in parts. One more entry finds just
/// enough room or a byte too little. What is frozen is packaged, and what is in memory; a ring of
/// which a byte of a length word is damaged, or an entry's kind, is refused.
#[test]
fn lists_through_rings() {
    let mut tally = Tally::default();
    let random = &mut Random(4);
    for _ in 0..1_500 {
        let most = random.one_of(&[0, 3, 40, 1_024, 16_384]);
        let count = 1 + random.below(24);
        let list: Vec<_> = (0..count).map(|_| Entry::random(random, most).keyed()).collect();
        let weight = forms(&list).len();
        let left = random.one_of(&[0, 1, 8, 300]);
        let mut journal = Journal::new(130, weight + left, random.below(weight + left));
        let frozen = random.below(list.len() + 1);
        for (k, entry) in list.iter().enumerate() {
            assert_eq!(tally.append(&mut journal, entry), 0);
            if k + 1 == frozen || k + 1 < frozen && random.below(6) == 0 {
                assert_eq!(calls::freeze(&mut journal.words), 0);
            }
        }
        for bytes in [7, 8].map(|n| left.saturating_sub(n)) {
            let entry = Entry { is_clone: true, first: random.bytes(bytes), second: vec![] };
            let wanted = if bytes + 8 <= left { 0 } else { 6 };
            assert_eq!(tally.append(&mut journal.clone(), &entry), wanted);
        }

        let (frozen, memory) = list.split_at(frozen);
        let held = journal.words[HELD] as usize;
        let place = (journal.words[3] as usize + 1) % journal.ring.len();
        let [mut longer, mut other_kind] = [journal.clone(), journal.clone()];
        longer.ring[place] = 0xFF;
        other_kind.ring[place] ^= 0x10;
        if !frozen.is_empty() {
            for damaged in [longer, other_kind] {
                assert_eq!(tally.package(&damaged, PackageFrozen, BLOCK * held, frozen), 15);
            }
            for room in rooms(held) {
                let wanted = if room < BLOCK * held { 9 } else { 0 };
                assert_eq!(tally.package(&journal, PackageFrozen, room, frozen), wanted);
            }
            let mut out = vec![0; BLOCK * held];
            assert_eq!(tally.package(&journal, PackageInMemory, BLOCK, memory), 7);
            assert_eq!(calls::package_frozen(&mut journal.words, &journal.ring, &mut out), 0);
        }
        let blocks = needed(forms(memory).len());
        for room in rooms(blocks) {
            let wanted = match memory {
                [] => 8,
                _ if room < BLOCK * blocks => 9,
                _ => 0,
            };
            assert_eq!(tally.package(&journal, PackageInMemory, room, memory), wanted);
        }
    }
    tally.ends(&[0, 6, 7, 8, 9, 15], 30_000);
}

/// Lists that end at a block's end, and some bytes before and after it, in as many blocks as they need
/// and one more, to every room.
#[test]
fn lists_around_a_block_end() {
    let mut tally = Tally::default();
    let random = &mut Random(5);
    for n in [1, 2, 3, 5].map(|end| PAYLOAD * end - 8).into_iter().flat_map(|n| n - 9..=n + 9) {
        let list = writing::weighing(random, n);
        let blocks = needed(n);
        for (call, at, held) in [
            (PackageInMemory, MEMORY, 0),
            (PackageFrozen, FROZEN, blocks),
            (PackageFrozen, FROZEN, blocks + 1),
            (PackageFrozen, FROZEN, blocks - 1),
        ] {
            let journal = Journal::holding(7, n, random.below(n), at, &list, held);
            for room in rooms(blocks.max(held)) {
                let wanted = if at == FROZEN && held < blocks {
                    2
                } else if room < BLOCK * blocks.max(held) {
                    9
                } else {
                    0
                };
                assert_eq!(tally.package(&journal, call, room, &list), wanted);
            }
        }
    }
    tally.ends(&[0, 2, 9], 1_500);
}

/// An entry of 22 bytes across a block's end at each of its bytes, and the longest one at some; the ring
/// ends there too, or anywhere.
#[test]
fn entries_across_a_block_end() {
    let mut tally = Tally::default();
    let random = &mut Random(6);
    for (first, second, step, blocks) in [(5, 9, 1, 2), (512, 16_384, 127, 5)] {
        let (weight, end) = (8 + first + second, PAYLOAD * blocks - 8);
        for over in (0..=weight).step_by(step) {
            let mut list = writing::weighing(random, end - weight + over);
            let [first, second] = [first, second].map(|n| random.bytes(n));
            list.push(Entry { is_clone: false, first, second });
            list.extend(writing::weighing(random, 100));
            let n = forms(&list).len();
            let blocks = needed(n);
            for start in [n - end, random.below(n)] {
                let journal = Journal::holding(blocks, n, start, MEMORY, &list, 0);
                assert_eq!(tally.package(&journal, PackageInMemory, blocks * BLOCK, &list), 0);
            }
        }
    }
    tally.ends(&[0], 250);
}

/// A list over three blocks, from every start of a ring: each word and run of it wraps at each byte.
#[test]
fn a_list_from_every_start() {
    let mut tally = Tally::default();
    let list = writing::weighing(&mut Random(7), 2 * PAYLOAD + 100);
    let r = forms(&list).len() + 3;
    for start in 0..r {
        let (call, at, held) =
            if start % 2 == 0 { (PackageInMemory, MEMORY, 0) } else { (PackageFrozen, FROZEN, 3) };
        let journal = Journal::holding(3, r, start, at, &list, held);
        assert_eq!(tally.package(&journal, call, 3 * BLOCK, &list), 0);
    }
    tally.ends(&[0], 8_000);
}

/// The ring's end, a block's end and the list's end near one another, in either order: a run of the copy ends at
/// the nearest of them. The ring's end may also be the list's, or lie behind it.
#[test]
fn three_ends_near_one_another() {
    let mut tally = Tally::default();
    let random = &mut Random(13);
    let near = |end: usize| end - 3..=end + 3;
    for block_end in [1, 2, 3].map(|blocks| PAYLOAD * blocks - 8) {
        for n in near(block_end).chain(near(block_end + PAYLOAD)) {
            let list = writing::weighing(random, n);
            let blocks = needed(n);
            let r = n + 2 * PAYLOAD;
            for ring_end in near(block_end).chain(near(n)).chain([1, n - 1]) {
                let (call, at, held) = if ring_end % 2 == 0 {
                    (PackageInMemory, MEMORY, 0)
                } else {
                    (PackageFrozen, FROZEN, blocks)
                };
                let journal = Journal::holding(blocks, r, r - ring_end, at, &list, held);
                assert_eq!(tally.package(&journal, call, blocks * BLOCK, &list), 0);
            }
        }
    }
    tally.ends(&[0], 600);
}

/// Lists that fill so many blocks.
#[test]
fn every_number_of_blocks() {
    let mut tally = Tally::default();
    let random = &mut Random(12);
    for blocks in (1..=64).chain(255..=257) {
        let n = PAYLOAD * blocks - 8;
        let list = writing::weighing(random, n);
        let journal = Journal::holding(blocks, n, random.below(n), FROZEN, &list, blocks);
        assert_eq!(tally.package(&journal, PackageFrozen, BLOCK * blocks, &list), 0);
    }
    tally.ends(&[0], 67);
}

/// The largest region and the longest ring, in which a list that fills all blocks wraps. A byte more
/// is refused.
#[test]
fn the_largest() {
    const N: usize = 1_024;
    const R: usize = 8_388_608;
    let mut tally = Tally::default();
    let list = writing::weighing(&mut Random(10), PAYLOAD * N - 8);
    let list: Vec<_> = list.into_iter().map(Entry::keyed).collect();
    let start = R - 2_000_001;
    let wanted = Journal::holding(N, R, start, MEMORY, &list, 0);
    let mut journal = Journal::new(N, R, start);
    for Entry { is_clone, first, second } in &list {
        let append = if *is_clone { calls::append_clone } else { calls::append_insert };
        assert_eq!(append(&mut journal.words, &mut journal.ring, first, second), 0);
    }
    assert!(journal.words == wanted.words && journal.ring == wanted.ring, "the ring differs");
    let more = Entry { is_clone: true, first: vec![], second: vec![] };
    assert_eq!(tally.append(&mut journal, &more), 5);
    for room in [BLOCK * N - 1, BLOCK * N] {
        let wanted = if room < BLOCK * N { 9 } else { 0 };
        assert_eq!(tally.package(&journal, PackageInMemory, room, &list), wanted);
    }
    tally.ends(&[0, 5, 9], 3);
}
