//! Ranges: entries and their bytes.
use crate::compared::{batch_in, damaged, header, of_weight, payload, put, written, Tally};
use journal_tests::model::block::PAYLOAD;
use journal_tests::model::reading;
use journal_tests::model::writing::{self, Entry};
use journal_tests::random::Random;

/// Totals of more than 16 bits: entries without bytes, which are zeros, in one batch and in many.
#[test]
fn long_ranges() {
    let mut tally = Tally::new();
    let one = payload(&header(508 * 300 - 1, 300), 300);
    let many = payload(&header(507, 1), 1).repeat(300);
    for joined in [one, many] {
        assert_eq!(tally.range(&joined, 100 * PAYLOAD, 2, "entries without bytes"), 0);
    }
    tally.ends(&[0], 2);
}

/// Two batches of tiny entries, three blocks: at some split, each word is cut in each way.
#[test]
fn a_small_range_split_at_every_byte() {
    let mut tally = Tally::new();
    let random = &mut Random(7);
    let batches = [2, 1].map(|blocks| writing::full_batch(blocks, || Entry::random(random, 3)));
    let mut joined = batches.concat();
    for split in 0..=joined.len() {
        assert_eq!(tally.range(&joined, split, 2, "tiny entries"), 0);
    }
    // the last batch has no room for two more
    let entries = u32::from_le_bytes(joined[2 * PAYLOAD..][..4].try_into().unwrap());
    put(&mut joined, 2 * PAYLOAD, entries + 2);
    for split in (0..=joined.len()).step_by(5) {
        assert_eq!(tally.range(&joined, split, 2, "too many tiny entries"), 14);
    }
    tally.ends(&[0, 14], 14_000);
}

/// Front and back may be torn, if only their bytes together are whole blocks.
#[test]
fn ranges_of_every_length() {
    let mut tally = Tally::new();
    let random = &mut Random(8);
    let joined = [(); 3].map(|()| writing::full_batch(1, || Entry::random(random, 9))).concat();
    for len in (0..=joined.len()).step_by(16).chain([PAYLOAD - 1, PAYLOAD + 1]) {
        for split in [0, len / 2, len.saturating_sub(PAYLOAD), len] {
            let answer = tally.range(&joined[..len], split, 2, "cut");
            assert_eq!(answer == 0, len % PAYLOAD == 0);
        }
    }
    tally.ends(&[0, 14], 3_000);
}

/// Totals of every room, for what reads and for what does not.
#[test]
fn totals_in_every_room() {
    let mut tally = Tally::new();
    let random = &mut Random(9);
    let whole = writing::full_batch(2, || Entry::random(random, 100));
    let mut wrong = whole.clone();
    put(&mut wrong, 8, 513);
    for joined in [&whole[..], &wrong, &whole[1..], &[]] {
        for split in [0, 9, PAYLOAD, joined.len()] {
            for room in [0, 1, 2, 3, 17] {
                tally.range(joined, split.min(joined.len()), room, "totals");
            }
        }
    }
    tally.ends(&[0, 9, 14], 80);
}

/// The blocks word of a batch that is the last, and of one that another follows. At 2^27 blocks more
/// the bytes are the same modulo 2^32.
#[test]
fn numbers_of_blocks() {
    let mut tally = Tally::new();
    let last = payload(&header(3, 1), 1);
    for blocks in 1..=3 {
        for followed in [0, 1, 2] {
            let mut joined = payload(&header(2, 0), blocks);
            joined.extend(last.repeat(followed));
            let n = blocks as u32;
            let large = [1 << 27, n + (1 << 27), n + (1 << 31), n << 8, u32::MAX];
            for word in (0..=6).chain(large) {
                put(&mut joined, 4, word);
                let what = format_args!("{word} as blocks, {blocks} and {followed}");
                let right = (n..=n + followed as u32).contains(&word);
                assert_eq!(tally.splits(&joined, what) == 0, right, "{what}");
            }
        }
    }
    tally.ends(&[0, 14], 1_000);
}

/// The entries word of a batch with some bytes left behind its last entry: as many more entries read
/// as there are times eight zeros, and none where there is something else.
#[test]
fn numbers_of_entries() {
    let mut tally = Tally::new();
    let last = writing::batch(&of_weight(100), 0);
    for blocks in [1, 2] {
        let all = PAYLOAD * blocks - 8;
        for left in [0, 1, 7, 8, 9, 15, 16, 23, 24, all] {
            let entries = of_weight(all - left);
            let n = entries.len() as u32;
            for (filled, more) in [(0x00, left as u32 / 8), (0xFF, 0)] {
                let mut joined = batch_in(blocks, &entries);
                joined[8 + all - left..].fill(filled);
                for followed in [0, 1] {
                    joined.extend(last.repeat(followed));
                    let large = [n + more, n + more + 1, n + (1 << 16), 1 << 31, u32::MAX];
                    for word in (0..=n + 2).chain(large) {
                        put(&mut joined, 0, word);
                        let what = format_args!("{word} for {n} entries, {left} bytes left");
                        assert_eq!(tally.splits(&joined, what) == 0, word <= n + more, "{what}");
                    }
                }
            }
        }
    }
    tally.ends(&[0, 14], 5_000);
}

/// The last entry ends so many bytes behind its batch's end, up to all of them. Behind is nothing,
/// or a batch without entries, whose header starts with zeros: as if the entry went on in it.
#[test]
fn entries_across_the_end_of_a_batch() {
    let mut tally = Tally::new();
    for blocks in [1, 2] {
        for is_clone in [false, true] {
            for over in 0..=22 {
                let mut entries = of_weight(PAYLOAD * blocks - 8 - 22 + over);
                entries.push(Entry { is_clone, first: vec![1; 5], second: vec![1; 9] });
                let mut joined = batch_in(blocks, &entries);
                for followed in [0, 1] {
                    joined.extend(batch_in(1, &[]).repeat(followed));
                    let what = format_args!("{over} of an entry's 22 bytes over the end");
                    assert_eq!(tally.splits(&joined, what) == 0, over == 0, "{what}");
                }
            }
        }
    }
    tally.ends(&[0, 14], 1_000);
}

/// The length words of one entry, followed by zeros enough.
#[test]
fn lengths_at_their_limits() {
    let mut tally = Tally::new();
    let around = |n: u32| n - 1..=n + 1;
    let large = [1 << 16, 1 << 24, 1 << 31, (1 << 31) + 4_096, u32::MAX - 7, u32::MAX];
    let firsts = [1, 512, 1_024, 4_096, 4_608, 5_120, 8_192].map(around).into_iter().flatten();
    for first in firsts.chain(large) {
        let seconds = [1, 512, 1_024, 4_064, 4_096, 16_384].map(around).into_iter().flatten();
        for second in seconds.chain(large) {
            let mut joined = payload(&header(1, 6), 6);
            put(&mut joined, 8, first);
            put(&mut joined, 12 + first as usize % 4_096, second);
            let right = (first <= 512 && second <= 16_384)
                || ((4_096..=4_608).contains(&first) && second <= 512);
            let what = format_args!("lengths {first} and {second}");
            assert_eq!(tally.splits(&joined, what) == 0, right, "{what}");
        }
    }
    tally.ends(&[0, 14], 4_000);
}

#[test]
fn random_ranges() {
    let mut tally = Tally::new();
    let random = &mut Random(10);
    for _ in 0..4_000 {
        let range = written(random);
        let mut totals = [0; 2];
        assert_eq!(reading::range(&range.joined, &[], &mut totals), 0);
        assert_eq!(totals, range.totals);
        let joined = damaged(range, random);
        let block_end = PAYLOAD * random.below(joined.len() / PAYLOAD + 1);
        let room = random.one_of(&[0, 1, 2, 2, 2, 3]);
        tally.range(&joined, block_end, room, "split at a block's end");
        tally.range(&joined, random.below(joined.len() + 1), room, "split anywhere");
    }
    tally.ends(&[0, 9, 14], 8_000);
}
