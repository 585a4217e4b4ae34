//! Cards and images damaged at every kind of place. What a call does not look at has no effect.
use crate::{batches, card, image, payload, Tally};
use journal_tests::call::Call;
use journal_tests::model::block::{BLOCK, HEAD, PAYLOAD};
use journal_tests::model::card::{block_0, place};
use journal_tests::model::writing;
use journal_tests::random::Random;

impl Tally {
    /// What find, a store and release give for this card; formatting looks at its length alone.
    fn codes(&mut self, card: &[u8], image: &[u8]) -> [u64; 3] {
        let stored = self.store(&mut card.to_vec(), image, 0);
        let released = self.release(&mut card.to_vec());
        let found = self.find(card).map(|_| 0);
        [found, stored, released].map(|answer| answer.err().unwrap_or(0))
    }
}

/// The head that belongs to the payload, whatever that is.
fn seal(block: &mut [u8]) {
    let sealed = writing::image(&block[HEAD..]);
    block.copy_from_slice(&sealed);
}

/// Each byte of block 0, changed in some bits.
#[test]
fn each_byte_of_block_0() {
    let tally = &mut Tally::default();
    let random = &mut Random(1);
    let live = batches(1, random);
    let whole = card(2, 1, &live, random);
    let image = image(&live);
    assert_eq!(tally.codes(&whole, &image), [0; 3]);
    for at in 0..BLOCK {
        for flip in [1 << (at % 8), random.one_of(&[0x80, 0x18, 0xFF])] {
            let mut card = whole.clone();
            card[at] ^= flip;
            assert_eq!(tally.codes(&card, &image), [18; 3], "byte {at}");
        }
    }
}

/// The same with the checksum of what is there: only another interval that is valid is taken.
#[test]
fn each_byte_of_its_payload() {
    let tally = &mut Tally::default();
    let random = &mut Random(2);
    let live = batches(1, random);
    let whole = card(1, 0, &live, random);
    let image = image(&live);
    for at in HEAD..BLOCK {
        let mut card = whole.clone();
        card[at] ^= 1 << random.below(8);
        seal(&mut card[..BLOCK]);
        let codes = tally.codes(&card, &image);
        // no block is live
        let none = at == 42 && card[42] == 0;
        assert_eq!(codes, if none { [0, 0, 8] } else { [18; 3] }, "byte {at}");
    }
}

/// Intervals of a card on which every block is a batch: valid are those that start below n and have at
/// most n blocks.
fn intervals(n: u32, starts: &[u32], lens: &[u32]) {
    let tally = &mut Tally::default();
    let random = &mut Random(3);
    let full: Vec<_> = (0..n).flat_map(|_| batches(1, random)).collect();
    let mut card = card(n as usize, 0, &full, random);
    let one = image(&full[..1]);
    for (start, len) in starts.iter().flat_map(|start| lens.iter().map(move |len| (*start, *len))) {
        card[..BLOCK].copy_from_slice(&block_0(start, len));
        let valid = start < n && len <= n;
        let no_room = if len == n { 19 } else { 0 };
        let none = if len == 0 { 8 } else { 0 };
        let wanted = if valid { [0, no_room, none] } else { [18; 3] };
        assert_eq!(tally.codes(&card, &one), wanted, "{start}, {len} of {n}");
    }
}

#[test]
fn every_interval() {
    let large = [255, 256, 257, 1_024, 1 << 16, 1 << 24, 1 << 31, (1 << 31) + 1, u32::MAX];
    for n in 1..=4 {
        let numbers: Vec<u32> = (0..n + 3).chain(large).collect();
        intervals(n, &numbers, &numbers);
    }
    intervals(1_024, &[1_023, 1_024, 1_025, u32::MAX], &[0, 1, 1_024, 1_025, 1 << 31, u32::MAX]);
}

/// Cards of every length around the right one, and of short ones, for each n.
#[test]
fn every_length() {
    let tally = &mut Tally::default();
    let random = &mut Random(4);
    for n in 1..=3 {
        let live = batches(n, random);
        let whole = card(n, 0, &live, random);
        let longer = [&whole[..], &random.bytes(2 * BLOCK)].concat();
        let (n, right) = (n as u64, whole.len());
        let around = [right - 1, right, right + 1, right - BLOCK, right + BLOCK, longer.len()];
        let blocks = (0..4).flat_map(|k| [BLOCK * k, BLOCK * k + 1, BLOCK * (k + 1) - 1]);
        for len in blocks.chain([31, 32, 38, 42, 45, 46]).chain(around) {
            let card = &longer[..len];
            let mut out = vec![0xA5; PAYLOAD * 3];
            let codes = [
                tally.call(Call::CardFormat { n }, &[], &mut card.to_vec()),
                tally.call(Call::CardFind { n }, card, &mut out),
                tally.call(Call::CardStore { n, made: 9 }, &image(&live), &mut card.to_vec()),
                tally.call(Call::CardRelease { n }, &[], &mut card.to_vec()),
            ]
            .map(|answer| answer.err().unwrap_or(0));
            assert_eq!(codes, if len == right { [0; 4] } else { [18; 4] }, "{len} bytes for {n}");
        }
    }
}

/// Numbers of blocks that no region has, on cards of every length that they might seem to have.
#[test]
fn every_size() {
    let tally = &mut Tally::default();
    let random = &mut Random(5);
    let live = batches(1, random);
    let whole = card(1, 0, &live, random);
    let huge = card(1_024, 1_023, &live, random);
    let longer = [&huge[..], &random.bytes(BLOCK)].concat();
    let none = [0, 1_025, 1 << 16, (1 << 32) + 1, (1 << 52) - 2, (1 << 52) - 1, (1 << 52) + 1];
    for n in none.into_iter().chain([1 << 63, u64::MAX - 1, u64::MAX]) {
        for card in [&[][..], &whole[..BLOCK], &whole[..2 * BLOCK], &whole, &huge, &longer] {
            let (mut a, mut b, mut c) = (card.to_vec(), card.to_vec(), card.to_vec());
            assert_eq!(tally.call(Call::CardFormat { n }, &[], &mut a), Err(1));
            assert_eq!(tally.call(Call::CardFind { n }, card, &mut vec![]), Err(1));
            assert_eq!(tally.call(Call::CardStore { n, made: 0 }, &[7], &mut b), Err(1));
            assert_eq!(tally.call(Call::CardRelease { n }, &[], &mut c), Err(1));
        }
    }
    assert_eq!(tally.codes(&huge, &image(&live)), [0; 3]);
}

/// Some live blocks, each damaged in some bytes, alone and together with a later one: the lower is named,
/// counted from the live start. A store does not look at them.
fn live_blocks([n, start, len]: [usize; 3], each: &[usize], bytes: &[usize]) {
    let tally = &mut Tally::default();
    let random = &mut Random(6);
    let whole = card(n, start, &batches(len, random), random);
    let image = image(&batches(1, random));
    for (k, &block) in each.iter().enumerate() {
        for byte in bytes {
            let mut card = whole.clone();
            card[place(n, start + block) + byte] ^= 1 << random.below(8);
            let named = 12 + 256 * block as u64;
            assert_eq!(tally.codes(&card, &image), [named, 0, named], "byte {byte}");
            let later = random.one_of(&each[k..]);
            card[place(n, start + later) + (byte + 5) % BLOCK] ^= 1;
            assert_eq!(tally.codes(&card, &image), [named, 0, named], "and {later}");
        }
    }
}

#[test]
fn each_live_block() {
    for [n, start, len] in [[4, 0, 3], [4, 2, 3], [5, 4, 4], [3, 1, 2]] {
        let each: Vec<usize> = (0..len).collect();
        live_blocks([n, start, len], &each, &[0, 3, 4, 31, 32, BLOCK - 1]);
    }
    live_blocks([1_024, 1_000, 300], &[23, 24, 255, 256, 299], &[99]);
}

/// Block 1, and blocks that are not live, may be anything, also in the shape of a block.
#[test]
fn what_is_not_live() {
    let tally = &mut Tally::default();
    let random = &mut Random(7);
    let live = batches(2, random);
    let other = image(&batches(1, random));
    for start in 0..4 {
        for filler in [[0; BLOCK].to_vec(), vec![0xFF; BLOCK], other.clone(), random.bytes(BLOCK)] {
            let mut card = card(4, start, &live, random);
            for block in [BLOCK, place(4, start + 2), place(4, start + 3)] {
                card[block..block + BLOCK].copy_from_slice(&filler);
            }
            tally.finds(&card, &live);
            assert_eq!(tally.codes(&card, &other), [0; 3]);
        }
    }
}

/// A live range that checks and does not read is found all the same, and not released: whichever of its
/// batches it is.
#[test]
fn what_does_not_read() {
    let tally = &mut Tally::default();
    let random = &mut Random(8);
    for (n, start) in [(3, 0), (4, 2), (5, 4)] {
        let live: Vec<_> = (0..3).flat_map(|_| batches(1, random)).collect();
        for block in 0..3 {
            // more entries than are there, no blocks, more than there are, an entry's first length
            for (word, number) in [(0, u32::MAX), (4, 0), (4, 4 - block as u32), (8, 513)] {
                let mut card = card(n, start, &live, random);
                let own = place(n, start + block);
                let batch = &mut card[own..own + BLOCK];
                batch[HEAD + word..][..4].copy_from_slice(&number.to_le_bytes());
                if word == 8 {
                    batch[HEAD] = 1;
                }
                seal(batch);
                assert!(tally.find(&card).is_ok());
                assert_eq!(tally.release(&mut card), Err(14), "{word} of block {block}");
            }
        }
    }
}

/// Images of other lengths, damaged ones and such as do not read, whatever number is told.
#[test]
fn images() {
    let tally = &mut Tally::default();
    let random = &mut Random(9);
    let list = batches(3, random);
    let whole = image(&list);
    let card = card(4, 3, &batches(1, random), random);
    let mut gives = |image: &[u8], wanted: Result<[u64; 3], u64>| {
        for (k, made) in [0, 3, 4, u64::MAX].into_iter().enumerate() {
            let given = tally.store(&mut card.clone(), image, made);
            assert_eq!(given, wanted.map(|words| words[k.min(2)]), "told {made}");
        }
    };
    gives(&whole, Ok([1, 1, 0]));
    for len in [1, 31, 32, BLOCK - 1, BLOCK + 1, 2 * BLOCK + 4_064, whole.len() - 1] {
        gives(&whole[..len], Err(11));
    }
    gives(&[&whole[..], &[0]].concat(), Err(11));
    for block in 0..3 {
        for place in [0, 4, 31, 32, 33, BLOCK - 1] {
            let mut image = whole.clone();
            image[BLOCK * block + place] ^= 1 << random.below(8);
            gives(&image, Err(12 + 256 * block as u64));
            image[BLOCK * random.one_of(&[block, 2]) + 77] ^= 1;
            gives(&image, Err(12 + 256 * block as u64));
        }
    }
    for (word, number) in [(0, u32::MAX), (4, 0), (4, 4), (4, 1 << 20)] {
        let mut damaged = payload(&list);
        damaged[word..word + 4].copy_from_slice(&u32::to_le_bytes(number));
        gives(&writing::image(&damaged), Err(14));
    }
}

/// Room is looked at last, also for an image of more blocks than the region has.
#[test]
fn a_larger_image() {
    let tally = &mut Tally::default();
    let random = &mut Random(10);
    let card = card(4, 3, &[], random);
    let mut more = image(&batches(6, random));
    for (made, wanted) in [(0, Err(19)), (5, Err(19)), (6, Err(19)), (7, Ok(0))] {
        assert_eq!(tally.store(&mut card.clone(), &more, made), wanted, "told {made}");
    }
    more[BLOCK * 5 + 50] ^= 1;
    for made in [0, 6, 7] {
        assert_eq!(tally.store(&mut card.clone(), &more, made), Err(12 + 256 * 5), "told {made}");
    }
}
