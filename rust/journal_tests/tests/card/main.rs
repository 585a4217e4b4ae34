//! The region on the unit's card: every cut of every store in small regions, long random runs, and cards
//! and images that are damaged at every kind of place. Each call is made of the library and of the plain
//! Rust implementation, and compared with the model: its answer, and every byte and word that is lent.
//! `JOURNAL_TESTS_TIMES` makes the random runs longer.
mod cuts;
mod damage;
mod runs;

use journal_tests::call::{compared, Call};
use journal_tests::memory::{Lent, Memory};
use journal_tests::model::block::{BLOCK, PAYLOAD};
use journal_tests::model::card::{place, with_live, FIRST};
use journal_tests::model::entries::range;
use journal_tests::model::writing::{self, Entry};
use journal_tests::random::Random;
use std::collections::BTreeMap;
use std::mem::take;

/// A batch's entries, and its payload.
#[derive(Clone)]
struct Batch {
    entries: Vec<Entry>,
    payload: Vec<u8>,
}

/// Some batches that have just so many blocks together: with no entries, with few, with as much as the
/// largest, or full.
fn batches(mut blocks: usize, random: &mut Random) -> Vec<Batch> {
    let mut all = vec![];
    while blocks > 0 {
        let own = 1 + random.below(blocks);
        let few = 8 + random.below(300);
        let room = PAYLOAD * own - 8;
        let weight = random.one_of(&[0, few, few, room, room.min(16_904)]);
        let entries = writing::weighing(random, weight);
        let forms: Vec<u8> = entries.iter().flat_map(Entry::wire_form).collect();
        let payload = writing::payload(entries.len(), own, &forms);
        all.push(Batch { entries, payload });
        blocks -= own;
    }
    all
}

/// A batch of the largest entry, in five blocks.
fn largest(random: &mut Random) -> Batch {
    let entries = vec![Entry::largest(random)];
    Batch { payload: writing::batch(&entries, 0), entries }
}

fn payload(list: &[Batch]) -> Vec<u8> {
    list.iter().flat_map(|batch| &batch.payload).copied().collect()
}

fn image(list: &[Batch]) -> Vec<u8> {
    writing::image(&payload(list))
}

fn entries(list: &[Batch]) -> Vec<Entry> {
    list.iter().flat_map(|batch| &batch.entries).cloned().collect()
}

/// The blocks of all.
fn blocks(list: &[Batch]) -> usize {
    payload(list).len() / PAYLOAD
}

/// A card on which these are live, from block `start` on.
fn card(n: usize, start: usize, live: &[Batch], random: &mut Random) -> Vec<u8> {
    with_live(n, start, &image(live), random)
}

/// The calls that were made and compared, by their codes' numbers.
#[derive(Default)]
struct Tally {
    memory: Memory,
    answers: BTreeMap<(String, u64), usize>,
}

impl Tally {
    /// The first word of the answer, or the code. What is written is then as the call left it.
    fn call(&mut self, call: Call, read: &[u8], written: &mut Vec<u8>) -> Result<u64, u64> {
        let read = [read.to_vec(), vec![]];
        let lent = Lent { read, written: take(written), answer: vec![7; 2], words: vec![] };
        let code = compared(&mut self.memory, call, &lent, &[&Call::of_library, &Call::of_plain])
            .unwrap_or_else(|e| panic!("{e}"));
        *self.answers.entry((call.name(), code % 256)).or_default() += 1;
        let after = self.memory.lent();
        *written = after.written;
        if code == 0 {
            Ok(after.answer[0])
        } else {
            Err(code)
        }
    }

    fn store(&mut self, card: &mut Vec<u8>, image: &[u8], made: u64) -> Result<u64, u64> {
        self.call(Call::CardStore { n: size(card), made }, image, card)
    }

    /// All stores of an image, told 0, 1, 2 and on.
    fn store_all(&mut self, card: &mut Vec<u8>, image: &[u8]) {
        let blocks = (image.len() / BLOCK) as u64;
        let last = (0..blocks + 2).find(|made| self.store(card, image, *made) == Ok(0));
        assert_eq!(last, Some(if blocks == 0 { 0 } else { blocks + 1 }));
    }

    fn release(&mut self, card: &mut Vec<u8>) -> Result<u64, u64> {
        self.call(Call::CardRelease { n: size(card) }, &[], card)
    }

    /// The payload that is found, in a buffer that has room for more.
    fn find(&mut self, card: &[u8]) -> Result<Vec<u8>, u64> {
        let mut out = vec![0xA5; PAYLOAD * size(card) as usize + 9];
        let blocks = self.call(Call::CardFind { n: size(card) }, card, &mut out)?;
        out.truncate(PAYLOAD * blocks as usize);
        Ok(out)
    }

    /// What is found is just this, and reads as its entries.
    fn finds(&mut self, card: &[u8], list: &[Batch]) {
        let found = self.find(card).unwrap();
        assert!(found == payload(list), "another payload is found");
        assert!(range(&found).is_some_and(|read| read == entries(list)), "other entries are found");
    }
}

/// The blocks of the region that a card of this length has.
fn size(card: &[u8]) -> u64 {
    (card.len() / BLOCK - FIRST) as u64
}

/// Formatting writes block 0 alone, byte by byte as the document has it, whatever was there.
#[test]
fn an_empty_card() {
    let tally = &mut Tally::default();
    for n in [1, 2, 1_024] {
        let before = Random(n).bytes(BLOCK * (FIRST + n as usize));
        let mut card = before.clone();
        assert!(tally.call(Call::CardFormat { n }, &[], &mut card).is_ok());
        let mut payload = b"\x0a\0\0\0\x01\0\0\0\0\0\0\0\0\0".to_vec();
        payload.resize(PAYLOAD, 0);
        assert_eq!(card[..4], nungakes::crc32c(&payload).to_le_bytes());
        assert!(card[4..32] == [0; 28] && card[32..BLOCK] == payload, "block 0");
        assert!(card[BLOCK..] == before[BLOCK..], "another block");
        tally.finds(&card, &[]);
        assert_eq!(tally.release(&mut card), Err(8));
    }
}

/// The largest region: an image of as many blocks, behind a live start so that it wraps, and released again.
#[test]
fn the_largest_card() {
    let tally = &mut Tally::default();
    let random = &mut Random(2);
    let list = [batches(1_000, random), batches(24, random)].concat();
    let mut card = card(1_024, 700, &[], random);
    let image = image(&list);
    for made in [0, 323, 324, 1_023] {
        assert_eq!(tally.store(&mut card, &image, made), Ok(1));
    }
    for (k, block) in image.chunks(BLOCK).enumerate() {
        card[place(1_024, 700 + k)..][..BLOCK].copy_from_slice(block);
    }
    assert_eq!(tally.store(&mut card, &image, 1_024), Ok(1));
    assert_eq!(tally.store(&mut card, &image, 1_025), Ok(0));
    assert_eq!(tally.store(&mut card, &image, 1_024), Err(19));
    tally.finds(&card, &list);
    let first = blocks(&list[..1]) as u64;
    assert_eq!(tally.release(&mut card), Ok(first));
    tally.finds(&card, &list[1..]);
}
