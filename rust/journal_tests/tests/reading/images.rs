//! Images: strip.
use crate::compared::{damaged, rooms, written, Tally};
use journal_tests::guarded::Guarded;
use journal_tests::model::block::{self, BLOCK, HEAD, PAYLOAD};
use journal_tests::model::crc;
use journal_tests::model::writing::{self};
use journal_tests::random::Random;
use nungakes::calls;

#[test]
fn images_of_every_length() {
    let mut tally = Tally::new();
    let image = writing::image(&Random(1).bytes(2 * PAYLOAD));
    for len in 0..=image.len() {
        tally.strip(&image[..len], len / BLOCK * PAYLOAD, "cut");
    }
    tally.ends(&[0, 11], 8_000);
}

/// An image that ends so many bytes before the guard: it starts at every alignment.
#[test]
fn images_at_every_alignment() {
    let payload = Random(2).bytes(2 * PAYLOAD);
    let image = writing::image(&payload);
    for shift in 0..16 {
        let mut held = Guarded::new(image.len() + shift);
        held.bytes()[..image.len()].copy_from_slice(&image);
        let mut out = vec![0; payload.len()];
        assert_eq!(calls::strip(&held.bytes()[..image.len()], &mut out), 0, "shift {shift}");
        assert!(out == payload, "shift {shift}");
    }
}

/// One bit of each byte of a block.
#[test]
fn every_byte_of_a_block_counts() {
    let mut tally = Tally::new();
    let mut image = writing::image(&Random(3).bytes(2 * PAYLOAD));
    for at in BLOCK..2 * BLOCK {
        let bit = 1 << (at % 8);
        image[at] ^= bit;
        assert_eq!(tally.strip(&image, 2 * PAYLOAD, "a flipped bit"), 12 + 256, "byte {at}");
        image[at] ^= bit;
    }
    tally.ends(&[12], 4_000);
}

#[test]
fn damaged_images_in_every_room() {
    let mut tally = Tally::new();
    let random = &mut Random(4);
    for blocks in 0..=4 {
        let whole = writing::image(&random.bytes(PAYLOAD * blocks));
        let mut in_rooms = |image: &[u8], what: &str, k| {
            for room in rooms(PAYLOAD * blocks) {
                tally.strip(image, room, format_args!("{what} of block {k} of {blocks}"));
            }
        };
        in_rooms(&whole, "nothing", 0);
        in_rooms(&[&whole[..], &[0]].concat(), "a byte behind the last", blocks);
        for k in 0..blocks {
            for at in [0, 3, 4, HEAD - 1, HEAD, BLOCK - 1] {
                let mut image = whole.clone();
                image[BLOCK * k + at] ^= 1 << random.below(8);
                in_rooms(&image, "a bit", k);
                in_rooms(&image[1..], "the first byte, and a bit", k);
                // another block is damaged too, before it or behind
                image[random.below(whole.len())] ^= 1 << random.below(8);
                in_rooms(&image, "a bit and another,", k);
                // all are
                image.iter_mut().step_by(BLOCK).for_each(|byte| *byte = !*byte);
                in_rooms(&image, "a bit and the heads,", k);
            }
        }
    }
    tally.ends(&[0, 9, 11, 12], 1_000);
}

/// Heads that have something of the right one, and blocks in each other's place.
#[test]
fn heads_of_other_kinds() {
    let mut tally = Tally::new();
    let payload = Random(5).bytes(2 * PAYLOAD);
    let image = writing::image(&payload);
    let crc = crc::slicing_by_8(&payload[..PAYLOAD]);
    let whole_block = crc::slicing_by_8(&image[..BLOCK]);
    let other = crc::slicing_by_8(&payload[PAYLOAD..]);
    for wrong in [0, !crc, crc.swap_bytes(), crc.reverse_bits(), whole_block, other] {
        let damaged = [&block::head(wrong)[..], &image[HEAD..]].concat();
        assert_eq!(tally.strip(&damaged, 2 * PAYLOAD, format_args!("head {wrong:x}")), 12);
    }
    let doubled = [&crc.to_le_bytes().repeat(8)[..], &image[HEAD..]].concat();
    assert_eq!(tally.strip(&doubled, 2 * PAYLOAD, "the checksum eight times"), 12);
    let swapped = [&image[BLOCK..], &image[..BLOCK]].concat();
    assert_eq!(tally.strip(&swapped, 2 * PAYLOAD, "two blocks swapped"), 0);
    assert_eq!(tally.strip(&[0; BLOCK], PAYLOAD, "a block of zeros"), 12);
    tally.ends(&[0, 12], 9);
}

/// A damaged block's number may need more than a byte.
#[test]
fn a_long_image() {
    let mut tally = Tally::new();
    let mut image = writing::image(&Random(6).bytes(300 * PAYLOAD));
    for k in [299, 257, 256, 255, 1] {
        image[BLOCK * k + 1_000] ^= 1;
        let answer = tally.strip(&image, 300 * PAYLOAD, "damaged from its end on");
        assert_eq!(answer, 12 + 256 * k as u64);
    }
    tally.ends(&[12], 5);
}

/// Images of ranges that were damaged before they were sealed, or are damaged behind that, or torn
/// in a block. What strips is read.
#[test]
fn random_images() {
    let mut tally = Tally::new();
    let random = &mut Random(11);
    for _ in 0..3_000 {
        let range = written(random);
        let mut image = match random.below(2) {
            0 => writing::image(&range.joined),
            _ => writing::image(&damaged(range, random)),
        };
        let len = image.len();
        let at = random.below(len.max(1));
        let block = at / BLOCK * BLOCK;
        match random.below(5) {
            0 if len > 0 => image[at] ^= 1 << random.below(8),
            1 if len > 0 => image[block + random.below(HEAD)] ^= 1,
            2 => image[at..len.min(block + BLOCK)].fill(0),
            3 => image.truncate(at),
            _ => {}
        }
        let room = random.one_of(&rooms(len / BLOCK * PAYLOAD));
        if tally.strip(&image, room, "an image") == 0 {
            let mut payload = vec![0; image.len() / BLOCK * PAYLOAD];
            calls::strip(&image, &mut payload);
            tally.range(&payload, random.below(payload.len() + 1), 2, "what was stripped");
        }
    }
    tally.ends(&[0, 9, 11, 12, 14], 3_000);
}
