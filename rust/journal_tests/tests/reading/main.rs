//! Strip and the reading of a range against the model: whole, torn, and damaged at every kind of
//! place. The model is held to the document's cases, and to what was written.
mod compared;
mod images;
mod ranges;

use crate::compared::{header, of_weight, payload, same_range, same_strip};
use journal_tests::memory::Memory;
use journal_tests::model::block::{self, BLOCK, PAYLOAD};
use journal_tests::model::reading;
use journal_tests::model::writing::{self, Entry};
use nungakes::calls;

#[test]
fn the_cases_of_the_document() {
    let insert = payload(b"\x01\0\0\0\x01\0\0\0\x02\0\0\0ab\x01\0\0\0c", 1);
    let clone = payload(b"\x01\0\0\0\x01\0\0\0\x02\x10\0\0ab\x01\0\0\0c", 1);
    for (is_clone, written) in [(false, &insert), (true, &clone)] {
        let entry = Entry { is_clone, first: b"ab".into(), second: b"c".into() };
        assert_eq!(&writing::batch(&[entry], 0), written);
    }

    // a range, and its totals, or none where it is refused with 14
    let first_length = |n| payload(&[header(1, 1), header(n, 0)].concat(), 1);
    let cases = [
        (insert.clone(), Some([1, 11])),
        (clone, Some([1, 11])),
        (vec![], Some([0, 0])),
        (payload(&header(0, 1), 1), Some([0, 0])),
        (payload(&header(0, 2), 1), None),
        (first_length(4_096), Some([1, 8])),
        (first_length(4_608), Some([1, 520])),
        (first_length(4_609), None),
        (first_length(512), Some([1, 520])),
        (first_length(513), None),
        (payload(&header(0, 0), 1), None),
    ];
    for (joined, wanted) in cases {
        for range in [calls::range, reading::range] {
            let mut totals = [7; 2];
            let answer = range(&joined, &[], &mut totals);
            assert_eq!(answer, if wanted.is_some() { 0 } else { 14 }, "{:?}", joined.get(..16));
            assert_eq!(totals, wanted.unwrap_or([7; 2]), "{:?}", joined.get(..16));
        }
    }

    // an image of 4,097 bytes, and a flipped bit of a payload
    let mut image = writing::image(&insert.repeat(2));
    image[BLOCK + 100] ^= 1;
    for strip in [calls::strip, block::strip] {
        let mut out = [0; 2 * PAYLOAD];
        assert_eq!(strip(&image[..4_097], &mut out), 11);
        assert_eq!(strip(&image, &mut out), 12 + 256);
    }
}

/// The comparisons above find one wrong byte: in what is only read, in what is filled, behind that,
/// and in what is refused. They find a wrong answer.
#[test]
fn a_wrong_byte_is_found() {
    let memory = &mut Memory::default();
    let payload = writing::batch(&of_weight(3_000), 0);
    let image = writing::image(&payload);
    for room in [PAYLOAD - 1, PAYLOAD, PAYLOAD + 1] {
        for at in (0..BLOCK + room).step_by(7).chain([BLOCK + room - 1]) {
            let wrong = |image: &mut [u8], out: &mut [u8]| {
                let answer = calls::strip(image, out);
                *image.iter_mut().chain(out).nth(at).unwrap() ^= 1;
                answer
            };
            assert_eq!(same_strip(memory, &image, room, wrong), None, "byte {at}, room for {room}");
        }
        let wrong = |image: &mut [u8], out: &mut [u8]| calls::strip(image, out) + 256;
        assert_eq!(same_strip(memory, &image, room, wrong), None, "the answer, room for {room}");
    }
    for room in [1, 2, 3] {
        for at in (0..PAYLOAD).step_by(7).chain(PAYLOAD..PAYLOAD + 8 * room) {
            let wrong = |front: &mut [u8], back: &mut [u8], totals: &mut [u64]| {
                let answer = calls::range(front, back, totals);
                match at.checked_sub(PAYLOAD) {
                    None => *front.iter_mut().chain(back).nth(at).unwrap() ^= 1,
                    Some(i) => totals[i / 8] ^= 1 << (i % 8 * 8),
                }
                answer
            };
            let split = PAYLOAD / 2;
            assert_eq!(
                same_range(memory, &payload, split, room, wrong),
                None,
                "byte {at}, {room} words"
            );
        }
        let wrong = |front: &mut [u8], back: &mut [u8], totals: &mut [u64]| {
            calls::range(front, back, totals) + 1
        };
        assert_eq!(same_range(memory, &payload, 0, room, wrong), None, "the answer, {room} words");
    }
}
