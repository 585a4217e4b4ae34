//! The checksum's calls against RFC 3720's vectors and the model, bit by bit.
use journal_tests::memory::BEFORE;
use journal_tests::model::block::{self, HEAD, PAYLOAD};
use journal_tests::{guarded::Guarded, model::crc, random::Random};
use nungakes::calls;
use std::ops::RangeInclusive;

/// RFC 3720's SCSI Read (10) command, section B.4.
const READ_COMMAND: [u8; 48] = [
    0x01, 0xC0, 0x00, 0x00, 0x00, 0x00, 0x00, 0x00, 0x00, 0x00, 0x00, 0x00, 0x00, 0x00, 0x00, 0x00,
    0x14, 0x00, 0x00, 0x00, 0x00, 0x00, 0x04, 0x00, 0x00, 0x00, 0x00, 0x14, 0x00, 0x00, 0x00, 0x18,
    0x28, 0x00, 0x00, 0x00, 0x00, 0x00, 0x00, 0x00, 0x02, 0x00, 0x00, 0x00, 0x00, 0x00, 0x00, 0x00,
];

/// Whether `call` gives the model's CRC-32C of `s`.
fn same_crc(s: &[u8], call: impl Fn(&[u8]) -> u32) -> bool {
    call(s) == crc::bit_by_bit(s)
}

/// Whether `call` answers as the model does, and leaves the same in an `out` of `room` bytes and in
/// the bytes before it. Behind `out` is the guard.
fn same_head(s: &[u8], room: usize, call: impl Fn(&[u8], &mut [u8]) -> u64) -> bool {
    let mut got = Guarded::new(BEFORE + room);
    got.bytes().fill(0xA5);
    let mut wanted = got.bytes().to_vec();
    let answer = call(s, &mut got.bytes()[BEFORE..]);
    answer == block::checksum(s, &mut wanted[BEFORE..]) && got.bytes() == wanted
}

fn random(seed: u64, len: usize) -> Guarded {
    let mut s = Guarded::new(len);
    Random(seed).fill(s.bytes());
    s
}

/// The CRC is given as the bytes that the RFC prints, which is the order in a block's head.
#[test]
fn the_vectors_of_rfc_3720() {
    let up: Vec<u8> = (0..32).collect();
    let down: Vec<u8> = (0..32).rev().collect();
    let vectors: [(&[u8], [u8; 4]); 5] = [
        (&[0x00; 32], [0xAA, 0x36, 0x91, 0x8A]),
        (&[0xFF; 32], [0x43, 0xAB, 0xA8, 0x62]),
        (&up, [0x4E, 0x79, 0xDD, 0x46]),
        (&down, [0x5C, 0xDB, 0x3F, 0x11]),
        (&READ_COMMAND, [0x56, 0x3A, 0x96, 0xD9]),
    ];
    for (s, wanted) in vectors {
        let mut head = [0xA5; HEAD];
        assert_eq!(calls::checksum(s, &mut head), 0);
        assert_eq!(head[..4], wanted);
        assert_eq!(head[4..], [0; HEAD - 4]);
        assert_eq!(calls::crc32c(s).to_le_bytes(), wanted);
        assert_eq!(crc::bit_by_bit(s).to_le_bytes(), wanted);
    }
}

/// At each shift the slice ends so many bytes before the guard, so that it starts at every
/// alignment; at shift 0 a read past its end stops the run.
#[test]
fn every_length_at_every_alignment() {
    const AROUND_A_PAYLOAD: RangeInclusive<usize> = PAYLOAD - 20..=PAYLOAD + 40;
    for len in (0..=300).chain(AROUND_A_PAYLOAD) {
        for shift in 0..16 {
            let mut held = random((16 * len + shift) as u64, len + shift);
            let s = &held.bytes()[..len];
            assert!(same_crc(s, calls::crc32c), "{len} bytes, shift {shift}");
        }
    }
}

#[test]
fn long_slices() {
    for len in [1 << 16, 1 << 20].into_iter().flat_map(|n| n - 1..=n + 1) {
        assert!(same_crc(random(len as u64, len).bytes(), calls::crc32c), "{len} bytes");
    }
}

#[test]
fn heads_in_every_room() {
    for len in [0, 1, 15, 16, 17, 31, 32, 33, PAYLOAD - 1, PAYLOAD, PAYLOAD + 1] {
        let mut s = random(len as u64, len);
        for room in [0, 1, HEAD - 1, HEAD, HEAD + 1, 100] {
            assert!(same_head(s.bytes(), room, calls::checksum), "{len} bytes, room for {room}");
        }
    }
}

/// The comparisons above find one wrong bit, wherever it is: in what was read, in the head, behind
/// it, in a refused `out`, and in the answer.
#[test]
fn a_wrong_bit_is_found() {
    let mut held = random(5, 67);
    let s = held.bytes();
    for bit in 0..8 * s.len() {
        let other = flipped(s, bit);
        assert!(!same_crc(s, |_| calls::crc32c(&other)), "bit {bit} of what was read");
    }
    for room in [HEAD - 1, HEAD, HEAD + 1] {
        for bit in 0..8 * room {
            let wrong = |s: &[u8], out: &mut [u8]| {
                let answer = calls::checksum(s, out);
                out.copy_from_slice(&flipped(out, bit));
                answer
            };
            assert!(!same_head(s, room, wrong), "bit {bit} of {room}");
        }
        assert!(!same_head(s, room, |s, out| calls::checksum(s, out) + 1), "the answer, {room}");
    }
}

fn flipped(s: &[u8], bit: usize) -> Vec<u8> {
    let mut other = s.to_vec();
    other[bit / 8] ^= 1 << (bit % 8);
    other
}

/// What the benchmark measures against computes the same.
#[test]
fn the_faster_models_agree() {
    for len in 0..=300 {
        let mut held = random(len as u64, len);
        let s = held.bytes();
        assert!(same_crc(s, crc::plain_table), "plain table, {len} bytes");
        assert!(same_crc(s, crc::slicing_by_8), "slicing by 8, {len} bytes");
        if let Some(instruction) = crc::instruction() {
            assert!(same_crc(s, instruction), "instruction, {len} bytes");
        }
    }
}
