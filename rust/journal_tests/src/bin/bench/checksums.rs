//! The CRC-32C of a buffer's pieces, one after the other.
use crate::{timed, Case, Way};
use journal_tests::model::crc;
use nungakes::calls;
use std::hint::black_box;

type Crc = fn(&[u8]) -> u32;

pub fn cases(buffer: &[u8]) -> Vec<Case<'_>> {
    let mut functions: Vec<(&str, Crc)> = vec![
        ("rattle", calls::crc32c),
        ("rust", crc::slicing_by_8),
        ("plain table", crc::plain_table),
    ];
    functions.extend(crc::instruction().map(|function| ("crc32", function)));
    let way = |(name, function), piece| {
        Way::new(name, move || timed(|| over_pieces(buffer, piece, function)))
    };
    let case = |piece| Case {
        name: format!("checksum {piece}"),
        calls: buffer.len().div_ceil(piece),
        bytes: buffer.len(),
        often: 1,
        ways: functions.iter().map(|&named| way(named, piece)).collect(),
    };
    [64, 256, 512, 4_064, 1 << 20].map(case).into()
}

fn over_pieces(buffer: &[u8], piece: usize, function: Crc) -> u64 {
    let crcs = black_box(buffer).chunks(piece).map(function);
    crcs.fold(0, |sum: u64, crc| sum.rotate_left(1) ^ u64::from(crc))
}
