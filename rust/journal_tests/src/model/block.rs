//! Blocks, whole ones of which make an image: 4,096 bytes each, a head of 32 and a payload.
use super::crc;

pub const BLOCK: usize = 4_096;
pub const HEAD: usize = 32;
pub const PAYLOAD: usize = BLOCK - HEAD;

/// The head of a block whose payload has this CRC-32C: it, lowest byte first, and 28 zeros.
pub fn head(crc: u32) -> [u8; HEAD] {
    let mut head = [0; HEAD];
    head[..4].copy_from_slice(&crc.to_le_bytes());
    head
}

/// The head of a block with payload `s`, to the start of `out`. An `out` too short for it is
/// refused with 9.
pub fn checksum(s: &[u8], out: &mut [u8]) -> u64 {
    let Some(out) = out.first_chunk_mut() else {
        return 9;
    };
    *out = head(crc::bit_by_bit(s));
    0
}

/// The payloads of an image's blocks, one behind the other, to the start of `out`. Refused with 11
/// where the image is not whole blocks, then with 9 where `out` is too short, then with 12 where a
/// head differs: 256 times the lowest such block is added.
#[inline(never)]
pub fn strip(image: &[u8], out: &mut [u8]) -> u64 {
    let (blocks, []) = image.as_chunks::<BLOCK>() else {
        return 11;
    };
    if out.len() < PAYLOAD * blocks.len() {
        return 9;
    }
    if let Some(k) = blocks.iter().position(|block| !agrees(block)) {
        return 12 + 256 * k as u64;
    }
    for (block, out) in blocks.iter().zip(out.chunks_exact_mut(PAYLOAD)) {
        out.copy_from_slice(&block[HEAD..]);
    }
    0
}

/// Whether the head is that of the payload.
pub fn agrees(block: &[u8; BLOCK]) -> bool {
    block[..HEAD] == head(crc::slicing_by_8(&block[HEAD..]))
}
