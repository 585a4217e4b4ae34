//! Images, payloads and their checksums.
use crate::refusal::answered;
use crate::{calls, Refusal, BLOCK};

pub use crate::calls::crc32c;

/// The payload of an image to the start of `out`, if every block's checksum agrees, and its blocks: 11, 9, 12.
pub fn strip(image: &[u8], out: &mut [u8]) -> Result<usize, Refusal> {
    answered(calls::strip(image, out))?;
    Ok(image.len() / BLOCK)
}

/// The 32 bytes at the head of a block with this payload: 9.
pub fn checksum(payload: &[u8], out: &mut [u8]) -> Result<(), Refusal> {
    answered(calls::checksum(payload, out))
}

/// What payloads read as: so many entries, and the bytes of their wire forms.
#[derive(Clone, Copy, Debug, PartialEq, Eq)]
pub struct Totals {
    pub entries: usize,
    pub bytes: usize,
}

/// How much front and back together read as: 14. A replay buffer of so many bytes takes them.
pub fn range(front: &[u8], back: &[u8]) -> Result<Totals, Refusal> {
    let mut totals = [0; 2];
    answered(calls::range(front, back, &mut totals))?;
    let [entries, bytes] = totals.map(|n| n as usize);
    Ok(Totals { entries, bytes })
}
