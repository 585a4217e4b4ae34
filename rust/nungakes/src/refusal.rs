//! Why a call says no.
use core::fmt;

/// The reason of a refused call, which changed no byte and no word.
#[derive(Clone, Copy, Debug, PartialEq, Eq, Hash)]
#[non_exhaustive]
pub enum Refusal {
    SizeOutOfRange,
    CountsDisagree,
    FirstTooLong,
    SecondTooLong,
    RegionFull,
    RingFull,
    EntriesPending,
    NothingThere,
    OutputTooShort,
    LengthTooLarge,
    ImageNotWhole,
    /// The checksum of this block differs, and of none before it.
    ChecksumDiffers {
        block: u64,
    },
    PayloadNotWhole,
    Unreadable,
    RingUnreadable,
    PlaceNotValid,
    NoFreeze,
    CardUnformed,
    CardFull,
    KeyTooLong,
    TableFull,
    NoKey,
}

use Refusal::*;

impl Refusal {
    /// Its number, as c/journal.h has it.
    pub const fn number(self) -> u8 {
        match self {
            SizeOutOfRange => 1,
            CountsDisagree => 2,
            FirstTooLong => 3,
            SecondTooLong => 4,
            RegionFull => 5,
            RingFull => 6,
            EntriesPending => 7,
            NothingThere => 8,
            OutputTooShort => 9,
            LengthTooLarge => 10,
            ImageNotWhole => 11,
            ChecksumDiffers { .. } => 12,
            PayloadNotWhole => 13,
            Unreadable => 14,
            RingUnreadable => 15,
            PlaceNotValid => 16,
            NoFreeze => 17,
            CardUnformed => 18,
            CardFull => 19,
            KeyTooLong => 20,
            TableFull => 21,
            NoKey => 22,
        }
    }

    /// The refusal of a code that is not 0: a number, 12 with 256 times the block. None of other codes.
    pub const fn of_code(code: u64) -> Option<Self> {
        Some(match code {
            1 => SizeOutOfRange,
            2 => CountsDisagree,
            3 => FirstTooLong,
            4 => SecondTooLong,
            5 => RegionFull,
            6 => RingFull,
            7 => EntriesPending,
            8 => NothingThere,
            9 => OutputTooShort,
            10 => LengthTooLarge,
            11 => ImageNotWhole,
            _ if code % 256 == 12 => ChecksumDiffers { block: code / 256 },
            13 => PayloadNotWhole,
            14 => Unreadable,
            15 => RingUnreadable,
            16 => PlaceNotValid,
            17 => NoFreeze,
            18 => CardUnformed,
            19 => CardFull,
            20 => KeyTooLong,
            21 => TableFull,
            22 => NoKey,
            _ => return None,
        })
    }
}

impl fmt::Display for Refusal {
    fn fmt(&self, f: &mut fmt::Formatter) -> fmt::Result {
        let text = match self {
            SizeOutOfRange => "a region has 1 to 1,024 blocks, a ring at most 8,388,608 bytes",
            CountsDisagree => {
                "a record or table is damaged, or a lent buffer is not as long as it says"
            }
            FirstTooLong => "more than 512 first bytes",
            SecondTooLong => "more than 16,384 bytes of a value, or 512 of a clone's to",
            RegionFull => "no room in the region's blocks",
            RingFull => "no room in the ring",
            EntriesPending => "pending entries forbid it",
            NothingThere => "nothing is there",
            OutputTooShort => "the output is too short",
            LengthTooLarge => "the written length is too large",
            ImageNotWhole => "an image is whole blocks of 4,096 bytes",
            ChecksumDiffers { block } => return write!(f, "the checksum of block {block} differs"),
            PayloadNotWhole => "a payload is whole blocks of 4,064 bytes, at most the region's",
            Unreadable => "the bytes do not read as entries",
            RingUnreadable => "the ring's pending bytes are not the counted entries and clones",
            PlaceNotValid => "the interval or location is not valid",
            NoFreeze => "no freeze is remembered",
            CardUnformed => "the card is of another length, or its block 0 is not of its form",
            CardFull => "no room on the card for the image's blocks",
            KeyTooLong => "the clone would make a key of more than 512 bytes",
            TableFull => "no room in the replica's table for the resulting rows",
            NoKey => "an insert without a key",
        };
        f.write_str(text)
    }
}

impl core::error::Error for Refusal {}

/// What a code says: that of [`calls`](crate::calls), or of another archive with these numbers. Panics where it is
/// neither 0 nor a refusal's.
pub fn answered(code: u64) -> Result<(), Refusal> {
    if code == 0 {
        return Ok(());
    }
    let unknown = "a code that this crate does not know: the archive is of another version";
    Err(Refusal::of_code(code).expect(unknown))
}

/// The words that a call answers with.
pub(crate) fn words<const K: usize>(
    call: impl FnOnce(&mut [u64]) -> u64,
) -> Result<[u64; K], Refusal> {
    let mut answer = [0; K];
    answered(call(&mut answer))?;
    Ok(answer)
}
