//! Places in a region of `n` blocks. Each call may refuse with 1 and 16.
use crate::refusal::words;
use crate::{calls, Refusal};

/// So many blocks from a block on; behind block `n - 1` comes block 0.
#[derive(Clone, Copy, Debug, PartialEq, Eq)]
pub struct Interval {
    pub start: u64,
    pub len: u64,
}

/// So many bytes from an address on.
#[derive(Clone, Copy, Debug, PartialEq, Eq)]
pub struct Location {
    pub address: u64,
    pub len: u64,
}

fn part([present, start, len]: [u64; 3]) -> Option<Interval> {
    (present == 1).then_some(Interval { start, len })
}

/// The address of a block; that of block `n` is the region's end.
pub fn of_block(n: u64, block: u64) -> Result<u64, Refusal> {
    words(|answer| calls::place_of_block(n, block, answer)).map(|[address]| address)
}

/// The part of an interval up to the region's end, if it has blocks.
pub fn front(n: u64, i: Interval) -> Result<Option<Interval>, Refusal> {
    words(|answer| calls::place_front(n, i.start, i.len, answer)).map(part)
}

/// The part from block 0 on, if it has blocks.
pub fn back(n: u64, i: Interval) -> Result<Option<Interval>, Refusal> {
    words(|answer| calls::place_back(n, i.start, i.len, answer)).map(part)
}

/// The block behind an interval.
pub fn next_start(n: u64, i: Interval) -> Result<u64, Refusal> {
    words(|answer| calls::place_next_start(n, i.start, i.len, answer)).map(|[block]| block)
}

/// Whether `a` lies in `b`.
pub fn contained(n: u64, a: Interval, b: Interval) -> Result<bool, Refusal> {
    words(|answer| calls::place_contained(n, a.start, a.len, b.start, b.len, answer))
        .map(|[is]| is == 1)
}

/// Whether they overlap, as upstream has it: an empty interval strictly inside another does too,
/// save at block 0.
pub fn overlap(n: u64, a: Interval, b: Interval) -> Result<bool, Refusal> {
    words(|answer| calls::place_overlap(n, a.start, a.len, b.start, b.len, answer))
        .map(|[is]| is == 1)
}

/// Whether some block lies in both: overlap where both have blocks, and never where one has none.
pub fn shares_block(n: u64, a: Interval, b: Interval) -> Result<bool, Refusal> {
    words(|answer| calls::place_shares_block(n, a.start, a.len, b.start, b.len, answer))
        .map(|[is]| is == 1)
}

/// The bytes of an interval that does not wrap.
pub fn location(n: u64, i: Interval) -> Result<Location, Refusal> {
    words(|answer| calls::place_location(n, i.start, i.len, answer))
        .map(|[address, len]| Location { address, len })
}

/// The blocks of a location.
pub fn interval(n: u64, l: Location) -> Result<Interval, Refusal> {
    words(|answer| calls::place_interval(n, l.address, l.len, answer))
        .map(|[start, len]| Interval { start, len })
}
