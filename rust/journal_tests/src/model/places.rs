//! Places in the region, after the text of JournalInterval.i.dfy and DiskLayout.i.dfy, with N for
//! `NumJournalBlocks()`. Numbers are of 128 bits, so that no sum wraps, as theirs do not.
use super::block::BLOCK;

const B: i128 = BLOCK as i128;

/// The words of an answer, or the number of a refusal.
pub type Words = Result<Vec<u64>, u64>;

/// The words to the start of `answer`, or 9 where it is too short for them.
pub fn put(words: Words, answer: &mut [u64]) -> u64 {
    match words {
        Err(number) => number,
        Ok(words) if answer.len() < words.len() => 9,
        Ok(words) => {
            answer[..words.len()].copy_from_slice(&words);
            0
        }
    }
}

/// So many blocks from a block on.
#[derive(Clone, Copy, Debug, PartialEq)]
pub struct Interval {
    pub start: i128,
    pub len: i128,
}

pub fn interval(start: u64, len: u64) -> Interval {
    Interval { start: start.into(), len: len.into() }
}

impl Interval {
    fn end(self) -> i128 {
        self.start + self.len
    }

    /// It needs start < N and length ≤ N.
    fn is_valid(self, n: i128) -> bool {
        self.start < n && self.len <= n
    }

    /// The part up to the region's end.
    pub fn front(self, n: i128) -> Option<Interval> {
        let room = n - self.start;
        (self.len != 0).then(|| Interval { len: self.len.min(room), ..self })
    }

    /// The part from block 0 on.
    pub fn back(self, n: i128) -> Option<Interval> {
        let room = n - self.start;
        (self.len > room).then(|| Interval { start: 0, len: self.len - room })
    }

    pub fn next_start(self, n: i128) -> i128 {
        if self.end() < n {
            self.end()
        } else {
            self.end() - n
        }
    }

    /// As it stands or N places further on.
    pub fn is_in(self, b: Interval, n: i128) -> bool {
        [0, n].iter().any(|by| b.start <= self.start + by && self.end() + by <= b.end())
    }

    /// Two that wrap always do. Of one that wraps, a part does: a wrapping interval has both parts.
    pub fn overlaps(self, b: Interval, n: i128) -> bool {
        let one_part = |a: Interval, b: Interval| b.start < a.end() && a.start < b.end();
        let two_parts = |a: Interval, b: Interval| {
            [a.front(n), a.back(n)].into_iter().flatten().any(|part| one_part(part, b))
        };
        match (self.end() > n, b.end() > n) {
            (true, true) => true,
            (true, false) => two_parts(self, b),
            (false, true) => two_parts(b, self),
            (false, false) => one_part(self, b),
        }
    }

    /// A part of one, which has blocks and does not wrap, and a part of the other have one in common.
    pub fn shares_block(self, b: Interval, n: i128) -> bool {
        let parts = |a: Interval| [a.front(n), a.back(n)].into_iter().flatten();
        parts(self).any(|p| parts(b).any(|q| p.start.max(q.start) < p.end().min(q.end())))
    }
}

/// N, if it is in range.
fn size(n: u64) -> Result<i128, u64> {
    match n {
        1..=1_024 => Ok(n.into()),
        _ => Err(1),
    }
}

fn valid(test: bool) -> Result<(), u64> {
    if test {
        Ok(())
    } else {
        Err(16)
    }
}

fn words<const K: usize>(numbers: [i128; K]) -> Words {
    Ok(numbers.map(|number| number.try_into().unwrap()).to_vec())
}

fn part(part: Option<Interval>) -> Words {
    match part {
        None => words([0, 0, 0]),
        Some(Interval { start, len }) => words([1, start, len]),
    }
}

fn point(block: i128) -> i128 {
    2 * B + B * block
}

pub fn of_block(n: u64, block: u64) -> Words {
    let n = size(n)?;
    valid(i128::from(block) <= n)?;
    words([point(block.into())])
}

pub fn front(n: u64, a: Interval) -> Words {
    let n = size(n)?;
    valid(a.is_valid(n))?;
    part(a.front(n))
}

pub fn back(n: u64, a: Interval) -> Words {
    let n = size(n)?;
    valid(a.is_valid(n))?;
    part(a.back(n))
}

pub fn next_start(n: u64, a: Interval) -> Words {
    let n = size(n)?;
    valid(a.is_valid(n))?;
    words([a.next_start(n)])
}

/// Whether b contains a.
pub fn contained(n: u64, a: Interval, b: Interval) -> Words {
    let n = size(n)?;
    valid(a.is_valid(n) && b.is_valid(n))?;
    words([a.is_in(b, n).into()])
}

pub fn overlap(n: u64, a: Interval, b: Interval) -> Words {
    let n = size(n)?;
    valid(a.is_valid(n) && b.is_valid(n))?;
    words([a.overlaps(b, n).into()])
}

pub fn shares_block(n: u64, a: Interval, b: Interval) -> Words {
    let n = size(n)?;
    valid(a.is_valid(n) && b.is_valid(n))?;
    words([a.shares_block(b, n).into()])
}

/// It needs start + length ≤ N.
pub fn location(n: u64, a: Interval) -> Words {
    let n = size(n)?;
    valid(a.is_valid(n) && a.end() <= n)?;
    words([point(a.start), B * a.len])
}

/// Whole blocks that start in the region and end in it, and whose end is a 64-bit number.
pub fn of_location(n: u64, addr: u64, len: u64) -> Words {
    let n = size(n)?;
    let [addr, len] = [addr, len].map(i128::from);
    let block = (addr - 2 * B).div_euclid(B);
    valid(
        addr % B == 0
            && len % B == 0
            && addr >= 2 * B
            && (0..n).contains(&block)
            && addr <= i128::from(u64::MAX) - len
            && addr + len <= (2 + n) * B,
    )?;
    words([block, len / B])
}
