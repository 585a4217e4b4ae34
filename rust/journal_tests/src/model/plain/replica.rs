//! The centre's replica: the table is tested in one pass, in which the places of a step are found; the new table is
//! written run by run to the working space, and copied back.
use super::super::reading::{CLONED, FIRST, INSERTED};
use super::forms::Lengths;
use super::record::{Record, PLACE};
use super::{after_pop, code, require, top_lengths};
use std::cmp::Ordering::{self, Equal, Greater, Less};
use std::ops::Range;

/// Whether all are zeros, sixteen at a time.
fn zeros(s: &[u8]) -> bool {
    let (words, rest) = s.as_chunks();
    words.iter().all(|word| u128::from_ne_bytes(*word) == 0) && rest.iter().all(|byte| *byte == 0)
}

/// Shows every row's key and place, and gives the place behind the last, or 2 where this is no table.
fn each_row<'a>(
    rows: &[u64],
    table: &'a [u8],
    mut show: impl FnMut(&'a [u8], Range<usize>),
) -> Result<usize, u64> {
    let mut at = 0;
    let mut before: Option<&[u8]> = None;
    for _ in 0..*rows.first().ok_or(2_u64)? {
        let rest = &table[at..];
        let row = Lengths::of(rest).filter(|row| !row.is_clone).ok_or(2_u64)?;
        let key = &rest[4..4 + row.first];
        require(before.is_none_or(|before| before < key), 2)?;
        show(key, at..at + row.weight());
        before = Some(key);
        at += row.weight();
    }
    require(zeros(&table[at..]), 2)?;
    Ok(at)
}

/// The rows that a call is about. Where there is none, the place is that behind the smaller keys.
#[derive(Default)]
struct Line {
    place: Range<usize>,
    rows: usize,
    /// The length of the longest key, or 0.
    longest: usize,
    /// The rows to come are behind the line.
    passed: bool,
}

impl Line {
    /// Sees the next row; `order` compares its key with those of the line.
    fn see(&mut self, key: &[u8], place: &Range<usize>, order: impl FnOnce() -> Ordering) {
        if self.passed {
            return;
        }
        match order() {
            Less => self.place = place.end..place.end,
            Equal => {
                self.place.end = place.end;
                self.rows += 1;
                self.longest = self.longest.max(key.len());
            }
            Greater => self.passed = true,
        }
    }

    /// The same of a line that is one key.
    fn see_one(&mut self, own: &[u8], key: &[u8], place: &Range<usize>) {
        self.see(key, place, || key.cmp(own));
    }

    /// The same of the keys that begin with a prefix.
    fn see_under(&mut self, prefix: &[u8], key: &[u8], place: &Range<usize>) {
        self.see(key, place, || key[..key.len().min(prefix.len())].cmp(prefix));
    }
}

/// Some rows go out of the table, and others come in there.
struct Change {
    out: Range<usize>,
    /// The bytes that come in.
    bytes: usize,
    /// The place behind the last row.
    end: usize,
    /// How many rows there are then.
    rows: u64,
}

impl Change {
    /// Makes it, if there is room; `put` writes what comes in.
    fn make(
        self,
        rows: &mut [u64],
        table: &mut [u8],
        work: &mut [u8],
        put: impl FnOnce(&[u8], &mut [u8]),
    ) -> Result<(), u64> {
        let Change { out, bytes, end, .. } = self;
        let len = end - out.len() + bytes;
        require(len <= table.len(), 21)?;
        let (before, rest) = work[..len].split_at_mut(out.start);
        let (own, behind) = rest.split_at_mut(bytes);
        before.copy_from_slice(&table[..out.start]);
        put(table, own);
        behind.copy_from_slice(&table[out.end..end]);
        table[..len].copy_from_slice(&work[..len]);
        if len < end {
            table[len..end].fill(0);
        }
        work.fill(0);
        rows[0] = self.rows;
        Ok(())
    }
}

/// Copies pieces, one behind the other, and gives what is behind the last.
fn put<'a>(mut to: &'a mut [u8], pieces: &[&[u8]]) -> &'a mut [u8] {
    for piece in pieces {
        let (now, later) = to.split_at_mut(piece.len());
        now.copy_from_slice(piece);
        to = later;
    }
    to
}

fn word(len: usize) -> [u8; 4] {
    (len as u32).to_le_bytes()
}

#[inline(never)]
pub fn insert(
    rows: &mut [u64],
    table: &mut [u8],
    work: &mut [u8],
    key: &[u8],
    value: &[u8],
) -> u64 {
    code(try_insert(rows, table, work, key, value))
}

fn try_insert(
    rows: &mut [u64],
    table: &mut [u8],
    work: &mut [u8],
    key: &[u8],
    value: &[u8],
) -> Result<(), u64> {
    let mut own = Line::default();
    let end = each_row(rows, table, |other, place| own.see_one(key, other, &place))?;
    require(work.len() == table.len(), 2)?;
    require(key.len() <= FIRST as usize, 3)?;
    require(value.len() <= INSERTED as usize, 4)?;
    let change = Change {
        out: own.place,
        bytes: 8 + key.len() + value.len(),
        end,
        rows: rows[0] - own.rows as u64 + 1,
    };
    change.make(rows, table, work, |_, to| {
        put(to, &[&word(key.len()), key, &word(value.len()), value]);
    })
}

#[inline(never)]
pub fn clone(rows: &mut [u64], table: &mut [u8], work: &mut [u8], from: &[u8], to: &[u8]) -> u64 {
    code(try_clone(rows, table, work, from, to))
}

fn try_clone(
    rows: &mut [u64],
    table: &mut [u8],
    work: &mut [u8],
    from: &[u8],
    to: &[u8],
) -> Result<(), u64> {
    let [mut source, mut target] = [Line::default(), Line::default()];
    let end = each_row(rows, table, |key, place| {
        source.see_under(from, key, &place);
        target.see_under(to, key, &place);
    })?;
    require(work.len() == table.len(), 2)?;
    require(from.len() <= FIRST as usize, 3)?;
    require(to.len() <= CLONED as usize, 4)?;
    require(source.longest + to.len() <= FIRST as usize + from.len(), 20)?;
    let change = Change {
        out: target.place,
        bytes: source.place.len() + source.rows * to.len() - source.rows * from.len(),
        end,
        rows: rows[0] - target.rows as u64 + source.rows as u64,
    };
    change.make(rows, table, work, |table, mut out| {
        let mut line = &table[source.place];
        while let Some(row) = Lengths::of(line) {
            let (row, rest) = (line.split_at(row.weight()), row.first - from.len());
            out = put(out, &[&word(to.len() + rest), to, &row.0[4 + from.len()..]]);
            line = row.1;
        }
    })
}

#[inline(never)]
pub fn lookup(rows: &[u64], table: &[u8], key: &[u8], answer: &mut [u64]) -> u64 {
    code(try_lookup(rows, table, key, answer))
}

fn try_lookup(rows: &[u64], table: &[u8], key: &[u8], answer: &mut [u64]) -> Result<(), u64> {
    let mut own = Line::default();
    each_row(rows, table, |other, place| own.see_one(key, other, &place))?;
    require(own.rows == 1, 8)?;
    let place = own.place.start + 8 + key.len();
    *answer.first_chunk_mut().ok_or(9_u64)? = [place, own.place.end - place].map(|n| n as u64);
    Ok(())
}

#[inline(never)]
pub fn replay(
    words: &mut [u64],
    replay: &[u8],
    rows: &mut [u64],
    table: &mut [u8],
    work: &mut [u8],
) -> u64 {
    code(try_replay(words, replay, rows, table, work))
}

fn try_replay(
    words: &mut [u64],
    replay: &[u8],
    rows: &mut [u64],
    table: &mut [u8],
    work: &mut [u8],
) -> Result<(), u64> {
    let record = Record::of(words)?;
    let Lengths { is_clone, first, second } = top_lengths(&record, replay)?;
    let after = after_pop(&record, 8 + first + second)?;
    let (first, rest) = replay[record.place + 4..].split_at(first);
    let step = if is_clone { try_clone } else { try_insert };
    step(rows, table, work, first, &rest[4..4 + second])?;
    words[PLACE..PLACE + 3].copy_from_slice(&after);
    Ok(())
}
