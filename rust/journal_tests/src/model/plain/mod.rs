//! The calls in plain Rust, to be measured against: as one writes them who proves nothing. The
//! tests and answers are the model's; bytes are read where they are lent and copied in runs, nothing is
//! allocated, and checksums are by slicing-by-8. No call is inlined, as the library's are not.
mod card;
mod forms;
mod record;
pub mod replica;

pub use super::block::strip;
use super::block::{BLOCK, PAYLOAD};
pub use super::reading::range;
use super::reading::{Joined, Range, CLONED, FIRST, INSERTED};
pub use card::{
    find as card_find, format as card_format, release as card_release, store as card_store,
};
use forms::Lengths;
use record::{
    in_range, Record, BACK, CLONES, FRONT, FROZEN, HELD, LAST, LAYOUT, MEMORY, PLACE, START, WORDS,
    WRITTEN,
};

fn require(condition: bool, number: u64) -> Result<(), u64> {
    condition.then_some(()).ok_or(number)
}

fn code(result: Result<(), u64>) -> u64 {
    result.err().unwrap_or(0)
}

#[inline(never)]
pub fn open(words: &mut [u64], n: u64, r: u64) -> u64 {
    if !in_range(n as usize, r as usize) {
        return 1;
    }
    let Some(words) = words.first_chunk_mut::<WORDS>() else {
        return 9;
    };
    *words = [0; WORDS];
    words[..3].copy_from_slice(&[LAYOUT, n, r]);
    0
}

#[inline(never)]
pub fn append_insert(words: &mut [u64], ring: &mut [u8], key: &[u8], value: &[u8]) -> u64 {
    code(append(words, ring, false, key, value))
}

#[inline(never)]
pub fn append_clone(words: &mut [u64], ring: &mut [u8], from: &[u8], to: &[u8]) -> u64 {
    code(append(words, ring, true, from, to))
}

fn append(
    words: &mut [u64],
    ring: &mut [u8],
    is_clone: bool,
    first: &[u8],
    second: &[u8],
) -> Result<(), u64> {
    let record = Record::of(words)?;
    require(ring.len() == record.r, 2)?;
    require(first.len() <= FIRST as usize, 3)?;
    require(second.len() <= if is_clone { CLONED } else { INSERTED } as usize, 4)?;
    require(is_clone || !first.is_empty(), 22)?;
    let weight = 8 + first.len() + second.len();
    let used = PAYLOAD * (record.written + record.held) + 8 + record.memory.bytes;
    require(used + weight <= PAYLOAD * record.n, 5)?;
    let pending = record.frozen.bytes + record.memory.bytes;
    require(pending + weight <= record.r, 6)?;
    forms::put(ring, record.start + pending, is_clone, first, second);
    words[MEMORY] += 1;
    words[MEMORY + 1] += weight as u64;
    words[CLONES] += u64::from(is_clone);
    Ok(())
}

#[inline(never)]
pub fn freeze(words: &mut [u64]) -> u64 {
    let Ok(Record { frozen, memory, held, .. }) = Record::of(words) else {
        return 2;
    };
    if memory.entries == 0 {
        return 0;
    }
    let blocks = memory.blocks();
    frozen.plus(memory).store(words, FROZEN);
    words[MEMORY..MEMORY + 2].fill(0);
    words[HELD] = (held + blocks) as u64;
    memory.store(words, LAST);
    words[LAST + 2] = blocks as u64;
    0
}

#[inline(never)]
pub fn thaw(words: &mut [u64]) -> u64 {
    let Ok(Record { frozen, memory, held, last, last_blocks, .. }) = Record::of(words) else {
        return 2;
    };
    if last.entries == 0 {
        return 17;
    }
    frozen.less(last).store(words, FROZEN);
    memory.plus(last).store(words, MEMORY);
    words[HELD] = (held - last_blocks) as u64;
    words[LAST..WORDS].fill(0);
    0
}

/// The bytes from start on, if those of both lists read as their entries and have the recorded clones,
/// and the clones of each.
fn pending<'a>(record: &Record, ring: &'a [u8]) -> Result<(Joined<'a>, [usize; 2]), u64> {
    let Record { start, frozen, memory, clones, .. } = *record;
    let (back, front) = ring.split_at(start);
    let joined = Joined { front, back };
    let end = frozen.bytes + memory.bytes;
    let counted = |at, end, entries| {
        joined.counted(at, end, entries).filter(|(behind, _)| *behind == end).ok_or(15_u64)
    };
    let (_, in_frozen) = counted(0, frozen.bytes, frozen.entries)?;
    let (_, in_memory) = counted(frozen.bytes, end, memory.entries)?;
    require(in_frozen + in_memory == clones, 15)?;
    Ok((joined, [in_frozen, in_memory]))
}

#[inline(never)]
pub fn package_frozen(words: &mut [u64], ring: &[u8], out: &mut [u8]) -> u64 {
    code(try_package_frozen(words, ring, out))
}

fn try_package_frozen(words: &mut [u64], ring: &[u8], out: &mut [u8]) -> Result<(), u64> {
    let record = Record::of(words)?;
    let Record { r, start, frozen, written, held, .. } = record;
    require(ring.len() == r, 2)?;
    require(frozen.entries > 0, 8)?;
    let (joined, [clones, _]) = pending(&record, ring)?;
    let out = out.get_mut(..BLOCK * held).ok_or(9_u64)?;
    forms::image(frozen.entries, joined.parts(0, frozen.bytes), out);
    let behind = start + frozen.bytes;
    words[START] = (if behind < r { behind } else { behind - r }) as u64;
    words[FROZEN..FROZEN + 2].fill(0);
    words[WRITTEN] = (written + held) as u64;
    words[HELD] = 0;
    words[CLONES] -= clones as u64;
    words[LAST..WORDS].fill(0);
    Ok(())
}

#[inline(never)]
pub fn package_in_memory(words: &mut [u64], ring: &[u8], out: &mut [u8]) -> u64 {
    code(try_package_in_memory(words, ring, out))
}

fn try_package_in_memory(words: &mut [u64], ring: &[u8], out: &mut [u8]) -> Result<(), u64> {
    let record = Record::of(words)?;
    let memory = record.memory;
    require(ring.len() == record.r, 2)?;
    require(record.frozen.entries == 0, 7)?;
    require(memory.entries > 0, 8)?;
    let (joined, [_, clones]) = pending(&record, ring)?;
    let out = out.get_mut(..BLOCK * memory.blocks()).ok_or(9_u64)?;
    forms::image(memory.entries, joined.parts(0, memory.bytes), out);
    words[START] = 0;
    words[MEMORY..MEMORY + 2].fill(0);
    words[WRITTEN] = (record.written + memory.blocks()) as u64;
    words[CLONES] -= clones as u64;
    Ok(())
}

#[inline(never)]
pub fn set_written(words: &mut [u64], len: u64) -> u64 {
    let Ok(Record { n, frozen, memory, .. }) = Record::of(words) else {
        return 2;
    };
    if frozen.entries > 0 || memory.entries > 0 {
        return 7;
    }
    if len > n as u64 {
        return 10;
    }
    words[WRITTEN] = len;
    words[HELD] = 0;
    0
}

#[inline(never)]
pub fn update_written(words: &mut [u64], len: u64) -> u64 {
    let Ok(Record { written, .. }) = Record::of(words) else {
        return 2;
    };
    if len > written as u64 {
        return 10;
    }
    words[WRITTEN] = len;
    0
}

/// The first word of `answer`, from the record.
fn answered(words: &[u64], answer: &mut [u64], from: impl FnOnce(Record) -> u64) -> u64 {
    code(Record::of(words).and_then(|record| {
        *answer.first_mut().ok_or(9_u64)? = from(record);
        Ok(())
    }))
}

#[inline(never)]
pub fn has_frozen(words: &[u64], answer: &mut [u64]) -> u64 {
    answered(words, answer, |record| u64::from(record.frozen.entries > 0))
}

#[inline(never)]
pub fn has_in_memory(words: &[u64], answer: &mut [u64]) -> u64 {
    answered(words, answer, |record| u64::from(record.memory.entries > 0))
}

#[inline(never)]
pub fn get_written(words: &[u64], answer: &mut [u64]) -> u64 {
    answered(words, answer, |record| record.written as u64)
}

#[inline(never)]
pub fn waiting_clones(words: &[u64], answer: &mut [u64]) -> u64 {
    answered(words, answer, |record| record.clones as u64)
}

#[inline(never)]
pub fn is_replay_empty(words: &[u64], answer: &mut [u64]) -> u64 {
    answered(words, answer, |record| u64::from(record.replay.entries == 0))
}

#[inline(never)]
pub fn has_front(words: &[u64], answer: &mut [u64]) -> u64 {
    answered(words, answer, |record| u64::from(record.front.is_some()))
}

#[inline(never)]
pub fn has_back(words: &[u64], answer: &mut [u64]) -> u64 {
    answered(words, answer, |record| u64::from(record.back.is_some()))
}

/// Copies a payload, and has its blocks in the two words of a side.
fn set_side(words: &mut [u64], side: usize, payload: &[u8], to: &mut [u8]) -> Result<(), u64> {
    let record = Record::of(words)?;
    let blocks = payload.len() / PAYLOAD;
    require(payload.len().is_multiple_of(PAYLOAD) && blocks <= record.n, 13)?;
    to.get_mut(..payload.len()).ok_or(9_u64)?.copy_from_slice(payload);
    words[side..side + 2].copy_from_slice(&[1, blocks as u64]);
    Ok(())
}

#[inline(never)]
pub fn set_front(words: &mut [u64], payload: &[u8], front: &mut [u8]) -> u64 {
    code(set_side(words, FRONT, payload, front))
}

#[inline(never)]
pub fn set_back(words: &mut [u64], payload: &[u8], back: &mut [u8]) -> u64 {
    code(set_side(words, BACK, payload, back))
}

#[inline(never)]
pub fn load(words: &mut [u64], front: &[u8], back: &[u8], replay: &mut [u8]) -> u64 {
    code(try_load(words, front, back, replay))
}

fn try_load(words: &mut [u64], front: &[u8], back: &[u8], replay: &mut [u8]) -> Result<(), u64> {
    let record = Record::of(words)?;
    let front = front.get(..PAYLOAD * record.front.unwrap_or(0)).ok_or(2_u64)?;
    let back = back.get(..PAYLOAD * record.back.unwrap_or(0)).ok_or(2_u64)?;
    let range = Joined { front, back };
    let [entries, bytes] = range.read().ok_or(14_u64)?;
    forms::copy(&range, replay.get_mut(..bytes as usize).ok_or(9_u64)?);
    words[PLACE..PLACE + 3].copy_from_slice(&[0, bytes, entries]);
    words[FRONT..BACK + 2].fill(0);
    Ok(())
}

/// The lengths of the entry at the replay's place.
fn top_lengths(record: &Record, replay: &[u8]) -> Result<Lengths, u64> {
    let behind = replay.get(record.place..).ok_or(2_u64)?;
    let rest = behind.get(..record.replay.bytes).ok_or(2_u64)?;
    require(record.replay.entries > 0, 8)?;
    Lengths::of(rest).ok_or(14)
}

#[inline(never)]
pub fn top(words: &[u64], replay: &[u8], top: &mut [u64]) -> u64 {
    code(try_top(words, replay, top))
}

fn try_top(words: &[u64], replay: &[u8], top: &mut [u64]) -> Result<(), u64> {
    let record = Record::of(words)?;
    let Lengths { is_clone, first, second } = top_lengths(&record, replay)?;
    let place = record.place + 4;
    let numbers = [is_clone.into(), first, place, second, place + first + 4];
    *top.first_chunk_mut().ok_or(9_u64)? = numbers.map(|n| n as u64);
    Ok(())
}

#[inline(never)]
pub fn pop(words: &mut [u64], replay: &[u8]) -> u64 {
    code(try_pop(words, replay))
}

fn try_pop(words: &mut [u64], replay: &[u8]) -> Result<(), u64> {
    let record = Record::of(words)?;
    let after = after_pop(&record, top_lengths(&record, replay)?.weight())?;
    words[PLACE..PLACE + 3].copy_from_slice(&after);
    Ok(())
}

/// The replay's words behind an entry of this weight.
fn after_pop(record: &Record, weight: usize) -> Result<[u64; 3], u64> {
    let mut rest = record.replay;
    rest.bytes -= weight;
    rest.entries -= 1;
    require(rest.hangs(), 14)?;
    Ok([record.place + weight, rest.bytes, rest.entries].map(|n| n as u64))
}
