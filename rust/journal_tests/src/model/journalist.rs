//! The calls on a record, as the document has them: every call gives 0 or the number of its refusal, and
//! a refusal changes nothing.
use super::block::{BLOCK, PAYLOAD};
use super::entries::{self, clones};
use super::reading::{CLONED, FIRST, INSERTED};
use super::record::{List, Record, LAYOUT, LONGEST_RING, MOST_BLOCKS, WORDS};
use super::writing::{self, Entry};

pub(super) fn require(condition: bool, number: u64) -> Result<(), u64> {
    condition.then_some(()).ok_or(number)
}

pub(super) fn code(result: Result<(), u64>) -> u64 {
    result.err().unwrap_or(0)
}

/// Makes `change` to the record of these words, where it is one that hangs together and the change
/// is not refused.
fn changed(words: &mut [u64], change: impl FnOnce(&mut Record) -> Result<(), u64>) -> u64 {
    code(Record::hanging(words).and_then(|mut record| {
        change(&mut record)?;
        record.store(words);
        Ok(())
    }))
}

/// The first word of `answer`, from the record.
fn answered(words: &[u64], answer: &mut [u64], from: impl FnOnce(Record) -> u128) -> u64 {
    code(Record::hanging(words).and_then(|record| {
        *answer.first_mut().ok_or(9_u64)? = from(record).try_into().unwrap();
        Ok(())
    }))
}

pub fn open(words: &mut [u64], n: u64, r: u64) -> u64 {
    if !(1..=MOST_BLOCKS).contains(&n) || r > LONGEST_RING {
        return 1;
    }
    let Some(words) = words.first_chunk_mut::<WORDS>() else {
        return 9;
    };
    *words = [0; WORDS];
    words[..3].copy_from_slice(&[LAYOUT, n, r]);
    0
}

pub fn append_insert(words: &mut [u64], ring: &mut [u8], key: &[u8], value: &[u8]) -> u64 {
    append(words, ring, Entry { is_clone: false, first: key.into(), second: value.into() })
}

pub fn append_clone(words: &mut [u64], ring: &mut [u8], from: &[u8], to: &[u8]) -> u64 {
    append(words, ring, Entry { is_clone: true, first: from.into(), second: to.into() })
}

fn append(words: &mut [u64], ring: &mut [u8], entry: Entry) -> u64 {
    changed(words, |record| {
        require(ring.len() as u128 == record.r, 2)?;
        require(entry.first.len() <= FIRST as usize, 3)?;
        let limit = if entry.is_clone { CLONED } else { INSERTED };
        require(entry.second.len() <= limit as usize, 4)?;
        require(entry.has_key(), 22)?;
        let own = List { entries: 1, bytes: entry.weight() as u128 };
        let header = if record.memory.entries == 0 { 8 } else { 0 };
        let weight = record.memory.weight() + own.bytes + header;
        let payload = PAYLOAD as u128;
        require(payload * (record.written + record.held) + weight <= payload * record.n, 5)?;
        let pending = record.frozen.bytes + record.memory.bytes;
        require(pending + own.bytes <= record.r, 6)?;
        for (i, byte) in entry.wire_form().into_iter().enumerate() {
            let at = (record.start + pending) as usize + i;
            ring[at % ring.len()] = byte;
        }
        record.memory = record.memory.plus(own);
        record.clones += u128::from(entry.is_clone);
        Ok(())
    })
}

pub fn freeze(words: &mut [u64]) -> u64 {
    changed(words, |record| {
        let blocks = record.memory.blocks();
        if record.memory.entries > 0 {
            (record.last, record.last_blocks) = (record.memory, blocks);
        }
        record.held += blocks;
        record.frozen = record.frozen.plus(record.memory);
        record.memory = List::default();
        Ok(())
    })
}

pub fn thaw(words: &mut [u64]) -> u64 {
    changed(words, |record| {
        require(record.last.entries > 0, 17)?;
        *record = record.thawed().unwrap();
        Ok(())
    })
}

/// The entries of both lists, if their bytes read as so many, with the recorded clones among them.
fn pending(record: &Record, ring: &[u8]) -> Result<[Vec<Entry>; 2], u64> {
    let mut from_start = (0..).map(|i| ring[(record.start as usize + i) % ring.len()]);
    let [frozen, memory] = [record.frozen, record.memory].map(|List { entries, bytes }| {
        let bytes: Vec<u8> = from_start.by_ref().take(bytes as usize).collect();
        let (list, rest) = entries::list(&bytes, entries as u64)?;
        rest.is_empty().then_some(list)
    });
    let (frozen, memory) = frozen.zip(memory).ok_or(15_u64)?;
    let waiting = clones(&frozen) + clones(&memory);
    require(record.clones == waiting.into(), 15)?;
    Ok([frozen, memory])
}

/// The image of a batch of these entries, to the start of `out`.
fn batch(list: &[Entry], blocks: u128, out: &mut [u8]) -> Result<(), u64> {
    let out = out.get_mut(..BLOCK * blocks as usize).ok_or(9_u64)?;
    let forms: Vec<u8> = list.iter().flat_map(Entry::wire_form).collect();
    let payload = writing::payload(list.len(), blocks as usize, &forms);
    out.copy_from_slice(&writing::image(&payload));
    Ok(())
}

pub fn package_frozen(words: &mut [u64], ring: &[u8], out: &mut [u8]) -> u64 {
    changed(words, |record| {
        require(ring.len() as u128 == record.r, 2)?;
        require(record.frozen.entries > 0, 8)?;
        let [frozen, _] = pending(record, ring)?;
        batch(&frozen, record.held, out)?;
        record.written += record.held;
        record.held = 0;
        record.start += record.frozen.bytes;
        if record.start >= record.r {
            record.start -= record.r;
        }
        record.frozen = List::default();
        record.clones -= u128::from(clones(&frozen));
        (record.last, record.last_blocks) = (List::default(), 0);
        Ok(())
    })
}

pub fn package_in_memory(words: &mut [u64], ring: &[u8], out: &mut [u8]) -> u64 {
    changed(words, |record| {
        require(ring.len() as u128 == record.r, 2)?;
        require(record.frozen.entries == 0, 7)?;
        require(record.memory.entries > 0, 8)?;
        let [_, memory] = pending(record, ring)?;
        let blocks = record.memory.blocks();
        batch(&memory, blocks, out)?;
        record.written += blocks;
        record.start = 0;
        record.memory = List::default();
        record.clones -= u128::from(clones(&memory));
        Ok(())
    })
}

pub fn set_written(words: &mut [u64], len: u64) -> u64 {
    changed(words, |record| {
        require(record.frozen.entries == 0 && record.memory.entries == 0, 7)?;
        require(u128::from(len) <= record.n, 10)?;
        record.written = len.into();
        record.held = 0;
        Ok(())
    })
}

pub fn update_written(words: &mut [u64], len: u64) -> u64 {
    changed(words, |record| {
        require(u128::from(len) <= record.written, 10)?;
        record.written = len.into();
        Ok(())
    })
}

pub fn has_frozen(words: &[u64], answer: &mut [u64]) -> u64 {
    answered(words, answer, |record| u128::from(record.frozen.entries > 0))
}

pub fn has_in_memory(words: &[u64], answer: &mut [u64]) -> u64 {
    answered(words, answer, |record| u128::from(record.memory.entries > 0))
}

pub fn get_written(words: &[u64], answer: &mut [u64]) -> u64 {
    answered(words, answer, |record| record.written)
}

pub fn waiting_clones(words: &[u64], answer: &mut [u64]) -> u64 {
    answered(words, answer, |record| record.clones)
}

pub fn is_replay_empty(words: &[u64], answer: &mut [u64]) -> u64 {
    answered(words, answer, |record| u128::from(record.replay.entries == 0))
}

pub fn has_front(words: &[u64], answer: &mut [u64]) -> u64 {
    answered(words, answer, |record| u128::from(record.front.is_some()))
}

pub fn has_back(words: &[u64], answer: &mut [u64]) -> u64 {
    answered(words, answer, |record| u128::from(record.back.is_some()))
}

/// The payload's blocks, which are copied to the start of `to`.
fn copied(record: &Record, payload: &[u8], to: &mut [u8]) -> Result<u128, u64> {
    let blocks = (payload.len() / PAYLOAD) as u128;
    require(payload.len().is_multiple_of(PAYLOAD) && blocks <= record.n, 13)?;
    to.get_mut(..payload.len()).ok_or(9_u64)?.copy_from_slice(payload);
    Ok(blocks)
}

pub fn set_front(words: &mut [u64], payload: &[u8], front: &mut [u8]) -> u64 {
    changed(words, |record| {
        record.front = Some(copied(record, payload, front)?);
        Ok(())
    })
}

pub fn set_back(words: &mut [u64], payload: &[u8], back: &mut [u8]) -> u64 {
    changed(words, |record| {
        record.back = Some(copied(record, payload, back)?);
        Ok(())
    })
}

pub fn load(words: &mut [u64], front: &[u8], back: &[u8], replay: &mut [u8]) -> u64 {
    changed(words, |record| {
        let part = |side: Option<u128>| PAYLOAD * side.unwrap_or(0) as usize;
        let front = front.get(..part(record.front)).ok_or(2_u64)?;
        let back = back.get(..part(record.back)).ok_or(2_u64)?;
        let list = entries::range(&[front, back].concat()).ok_or(14_u64)?;
        let forms: Vec<u8> = list.iter().flat_map(Entry::wire_form).collect();
        replay.get_mut(..forms.len()).ok_or(9_u64)?.copy_from_slice(&forms);
        record.place = 0;
        record.replay = List { entries: list.len() as u128, bytes: forms.len() as u128 };
        (record.front, record.back) = (None, None);
        Ok(())
    })
}

/// The entry at the replay's place, and its bytes.
fn next(record: &Record, replay: &[u8]) -> Result<Entry, u64> {
    let end = record.place + record.replay.bytes;
    require(replay.len() as u128 >= end, 2)?;
    require(record.replay.entries > 0, 8)?;
    let rest = &replay[record.place as usize..end as usize];
    entries::entry(rest).map(|(entry, _)| entry).ok_or(14)
}

/// Kind (1 for a clone), first length and place, second length and place.
pub fn top(words: &[u64], replay: &[u8], top: &mut [u64]) -> u64 {
    code(Record::hanging(words).and_then(|record| {
        let Entry { is_clone, first, second } = next(&record, replay)?;
        let [first, second] = [first.len() as u64, second.len() as u64];
        let place = record.place as u64 + 4;
        *top.first_chunk_mut().ok_or(9_u64)? =
            [is_clone.into(), first, place, second, place + first + 4];
        Ok(())
    }))
}

pub fn pop(words: &mut [u64], replay: &[u8]) -> u64 {
    changed(words, |record| {
        let weight = next(record, replay)?.weight() as u128;
        record.place += weight;
        record.replay.bytes -= weight;
        record.replay.entries -= 1;
        let hang = record.replay.conditions(["", ""]).iter().all(|(_, a, b)| a <= b);
        require(hang, 14)
    })
}
