//! Lists of entries, read from the front of some bytes.
use super::block::PAYLOAD;
use super::reading::{CLONE, CLONED, FIRST, INSERTED};
use super::writing::Entry;

/// The word at the start of `s`, lowest byte first, and what is behind it.
fn word(s: &[u8]) -> Option<(u32, &[u8])> {
    let (word, behind) = s.split_first_chunk()?;
    Some((u32::from_le_bytes(*word), behind))
}

/// The bytes at the start of `s` that a word says the number of, if it is within the limit.
fn counted(s: &[u8], n: u32, limit: u32) -> Option<(&[u8], &[u8])> {
    if n > limit {
        return None;
    }
    s.split_at_checked(n as usize)
}

/// The entry at the start of `s`, and what is behind it.
pub fn entry(s: &[u8]) -> Option<(Entry, &[u8])> {
    let (kind_and_length, s) = word(s)?;
    let is_clone = kind_and_length >= CLONE;
    let (first, s) = counted(s, kind_and_length - if is_clone { CLONE } else { 0 }, FIRST)?;
    let (length, s) = word(s)?;
    let (second, s) = counted(s, length, if is_clone { CLONED } else { INSERTED })?;
    Some((Entry { is_clone, first: first.into(), second: second.into() }, s))
}

/// So many entries at the start of `s`, and what is behind the last.
pub fn list(mut s: &[u8], n: u64) -> Option<(Vec<Entry>, &[u8])> {
    let mut entries = vec![];
    for _ in 0..n {
        let (entry, behind) = entry(s)?;
        entries.push(entry);
        s = behind;
    }
    Some((entries, s))
}

/// The clones among some entries.
pub fn clones(list: &[Entry]) -> u64 {
    list.iter().filter(|entry| entry.is_clone).count() as u64
}

/// The entries of payload blocks, batch by batch.
pub fn range(mut s: &[u8]) -> Option<Vec<Entry>> {
    let mut entries = vec![];
    while !s.is_empty() {
        let (n, behind) = word(s)?;
        let (blocks, _) = word(behind)?;
        if blocks == 0 {
            return None;
        }
        let (batch, behind) = s.split_at_checked(PAYLOAD * blocks as usize)?;
        entries.extend(list(&batch[8..], n.into())?.0);
        s = behind;
    }
    Some(entries)
}
