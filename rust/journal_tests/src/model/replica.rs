//! The centre's replica, as the document has it: a map from keys to values. Its table is made anew from the map, and
//! bytes are a table where they are what would be made of the map that they read as.
use super::entries;
use super::journalist::{self, code, require};
use super::reading::{CLONED, FIRST, INSERTED};
use super::writing::Entry;
use std::collections::BTreeMap;

pub type Map = BTreeMap<Vec<u8>, Vec<u8>>;

/// The bytes of the rows' wire forms together.
pub fn weight(map: &Map) -> usize {
    map.iter().map(|(key, value)| 8 + key.len() + value.len()).sum()
}

/// One insert's wire form for each key, keys ascending, then zeros up to so many bytes.
pub fn table(map: &Map, len: usize) -> Vec<u8> {
    let row = |(key, value): (&Vec<u8>, &Vec<u8>)| {
        Entry { is_clone: false, first: key.clone(), second: value.clone() }.wire_form()
    };
    let mut table: Vec<u8> = map.iter().flat_map(row).collect();
    assert!(table.len() <= len, "{} bytes of rows in {len}", table.len());
    table.resize(len, 0);
    table
}

/// The map of a table that is of its form with this number of rows.
pub fn read(rows: u64, bytes: &[u8]) -> Option<Map> {
    let (list, _) = entries::list(bytes, rows)?;
    let map: Map = list.into_iter().map(|entry| (entry.first, entry.second)).collect();
    let whole = weight(&map) <= bytes.len() && table(&map, bytes.len()) == bytes;
    (whole && map.len() as u64 == rows).then_some(map)
}

/// The map, or 2.
fn tested(rows: &[u64], table: &[u8]) -> Result<Map, u64> {
    rows.first().and_then(|rows| read(*rows, table)).ok_or(2)
}

/// What a clone makes: a key that begins with `to` has what `from` followed by its remaining bytes had before, or is
/// absent.
pub fn cloned(map: &Map, from: &[u8], to: &[u8]) -> Map {
    let others = map.iter().filter(|(key, _)| !key.starts_with(to));
    let others = others.map(|(key, value)| (key.clone(), value.clone()));
    let copy = |(key, value): (&Vec<u8>, &Vec<u8>)| {
        key.strip_prefix(from).map(|rest| ([to, rest].concat(), value.clone()))
    };
    others.chain(map.iter().filter_map(copy)).collect()
}

/// The map after an entry, or its refusal, for a table of so many bytes.
pub fn stepped(mut map: Map, entry: &Entry, len: usize) -> Result<Map, u64> {
    let Entry { is_clone, first, second } = entry;
    require(first.len() <= FIRST as usize, 3)?;
    require(second.len() <= if *is_clone { CLONED } else { INSERTED } as usize, 4)?;
    if *is_clone {
        map = cloned(&map, first, second);
    } else {
        map.insert(first.clone(), second.clone());
    }
    require(map.keys().all(|key| key.len() <= FIRST as usize), 20)?;
    require(weight(&map) <= len, 21)?;
    Ok(map)
}

fn step(rows: &mut [u64], own: &mut [u8], work: &mut [u8], entry: Entry) -> Result<(), u64> {
    let map = tested(rows, own)?;
    require(work.len() == own.len(), 2)?;
    let map = stepped(map, &entry, own.len())?;
    own.copy_from_slice(&table(&map, own.len()));
    work.fill(0);
    rows[0] = map.len() as u64;
    Ok(())
}

pub fn insert(
    rows: &mut [u64],
    table: &mut [u8],
    work: &mut [u8],
    key: &[u8],
    value: &[u8],
) -> u64 {
    let entry = Entry { is_clone: false, first: key.into(), second: value.into() };
    code(step(rows, table, work, entry))
}

pub fn clone(rows: &mut [u64], table: &mut [u8], work: &mut [u8], from: &[u8], to: &[u8]) -> u64 {
    let entry = Entry { is_clone: true, first: from.into(), second: to.into() };
    code(step(rows, table, work, entry))
}

/// The value is behind the rows of all smaller keys, its key and two lengths.
pub fn lookup(rows: &[u64], table: &[u8], key: &[u8], answer: &mut [u64]) -> u64 {
    code(tested(rows, table).and_then(|mut map| {
        let value = map.get(key).ok_or(8_u64)?.len();
        map.retain(|other, _| &other[..] < key);
        let place = weight(&map) + 8 + key.len();
        *answer.first_chunk_mut().ok_or(9_u64)? = [place, value].map(|n| n as u64);
        Ok(())
    }))
}

/// Pop's refusals come first, and then the step's; what pop leaves is kept where both are accepted.
pub fn replay(
    words: &mut [u64],
    replay: &[u8],
    rows: &mut [u64],
    table: &mut [u8],
    work: &mut [u8],
) -> u64 {
    let mut popped = words.to_vec();
    let refused = journalist::pop(&mut popped, replay);
    if refused != 0 {
        return refused;
    }
    let (entry, _) = entries::entry(&replay[words[10] as usize..]).unwrap();
    let refused = code(step(rows, table, work, entry));
    if refused == 0 {
        words.copy_from_slice(&popped);
    }
    refused
}
