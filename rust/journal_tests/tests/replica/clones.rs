//! Every step and every lookup of small tables: each key then has what the document says, key by key.
use crate::streams::every;
use crate::{clone, insert, Call::*, Replica, Tally};
use journal_tests::model::replica::Map;
use journal_tests::random::Random;

/// Every table over the keys of up to two bytes; each key has another value.
fn tables() -> impl Iterator<Item = Map> {
    let keys = every(b"\0\x01", 2);
    let value = |k: usize| vec![b'v'; k % 3 + 1];
    (0..1 << keys.len()).map(move |set: usize| {
        let present = keys.iter().enumerate().filter(|(k, _)| set >> k & 1 == 1);
        present.map(|(k, key)| (key.clone(), [&value(k)[..], &[k as u8]].concat())).collect()
    })
}

/// The document's sentence, of one key: what it then has.
fn then_has(old: &Map, from: &[u8], to: &[u8], key: &[u8]) -> Option<Vec<u8>> {
    match key.strip_prefix(to) {
        Some(rest) => old.get(&[from, rest].concat()).cloned(),
        None => old.get(key).cloned(),
    }
}

/// From inside to, to inside from, the same, both empty: all pairs of up to two bytes, and of each key of up to four.
#[test]
fn every_clone() {
    let (tally, random) = (&mut Tally::default(), &mut Random(1));
    let lines = every(b"\0\x01", 2);
    let keys = every(b"\0\x01", 4);
    for map in tables() {
        let old = Replica::new(map, 200);
        for (from, to) in lines.iter().flat_map(|from| lines.iter().map(move |to| (from, to))) {
            let new = &mut old.clone();
            assert_eq!(tally.step(new, &clone(from, to), random), 0);
            for key in &keys {
                let wanted = then_has(&old.map, from, to, key);
                assert_eq!(new.map.get(key), wanted.as_ref(), "{from:?} to {to:?}: {key:?}");
            }
            // no other key is there
            assert!(new.map.keys().all(|key| key.len() <= 4));
        }
    }
    tally.ends(Clone, &[0], 128 * 49);
}

/// Of each table each key is looked up, and then set.
#[test]
fn every_key() {
    let (tally, random) = (&mut Tally::default(), &mut Random(2));
    for map in tables() {
        let old = Replica::new(map, 100);
        for key in every(b"\0\x01", 3) {
            let found = tally.lookup(&old, &key);
            assert_eq!(found.ok().as_ref(), old.map.get(&key));
            let new = &mut old.clone();
            assert_eq!(tally.step(new, &insert(&key, b"new"), random), 0);
            assert_eq!(tally.lookup(new, &key), Ok(b"new".to_vec()));
            let others = |map: &Map| map.iter().filter(|(other, _)| **other != key).count();
            assert_eq!(others(&old.map), others(&new.map));
            assert!(old.map.iter().all(|(other, value)| *other == key || new.map[other] == *value));
        }
    }
    tally.ends(Insert, &[0], 128 * 15);
    tally.ends(Lookup, &[0, 8], 128 * 30);
}
