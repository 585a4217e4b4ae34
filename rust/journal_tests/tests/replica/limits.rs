//! Lengths at their limits, and tables that just suffice.
use crate::{clone, insert, map, Call::*, Replica, Tally};
use journal_tests::model::replica::{cloned, weight, Map};
use journal_tests::model::writing::Entry;
use journal_tests::random::Random;

/// First and second bytes around each limit, of either kind, in a table with room for all. No key begins with the first
/// bytes, unless there are none: then two are copied, and behind 512 bytes they are too long.
#[test]
fn of_an_entry() {
    let (tally, random) = (&mut Tally::default(), &mut Random(1));
    let old = Replica::new(map(&[(b"a", b"x"), (b"b", b"")]), 20_000);
    for first in [0, 1, 511, 512, 513, 514, 4_096, 70_000] {
        for second in [0, 1, 511, 512, 513, 16_383, 16_384, 16_385, 70_000] {
            let [key, value] = [first, second].map(|len| vec![b'l'; len]);
            for (entry, limit) in [(insert(&key, &value), 16_384), (clone(&key, &value), 512)] {
                let wanted = match (first, second) {
                    (513.., _) => 3,
                    _ if second > limit => 4,
                    (0, 512) if entry.is_clone => 20,
                    _ => 0,
                };
                let new = &mut old.clone();
                assert_eq!(tally.step(new, &entry, random), wanted, "{first} and {second}");
            }
        }
    }
    tally.ends(Insert, &[0, 3, 4], 72);
    tally.ends(Clone, &[0, 3, 4, 20], 72);
}

/// Lengths of from, of what is behind it in the longest key that is copied, and of to.
const MADE: [[usize; 3]; 14] = [
    [1, 0, 511],
    [1, 0, 512],
    [1, 1, 511],
    [1, 1, 512],
    [0, 0, 512],
    [0, 1, 512],
    [1, 500, 12],
    [1, 500, 13],
    [1, 511, 1],
    [1, 511, 2],
    [0, 512, 0],
    [0, 512, 1],
    [300, 212, 300],
    [300, 212, 301],
];

/// A clone makes keys of up to 512 bytes, and none of 513, wherever among those that it copies the longest is. A long
/// key that it does not copy is nothing to it. Where the table is too short too, 20 is given.
#[test]
fn of_a_key_that_is_made() {
    let (tally, random) = (&mut Tally::default(), &mut Random(2));
    for ([from, rest, to], first) in MADE.into_iter().flat_map(|made| [0, 2, 4].map(|k| (made, k)))
    {
        let wanted = if rest + to > 512 { 20 } else { 0 };
        let [from, rest, to] = [(7, from), (first, rest), (9, to)].map(|(byte, n)| vec![byte; n]);
        let mut old = map(&[(&[&from[..], &rest].concat(), b"longest")]);
        if !from.is_empty() {
            old.insert(vec![200; 512], vec![]);
        }
        if !rest.is_empty() {
            old.extend([1, 3].map(|k| ([&from[..], &[k]].concat(), vec![k; 9])));
        }
        let [before, after] = [weight(&old), weight(&cloned(&old, &from, &to))];
        for len in [before, after.max(before)] {
            let replica = &mut Replica::new(old.clone(), len);
            let code = tally.step(replica, &clone(&from, &to), random);
            assert_eq!(code, if wanted == 0 && after > len { 21 } else { wanted });
        }
    }
    // nothing is to be copied
    let replica = &mut Replica::new(map(&[(b"a", b"")]), 600);
    assert_eq!(tally.step(replica, &clone(&[7; 512], &[8; 512]), random), 0);
    tally.ends(Clone, &[0, 20, 21], 80);
}

/// A table that is as long as the new rows, or longer by one byte, is enough. One that is shorter by one, and has room
/// for the old rows, is refused.
fn just_fits(tally: &mut Tally, old: &Map, entry: &Entry, random: &mut Random) {
    let new = &mut Replica::new(old.clone(), 100_000);
    assert_eq!(tally.step(new, entry, random), 0);
    let needed = weight(&new.map);
    for (len, wanted) in [(needed + 1, 0), (needed, 0), (needed.wrapping_sub(1), 21)] {
        if len >= weight(old) && len <= 100_000 {
            let replica = &mut Replica::new(old.clone(), len);
            assert_eq!(tally.step(replica, entry, random), wanted, "{entry:?} in {len}");
        }
    }
}

#[test]
fn of_the_table() {
    let (tally, random) = (&mut Tally::default(), &mut Random(3));
    let old = map(&[(b"", b"-"), (b"a", b"xyz"), (b"ab", b""), (b"b", b"12345"), (b"bb", b"6")]);
    for old in [Map::new(), map(&[(b"", b"")]), old] {
        for key in [&b""[..], b"a", b"aa", b"b", b"c", &[0; 512]] {
            for len in [0, 1, 2, 4, 5, 6, 100, 16_384] {
                just_fits(tally, &old, &insert(key, &random.bytes(len)), random);
            }
        }
        for (from, to) in
            [("", "a"), ("a", ""), ("a", "c"), ("a", "ccc"), ("b", "ab"), ("x", "b"), ("", "")]
        {
            just_fits(tally, &old, &clone(from.as_bytes(), to.as_bytes()), random);
        }
    }
    tally.ends(Insert, &[0, 21], 300);
    tally.ends(Clone, &[0, 21], 30);
}

/// Some rows of the longest kind, and very many of the smallest.
#[test]
fn of_many_bytes() {
    let (tally, random) = (&mut Tally::default(), &mut Random(4));
    let row = |k: u8| ([vec![k; 511], vec![0]].concat(), vec![k; 16_384]);
    let largest: Map = (0..20).map(|k| row(10 * k)).collect();
    let tiny: Map = (0..3_000_u32).map(|k| (k.to_be_bytes()[2..].to_vec(), vec![])).collect();
    for map in [largest, tiny] {
        let replica = &mut Replica::new(map.clone(), weight(&map) + 20_000);
        for (key, value) in map.iter().step_by(map.len() / 10) {
            assert_eq!(tally.lookup(replica, key), Ok(value.clone()));
            let behind = [&key[..key.len() - 1], &[9]].concat();
            assert_eq!(tally.step(replica, &insert(&behind, b"between"), random), 0);
            assert_eq!(tally.step(replica, &insert(key, b"shorter"), random), 0);
        }
        assert_eq!(tally.step(replica, &clone(&[0], &[1]), random), 0);
        assert_eq!(tally.step(replica, &clone(&[], &[5]), random), 21 - u64::from(map.len() == 20));
        assert_eq!(tally.step(replica, &clone(&[250], &[]), random), 0);
        assert_eq!(replica.rows, 0);
    }
}
