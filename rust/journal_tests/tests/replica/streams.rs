//! Random streams of inserts and clones over few bytes, so that prefixes meet, in tables that are often full.
use crate::{clone, insert, Call::*, Replica, Tally};
use journal_tests::model::replica::{weight, Map};
use journal_tests::model::writing::Entry;
use journal_tests::random::{times, Random};

/// Bytes that keys are made of. The order is of bytes without a sign, and 0 is one.
const ALPHABETS: [&[u8]; 4] = [b"\0\x01", b"\0\xFF", b"\x7F\x80", b"ab/"];

fn word(alphabet: &[u8], most: usize, random: &mut Random) -> Vec<u8> {
    (0..random.below(most + 1)).map(|_| random.one_of(alphabet)).collect()
}

/// Two of three are inserts. A clone is mostly of keys that are there; from and to may be empty.
fn entry(map: &Map, alphabet: &[u8], most: usize, random: &mut Random) -> Entry {
    if random.below(3) > 0 {
        let len = random.one_of(&[0, 1, 2, 10]);
        return insert(&word(alphabet, most, random), &random.bytes(len));
    }
    let [mut from, to] = [(); 2].map(|()| word(alphabet, 3, random));
    if let Some(key) = map.keys().nth(random.below(map.len() + 1)) {
        from = key[..random.below(key.len() + 1)].to_vec();
    }
    clone(&from, &to)
}

/// Every key up to so many bytes.
pub fn every(alphabet: &[u8], most: usize) -> Vec<Vec<u8>> {
    let mut all = vec![vec![]];
    let mut from = 0;
    for _ in 0..most {
        let longer =
            all[from..].iter().flat_map(|key| alphabet.iter().map(|b| [key, &[*b][..]].concat()));
        let longer: Vec<_> = longer.collect();
        from = all.len();
        all.extend(longer);
    }
    all
}

#[test]
fn over_few_bytes() {
    let (tally, random) = (&mut Tally::default(), &mut Random(1));
    for round in 0..200 * times() {
        let alphabet = ALPHABETS[round % ALPHABETS.len()];
        let len = random.one_of(&[0, 8, 40, 100, 200, 400, 1_000]);
        let replica = &mut Replica::new(Map::new(), len);
        for _ in 0..60 {
            let entry = entry(&replica.map, alphabet, 4, random);
            tally.step(replica, &entry, random);
        }
        for key in every(alphabet, 4) {
            let _ = tally.lookup(replica, &key);
        }
    }
    tally.ends(Insert, &[0, 21], 5_000);
    tally.ends(Clone, &[0, 21], 3_000);
    tally.ends(Lookup, &[0, 8], 5_000);
}

/// Long keys that have long beginnings in common, and values up to the longest: 3, 4 and 20 occur too.
#[test]
fn of_long_entries() {
    let (tally, random) = (&mut Tally::default(), &mut Random(2));
    let lengths = [0, 1, 255, 256, 257, 511, 512, 513];
    let word = |random: &mut Random| {
        let mut word = vec![7; random.one_of(&lengths)];
        if let Some(last) = word.last_mut().filter(|_| random.below(3) == 0) {
            *last = random.one_of(&[6, 8]);
        }
        word
    };
    for _ in 0..60 * times() {
        let replica = &mut Replica::new(Map::new(), random.one_of(&[3_000, 20_000, 60_000]));
        for _ in 0..40 {
            let [first, second] = [(); 2].map(|()| word(random));
            let len = random.one_of(&[0, 1, 255, 256, 16_383, 16_384, 16_385]);
            let entry = match random.below(2) {
                0 => insert(&first, &random.bytes(len)),
                _ => clone(&first, &second),
            };
            tally.step(replica, &entry, random);
        }
        for len in lengths {
            let _ = tally.lookup(replica, &vec![7; len]);
        }
    }
    tally.ends(Insert, &[0, 3, 4, 21], 1_000);
    tally.ends(Clone, &[0, 3, 4, 20, 21], 1_000);
    tally.ends(Lookup, &[0, 8], 400);
}

/// The room of a row that goes is used again: each step that needs no more than the present rows is accepted, in a
/// table with room for just these, and each that needs a byte more is refused.
#[test]
fn in_the_room_of_others() {
    let (tally, random) = (&mut Tally::default(), &mut Random(3));
    for round in 0..20 * times() {
        let alphabet = ALPHABETS[round % ALPHABETS.len()];
        let rows = every(alphabet, 2).into_iter().map(|key| (key, random.bytes(5)));
        let map: Map = rows.filter(|(key, _)| key.len() != 1).collect();
        let len = weight(&map);
        let replica = &mut Replica::new(map, len);
        let [mut full, mut refused] = [0; 2];
        for _ in 0..500 {
            let entry = entry(&replica.map, alphabet, 3, random);
            match tally.step(replica, &entry, random) {
                0 => full += usize::from(weight(&replica.map) == len),
                _ => refused += 1,
            }
            // filled up to the last byte again
            if let Some(free) = (len - weight(&replica.map)).checked_sub(8 + 3) {
                let key = word(alphabet, 3, random);
                if !replica.map.contains_key(&key) {
                    let value = random.bytes(free + 3 - key.len());
                    assert_eq!(tally.step(replica, &insert(&key, &value), random), 0);
                    assert_eq!(weight(&replica.map), len);
                    let again = random.bytes(value.len() + 1);
                    assert_eq!(tally.step(replica, &insert(&key, &again), random), 21);
                    assert_eq!(tally.step(replica, &insert(&key, &again[1..]), random), 0);
                }
            }
        }
        assert!(full > 10 && refused > 10, "{full} at a full table, {refused} refused");
    }
    tally.ends(Insert, &[0, 21], 5_000);
    tally.ends(Clone, &[0, 21], 3_000);
}
