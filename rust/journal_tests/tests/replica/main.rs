//! The centre's replica: random streams of steps, every clone of small tables, limits, damaged tables, the order of the
//! refusals, and replays of histories. Each call is made of the library and of the plain Rust implementation, and
//! compared with the model: its answer, and every byte and word that is lent, accepted or refused.
//! `JOURNAL_TESTS_TIMES` makes the random runs longer.
mod clones;
mod damage;
mod limits;
mod order;
mod replays;
mod streams;
mod wrapper;

use journal_tests::model::replica::{stepped, table, Map};
use journal_tests::model::writing::Entry;
use journal_tests::random::Random;
use journal_tests::replica::{compared, Call, Call::*, Lent, Memory, Slices};
use std::collections::{BTreeMap, BTreeSet};

fn insert(key: &[u8], value: &[u8]) -> Entry {
    Entry { is_clone: false, first: key.into(), second: value.into() }
}

fn clone(from: &[u8], to: &[u8]) -> Entry {
    Entry { is_clone: true, first: from.into(), second: to.into() }
}

/// The call of an entry's step.
fn call_of(entry: &Entry) -> Call {
    if entry.is_clone {
        Clone
    } else {
        Insert
    }
}

fn map(rows: &[(&[u8], &[u8])]) -> Map {
    rows.iter().map(|(key, value)| (key.to_vec(), value.to_vec())).collect()
}

/// A table, and the map that it has to be of, which is kept apart from it.
#[derive(Clone)]
struct Replica {
    map: Map,
    rows: u64,
    table: Vec<u8>,
}

impl Replica {
    fn new(map: Map, len: usize) -> Self {
        Replica { rows: map.len() as u64, table: table(&map, len), map }
    }

    /// What a step is lent. What stands in the working space, and behind the word of rows, does not matter.
    fn lent(&self, entry: &Entry, random: &mut Random) -> Lent {
        let work = random.bytes(self.table.len());
        let rows = [vec![self.rows], vec![random.word(); random.below(3)]].concat();
        let read = [entry.first.clone(), entry.second.clone()];
        Lent { rows, table: self.table.clone(), work, read, words: vec![] }
    }
}

/// The calls that were made and compared, by their codes.
#[derive(Default)]
struct Tally {
    memory: Memory,
    given: BTreeMap<Call, BTreeMap<u64, usize>>,
}

impl Tally {
    /// What the call gives, and leaves in what it is lent.
    fn call(&mut self, call: Call, lent: &Lent) -> (u64, Lent) {
        let ways = [&Call::of_library as _, &Call::of_plain as _];
        let (code, after) =
            compared(&mut self.memory, call, lent, &ways).unwrap_or_else(|e| panic!("{e}"));
        *self.given.entry(call).or_default().entry(code).or_default() += 1;
        (code, after)
    }

    /// Makes a step. The map's own step says the same, and the table is that of the map.
    fn step(&mut self, replica: &mut Replica, entry: &Entry, random: &mut Random) -> u64 {
        let (code, after) = self.call(call_of(entry), &replica.lent(entry, random));
        let len = replica.table.len();
        match stepped(replica.map.clone(), entry, len) {
            Ok(map) => {
                assert_eq!(code, 0);
                assert!(after.table == table(&map, len) && after.work == vec![0; len]);
                assert_eq!(after.rows[0], map.len() as u64);
                *replica = Replica { rows: after.rows[0], table: after.table, map };
            }
            Err(number) => assert_eq!(code, number),
        }
        code
    }

    /// The value of a key, which is the map's. Words behind the answer stay.
    fn lookup(&mut self, replica: &Replica, key: &[u8]) -> Result<Vec<u8>, u64> {
        let mut lent = replica.lent(&insert(key, &[]), &mut Random(1));
        lent.words = vec![7; 3];
        let (code, Lent { words, .. }) = self.call(Lookup, &lent);
        let [place, len] = [words[0], words[1]].map(|n| n as usize);
        let found =
            if code == 0 { Ok(replica.table[place..place + len].into()) } else { Err(code) };
        assert_eq!(found, replica.map.get(key).cloned().ok_or(8));
        assert!(words[2] == 7);
        found
    }

    /// So many calls were made of this kind at least, and their codes were these.
    fn ends(&self, call: Call, codes: &[u64], at_least: usize) {
        let given = self.given.get(&call).cloned().unwrap_or_default();
        println!("{call:?}: {given:?}");
        assert!(given.keys().eq(codes.iter().collect::<BTreeSet<_>>()), "{call:?}: {given:?}");
        assert!(given.values().sum::<usize>() >= at_least, "{call:?}: {given:?}");
    }
}

/// A table byte by byte as the document has it, from an insert, an earlier key's, another value and a clone.
#[test]
fn byte_by_byte() {
    let (tally, random) = (&mut Tally::default(), &mut Random(1));
    let replica = &mut Replica::new(Map::new(), 60);
    let mut becomes = |entry: Entry, wanted: &[u8], rows: u64| {
        assert_eq!(tally.step(replica, &entry, random), 0);
        assert_eq!(replica.table, [wanted, &[0; 60][wanted.len()..]].concat());
        assert_eq!(replica.rows, rows);
    };
    becomes(insert(b"b", b"xy"), b"\x01\0\0\0b\x02\0\0\0xy", 1);
    becomes(insert(b"ab", b""), b"\x02\0\0\0ab\0\0\0\0\x01\0\0\0b\x02\0\0\0xy", 2);
    becomes(insert(b"b", b"z"), b"\x02\0\0\0ab\0\0\0\0\x01\0\0\0b\x01\0\0\0z", 2);
    becomes(
        clone(b"b", b"aba"),
        b"\x02\0\0\0ab\0\0\0\0\x03\0\0\0aba\x01\0\0\0z\x01\0\0\0b\x01\0\0\0z",
        3,
    );
    becomes(clone(b"a", b""), b"\x01\0\0\0b\0\0\0\0\x02\0\0\0ba\x01\0\0\0z", 2);
    assert_eq!(tally.lookup(replica, b"ba"), Ok(b"z".to_vec()));
    assert_eq!(tally.lookup(replica, b"ab"), Err(8));
}

/// The comparison finds one wrong byte in anything that is lent, and a wrong answer.
#[test]
fn a_wrong_byte_is_found() {
    let (memory, random) = (&mut Memory::default(), &mut Random(2));
    let replica = Replica::new(map(&[(b"a", b"xyz"), (b"b", b"")]), 40);
    let words: Vec<u64> = nungakes::Journal::open(1, 0).unwrap().words().to_vec();
    for (call, entry) in [
        (Insert, insert(b"key", b"value")),
        (Insert, insert(b"key", &[7; 20])),
        (Clone, clone(b"a", b"bc")),
        (Lookup, insert(b"a", b"-")),
        (Replay, insert(b"anything", b"-")),
    ] {
        let lent = Lent { words: words.clone(), ..replica.lent(&entry, random) };
        let wrong = |call: Call, lent: Slices| call.of_library(lent) ^ 1;
        assert!(compared(memory, call, &lent, &[&Call::of_library]).is_ok(), "{call:?}");
        assert!(compared(memory, call, &lent, &[&wrong]).is_err(), "{call:?}: the answer");
        for buffer in 0..6 {
            let wrong = |call: Call, lent: Slices| {
                let Slices { words: [rows, words], bytes: [table, work, a, b] } = lent;
                let own = Slices {
                    words: [&mut rows[..], &mut words[..]],
                    bytes: [&mut table[..], &mut work[..], &mut a[..], &mut b[..]],
                };
                let code = call.of_library(own);
                match buffer {
                    0 => *rows.last_mut().unwrap() ^= 1,
                    1 => *words.last_mut().unwrap() ^= 1 << 63,
                    _ => {
                        let s = [table, work, a, b].into_iter().nth(buffer - 2).unwrap();
                        *s.last_mut().unwrap() ^= 0x80;
                    }
                }
                code
            };
            let found = compared(memory, call, &lent, &[&wrong]).is_err();
            assert!(found, "{call:?}: a byte of {buffer}");
        }
    }
}
