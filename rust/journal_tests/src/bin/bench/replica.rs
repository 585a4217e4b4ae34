//! Steps and lookups of a replica. A round makes one for each of some tables, which are filled to three quarters with
//! rows of 100 bytes; or replays a stream of entries into each. Besides, the same of a BTreeMap: it keeps no bytes in
//! order and tests none.
use crate::{record, timed, Case, Timed, Way};
use journal_tests::model::crc;
use journal_tests::model::plain::replica as plain;
use journal_tests::model::replica::{table, Map};
use journal_tests::model::writing::Entry;
use nungakes::word;
use nungakes_replica::calls;
use std::cell::{RefCell, RefMut};
use std::hint::black_box;
use std::slice::from_mut;

/// The bytes of all tables.
const BYTES: usize = 4 << 20;

/// Rows are in so many lines, one of which is cloned.
const LINES: usize = 16;
const FROM: &[u8] = b"line 07/";
const TO: &[u8] = b"line 07 copied/";

/// The bytes of a value, behind a key of 14.
const VALUE: usize = 100 - 8 - 14;

/// The entries of a stream.
const STEPS: usize = 8;

pub struct Tables {
    /// The bytes of each.
    len: usize,
    map: Map,
    whole: Vec<u8>,
    tables: RefCell<Vec<u8>>,
}

type Lookup = fn(&[u64], &[u8], &[u8], &mut [u64]) -> u64;
type Replay = fn(&mut [u64], &[u8], &mut [u64], &mut [u8], &mut [u8]) -> u64;

fn key(k: usize, rows: usize) -> Vec<u8> {
    format!("line {:02}/{k:06}", k * LINES / rows).into()
}

impl Tables {
    pub fn new(len: usize) -> Self {
        let rows = len * 3 / 4 / 100;
        let map: Map = (0..rows).map(|k| (key(k, rows), vec![k as u8; VALUE])).collect();
        let whole = table(&map, len);
        Tables { len, map, whole, tables: RefCell::new(vec![0; BYTES]) }
    }

    /// The k-th key.
    fn key(&self, k: usize) -> Vec<u8> {
        key(k, self.map.len())
    }

    /// A key in the middle.
    fn middle(&self) -> Vec<u8> {
        self.key(self.map.len() / 2)
    }

    /// New keys, other values, and the line cloned twice, so that its first copies go.
    fn stream(&self) -> [Entry; STEPS] {
        let rows = self.map.len();
        let insert = |first: Vec<u8>| Entry { is_clone: false, first, second: vec![b'v'; VALUE] };
        let new = |k: usize| insert([&self.key(k)[..], b"b"].concat());
        let other = |k: usize| insert(self.key(k));
        let clone = || Entry { is_clone: true, first: FROM.into(), second: TO.into() };
        let in_line = rows * 15 / 2 / LINES;
        let early = [new(rows / 4), other(0), clone(), new(in_line)];
        let late = [other(rows - 1), clone(), other(rows / 3), new(rows / 2)];
        [early, late].concat().try_into().unwrap()
    }

    /// All tables as they were.
    fn anew(&self) -> RefMut<'_, Vec<u8>> {
        let mut tables = self.tables.borrow_mut();
        tables.chunks_mut(self.len).for_each(|table| table.copy_from_slice(&self.whole));
        tables
    }

    /// One step or more of each table.
    fn stepping(&self, step: impl Fn(&mut [u64], &mut [u8], &mut [u8]) -> u64) -> Timed {
        let tables = &mut *self.anew();
        let (mut work, mut rows) = (vec![1; self.len], 0);
        let timed = timed(|| {
            let make = |table| {
                rows = self.map.len() as u64;
                step(from_mut(&mut rows), table, &mut work)
            };
            black_box(&mut *tables).chunks_mut(self.len).map(make).sum()
        });
        assert_eq!(timed.given, Some(0), "a step is refused");
        timed.and(crc::slicing_by_8(tables).into()).and(rows)
    }

    fn replaying(&self, replay: Replay) -> Timed {
        let entries: Vec<u8> = self.stream().iter().flat_map(Entry::wire_form).collect();
        let counts = [(word::REPLAY_BYTES, entries.len()), (word::REPLAY_ENTRIES, STEPS)];
        let loaded = record(0, &counts);
        self.stepping(|rows, table, work| {
            let mut words = loaded;
            (0..STEPS).map(|_| replay(&mut words, &entries, rows, table, work)).sum()
        })
    }

    fn looking_up(&self, lookup: Lookup, key: &[u8]) -> Timed {
        let tables = &*self.anew();
        let mut answer = [0; 2];
        let rows = [self.map.len() as u64];
        let timed = timed(|| {
            let tables = black_box(tables).chunks(self.len);
            tables.map(|table| lookup(&rows, table, key, &mut answer)).sum()
        });
        timed.and(answer[0]).and(answer[1])
    }

    /// The same work on maps.
    fn on_maps(&self, work: impl Fn(&mut Map)) -> Timed {
        let mut maps = vec![self.map.clone(); BYTES / self.len];
        timed(|| {
            black_box(&mut maps).iter_mut().for_each(&work);
            0
        })
    }

    /// So many calls are made for each table.
    fn case<'a>(&self, name: &str, calls: usize, ways: [Way<'a>; 3]) -> Case<'a> {
        Case {
            name: format!("replica {name} {}", self.len),
            calls: calls * BYTES / self.len,
            bytes: calls * BYTES,
            often: 1,
            ways: ways.into(),
        }
    }

    /// An insert of a new key, or of another value.
    fn insert(&self, name: &str, key: Vec<u8>) -> Case<'_> {
        let value = [b'v'; VALUE];
        let [a, b, c] = [(); 3].map(|()| key.clone());
        let rattle = move || self.stepping(|r, t, w| calls::insert(r, t, w, &a, &value));
        let rust = move || self.stepping(|r, t, w| plain::insert(r, t, w, &b, &value));
        let map = move |map: &mut Map| set(map, &c, &value);
        let limit = Way::limit("btreemap", move || self.on_maps(&map));
        self.case(name, 1, [Way::new("rattle", rattle), Way::new("rust", rust), limit])
    }

    fn clone(&self) -> Case<'_> {
        let rattle = || self.stepping(|r, t, w| calls::clone(r, t, w, FROM, TO));
        let rust = || self.stepping(|r, t, w| plain::clone(r, t, w, FROM, TO));
        let limit = Way::limit("btreemap", || self.on_maps(|map| clone(map, FROM, TO)));
        self.case("clone", 1, [Way::new("rattle", rattle), Way::new("rust", rust), limit])
    }

    fn lookup(&self) -> Case<'_> {
        let [a, b, c] = [(); 3].map(|()| self.middle());
        let rattle = move || self.looking_up(calls::lookup, &a);
        let rust = move || self.looking_up(plain::lookup, &b);
        let map = move |map: &mut Map| {
            black_box(map.get(&c));
        };
        let limit = Way::limit("btreemap", move || self.on_maps(&map));
        self.case("lookup", 1, [Way::new("rattle", rattle), Way::new("rust", rust), limit])
    }

    fn replay(&self) -> Case<'_> {
        let rattle = || self.replaying(calls::replay);
        let rust = || self.replaying(plain::replay);
        let stream = self.stream();
        let map = move |map: &mut Map| stream.iter().for_each(|entry| step(map, entry));
        let limit = Way::limit("btreemap", move || self.on_maps(&map));
        self.case("stream", STEPS, [Way::new("rattle", rattle), Way::new("rust", rust), limit])
    }

    pub fn cases(&self) -> Vec<Case<'_>> {
        let new = [&self.middle()[..], b"b"].concat();
        vec![
            self.insert("insert", new),
            self.insert("overwrite", self.middle()),
            self.clone(),
            self.lookup(),
            self.replay(),
        ]
    }
}

/// The rows of a line.
fn line<'a>(map: &'a Map, prefix: &'a [u8]) -> impl Iterator<Item = (&'a Vec<u8>, &'a Vec<u8>)> {
    map.range(prefix.to_vec()..).take_while(move |(key, _)| key.starts_with(prefix))
}

fn set(map: &mut Map, key: &[u8], value: &[u8]) {
    map.insert(key.into(), value.into());
}

fn clone(map: &mut Map, from: &[u8], to: &[u8]) {
    let copy =
        |(key, value): (&Vec<u8>, &Vec<u8>)| ([to, &key[from.len()..]].concat(), value.clone());
    let copies: Vec<_> = line(map, from).map(copy).collect();
    let gone: Vec<_> = line(map, to).map(|(key, _)| key.clone()).collect();
    for key in gone {
        map.remove(&key);
    }
    map.extend(copies);
}

fn step(map: &mut Map, Entry { is_clone, first, second }: &Entry) {
    let step = if *is_clone { clone } else { set };
    step(map, first, second);
}
