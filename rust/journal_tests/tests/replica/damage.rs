//! Tables that are damaged in each way, and bytes that are none: every call gives 2 and changes nothing.
use crate::{clone, insert, map, Call, Call::*, Replica, Tally};
use journal_tests::model::replica::{read, weight, Map};
use journal_tests::model::writing::Entry;
use journal_tests::random::{times, Random};
use journal_tests::replica::Lent;
use nungakes::{word, Journal};

/// Every call on some bytes. All would be accepted of a table that has the key "a" and some room.
fn calls(rows: u64, table: &[u8], random: &mut Random) -> [(Call, Lent); 4] {
    let replica = Replica { map: Map::new(), rows, table: table.into() };
    let mut lent = |entry: &Entry| replica.lent(entry, random);
    let form = insert(b"a", b"x").wire_form();
    let mut replay =
        Lent { words: Journal::open(1, 0).unwrap().words().to_vec(), ..lent(&insert(&form, &[])) };
    replay.words[word::REPLAY_BYTES] = form.len() as u64;
    replay.words[word::REPLAY_ENTRIES] = 1;
    let lookup = Lent { words: vec![7; 2], ..lent(&insert(b"a", &[])) };
    [
        (Insert, lent(&insert(b"a", b"x"))),
        (Clone, lent(&clone(b"a", b"a"))),
        (Lookup, lookup),
        (Replay, replay),
    ]
}

impl Tally {
    /// What each call gives of these bytes.
    fn codes(&mut self, rows: u64, table: &[u8], random: &mut Random) -> [u64; 4] {
        calls(rows, table, random).map(|(call, lent)| self.call(call, &lent).0)
    }
}

/// Some rows, with room for another byte or more. The last row ends with a byte that is not zero.
fn tables() -> [Map; 3] {
    [
        map(&[(b"a", b"1")]),
        map(&[(b"", b""), (b"a", b"12"), (b"a\0", b""), (b"ab", b"3")]),
        map(&[(b"\0", b"\0"), (b"\0\0", b""), (b"a", b""), (b"\x80", b""), (b"\xFF\xFF", b"4")]),
    ]
}

/// The rows' forms, in any order and as often as they are given.
fn forms(rows: &[Entry], len: usize) -> Vec<u8> {
    let mut table: Vec<u8> = rows.iter().flat_map(Entry::wire_form).collect();
    table.resize(len.max(table.len()), 0);
    table
}

fn rows(map: &Map) -> Vec<Entry> {
    map.iter().map(|(key, value)| insert(key, value)).collect()
}

#[test]
fn rows_in_another_order() {
    let (tally, random) = (&mut Tally::default(), &mut Random(1));
    for map in tables() {
        let (own, len) = (rows(&map), 200);
        let n = own.len();
        assert_eq!(tally.codes(n as u64, &forms(&own, len), random), [0; 4]);
        for (a, b) in (0..n).flat_map(|a| (0..a).map(move |b| (a, b))) {
            let mut swapped = own.clone();
            swapped.swap(a, b);
            assert_eq!(tally.codes(n as u64, &forms(&swapped, len), random), [2; 4]);
        }
        for (at, row) in (0..=n).flat_map(|at| own.iter().map(move |row| (at, row))) {
            let mut twice = own.clone();
            twice.insert(at, insert(&row.first, b"again"));
            assert_eq!(tally.codes(n as u64 + 1, &forms(&twice, len), random), [2; 4]);
        }
        for at in 0..n {
            let mut kind = own.clone();
            kind[at].is_clone = true;
            assert_eq!(tally.codes(n as u64, &forms(&kind, len), random), [2; 4]);
        }
    }
}

/// Other numbers of rows. An empty row has eight zeros, so zeros are a table with none and one with it.
#[test]
fn rows_of_another_number() {
    let (tally, random) = (&mut Tally::default(), &mut Random(2));
    let high = [1 << 8, 1 << 16, 1 << 32, 1 << 61, 1 << 63];
    for map in tables() {
        let n = map.len() as u64;
        let others = (0..n).chain([n + 1, n + 2, 200, u64::MAX, u64::MAX - 1]);
        for len in [weight(&map), weight(&map) + 7, weight(&map) + 8, 200] {
            let table = forms(&rows(&map), len);
            for rows in others.clone().chain(high.map(|bit| bit + n)) {
                assert_eq!(tally.codes(rows, &table, random), [2; 4], "{rows} for {n}");
            }
        }
    }
    for (len, most) in [(0, 0), (7, 0), (8, 1), (9, 1), (100, 1)] {
        for rows in [0, 1, 2, 3, 1 << 32, 1 << 61, u64::MAX] {
            // a row of ten bytes is to come
            let room = if rows > most || len >= 10 + 8 * rows as usize { 0 } else { 21 };
            let wanted = if rows <= most { [room, 0, 8, room] } else { [2; 4] };
            assert_eq!(tally.codes(rows, &vec![0; len], random), wanted, "{rows} in {len}");
        }
    }
}

/// A byte behind the rows, at each place.
#[test]
fn bytes_behind_the_rows() {
    let (tally, random) = (&mut Tally::default(), &mut Random(3));
    for map in tables() {
        let (n, used) = (map.len() as u64, weight(&map));
        for len in [used + 1, used + 40, used + 300] {
            let table = forms(&rows(&map), len);
            for at in used..len {
                for byte in [1, 0x80, random.below(255) as u8 + 1] {
                    let mut table = table.clone();
                    table[at] = byte;
                    assert_eq!(tally.codes(n, &table, random), [2; 4], "{byte} at {at}");
                }
            }
        }
    }
}

/// Tables that end before their last row does, at each place.
#[test]
fn rows_past_the_end() {
    let (tally, random) = (&mut Tally::default(), &mut Random(4));
    for map in tables() {
        let table = forms(&rows(&map), 0);
        for len in 0..table.len() {
            assert_eq!(tally.codes(map.len() as u64, &table[..len], random), [2; 4], "{len}");
        }
    }
}

/// Key and value lengths past their limits, with the bytes that they say: the rows are of their form but for that.
#[test]
fn lengths_past_their_limits() {
    let (tally, random) = (&mut Tally::default(), &mut Random(5));
    for (key, value) in
        [(512, 0), (512, 16_384), (513, 0), (514, 9), (0, 16_385), (1, 70_000), (4_095, 0)]
    {
        let long = insert(&vec![b'l'; key], &vec![b'v'; value]);
        for own in [
            vec![insert(b"a", b"x"), long.clone()],
            vec![insert(b"\0", b"x"), insert(b"a", b""), long.clone()],
        ] {
            let mut own = own;
            own.sort_by(|a, b| a.first.cmp(&b.first));
            let within = key <= 512 && value <= 16_384;
            let table = forms(&own, own.iter().map(Entry::weight).sum::<usize>() + 20);
            let wanted = if within { 0 } else { 2 };
            assert_eq!(
                tally.codes(own.len() as u64, &table, random),
                [wanted; 4],
                "{key}, {value}"
            );
        }
    }
    // lengths whose sum with a place is small in 32 bits, or in 64 with a sign
    let table = forms(&[insert(b"a", b"x"), insert(b"b", b"y")], 100);
    for at in [0, 5, 10, 15] {
        for word in
            [513, 4_096, 4_097, 4_609, 16_385, 1 << 16, 1 << 24, 1 << 31, u32::MAX - 9, u32::MAX]
        {
            let mut table = table.clone();
            table[at..at + 4].copy_from_slice(&word.to_le_bytes());
            assert_eq!(tally.codes(2, &table, random), [2; 4], "{word} at {at}");
        }
    }
}

/// Each byte of some tables, changed: some are tables still, and others not. And bytes that are anything.
#[test]
fn any_bytes() {
    let (tally, random) = (&mut Tally::default(), &mut Random(6));
    for map in tables() {
        let (n, table) = (map.len() as u64, forms(&rows(&map), weight(&map) + 9));
        for (at, bit) in (0..table.len()).flat_map(|at| (0..8).map(move |bit| (at, bit))) {
            let mut table = table.clone();
            table[at] ^= 1 << bit;
            let codes = tally.codes(n, &table, random);
            assert_eq!(codes.contains(&2), read(n, &table).is_none(), "bit {bit} at {at}");
        }
    }
    let mut tables = 0;
    for _ in 0..3_000 * times() {
        let len = random.one_of(&[3, 8, 9, 12, 20]);
        let mut table = random.bytes(len);
        for byte in &mut table {
            *byte = random.one_of(&[0, 0, 0, 0, 0, 0, 0, 1, *byte]);
        }
        let rows = random.below(4) as u64;
        tables += usize::from(read(rows, &table).is_some());
        tally.codes(rows, &table, random);
    }
    assert!((100..2_900 * times()).contains(&tables), "{tables}");
    tally.ends(Insert, &[0, 2, 21], 3_000);
    tally.ends(Clone, &[0, 2], 3_000);
    tally.ends(Lookup, &[0, 2, 8], 3_000);
    tally.ends(Replay, &[0, 2, 21], 3_000);
}

/// No word of rows, and working spaces of other lengths, which a lookup has none of.
#[test]
fn other_lengths() {
    let (tally, random) = (&mut Tally::default(), &mut Random(7));
    for map in tables().into_iter().chain([Map::new()]) {
        let table = forms(&rows(&map), weight(&map) + 20);
        let some = if map.is_empty() { 8 } else { 0 };
        for (call, lent) in calls(map.len() as u64, &table, random) {
            let none = Lent { rows: vec![], ..lent.clone() };
            assert_eq!(tally.call(call, &none).0, 2);
            for len in [0, 1, table.len() - 1, table.len() + 1, 2 * table.len(), 100_000] {
                let lent = Lent { work: random.bytes(len), ..lent.clone() };
                let wanted = if call == Lookup { some } else { 2 };
                assert_eq!(tally.call(call, &lent).0, wanted, "{len} for {}", table.len());
            }
        }
    }
}
