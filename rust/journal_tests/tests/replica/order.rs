//! Each number of each call's row, together with any of the others: the first of the row is given.
use crate::{clone, insert, map, Call, Call::*, Replica, Tally};
use journal_tests::faults::{together, Fault};
use journal_tests::model::writing::Entry;
use journal_tests::random::Random;
use journal_tests::replica::Lent;
use nungakes::{word, Journal};

type Faults<'a> = [(u64, &'a [Fault<Lent>])];

/// A step's 2, where a call has another 2 before it.
const STEPS: u64 = 256 + 2;

impl Tally {
    /// Each number of the row is made to hold together with any of the others: the first is given.
    fn in_order(&mut self, call: Call, row: &[u64], base: Lent, faults: &Faults) {
        for (lent, codes) in together(base, faults) {
            let place = |code: &u64| row.iter().position(|number| number == code).unwrap();
            let first = codes.iter().copied().min_by_key(place).unwrap_or(0);
            let (code, _) = self.call(call, &lent);
            assert_eq!(code, first % 256, "{call:?}: {codes:?}");
        }
        let codes: Vec<u64> = [0].into_iter().chain(row.iter().map(|code| code % 256)).collect();
        self.ends(call, &codes, faults.len());
    }
}

/// Three rows of 530 bytes, one with a key of 500, and 70 bytes more.
fn base(entry: &Entry) -> Lent {
    let replica = Replica::new(map(&[(b"a", b"x"), (b"b", b"yy"), (&[b'l'; 500], b"z")]), 600);
    Lent { words: vec![7; 3], ..replica.lent(entry, &mut Random(1)) }
}

/// With so many bytes more of the table, for a clone of the long row.
fn longer_by(lent: Lent, more: usize) -> Lent {
    let [table, work] = [lent.table, lent.work].map(|s| [s, vec![0; more]].concat());
    Lent { table, work, ..lent }
}

/// The table and the working space end with the last row.
fn full(lent: &mut Lent) {
    let used = lent.table.iter().rposition(|byte| *byte != 0).unwrap();
    lent.table.truncate(used + 1);
    lent.work.truncate(used + 1);
}

const NO_TABLE: [Fault<Lent>; 7] = [
    |lent| lent.rows.clear(),
    |lent| lent.rows[0] += 1,
    |lent| lent.rows[0] -= 1,
    |lent| lent.rows[0] = u64::MAX,
    |lent| lent.table.truncate(30),
    |lent| lent.table[1] = 0x10,
    // equal keys
    |lent| lent.table[14] = b'a',
];

const NO_WORK: [Fault<Lent>; 3] = [
    |lent| lent.work.clear(),
    |lent| lent.work.truncate(lent.work.len() - 1),
    |lent| lent.work.push(0),
];

fn of_a_step() -> Vec<Fault<Lent>> {
    [&NO_TABLE[..], &NO_WORK].concat()
}

fn longer(read: &mut Vec<u8>, len: usize) {
    read.resize(len, b'l');
}

#[test]
fn of_inserts() {
    let faults: &Faults = &[
        (4, &[|lent| longer(&mut lent.read[1], 16_385), |lent| longer(&mut lent.read[1], 70_000)]),
        (3, &[|lent| longer(&mut lent.read[0], 513), |lent| longer(&mut lent.read[0], 70_000)]),
        (21, &[full]),
        (2, &of_a_step()),
    ];
    let tally = &mut Tally::default();
    tally.in_order(Insert, Insert.numbers(), base(&insert(b"key", b"value")), faults);
}

/// The row with the long key is copied: behind 14 bytes its key is too long.
#[test]
fn of_clones() {
    let faults: &Faults = &[
        (20, &[|lent| longer(&mut lent.read[1], 14), |lent| longer(&mut lent.read[1], 512)]),
        (4, &[|lent| longer(&mut lent.read[1], 513)]),
        (3, &[|lent| lent.read[0] = vec![b'l'; 513]]),
        (21, &[full]),
        (2, &of_a_step()),
    ];
    let tally = &mut Tally::default();
    tally.in_order(Clone, Clone.numbers(), longer_by(base(&clone(b"l", b"to")), 700), faults);
}

/// An absent key may have any length.
#[test]
fn of_lookups() {
    let faults: &Faults = &[
        (9, &[|lent| lent.words.truncate(1), |lent| lent.words.clear()]),
        (
            8,
            &[
                |lent| lent.read[0].clear(),
                |lent| lent.read[0].push(0),
                |lent| longer(&mut lent.read[0], 512),
                |lent| longer(&mut lent.read[0], 513),
                |lent| longer(&mut lent.read[0], 70_000),
            ],
        ),
        (2, &NO_TABLE),
    ];
    let tally = &mut Tally::default();
    tally.in_order(Lookup, Lookup.numbers(), base(&insert(b"b", b"")), faults);
    // the working space is nothing to a lookup
    for fault in NO_WORK {
        let mut lent = base(&insert(b"b", b""));
        fault(&mut lent);
        assert_eq!(tally.call(Lookup, &lent).0, 0);
    }
}

/// Entry and another are the replay.
fn loaded(lent: &mut Lent, entry: &Entry) {
    lent.read[0] = [entry, &insert(b"next", b"value")].map(Entry::wire_form).concat();
    lent.words[word::REPLAY_BYTES] = lent.read[0].len() as u64;
    lent.words[word::REPLAY_ENTRIES] = 2;
}

const UNREADABLE: [Fault<Lent>; 2] =
    [|lent| lent.read[0][1] |= 0x0F, |lent| lent.words[word::REPLAY_ENTRIES] = 1];

const NOTHING: Fault<Lent> = |lent| {
    lent.read[0].clear();
    lent.words[word::REPLAY_BYTES..=word::REPLAY_ENTRIES].fill(0);
};

const NO_RECORD: [Fault<Lent>; 6] = [
    |lent| lent.words.clear(),
    |lent| lent.words.truncate(20),
    |lent| lent.words[word::LAYOUT] += 1,
    |lent| lent.words[word::WRITTEN] = 2,
    |lent| lent.words[word::REPLAY_PLACE] = 1 << 40,
    |lent| lent.words[word::REPLAY_PLACE] = u64::MAX,
];

/// The numbers of pop come first: a step's 2 is behind its 14. An entry that is too long for a step does not read.
#[test]
fn of_replays() {
    let row = [2, 8, 14, STEPS, 20, 21];
    let faults: &Faults = &[
        (
            20,
            &[
                |lent| loaded(lent, &clone(b"l", &[b't'; 14])),
                |lent| loaded(lent, &clone(b"", &[b't'; 13])),
            ],
        ),
        (21, &[full]),
        (STEPS, &of_a_step()),
        (14, &UNREADABLE),
        (8, &[NOTHING]),
        (2, &NO_RECORD),
    ];
    for entry in [insert(b"key", b"value"), clone(b"l", b"to"), clone(b"", b"b")] {
        let mut lent = longer_by(base(&insert(b"", b"")), 700);
        lent.words = [&Journal::open(1, 0).unwrap().words()[..], &[7]].concat();
        loaded(&mut lent, &entry);
        Tally::default().in_order(Replay, &row, lent, faults);
    }
}
