//! Each number of each call's row, together with any of the others: the first of the row is given.
use crate::{empty, forms, weighing, with, Case, Table};
use journal_tests::call::{Call::*, QUERIES};
use journal_tests::faults;
use journal_tests::memory::Lent;
use journal_tests::model::block::{BLOCK, PAYLOAD};
use journal_tests::model::record::{LAYOUT, WORDS};
use journal_tests::model::writing;
use std::collections::BTreeSet;

pub fn run(table: &mut Table) {
    for part in [opening, appending, thawing, packaging, lengths, recovering, replaying] {
        part(table);
    }
}

pub type Fault = faults::Fault<Case>;

impl Table {
    /// Each number of the call's row is made to hold together with any of the others: the first of its row is
    /// given.
    pub fn in_order(&mut self, base: Case, faults: &[(u64, &[Fault])]) {
        let row = base.call.numbers();
        let numbers: BTreeSet<u64> = faults.iter().map(|(code, _)| code % 256).collect();
        assert!(numbers.iter().eq(&row.iter().copied().collect::<BTreeSet<u64>>()), "{row:?}");
        for (case, codes) in faults::together(base, faults) {
            let place = |code: &u64| row.iter().position(|number| *number == code % 256);
            let first = codes.into_iter().min_by_key(place);
            self.refused(&case, first.unwrap_or(0));
        }
    }
}

fn written_past(case: &mut Case) {
    case.lent.words[8] = case.lent.words[1] + 1;
}

fn clones_past(case: &mut Case) {
    let words = &mut case.lent.words;
    words[17] = words[4] + words[6] + 1;
}

fn last_past(case: &mut Case) {
    case.lent.words[18] = case.lent.words[4] + 1;
}

fn bytes_of_no_last(case: &mut Case) {
    case.lent.words[18..21].copy_from_slice(&[0, 1, 0]);
}

fn forgotten(case: &mut Case) {
    case.lent.words[18..21].fill(0);
}

fn words_short(case: &mut Case) {
    case.lent.words.truncate(WORDS - 1);
}

fn another_layout(case: &mut Case) {
    case.lent.words[0] = LAYOUT + 1;
}

pub fn written_short(case: &mut Case) {
    case.lent.written.pop();
}

pub fn nothing_written(case: &mut Case) {
    case.lent.written.clear();
}

fn written_long(case: &mut Case) {
    case.lent.written.push(0);
}

pub fn read_short(case: &mut Case) {
    case.lent.read[0].pop();
}

pub fn read_long(case: &mut Case) {
    case.lent.read[0].push(0);
}

pub fn no_answer(case: &mut Case) {
    case.lent.answer.pop();
}

/// What any call on a record is refused for.
const DAMAGED: [Fault; 6] =
    [written_past, clones_past, last_past, bytes_of_no_last, words_short, another_layout];

/// The same, and what else its 2 is for.
fn damaged_or(others: &[Fault]) -> Vec<Fault> {
    [&DAMAGED, others].concat()
}

fn opening(table: &mut Table) {
    let base = |n, r| Case {
        call: Open { n, r },
        lent: Lent { words: vec![7; WORDS], ..Lent::default() },
    };
    let out_of_range: [Fault; 5] = [
        |case| case.call = Open { n: 0, r: 0 },
        |case| case.call = Open { n: 1_025, r: 0 },
        |case| case.call = Open { n: u64::MAX, r: 0 },
        |case| case.call = Open { n: 1, r: 8_388_609 },
        |case| case.call = Open { n: 1_024, r: 1 << 32 },
    ];
    let short: [Fault; 2] = [words_short, |case| case.lent.words.clear()];
    for (n, r) in [(1, 0), (1, 8_388_608), (1_024, 0), (1_024, 8_388_608)] {
        table.in_order(base(n, r), &[(1, &out_of_range), (9, &short)]);
        assert_eq!(table.accepted(&base(n, r)).words, empty(n, r));
    }
}

fn appending(table: &mut Table) {
    let lists = [(4, 1), (5, 16), (6, 1), (7, 16), (9, 1), (18, 1), (19, 16), (20, 1)];
    let words = with(with(empty(6, 30_000), &[(3, 29_990)]), &lists);
    let second_long: Fault = |case| {
        let limit = if case.call == AppendClone { 512 } else { 16_384 };
        case.lent.read[1] = vec![0; limit + 1];
    };
    let no_room_in_region: [Fault; 2] = [
        |case| case.lent.words[6..8].copy_from_slice(&[3, 20_302]),
        |case| case.lent.words[6..9].copy_from_slice(&[0, 0, 5]),
    ];
    let no_room_in_ring: Fault = |case| {
        let words = &mut case.lent.words;
        (words[2], words[3]) = (words[5] + words[7] + 10, 0);
        case.lent.written.truncate(words[2] as usize);
    };
    let read = [b"ab".to_vec(), b"c".to_vec()];
    let lent = Lent { words, read, written: vec![9; 30_000], ..Lent::default() };
    let damaged = damaged_or(&[written_short, written_long]);
    let no_key: (u64, &[Fault]) = (22, &[|case| case.lent.read[0].clear()]);
    for (call, own) in [(AppendInsert, Some(no_key)), (AppendClone, None)] {
        // of both faults of the first bytes the later one is made: 3, which comes first
        let faults: [(u64, &[Fault]); 5] = [
            (5, &no_room_in_region),
            (6, &[no_room_in_ring]),
            (4, &[second_long]),
            (3, &[|case| case.lent.read[0] = vec![0; 513]]),
            (2, &damaged),
        ];
        let faults: Vec<_> = own.into_iter().chain(faults).collect();
        table.in_order(Case { call, lent: lent.clone() }, &faults);
    }
}

/// Two of three entries are remembered, and one is in memory.
fn thawing(table: &mut Table) {
    let lists = [(4, 3), (5, 56), (6, 1), (7, 24), (9, 2), (17, 2)];
    let words = with(with(empty(3, 200), &lists), &[(18, 2), (19, 40), (20, 1)]);
    let base = Case { call: Thaw, lent: Lent { words, ..Lent::default() } };
    table.in_order(base.clone(), &[(17, &[forgotten]), (2, &DAMAGED)]);
    let thawed = [(4, 1), (5, 16), (6, 3), (7, 64), (9, 1), (17, 2)];
    assert_eq!(table.accepted(&base).words, with(empty(3, 200), &thawed));
}

fn packaging(table: &mut Table) {
    let mut entries = [16, 40, 24].map(weighing);
    // an insert and a clone are frozen, a clone is in memory
    (entries[1].is_clone, entries[2].is_clone) = (true, true);
    let mut ring = forms(&entries);
    ring.resize(200, 0xA5);
    ring.rotate_right(190);
    let words = with(empty(3, 200), &[(3, 190), (4, 2), (5, 56), (6, 1), (7, 24), (9, 2), (17, 2)]);
    let frozen = Lent {
        words: with(words.clone(), &[(18, 1), (19, 40), (20, 1)]),
        read: [ring, vec![]],
        written: vec![7; 2 * BLOCK],
        ..Lent::default()
    };
    let none: Fault = |case| {
        let list = if case.call == PackageFrozen { 4 } else { 6 };
        let words = &mut case.lent.words;
        words[list..list + 2].fill(0);
        words[17] = words[17].min(words[4] + words[6]);
        words[18..21].fill(0);
    };
    // the first length of the first entry, that of the last, another number of entries, the kind of the
    // first and of the last, one clone less and one more
    let unreadable: [Fault; 7] = [
        |case| case.lent.read[0][191] = 0x20,
        |case| case.lent.read[0][(190 + 56 + 1) % 200] = 0x20,
        |case| case.lent.words[6] += 1,
        |case| case.lent.read[0][191] ^= 0x10,
        |case| case.lent.read[0][(190 + 56 + 1) % 200] ^= 0x10,
        |case| case.lent.words[17] -= 1,
        |case| case.lent.words[17] += 1,
    ];
    let damaged = damaged_or(&[read_short, read_long]);
    let short: [Fault; 2] = [written_short, nothing_written];
    let base = Case { call: PackageFrozen, lent: frozen.clone() };
    table.in_order(base, &[(15, &unreadable), (9, &short), (8, &[none]), (2, &damaged)]);

    // all three in memory
    let words = with(words, &[(4, 0), (5, 0), (6, 3), (7, 80), (9, 0)]);
    let lent = Lent { words, written: vec![7; BLOCK], ..frozen };
    let some_frozen: Fault = |case| {
        case.lent.words[4..6].copy_from_slice(&[1, 16]);
        case.lent.words[9] = 1;
    };
    table.in_order(
        Case { call: PackageInMemory, lent },
        &[(15, &unreadable), (9, &short), (7, &[some_frozen]), (8, &[none]), (2, &damaged)],
    );
}

fn lengths(table: &mut Table) {
    let lent = Lent { words: with(empty(5, 100), &[(8, 2), (9, 1)]), ..Lent::default() };
    let pending: [Fault; 2] = [
        |case| case.lent.words[4..6].copy_from_slice(&[1, 16]),
        |case| case.lent.words[6..8].copy_from_slice(&[1, 16]),
    ];
    let too_large: [Fault; 2] =
        [|case| case.call = SetWritten(6), |case| case.call = SetWritten(u64::MAX)];
    table.in_order(
        Case { call: SetWritten(5), lent: lent.clone() },
        &[(7, &pending), (10, &too_large), (2, &DAMAGED)],
    );
    let too_large: [Fault; 2] =
        [|case| case.call = UpdateWritten(3), |case| case.call = UpdateWritten(u64::MAX)];
    table.in_order(
        Case { call: UpdateWritten(2), lent: lent.clone() },
        &[(10, &too_large), (2, &DAMAGED)],
    );
    table.in_order(Case { call: Freeze, lent: lent.clone() }, &[(2, &DAMAGED)]);
    for call in QUERIES {
        let lent = Lent { answer: vec![7], ..lent.clone() };
        table.in_order(Case { call, lent }, &[(9, &[no_answer]), (2, &DAMAGED)]);
    }
}

fn recovering(table: &mut Table) {
    let payload = writing::batch(&[1_500, 1_500, 1_500, 16].map(weighing), 0);
    let image = writing::image(&payload);
    let flipped: [Fault; 2] =
        [|case| case.lent.read[0][BLOCK] ^= 1, |case| case.lent.read[0][2 * BLOCK - 1] ^= 1];
    let lent = Lent { read: [image, vec![]], written: vec![7; 2 * PAYLOAD], ..Lent::default() };
    table.in_order(
        Case { call: Strip, lent },
        &[(12 + 256, &flipped), (11, &[read_short, read_long]), (9, &[written_short])],
    );

    let not_blocks: [Fault; 4] = [
        read_short,
        read_long,
        |case| case.lent.read[0].extend([0; PAYLOAD]),
        |case| case.lent.read[0].truncate(1),
    ];
    for call in [SetFront, SetBack] {
        let lent = Lent {
            words: empty(2, 0),
            read: [payload.clone(), vec![]],
            written: vec![7; 2 * PAYLOAD],
            ..Lent::default()
        };
        table.in_order(
            Case { call, lent },
            &[(13, &not_blocks), (9, &[written_short, nothing_written]), (2, &DAMAGED)],
        );
    }

    let (front, back) = payload.split_at(PAYLOAD);
    let lent = Lent {
        words: with(empty(1, 0), &[(13, 1), (14, 1), (15, 1), (16, 1)]),
        read: [front.into(), back.into()],
        written: vec![7; 4_516],
        ..Lent::default()
    };
    let unreadable: [Fault; 3] = [
        |case| case.lent.read[0][4] = 0,
        |case| case.lent.read[0][4] = 3,
        |case| case.lent.read[0][9] = 0x20,
    ];
    let back_short: Fault = |case| case.lent.read[1].truncate(PAYLOAD - 1);
    table.in_order(
        Case { call: Load, lent },
        &[(14, &unreadable), (9, &[written_short]), (2, &damaged_or(&[read_short, back_short]))],
    );
}

fn replaying(table: &mut Table) {
    let entries = [16, 40].map(weighing);
    let lent = Lent {
        words: with(empty(1, 0), &[(10, 3), (11, 56), (12, 2)]),
        read: [[&[7; 3], &forms(&entries)[..]].concat(), vec![]],
        answer: vec![7; 5],
        ..Lent::default()
    };
    let replay_short: Fault = |case| {
        let end = case.lent.words[10] + case.lent.words[11];
        case.lent.read[0].truncate(end as usize - 1);
    };
    let damaged = damaged_or(&[replay_short, |case| case.lent.words[10] = u64::MAX]);
    let none: Fault = |case| case.lent.words[11..13].fill(0);
    // lengths over the limit, and bytes that are left over the end
    let unreadable: [Fault; 3] = [
        |case| case.lent.read[0][4] = 0x04,
        |case| case.lent.read[0][9] = 0x40,
        |case| case.lent.words[11..13].copy_from_slice(&[15, 1]),
    ];
    table.in_order(
        Case { call: Top, lent: lent.clone() },
        &[(14, &unreadable), (9, &[no_answer]), (8, &[none]), (2, &damaged)],
    );
    // bytes of no entry left, no bytes of an entry left, and too few
    let counts: [Fault; 3] = [
        |case| case.lent.words[11..13].copy_from_slice(&[56, 1]),
        |case| case.lent.words[11..13].copy_from_slice(&[16, 2]),
        |case| case.lent.words[11..13].copy_from_slice(&[31, 3]),
    ];
    for ways in [unreadable, counts] {
        let base = Case { call: Pop, lent: lent.clone() };
        table.in_order(base, &[(14, &ways), (8, &[none]), (2, &damaged)]);
    }
    for count in counts {
        let mut case = Case { call: Top, lent: lent.clone() };
        count(&mut case);
        assert_eq!(table.accepted(&case).answer, [0, 1, 7, 7, 12]);
    }
}
