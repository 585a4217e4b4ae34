//! Each condition under which a record's counts hang together, where it holds exactly and where it
//! fails by one, for every call on a record.
use crate::{empty, weighing, with, Case, Others, Table};
use journal_tests::call::{Call, Call::*, QUERIES};
use journal_tests::memory::Lent;
use journal_tests::model::block::{BLOCK, PAYLOAD};
use journal_tests::model::writing;

pub fn run(table: &mut Table) {
    edges(table);
    remembered(table);
    after_a_thaw(table);
    no_room_for_a_thaw(table);
    large_numbers(table);
    large_remembered(table);
    lent_lengths(table);
}

/// Every call on this record. It is lent as many bytes as are recorded, or none where those are very
/// many, so that 2 is given for the record alone.
fn all_calls(words: &[u64]) -> Vec<Case> {
    let bytes = |n: u128| vec![0; if n < 1 << 24 { n as usize } else { 0 }];
    let ring = bytes(words[2].into());
    let [front, back] = [words[14], words[16]].map(|n| bytes(PAYLOAD as u128 * u128::from(n)));
    let replay = bytes(u128::from(words[10]) + u128::from(words[11]));
    let case = |call: Call| {
        let [a, b, written] = match call {
            AppendInsert | AppendClone => [vec![1], vec![2], ring.clone()],
            PackageFrozen | PackageInMemory => [ring.clone(), vec![], vec![7; BLOCK]],
            Load => [front.clone(), back.clone(), vec![]],
            Top | Pop => [replay.clone(), vec![], vec![]],
            _ => [vec![], vec![], vec![]],
        };
        let read = [a, b];
        Case { call, lent: Lent { words: words.into(), read, written, answer: vec![7; 5] } }
    };
    let changing = [AppendInsert, AppendClone, Freeze, Thaw, PackageFrozen, PackageInMemory];
    let others = [SetWritten(0), UpdateWritten(0), SetFront, SetBack, Load, Top, Pop];
    changing.into_iter().chain(others).chain(QUERIES).map(case).collect()
}

impl Table {
    /// Whether each call on this record gives 2.
    fn all_refuse(&mut self, words: &[u64]) -> bool {
        let cases = all_calls(words);
        let refused = cases.iter().filter(|case| self.gives(case) == 2).count();
        assert!([0, cases.len()].contains(&refused), "{refused} of {}: {words:?}", cases.len());
        refused > 0
    }

    /// An empty record with any of these words doesn't hang together.
    fn none_hang(&mut self, rows: &[&Others]) {
        for others in rows {
            assert!(self.all_refuse(&with(empty(2, 100), others)), "{others:?}");
        }
    }

    /// Records that just hang together, each with the words in which another just doesn't.
    fn just_hang(&mut self, rows: &[(Vec<u64>, &Others)]) {
        for (words, others) in rows {
            assert!(!self.all_refuse(words), "{words:?}");
            let wrong = with(words.clone(), others);
            assert!(self.all_refuse(&wrong), "{wrong:?}");
        }
    }
}

/// A record that just hangs together, and the words in which another just doesn't.
fn edges(table: &mut Table) {
    let small = |others| with(empty(2, 100), others);
    let large = |others| with(empty(2, 5_000), others);
    let both = small(&[(4, 1), (5, 8), (6, 1), (7, 8), (9, 1), (17, 2)]);
    let rows: [(Vec<u64>, &Others); 40] = [
        (empty(1, 0), &[(1, 0)]),
        (empty(1_024, 0), &[(1, 1_025)]),
        (empty(1, 8_388_608), &[(2, 8_388_609)]),
        (small(&[(3, 99)]), &[(3, 100)]),
        (empty(2, 1), &[(3, 1)]),
        (empty(2, 0), &[(3, 1)]),
        // pending bytes
        (small(&[(4, 1), (5, 60), (6, 1), (7, 40), (9, 1)]), &[(5, 61)]),
        (small(&[(4, 1), (5, 60), (6, 1), (7, 40), (9, 1)]), &[(7, 41)]),
        (small(&[(6, 1), (7, 100)]), &[(2, 99)]),
        // the region
        (small(&[(8, 2)]), &[(8, 3)]),
        (small(&[(9, 2)]), &[(9, 3)]),
        (small(&[(8, 1), (9, 1)]), &[(8, 2)]),
        (small(&[(8, 1), (9, 1)]), &[(1, 1)]),
        (large(&[(6, 1), (7, 4_056), (8, 1)]), &[(7, 4_057)]),
        (large(&[(6, 1), (7, 4_056), (9, 1)]), &[(7, 4_057)]),
        (large(&[(6, 1), (7, 4_056), (9, 1)]), &[(8, 1)]),
        (large(&[(4, 1), (5, 4_056), (9, 1)]), &[(5, 4_057)]),
        (large(&[(4, 1), (5, 16), (9, 1)]), &[(9, 0)]),
        // eight bytes for each entry, and none for none
        (small(&[(4, 2), (5, 16), (9, 1)]), &[(5, 15)]),
        (small(&[(4, 2), (5, 16), (9, 1)]), &[(4, 3)]),
        (small(&[(9, 1)]), &[(5, 8)]),
        (small(&[(9, 1)]), &[(4, 1)]),
        (small(&[(6, 2), (7, 16)]), &[(7, 15)]),
        (small(&[(6, 2), (7, 16)]), &[(6, 3)]),
        (small(&[]), &[(7, 8)]),
        (small(&[]), &[(6, 1)]),
        (small(&[(10, 5), (11, 16), (12, 2)]), &[(11, 15)]),
        (small(&[(10, 5), (11, 16), (12, 2)]), &[(12, 3)]),
        (small(&[(10, 5)]), &[(11, 8)]),
        (small(&[(10, 5)]), &[(12, 1)]),
        // front and back
        (small(&[(13, 1), (14, 2)]), &[(14, 3)]),
        (small(&[(13, 1), (14, 2)]), &[(13, 0)]),
        (small(&[(13, 1)]), &[(13, 2)]),
        (small(&[(15, 1), (16, 2)]), &[(16, 3)]),
        (small(&[(15, 1), (16, 2)]), &[(15, 0)]),
        (small(&[(15, 1)]), &[(15, 2)]),
        // as many clones as entries of both lists
        (both.clone(), &[(17, 3)]),
        (both.clone(), &[(4, 0), (5, 0)]),
        (both, &[(6, 0), (7, 0)]),
        (small(&[]), &[(17, 1)]),
    ];
    table.just_hang(&rows);
}

/// What is remembered is frozen, and there are no bytes and no blocks of no entries.
fn remembered(table: &mut Table) {
    let small = |others| with(empty(3, 100), others);
    let all = small(&[(4, 1), (5, 16), (9, 1), (18, 1), (19, 16), (20, 1)]);
    let two = small(&[(4, 2), (5, 16), (9, 2), (18, 2), (19, 16), (20, 2)]);
    let none = small(&[(4, 2), (5, 32), (9, 2)]);
    let rows: [(Vec<u64>, &Others); 13] = [
        (all.clone(), &[(18, 2)]),
        (all.clone(), &[(19, 17)]),
        (all.clone(), &[(20, 2)]),
        // the frozen ones are fewer
        (two.clone(), &[(4, 1)]),
        (all.clone(), &[(5, 15)]),
        (two, &[(9, 1)]),
        (all.clone(), &[(4, 0), (5, 0), (9, 0)]),
        // without entries
        (all.clone(), &[(18, 0)]),
        (all.clone(), &[(18, 0), (20, 0)]),
        (all, &[(18, 0), (19, 0)]),
        (none.clone(), &[(19, 1)]),
        (none.clone(), &[(20, 1)]),
        (none, &[(19, 32), (20, 2)]),
    ];
    table.just_hang(&rows);
}

/// The same counts with what is remembered in memory again.
fn after_a_thaw(table: &mut Table) {
    let small = |others| with(with(empty(3, 100), &[(9, 2), (18, 1), (20, 1)]), others);
    let large = |others| with(with(empty(3, 10_000), &[(9, 2), (18, 1), (20, 1)]), others);
    let full = large(&[(4, 1), (5, 4_072), (6, 1), (7, 4_048), (19, 4_072)]);
    let rows: [(Vec<u64>, &Others); 18] = [
        // eight bytes for each entry that stays frozen, and none for none
        (small(&[(4, 3), (5, 32), (19, 16)]), &[(19, 17)]),
        (small(&[(4, 3), (5, 32), (19, 16)]), &[(4, 4)]),
        (small(&[(4, 2), (5, 16), (19, 8)]), &[(19, 16)]),
        (small(&[(4, 1), (5, 16), (19, 16)]), &[(19, 15)]),
        (small(&[(4, 1), (5, 16), (19, 16)]), &[(5, 17)]),
        (small(&[(4, 2), (5, 24), (19, 16)]), &[(18, 2)]),
        // eight for each in memory, which may have some over
        (small(&[(4, 2), (5, 32), (19, 8)]), &[(19, 7)]),
        (small(&[(4, 3), (5, 32), (19, 8)]), &[(18, 2)]),
        (small(&[(4, 2), (5, 32), (6, 1), (7, 10), (19, 6)]), &[(19, 5)]),
        (small(&[(4, 2), (5, 32), (6, 1), (7, 10), (19, 6)]), &[(7, 9)]),
        // the blocks that stay frozen
        (large(&[(4, 2), (5, 4_072), (19, 16)]), &[(19, 15)]),
        (large(&[(4, 2), (5, 4_072), (19, 16)]), &[(5, 4_073)]),
        (large(&[(4, 2), (5, 4_072), (19, 16)]), &[(20, 2)]),
        // the region, where more is remembered than the blocks hold
        (full.clone(), &[(7, 4_049)]),
        (full.clone(), &[(5, 4_073), (19, 4_073)]),
        (full, &[(20, 0)]),
        (large(&[(1, 2), (4, 1), (5, 4_056), (19, 4_056)]), &[(5, 4_057), (19, 4_057)]),
        (large(&[(1, 2), (4, 1), (5, 4_056), (19, 4_056)]), &[(20, 0)]),
    ];
    table.just_hang(&rows);
}

/// More bytes are remembered than the remembered block holds. An append looks at the region as it is, so one
/// is taken that leaves no room for a thaw; then every call is refused.
fn no_room_for_a_thaw(table: &mut Table) {
    let lists = [(4, 1), (5, 4_072), (6, 1), (7, 4_040), (9, 2), (18, 1), (19, 4_072), (20, 1)];
    let mut words = with(empty(3, 10_000), &lists);
    for bytes in [4_048, 4_056] {
        assert!(!table.all_refuse(&words), "{words:?}");
        let lent = Lent { words, written: vec![7; 10_000], ..Lent::default() };
        words = table.accepted(&Case { call: AppendClone, lent }).words;
        assert_eq!(words[7], bytes);
    }
    assert!(table.all_refuse(&words), "{words:?}");
}

/// Numbers whose sums and products are small again in 64 bits, or which are small in 32.
fn large_numbers(table: &mut Table) {
    const MAX: u64 = u64::MAX;
    table.none_hang(&[
        &[(0, 0)],
        &[(0, (1 << 32) + 1)],
        &[(1, (1 << 32) + 2)],
        &[(2, (1 << 32) + 100)],
        &[(3, 1 << 32)],
        &[(4, 1), (5, MAX - 15), (6, 1), (7, 16), (9, 1)],
        &[(6, 1), (7, MAX - 7)],
        &[(6, 1 << 61), (7, 16)],
        &[(4, 1 << 61), (5, 16), (9, 1)],
        &[(11, 8), (12, 1 << 61)],
        &[(11, MAX), (12, MAX)],
        &[(8, MAX), (9, 1)],
        &[(8, 1 << 59)],
        &[(9, 1 << 59)],
        &[(8, 1 << 58), (9, 1 << 58)],
        &[(13, (1 << 32) + 1)],
        &[(13, 1), (14, 1 << 32)],
        &[(15, MAX)],
        &[(15, 1), (16, MAX)],
        &[(17, 1 << 32)],
        &[(17, MAX)],
        &[(4, MAX), (5, 16), (6, 2), (7, 16), (9, 1), (17, 1)],
    ]);
    // a replay of any length hangs together; only no buffer is as long
    for (place, bytes) in [(MAX, 8), (MAX - 7, 8), (8, MAX), (MAX, MAX), (1 << 63, 1 << 63)] {
        for case in all_calls(&with(empty(2, 100), &[(10, place), (11, bytes), (12, 1)])) {
            let wanted = [Top, Pop].contains(&case.call);
            assert_eq!(table.gives(&case) == 2, wanted, "{:?}, {place} and {bytes}", case.call);
        }
    }
}

/// The same of what is remembered.
fn large_remembered(table: &mut Table) {
    const MAX: u64 = u64::MAX;
    table.none_hang(&[
        &[(18, MAX), (19, MAX), (20, MAX)],
        &[(4, 1), (5, 16), (9, 1), (18, (1 << 32) + 1), (19, 16), (20, 1)],
        &[(4, 1), (5, 16), (9, 1), (18, 1), (19, (1 << 32) + 16), (20, 1)],
        &[(4, 1), (5, 16), (9, 1), (18, 1), (19, 16), (20, (1 << 32) + 1)],
        &[(4, 1), (5, 16), (9, 1), (18, 1 << 61), (19, 16), (20, 1)],
        &[(4, 1), (5, 16), (9, 1), (18, 1), (19, 16), (20, 1 << 59)],
        &[(4, 1), (5, 16), (6, MAX), (7, 8), (9, 1), (18, 1), (19, 16), (20, 1)],
        &[(4, 1), (5, 16), (6, 1), (7, MAX - 7), (9, 1), (18, 1), (19, 16), (20, 1)],
    ]);
}

/// Front, back and replay may be longer than recorded. What a call fills need not be as long.
fn lent_lengths(table: &mut Table) {
    let payload = writing::batch(&[weighing(16)], 0);
    let words = with(empty(1, 0), &[(13, 1), (14, 1), (15, 1)]);
    let long = |s: &[u8]| [s, &[0; 3]].concat();
    let lent = Lent {
        words: words.clone(),
        read: [long(&payload), long(&[])],
        written: vec![7; 16],
        answer: vec![],
    };
    let loaded = table.accepted(&Case { call: Load, lent });
    assert_eq!(loaded.words, with(empty(1, 0), &[(11, 16), (12, 1)]));
    let lent = Lent { read: [long(&loaded.written), vec![]], ..loaded };
    let popped = table.accepted(&Case { call: Pop, lent });
    assert_eq!(popped.words, with(empty(1, 0), &[(10, 16)]));
    for (call, at) in [(SetFront, 13), (SetBack, 15)] {
        let lent = Lent { words: words.clone(), ..Lent::default() };
        let set = table.accepted(&Case { call, lent });
        assert_eq!(set.words, with(words.clone(), &[(at, 1), (at + 1, 0)]));
    }
}
