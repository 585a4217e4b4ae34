//! Blocks shared (document 02, paper 6): against sets of block numbers, beside overlap, and at the
//! edges of 1,024 and of 64 bits.
use super::{answer, Places, OVERLAP, SHARES_BLOCK};
use std::collections::BTreeSet;

/// The block numbers below N of an interval.
fn numbers((start, len): (u64, u64), n: u64) -> BTreeSet<u64> {
    (start..start + len).map(|block| block % n).collect()
}

/// Pairs that share a block, pairs that do not, and among these the clashes: they overlap. How many
/// of each a test must see was counted in Python.
#[derive(Debug, Default, PartialEq)]
struct Pairs {
    shared: usize,
    apart: usize,
    clashes: usize,
}

impl Pairs {
    /// Of every pair of these intervals the call says what the sets of their blocks say, and overlap
    /// the same where both have blocks.
    fn compare(&mut self, n: u64, intervals: &[(u64, u64)]) {
        let all: Vec<_> = intervals.iter().map(|&i| (i, numbers(i, n))).collect();
        for ((a, of_a), (b, of_b)) in all.iter().flat_map(|x| all.iter().map(move |y| (x, y))) {
            let places = [a.0, a.1, b.0, b.1];
            let shared = !of_a.is_disjoint(of_b);
            assert_eq!(answer(SHARES_BLOCK, n, places), [shared.into()], "{places:?} of {n}");
            let overlap = answer(OVERLAP, n, places) == [1];
            if a.1 > 0 && b.1 > 0 {
                assert_eq!(overlap, shared, "{places:?} of {n}");
            }
            self.shared += usize::from(shared);
            self.apart += usize::from(!shared);
            self.clashes += usize::from(overlap && !shared);
        }
    }
}

fn intervals(starts: &[u64], lens: &[u64]) -> Vec<(u64, u64)> {
    starts.iter().flat_map(|&start| lens.iter().map(move |&len| (start, len))).collect()
}

#[test]
fn every_pair_of_small_regions() {
    let mut pairs = Pairs::default();
    for n in 1..=9 {
        let [starts, lens] = [n - 1, n].map(|last| (0..=last).collect::<Vec<_>>());
        pairs.compare(n, &intervals(&starts, &lens));
    }
    assert_eq!(pairs, Pairs { shared: 12_825, apart: 6_843, clashes: 1_500 });
}

#[test]
fn the_largest_region() {
    let mut pairs = Pairs::default();
    let starts = [0, 1, 2, 511, 512, 513, 1_022, 1_023];
    let lens = [0, 1, 2, 3, 511, 512, 513, 1_022, 1_023, 1_024];
    pairs.compare(1_024, &intervals(&starts, &lens));
    assert_eq!(pairs, Pairs { shared: 4_214, apart: 2_186, clashes: 426 });
}

/// The map screen's clash: an empty interval inside another overlaps it and shares nothing with it.
#[test]
fn an_empty_interval_is_no_clash() {
    for places in [[4, 0, 2, 4], [2, 4, 4, 0], [9, 0, 8, 5], [1, 0, 8, 5]] {
        assert_eq!(answer(OVERLAP, 10, places), [1], "{places:?}");
        assert_eq!(answer(SHARES_BLOCK, 10, places), [0], "{places:?}");
    }
    for places in [[4, 1, 2, 4], [2, 4, 4, 1], [9, 1, 8, 5], [1, 1, 8, 5], [0, 1, 8, 5]] {
        assert_eq!(answer(SHARES_BLOCK, 10, places), [1], "{places:?}");
    }
}

/// Numbers past the region up to the largest, in each place by itself, the others valid: 16; and 1
/// where N is such a number, whatever the rest. Some would be valid in fewer bits, or as a sum that
/// wraps.
#[test]
fn at_the_edges_of_64_bits() {
    let refused = |n: u64, places: Places, number: u64| {
        let mut lent = [7; 2];
        assert_eq!((SHARES_BLOCK.made)(n, places, &mut lent), number, "{places:?} of {n}");
        assert_eq!(lent, [7; 2]);
    };
    for n in [1, 10, 1_023, 1_024_u64] {
        let past = [n + 1, n + 2, (1 << 16) + n, 1 << 32, (1 << 32) + n, 1 << 63, !n, !n + 1, !0];
        for far in past {
            for at in 0..4 {
                let mut places = [n - 1, n, n / 2, n];
                places[at] = far;
                refused(n, places, 16);
            }
            if far > 1_024 {
                refused(far, [0, 1, 0, 1], 1);
                refused(far, [far; 4], 1);
            }
        }
        refused(n, [n, 0, 0, 1], 16);
        refused(n, [0, 1, n, 0], 16);
        refused(0, [0; 4], 1);
    }
}
