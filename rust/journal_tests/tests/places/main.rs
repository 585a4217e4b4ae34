//! The calls on places in the region: document 01's cases 9 and 10, the model on every interval of
//! small regions and on random numbers, and blocks shared against sets of numbers.
mod sharing;

use journal_tests::guarded::Guarded;
use journal_tests::model::block::BLOCK;
use journal_tests::model::places::{self as model, interval, Interval, Words};
use journal_tests::random::Random;
use nungakes::calls;
use std::collections::BTreeMap;

/// Places as four numbers, of which a call uses the first one, the first two, or all.
type Places = [u64; 4];

struct Call {
    name: &'static str,
    words: usize,
    made: fn(u64, Places, &mut [u64]) -> u64,
    model: fn(u64, Places) -> Words,
}

const OF_BLOCK: Call = Call {
    name: "of block",
    words: 1,
    made: |n, [block, ..], answer| calls::place_of_block(n, block, answer),
    model: |n, [block, ..]| model::of_block(n, block),
};

const FRONT: Call = Call {
    name: "front",
    words: 3,
    made: |n, [start, len, ..], answer| calls::place_front(n, start, len, answer),
    model: |n, [start, len, ..]| model::front(n, interval(start, len)),
};

const BACK: Call = Call {
    name: "back",
    words: 3,
    made: |n, [start, len, ..], answer| calls::place_back(n, start, len, answer),
    model: |n, [start, len, ..]| model::back(n, interval(start, len)),
};

const NEXT_START: Call = Call {
    name: "next start",
    words: 1,
    made: |n, [start, len, ..], answer| calls::place_next_start(n, start, len, answer),
    model: |n, [start, len, ..]| model::next_start(n, interval(start, len)),
};

const CONTAINED: Call = Call {
    name: "contained",
    words: 1,
    made: |n, [a, k, b, l], answer| calls::place_contained(n, a, k, b, l, answer),
    model: |n, [a, k, b, l]| model::contained(n, interval(a, k), interval(b, l)),
};

const OVERLAP: Call = Call {
    name: "overlap",
    words: 1,
    made: |n, [a, k, b, l], answer| calls::place_overlap(n, a, k, b, l, answer),
    model: |n, [a, k, b, l]| model::overlap(n, interval(a, k), interval(b, l)),
};

const SHARES_BLOCK: Call = Call {
    name: "shares a block",
    words: 1,
    made: |n, [a, k, b, l], answer| calls::place_shares_block(n, a, k, b, l, answer),
    model: |n, [a, k, b, l]| model::shares_block(n, interval(a, k), interval(b, l)),
};

const LOCATION: Call = Call {
    name: "location",
    words: 2,
    made: |n, [start, len, ..], answer| calls::place_location(n, start, len, answer),
    model: |n, [start, len, ..]| model::location(n, interval(start, len)),
};

const INTERVAL: Call = Call {
    name: "interval",
    words: 2,
    made: |n, [addr, len, ..], answer| calls::place_interval(n, addr, len, answer),
    model: |n, [addr, len, ..]| model::of_location(n, addr, len),
};

const OF_ONE: [Call; 4] = [FRONT, BACK, NEXT_START, LOCATION];
const OF_TWO: [Call; 3] = [CONTAINED, OVERLAP, SHARES_BLOCK];
const ALL: [Call; 9] =
    [OF_BLOCK, FRONT, BACK, NEXT_START, CONTAINED, OVERLAP, SHARES_BLOCK, LOCATION, INTERVAL];

/// So many words before the lent ones are compared too. Behind them is the guard.
const BEFORE: usize = 2;
const UNTOUCHED: u64 = 0xA5A5_A5A5_A5A5_A5A5;

/// The answer's number, if `made` gives the model's and leaves the same in every word of an `answer`
/// with this room, nothing changed by a refusal.
fn same(
    lent: &mut Guarded,
    call: &Call,
    n: u64,
    places: Places,
    room: usize,
    made: impl Fn(u64, Places, &mut [u64]) -> u64,
) -> Option<u64> {
    let before = vec![UNTOUCHED; BEFORE + room];
    let mut wanted = before.clone();
    let right = model::put((call.model)(n, places), &mut wanted[BEFORE..]);
    lent.hold(&vec![0xA5; 8 * before.len()]);
    let number = made(n, places, &mut lent.words()[BEFORE..]);
    let same = number == right && lent.words() == wanted;
    let unchanged = lent.words() == before;
    (same && (number == 0 || unchanged)).then_some(number)
}

/// The calls that were made and compared, by the number in their answer.
struct Tally {
    lent: Guarded,
    answers: BTreeMap<u64, usize>,
}

impl Tally {
    fn new() -> Self {
        Tally { lent: Guarded::new(0), answers: BTreeMap::new() }
    }

    fn call(&mut self, call: &Call, n: u64, places: Places, room: usize) -> u64 {
        let number = same(&mut self.lent, call, n, places, room, call.made);
        let number = number
            .unwrap_or_else(|| panic!("{}: N = {n}, {places:?}, {room} words lent", call.name));
        *self.answers.entry(number).or_default() += 1;
        number
    }

    /// A word too few, as many as the answer has, and some more.
    fn rooms(&mut self, call: &Call, n: u64, places: Places) {
        for room in [call.words - 1, call.words, call.words + 2] {
            self.call(call, n, places, room);
        }
    }

    /// There were so many calls, and their answers were these.
    fn ends(self, answers: &[u64], at_least: usize) {
        assert!(self.answers.keys().eq(answers), "{:?} for {answers:?}", self.answers);
        assert!(self.answers.values().sum::<usize>() >= at_least, "{:?}", self.answers);
    }
}

/// The words of a call's answer, with one more lent that stays.
fn answer(call: Call, n: u64, places: Places) -> Vec<u64> {
    let mut lent = vec![7; call.words + 1];
    assert_eq!((call.made)(n, places, &mut lent), 0, "{}", call.name);
    assert_eq!(lent.pop(), Some(7));
    lent
}

#[test]
fn cases_9_and_10() {
    let wraps = [8, 5, 0, 0];
    assert_eq!(answer(FRONT, 10, wraps), [1, 8, 2]);
    assert_eq!(answer(BACK, 10, wraps), [1, 0, 3]);
    assert_eq!(answer(NEXT_START, 10, wraps), [3]);
    let ends = [8, 2, 0, 0];
    assert_eq!(answer(FRONT, 10, ends), [1, 8, 2]);
    assert_eq!(answer(BACK, 10, ends), [0, 0, 0]);
    assert_eq!(answer(NEXT_START, 10, ends), [0]);
    assert_eq!(answer(LOCATION, 10, ends), [40_960, 8_192]);
    assert_eq!(answer(INTERVAL, 10, [40_960, 8_192, 0, 0]), [8, 2]);
    assert_eq!(answer(OF_BLOCK, 10, ends), [40_960]);
}

/// "An empty interval strictly inside another overlaps it, save at block 0, where it never does."
/// Contained is of the first in the second.
#[test]
fn what_the_document_says_of_two() {
    assert_eq!(answer(OVERLAP, 10, [3, 0, 2, 2]), [1]);
    assert_eq!(answer(OVERLAP, 10, [2, 0, 2, 2]), [0]);
    assert_eq!(answer(OVERLAP, 10, [0, 0, 8, 5]), [0]);
    assert_eq!(answer(OVERLAP, 10, [1, 2, 3, 4]), [0]);
    assert_eq!(answer(OVERLAP, 10, [8, 5, 2, 1]), [1]);
    assert_eq!(answer(CONTAINED, 10, [1, 2, 8, 5]), [1]);
    assert_eq!(answer(CONTAINED, 10, [8, 5, 1, 2]), [0]);
    assert_eq!(answer(CONTAINED, 10, [1, 3, 8, 5]), [0]);
}

/// 1, then 16, then 9, each with nothing changed, where all of them or the last two apply.
#[test]
fn the_order_of_the_tests() {
    let unchanged = |call: &Call, n, places, room| {
        let mut lent = vec![7; room];
        let number = (call.made)(n, places, &mut lent);
        assert_eq!(lent, vec![7; room], "{}", call.name);
        number
    };
    for call in &ALL {
        let valid = if call.name == INTERVAL.name { [8_192, 4_096, 0, 0] } else { [0, 1, 0, 1] };
        let not_valid = [11, 11, 11, 11];
        for room in [0, call.words - 1, call.words] {
            for n in [0, 1_025, u64::MAX] {
                assert_eq!(unchanged(call, n, not_valid, room), 1, "{}", call.name);
                assert_eq!(unchanged(call, n, valid, room), 1, "{}", call.name);
            }
            assert_eq!(unchanged(call, 10, not_valid, room), 16, "{}", call.name);
        }
        for room in 0..call.words {
            assert_eq!(unchanged(call, 10, valid, room), 9, "{}", call.name);
        }
    }
    assert_eq!(unchanged(&FRONT, 10, [10, 0, 0, 0], 3), 16);
    assert_eq!(unchanged(&OF_BLOCK, 10, [11, 0, 0, 0], 1), 16);
}

/// Starts and lengths from none to past N, and every pair of them.
#[test]
fn every_interval_of_small_regions() {
    let mut tally = Tally::new();
    for n in 0..=6 {
        let all = || (0..=n + 1).flat_map(|start| (0..=n + 1).map(move |len| (start, len)));
        for (a, k) in all() {
            tally.rooms(&OF_BLOCK, n, [a, 0, 0, 0]);
            for call in &OF_ONE {
                tally.rooms(call, n, [a, k, 0, 0]);
            }
            for (b, l) in all() {
                for call in &OF_TWO {
                    tally.rooms(call, n, [a, k, b, l]);
                }
            }
        }
    }
    tally.ends(&[0, 1, 9, 16], 50_000);
}

/// Addresses and lengths at and around every block's and half block's, from byte 0 to past the region.
#[test]
fn every_location_of_small_regions() {
    let mut tally = Tally::new();
    for n in 0..=6 {
        let around =
            |i: u64| [0, 1, BLOCK as u64 / 2, BLOCK as u64 - 1].map(|by| i * BLOCK as u64 + by);
        let bytes = || (0..=n + 4).flat_map(around);
        for addr in bytes() {
            for len in bytes() {
                tally.rooms(&INTERVAL, n, [addr, len, 0, 0]);
            }
        }
    }
    tally.ends(&[0, 1, 9, 16], 10_000);
}

/// A number of 64 bits: any, a small one, or one near N, near a byte of the region, or near the largest.
fn number(random: &mut Random, n: u64) -> u64 {
    let near = random.below(5) as u64;
    let block = BLOCK as u64;
    let whole = block * (random.word() % (n % 2_048 + 4));
    match random.below(8) {
        0 => random.word(),
        1 => random.word() % 1_100,
        2 => n.wrapping_add(near).wrapping_sub(2),
        3 => whole,
        4 => whole.wrapping_add(near).wrapping_sub(2),
        5 => near.wrapping_sub(3),
        6 => (block * near).wrapping_sub(2 * block),
        _ => random.word() % n.max(1),
    }
}

#[test]
fn random_numbers() {
    let mut tally = Tally::new();
    let random = &mut Random(12);
    for _ in 0..100_000 {
        let n = match random.below(16) {
            0 => random.word(),
            1 => random.one_of(&[0, 1_025, u64::MAX]),
            2 | 3 => random.one_of(&[1, 2, 1_023, 1_024]),
            _ => 1 + random.word() % 1_024,
        };
        let places = [(); 4].map(|()| number(random, n));
        // these are valid where N is
        let inside = places.map(|place| place % n.clamp(1, 1_024));
        let bytes = [8_192 + 4_096 * inside[0], 4_096 * (inside[1] % (n.max(1) - inside[0])), 0, 0];
        for call in &ALL {
            let room = random.one_of(&[0, 1, 2, 3, 3, 3, 4]);
            tally.call(call, n, places, room);
            tally.call(call, n, inside, room);
        }
        tally.call(&INTERVAL, n, bytes, 2);
    }
    tally.ends(&[0, 1, 9, 16], 1_000_000);
}

/// The blocks of an interval, one by one.
fn blocks(Interval { start, len }: Interval, n: i128) -> Vec<i128> {
    (0..len).map(|i| (start + i) % n).collect()
}

/// The model itself, by the blocks of its intervals: the parts are all the blocks, next start is the
/// block behind them, two share a block where one is in both lists, and of two that have blocks, one
/// lies in the other where its blocks come in a row there, and they overlap where they share a block.
#[test]
fn the_model_says_what_the_blocks_say() {
    for n in 1..=6 {
        let all: Vec<_> = (0..n).flat_map(|i| (0..=n).map(move |k| interval(i, k))).collect();
        let n = n.into();
        for &a in &all {
            let own = blocks(a, n);
            let parts = [a.front(n), a.back(n)].into_iter().flatten();
            let listed = parts.flat_map(|part| part.start..part.start + part.len);
            assert!(listed.eq(own.iter().copied()), "{a:?} of {n}");
            assert_eq!(a.next_start(n), (a.start + a.len) % n);
            for &b in &all {
                let others = blocks(b, n);
                let shared = own.iter().any(|block| others.contains(block));
                assert_eq!(a.shares_block(b, n), shared, "{a:?} and {b:?} of {n}");
                if a.len > 0 && b.len > 0 {
                    let in_a_row = others.windows(own.len()).any(|row| row == own);
                    assert_eq!(a.is_in(b, n), in_a_row, "{a:?} in {b:?} of {n}");
                    assert_eq!(a.overlaps(b, n), shared, "{a:?} and {b:?} of {n}");
                }
            }
        }
    }
}

/// The comparison finds one wrong word: in the answer, behind it, and in what is refused. It finds a
/// wrong number.
#[test]
fn a_wrong_word_is_found() {
    let lent = &mut Guarded::new(0);
    for call in &ALL {
        let places = if call.name == INTERVAL.name { [8_192, 4_096, 0, 0] } else { [1, 2, 0, 3] };
        for n in [0, 1, 4] {
            for room in [call.words - 1, call.words, call.words + 2] {
                assert!(same(lent, call, n, places, room, call.made).is_some(), "{}", call.name);
                for at in 0..room {
                    let wrong = |n, places, answer: &mut [u64]| {
                        let number = (call.made)(n, places, answer);
                        answer[at] ^= 1;
                        number
                    };
                    assert_eq!(same(lent, call, n, places, room, wrong), None, "word {at}");
                }
                let wrong = |n, places, answer: &mut [u64]| (call.made)(n, places, answer) + 1;
                assert_eq!(same(lent, call, n, places, room, wrong), None, "the number");
            }
        }
    }
}
