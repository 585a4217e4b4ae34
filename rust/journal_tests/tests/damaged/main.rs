//! Every call, of the library and of the plain Rust implementation, against the model, on records and in
//! buffers that are damaged in every way: the answer, every word and every byte that is lent.
//! `JOURNAL_TESTS_TIMES` makes the runs longer.
mod state;

use journal_tests::call::{compared, Call, Call::*, NUMBERLESS, QUERIES};
use journal_tests::memory::{Lent, Memory, Slices};
use journal_tests::model::record::{conditions, hang_together, WORDS};
use journal_tests::random::{times, Random};
use state::State;
use std::collections::{BTreeMap, BTreeSet};

/// The answers that were compared, and how often a record's condition decided alone: where it held
/// exactly, and where it failed by one.
#[derive(Default)]
struct Tally {
    memory: Memory,
    answers: BTreeMap<String, BTreeMap<u64, usize>>,
    edges: BTreeMap<&'static str, [usize; 2]>,
}

impl Tally {
    fn compare(&mut self, call: Call, lent: &Lent) {
        let code = compared(&mut self.memory, call, lent, &[&Call::of_library, &Call::of_plain])
            .unwrap_or_else(|e| panic!("{e}"));
        *self.answers.entry(call.name()).or_default().entry(code % 256).or_default() += 1;
        let conditions = conditions(&lent.words).unwrap_or_default();
        let fail = conditions.iter().filter(|(_, a, b)| a > b).count();
        for (name, a, b) in conditions {
            if fail == 0 && a == b {
                self.edges.entry(name).or_default()[0] += 1;
            } else if fail == 1 && a == b + 1 {
                self.edges.entry(name).or_default()[1] += 1;
            }
        }
    }

    /// There were so many calls, and each call gave each of its numbers.
    fn ends(&self, at_least: usize) {
        let calls: usize = self.answers.values().flat_map(BTreeMap::values).sum();
        println!("{calls} calls: {:?}; {:?}", self.answers, self.edges);
        assert!(calls >= at_least, "{calls} calls");
        assert_eq!(self.answers.len(), 22);
        for call in changing().chain(QUERIES) {
            let mut row: BTreeSet<u64> = call.numbers().iter().copied().collect();
            row.insert(0);
            let seen = &self.answers[&call.name()];
            assert!(row.iter().eq(seen.keys()), "{call:?}: {seen:?}");
        }
    }

    /// Each condition decided alone, either way. (Two follow from that on the region, and a thaw never
    /// leaves memory empty.)
    fn edges(&self) {
        let mut states = (0..).map(|seed| State::new(&mut Random(seed)));
        let remembers = states.find(|state| state.words[18] > 0).unwrap();
        let follow = ["written", "held", "none in memory, thawed"];
        for (name, ..) in conditions(&remembers.words).unwrap() {
            let [held, failed] = self.edges.get(name).copied().unwrap_or_default();
            let both = held > 0 && failed > 0;
            assert!(both || follow.contains(&name), "{name}: {held} and {failed}");
        }
    }
}

/// Each call that is no query, with a number that is mostly right.
fn changing() -> impl Iterator<Item = Call> {
    [Open { n: 3, r: 50 }, SetWritten(1), UpdateWritten(1)].into_iter().chain(NUMBERLESS)
}

/// What a word is damaged to, whichever it is: the document's limits, and numbers that are small in 32
/// bits or whose products are small in 64.
fn values(words: &[u64]) -> [u64; 11] {
    let [n, r] = [words[1], words[2]];
    let [a, b, c, d] = [32, 59, 61, 63].map(|bit| 1 << bit);
    [0, 1, n, n.wrapping_add(1), r, r.wrapping_add(1), a, b, c, d, u64::MAX]
}

/// For the word at a place, each number with which a condition of the record just holds, and those beside
/// it: one more of the word brings the condition's two sides so much closer, and so do others.
fn near(words: &[u64], at: usize) -> Vec<u64> {
    let gaps = |words: &[u64]| {
        let all = conditions(words).unwrap_or_default().into_iter();
        all.map(|(name, a, b)| (name, b as i128 - a as i128)).collect::<BTreeMap<_, _>>()
    };
    let mut more = words.to_vec();
    more[at] = more[at].wrapping_add(1);
    let more = gaps(&more);
    let edge = |(name, gap): (&str, i128)| {
        let closer = gap - more.get(name)?;
        (closer != 0).then(|| (i128::from(words[at]) + gap / closer) as u64)
    };
    let edges = gaps(words).into_iter().filter_map(edge);
    edges.flat_map(|edge| [edge.wrapping_sub(1), edge, edge.wrapping_add(1)]).collect()
}

/// Each word of a record, damaged to each value, for each call; and two words at once.
#[test]
fn every_word() {
    let mut tally = Tally::default();
    let random = &mut Random(1);
    for _ in 0..150 * times() {
        let whole = State::new(random);
        let mut compare = |mut state: State, random: &mut Random| {
            if random.below(4) > 0 {
                state.fit();
            }
            for call in changing().chain([random.one_of(&QUERIES)]) {
                tally.compare(call, &state.lent(call, random));
            }
        };
        for at in 0..WORDS {
            let own = whole.words[at];
            let mut all = values(&whole.words).to_vec();
            all.extend([own.wrapping_add(1), own.wrapping_sub(1)]);
            all.extend(near(&whole.words, at));
            for value in all {
                let mut state = whole.clone();
                state.words[at] = value;
                compare(state, random);
            }
        }
        for _ in 0..40 {
            let mut state = whole.clone();
            for _ in 0..2 {
                let at = random.below(WORDS);
                let all = [&values(&state.words)[..], &near(&state.words, at)].concat();
                state.words[at] = random.one_of(&all);
            }
            compare(state, random);
        }
    }
    tally.edges();
}

/// On a damaged record, more bytes may be remembered than the remembered blocks hold. An append is taken
/// even so, and may leave no room for a thaw: then the next call is refused.
#[test]
fn no_room_for_a_thaw() {
    let mut tally = Tally::default();
    let random = &mut Random(5);
    let mut overfull = 0;
    for _ in 0..2_000 * times() {
        let state = State::new(random).without_last_blocks();
        for call in [AppendInsert, AppendClone] {
            tally.compare(call, &state.lent(call, random));
            let words = tally.memory.lent().words;
            if hang_together(&state.words) && !hang_together(&words) {
                overfull += 1;
                let state = State { words, ..state.clone() };
                for call in changing().chain(QUERIES) {
                    tally.compare(call, &state.lent(call, random));
                }
            }
        }
    }
    assert!(overfull > 50, "{overfull}");
    assert_eq!(tally.answers["Thaw"].keys().collect::<Vec<_>>(), [&2]);
}

/// Words of a wire form and of a batch, at and past their limits.
const LENGTHS: [u32; 13] =
    [0, 1, 2, 7, 512, 513, 4_064, 4_096, 4_608, 4_609, 16_384, 16_385, u32::MAX];

/// Changes a bit of some bytes, or a word at a place.
fn spoil(s: &mut [u8], place: usize, random: &mut Random) {
    if s.is_empty() {
        return;
    }
    let len = s.len();
    match random.below(3) {
        0 => s[place % len] ^= 1 << random.below(8),
        1 => s[random.below(len)] ^= 1 << random.below(8),
        _ => {
            for (i, byte) in random.one_of(&LENGTHS).to_le_bytes().into_iter().enumerate() {
                s[(place + i) % len] = byte;
            }
        }
    }
}

/// The record's words, its counts, or the bytes of a buffer, most often of one that the call reads.
fn damage(state: &mut State, call: Call, random: &mut Random) {
    let read = match call {
        PackageFrozen | PackageInMemory => Some(3),
        Load => Some(4 + random.below(2)),
        Top | Pop => Some(6),
        Strip => Some(7),
        _ => None,
    };
    let at = random.below(WORDS);
    let value = random.one_of(&values(&state.words));
    let near = near(&state.words, at);
    let State { words, ring, front, back, replay, image } = state;
    match read.filter(|_| random.below(2) == 0).unwrap_or(random.below(8)) {
        1 if !near.is_empty() => words[at] = random.one_of(&near),
        0 | 1 => words[at] = value,
        2 => {
            let at = random.one_of(&[3, 4, 5, 6, 7, 9, 10, 11, 12, 17, 18, 19, 20]);
            words[at] = words[at].wrapping_add(random.one_of(&[1, 8, u64::MAX, u64::MAX - 7]));
        }
        3 => {
            // one of the lists, or of its entries, starts there
            let before = random.one_of(&[0, words[5], words[5].wrapping_add(words[7]) / 2]);
            let place = words[3].wrapping_add(before) as usize % (1 << 32);
            if random.below(3) == 0 && !ring.is_empty() {
                let kind = (place + 1) % ring.len();
                ring[kind] ^= 0x10;
            } else {
                spoil(ring, place, random);
            }
        }
        4 => spoil(front, random.one_of(&[0, 4, 8, 12]), random),
        5 => spoil(back, random.one_of(&[0, 4, 8, 12]), random),
        6 => spoil(replay, words[10] as usize % (1 << 32), random),
        _ => spoil(image, 0, random),
    }
}

/// A buffer that is lent, in some other length. There are five.
fn lengthen(lent: &mut Lent, buffer: usize, change: usize) {
    fn other<T: From<u8>>(s: &mut Vec<T>, change: usize) {
        match change {
            0 => drop(s.pop()),
            1 => s.push(T::from(0xA5)),
            _ => s.clear(),
        }
    }
    let Lent { read: [a, b], written, words, answer } = lent;
    match buffer {
        0 => other(a, change),
        1 => other(b, change),
        2 => other(written, change),
        3 => other(answer, change),
        _ if change == 0 => words.truncate(WORDS - 1),
        _ => other(words, change),
    }
}

/// Each buffer of each call a byte or word short, longer, and empty.
#[test]
fn every_length() {
    let mut tally = Tally::default();
    let random = &mut Random(2);
    for _ in 0..300 * times() {
        let state = State::new(random);
        for call in changing().chain(QUERIES) {
            let whole = state.lent(call, random);
            tally.compare(call, &whole);
            for buffer in 0..5 {
                for change in 0..3 {
                    let mut lent = whole.clone();
                    lengthen(&mut lent, buffer, change);
                    tally.compare(call, &lent);
                }
            }
        }
    }
}

/// Some damage, or none, or more than one kind; and now and then a buffer of another length.
#[test]
fn in_many_ways() {
    let mut tally = Tally::default();
    let random = &mut Random(3);
    for _ in 0..20_000 * times() {
        let whole = State::new(random);
        for _ in 0..20 {
            let call = whole.call(random);
            let mut state = whole.clone();
            for _ in 0..random.one_of(&[0, 1, 1, 2, 3]) {
                damage(&mut state, call, random);
            }
            if random.below(3) > 0 {
                state.fit();
            }
            let mut lent = state.lent(call, random);
            if random.below(4) == 0 {
                lengthen(&mut lent, random.below(5), random.below(3));
            }
            tally.compare(call, &lent);
        }
    }
    tally.ends(400_000 * times());
}

/// The comparison finds one wrong byte in anything that is lent, and a wrong answer.
#[test]
fn a_wrong_byte_is_found() {
    let memory = &mut Memory::default();
    let random = &mut Random(4);
    for _ in 0..20 {
        let state = State::new(random);
        for call in changing().chain(QUERIES) {
            let lent = state.lent(call, random);
            let wrong = |call: Call, lent: Slices| call.of_library(lent) ^ 1;
            assert!(compared(memory, call, &lent, &[&wrong]).is_err(), "{call:?}: the answer");
            let Lent { read: [a, b], written, words, answer } = &lent;
            let lens = [a.len(), b.len(), written.len(), 8 * words.len(), 8 * answer.len()];
            for (buffer, len) in lens.into_iter().enumerate().filter(|(_, len)| *len > 0) {
                for at in [0, len - 1, random.below(len), random.below(len)] {
                    let wrong = |call: Call, mut lent: Slices| {
                        let code = call.of_library(lent.reborrow());
                        let Slices { read: [a, b], written, words, answer } = lent;
                        match buffer {
                            0 => a[at] ^= 1,
                            1 => b[at] ^= 1,
                            2 => written[at] ^= 1,
                            3 => words[at / 8] ^= 1 << (at % 8 * 8),
                            _ => answer[at / 8] ^= 1 << (at % 8 * 8),
                        }
                        code
                    };
                    let found = compared(memory, call, &lent, &[&wrong]).is_err();
                    assert!(found, "{call:?}: byte {at} of buffer {buffer}");
                }
            }
        }
    }
}
