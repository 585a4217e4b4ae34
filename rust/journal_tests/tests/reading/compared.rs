//! The calls, compared with the model; payloads and batches for them.
use journal_tests::memory::{Memory, BEFORE};
use journal_tests::model::block::{self, BLOCK, PAYLOAD};
use journal_tests::model::reading;
use journal_tests::model::writing::{self, Entry};
use journal_tests::random::Random;
use nungakes::calls;
use std::collections::BTreeMap;
use std::fmt::Display;

/// The answer, if `call` gives the model's and leaves the same in every byte of an `out` with this
/// room, nothing changed by a refusal, and the image as it was. (A wrong call may write there.)
pub fn same_strip(
    Memory { read: [lent, _], written, .. }: &mut Memory,
    image: &[u8],
    room: usize,
    call: impl Fn(&mut [u8], &mut [u8]) -> u64,
) -> Option<u64> {
    let before = vec![0xA5; BEFORE + room];
    let mut wanted = before.clone();
    let right = block::strip(image, &mut wanted[BEFORE..]);
    written.hold(&before);
    lent.hold(image);
    let answer = call(lent.bytes(), &mut written.bytes()[BEFORE..]);
    let same = answer == right && written.bytes() == wanted && lent.bytes() == image;
    let unchanged = written.bytes() == before;
    (same && (answer == 0 || unchanged)).then_some(answer)
}

/// As `same_strip`, for the range that front and back have where `joined` is split, and for `totals`
/// with this room.
pub fn same_range(
    Memory { read: [lent_front, lent_back], written, .. }: &mut Memory,
    joined: &[u8],
    split: usize,
    room: usize,
    call: impl Fn(&mut [u8], &mut [u8], &mut [u64]) -> u64,
) -> Option<u64> {
    let (front, back) = joined.split_at(split);
    let before = vec![0xA5A5_A5A5_A5A5_A5A5; BEFORE / 8 + room];
    let mut wanted = before.clone();
    let right = reading::range(front, back, &mut wanted[BEFORE / 8..]);
    written.hold(&vec![0xA5; 8 * before.len()]);
    lent_front.hold(front);
    lent_back.hold(back);
    let totals = &mut written.words()[BEFORE / 8..];
    let answer = call(lent_front.bytes(), lent_back.bytes(), totals);
    let same = answer == right
        && written.words() == wanted
        && lent_front.bytes() == front
        && lent_back.bytes() == back;
    let unchanged = written.words() == before;
    (same && (answer == 0 || unchanged)).then_some(answer)
}

/// The calls that were made and compared, by the number in their answer.
pub struct Tally {
    pub memory: Memory,
    pub answers: BTreeMap<u64, usize>,
}

impl Tally {
    pub fn new() -> Self {
        Tally { memory: Memory::default(), answers: BTreeMap::new() }
    }

    pub fn strip(&mut self, image: &[u8], room: usize, what: impl Display) -> u64 {
        let call = |image: &mut [u8], out: &mut [u8]| calls::strip(image, out);
        let answer = same_strip(&mut self.memory, image, room, call).unwrap_or_else(|| {
            panic!("{what}: an image of {} bytes, room for {room}", image.len())
        });
        *self.answers.entry(answer % 256).or_default() += 1;
        answer
    }

    pub fn range(&mut self, joined: &[u8], split: usize, room: usize, what: impl Display) -> u64 {
        let call = |front: &mut [u8], back: &mut [u8], totals: &mut [u64]| {
            calls::range(front, back, totals)
        };
        let same = same_range(&mut self.memory, joined, split, room, call);
        let answer = same.unwrap_or_else(|| {
            panic!("{what}: {} bytes split at {split}, room for {room}", joined.len())
        });
        *self.answers.entry(answer).or_default() += 1;
        answer
    }

    /// The range split at each block's end, and elsewhere; each split gives the same answer.
    pub fn splits(&mut self, joined: &[u8], what: impl Display) -> u64 {
        let elsewhere = [1, 5, 9, 11, PAYLOAD - 1, PAYLOAD + 2].map(|at| at.min(joined.len()));
        let answer = self.range(joined, joined.len(), 2, &what);
        for split in (0..=joined.len()).step_by(PAYLOAD).chain(elsewhere) {
            assert_eq!(self.range(joined, split, 2, &what), answer, "{what}: split at {split}");
        }
        answer
    }

    /// There were so many calls, and their answers were these.
    pub fn ends(self, answers: &[u64], at_least: usize) {
        assert!(self.answers.keys().eq(answers), "{:?} for {answers:?}", self.answers);
        assert!(self.answers.values().sum::<usize>() >= at_least, "{:?}", self.answers);
    }
}

/// None, one short of the least room, exactly that, one more, and many more.
pub fn rooms(least: usize) -> [usize; 5] {
    [0, least.saturating_sub(1), least, least + 1, least + BLOCK]
}

pub fn put(s: &mut [u8], at: usize, word: u32) {
    s[at..at + 4].copy_from_slice(&word.to_le_bytes());
}

pub fn header(entries: u32, blocks: u32) -> Vec<u8> {
    [entries, blocks].map(u32::to_le_bytes).concat()
}

/// A payload of so many blocks: `start` and zeros, or as much of `start` as has room.
pub fn payload(start: &[u8], blocks: usize) -> Vec<u8> {
    let mut s = start.to_vec();
    s.resize(PAYLOAD * blocks, 0);
    s
}

/// A batch of these entries, whether they need so many blocks or more.
pub fn batch_in(blocks: usize, entries: &[Entry]) -> Vec<u8> {
    let mut start = header(entries.len() as u32, blocks as u32);
    start.extend(entries.iter().flat_map(Entry::wire_form));
    payload(&start, blocks)
}

/// Entries of exactly this weight, some for each block; it is 0 or at least 8.
pub fn of_weight(weight: usize) -> Vec<Entry> {
    let n = weight.div_ceil(1_500);
    let entry = |i: usize| {
        let bytes = weight * (i + 1) / n - weight * i / n - 8;
        let first = bytes.min(512);
        Entry { is_clone: false, first: vec![0xFF; first], second: vec![0xFF; bytes - first] }
    };
    (0..n).map(entry).collect()
}

/// A random range, the places of its words, and its totals.
pub struct Written {
    pub joined: Vec<u8>,
    pub words: Vec<usize>,
    pub totals: [u64; 2],
}

pub fn written(random: &mut Random) -> Written {
    let mut range = Written { joined: vec![], words: vec![], totals: [0; 2] };
    for _ in 0..=random.below(3) {
        let most = random.one_of(&[3, 40, 1_024, 16_384]);
        let count = random.below(16);
        let entries: Vec<_> = (0..count).map(|_| Entry::random(random, most)).collect();
        let start = range.joined.len();
        range.words.extend([start, start + 4]);
        let mut at = start + 8;
        for entry in &entries {
            range.words.extend([at, at + 4 + entry.first.len()]);
            at += entry.weight();
        }
        range.totals[0] += count as u64;
        range.totals[1] += (at - start - 8) as u64;
        range.joined.extend(writing::batch(&entries, random.below(2)));
    }
    range
}

/// The range, unchanged, or with another word or bit, a block less or more, or its end cut off.
pub fn damaged(Written { mut joined, words, .. }: Written, random: &mut Random) -> Vec<u8> {
    const WORDS: [u32; 12] =
        [0, 1, 512, 513, 4_096, 4_608, 4_609, 16_384, 16_385, 1 << 27, 1 << 31, u32::MAX];
    let len = joined.len();
    let block = PAYLOAD * random.below(len / PAYLOAD);
    match random.below(8) {
        0 => {}
        1 | 2 => put(&mut joined, random.one_of(&words), random.one_of(&WORDS)),
        3 => joined[random.one_of(&words)] ^= 1 << random.below(8),
        4 => joined[random.below(len)] ^= 1 << random.below(8),
        5 => drop(joined.drain(block..block + PAYLOAD)),
        6 => joined.extend_from_within(block..block + PAYLOAD),
        _ => joined.truncate(random.below(len)),
    }
    joined
}
