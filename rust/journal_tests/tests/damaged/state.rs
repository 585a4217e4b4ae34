//! Random records that hang together, with the buffers that belong to them, and calls on them.
use journal_tests::call::{Call, Call::*, NUMBERLESS, QUERIES};
use journal_tests::memory::Lent;
use journal_tests::model::block::{BLOCK, PAYLOAD};
use journal_tests::model::entries::{self, clones};
use journal_tests::model::record::{hang_together, LAYOUT};
use journal_tests::model::writing::{self, Entry};
use journal_tests::random::Random;

/// Longer buffers are not lent: a record may well count more bytes than there is memory.
const LONGEST: u128 = 1 << 17;

#[derive(Clone)]
pub struct State {
    pub words: Vec<u64>,
    pub ring: Vec<u8>,
    pub front: Vec<u8>,
    pub back: Vec<u8>,
    pub replay: Vec<u8>,
    pub image: Vec<u8>,
}

/// Some entries, or none.
fn list(random: &mut Random) -> Vec<Entry> {
    match random.below(3) {
        0 => vec![],
        _ => writing::some(random),
    }
}

fn forms(list: &[Entry]) -> Vec<u8> {
    list.iter().flat_map(Entry::wire_form).collect()
}

/// The blocks that a batch of the list needs.
fn blocks(list: &[Entry]) -> usize {
    if list.is_empty() {
        0
    } else {
        (8 + forms(list).len()).div_ceil(PAYLOAD)
    }
}

/// The blocks of a region in which so many are pending, and those written: a few, or all others.
fn region(pending: usize, most: usize, random: &mut Random) -> (usize, usize) {
    let written = random.below(most + 1);
    let used = (written + pending).max(1);
    let n = random.one_of(&[used, used, used + 1, used + 4, 1_024]);
    let more = if n == 1_024 { random.one_of(&[0, n - used]) } else { 0 };
    (n, written + more)
}

/// A ring with these forms, from its start on; it may be longer.
fn ring(forms: &[u8], random: &mut Random) -> (Vec<u8>, usize) {
    let more = random.one_of(&[0, 1, 8, 100, 2_000, 17_000]);
    let mut ring = [forms, &random.bytes(more)].concat();
    let start = if ring.is_empty() { 0 } else { random.below(ring.len()) };
    ring.rotate_right(start);
    (ring, start)
}

/// So many batches at most, for which front and back of n blocks have room; and front's length of them.
fn range(batches: usize, n: usize, random: &mut Random) -> (Vec<u8>, usize) {
    let mut range = vec![];
    for _ in 0..random.below(batches + 1) {
        let batch = writing::batch(&list(random), random.below(2));
        if range.len() + batch.len() <= 2 * n * PAYLOAD {
            range.extend(batch);
        }
    }
    let all = range.len() / PAYLOAD;
    let least = all.saturating_sub(n);
    let front = least + random.below(all.min(n) - least + 1);
    (range, front * PAYLOAD)
}

impl State {
    /// Of what is frozen, some was before the last freeze that moved any. Where that moved none here, it
    /// is not remembered.
    pub fn new(random: &mut Random) -> Self {
        // the most of each thing: none, in one state of twelve
        let most = usize::from(random.below(12) > 0);
        let most_frozen = most.min(random.below(4));
        let [before, last, memory, left] = [most_frozen, most_frozen, most, most]
            .map(|most| (0..most).flat_map(|_| list(random)).collect::<Vec<_>>());
        let frozen = [&before[..], &last].concat();
        let held = blocks(&before) + blocks(&last) + random.one_of(&[0, 0, 0, most]);
        let (n, written) = region(held + blocks(&memory), 2 * most, random);
        let (ring, start) = ring(&[forms(&frozen), forms(&memory)].concat(), random);
        let place = random.one_of(&[0, 1, 100]);
        let behind = random.one_of(&[0, 0, 9]);
        let replay = [random.bytes(place), forms(&left), random.bytes(behind)].concat();
        let (range, split) = range(2 * most, n, random);
        let (front, back) = range.split_at(split);
        let mut side = |s: &[u8]| {
            let present = !s.is_empty() || random.below(3) < most;
            [usize::from(present), s.len() / PAYLOAD]
        };
        let [front_words, back_words] = [side(front), side(back)];

        let counts = |list: &[Entry]| [list.len(), forms(list).len()];
        let clones = clones(&frozen) + clones(&memory);
        let words = [
            &[LAYOUT as usize, n, ring.len(), start][..],
            &counts(&frozen),
            &counts(&memory),
            &[written, held, place, forms(&left).len(), left.len()],
            &front_words,
            &back_words,
            &[clones as usize],
            &counts(&last),
            &[blocks(&last)],
        ]
        .concat();
        let mut words: Vec<u64> = words.into_iter().map(|n| n as u64).collect();
        assert!(hang_together(&words), "{words:?}");
        words.extend((0..random.below(3)).map(|_| random.word()));
        let [front, back] = [front, back].map(<[u8]>::to_vec);
        State { words, ring, front, back, replay, image: writing::image(&range) }
    }

    /// The same without the blocks of what is remembered, in a region that just has room for a thaw. The
    /// ring has room for any entry.
    pub fn without_last_blocks(mut self) -> Self {
        let words = &mut self.words;
        let blocks = (words[7] + words[19] + 8).div_ceil(PAYLOAD as u64);
        words[1] = words[8] + words[9] + blocks;
        words[2] += 16_904;
        words[20] = 0;
        self.fit();
        self
    }

    /// Makes the buffers as long as the words say, where that is not too long.
    pub fn fit(&mut self) {
        let State { words, ring, front, back, replay, .. } = self;
        let [n, front_blocks, back_blocks] = [2, 14, 16].map(|at| u128::from(words[at]));
        let end = u128::from(words[10]) + u128::from(words[11]);
        let payload = PAYLOAD as u128;
        for (buffer, len) in [
            (ring, n),
            (front, payload * front_blocks),
            (back, payload * back_blocks),
            (replay, end),
        ] {
            if len <= LONGEST {
                buffer.resize(len as usize, 0);
            }
        }
    }

    /// A call with right arguments, or with some at and past its limits.
    pub fn call(&self, random: &mut Random) -> Call {
        let [n, r, written] = [1, 2, 8].map(|at| self.words.get(at).copied().unwrap_or(7));
        let len = |random: &mut Random| {
            let next = written.wrapping_add(1);
            random.one_of(&[0, 1, n, n.wrapping_add(1), written, next, u64::MAX])
        };
        match random.below(9 + NUMBERLESS.len()) {
            0 => {
                let n = random.one_of(&[0, 1, n, 1_024, 1_025, u64::MAX]);
                let r = random.one_of(&[0, 1, r, 8_388_608, 8_388_609, 1 << 32]);
                Open { n, r }
            }
            1 => SetWritten(len(random)),
            2 => UpdateWritten(len(random)),
            3..9 => random.one_of(&QUERIES),
            k => NUMBERLESS[k - 9],
        }
    }

    /// What this call is lent: buffers just as long as they have to be.
    pub fn lent(&self, call: Call, random: &mut Random) -> Lent {
        let words = self.words.clone();
        let [a, b, written] = match call {
            AppendInsert | AppendClone => {
                let [first, second] = self.entry(call == AppendClone, random);
                [first, second, self.ring.clone()]
            }
            PackageFrozen | PackageInMemory => {
                let blocks = match call {
                    PackageFrozen => self.word(9),
                    _ if self.word(6) == 0 => 0,
                    _ => (self.word(7) + 8).div_ceil(PAYLOAD as u128),
                };
                let out = vec![0xA5; BLOCK * blocks.min(20) as usize];
                [self.ring.clone(), vec![], out]
            }
            Strip => {
                let room = self.image.len() / BLOCK * PAYLOAD;
                [self.image.clone(), vec![], vec![0xA5; room]]
            }
            SetFront | SetBack => {
                let n = self.word(1);
                let blocks = random.one_of(&[0, 1, n, n + 1]).min(6);
                let payload = random.bytes(PAYLOAD * blocks as usize);
                let buffer = vec![0xA5; payload.len()];
                [payload, vec![], buffer]
            }
            Load => {
                let entries = entries::range(&[&self.front[..], &self.back].concat());
                let room = entries.map_or(PAYLOAD, |list| forms(&list).len());
                [self.front.clone(), self.back.clone(), vec![0xA5; room]]
            }
            Top | Pop => [self.replay.clone(), vec![], vec![]],
            _ => Default::default(),
        };
        let answer = match call {
            Top => vec![7; 5],
            _ if QUERIES.contains(&call) => vec![7],
            _ => vec![],
        };
        Lent { read: [a, b], written, words, answer }
    }

    fn word(&self, at: usize) -> u128 {
        self.words.get(at).copied().unwrap_or(0).into()
    }

    /// The bytes of an entry: some, or as many as just fit or just don't, or over a limit.
    fn entry(&self, is_clone: bool, random: &mut Random) -> [Vec<u8>; 2] {
        let limit = if is_clone { 512 } else { 16_384 };
        let payload = PAYLOAD as u128;
        let weight = if self.word(6) == 0 { 8 } else { self.word(7) + 8 };
        let used = payload * (self.word(8) + self.word(9)) + weight;
        let region = (payload * self.word(1)).saturating_sub(used);
        let ring = self.word(2).saturating_sub(self.word(5) + self.word(7));
        let thawed = (region + payload * self.word(20)).saturating_sub(self.word(19));
        let room = random.one_of(&[region, ring, thawed]) + random.below(2) as u128;
        let [first, second] = match random.below(6) {
            0 => [random.one_of(&[512, 513, 600]), 3],
            1 => [3, limit + random.below(2)],
            2 | 3 if (8..=8 + 512 + limit as u128).contains(&room) => {
                let bytes = room as usize - 8;
                let first = bytes.min(512);
                [first, bytes - first]
            }
            _ => [random.below(20), random.below(20)],
        };
        [first, second].map(|n| random.bytes(n))
    }
}
