//! A history: a journal, what is lent to it, and the plain lists. Every call's answer and what it
//! leaves are checked.
use crate::lists::{bytes, forms, weight, Fed, Lists};
use journal_tests::model::block::{BLOCK, PAYLOAD};
use journal_tests::model::entries::{self, clones};
use journal_tests::model::record::LAYOUT;
use journal_tests::model::writing::Entry;
use journal_tests::random::Random;
use nungakes::{strip, Journal, Kind, Refusal};
use std::borrow::Cow;
use std::collections::{BTreeMap, VecDeque};
use std::mem::take;

/// A ring of so many bytes is looked through after every call; a longer one at some.
const LITTLE: usize = 100_000;

/// How often each call gave each number.
pub type Seen = BTreeMap<(&'static str, u8), usize>;

pub struct History {
    pub n: u64,
    pub r: u64,
    pub lists: Lists,
    pub seen: Seen,
    journal: Journal,
    ring: Vec<u8>,
    /// Where the pending forms start in the ring.
    start: u64,
    /// What the ring has to be: only accepted appends change it.
    shadow: Vec<u8>,
    /// The wire forms of frozen, then of memory.
    pending: Vec<u8>,
    /// The entries given to accepted appends.
    accepted: Vec<Entry>,
    images: Vec<Vec<u8>>,
    pub front: Option<Vec<u8>>,
    pub back: Option<Vec<u8>>,
    /// The replay buffer, the place in it, and the entries left.
    replay: Vec<u8>,
    place: usize,
    pub left: VecDeque<Entry>,
}

fn first_of(tests: &[(u8, bool)]) -> u8 {
    tests.iter().find(|(_, holds)| *holds).map_or(0, |(number, _)| *number)
}

impl History {
    pub fn open(n: u64, r: u64, random: &mut Random) -> Self {
        let ring = random.bytes(r as usize);
        History {
            n,
            r,
            lists: Lists::default(),
            seen: Seen::new(),
            journal: Journal::open(n as usize, r as usize).unwrap(),
            start: 0,
            shadow: ring.clone(),
            ring,
            pending: vec![],
            accepted: vec![],
            images: vec![],
            front: None,
            back: None,
            replay: vec![],
            place: 0,
            left: VecDeque::new(),
        }
    }

    pub fn calls(&self) -> usize {
        self.seen.values().sum()
    }

    /// The blocks and bytes that pending entries leave to another.
    pub fn room(&self) -> [u64; 2] {
        let Lists { frozen, memory, held, written, .. } = &self.lists;
        let weight = if memory.is_empty() { 8 } else { weight(memory) };
        let region = PAYLOAD as u64 * (self.n - written - held);
        [region.saturating_sub(weight), self.r - bytes(frozen) - bytes(memory)]
    }

    /// Notes an answer, which is the wanted one, and feeds the call to the lists.
    fn answered<T>(
        &mut self,
        name: &'static str,
        answer: &Result<T, Refusal>,
        wanted: u8,
        fed: Fed,
    ) {
        let number = answer.as_ref().err().map_or(0, |refusal| refusal.number());
        let [n, r] = [self.n, self.r];
        assert_eq!(number, wanted, "{name}, N = {n}, R = {r}, after {} calls", self.calls());
        *self.seen.entry((name, number)).or_default() += 1;
        self.lists.feed(fed, number != 0);
    }

    /// Noted by whether the second bytes are longer than two blocks' payload.
    pub fn append(&mut self, entry: Entry, ring_as_long: bool) -> bool {
        let Entry { is_clone, first, second } = &entry;
        let name = if second.len() > 2 * PAYLOAD { "append of long ones" } else { "append" };
        let weight = entry.weight() as u64;
        let [region, room] = self.room();
        let wanted = first_of(&[
            (2, !ring_as_long),
            (3, first.len() > 512),
            (4, second.len() > if *is_clone { 512 } else { 16_384 }),
            (22, !is_clone && first.is_empty()),
            (5, weight > region),
            (6, weight > room),
        ]);
        let mut longer = if ring_as_long { vec![] } else { vec![0xA5; self.r as usize + 1] };
        let ring = if ring_as_long { &mut self.ring } else { &mut longer };
        let answer = if *is_clone {
            self.journal.append_clone(ring, first, second)
        } else {
            self.journal.append_insert(ring, first, second)
        };
        assert!(longer.iter().all(|byte| *byte == 0xA5), "a refused append");
        if wanted == 0 {
            let place = (self.start + self.r - room) as usize;
            let form = entry.wire_form();
            for (i, byte) in form.iter().enumerate() {
                self.shadow[(place + i) % self.r as usize] = *byte;
            }
            self.pending.extend(form);
            self.accepted.push(entry.clone());
        }
        self.answered(name, &answer, wanted, Fed::Append(entry));
        self.check();
        wanted == 0
    }

    pub fn freeze(&mut self) {
        let name = if self.lists.memory.is_empty() { "freeze of nothing" } else { "freeze" };
        let answer = self.journal.freeze();
        self.answered(name, &answer, 0, Fed::Freeze);
        self.check();
    }

    /// Noted by whether others stay frozen, and whether there were appends since.
    pub fn thaw(&mut self) {
        let Lists { frozen, memory, last, .. } = &self.lists;
        let name = match (frozen.len() > last.len(), !memory.is_empty()) {
            (false, false) => "thaw",
            (false, true) => "thaw before appends",
            (true, false) => "thaw behind others",
            (true, true) => "thaw between",
        };
        let wanted = first_of(&[(17, last.is_empty())]);
        let answer = self.journal.thaw();
        self.answered(name, &answer, wanted, Fed::Thaw);
        self.check();
    }

    /// The ring is lent as it is, a byte longer, or with the first length or the kind of one pending entry
    /// changed. `out` has some bytes more or less than the image.
    pub fn package(&mut self, frozen: bool, ring: usize, more: isize, random: &mut Random) {
        let Lists { frozen: first, memory: second, held, .. } = &self.lists;
        let mut lent = self.ring.clone();
        let entries = first.len() + second.len();
        let damaged = [2, 3].contains(&ring) && entries > 0;
        if damaged {
            let before = first.iter().chain(second).take(random.below(entries));
            let place = before.map(Entry::weight).sum::<usize>() + self.start as usize;
            let kind = &mut lent[(place + 1) % self.r as usize];
            *kind = if ring == 2 { 0xFF } else { *kind ^ 0x10 };
        } else if ring == 1 {
            lent.push(0);
        }
        let blocks = if frozen { *held } else { self.lists.blocks() } as usize;
        let room = (BLOCK * blocks).saturating_add_signed(more);
        let wanted = first_of(&[
            (2, ring == 1),
            (7, !frozen && !first.is_empty()),
            (8, if frozen { first } else { second }.is_empty()),
            (15, damaged),
            (9, room < BLOCK * blocks),
        ]);
        let before = random.bytes(room);
        let mut out = before.clone();
        let (name, fed, answer) = if frozen {
            let answer = self.journal.package_frozen(&lent, &mut out);
            ("package frozen", Fed::PackageFrozen, answer)
        } else {
            let answer = self.journal.package_in_memory(&lent, &mut out);
            ("package in memory", Fed::PackageInMemory, answer)
        };
        let written = answer.unwrap_or(0);
        assert!(out[BLOCK * written..] == before[BLOCK * written..], "{name}: more is written");
        if wanted == 0 {
            assert_eq!(written, blocks, "{name}");
            out.truncate(BLOCK * blocks);
            self.images.push(out);
            let packaged = bytes(if frozen { first } else { second });
            self.pending.drain(..packaged as usize);
            self.start = if frozen { (self.start + packaged) % self.r } else { 0 };
        }
        self.answered(name, &answer, wanted, fed);
        self.check();
    }

    pub fn set_written(&mut self, len: u64) {
        let Lists { frozen, memory, .. } = &self.lists;
        let pending = !frozen.is_empty() || !memory.is_empty();
        let wanted = first_of(&[(7, pending), (10, len > self.n)]);
        let answer = self.journal.set_written(len as usize);
        self.answered("set written", &answer, wanted, Fed::SetWritten(len));
        self.check();
    }

    pub fn update_written(&mut self, len: u64) {
        let wanted = first_of(&[(10, len > self.lists.written)]);
        let answer = self.journal.update_written(len as usize);
        self.answered("update written", &answer, wanted, Fed::UpdateWritten(len));
        self.check();
    }

    /// The buffer has some bytes more or less than the payload.
    pub fn set_side(&mut self, front: bool, payload: &[u8], more: isize) {
        let whole = payload.len().is_multiple_of(PAYLOAD);
        let many = payload.len() / PAYLOAD > self.n as usize;
        let room = payload.len().saturating_add_signed(more);
        let wanted = first_of(&[(13, !whole || many), (9, room < payload.len())]);
        let mut buffer = vec![0xA5; room];
        let (name, answer) = if front {
            ("set front", self.journal.set_front(payload, &mut buffer))
        } else {
            ("set back", self.journal.set_back(payload, &mut buffer))
        };
        let copied = if wanted == 0 { payload } else { &[] };
        let rest = &buffer[copied.len()..];
        assert!(buffer.starts_with(copied) && rest.iter().all(|byte| *byte == 0xA5), "{name}");
        if wanted == 0 {
            let side = if front { &mut self.front } else { &mut self.back };
            *side = Some(payload.into());
        }
        self.answered(name, &answer, wanted, Fed::Other);
        self.check();
    }

    /// Front and back are lent whole or, where they have any, a byte short, and a replay buffer with
    /// some bytes more or less than needed.
    pub fn load(&mut self, whole: bool, more: isize) {
        let [mut front, mut back] =
            [&self.front, &self.back].map(|side| side.clone().unwrap_or_default());
        let short = !whole && (front.pop().is_some() || back.pop().is_some());
        let list = entries::range(&[&front[..], &back].concat());
        let forms = forms(list.as_deref().unwrap_or_default());
        let room = forms.len().saturating_add_signed(more);
        let wanted = first_of(&[(2, short), (14, list.is_none()), (9, room < forms.len())]);
        let mut replay = vec![0xA5; room];
        let answer = self.journal.load(&front, &back, &mut replay);
        let copied = if wanted == 0 { &forms[..] } else { &[] };
        let rest = &replay[copied.len()..];
        assert!(replay.starts_with(copied) && rest.iter().all(|byte| *byte == 0xA5), "load");
        if wanted == 0 {
            (self.replay, self.place, self.left) = (replay, 0, list.unwrap().into());
            (self.front, self.back) = (None, None);
        }
        self.answered("load", &answer, wanted, Fed::Other);
        self.check();
    }

    /// The next entry of the replay, which is then passed. The buffer is lent whole, a byte short or
    /// with a first length changed.
    pub fn pop(&mut self, lent: usize) -> Option<Entry> {
        let whole = take(&mut self.replay);
        let mut replay = Cow::Borrowed(&whole);
        let end = self.journal.words()[10..12].iter().sum::<u64>() as usize;
        let damaged = lent == 2 && !self.left.is_empty();
        if damaged {
            replay.to_mut()[self.place + 1] = 0xFF;
        } else if lent == 1 {
            replay.to_mut().truncate(end.saturating_sub(1));
        }
        let short = replay.len() < end;
        let wanted = first_of(&[(2, short), (8, self.left.is_empty()), (14, damaged)]);
        let top = self.journal.top(&replay);
        self.answered("top", &top, wanted, Fed::Other);
        self.check();
        let answer = self.journal.pop(&replay);
        self.answered("pop", &answer, wanted, Fed::Other);
        let next = top.ok().map(|top| {
            let [first, second] = [top.first, top.second].map(|piece| piece.of(&replay).into());
            Entry { is_clone: top.kind == Kind::Clone, first, second }
        });
        if let Some(entry) = &next {
            assert_eq!(Some(entry), self.left.pop_front().as_ref());
            self.place += entry.weight();
        }
        self.check();
        self.replay = whole;
        next
    }

    /// The payloads of the images handed out so far.
    pub fn payloads(&self) -> Vec<Vec<u8>> {
        let payload = |image: &Vec<u8>| {
            let blocks = image.len() / BLOCK;
            let mut payload = vec![0; blocks * PAYLOAD];
            assert_eq!(strip(image, &mut payload), Ok(blocks));
            payload
        };
        self.images.iter().map(payload).collect()
    }

    /// The record's words are those of the plain lists, and the queries answer as they do.
    fn check(&mut self) {
        let Lists { frozen, memory, held, written, last, last_blocks, .. } = &self.lists;
        let left: usize = self.left.iter().map(Entry::weight).sum();
        let [front, back] = [&self.front, &self.back].map(|side| {
            let blocks = side.as_deref().unwrap_or_default().len() / PAYLOAD;
            [side.is_some().into(), blocks as u64]
        });
        let counts = [frozen, memory].map(|list| [list.len() as u64, bytes(list)]);
        let replay = [self.place, left, self.left.len()].map(|n| n as u64);
        let waiting = clones(frozen) + clones(memory);
        let wanted = [
            &[LAYOUT, self.n, self.r, self.start],
            counts.as_flattened(),
            &[*written, *held],
            &replay,
            &front,
            &back,
            &[waiting],
            &[last.len() as u64, bytes(last), *last_blocks],
        ];
        assert_eq!(self.journal.words()[..], wanted.concat());
        assert!(*written <= self.n);
        assert_eq!(self.journal.has_frozen(), Ok(!frozen.is_empty()));
        assert_eq!(self.journal.has_in_memory(), Ok(!memory.is_empty()));
        assert_eq!(self.journal.get_written(), Ok(*written as usize));
        assert_eq!(self.journal.waiting_clones(), Ok(waiting as usize));
        assert_eq!(self.journal.is_replay_empty(), Ok(self.left.is_empty()));
        assert_eq!(self.journal.has_front(), Ok(self.front.is_some()));
        assert_eq!(self.journal.has_back(), Ok(self.back.is_some()));
        *self.seen.entry(("queries", 0)).or_default() += 7;
        if self.ring.len() <= LITTLE {
            self.check_ring();
        }
    }

    /// The ring holds, from start on, the pending forms.
    fn check_ring(&self) {
        assert!(self.ring == self.shadow, "the ring");
        let (wrapped, from_start) = self.ring.split_at(self.start as usize);
        let (first, second) = self.pending.split_at(self.pending.len().min(from_start.len()));
        assert!(from_start.starts_with(first) && wrapped.starts_with(second), "the pending forms");
    }

    /// All that the rule says of what comes afterwards.
    pub fn check_whole(&mut self) {
        self.check();
        self.check_ring();
        let Lists { out, frozen, memory, .. } = &self.lists;
        assert!([forms(frozen), forms(memory)].concat() == self.pending, "the pending forms");
        assert!(entries::range(&self.payloads().concat()).as_ref() == Some(out), "what is out");
        assert!(out.iter().chain(frozen).chain(memory).eq(&self.accepted), "all that was appended");
    }
}
