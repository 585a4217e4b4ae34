//! The last freeze taken back, as the document says it, of lists anywhere in a ring. What is packaged then is the
//! model's image byte for byte, and the model reads it.
use journal_tests::model::block::{self, BLOCK, PAYLOAD};
use journal_tests::model::entries;
use journal_tests::model::writing::{self, Entry};
use journal_tests::random::{times, Random};
use nungakes::{word, Journal, Refusal, WORDS};

/// A journal and its ring.
#[derive(Clone, Debug, PartialEq)]
struct Unit {
    journal: Journal,
    ring: Vec<u8>,
}

/// Some that append takes.
fn some(random: &mut Random) -> Vec<Entry> {
    writing::some(random).into_iter().map(Entry::keyed).collect()
}

fn bytes(list: &[Entry]) -> usize {
    list.iter().map(Entry::weight).sum()
}

/// The blocks that a freeze adds for them, and a packaging needs.
fn needed(list: &[Entry]) -> usize {
    (8 + bytes(list)).div_ceil(PAYLOAD)
}

impl Unit {
    /// An empty one, whose pending bytes will start anywhere in a ring of so many.
    fn new(n: usize, r: usize, random: &mut Random) -> Self {
        let mut words: [u64; WORDS] = Journal::open(n, r).unwrap().into();
        words[word::START] = random.below(r) as u64;
        Unit { journal: words.into(), ring: random.bytes(r) }
    }

    fn append(&mut self, list: &[Entry]) {
        for Entry { is_clone, first, second } in list {
            let append = if *is_clone { Journal::append_clone } else { Journal::append_insert };
            append(&mut self.journal, &mut self.ring, first, second).unwrap();
        }
    }

    fn freeze(&mut self, list: &[Entry]) {
        self.append(list);
        self.journal.freeze().unwrap();
    }

    /// The image that a packaging makes is that of these entries in so many blocks, and reads as them.
    fn packages(&mut self, frozen: bool, list: &[Entry], blocks: usize) {
        let package = if frozen { Journal::package_frozen } else { Journal::package_in_memory };
        let mut image = vec![0xA5; BLOCK * blocks];
        assert_eq!(package(&mut self.journal, &self.ring, &mut image), Ok(blocks));
        let batch = writing::batch(list, blocks - needed(list));
        assert!(image == writing::image(&batch), "another image");
        let mut payload = vec![0; PAYLOAD * blocks];
        assert_eq!(block::strip(&image, &mut payload), 0);
        assert!(entries::range(&payload).is_some_and(|read| read == list), "other entries");
    }
}

/// "Straight after such a freeze, thaw restores the pending lists, counts and blocks of before it." Where an
/// earlier freeze was remembered, it is not any more.
#[test]
fn straight_after_a_freeze() {
    let random = &mut Random(1);
    for _ in 0..1_000 * times() {
        let [earlier, last] = [some(random), some(random)];
        let r = bytes(&earlier) + bytes(&last) + random.one_of(&[0, 1, 100]);
        let mut unit = Unit::new(12, r, random);
        let with_earlier = random.below(2) == 0;
        if with_earlier {
            unit.freeze(&earlier);
        }
        unit.append(&last);
        let mut before = unit.clone();
        assert_eq!(unit.journal.freeze(), Ok(()));
        assert_ne!(unit.journal, before.journal);
        assert_eq!(unit.journal.thaw(), Ok(()));
        if with_earlier {
            let mut words: [u64; WORDS] = before.journal.into();
            let counts = [earlier.len(), bytes(&earlier), needed(&earlier)].map(|n| n as u64);
            assert_eq!(words[word::LAST_ENTRIES..], counts);
            words[word::LAST_ENTRIES..].fill(0);
            before.journal = words.into();
        }
        assert_eq!(unit, before);
        assert_eq!(unit.journal.thaw(), Err(Refusal::NoFreeze));
        assert_eq!(unit, before);
    }
}

/// "Appends in between stay behind": all is packaged in the order of the appends, in as few blocks as one list
/// needs.
#[test]
fn appends_in_between_stay_behind() {
    let random = &mut Random(2);
    for _ in 0..1_000 * times() {
        let [first, second] = [some(random), some(random)];
        let all = [first.clone(), second.clone()].concat();
        let mut unit = Unit::new(12, bytes(&all) + random.below(9), random);
        unit.freeze(&first);
        unit.append(&second);
        assert_eq!(unit.journal.thaw(), Ok(()));
        unit.packages(false, &all, needed(&all));
    }
}

/// Of some freezes and freezes of nothing, the last that moved any is taken back; the others stay frozen, in
/// their blocks. What was packaged can't be taken back.
#[test]
fn the_last_that_moved_any() {
    let random = &mut Random(3);
    for _ in 0..500 * times() {
        let parts: Vec<_> = (0..2 + random.below(3)).map(|_| some(random)).collect();
        let behind = some(random);
        let all = bytes(&parts.concat()) + bytes(&behind);
        let mut unit = Unit::new(40, all + random.below(9), random);
        for part in &parts {
            unit.freeze(part);
            let before = unit.clone();
            for _ in 0..random.below(3) {
                unit.freeze(&[]);
            }
            assert_eq!(unit, before);
        }
        unit.append(&behind);
        assert_eq!(unit.journal.thaw(), Ok(()));
        let (last, others) = parts.split_last().unwrap();
        let held = others.iter().map(|part| needed(part)).sum();
        unit.packages(true, &others.concat(), held);
        assert_eq!(unit.journal.thaw(), Err(Refusal::NoFreeze));
        let again = [&last[..], &behind].concat();
        unit.journal.freeze().unwrap();
        unit.packages(true, &again, needed(&again));
        assert_eq!(unit.journal.thaw(), Err(Refusal::NoFreeze));
    }
}

/// "The two weights join with one header of 8, so the region always suffices": of a full one, a thaw frees just the
/// other header.
#[test]
fn a_full_region() {
    let random = &mut Random(4);
    for (a, b) in (1..5).flat_map(|a| (1..5).map(move |b| (a, b))) {
        let full = |n| writing::weighing(random, PAYLOAD * n - 8).into_iter().map(Entry::keyed);
        let [first, second] = [a, b].map(full).map(Vec::from_iter);
        let mut unit = Unit::new(a + b, PAYLOAD * (a + b), random);
        unit.freeze(&first);
        unit.append(&second);
        let one_more = |unit: &mut Unit| unit.journal.append_clone(&mut unit.ring, &[], &[]);
        assert_eq!(one_more(&mut unit), Err(Refusal::RegionFull));
        assert_eq!(unit.journal.thaw(), Ok(()));
        assert_eq!([(); 2].map(|()| one_more(&mut unit)), [Ok(()), Err(Refusal::RegionFull)]);
        let smallest = Entry { is_clone: true, first: vec![], second: vec![] };
        unit.packages(false, &[first, second, vec![smallest]].concat(), a + b);
    }
}
