//! A unit's whole life: images are stored cyclically on its card, the oldest batches are dropped, and the
//! power goes at any place, also between the stores of an image. What is replayed then is what the live
//! blocks handed out, in order, nothing more.
use journal_tests::model::block::{BLOCK, PAYLOAD};
use journal_tests::model::writing::Entry;
use journal_tests::random::{times, Random};
use nungakes::{card, Entry as Read, Journal, Refusal, CARD_START};
use std::collections::VecDeque;
use std::mem::take;

/// What was handed out as one image.
struct Batch {
    entries: Vec<Entry>,
    blocks: usize,
}

/// What a power cut spares: the card. On it these batches are live, the oldest first.
struct Card {
    bytes: Vec<u8>,
    live: VecDeque<Batch>,
}

impl Card {
    /// One with anything on it, then formatted.
    fn new(n: usize, random: &mut Random) -> Self {
        let mut bytes = random.bytes(BLOCK * (2 + n));
        assert_eq!(card::find(n, &bytes, &mut []), Err(Refusal::CardUnformed));
        card::format(n, &mut bytes).unwrap();
        Card { bytes, live: VecDeque::new() }
    }

    fn blocks(&self) -> usize {
        self.bytes.len() / BLOCK - 2
    }

    fn live_blocks(&self) -> usize {
        self.live.iter().map(|batch| batch.blocks).sum()
    }

    fn start(&self) -> usize {
        u32::from_le_bytes(*self.bytes[CARD_START..].first_chunk().unwrap()) as usize
    }

    /// Tells so many numbers, or up to the one at which no store is left, and says whether the last was made.
    fn store(&mut self, image: &[u8], stores: usize) -> bool {
        let n = self.blocks();
        let mut store = |made| card::store(n, &mut self.bytes, image, made).unwrap();
        let made = (0..stores).take_while(|made| store(*made)).count();
        made > image.len() / BLOCK
    }

    fn drop_oldest(&mut self) {
        let oldest = self.live.pop_front().map(|batch| batch.blocks);
        let released = card::release(self.blocks(), &mut self.bytes);
        assert_eq!(released, oldest.ok_or(Refusal::NothingThere));
    }

    /// Whether a batch starts before the region's end and ends behind it.
    fn crosses(&self) -> bool {
        let mut at = self.start();
        self.live.iter().any(|batch| {
            at += batch.blocks;
            at - batch.blocks < self.blocks() && self.blocks() < at
        })
    }
}

/// How often what was tried came about.
#[derive(Debug, Default)]
struct Seen {
    replayed: usize,
    wrapped: usize,
    crossed: usize,
    dropped: usize,
    full: usize,
    thawed: usize,
    cut: usize,
    just_live: usize,
    /// Of what was replayed, values that are longer than two blocks' payload.
    long: usize,
}

/// A new record that has replayed what was found, so many blocks of it as front.
fn replay(card: &Card, r: usize, found: &[u8], front: usize) -> Journal {
    let mut journal = Journal::open(card.blocks(), r).unwrap();
    let (front, back) = found.split_at(PAYLOAD * front);
    let [mut front_lent, mut back_lent] = [front, back].map(|side| vec![0xA5; side.len() + 3]);
    let mut replay = vec![0xA5; found.len()];
    journal.set_front(front, &mut front_lent).unwrap();
    journal.set_back(back, &mut back_lent).unwrap();
    journal.load(&front_lent, &back_lent, &mut replay).unwrap();
    for Entry { is_clone, first, second } in card.live.iter().flat_map(|batch| &batch.entries) {
        let wanted = if *is_clone {
            Read::Clone { from: first, to: second }
        } else {
            Read::Insert { key: first, value: second }
        };
        assert_eq!(journal.top(&replay).unwrap().entry(&replay), wanted);
        journal.pop(&replay).unwrap();
    }
    assert_eq!(journal.top(&replay), Err(Refusal::NothingThere));
    journal.set_written(card.live_blocks()).unwrap();
    journal
}

/// The same wherever what was found is split.
fn recover(card: &Card, r: usize, seen: &mut Seen) -> Journal {
    let blocks = card.live_blocks();
    let mut found = vec![0; PAYLOAD * blocks];
    assert_eq!(card::find(card.blocks(), &card.bytes, &mut found), Ok(blocks));
    let journal = replay(card, r, &found, blocks);
    for front in 0..blocks {
        assert_eq!(replay(card, r, &found, front), journal);
    }
    let entries = || card.live.iter().flat_map(|batch| &batch.entries);
    seen.replayed += entries().count();
    seen.long += entries().filter(|entry| entry.second.len() > 2 * PAYLOAD).count();
    seen.wrapped += usize::from(card.start() + blocks > card.blocks());
    seen.crossed += usize::from(card.crosses());
    journal
}

/// What a power cut takes: the record, the ring, what is pending in it, and how many of the frozen entries the last
/// freeze moved, if it can be taken back.
struct Unit {
    journal: Journal,
    ring: Vec<u8>,
    frozen: Vec<Entry>,
    memory: Vec<Entry>,
    last: usize,
}

impl Unit {
    fn new(journal: Journal, ring: Vec<u8>) -> Self {
        Unit { journal, ring, frozen: vec![], memory: vec![], last: 0 }
    }

    /// Whether there is room.
    fn append(&mut self, entry: Entry) -> bool {
        let Entry { is_clone, first, second } = &entry;
        let append = if *is_clone { Journal::append_clone } else { Journal::append_insert };
        match append(&mut self.journal, &mut self.ring, first, second) {
            Ok(()) => self.memory.push(entry),
            Err(Refusal::RegionFull | Refusal::RingFull) => return false,
            Err(why) => panic!("{why}"),
        }
        true
    }

    fn freeze(&mut self) {
        self.journal.freeze().unwrap();
        if !self.memory.is_empty() {
            self.last = self.memory.len();
        }
        self.frozen.append(&mut self.memory);
    }

    /// Whether there was a freeze to take back.
    fn thaw(&mut self) -> bool {
        let wanted = if self.last > 0 { Ok(()) } else { Err(Refusal::NoFreeze) };
        assert_eq!(self.journal.thaw(), wanted);
        let still = self.frozen.len() - take(&mut self.last);
        self.memory.splice(..0, self.frozen.drain(still..));
        wanted.is_ok()
    }

    /// What is frozen or, where nothing is, in memory, with its image in `out`.
    fn package(&mut self, out: &mut [u8]) -> Option<Batch> {
        let (package, list): (fn(&mut _, &_, &mut _) -> _, _) = if self.frozen.is_empty() {
            (Journal::package_in_memory, &mut self.memory)
        } else {
            (Journal::package_frozen, &mut self.frozen)
        };
        if list.is_empty() {
            return None;
        }
        let blocks = package(&mut self.journal, &self.ring[..], out).unwrap();
        self.last = 0;
        Some(Batch { entries: take(list), blocks })
    }
}

/// From a recovery to the next power cut.
fn live(card: &mut Card, r: usize, most: usize, random: &mut Random, seen: &mut Seen) {
    let mut unit = Unit::new(recover(card, r, seen), random.bytes(r));
    let mut out = vec![0; BLOCK * card.blocks()];
    while random.below(80) > 0 {
        match random.below(20) {
            0..13 => seen.full += usize::from(!unit.append(Entry::random(random, most).keyed())),
            13 => unit.freeze(),
            14 => seen.thawed += usize::from(unit.thaw()),
            15..18 => {
                let Some(batch) = unit.package(&mut out) else {
                    continue;
                };
                let cut = (random.below(5) == 0).then(|| random.below(batch.blocks + 2));
                let image = &out[..BLOCK * batch.blocks];
                if card.store(image, cut.unwrap_or(batch.blocks + 2)) {
                    card.live.push_back(batch);
                    seen.just_live += usize::from(cut.is_some());
                } else {
                    seen.cut += 1;
                }
                if cut.is_some() {
                    return;
                }
            }
            _ => {
                seen.dropped += usize::from(!card.live.is_empty());
                card.drop_oldest();
                unit.journal.update_written(card.live_blocks()).unwrap();
            }
        }
    }
}

#[test]
fn lives_of_units() {
    let random = &mut Random(13);
    let mut seen = Seen::default();
    for unit in 0..300 * times() {
        let n = 1 + unit % 12;
        let mut card = Card::new(n, random);
        let r = random.one_of(&[1_000, 10_000, PAYLOAD * n]);
        for _ in 0..25 {
            let most = random.one_of(&[3, 300, 1_024, 16_384]);
            live(&mut card, r, most, random, &mut seen);
        }
    }
    println!("{seen:?}");
    let Seen { replayed, wrapped, crossed, dropped, full, thawed, cut, just_live, long } = seen;
    assert!(replayed > 50_000 && wrapped > 500 && crossed > 100, "{seen:?}");
    assert!(dropped > 1_000 && full > 1_000 && thawed > 1_000, "{seen:?}");
    assert!(cut > 100 && just_live > 100 && long > 200, "{seen:?}");
}
