//! Long random runs on a card, held to the list of its live batches.
use crate::{batches, blocks, card, image, largest, Batch, Tally};
use journal_tests::call::Call;
use journal_tests::model::block::PAYLOAD;
use journal_tests::random::{times, Random};

/// A card, and what is live on it. An image that was not stored to its end leaves nothing.
struct Run {
    n: usize,
    card: Vec<u8>,
    live: Vec<Batch>,
}

impl Run {
    fn room(&self) -> usize {
        self.n - blocks(&self.live)
    }

    /// An image that has room, stored to its end or up to a cut.
    fn store(&mut self, tally: &mut Tally, random: &mut Random) {
        let list = match random.below(3) {
            0 if self.room() >= 5 => vec![largest(random)],
            _ => batches(random.below(self.room() + 1), random),
        };
        let image = image(&list);
        if random.below(3) > 0 {
            tally.store_all(&mut self.card, &image);
            self.live.extend(list);
            return;
        }
        for made in 0..random.below(blocks(&list) + 1) {
            assert_eq!(tally.store(&mut self.card, &image, made as u64), Ok(1));
        }
    }

    /// An image that has none, told any number.
    fn store_too_much(&mut self, tally: &mut Tally, random: &mut Random) {
        let list = batches(self.room() + 1, random);
        let blocks = blocks(&list) as u64;
        let made = random.one_of(&[0, blocks - 1, blocks, blocks + 1, u64::MAX]);
        let wanted = if made <= blocks { Err(19) } else { Ok(0) };
        assert_eq!(tally.store(&mut self.card, &image(&list), made), wanted);
    }

    fn release(&mut self, tally: &mut Tally) {
        let first = self.live.first().map(|batch| (batch.payload.len() / PAYLOAD) as u64);
        assert_eq!(tally.release(&mut self.card), first.ok_or(8));
        if first.is_some() {
            self.live.remove(0);
        }
    }

    fn format(&mut self, tally: &mut Tally) {
        let n = self.n as u64;
        assert!(tally.call(Call::CardFormat { n }, &[], &mut self.card).is_ok());
        self.live.clear();
    }

    fn step(&mut self, tally: &mut Tally, random: &mut Random) {
        match random.below(60) {
            0 => self.format(tally),
            1..35 => self.store(tally, random),
            35..41 => self.store_too_much(tally, random),
            _ => self.release(tally),
        }
        tally.finds(&self.card, &self.live);
    }

    /// Whether a value is longer than two blocks' payload.
    fn has_long(&self) -> bool {
        let mut entries = self.live.iter().flat_map(|batch| &batch.entries);
        entries.any(|entry| entry.second.len() > 2 * PAYLOAD)
    }

    fn wraps(&self) -> bool {
        let start = u32::from_le_bytes(*self.card[38..].first_chunk().unwrap());
        start as usize + blocks(&self.live) > self.n
    }
}

/// The blocks that are dropped are used again: the live interval goes round and round.
#[test]
fn random_runs() {
    let tally = &mut Tally::default();
    let random = &mut Random(3);
    let [mut wrapped, mut long] = [0; 2];
    for round in 0..30 * times() {
        let n = 1 + round % 8;
        let live = batches(random.below(n + 1), random);
        let card = card(n, random.below(n), &live, random);
        let mut run = Run { n, card, live };
        for _ in 0..30 {
            run.step(tally, random);
            wrapped += usize::from(run.wraps());
            long += usize::from(run.has_long());
        }
    }
    println!("{wrapped} wrapped, {long} with long values: {:?}", tally.answers);
    assert!(wrapped > 100 && long > 50, "{wrapped}, {long}");
    for (name, numbers) in [
        ("CardFormat", &[0][..]),
        ("CardFind", &[0]),
        ("CardStore", &[0, 19]),
        ("CardRelease", &[0, 8]),
    ] {
        let seen = tally.answers.keys().filter(|(call, _)| call == name).map(|(_, number)| number);
        assert!(seen.eq(numbers), "{name}: {:?}", tally.answers);
    }
}
