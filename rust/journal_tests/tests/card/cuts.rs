//! Every cut of every store of an image, in every small region, behind every live interval.
use crate::{batches, blocks, card, image, largest, Batch, Tally};
use journal_tests::model::block::BLOCK;
use journal_tests::model::card::place;
use journal_tests::random::Random;

/// Images of no blocks up to as many as there are, told 0, 1, 2 and on, past the last store.
#[test]
fn every_cut_of_every_store() {
    let tally = &mut Tally::default();
    let random = &mut Random(1);
    for n in 1..=5 {
        for (start, len) in (0..n).flat_map(|start| (0..=n).map(move |len| (start, len))) {
            for k in 0..=n {
                let [old, new, other] = [len, k, 1].map(|blocks| batches(blocks, random));
                let card = card(n, start, &old, random);
                let stores = Stores { n, start, old, new, card };
                stores.at_every_cut(tally, &other);
            }
        }
    }
    println!("{:?}", tally.answers);
}

/// The same of the largest entry, in regions with just enough blocks for it, with more and with fewer; the old
/// list is empty, or a block, or the largest too.
#[test]
fn every_cut_of_the_largest_entry() {
    let tally = &mut Tally::default();
    let random = &mut Random(4);
    for (n, len) in [(4, 0), (5, 0), (5, 1), (6, 0), (6, 1), (9, 5), (10, 5), (11, 5)] {
        for start in 0..n {
            let old = if len == 5 { vec![largest(random)] } else { batches(len, random) };
            let (new, other) = (vec![largest(random)], batches(1, random));
            let card = card(n, start, &old, random);
            Stores { n, start, old, new, card }.at_every_cut(tally, &other);
        }
    }
    assert!([0, 19].iter().all(|code| tally.answers.contains_key(&("CardStore".into(), *code))));
}

/// A card on which old batches are live, and new ones to store.
struct Stores {
    n: usize,
    start: usize,
    old: Vec<Batch>,
    new: Vec<Batch>,
    card: Vec<u8>,
}

impl Stores {
    /// Between any two calls what is found is the old list, and from the last store on the old list
    /// followed by the new. From there on another image can be stored, if it has room.
    fn at_every_cut(mut self, tally: &mut Tally, other: &[Batch]) {
        let (len, k) = (blocks(&self.old), blocks(&self.new));
        let both = [&self.old[..], &self.new].concat();
        let stores = if k > 0 && len + k <= self.n { k + 1 } else { 0 };
        tally.finds(&self.card, &self.old);
        for made in 0..=k + 2 {
            self.tell(tally, made, stores);
            let found = if made + 1 >= stores && stores > 0 { &both } else { &self.old };
            tally.finds(&self.card, found);
            if blocks(found) < self.n {
                let mut card = self.card.clone();
                tally.store_all(&mut card, &image(other));
                tally.finds(&card, &[&found[..], other].concat());
            }
        }
    }

    /// One call, where so many stores are to be made. It writes the one block, whole, or none.
    fn tell(&mut self, tally: &mut Tally, made: usize, stores: usize) {
        let (len, k) = (blocks(&self.old), blocks(&self.new));
        let image = image(&self.new);
        let before = self.card.clone();
        let answer = tally.store(&mut self.card, &image, made as u64);
        let written = match made {
            _ if made >= stores => None,
            _ if made < k => Some(place(self.n, self.start + len + made)),
            _ => Some(0),
        };
        let no_room = stores == 0 && k > 0 && made <= k;
        assert_eq!(answer, if no_room { Err(19) } else { Ok(written.is_some().into()) });
        for block in (0..before.len()).step_by(BLOCK) {
            let now = &self.card[block..block + BLOCK];
            if written != Some(block) {
                assert!(now == &before[block..block + BLOCK], "block {} changes", block / BLOCK);
            } else if made < k {
                assert!(now == &image[BLOCK * made..][..BLOCK], "another block than {made}");
            }
        }
    }
}

/// Told the last number twice, with room for it, block 0 counts the image's blocks twice. A number of 64
/// bits is not taken for one of 32.
#[test]
fn other_numbers() {
    let tally = &mut Tally::default();
    let random = &mut Random(2);
    let list = batches(2, random);
    let mut card = card(4, 3, &[], random);
    let image = image(&list);
    for past in [3, 4, 256, 1 << 32, (1 << 32) + 1, (1 << 52) + 1, 1 << 63, u64::MAX] {
        assert_eq!(tally.store(&mut card, &image, past), Ok(0));
        assert_eq!(tally.store(&mut card, &[], past), Ok(0));
        tally.finds(&card, &[]);
    }
    tally.store_all(&mut card, &image);
    let stored = card.clone();
    assert_eq!(tally.store(&mut card, &image, 2), Ok(1));
    assert!(card[BLOCK..] == stored[BLOCK..] && card[42..46] == [4, 0, 0, 0]);
    assert_eq!(tally.store(&mut card, &image, 2), Err(19));
    assert_eq!(tally.find(&card), Err(12 + 256 * 2));
}
