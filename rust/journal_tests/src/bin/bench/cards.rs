//! Calls on the unit's card. A round makes one for each of some cards, of which half of the blocks are
//! live, so that they wrap, and an image of as many blocks is to be stored behind them.
use crate::{filling, timed, Case, Timed, Way};
use journal_tests::model::block::{BLOCK, HEAD, PAYLOAD};
use journal_tests::model::card::{block_0, with_live};
use journal_tests::model::writing::{self, Entry};
use journal_tests::model::{crc, plain};
use journal_tests::random::Random;
use nungakes::calls;
use std::cell::{OnceCell, RefCell, RefMut};
use std::hint::black_box;

/// The live blocks of all cards.
const BLOCKS: usize = 512;

pub struct Cards {
    /// Those of each.
    blocks: usize,
    /// Made when a case first needs it.
    made: OnceCell<Made>,
}

struct Made {
    image: Vec<u8>,
    /// All cards, one behind the other.
    cards: RefCell<Vec<u8>>,
    out: RefCell<Vec<u8>>,
}

type Find = fn(u64, &[u8], &mut [u8], &mut [u64]) -> u64;
type Store = fn(u64, &mut [u8], &[u8], u64, &mut [u64]) -> u64;
type Release = fn(u64, &mut [u8], &mut [u64]) -> u64;

impl Cards {
    pub fn new(blocks: usize) -> Self {
        Cards { blocks, made: OnceCell::new() }
    }

    fn n(&self) -> usize {
        2 * self.blocks
    }

    /// Bytes of a card.
    fn len(&self) -> usize {
        BLOCK * (2 + self.n())
    }

    fn start(&self) -> usize {
        self.n() - self.blocks.div_ceil(2)
    }

    fn made(&self) -> &Made {
        self.made.get_or_init(|| {
            let random = &mut Random(1);
            let payload = writing::full_batch(self.blocks, || {
                let most = random.one_of(&[3, 40, 1_024]);
                Entry::random(random, most)
            });
            let image = writing::image(&payload);
            let card = with_live(self.n(), self.start(), &image, random);
            let cards = RefCell::new(card.repeat(BLOCKS / self.blocks));
            Made { image, cards, out: RefCell::new(vec![0; PAYLOAD * BLOCKS]) }
        })
    }

    /// All cards, each from the same block 0 on.
    fn ready(&self) -> RefMut<'_, Vec<u8>> {
        let mut cards = self.made().cards.borrow_mut();
        let block = block_0(self.start() as u32, self.blocks as u32);
        for card in cards.chunks_mut(self.len()) {
            card[..BLOCK].copy_from_slice(&block);
        }
        cards
    }

    /// A round of calls that change the cards.
    fn changing(&self, call: impl Fn(&mut [u8], &[u8], &mut [u64]) -> u64) -> Timed {
        let (mut cards, image) = (self.ready(), &self.made().image);
        let mut answer = [0];
        let timed = timed(|| {
            let cards = black_box(&mut *cards).chunks_mut(self.len());
            cards.map(|card| call(card, image, &mut answer)).sum()
        });
        timed.and(crc::slicing_by_8(&cards).into()).and(answer[0])
    }

    fn finding(&self, find: Find) -> Timed {
        let (cards, n) = (self.ready(), self.n() as u64);
        let mut answer = [0];
        let timed = filling(&mut self.made().out.borrow_mut(), |out| {
            let outs = out.chunks_mut(PAYLOAD * self.blocks);
            let all = black_box(&*cards).chunks(self.len()).zip(outs);
            all.map(|(card, out)| find(n, card, out, &mut answer)).sum()
        });
        timed.and(answer[0])
    }

    fn storing(&self, store: Store, made: usize) -> Timed {
        let [n, made] = [self.n(), made].map(|n| n as u64);
        self.changing(|card, image, answer| store(n, card, image, made, answer))
    }

    fn releasing(&self, release: Release) -> Timed {
        self.changing(|card, _, answer| release(self.n() as u64, card, answer))
    }

    /// A limit: to make the checksums of as many blocks by the processor's instruction.
    fn to_sum(&self) -> Option<Way<'_>> {
        let function = crc::instruction()?;
        let sum = move |_: &mut [u8], image: &[u8], _: &mut [u64]| {
            image.chunks(BLOCK).map(|block| u64::from(function(&block[HEAD..]))).sum()
        };
        Some(Way::limit("crc32", move || self.changing(sum)))
    }

    fn case<'a>(&'a self, name: &str, rattle: Way<'a>, rust: Way<'a>) -> Case<'a> {
        Case {
            name: format!("{name} {}", self.blocks),
            calls: BLOCKS / self.blocks,
            bytes: PAYLOAD * BLOCKS,
            often: 1,
            ways: [rattle, rust].into_iter().chain(self.to_sum()).collect(),
        }
    }

    fn store(&self, name: &str, made: usize) -> Case<'_> {
        self.case(
            name,
            Way::new("rattle", move || self.storing(calls::card_store, made)),
            Way::new("rust", move || self.storing(plain::card_store, made)),
        )
    }

    /// Of the stores, the first puts a block of the image, and the last rewrites block 0.
    pub fn cases(&self) -> Vec<Case<'_>> {
        let find = self.case(
            "card find",
            Way::new("rattle", || self.finding(calls::card_find)),
            Way::new("rust", || self.finding(plain::card_find)),
        );
        let release = self.case(
            "card release",
            Way::new("rattle", || self.releasing(calls::card_release)),
            Way::new("rust", || self.releasing(plain::card_release)),
        );
        let first = self.store("card store first", 0);
        let last = self.store("card store last", self.blocks);
        vec![find, first, last, release]
    }
}
