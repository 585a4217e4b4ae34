//! Calls whose work grows with the blocks. A round does it to 1,024 blocks, in pieces of some size: for
//! each piece a batch that fills its blocks, its image, a ring that holds its entries, and a record.
use crate::{filling, mixed, record, Case, Timed, Way, Words};
use journal_tests::model::block::{BLOCK, HEAD, PAYLOAD};
use journal_tests::model::writing::{self, Entry};
use journal_tests::model::{crc, entries, plain, reading};
use journal_tests::random::Random;
use nungakes::calls;
use std::cell::{OnceCell, RefCell};
use std::hint::black_box;

/// The blocks of all pieces.
const BLOCKS: usize = 1_024;

pub struct Pieces {
    /// Those of each.
    blocks: usize,
    /// No entry has more first or second bytes than one of these, chosen for it.
    most: &'static [usize],
    /// Made when a case first needs it.
    made: OnceCell<Made>,
}

struct Made {
    pieces: Vec<Read>,
    /// Where the calls put what they write.
    out: RefCell<Vec<u8>>,
}

/// What the calls read of a piece.
struct Read {
    entries: usize,
    clones: usize,
    /// The wire forms alone, and in a ring in which they wrap.
    forms: Vec<u8>,
    ring: Vec<u8>,
    payload: Vec<u8>,
    image: Vec<u8>,
}

/// A call's work: what it reads, the record, and what it writes.
type Work = fn(&Read, &mut Words, &mut [u8]) -> u64;

/// The record that a call gets for a piece.
type Before = fn(&Read) -> Words;

impl Read {
    fn blocks(&self) -> usize {
        self.payload.len() / PAYLOAD
    }

    /// Where the forms start in the ring.
    fn start(&self) -> usize {
        self.ring.len() - self.forms.len() / 3
    }

    fn sides(&self) -> (&[u8], &[u8]) {
        self.payload.split_at(self.blocks() / 2 * PAYLOAD)
    }

    fn empty(&self) -> Words {
        record(self.ring.len(), &[])
    }

    /// Frozen at once, which is remembered.
    fn frozen(&self) -> Words {
        let [entries, bytes, blocks] = [self.entries, self.forms.len(), self.blocks()];
        let counts = [(3, self.start()), (4, entries), (5, bytes), (9, blocks), (17, self.clones)];
        let last = [(18, entries), (19, bytes), (20, blocks)];
        record(self.ring.len(), &[&counts[..], &last].concat())
    }

    fn in_memory(&self) -> Words {
        let counts = [(3, self.start()), (6, self.entries), (7, self.forms.len())];
        record(self.ring.len(), &[&counts[..], &[(17, self.clones)]].concat())
    }

    fn both_sides(&self) -> Words {
        let (front, back) = self.sides();
        let [front, back] = [front, back].map(|side| side.len() / PAYLOAD);
        record(self.ring.len(), &[(13, 1), (14, front), (15, 1), (16, back)])
    }

    fn loaded(&self) -> Words {
        record(self.ring.len(), &[(11, self.forms.len()), (12, self.entries)])
    }
}

impl Pieces {
    pub fn new(blocks: usize, most: &'static [usize]) -> Self {
        Pieces { blocks, most, made: OnceCell::new() }
    }

    fn made(&self) -> &Made {
        self.made.get_or_init(|| {
            let random = &mut Random(1);
            let pieces = (0..BLOCKS / self.blocks).map(|_| self.piece(random)).collect();
            Made { pieces, out: RefCell::new(vec![0; BLOCK * BLOCKS]) }
        })
    }

    /// Entries until one finds no room.
    fn piece(&self, random: &mut Random) -> Read {
        let payload = writing::full_batch(self.blocks, || {
            let most = random.one_of(self.most);
            Entry::random(random, most)
        });
        let mut totals = [0; 2];
        assert_eq!(reading::range(&payload, &[], &mut totals), 0);
        let [entries, bytes] = totals.map(|n| n as usize);
        let clones = entries::clones(&entries::range(&payload).unwrap()) as usize;
        let forms = payload[8..8 + bytes].to_vec();
        let mut ring = [&forms[..], &[0xA5; 100]].concat();
        let start = ring.len() - bytes / 3;
        ring.rotate_right(start);
        let image = writing::image(&payload);
        Read { entries, clones, forms, ring, payload, image }
    }

    /// A round of the work, done to one piece after the other.
    fn round(&self, before: Before, work: Work) -> Timed {
        let Made { pieces, out } = self.made();
        let mut records: Vec<Words> = pieces.iter().map(before).collect();
        let timed = filling(&mut out.borrow_mut(), |out| {
            let outs = out.chunks_mut(BLOCK * self.blocks);
            let all = black_box(pieces).iter().zip(&mut records).zip(outs);
            all.map(|((piece, words), out)| work(piece, words, out)).sum()
        });
        timed.and(mixed(&records))
    }

    fn case(&self, name: &str, before: Before, rattle: Work, rust: Work) -> Case<'_> {
        Case {
            name: format!("{name} {}", self.blocks),
            calls: BLOCKS / self.blocks,
            bytes: PAYLOAD * BLOCKS,
            often: 1,
            ways: vec![
                Way::new("rattle", move || self.round(before, rattle)),
                Way::new("rust", move || self.round(before, rust)),
            ],
        }
    }

    /// The same of calls that copy the payload and make checksums, with the limits of both.
    fn sealing(&self, name: &str, before: Before, rattle: Work, rust: Work) -> Case<'_> {
        let mut case = self.case(name, before, rattle, rust);
        case.ways.push(self.to_copy());
        case.ways.extend(self.to_sum());
        case
    }

    /// A limit for calls that copy: to copy the payload.
    fn to_copy(&self) -> Way<'_> {
        let copy: Work = |piece, _, out| {
            out[..piece.payload.len()].copy_from_slice(&piece.payload);
            0
        };
        Way::limit("memcpy", move || self.round(Read::empty, copy))
    }

    /// A limit for calls that make checksums: to make them by the processor's instruction.
    fn to_sum(&self) -> Option<Way<'_>> {
        crc::instruction()?;
        let sum: Work = |piece, _, _| {
            let function = crc::instruction().unwrap();
            let blocks = piece.image.chunks(BLOCK);
            blocks.map(|block| u64::from(function(&block[HEAD..]))).sum()
        };
        Some(Way::limit("crc32", move || self.round(Read::empty, sum)))
    }
}

/// The cases of pieces of one size.
pub const EACH_SIZE: [fn(&Pieces) -> Case<'_>; 7] =
    [package_frozen, package_in_memory, strip, set_front, range, load, replay];

fn package_frozen(pieces: &Pieces) -> Case<'_> {
    pieces.sealing(
        "package frozen",
        Read::frozen,
        |piece, words, out| calls::package_frozen(words, &piece.ring, out),
        |piece, words, out| plain::package_frozen(words, &piece.ring, out),
    )
}

fn package_in_memory(pieces: &Pieces) -> Case<'_> {
    pieces.sealing(
        "package memory",
        Read::in_memory,
        |piece, words, out| calls::package_in_memory(words, &piece.ring, out),
        |piece, words, out| plain::package_in_memory(words, &piece.ring, out),
    )
}

fn strip(pieces: &Pieces) -> Case<'_> {
    pieces.sealing(
        "strip",
        Read::empty,
        |piece, _, out| calls::strip(&piece.image, out),
        |piece, _, out| plain::strip(&piece.image, out),
    )
}

fn set_front(pieces: &Pieces) -> Case<'_> {
    let mut case = pieces.case(
        "set front",
        Read::empty,
        |piece, words, out| calls::set_front(words, &piece.payload, out),
        |piece, words, out| plain::set_front(words, &piece.payload, out),
    );
    case.ways.push(pieces.to_copy());
    case
}

/// What is read of a range, in one number.
fn totals(range: fn(&[u8], &[u8], &mut [u64]) -> u64, piece: &Read) -> u64 {
    let (front, back) = piece.sides();
    let mut totals = [0; 2];
    let answer = range(front, back, &mut totals);
    answer + (totals[0] << 8) + (totals[1] << 32)
}

fn range(pieces: &Pieces) -> Case<'_> {
    pieces.case(
        "range",
        Read::empty,
        |piece, _, _| totals(calls::range, piece),
        |piece, _, _| totals(reading::range, piece),
    )
}

/// Half of the blocks are lent as front.
fn load(pieces: &Pieces) -> Case<'_> {
    let mut case = pieces.case(
        "load",
        Read::both_sides,
        |piece, words, out| calls::load(words, piece.sides().0, piece.sides().1, out),
        |piece, words, out| plain::load(words, piece.sides().0, piece.sides().1, out),
    );
    case.ways.push(pieces.to_copy());
    case
}

type Top = fn(&[u64], &[u8], &mut [u64]) -> u64;
type Pop = fn(&mut [u64], &[u8]) -> u64;

/// Top and pop until nothing is left.
fn all_entries(top: Top, pop: Pop, words: &mut Words, replay: &[u8]) -> u64 {
    let mut sum = 0;
    let mut answer = [0; 5];
    while top(words, replay, &mut answer) == 0 {
        sum = answer.iter().fold(sum, |sum: u64, word| sum.rotate_left(5) ^ word);
        sum ^= pop(words, replay);
    }
    sum
}

fn replay(pieces: &Pieces) -> Case<'_> {
    pieces.case(
        "top, pop",
        Read::loaded,
        |piece, words, _| all_entries(calls::top, calls::pop, words, &piece.forms),
        |piece, words, _| all_entries(plain::top, plain::pop, words, &piece.forms),
    )
}
