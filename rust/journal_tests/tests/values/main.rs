//! Values that may be longer than blocks, from append to pop: at many places of a block and over a ring's end,
//! in rings and regions with just enough room and with too little, past the limit, and in images in store. Each
//! call is made of the library and of the plain Rust implementation, and compared with the model: its answer, and
//! every byte and word that is lent.
mod limit;
mod places;
mod room;
mod stored;

use journal_tests::call::{Call, Call::*};
use journal_tests::memory::Lent;
use journal_tests::model::block::PAYLOAD;
use journal_tests::model::record::{LAYOUT, WORDS};
use journal_tests::model::writing::{self, Entry};
use journal_tests::random::Random;
use journal_tests::tally::{forms, Journal, Tally};

/// The limit, one and two blocks' payload, and their neighbours.
const LENGTHS: [usize; 8] = [4_063, 4_064, 4_065, 8_127, 8_128, 8_129, 16_383, 16_384];

/// An insert with so many first and second bytes.
fn insert(first: usize, second: usize, random: &mut Random) -> Entry {
    Entry { is_clone: false, first: random.bytes(first), second: random.bytes(second) }
}

/// The words of an empty record of so many blocks, with others at these places.
fn record(n: usize, others: &[(usize, usize)]) -> Vec<u64> {
    let mut words = vec![0; WORDS];
    words[..2].copy_from_slice(&[LAYOUT, n as u64]);
    for (at, word) in others {
        words[*at] = *word as u64;
    }
    words
}

/// What a call gives that reads these, and what it leaves.
fn read(
    tally: &mut Tally,
    call: Call,
    words: &[u64],
    read: [&[u8]; 2],
    room: usize,
) -> (u64, Lent) {
    let answer = match call {
        Top => vec![7; 5],
        Range => vec![7; 2],
        _ => vec![],
    };
    let read = read.map(<[u8]>::to_vec);
    tally.call(call, Lent { read, written: vec![0xA5; room], words: words.into(), answer })
}

/// A journal that holds the list in memory is packaged, and the same when it is frozen: both images are that of
/// the list, which is read from it.
fn goes_through(tally: &mut Tally, journal: &Journal, list: &[Entry]) {
    let payload = writing::batch(list, 0);
    let image = writing::image(&payload);
    let (code, Lent { words, .. }) = read(tally, Freeze, &journal.words, [&[]; 2], 0);
    assert_eq!(code, 0);
    let frozen = Journal { words, ring: journal.ring.clone() };
    for (journal, call) in [(journal, PackageInMemory), (&frozen, PackageFrozen)] {
        assert_eq!(tally.package(journal, call, image.len(), list), 0);
        assert!(tally.memory.lent().written == image, "{call:?}: another image");
    }
    let (code, Lent { written, .. }) = read(tally, Strip, &[], [&image, &[]], payload.len());
    assert!(code == 0 && written == payload, "another payload");
    reads_as(tally, &payload, list);
}

/// The payload is read as the list, however its blocks are split between front and back.
fn reads_as(tally: &mut Tally, payload: &[u8], list: &[Entry]) {
    for split in (0..=payload.len()).step_by(PAYLOAD) {
        let (front, back) = payload.split_at(split);
        sides_read_as(tally, [front, back], list);
    }
}

/// Front and back are read as the list, by range, and by load, top and pop.
fn sides_read_as(tally: &mut Tally, [front, back]: [&[u8]; 2], list: &[Entry]) {
    let bytes = forms(list).len();
    let (code, Lent { answer, .. }) = read(tally, Range, &[], [front, back], 0);
    assert_eq!((code, answer), (0, vec![list.len() as u64, bytes as u64]));

    let mut words = record((front.len() + back.len()) / PAYLOAD, &[]);
    for (call, side) in [(SetFront, front), (SetBack, back)] {
        let (code, lent) = read(tally, call, &words, [side, &[]], side.len());
        assert!(code == 0 && lent.written == side, "{call:?}: another payload");
        words = lent.words;
    }
    let (code, mut lent) = read(tally, Load, &words, [front, back], bytes);
    assert_eq!(code, 0);
    let replay = lent.written;
    for entry in list {
        let (code, top) = read(tally, Top, &lent.words, [&replay, &[]], 0);
        assert_eq!(code, 0);
        let [kind, len, place, second_len, second_place] = top.answer[..] else { panic!() };
        let piece = |place, len| replay[place as usize..][..len as usize].to_vec();
        let [first, second] = [piece(place, len), piece(second_place, second_len)];
        assert!(Entry { is_clone: kind == 1, first, second } == *entry, "another entry");
        (_, lent) = read(tally, Pop, &lent.words, [&replay, &[]], 0);
    }
    assert_eq!(read(tally, Top, &lent.words, [&replay, &[]], 0).0, 8);
}
