//! What c/journal.h defines for C is what the crate `nungakes` has for Rust: numbers of refusals, sizes, limits, the
//! places of words, the version.
use nungakes::{word, Refusal};
use std::collections::BTreeMap;

const HEADER: &str = include_str!("../../../c/journal.h");

/// The numbers that the header defines, by their names without the prefix.
fn defined() -> BTreeMap<&'static str, u64> {
    let define = |line: &'static str| {
        let mut words = line.strip_prefix("#define JOURNAL_")?.split_whitespace();
        Some((words.next()?, words.next()?.parse().ok()?))
    };
    HEADER.lines().filter_map(define).collect()
}

/// Every refusal, by its name in the header.
const REFUSALS: &[(&str, Refusal)] = &[
    ("SIZE_OUT_OF_RANGE", Refusal::SizeOutOfRange),
    ("COUNTS_DISAGREE", Refusal::CountsDisagree),
    ("FIRST_TOO_LONG", Refusal::FirstTooLong),
    ("SECOND_TOO_LONG", Refusal::SecondTooLong),
    ("REGION_FULL", Refusal::RegionFull),
    ("RING_FULL", Refusal::RingFull),
    ("ENTRIES_PENDING", Refusal::EntriesPending),
    ("NOTHING_THERE", Refusal::NothingThere),
    ("OUTPUT_TOO_SHORT", Refusal::OutputTooShort),
    ("LENGTH_TOO_LARGE", Refusal::LengthTooLarge),
    ("IMAGE_NOT_WHOLE", Refusal::ImageNotWhole),
    ("CHECKSUM_DIFFERS", Refusal::ChecksumDiffers { block: 0 }),
    ("PAYLOAD_NOT_WHOLE", Refusal::PayloadNotWhole),
    ("UNREADABLE", Refusal::Unreadable),
    ("RING_UNREADABLE", Refusal::RingUnreadable),
    ("PLACE_NOT_VALID", Refusal::PlaceNotValid),
    ("NO_FREEZE", Refusal::NoFreeze),
    ("CARD_UNFORMED", Refusal::CardUnformed),
    ("CARD_FULL", Refusal::CardFull),
    ("KEY_TOO_LONG", Refusal::KeyTooLong),
    ("TABLE_FULL", Refusal::TableFull),
    ("NO_KEY", Refusal::NoKey),
];

const PLACES: &[(&str, usize)] = &[
    ("WORD_LAYOUT", word::LAYOUT),
    ("WORD_N", word::N),
    ("WORD_R", word::R),
    ("WORD_START", word::START),
    ("WORD_FROZEN_ENTRIES", word::FROZEN_ENTRIES),
    ("WORD_FROZEN_BYTES", word::FROZEN_BYTES),
    ("WORD_MEMORY_ENTRIES", word::MEMORY_ENTRIES),
    ("WORD_MEMORY_BYTES", word::MEMORY_BYTES),
    ("WORD_WRITTEN", word::WRITTEN),
    ("WORD_FROZEN_BLOCKS", word::FROZEN_BLOCKS),
    ("WORD_REPLAY_PLACE", word::REPLAY_PLACE),
    ("WORD_REPLAY_BYTES", word::REPLAY_BYTES),
    ("WORD_REPLAY_ENTRIES", word::REPLAY_ENTRIES),
    ("WORD_FRONT_PRESENT", word::FRONT_PRESENT),
    ("WORD_FRONT_BLOCKS", word::FRONT_BLOCKS),
    ("WORD_BACK_PRESENT", word::BACK_PRESENT),
    ("WORD_BACK_BLOCKS", word::BACK_BLOCKS),
    ("WORD_CLONES", word::CLONES),
    ("WORD_LAST_ENTRIES", word::LAST_ENTRIES),
    ("WORD_LAST_BYTES", word::LAST_BYTES),
    ("WORD_LAST_BLOCKS", word::LAST_BLOCKS),
];

const SIZES: &[(&str, u64)] = &[
    ("WORDS", nungakes::WORDS as u64),
    ("LAYOUT", nungakes::LAYOUT),
    ("BLOCK", nungakes::BLOCK as u64),
    ("PAYLOAD", nungakes::PAYLOAD as u64),
    ("MOST_BLOCKS", nungakes::MOST_BLOCKS as u64),
    ("MOST_RING", nungakes::MOST_RING as u64),
    ("FIRST_LIMIT", nungakes::FIRST_LIMIT as u64),
    ("VALUE_LIMIT", nungakes::VALUE_LIMIT as u64),
    ("TO_LIMIT", nungakes::TO_LIMIT as u64),
    ("CARD_START", nungakes::CARD_START as u64),
    ("CARD_LENGTH", nungakes::CARD_LENGTH as u64),
];

/// The answer of top is an array in C, and a struct in Rust.
const OF_C_ALONE: [&str; 3] = ["TOP", "INSERT", "CLONE"];

#[test]
fn the_same_numbers() {
    let refusals = REFUSALS.iter().map(|&(name, refusal)| (name, refusal.number().into()));
    let places = PLACES.iter().map(|&(name, place)| (name, place as u64));
    let in_rust: BTreeMap<_, _> = refusals.chain(places).chain(SIZES.iter().copied()).collect();
    let mut in_c = defined();
    for name in OF_C_ALONE {
        assert!(in_c.remove(name).is_some(), "{name} is not defined");
    }
    assert_eq!(in_c, in_rust);
    assert_eq!(PLACES.len(), nungakes::WORDS, "each word has a place");
}

#[test]
fn the_same_version() {
    let line = format!("#define JOURNAL_LIBRARY_VERSION \"{}\"", nungakes::LIBRARY_VERSION);
    assert_eq!(HEADER.lines().filter(|&own| own == line).count(), 1);
    assert_eq!(
        nungakes::LIBRARY_VERSION.split('.').filter(|n| n.parse::<u32>().is_ok()).count(),
        3
    );
}

/// A code and its refusal are one to one, and each has a text of its own.
#[test]
fn codes() {
    let mut texts: Vec<String> = REFUSALS.iter().map(|(_, refusal)| refusal.to_string()).collect();
    texts.sort();
    texts.dedup();
    assert!(texts.len() == REFUSALS.len() && texts.iter().all(|text| !text.is_empty()));
    for &(_, refusal) in REFUSALS {
        assert_eq!(Refusal::of_code(refusal.number().into()), Some(refusal));
    }
    let named = Refusal::of_code(12 + 256 * 300);
    assert_eq!(named, Some(Refusal::ChecksumDiffers { block: 300 }));
    assert_eq!(named.unwrap().to_string(), "the checksum of block 300 differs");
    for code in [0, 23, 255, 256, 1 + 256, 11 + 256, 13 + 256, u64::MAX] {
        assert_eq!(Refusal::of_code(code), None, "{code}");
    }
}
