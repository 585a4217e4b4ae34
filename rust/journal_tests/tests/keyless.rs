//! Inserts without a key. Append refuses them, and what a unit still has of them is packaged as before: the record and
//! ring of tests/stored/keyless.journal were left by version 0.7.0, the last that took them, and keyless.image is what
//! it packaged of these, the frozen list and then the one in memory. (tests/values reads that image as any in store,
//! tests/replica replays it.)
use journal_tests::call::Call::{self, *};
use journal_tests::memory::Lent;
use journal_tests::model::block::{self, BLOCK, PAYLOAD};
use journal_tests::model::entries;
use journal_tests::model::record::WORDS;
use journal_tests::model::writing::{self, Entry};
use journal_tests::tally::{Journal, Tally};
use nungakes::word;
use std::fs;

fn stored(name: &str) -> Vec<u8> {
    let folder = concat!(env!("CARGO_MANIFEST_DIR"), "/../../tests/stored");
    fs::read(format!("{folder}/keyless.{name}")).unwrap()
}

/// The unit: its record's words, lowest byte first, and its ring.
fn unit() -> Journal {
    let bytes = stored("journal");
    let (words, ring) = bytes.split_at(8 * WORDS);
    let words = words.chunks(8).map(|word| u64::from_le_bytes(word.try_into().unwrap())).collect();
    Journal { words, ring: ring.into() }
}

/// What was pending: the frozen list, and the one in memory.
fn pending() -> [Vec<Entry>; 2] {
    let image = stored("image");
    let mut payload = vec![0; image.len() / BLOCK * PAYLOAD];
    assert_eq!(block::strip(&image, &mut payload), 0);
    let mut frozen = entries::range(&payload).unwrap();
    let memory = frozen.split_off(unit().words[word::FROZEN_ENTRIES] as usize);
    [frozen, memory].map(|list| {
        assert!(list.iter().any(|entry| !entry.has_key()));
        list
    })
}

/// A call that is lent the record alone.
fn alone(tally: &mut Tally, journal: &mut Journal, call: Call) {
    let lent = Lent { words: journal.words.clone(), ..Lent::default() };
    let (code, Lent { words, .. }) = tally.call(call, lent);
    assert_eq!(code, 0);
    journal.words = words;
}

/// The image of a list, which takes so many blocks.
fn image(
    tally: &mut Tally,
    journal: &mut Journal,
    call: Call,
    blocks: usize,
    list: &[Entry],
) -> Vec<u8> {
    assert_eq!(tally.package(journal, call, BLOCK * blocks, list), 0);
    let Lent { words, written, .. } = tally.memory.lent();
    journal.words = words;
    written
}

#[test]
fn left_in_a_ring() {
    let mut tally = Tally::default();
    let [frozen, memory] = pending();
    let mut journal = unit();
    let held = journal.words[word::FROZEN_BLOCKS] as usize;
    let first = image(&mut tally, &mut journal, PackageFrozen, held, &frozen);
    let second = image(&mut tally, &mut journal, PackageInMemory, 1, &memory);
    assert!([first, second].concat() == stored("image"), "another image");

    // the last freeze taken back, and all frozen again
    let mut journal = unit();
    alone(&mut tally, &mut journal, Thaw);
    alone(&mut tally, &mut journal, Freeze);
    let all = [frozen, memory].concat();
    let held = journal.words[word::FROZEN_BLOCKS] as usize;
    let written = image(&mut tally, &mut journal, PackageFrozen, held, &all);
    assert!(written == writing::image(&writing::batch(&all, 1)), "another image");
    tally.ends(&[0], 5);
}

/// Behind them append takes what has a key, or needs none.
#[test]
fn appended_behind() {
    let mut tally = Tally::default();
    let mut journal = unit();
    for second in [&b""[..], b"410"] {
        for (is_clone, first, wanted) in
            [(false, &b""[..], 22), (false, b"7", 0), (true, b"", 0), (true, b"7", 0)]
        {
            let entry = Entry { is_clone, first: first.into(), second: second.into() };
            assert_eq!(tally.append(&mut journal, &entry), wanted, "{entry:?}");
        }
    }
    tally.ends(&[0, 22], 8);
}
