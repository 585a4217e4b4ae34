//! The record's calls on words, as a C caller has them: one journal from its opening to its replay,
//! with the layout of the words written out; and words that say no record.
use journal_tests::model::record::{LAYOUT, WORDS};
use nungakes::calls;

const RING: usize = 600;
const BLOCKS: u64 = 4;
/// What lies behind the record's words.
const BEHIND: u64 = 0xDEAD;

/// A record with nothing in it, by the layout.
fn empty() -> [u64; WORDS + 1] {
    let mut words = [0; WORDS + 1];
    words[..3].copy_from_slice(&[LAYOUT, BLOCKS, RING as u64]);
    words[WORDS] = BEHIND;
    words
}

fn asked(call: impl Fn(&[u64], &mut [u64]) -> u64, words: &[u64]) -> u64 {
    assert_eq!(call(words, &mut []), 9);
    let mut answer = [7, 7];
    assert_eq!(call(words, &mut answer), 0);
    assert_eq!(answer[1], 7);
    answer[0]
}

#[test]
fn one_journal() {
    let mut words = [5; WORDS + 1];
    words[WORDS] = BEHIND;
    assert_eq!(calls::open(&mut words, 0, 0), 1);
    assert_eq!(calls::open(&mut words[..WORDS - 1], 0, 0), 1);
    assert_eq!(calls::open(&mut words[..WORDS - 1], BLOCKS, RING as u64), 9);
    assert_eq!(words[..WORDS], [5; WORDS]);
    assert_eq!(calls::open(&mut words, BLOCKS, RING as u64), 0);
    assert_eq!(words, empty());

    let mut ring = [0; RING];
    assert_eq!(calls::append_insert(&mut words, &mut ring, b"key", b"value"), 0);
    assert_eq!(words[6..8], [1, 16]);
    assert_eq!(ring[..16], *b"\x03\0\0\0key\x05\0\0\0value");
    assert_eq!(calls::freeze(&mut words), 0);
    assert_eq!((words[4], words[5], words[6], words[7], words[9]), (1, 16, 0, 0, 1));
    assert_eq!(calls::append_clone(&mut words, &mut ring, b"from", b"to"), 0);
    assert_eq!(ring[16..30], *b"\x04\x10\0\0from\x02\0\0\0to");
    assert_eq!((words[17], asked(calls::waiting_clones, &words)), (1, 1));
    assert_eq!(calls::append_clone(&mut words, &mut ring, &[0; 513], b"to"), 3);
    assert_eq!(calls::set_written(&mut words, 0), 7);
    assert_eq!((asked(calls::has_frozen, &words), asked(calls::has_in_memory, &words)), (1, 1));

    let mut out = [0; 8192];
    assert_eq!(calls::package_in_memory(&mut words, &ring, &mut out), 7);
    assert_eq!(calls::package_frozen(&mut words, &ring, &mut out[..4095]), 9);
    assert_eq!(calls::package_frozen(&mut words, &ring, &mut out[..4096]), 0);
    assert_eq!((words[3], words[4], words[5], words[8], words[9]), (16, 0, 0, 1, 0));
    words[17] = 0;
    assert_eq!(calls::package_in_memory(&mut words, &ring, &mut out[4096..]), 15);
    words[17] = 1;
    assert_eq!(calls::package_in_memory(&mut words, &ring, &mut out[4096..]), 0);
    assert_eq!((words[17], asked(calls::waiting_clones, &words)), (0, 0));
    assert_eq!(calls::package_frozen(&mut words, &ring, &mut out), 8);
    assert_eq!(asked(calls::get_written, &words), 2);

    let mut payload = [0; 8128];
    assert_eq!(calls::strip(&out, &mut payload), 0);
    let (mut front, mut back, mut replay) = ([0; 4064], [0; 4064], [0; 31]);
    assert_eq!(calls::set_front(&mut words, &payload[..4000], &mut front), 13);
    assert_eq!(calls::set_front(&mut words, &payload[..4064], &mut front), 0);
    assert_eq!(calls::set_back(&mut words, &payload[4064..], &mut back), 0);
    assert_eq!(words[13..17], [1, 1, 1, 1]);
    assert_eq!((asked(calls::has_front, &words), asked(calls::has_back, &words)), (1, 1));
    assert_eq!(calls::load(&mut words, &front, &back, &mut replay[..29]), 9);
    assert_eq!(calls::load(&mut words, &front, &back, &mut replay), 0);
    assert_eq!(words[10..17], [0, 30, 2, 0, 0, 0, 0]);
    assert_eq!(replay[..30], ring[..30]);

    let mut top = [7; 6];
    assert_eq!(calls::top(&words, &replay, &mut top[..4]), 9);
    assert_eq!(calls::top(&words, &replay, &mut top), 0);
    assert_eq!(top, [0, 3, 4, 5, 11, 7]);
    assert_eq!(calls::pop(&mut words, &replay), 0);
    assert_eq!(calls::top(&words, &replay, &mut top), 0);
    assert_eq!(top, [1, 4, 20, 2, 28, 7]);
    assert_eq!(calls::pop(&mut words, &replay), 0);
    assert_eq!(words[10..13], [30, 0, 0]);
    assert_eq!(asked(calls::is_replay_empty, &words), 1);
    assert_eq!(calls::pop(&mut words, &replay), 8);
    assert_eq!(calls::top(&words, &replay, &mut top), 8);

    assert_eq!(calls::update_written(&mut words, 3), 10);
    assert_eq!(calls::update_written(&mut words, 1), 0);
    assert_eq!(calls::set_written(&mut words, 4), 0);
    assert_eq!((words[8], words[WORDS]), (4, BEHIND));
}

#[test]
fn a_freeze_taken_back() {
    let (mut words, mut ring) = (empty(), [0; RING]);
    assert_eq!(calls::thaw(&mut words), 17);
    assert_eq!(words, empty());
    assert_eq!(calls::append_clone(&mut words, &mut ring, b"from", b"to"), 0);
    let before = words;
    assert_eq!(words[4..10], [0, 0, 1, 14, 0, 0]);
    assert_eq!(calls::freeze(&mut words), 0);
    assert_eq!(words[4..10], [1, 14, 0, 0, 0, 1]);
    assert_eq!(words[17..], [1, 1, 14, 1, BEHIND]);
    assert_eq!(calls::thaw(&mut words[..WORDS - 1]), 2);
    assert_eq!(calls::thaw(&mut words), 0);
    assert_eq!(words, before);
    assert_eq!(calls::thaw(&mut words), 17);
}

#[test]
fn damaged_words() {
    let mut damaged = vec![empty()[..WORDS - 1].to_vec(), vec![]];
    let layouts = [0, LAYOUT - 1, LAYOUT + 1].map(|word| (0, word));
    let sides = [(13, 2), (14, 1), (15, u64::MAX), (16, 1)];
    let counts = [17, 18, 19, 20].map(|place| (place, 1));
    for (place, word) in layouts.into_iter().chain(sides).chain(counts) {
        let mut words = empty();
        words[place] = word;
        damaged.push(words.to_vec());
    }
    for mut words in damaged {
        let before = words.clone();
        let (mut ring, mut out, mut answer) = ([0; RING], [0; 8192], [7; 5]);
        assert_eq!(calls::append_insert(&mut words, &mut ring, b"", b""), 2);
        assert_eq!(calls::append_clone(&mut words, &mut ring, b"", b""), 2);
        assert_eq!(calls::freeze(&mut words), 2);
        assert_eq!(calls::thaw(&mut words), 2);
        assert_eq!(calls::set_written(&mut words, 0), 2);
        assert_eq!(calls::update_written(&mut words, 0), 2);
        assert_eq!(calls::package_frozen(&mut words, &ring, &mut out), 2);
        assert_eq!(calls::package_in_memory(&mut words, &ring, &mut out), 2);
        assert_eq!(calls::set_front(&mut words, &[], &mut out), 2);
        assert_eq!(calls::set_back(&mut words, &[], &mut out), 2);
        assert_eq!(calls::load(&mut words, &[], &[], &mut out), 2);
        assert_eq!(calls::pop(&mut words, &[]), 2);
        assert_eq!(calls::top(&words, &[], &mut answer), 2);
        for query in [
            calls::has_frozen,
            calls::has_in_memory,
            calls::get_written,
            calls::waiting_clones,
            calls::is_replay_empty,
            calls::has_front,
            calls::has_back,
        ] {
            assert_eq!(query(&words, &mut answer), 2);
            assert_eq!(query(&words, &mut []), 2);
        }
        assert!(words == before && ring == [0; RING] && out == [0; 8192] && answer == [7; 5]);
    }
}
