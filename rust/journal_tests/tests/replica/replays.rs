//! Histories: entries that stations journalled and packaged, loaded and replayed into one table, call by call.
use crate::{clone, insert, map, Call::*, Replica, Tally};
use journal_tests::model::entries;
use journal_tests::model::replica::{stepped, table, Map};
use journal_tests::model::writing::{self, Entry};
use journal_tests::random::{times, Random};
use journal_tests::replica::Lent;
use nungakes::{word, Journal, Refusal, BLOCK, PAYLOAD};
use std::fs;
use std::slice::from_ref;

/// Blocks of a station's region, and of the centre's.
const BLOCKS: usize = 30;

/// Some entries over few bytes, and now and then one of any length, or a clone that may make too long a key.
fn entries(n: usize, random: &mut Random) -> Vec<Entry> {
    let short = |random: &mut Random| -> Vec<u8> {
        (0..random.below(4)).map(|_| random.one_of(b"ab")).collect()
    };
    let entry = |random: &mut Random| match random.below(12) {
        0 => Entry::random(random, 600),
        1 => clone(&short(random), &[b'b'; 510]),
        k => Entry { is_clone: k % 2 == 0, first: short(random), second: short(random) },
    };
    (0..n).map(|_| entry(random)).collect()
}

/// The image that a station makes of its entries, in one batch or in two. Inserts without keys are of an older station,
/// which still took them.
fn image(entries: &[Entry], random: &mut Random) -> Vec<u8> {
    let mut ring = vec![0; BLOCKS * PAYLOAD];
    let mut journal = Journal::open(BLOCKS, ring.len()).unwrap();
    let mut image = vec![0; BLOCKS * BLOCK];
    let mut blocks = 0;
    let (early, late) = entries.split_at(random.below(entries.len() + 1));
    for part in [early, late] {
        if !part.iter().all(Entry::has_key) {
            let older = writing::image(&writing::batch(part, 0));
            image[BLOCK * blocks..][..older.len()].copy_from_slice(&older);
            blocks += older.len() / BLOCK;
            continue;
        }
        for Entry { is_clone, first, second } in part {
            let append = if *is_clone { Journal::append_clone } else { Journal::append_insert };
            append(&mut journal, &mut ring, first, second).unwrap();
        }
        match journal.package_in_memory(&ring, &mut image[BLOCK * blocks..]) {
            Ok(more) => blocks += more,
            Err(refusal) => assert!(part.is_empty() && refusal == Refusal::NothingThere),
        }
    }
    image.truncate(BLOCK * blocks);
    image
}

/// The centre's journal that has loaded an image, and the replay. It is split anywhere between front and back.
fn loaded(image: &[u8], random: &mut Random) -> (Journal, Vec<u8>) {
    let blocks = image.len() / BLOCK;
    let mut journal = Journal::open(BLOCKS, 0).unwrap();
    let [mut payload, mut front, mut back, mut replay] =
        [(); 4].map(|()| vec![0; blocks * PAYLOAD]);
    nungakes::strip(image, &mut payload).unwrap();
    let (before, behind) = payload.split_at(PAYLOAD * random.below(blocks + 1));
    journal.set_front(before, &mut front).unwrap();
    journal.set_back(behind, &mut back).unwrap();
    journal.load(&front, &back, &mut replay).unwrap();
    (journal, replay)
}

impl Tally {
    /// Replays an entry into the table, as the map's own step; gives the code.
    fn replay(
        &mut self,
        centre: &mut (Journal, Vec<u8>),
        replica: &mut Replica,
        entry: &Entry,
        random: &mut Random,
    ) -> u64 {
        let (journal, replay) = centre;
        let lent = replica.lent(&insert(replay, &[]), random);
        let (code, after) = self.call(Replay, &Lent { words: journal.words().to_vec(), ..lent });
        let stepped = stepped(replica.map.clone(), entry, replica.table.len());
        assert_eq!(stepped.as_ref().err().copied().unwrap_or(0), code);
        let mut popped = journal.clone();
        if let Ok(map) = stepped {
            popped.pop(replay).unwrap();
            let len = replica.table.len();
            assert!(after.table == table(&map, len) && after.work == vec![0; len]);
            assert_eq!(after.rows[0], map.len() as u64);
            *replica = Replica { map, rows: after.rows[0], table: after.table };
        }
        // a refusal leaves the record
        assert_eq!(after.words, popped.words());
        *journal = popped;
        code
    }

    /// All of an image's entries. One that is refused is gone past, as the centre may.
    fn replay_all(
        &mut self,
        image: &[u8],
        replica: &mut Replica,
        entries: &[Entry],
        random: &mut Random,
    ) {
        let mut centre = loaded(image, random);
        for entry in entries {
            if self.replay(&mut centre, replica, entry, random) != 0 {
                let (journal, replay) = &mut centre;
                journal.pop(replay).unwrap();
            }
        }
        let (journal, replay) = &centre;
        assert_eq!(journal.is_replay_empty(), Ok(true));
        let words = journal.words().to_vec();
        let lent = Lent { words, ..replica.lent(&insert(replay, &[]), random) };
        assert_eq!(self.call(Replay, &lent), (8, lent));
    }
}

/// What is replayed is the map of the entries that were journalled, in tables with room and without.
#[test]
fn of_histories() {
    let (tally, random) = (&mut Tally::default(), &mut Random(1));
    for _ in 0..200 * times() {
        let entries = entries(random.one_of(&[0, 1, 10, 60]), random);
        let image = image(&entries, random);
        let replica = &mut Replica::new(Map::new(), random.one_of(&[100, 1_000, 20_000]));
        tally.replay_all(&image, replica, &entries, random);
        for key in replica.map.keys().cloned().collect::<Vec<_>>() {
            assert!(tally.lookup(replica, &key).is_ok());
        }
    }
    tally.ends(Replay, &[0, 8, 20, 21], 2_000);
}

/// Of an image in store, of a version that still took inserts without a key: they share a row.
#[test]
fn of_an_older_stations_image() {
    let (tally, random) = (&mut Tally::default(), &mut Random(5));
    let folder = concat!(env!("CARGO_MANIFEST_DIR"), "/../../tests/stored");
    let image = fs::read(format!("{folder}/keyless.image")).unwrap();
    let mut payload = vec![0; image.len() / BLOCK * PAYLOAD];
    nungakes::strip(&image, &mut payload).unwrap();
    let entries = entries::range(&payload).unwrap();
    let replica = &mut Replica::new(Map::new(), 1_000);
    tally.replay_all(&image, replica, &entries, random);
    assert_eq!(tally.lookup(replica, b""), Ok(b"weight 377".to_vec()));
    assert_eq!(tally.lookup(replica, b"copy/"), Ok(b"weight 395".to_vec()));
    tally.ends(Replay, &[0, 8], 8);
}

/// Two ranges one after the other are the joined range; and the same is had by the steps' own calls.
#[test]
fn of_ranges_joined() {
    let (tally, random) = (&mut Tally::default(), &mut Random(2));
    for _ in 0..100 * times() {
        let [a, b] = [(); 2].map(|()| entries(random.below(30), random));
        let images = [&a, &b].map(|entries| image(entries, random));
        let joined = [&a[..], &b].concat();
        let [mut one_by_one, mut at_once, mut by_steps] =
            [(); 3].map(|()| Replica::new(Map::new(), 2_000));
        tally.replay_all(&images[0], &mut one_by_one, &a, random);
        tally.replay_all(&images[1], &mut one_by_one, &b, random);
        tally.replay_all(&images.concat(), &mut at_once, &joined, random);
        for entry in &joined {
            tally.step(&mut by_steps, entry, random);
        }
        assert!(one_by_one.table == at_once.table && at_once.table == by_steps.table);
        assert!(one_by_one.rows == at_once.rows && at_once.rows == by_steps.rows);
    }
    assert!(tally.given[&Replay][&0] > 2_000, "{:?}", tally.given);
}

/// A table that is full: the entry stays the next until there is room.
#[test]
fn where_a_step_is_refused() {
    let (tally, random) = (&mut Tally::default(), &mut Random(3));
    let entry = insert(b"key", b"value");
    let centre = &mut loaded(&writing::image(&writing::batch(from_ref(&entry), 0)), random);
    let replica = &mut Replica::new(map(&[(b"other", b"longer value")]), 29);
    for (shorter, wanted) in [(&b"value"[..], 21), (b"v", 21), (b"", 0)] {
        assert_eq!(tally.replay(centre, replica, &entry, random), 21);
        assert_eq!(tally.step(replica, &insert(b"other", shorter), random), 0);
        assert_eq!(tally.replay(centre, replica, &entry, random), wanted);
    }
    assert_eq!(tally.lookup(replica, b"key"), Ok(b"value".to_vec()));
}

/// Each word of the record, and each byte of the replay, changed: what pop would say is said, whatever the table is.
#[test]
fn of_damaged_replays() {
    let (tally, random) = (&mut Tally::default(), &mut Random(4));
    let list = [insert(b"a", b"1"), insert(b"b", b"22")];
    let (journal, replay) = loaded(&writing::image(&writing::batch(&list, 0)), random);
    let replay = replay[..journal.words()[word::REPLAY_BYTES] as usize].to_vec();
    let whole = Replica::new(map(&[(b"a", b"0")]), 40);
    for damaged in [false, true] {
        let rows = whole.rows + u64::from(damaged);
        let replica = Replica { rows, ..whole.clone() };
        let mut compare = |words: &[u64], replay: &[u8], random: &mut Random| {
            let lent = Lent { words: words.to_vec(), ..replica.lent(&insert(replay, &[]), random) };
            let (code, _) = tally.call(Replay, &lent);
            let pop = nungakes::calls::pop(&mut words.to_vec(), replay);
            assert_eq!(code, if pop == 0 && damaged { 2 } else { pop });
        };
        for at in 0..nungakes::WORDS {
            let own = journal.words()[at];
            for word in [0, 1, 2, own + 1, own.wrapping_sub(1), 1 << 32, 1 << 61, 1 << 63, u64::MAX]
            {
                let mut words = *journal.words();
                words[at] = word;
                compare(&words, &replay, random);
            }
        }
        for (at, bit) in (0..replay.len()).flat_map(|at| (0..8).map(move |bit| (at, bit))) {
            let mut replay = replay.clone();
            replay[at] ^= 1 << bit;
            compare(journal.words(), &replay, random);
        }
        let mut words = *journal.words();
        words[word::REPLAY_BYTES..=word::REPLAY_ENTRIES].fill(0);
        compare(&words, &replay, random);
        for len in 0..replay.len() {
            compare(journal.words(), &replay[..len], random);
        }
    }
    tally.ends(Replay, &[0, 2, 8, 14], 700);
}
