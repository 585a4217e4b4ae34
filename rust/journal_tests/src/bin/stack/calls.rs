//! The calls that are measured: each exported function, at little and at very much.
use journal_tests::model::block::{BLOCK, PAYLOAD};
use journal_tests::model::card::with_live;
use journal_tests::model::entries;
use journal_tests::model::writing::{self, Entry};
use journal_tests::random::Random;
use nungakes::{raw, LAYOUT, WORDS};
use std::mem::take;

pub struct Row {
    pub name: &'static str,
    pub function: *const (),
    pub calls: Vec<Call>,
}

/// What a call is of; the record, if it is on one; and the other words that it gets.
pub struct Call {
    pub what: String,
    pub record: Option<[u64; WORDS]>,
    pub others: Vec<u64>,
}

/// A row of a function, by its name.
macro_rules! row {
    ($name:ident, $calls:expr) => {
        Row {
            name: stringify!($name),
            function: raw::$name as *const (),
            calls: $calls.into_iter().collect(),
        }
    };
}
pub(crate) use row;

/// The most blocks of a region, and those of the largest image: front and back together.
const MOST: usize = 1_024;
const BOTH: usize = 2 * MOST;
const LONGEST_RING: usize = 8_388_608;
const MILLION: usize = 1_000_000;

/// A slice as C gets it: a pointer and a count.
pub fn lent<T>(s: &[T]) -> [u64; 2] {
    [s.as_ptr() as u64, s.len() as u64]
}

pub fn filled<T>(s: &mut [T]) -> [u64; 2] {
    [s.as_mut_ptr() as u64, s.len() as u64]
}

/// An empty record with other words at these places.
pub fn record(n: usize, r: usize, others: &[(usize, usize)]) -> Option<[u64; WORDS]> {
    let mut words = [0; WORDS];
    words[..3].copy_from_slice(&[LAYOUT, n as u64, r as u64]);
    for &(at, word) in others {
        words[at] = word as u64;
    }
    Some(words)
}

/// Hands each row to `measure`, while what it points to is there.
pub fn each(measure: &mut dyn FnMut(Row)) {
    checksums(measure);
    images(measure);
    appends(measure);
    packagings(measure);
    recoveries(measure);
    replays(measure);
    records(measure);
    places(measure);
    cards(measure);
    card_stores(measure);
}

fn checksums(measure: &mut dyn FnMut(Row)) {
    let bytes = Random(1).bytes(LONGEST_RING);
    let mut out = [0_u8; 32];
    let out = filled(&mut out);
    let call = |n: usize, others: &[u64]| Call {
        what: format!("{n} bytes"),
        record: None,
        others: [&lent(&bytes[..n]), others].concat(),
    };
    let sizes = [0, 15, PAYLOAD, bytes.len()];
    measure(row!(journal_crc32c, sizes.map(|n| call(n, &[]))));
    measure(row!(journal_checksum, sizes.map(|n| call(n, &out))));
}

/// Tiny entries in so many blocks: in one batch, and in a batch for each block.
fn payloads(blocks: usize) -> [Vec<u8>; 2] {
    let random = &mut Random(2);
    let mut tiny = |blocks| writing::full_batch(blocks, || Entry::random(random, 3));
    [tiny(blocks), (0..blocks).flat_map(|_| tiny(1)).collect()]
}

fn blocks(n: usize) -> String {
    if n == 1 {
        "1 block".into()
    } else {
        format!("{n} blocks")
    }
}

fn images(measure: &mut dyn FnMut(Row)) {
    let payloads = [1, BOTH].map(payloads);
    let images = payloads.each_ref().map(|[in_one, _]| writing::image(in_one));
    let mut out = vec![0_u8; PAYLOAD * BOTH];
    let out = filled(&mut out);
    let strip = |image: &Vec<u8>| Call {
        what: blocks(image.len() / BLOCK),
        record: None,
        others: [lent(image), out].concat(),
    };
    measure(row!(journal_strip, images.iter().map(strip)));

    let mut totals = [0_u64; 2];
    let totals = filled(&mut totals);
    let range = |payload: &Vec<u8>, what: &str| {
        let (front, back) = payload.split_at(payload.len() / 2);
        let what = format!("{}, {what}", blocks(payload.len() / PAYLOAD));
        Call { what, record: None, others: [lent(front), lent(back), totals].concat() }
    };
    let in_one = payloads.iter().map(|[in_one, _]| range(in_one, "one batch"));
    let in_each = payloads.iter().map(|[_, in_each]| range(in_each, "a batch each"));
    measure(row!(journal_range, in_one.chain(in_each)));
}

/// An entry whose second bytes wrap in their middle: into an empty ring, and into one in which half a
/// million entries leave room for it alone, as they do in the region.
fn appends(measure: &mut dyn FnMut(Row)) {
    let bytes = [1_u8; 16_384];
    let mut ring = vec![0_u8; PAYLOAD * MOST];
    let mut append = |r: usize, pending: usize, first: usize, second: usize| {
        let end = (r - second / 2 - 8 - first) + r - pending;
        let what = format!("{first} and {second} bytes, {} pending in a ring of {r}", pending / 8);
        let memory = [(3, end % r), (6, pending / 8), (7, pending)];
        let [first, second] = [first, second].map(|n| lent(&bytes[..n]));
        let record = record(MOST, r, &memory);
        Call { what, record, others: [filled(&mut ring[..r]), first, second].concat() }
    };
    let room = |weight: usize| (PAYLOAD * MOST - 8 - weight) / 8 * 8;
    let mut both = |second: usize| {
        let [first, most] = [512, PAYLOAD * MOST];
        let longest = room(8 + first + second);
        [
            append(40, 0, 5, 9),
            append(most, room(22), 5, 9),
            append(30_000, 0, first, second),
            append(most, longest, first, second),
        ]
    };
    measure(row!(journal_append_insert, both(16_384)));
    measure(row!(journal_append_clone, both(512)));
}

/// Lists that fill one block, and all: they start near the ring's end, so that a length word wraps.
fn packagings(measure: &mut dyn FnMut(Row)) {
    let rings = [1, MOST].map(|blocks| {
        let [payload, _] = payloads(blocks);
        let mut totals = [0; 2];
        assert_eq!(nungakes::calls::range(&payload, &[], &mut totals), 0);
        let [entries, bytes] = totals.map(|n| n as usize);
        let clones = entries::clones(&entries::range(&payload).unwrap()) as usize;
        let mut ring = payload[8..8 + bytes].to_vec();
        ring.rotate_left(2);
        (blocks, [entries, clones], ring)
    });
    let mut out = vec![0_u8; BLOCK * MOST];
    let out = filled(&mut out);
    let call = |(n, [entries, clones], ring): &(usize, [usize; 2], Vec<u8>), list: usize| {
        let len = ring.len();
        let counts = [(3, len - 2), (list, *entries), (list + 1, len), (17, *clones)];
        // frozen at once, which is remembered
        let frozen = [(9, *n), (18, *entries), (19, len), (20, *n)];
        let frozen = if list == 4 { &frozen[..] } else { &[] };
        let record = record(*n, len, &[&counts, frozen].concat());
        Call { what: blocks(*n), record, others: [lent(ring), out].concat() }
    };
    measure(row!(journal_package_frozen, rings.iter().map(|ring| call(ring, 4))));
    measure(row!(journal_package_in_memory, rings.iter().map(|ring| call(ring, 6))));
}

fn recoveries(measure: &mut dyn FnMut(Row)) {
    let payloads = [1, BOTH].map(payloads);
    let mut buffer = vec![0_u8; PAYLOAD * BOTH];
    let buffer = filled(&mut buffer);
    let set = |n: usize| Call {
        what: blocks(n),
        record: record(MOST, 0, &[]),
        others: [lent(&payloads[1][0][..PAYLOAD * n]), buffer].concat(),
    };
    measure(row!(journal_set_front, [1, MOST].map(set)));
    measure(row!(journal_set_back, [1, MOST].map(set)));

    let load = |payload: &Vec<u8>, what: &str| {
        let n = payload.len() / PAYLOAD;
        let (front, back) = payload.split_at(n.div_ceil(2) * PAYLOAD);
        let sides = [(13, 1), (14, n.div_ceil(2)), (15, 1), (16, n / 2)];
        let what = format!("{}, {what}", blocks(n));
        let others = [lent(front), lent(back), buffer].concat();
        Call { what, record: record(MOST, 0, &sides), others }
    };
    let in_one = payloads.iter().map(|[in_one, _]| load(in_one, "one batch"));
    let in_each = payloads.iter().map(|[_, in_each]| load(in_each, "a batch each"));
    measure(row!(journal_load, in_one.chain(in_each)));
}

/// Zeros are entries without bytes.
fn replays(measure: &mut dyn FnMut(Row)) {
    let replay = vec![0_u8; 8 * MILLION];
    let mut top = [0_u64; 5];
    let top = filled(&mut top);
    let call = |entries: usize, others: &[u64]| Call {
        what: format!("the first of {entries}"),
        record: record(MOST, 0, &[(11, 8 * entries), (12, entries)]),
        others: [&lent(&replay), others].concat(),
    };
    measure(row!(journal_top, [1, MILLION].map(|n| call(n, &top))));
    measure(row!(journal_pop, [1, MILLION].map(|n| call(n, &[]))));
}

/// A record with much in everything, where all that is frozen is remembered; and the same without the lists.
fn full() -> [Option<[u64; WORDS]>; 2] {
    let half = PAYLOAD * MOST / 4;
    let list = |at: usize| [(at, half / 8 - 1), (at + 1, half - 8)];
    let replay = [(10, 8), (11, 8 * MILLION), (12, MILLION)];
    let sides = [(13, 1), (14, MOST), (15, 1), (16, MOST)];
    let others = [&[(3, 1), (8, MOST / 2), (9, MOST / 4)][..], &replay, &sides].concat();
    let last = [&list(18)[..], &[(20, MOST / 4)]].concat();
    let lists = [&list(4)[..], &list(6), &[(17, half / 8)], &last].concat();
    [[&others[..], &lists].concat(), others].map(|words| record(MOST, LONGEST_RING, &words))
}

/// Calls on a record alone: on an empty one, and on one with much in everything.
fn records(measure: &mut dyn FnMut(Row)) {
    let empty = record(1, 0, &[]);
    let [full, without_lists] = full();
    let call = |what: &str, record, others: &[u64]| Call {
        what: what.into(),
        record,
        others: others.into(),
    };
    let both = |others: &[u64]| {
        [call("an empty record", empty, others), call("a full record", full, others)]
    };
    let mut answer = [0_u64; 1];
    let answer = filled(&mut answer);

    measure(row!(
        journal_open,
        [
            call("the smallest", empty, &[1, 0]),
            call("the largest", full, &[MOST as u64, LONGEST_RING as u64])
        ]
    ));
    measure(row!(journal_freeze, both(&[])));
    let one = [(4, 1), (5, 8), (9, 1), (18, 1), (19, 8), (20, 1)];
    let thaw = [call("one entry", record(1, 8, &one), &[]), call("a full record", full, &[])];
    measure(row!(journal_thaw, thaw));
    let set = [
        call("an empty record", empty, &[1]),
        call("a full record", without_lists, &[MOST as u64]),
    ];
    measure(row!(journal_set_written, set));
    measure(row!(journal_update_written, both(&[0])));
    measure(row!(journal_has_frozen, both(&answer)));
    measure(row!(journal_has_in_memory, both(&answer)));
    measure(row!(journal_get_written, both(&answer)));
    measure(row!(journal_waiting_clones, both(&answer)));
    measure(row!(journal_is_replay_empty, both(&answer)));
    measure(row!(journal_has_front, both(&answer)));
    measure(row!(journal_has_back, both(&answer)));
}

/// In the smallest region, and in the largest where the interval wraps, if it may.
fn places(measure: &mut dyn FnMut(Row)) {
    let mut answer = [0_u64; 3];
    let answer = filled(&mut answer);
    let n = MOST as u64;
    let both = |small: &[u64], large: &[u64]| {
        [(1, small), (n, large)].map(|(n, numbers)| Call {
            what: format!("N = {n}, {}", listed(numbers)),
            record: None,
            others: [&[n], numbers, &answer].concat(),
        })
    };
    let wraps = [n - 1, n];
    measure(row!(journal_place_of_block, both(&[1], &[n])));
    measure(row!(journal_place_front, both(&[0, 1], &wraps)));
    measure(row!(journal_place_back, both(&[0, 1], &wraps)));
    measure(row!(journal_place_next_start, both(&[0, 1], &wraps)));
    measure(row!(journal_place_contained, both(&[0, 1, 0, 1], &[n - 1, 9, n - 1, n])));
    measure(row!(journal_place_overlap, both(&[0, 1, 0, 1], &[5, 9, n - 1, n])));
    measure(row!(journal_place_shares_block, both(&[0, 1, 0, 1], &[5, 9, n - 1, n])));
    measure(row!(journal_place_location, both(&[0, 1], &[0, n])));
    measure(row!(journal_place_interval, both(&[8_192, 4_096], &[8_192, 4_096 * n])));
}

/// The image of a batch of so many blocks: of the smallest entries, and of the largest, each of which needs five.
fn extremes(blocks: usize) -> [(&'static str, Vec<u8>); 2] {
    [("smallest", [0, 0], 1), ("largest", [512, 16_384], 5)].map(|(which, lens, least)| {
        let [first, second] = lens.map(|n| vec![1; n]);
        let entry = || Entry { is_clone: false, first: first.clone(), second: second.clone() };
        (which, writing::image(&writing::full_batch(blocks.max(least), entry)))
    })
}

/// A card of n blocks on which an image is live, from the last block on.
fn card(n: usize, live: &[u8]) -> Vec<u8> {
    with_live(n, n - 1, live, &mut Random(3))
}

/// A call on a card, which is in memory that stays.
fn on_card(what: String, card: &mut [u8], others: &[u64]) -> Call {
    let n = card.len() / BLOCK - 2;
    let what = format!("N = {n}, {what}");
    Call { what, record: None, others: [&[n as u64], &filled(card)[..], others].concat() }
}

/// All blocks live. A call is made twice, so that there are two batches to release.
fn cards(measure: &mut dyn FnMut(Row)) {
    let mut out = vec![0_u8; PAYLOAD * MOST];
    let mut answer = [0_u64; 1];
    let (out, answer) = (filled(&mut out), filled(&mut answer));
    let mut any = [1, MOST].map(|n| card(n, &[]));
    let format = any.iter_mut().map(|card| on_card("any bytes".into(), card, &[]));
    measure(row!(journal_card_format, format));

    let cards = |sizes: [usize; 2], times: usize| {
        let images = sizes.into_iter().flat_map(extremes);
        let card = |image: Vec<u8>| card(times * image.len() / BLOCK, &image.repeat(times));
        images.map(|(which, image)| (format!("{which} entries"), card(image))).collect::<Vec<_>>()
    };
    let mut full = cards([1, MOST], 1);
    let find =
        |(what, card): &mut (String, Vec<u8>)| on_card(take(what), card, &[out, answer].concat());
    measure(row!(journal_card_find, full.iter_mut().map(find)));
    let mut full = cards([1, MOST / 2], 2);
    let release = |(what, card): &mut (String, Vec<u8>)| on_card(take(what), card, &answer);
    measure(row!(journal_card_release, full.iter_mut().map(release)));
}

/// The first store of an image, and the last, for which there is room twice.
fn card_stores(measure: &mut dyn FnMut(Row)) {
    let mut answer = [0_u64; 1];
    let answer = filled(&mut answer);
    for (sizes, times) in [([(1, 1), (MOST, 1_000)], 1), ([(2, 1), (MOST, MOST / 2)], 2)] {
        let with_card = |n: usize, (which, image): (&'static str, Vec<u8>)| {
            let card = card(n.max(times * image.len() / BLOCK), &[]);
            (which, image, card)
        };
        let mut all: Vec<_> = sizes
            .into_iter()
            .flat_map(|(n, blocks)| extremes(blocks).map(|image| with_card(n, image)))
            .collect();
        let store = |(which, image, card): &mut (&str, Vec<u8>, Vec<u8>)| {
            let n = image.len() / BLOCK;
            let made = if times == 2 { n } else { 0 };
            let what = format!("{}, {which} entries, told {made}", blocks(n));
            on_card(what, card, &[&lent(image)[..], &[made as u64], &answer].concat())
        };
        measure(row!(journal_card_store, all.iter_mut().map(store)));
    }
}

fn listed(numbers: &[u64]) -> String {
    numbers.iter().map(u64::to_string).collect::<Vec<_>>().join(", ")
}
