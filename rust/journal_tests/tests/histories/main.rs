//! Long histories of calls, right and wrong ones, held after every call to plain lists that follow the
//! document's history rule; and from time to time to all that the rule says of what comes afterwards.
mod history;
mod lists;

use history::{History, Seen};
use journal_tests::model::block::PAYLOAD;
use journal_tests::model::writing::{self, Entry};
use journal_tests::random::{times, Random};

/// What a history's calls are like: how long the bytes of most entries are at least and at most, and
/// how many of a thousand calls are appends, while there is room.
#[derive(Clone, Copy)]
struct Temper {
    least: usize,
    most: usize,
    appends: usize,
}

/// An entry: some, one that just fits or just doesn't, one over a limit, or an insert without a key.
fn entry(history: &History, Temper { least, most, .. }: Temper, random: &mut Random) -> Entry {
    let is_clone = random.below(2) == 1;
    let limits = [512, if is_clone { 512 } else { 16_384 }];
    match random.below(20) {
        0..2 => {
            let room = random.one_of(&history.room()) as usize + random.below(2);
            let bytes = room.saturating_sub(8);
            let fewest = bytes.saturating_sub(limits[1]);
            if fewest <= limits[0] {
                let first = fewest + random.below(bytes.min(limits[0]) - fewest + 1);
                let [first, second] = [first, bytes - first].map(|n| random.bytes(n));
                return Entry { is_clone, first, second };
            }
            Entry::random(random, most)
        }
        2 => {
            let first = random.one_of(&[512, 513, 514, 4_096]);
            Entry { is_clone, first: random.bytes(first), second: random.bytes(9) }
        }
        3 => {
            let second = random.one_of(&[512, 513, 4_096, 16_384, 16_385]);
            Entry { is_clone, first: random.bytes(9), second: random.bytes(second) }
        }
        4 => {
            let second = random.below(most + 1);
            Entry { is_clone: false, first: vec![], second: random.bytes(second) }
        }
        _ => {
            let [first, second] = limits.map(|limit| {
                let [least, most] = [least, most].map(|n| n.min(limit));
                let len = least + random.below(most - least + 1);
                random.bytes(len)
            });
            Entry { is_clone, first, second }
        }
    }
}

/// A payload to set: of images, of a batch that is none of them, or of anything.
fn payload(history: &History, random: &mut Random) -> Vec<u8> {
    let payloads = history.payloads();
    let mut payload = match random.below(3) {
        0 if !payloads.is_empty() => payloads[random.below(payloads.len())].clone(),
        1 => {
            let weight = 8 * random.below(history.n as usize * 2 * PAYLOAD / 8);
            writing::batch(&writing::weighing(random, weight.min(20_000)), 0)
        }
        _ => random.bytes(PAYLOAD),
    };
    match random.below(8) {
        0 => drop(payload.pop()),
        1 => payload.truncate(0),
        2 => payload.extend(vec![0; PAYLOAD * history.n as usize]),
        _ => {}
    }
    payload
}

fn step(history: &mut History, temper: Temper, random: &mut Random) {
    let full = history.room().into_iter().any(|room| room < 8 + 2 * temper.least as u64);
    if random.below(1_000) < if full { temper.appends / 3 } else { temper.appends } {
        let entry = entry(history, temper, random);
        history.append(entry, random.below(50) > 0);
        return;
    }
    let more = random.one_of(&[0, 0, 0, 1, 5_000, -1, -4_096]);
    match random.below(24) {
        0..6 => history.freeze(),
        6..9 => history.thaw(),
        9..12 => history.package(true, random.below(8), more, random),
        12..15 => history.package(false, random.below(8), more, random),
        15..17 => {
            let some = random.below(history.n as usize + 1) as u64;
            history.set_written(random.one_of(&[some, some, history.n, history.n + 1, u64::MAX]));
        }
        17..20 => {
            let written = history.lists.written;
            let some = random.below(written as usize + 1) as u64;
            let lengths = [0, 0, 0, some, some, written, written + 1, history.n, u64::MAX];
            history.update_written(random.one_of(&lengths));
        }
        20 => {
            let payload = payload(history, random);
            history.set_side(random.below(2) == 0, &payload, more);
        }
        21 => history.load(random.below(4) > 0, more),
        _ => drop(history.pop(random.below(8))),
    }
}

/// What was handed out so far, in as many loads as needed, is the list of what went out.
fn recover(history: &mut History, random: &mut Random) {
    let mut found = vec![];
    let mut part = vec![];
    let most = 2 * PAYLOAD * history.n as usize;
    for payload in history.payloads().into_iter().map(Some).chain([None]) {
        let ends = payload.as_ref().is_none_or(|payload| part.len() + payload.len() > most);
        if ends {
            recover_part(history, &part, random);
            while let Some(entry) = history.pop(0) {
                found.push(entry);
            }
            part.clear();
        }
        part.extend(payload.unwrap_or_default());
    }
    assert!(found == history.lists.out, "what is recovered");
}

/// The part is loaded, split between front and back. A side of no blocks may be absent.
fn recover_part(history: &mut History, part: &[u8], random: &mut Random) {
    let [all, n] = [part.len() / PAYLOAD, history.n as usize];
    let split = all.saturating_sub(n) + random.below(all.min(n) - all.saturating_sub(n) + 1);
    let (front, back) = part.split_at(PAYLOAD * split);
    let mut sides = [(true, front), (false, back)];
    if random.below(2) == 0 {
        sides.reverse();
    }
    for (is_front, side) in sides {
        let absent = if is_front { history.front.is_none() } else { history.back.is_none() };
        if !(side.is_empty() && absent && random.below(2) == 0) {
            history.set_side(is_front, side, random.one_of(&[0, 100]));
        }
    }
    history.load(true, random.one_of(&[0, 100]));
}

/// A history of so many steps.
fn run(n: u64, r: u64, temper: Temper, steps: usize, random: &mut Random) -> Seen {
    let mut history = History::open(n, r, random);
    history.check_whole();
    for k in 1..=steps {
        step(&mut history, temper, random);
        if random.below(steps) < 3 {
            recover(&mut history, random);
        }
        if k.is_multiple_of(steps / 8) {
            history.check_whole();
        }
    }
    recover(&mut history, random);
    history.check_whole();
    let no_room = history.seen.keys().any(|(_, number)| *number == 6);
    assert!(!no_room || r < PAYLOAD as u64 * n, "a ring as long as the region is full");
    history.seen
}

fn total(all: &[Seen]) -> Seen {
    let mut seen = Seen::new();
    for (answer, times) in all.iter().flatten() {
        *seen.entry(*answer).or_default() += times;
    }
    println!("{} calls: {seen:?}", seen.values().sum::<usize>());
    seen
}

/// Regions of a few blocks, and rings from none to more than the region.
#[test]
fn small_regions() {
    let random = &mut Random(1);
    let mut all = vec![];
    for round in 0..300 * times() as u64 {
        let n = 1 + round % 6;
        let region = PAYLOAD as u64 * n;
        let some = random.below(2 * region as usize) as u64;
        let r =
            random.one_of(&[0, 8, 9, 40, 500, 2_000, 4_064, region, region + 1, some, some, some]);
        let most = random.one_of(&[0, 3, 40, 300, 1_024, 16_384]);
        let temper = Temper { least: 0, most, appends: random.one_of(&[200, 500, 800]) };
        all.push(run(n, r, temper, 500, random));
    }
    let seen = total(&all);
    let wanted: [(&str, &[u8]); 18] = [
        ("append", &[0, 2, 3, 4, 5, 6, 22]),
        ("append of long ones", &[0, 2, 4, 5, 6, 22]),
        ("freeze", &[0]),
        ("freeze of nothing", &[0]),
        ("load", &[0, 2, 9, 14]),
        ("package frozen", &[0, 2, 8, 9, 15]),
        ("package in memory", &[0, 2, 7, 8, 9, 15]),
        ("pop", &[0, 2, 8, 14]),
        ("queries", &[0]),
        ("set back", &[0, 9, 13]),
        ("set front", &[0, 9, 13]),
        ("set written", &[0, 7, 10]),
        ("thaw", &[0, 17]),
        ("thaw before appends", &[0, 17]),
        // never 17: where others are frozen and none is remembered, a thaw put some in memory
        ("thaw behind others", &[0]),
        ("thaw between", &[0, 17]),
        ("top", &[0, 2, 8, 14]),
        ("update written", &[0, 10]),
    ];
    let wanted = wanted.iter().flat_map(|(name, all)| all.iter().map(|number| (*name, *number)));
    assert!(wanted.eq(seen.keys().copied()), "{seen:?}");
}

#[test]
fn regions_of_many_blocks() {
    let random = &mut Random(2);
    let mut all = vec![];
    let sizes = [(16, 9_000), (20, 40_000), (64, 100_000), (64, 260_096), (300, 20_000)];
    for (n, r) in sizes.repeat(times()) {
        for (most, appends) in [(40, 850), (1_024, 900), (16_384, 500)] {
            all.push(run(n, r, Temper { least: 0, most, appends }, 1_600, random));
        }
    }
    total(&all);
}

/// The most blocks, with the longest ring and with shorter ones; the region is filled more than once.
#[test]
fn the_largest() {
    let random = &mut Random(3);
    let rings = [(8_388_608, 1_024, 6_000), (4_161_536, 16_384, 2_000), (2_000_000, 1_024, 6_000)];
    let all = rings.map(|(r, most, steps)| {
        let temper = Temper { least: 500, most, appends: 998 };
        run(1_024, r, temper, steps, random)
    });
    let seen = total(&all);
    assert!([5, 6].iter().all(|number| seen.contains_key(&("append", *number))), "{seen:?}");
}
