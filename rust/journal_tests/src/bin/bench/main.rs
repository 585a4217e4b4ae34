//! The exported calls beside plain Rust ones: a benchmark, never a test. In one run the rounds of all
//! ways to do a case's work take turns, so that a busy machine slows each of them alike.
//!
//! `bench [ROUNDS [CASE]]` makes so many rounds (else 21) of the cases whose first words are CASE. Of
//! each way it prints the nanoseconds for a call and for a byte and the MB/s, by its best round, and
//! how many times as long as this way Rattle takes, by the best and by the middle rounds.
mod appends;
mod cards;
mod checksums;
mod pieces;
mod replica;
mod small;

use journal_tests::model::crc;
use journal_tests::random::Random;
use nungakes::{LAYOUT, WORDS};
use pieces::Pieces;
use std::hint::black_box;
use std::time::Instant;

/// Some work, and the ways to do it: Rattle's is the first, plain Rust's the second. A round makes so
/// many calls, which are about so many bytes. Short rounds are made `often`: for each of the others,
/// but the first, so many.
pub struct Case<'a> {
    name: String,
    calls: usize,
    bytes: usize,
    often: usize,
    ways: Vec<Way<'a>>,
}

/// A round makes ready what it needs, and then is `timed`.
pub struct Way<'a> {
    name: &'static str,
    round: Box<dyn FnMut() -> Timed + 'a>,
}

impl<'a> Way<'a> {
    fn new(name: &'static str, round: impl FnMut() -> Timed + 'a) -> Self {
        Way { name, round: Box::new(round) }
    }

    /// The same as a limit for the others: what it gives is not compared.
    fn limit(name: &'static str, mut round: impl FnMut() -> Timed + 'a) -> Self {
        Way::new(name, move || Timed { given: None, ..round() })
    }
}

pub struct Timed {
    seconds: f64,
    /// What the work gave, which must be the same in every round of every way that gives something.
    given: Option<u64>,
}

impl Timed {
    /// With something else that the work gave.
    fn and(self, more: u64) -> Self {
        Timed { given: self.given.map(|given| given.rotate_left(32) ^ more), ..self }
    }
}

fn timed(work: impl FnOnce() -> u64) -> Timed {
    let began = Instant::now();
    let given = Some(black_box(work()));
    Timed { seconds: began.elapsed().as_secs_f64(), given }
}

/// Work that fills `out`, which is cleared before; what it leaves there is given too.
fn filling(out: &mut [u8], work: impl FnOnce(&mut [u8]) -> u64) -> Timed {
    out.fill(0);
    let timed = timed(|| work(out));
    timed.and(crc::slicing_by_8(out).into())
}

/// A record's words.
type Words = [u64; WORDS];

/// An empty record of the largest region, with other words at these places.
fn record(r: usize, others: &[(usize, usize)]) -> Words {
    let mut words = [0; WORDS];
    words[..3].copy_from_slice(&[LAYOUT, 1_024, r as u64]);
    for &(at, word) in others {
        words[at] = word as u64;
    }
    words
}

/// All words of some records in one number.
fn mixed(records: &[Words]) -> u64 {
    records.as_flattened().iter().fold(0, |sum: u64, word| sum.rotate_left(5) ^ word)
}

/// The best and the middle of each way's rounds, in seconds.
fn measured(case: &mut Case, rounds: usize) -> Vec<[f64; 2]> {
    let n = case.ways.len();
    let rounds = 1 + (rounds - 1) * case.often;
    let mut seconds = vec![Vec::new(); n];
    let mut wanted = None;
    for round in 0..rounds {
        // another way goes first in each round
        for k in (0..n).map(|k| (round + k) % n) {
            let timed = (case.ways[k].round)();
            if let Some(given) = timed.given {
                let wanted = *wanted.get_or_insert(given);
                assert_eq!(given, wanted, "{}, {}", case.name, case.ways[k].name);
            }
            seconds[k].push(timed.seconds);
        }
    }
    for s in &mut seconds {
        s.sort_by(f64::total_cmp);
    }
    seconds.iter().map(|s| [s[0], s[rounds / 2]]).collect()
}

/// A line for each way.
fn say(case: &Case, times: &[[f64; 2]]) {
    for (way, [best, middle]) in case.ways.iter().zip(times) {
        let a_call = best * 1e9 / case.calls as f64;
        let a_byte = best * 1e9 / case.bytes as f64;
        let speed = case.bytes as f64 / best / 1e6;
        let [than_best, than_middle] = [times[0][0] / best, times[0][1] / middle];
        println!(
            "{:25} {:11} {a_call:9.1} {a_byte:8.4} {speed:7.0} {than_best:8.3} {than_middle:7.3}",
            case.name, way.name
        );
    }
}

fn main() {
    let words: Vec<String> = std::env::args().skip(1).collect();
    let rounds = words.first().map_or(21, |word| word.parse().expect("ROUNDS is a number"));
    let only = words.get(1).map_or(String::new(), |word| format!("{word} "));

    let mut buffer = vec![0; 8 << 20];
    Random(1).fill(&mut buffer);
    let appends = [24, 100, 1_000, 16_000].map(appends::Appends::new);
    let sizes = [1, 4, 16, 64, 256, 1_024].map(|blocks| Pieces::new(blocks, &[3, 40, 1_024]));
    let tiny = Pieces::new(1_024, &[3]);
    let small = small::Small::new();
    let cards = [1, 16, 512].map(cards::Cards::new);
    let tables = [4 << 10, 64 << 10, 1 << 20].map(replica::Tables::new);
    let mut cases = checksums::cases(&buffer);
    cases.extend(appends.iter().map(|appends| appends.case()));
    for of in pieces::EACH_SIZE {
        cases.extend(sizes.iter().map(of));
    }
    let of_tiny = pieces::EACH_SIZE.map(|of| of(&tiny)).into_iter();
    cases.extend(of_tiny.map(|case| Case { name: format!("tiny {}", case.name), ..case }));
    cases.extend(small.cases());
    cases.extend(cards.iter().flat_map(|cards| cards.cases()));
    cases.extend(tables.iter().flat_map(|tables| tables.cases()));

    println!("                                         best                      rattle / this");
    println!("case                      way         ns/call  ns/byte    MB/s     best  middle");
    for mut case in cases.into_iter().filter(|case| format!("{} ", case.name).starts_with(&only)) {
        let times = measured(&mut case, rounds);
        say(&case, &times);
    }
}
