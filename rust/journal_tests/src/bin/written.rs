//! Images that the packagings made, to standard output, the same in every run, for
//! tests/written_test.py. Each comes behind what it was made of: F for the frozen list and M for the
//! one in memory; the number of its parts, which were frozen one by one; of each part the number of
//! entries, and for each its kind (I or C), its two lengths and its bytes; and the image's length.
//! Numbers are 32-bit words, lowest byte first.
use journal_tests::model::block::{BLOCK, PAYLOAD};
use journal_tests::model::writing::{self, Entry};
use journal_tests::random::Random;
use nungakes::{calls, word, WORDS};
use std::io::{self, BufWriter, Write};

fn main() -> io::Result<()> {
    let random = &mut Random(12);
    let mut to = BufWriter::new(io::stdout().lock());
    for k in 0..300 {
        let entries = list(k, random);
        let parts = parts(&entries, random);
        let (frozen, image) = image(&parts, random);
        to.write_all(if frozen { b"F" } else { b"M" })?;
        word(&mut to, parts.len())?;
        for part in parts {
            word(&mut to, part.len())?;
            for Entry { is_clone, first, second } in part {
                to.write_all(if *is_clone { b"C" } else { b"I" })?;
                word(&mut to, first.len())?;
                word(&mut to, second.len())?;
                to.write_all(first)?;
                to.write_all(second)?;
            }
        }
        word(&mut to, image.len())?;
        to.write_all(&image)?;
    }
    to.flush()
}

fn word(to: &mut impl Write, n: usize) -> io::Result<()> {
    to.write_all(&(n as u32).to_le_bytes())
}

/// Some entries, or those that end near a block's end; one list in twenty is long.
fn list(k: usize, random: &mut Random) -> Vec<Entry> {
    if k.is_multiple_of(3) {
        let most = random.one_of(&[0, 3, 40, 1_024, 16_384]);
        return (0..1 + random.below(30)).map(|_| Entry::random(random, most).keyed()).collect();
    }
    let blocks = if k % 20 == 7 { 12 + random.below(20) } else { 1 + random.below(4) };
    let end = random.one_of(&[PAYLOAD - 2, PAYLOAD - 1, PAYLOAD, PAYLOAD + 1]);
    let list = writing::weighing(random, PAYLOAD * (blocks - 1) + end - 8);
    list.into_iter().map(Entry::keyed).collect()
}

/// The list as a whole, or in two or three parts that may be empty.
fn parts<'a>(list: &'a [Entry], random: &mut Random) -> Vec<&'a [Entry]> {
    let mut parts = vec![];
    let mut rest = list;
    for _ in 0..random.one_of(&[0, 0, 0, 1, 2]) {
        let (part, behind) = rest.split_at(random.below(rest.len() + 1));
        parts.push(part);
        rest = behind;
    }
    parts.push(rest);
    parts
}

fn append(words: &mut [u64], ring: &mut [u8], Entry { is_clone, first, second }: &Entry) {
    let append = if *is_clone { calls::append_clone } else { calls::append_insert };
    assert_eq!(append(words, ring, first, second), 0);
}

/// The image of these parts, and whether they were frozen; a whole list need not be. Some of a part may be
/// frozen before the rest is there, and is then taken back. The list starts anywhere in a ring that is
/// little longer, and behind a frozen one there may be an entry in memory. `out` has some bytes more.
fn image(parts: &[&[Entry]], random: &mut Random) -> (bool, Vec<u8>) {
    let frozen = parts.len() > 1 || random.below(2) == 0;
    let behind: Vec<Entry> =
        (0..random.below(2)).map(|_| Entry::random(random, 40).keyed()).collect();
    let behind = if frozen { &behind[..] } else { &[] };
    let weight = parts.iter().copied().flatten().chain(behind).map(Entry::weight).sum::<usize>();
    let more = [(); 2].map(|()| random.one_of(&[0, 1, 50]));
    let mut ring = random.bytes(weight + more[0]);
    let mut words = [0; WORDS];
    assert_eq!(calls::open(&mut words, 1_024, ring.len() as u64), 0);
    words[word::START] = random.below(ring.len()) as u64;
    for part in parts {
        let (early, rest) = part.split_at(random.below(part.len() + 1));
        early.iter().for_each(|entry| append(&mut words, &mut ring, entry));
        assert_eq!(calls::freeze(&mut words), 0);
        rest.iter().for_each(|entry| append(&mut words, &mut ring, entry));
        if !early.is_empty() {
            assert_eq!(calls::thaw(&mut words), 0);
        }
        if frozen {
            assert_eq!(calls::freeze(&mut words), 0);
        }
    }
    behind.iter().for_each(|entry| append(&mut words, &mut ring, entry));
    let mut out = random.bytes(BLOCK * 140 + more[1]);
    let package = if frozen { calls::package_frozen } else { calls::package_in_memory };
    assert_eq!(package(&mut words, &ring, &mut out), 0);
    out.truncate(BLOCK * words[word::WRITTEN] as usize);
    (frozen, out)
}
