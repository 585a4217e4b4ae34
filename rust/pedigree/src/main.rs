//! A small pedigree is journalled and stored on the unit's card, the power goes, and the pedigree is replayed:
//! c/pedigree.c in Rust.
//!
//! `pedigree CARD`. The card is a file, made where there is none, and formatted where it is not. What was stored as an
//! image, up to its last store, survives; what was still pending in the ring does not. Of a card that is formatted
//! already, what is found is replayed, and that is all.
mod card_file;

use card_file::CardFile;
use nungakes::{card, word, Entry, Journal, Refusal, BLOCK, PAYLOAD, WORDS};
use std::error::Error;

const BLOCKS: usize = 4;
const RING: usize = BLOCKS * PAYLOAD;

/// Of longer values, the length is printed.
const SHOWN: usize = 40;

type Done = Result<(), Box<dyn Error>>;

/// What a power cut takes.
struct Unit {
    journal: Journal,
    ring: [u8; RING],
}

impl Unit {
    fn insert(&mut self, key: &str, value: &str) -> Result<(), Refusal> {
        self.journal.append_insert(&mut self.ring, key.as_bytes(), value.as_bytes())
    }

    fn copy_line(&mut self, from: &str, to: &str) -> Result<(), Refusal> {
        self.journal.append_clone(&mut self.ring, from.as_bytes(), to.as_bytes())
    }

    /// The markers of four fish: more than a block of them.
    fn insert_markers(&mut self, first: usize) -> Result<(), Refusal> {
        for (k, base) in ["A", "C", "G", "T"].into_iter().enumerate() {
            self.insert(&format!("marker/{}", first + k), &base.repeat(1_000))?;
        }
        Ok(())
    }

    /// Stores the frozen list's image.
    fn store(&mut self, card: &mut CardFile) -> Done {
        let mut image = [0; BLOCKS * BLOCK];
        self.journal.freeze()?;
        let blocks = self.journal.package_frozen(&self.ring, &mut image)?;
        card.store(&image[..blocks * BLOCK])?;
        println!("on the card: {blocks} block(s)");
        Ok(())
    }
}

/// Three inserts go to the card, then markers and a clone; a fourth insert and another clone are still in the ring.
fn first_session(card: &mut CardFile) -> Done {
    let mut unit = Unit { journal: Journal::open(BLOCKS, RING)?, ring: [0; RING] };
    unit.insert("fish/17", "dam 4, sire 9")?;
    unit.insert("fish/18", "dam 4, sire 9")?;
    unit.journal.freeze()?;
    // a technician closes a session and finds one spawning missing
    unit.journal.thaw()?;
    println!("taken back: {} entries in memory", unit.journal.words()[word::MEMORY_ENTRIES]);
    unit.insert("fish/19", "dam 4, sire 9")?;
    unit.store(card)?;
    unit.insert_markers(1)?;
    unit.copy_line("fish/", "trial/")?;
    unit.store(card)?;
    unit.insert("fish/20", "still in the ring")?;
    unit.copy_line("fish/", "second trial/")?;
    // what staff look at before they unplug a unit
    println!("clones waiting: {}", unit.journal.waiting_clones()?);
    Ok(())
}

/// The oldest batch has to go; what comes then goes to the region's last block and, behind it, to its first.
fn second_session(mut journal: Journal, card: &mut CardFile) -> Done {
    let (blocks, left) = card.release()?;
    journal.update_written(left)?;
    println!("released: {blocks} block(s), {left} left");
    let mut unit = Unit { journal, ring: [0; RING] };
    unit.insert("fish/20", "dam 4, sire 9")?;
    unit.insert_markers(5)?;
    unit.store(card)
}

/// Prints the replay's entries, from the first to the last.
fn print_replay(journal: &mut Journal, replay: &[u8]) -> Result<(), Refusal> {
    let text = |s: &[u8]| match s.len() {
        0..=SHOWN => String::from_utf8_lossy(s).into_owned(),
        len => format!("{len} bytes"),
    };
    let why = loop {
        match journal.top(replay).map(|top| top.entry(replay)) {
            Ok(Entry::Insert { key, value }) => println!("insert {} {}", text(key), text(value)),
            Ok(Entry::Clone { from, to }) => println!("clone  {} {}", text(from), text(to)),
            Err(why) => break why,
        }
        journal.pop(replay)?;
    };
    println!("then {}: nothing is left", why.number());
    Ok(())
}

/// Find checks every live block. The payload is set as front, an empty one as back; both are loaded as one range.
fn replay_card(card: &CardFile) -> Result<Journal, Refusal> {
    let [mut payload, mut front, mut replay] = [[0; BLOCKS * PAYLOAD]; 3];
    let mut journal = Journal::open(BLOCKS, RING)?;
    let blocks = card::find(BLOCKS, &card.bytes, &mut payload)?;
    println!("found: {blocks} block(s)");
    journal.set_front(&payload[..blocks * PAYLOAD], &mut front)?;
    journal.set_back(&[], &mut [])?;
    journal.load(&front, &[], &mut replay)?;
    print_replay(&mut journal, &replay)?;
    journal.set_written(blocks)?;
    Ok(journal)
}

/// The record, the ring and the card's copy in memory are lost; what is on the medium is not.
fn power_goes(card: CardFile, path: &str) -> Result<CardFile, Box<dyn Error>> {
    drop(card);
    let damaged = Journal::from([u64::MAX; WORDS]).freeze();
    println!("a damaged record is refused: {}", damaged.unwrap_err().number());
    Ok(CardFile::open(path, BLOCKS)?)
}

/// A flipped bit in the last live block is found, and the block named, counted from the live start.
fn flip_a_bit(mut card: CardFile) -> Result<(), Refusal> {
    let mut last = card.live();
    last.len -= 1;
    let at = card.behind(last)? + 100;
    card.bytes[at] ^= 1;
    let flipped = card::find(BLOCKS, &card.bytes, &mut [0; BLOCKS * PAYLOAD]);
    if let Err(why @ Refusal::ChecksumDiffers { block }) = flipped {
        println!("a flipped bit is refused: {}, block {block}", why.number());
    }
    Ok(())
}

fn main() -> Done {
    let path = std::env::args().nth(1).ok_or("usage: pedigree CARD")?;
    let mut card = CardFile::open(&path, BLOCKS)?;
    match card::find(BLOCKS, &card.bytes, &mut [0; BLOCKS * PAYLOAD]) {
        Err(why @ Refusal::CardUnformed) => println!("not formatted: {}", why.number()),
        _ => return Ok(replay_card(&card).map(drop)?),
    }
    card.format()?;
    first_session(&mut card)?;
    card = power_goes(card, &path)?;
    let journal = replay_card(&card)?;
    second_session(journal, &mut card)?;
    card = power_goes(card, &path)?;
    replay_card(&card)?;
    Ok(flip_a_bit(card)?)
}
