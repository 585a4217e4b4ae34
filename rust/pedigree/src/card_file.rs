//! The unit's card as a file: read as a whole, and stored block by block, each synced before the next.
use nungakes::places::{next_start, of_block, Interval};
use nungakes::{card, Refusal, BLOCK, CARD_LENGTH, CARD_START};
use std::error::Error;
use std::fs::{File, OpenOptions};
use std::io;
use std::os::unix::fs::FileExt;

/// A card of so many blocks: its bytes in memory, and the file that has them after a power cut.
pub struct CardFile {
    blocks: usize,
    pub bytes: Vec<u8>,
    file: File,
}

impl CardFile {
    /// The file, made where there is none, and as long as the card.
    pub fn open(path: &str, blocks: usize) -> io::Result<Self> {
        let mut bytes = vec![0; (2 + blocks) * BLOCK];
        let file =
            OpenOptions::new().read(true).write(true).create(true).truncate(false).open(path)?;
        file.set_len(bytes.len() as u64)?;
        file.read_exact_at(&mut bytes, 0)?;
        Ok(CardFile { blocks, bytes, file })
    }

    /// Which blocks are live.
    pub fn live(&self) -> Interval {
        let number = |at: usize| {
            let bytes = [at, at + 1, at + 2, at + 3].map(|at| self.bytes[at]);
            u32::from_le_bytes(bytes).into()
        };
        Interval { start: number(CARD_START), len: number(CARD_LENGTH) }
    }

    /// Where in the card the block behind an interval is.
    pub fn behind(&self, interval: Interval) -> Result<usize, Refusal> {
        let n = self.blocks as u64;
        Ok(of_block(n, next_start(n, interval)?)? as usize)
    }

    /// Brings the block at a place to the medium.
    fn bring(&self, at: usize) -> io::Result<()> {
        self.file.write_all_at(&self.bytes[at..at + BLOCK], at as u64)?;
        self.file.sync_data()
    }

    pub fn format(&mut self) -> Result<(), Box<dyn Error>> {
        card::format(self.blocks, &mut self.bytes)?;
        Ok(self.bring(0)?)
    }

    /// Stores an image: one call for each block store, and the block is on the medium before the next.
    pub fn store(&mut self, image: &[u8]) -> Result<(), Box<dyn Error>> {
        let live = self.live();
        let mut made = 0;
        while card::store(self.blocks, &mut self.bytes, image, made)? {
            let before = Interval { len: live.len + made as u64, ..live };
            let is_last = made == image.len() / BLOCK;
            self.bring(if is_last { 0 } else { self.behind(before)? })?;
            made += 1;
        }
        Ok(())
    }

    /// Drops the oldest batch, whose blocks are used again: how many, and how many are left.
    pub fn release(&mut self) -> Result<(usize, usize), Box<dyn Error>> {
        let blocks = card::release(self.blocks, &mut self.bytes)?;
        self.bring(0)?;
        Ok((blocks, self.live().len as usize))
    }
}
