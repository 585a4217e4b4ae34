//! The document's history rule: plain lists that are fed each call's kind, its entry or length if it
//! has one, and whether it was refused.
use journal_tests::model::block::PAYLOAD;
use journal_tests::model::writing::Entry;
use std::mem::take;

/// A call as the rule sees it.
pub enum Fed {
    Append(Entry),
    Freeze,
    Thaw,
    PackageFrozen,
    PackageInMemory,
    SetWritten(u64),
    UpdateWritten(u64),
    Other,
}

#[derive(Default)]
pub struct Lists {
    pub out: Vec<Entry>,
    pub frozen: Vec<Entry>,
    pub memory: Vec<Entry>,
    pub held: u64,
    pub written: u64,
    /// What the last freeze that moved any entries moved, and the blocks that it added to held; nothing
    /// where it was taken back or packaged.
    pub last: Vec<Entry>,
    pub last_blocks: u64,
}

pub fn bytes(list: &[Entry]) -> u64 {
    list.iter().map(|entry| entry.weight() as u64).sum()
}

pub fn weight(list: &[Entry]) -> u64 {
    if list.is_empty() {
        0
    } else {
        8 + bytes(list)
    }
}

pub fn forms(list: &[Entry]) -> Vec<u8> {
    list.iter().flat_map(Entry::wire_form).collect()
}

impl Lists {
    /// The blocks of a batch of memory.
    pub fn blocks(&self) -> u64 {
        weight(&self.memory).div_ceil(PAYLOAD as u64)
    }

    pub fn feed(&mut self, call: Fed, refused: bool) {
        if refused {
            return;
        }
        match call {
            Fed::Append(entry) => self.memory.push(entry),
            Fed::Freeze => {
                if !self.memory.is_empty() {
                    (self.last, self.last_blocks) = (self.memory.clone(), self.blocks());
                }
                self.held += self.blocks();
                self.frozen.append(&mut self.memory);
            }
            Fed::Thaw => {
                let last = take(&mut self.last);
                assert!(self.frozen.ends_with(&last), "what the last freeze moved is frozen last");
                self.frozen.truncate(self.frozen.len() - last.len());
                self.memory.splice(..0, last);
                self.held -= take(&mut self.last_blocks);
            }
            Fed::PackageFrozen => {
                self.out.append(&mut self.frozen);
                self.written += self.held;
                self.held = 0;
                (self.last, self.last_blocks) = (vec![], 0);
            }
            Fed::PackageInMemory => {
                self.written += self.blocks();
                self.out.append(&mut self.memory);
            }
            Fed::SetWritten(len) => (self.written, self.held) = (len, 0),
            Fed::UpdateWritten(len) => self.written = len,
            Fed::Other => {}
        }
    }
}
