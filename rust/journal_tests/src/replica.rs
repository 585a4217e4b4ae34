//! A call on a replica as a value: it is made of the library, of the model or of the plain Rust implementation, on
//! guarded memory, so that each byte and word that is lent can be compared afterwards.
use crate::guarded::Guarded;
use crate::model::{plain, replica as model};
use nungakes_replica::calls;

#[derive(Clone, Copy, Debug, PartialEq, Eq, PartialOrd, Ord)]
pub enum Call {
    /// Key and value are read.
    Insert,
    /// From and to are read.
    Clone,
    /// The key is read, and the words are the answer's.
    Lookup,
    /// The replay is read, and the words are the record's.
    Replay,
}

pub use Call::*;

impl Call {
    /// The numbers that it may refuse with, in the order of its tests. (2 is also a replay's step's.)
    pub fn numbers(self) -> &'static [u64] {
        match self {
            Insert => &[2, 3, 4, 21],
            Clone => &[2, 3, 4, 20, 21],
            Lookup => &[2, 8, 9],
            Replay => &[2, 8, 14, 20, 21],
        }
    }
}

/// What a call is lent. A wrong one may write where a right one only reads.
#[derive(Clone, Debug, Default, PartialEq)]
pub struct Lent {
    pub rows: Vec<u64>,
    pub table: Vec<u8>,
    pub work: Vec<u8>,
    pub read: [Vec<u8>; 2],
    pub words: Vec<u64>,
}

/// The same as a call gets it.
pub struct Slices<'a> {
    pub words: [&'a mut [u64]; 2],
    pub bytes: [&'a mut [u8]; 4],
}

/// Makes a call by the functions of a module.
macro_rules! made {
    ($call:expr, $lent:expr, $of:path) => {{
        use $of as of;
        let Slices { words: [rows, words], bytes: [table, work, a, b] } = $lent;
        match $call {
            Insert => of::insert(rows, table, work, a, b),
            Clone => of::clone(rows, table, work, a, b),
            Lookup => of::lookup(rows, table, a, words),
            Replay => of::replay(words, a, rows, table, work),
        }
    }};
}

impl Call {
    pub fn of_library(self, lent: Slices) -> u64 {
        made!(self, lent, calls)
    }

    pub fn of_model(self, lent: Slices) -> u64 {
        made!(self, lent, model)
    }

    pub fn of_plain(self, lent: Slices) -> u64 {
        made!(self, lent, plain::replica)
    }
}

impl Lent {
    pub fn slices(&mut self) -> Slices<'_> {
        let Lent { rows, table, work, read: [a, b], words } = self;
        Slices { words: [rows, words], bytes: [table, work, a, b] }
    }
}

/// So many bytes before each that is lent are compared too. Behind it is the guard.
const BEFORE: usize = 16;
const UNTOUCHED: [u8; BEFORE] = [0xA5; BEFORE];

/// What calls are lent, guarded: words first.
pub struct Memory([Guarded; 6]);

impl Default for Memory {
    fn default() -> Self {
        Memory([0; 6].map(Guarded::new))
    }
}

const NAMES: [&str; 6] = ["rows", "words", "table", "work", "first bytes", "second bytes"];

fn as_bytes(words: &[u64]) -> Vec<u8> {
    words.iter().flat_map(|word| word.to_ne_bytes()).collect()
}

impl Lent {
    fn all(&self) -> [Vec<u8>; 6] {
        let Lent { rows, table, work, read: [a, b], words } = self.clone();
        [as_bytes(&rows), as_bytes(&words), table, work, a, b]
    }
}

impl Memory {
    fn hold(&mut self, lent: &Lent) {
        for (held, s) in self.0.iter_mut().zip(lent.all()) {
            held.hold_behind(UNTOUCHED, &s);
        }
    }

    fn slices(&mut self) -> Slices<'_> {
        let [rows, words, bytes @ ..] = &mut self.0;
        Slices {
            words: [rows, words].map(|held| &mut held.words()[BEFORE / 8..]),
            bytes: bytes.each_mut().map(|held| &mut held.bytes()[BEFORE..]),
        }
    }

    /// Of what is held, all that differs from `lent`, or that stands before it.
    fn different(&mut self, lent: &Lent) -> Vec<&'static str> {
        let all = self.0.iter_mut().zip(lent.all()).zip(NAMES);
        let differs =
            |held: &mut Guarded, s: Vec<u8>| held.bytes() != [&UNTOUCHED[..], &s].concat();
        all.filter_map(|((held, s), name)| differs(held, s).then_some(name)).collect()
    }
}

/// How a call may be made, as `Call::of_library`.
pub type Made<'a> = &'a dyn Fn(Call, Slices) -> u64;

/// What the model gives, and what it leaves in all that is lent, if each of these ways gives and leaves the same.
pub fn compared(
    memory: &mut Memory,
    call: Call,
    lent: &Lent,
    ways: &[Made],
) -> Result<(u64, Lent), String> {
    let mut wanted = lent.clone();
    let right = call.of_model(wanted.slices());
    assert!(right == 0 || wanted == *lent, "{call:?}: the model's refusal changes something");
    for (k, way) in ways.iter().enumerate() {
        memory.hold(lent);
        let code = way(call, memory.slices());
        let different = memory.different(&wanted);
        if code != right || !different.is_empty() {
            let Lent { rows, table, read, words, .. } = lent;
            return Err(format!(
                "{call:?}, way {k}, gives {code} for {right}, {different:?} differ: \
                 rows {rows:?} in {} bytes, {read:?}, {words:?}",
                table.len()
            ));
        }
    }
    Ok((right, wanted))
}
