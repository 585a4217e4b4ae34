//! What calls are lent, guarded, so that each byte can be compared afterwards.
use crate::guarded::Guarded;

/// So many bytes before those that a call writes are compared too. Behind them is the guard.
pub const BEFORE: usize = 16;

/// The byte that stands there.
const UNTOUCHED: u8 = 0xA5;

/// What calls are lent: bytes to read, in two parts or in the first alone, bytes or words to write,
/// and, on a record, its words and those of an answer.
pub struct Memory {
    pub read: [Guarded; 2],
    pub written: Guarded,
    pub words: Guarded,
    pub answer: Guarded,
}

/// The same as plain values.
#[derive(Clone, Debug, Default, PartialEq)]
pub struct Lent {
    pub read: [Vec<u8>; 2],
    pub written: Vec<u8>,
    pub words: Vec<u64>,
    pub answer: Vec<u64>,
}

/// The same as a call gets it. A wrong one may write where a right one only reads.
pub struct Slices<'a> {
    pub read: [&'a mut [u8]; 2],
    pub written: &'a mut [u8],
    pub words: &'a mut [u64],
    pub answer: &'a mut [u64],
}

impl Slices<'_> {
    pub fn reborrow(&mut self) -> Slices<'_> {
        let Slices { read: [a, b], written, words, answer } = self;
        Slices { read: [a, b], written, words, answer }
    }
}

impl Lent {
    pub fn slices(&mut self) -> Slices<'_> {
        let Lent { read, written, words, answer } = self;
        Slices { read: read.each_mut().map(|s| &mut s[..]), written, words, answer }
    }
}

impl Default for Memory {
    fn default() -> Self {
        let [a, b, written, words, answer] = [0; 5].map(Guarded::new);
        Memory { read: [a, b], written, words, answer }
    }
}

impl Memory {
    pub fn hold(&mut self, lent: &Lent) {
        for (held, s) in self.read.iter_mut().zip(&lent.read) {
            held.hold(s);
        }
        self.written.hold_behind([UNTOUCHED; BEFORE], &lent.written);
        for (held, words) in [(&mut self.words, &lent.words), (&mut self.answer, &lent.answer)] {
            held.hold_behind([UNTOUCHED; BEFORE], as_bytes(words));
        }
    }

    pub fn slices(&mut self) -> Slices<'_> {
        let Memory { read, written, words, answer } = self;
        Slices {
            read: read.each_mut().map(Guarded::bytes),
            written: &mut written.bytes()[BEFORE..],
            words: &mut words.words()[BEFORE / 8..],
            answer: &mut answer.words()[BEFORE / 8..],
        }
    }

    /// A copy of what is held.
    pub fn lent(&mut self) -> Lent {
        let Slices { read, written, words, answer } = self.slices();
        Lent {
            read: read.map(|s| s.to_vec()),
            written: written.to_vec(),
            words: words.to_vec(),
            answer: answer.to_vec(),
        }
    }

    /// Of what is held, all that differs from `lent`, or that stands before what calls may write.
    pub fn different(&mut self, lent: &Lent) -> Vec<&'static str> {
        let [a, b] = &mut self.read;
        let untouched = [UNTOUCHED; BEFORE];
        let same = |held: &mut Guarded, before: &[u8], s: &[u8]| {
            let (front, behind) = held.bytes().split_at(before.len());
            front == before && behind == s
        };
        let all = [
            ("words", same(&mut self.words, &untouched, as_bytes(&lent.words))),
            ("written bytes", same(&mut self.written, &untouched, &lent.written)),
            ("answer", same(&mut self.answer, &untouched, as_bytes(&lent.answer))),
            ("first bytes read", same(a, &[], &lent.read[0])),
            ("second bytes read", same(b, &[], &lent.read[1])),
        ];
        all.into_iter().filter(|(_, same)| !same).map(|(name, _)| name).collect()
    }
}

fn as_bytes(words: &[u64]) -> &[u8] {
    // u8 has no alignment and no invalid values
    unsafe { words.align_to().1 }
}
