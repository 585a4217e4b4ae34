//! A small generator (splitmix64): a run is the same everywhere.

/// How many times as long random tests run: the number in `JOURNAL_TESTS_TIMES`, or one.
pub fn times() -> usize {
    match std::env::var("JOURNAL_TESTS_TIMES") {
        Ok(n) => n.parse().expect("JOURNAL_TESTS_TIMES is a number"),
        Err(_) => 1,
    }
}

pub struct Random(pub u64);

impl Random {
    pub fn word(&mut self) -> u64 {
        self.0 = self.0.wrapping_add(0x9E37_79B9_7F4A_7C15);
        let z = self.0;
        let z = (z ^ (z >> 30)).wrapping_mul(0xBF58_476D_1CE4_E5B9);
        let z = (z ^ (z >> 27)).wrapping_mul(0x94D0_49BB_1331_11EB);
        z ^ (z >> 31)
    }

    /// One of 0 to `n - 1`.
    pub fn below(&mut self, n: usize) -> usize {
        (self.word() % n as u64) as usize
    }

    pub fn one_of<T: Copy>(&mut self, s: &[T]) -> T {
        s[self.below(s.len())]
    }

    pub fn fill(&mut self, s: &mut [u8]) {
        for part in s.chunks_mut(8) {
            part.copy_from_slice(&self.word().to_le_bytes()[..part.len()]);
        }
    }

    pub fn bytes(&mut self, len: usize) -> Vec<u8> {
        let mut s = vec![0; len];
        self.fill(&mut s);
        s
    }
}
