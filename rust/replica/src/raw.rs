//! The exported functions. Their declarations are the lines that `tools/declare rust` prints, and the gate compares
//! the two: nothing else would find one that differs from the Rattle source.
//!
//! A slice is a pointer and a count of elements. A caller owes pointers that are valid for their counts and aligned,
//! initialised memory, and slices to write that overlap no other slice of the call; what numbers and bytes there are
//! does not matter. [`calls`](crate::calls) has the same over slices.

extern "C" {
    pub fn replica_insert(
        rows: *mut u64,
        rows_len: usize,
        table: *mut u8,
        table_len: usize,
        work: *mut u8,
        work_len: usize,
        key: *const u8,
        key_len: usize,
        value: *const u8,
        value_len: usize,
    ) -> u64;
    pub fn replica_clone(
        rows: *mut u64,
        rows_len: usize,
        table: *mut u8,
        table_len: usize,
        work: *mut u8,
        work_len: usize,
        from: *const u8,
        from_len: usize,
        to: *const u8,
        to_len: usize,
    ) -> u64;
    pub fn replica_lookup(
        rows: *const u64,
        rows_len: usize,
        table: *const u8,
        table_len: usize,
        key: *const u8,
        key_len: usize,
        answer: *mut u64,
        answer_len: usize,
    ) -> u64;
    pub fn replica_replay(
        words: *mut u64,
        words_len: usize,
        replay: *const u8,
        replay_len: usize,
        rows: *mut u64,
        rows_len: usize,
        table: *mut u8,
        table_len: usize,
        work: *mut u8,
        work_len: usize,
    ) -> u64;
}
