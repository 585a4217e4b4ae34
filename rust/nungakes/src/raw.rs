//! The exported functions. Their declarations are the lines that `tools/declare rust` prints, and the gate compares
//! the two: nothing else would find one that differs from the Rattle source.
//!
//! A slice is a pointer and a count of elements. A caller owes pointers that are valid for their counts and aligned,
//! initialised memory, and slices to write that overlap no other slice of the call; what numbers and bytes there are
//! does not matter. [`calls`](crate::calls) has the same over slices.

extern "C" {
    pub fn journal_card_format(n: u64, card: *mut u8, card_len: usize) -> u64;
    pub fn journal_card_find(
        n: u64,
        card: *const u8,
        card_len: usize,
        out: *mut u8,
        out_len: usize,
        answer: *mut u64,
        answer_len: usize,
    ) -> u64;
    pub fn journal_card_store(
        n: u64,
        card: *mut u8,
        card_len: usize,
        image: *const u8,
        image_len: usize,
        made: u64,
        answer: *mut u64,
        answer_len: usize,
    ) -> u64;
    pub fn journal_card_release(
        n: u64,
        card: *mut u8,
        card_len: usize,
        answer: *mut u64,
        answer_len: usize,
    ) -> u64;
    pub fn journal_crc32c(s: *const u8, s_len: usize) -> u32;
    pub fn journal_checksum(s: *const u8, s_len: usize, out: *mut u8, out_len: usize) -> u64;
    pub fn journal_strip(image: *const u8, image_len: usize, out: *mut u8, out_len: usize) -> u64;
    pub fn journal_range(
        front: *const u8,
        front_len: usize,
        back: *const u8,
        back_len: usize,
        totals: *mut u64,
        totals_len: usize,
    ) -> u64;
    pub fn journal_place_of_block(n: u64, block: u64, answer: *mut u64, answer_len: usize) -> u64;
    pub fn journal_place_front(
        n: u64,
        start: u64,
        len: u64,
        answer: *mut u64,
        answer_len: usize,
    ) -> u64;
    pub fn journal_place_back(
        n: u64,
        start: u64,
        len: u64,
        answer: *mut u64,
        answer_len: usize,
    ) -> u64;
    pub fn journal_place_next_start(
        n: u64,
        start: u64,
        len: u64,
        answer: *mut u64,
        answer_len: usize,
    ) -> u64;
    pub fn journal_place_contained(
        n: u64,
        a_start: u64,
        a_len: u64,
        b_start: u64,
        b_len: u64,
        answer: *mut u64,
        answer_len: usize,
    ) -> u64;
    pub fn journal_place_overlap(
        n: u64,
        a_start: u64,
        a_len: u64,
        b_start: u64,
        b_len: u64,
        answer: *mut u64,
        answer_len: usize,
    ) -> u64;
    pub fn journal_place_shares_block(
        n: u64,
        a_start: u64,
        a_len: u64,
        b_start: u64,
        b_len: u64,
        answer: *mut u64,
        answer_len: usize,
    ) -> u64;
    pub fn journal_place_location(
        n: u64,
        start: u64,
        len: u64,
        answer: *mut u64,
        answer_len: usize,
    ) -> u64;
    pub fn journal_place_interval(
        n: u64,
        addr: u64,
        len: u64,
        answer: *mut u64,
        answer_len: usize,
    ) -> u64;
    pub fn journal_has_frozen(
        words: *const u64,
        words_len: usize,
        answer: *mut u64,
        answer_len: usize,
    ) -> u64;
    pub fn journal_has_in_memory(
        words: *const u64,
        words_len: usize,
        answer: *mut u64,
        answer_len: usize,
    ) -> u64;
    pub fn journal_get_written(
        words: *const u64,
        words_len: usize,
        answer: *mut u64,
        answer_len: usize,
    ) -> u64;
    pub fn journal_waiting_clones(
        words: *const u64,
        words_len: usize,
        answer: *mut u64,
        answer_len: usize,
    ) -> u64;
    pub fn journal_is_replay_empty(
        words: *const u64,
        words_len: usize,
        answer: *mut u64,
        answer_len: usize,
    ) -> u64;
    pub fn journal_has_front(
        words: *const u64,
        words_len: usize,
        answer: *mut u64,
        answer_len: usize,
    ) -> u64;
    pub fn journal_has_back(
        words: *const u64,
        words_len: usize,
        answer: *mut u64,
        answer_len: usize,
    ) -> u64;
    pub fn journal_top(
        words: *const u64,
        words_len: usize,
        replay: *const u8,
        replay_len: usize,
        top: *mut u64,
        top_len: usize,
    ) -> u64;
    pub fn journal_open(words: *mut u64, words_len: usize, n: u64, r: u64) -> u64;
    pub fn journal_append_insert(
        words: *mut u64,
        words_len: usize,
        ring: *mut u8,
        ring_len: usize,
        key: *const u8,
        key_len: usize,
        value: *const u8,
        value_len: usize,
    ) -> u64;
    pub fn journal_append_clone(
        words: *mut u64,
        words_len: usize,
        ring: *mut u8,
        ring_len: usize,
        from: *const u8,
        from_len: usize,
        to: *const u8,
        to_len: usize,
    ) -> u64;
    pub fn journal_freeze(words: *mut u64, words_len: usize) -> u64;
    pub fn journal_thaw(words: *mut u64, words_len: usize) -> u64;
    pub fn journal_set_written(words: *mut u64, words_len: usize, len: u64) -> u64;
    pub fn journal_update_written(words: *mut u64, words_len: usize, len: u64) -> u64;
    pub fn journal_package_frozen(
        words: *mut u64,
        words_len: usize,
        ring: *const u8,
        ring_len: usize,
        out: *mut u8,
        out_len: usize,
    ) -> u64;
    pub fn journal_package_in_memory(
        words: *mut u64,
        words_len: usize,
        ring: *const u8,
        ring_len: usize,
        out: *mut u8,
        out_len: usize,
    ) -> u64;
    pub fn journal_set_front(
        words: *mut u64,
        words_len: usize,
        payload: *const u8,
        payload_len: usize,
        front: *mut u8,
        front_len: usize,
    ) -> u64;
    pub fn journal_set_back(
        words: *mut u64,
        words_len: usize,
        payload: *const u8,
        payload_len: usize,
        back: *mut u8,
        back_len: usize,
    ) -> u64;
    pub fn journal_load(
        words: *mut u64,
        words_len: usize,
        front: *const u8,
        front_len: usize,
        back: *const u8,
        back_len: usize,
        replay: *mut u8,
        replay_len: usize,
    ) -> u64;
    pub fn journal_pop(
        words: *mut u64,
        words_len: usize,
        replay: *const u8,
        replay_len: usize,
    ) -> u64;
}
