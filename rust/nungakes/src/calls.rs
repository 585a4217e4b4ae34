//! Each exported function over slices, as C has it: it gives 0 or the code of its [`Refusal`](crate::Refusal), and
//! answers go to words that are lent. For those that keep records as words, of any length and origin.
//!
//! Nothing is tested here: no exported function has a precondition, and Rust's slices are valid, aligned and apart
//! from each other.
use crate::raw;

/// A slice that is lent, by its pointer. The replica's crate has its functions by this and by `over_slices` too.
#[doc(hidden)]
pub trait Lent {
    type Pointer;
    fn pointer(&mut self) -> Self::Pointer;
}

impl<T> Lent for &[T] {
    type Pointer = *const T;
    fn pointer(&mut self) -> *const T {
        self.as_ptr()
    }
}

impl<T> Lent for &mut [T] {
    type Pointer = *mut T;
    fn pointer(&mut self) -> *mut T {
        self.as_mut_ptr()
    }
}

/// Functions that take slices, then numbers; or numbers, then an answer; or a number, then slices, with another number
/// before an answer. C gets a slice as its pointer and its length.
#[doc(hidden)]
#[macro_export]
macro_rules! over_slices {
    ($($name:ident = $raw:ident($($slice:ident: $kind:ty),+ $(; $($number:ident),+)?);)+) => {$(
        pub fn $name($(mut $slice: $kind,)+ $($($number: u64),+)?) -> u64 {
            unsafe { raw::$raw($($slice.pointer(), $slice.len(),)+ $($($number),+)?) }
        }
    )+};
    ($($name:ident = $raw:ident($($number:ident),+);)+) => {$(
        pub fn $name($($number: u64,)+ answer: &mut [u64]) -> u64 {
            unsafe { raw::$raw($($number,)+ answer.as_mut_ptr(), answer.len()) }
        }
    )+};
    ($($name:ident = $raw:ident(
        $n:ident; $($slice:ident: $kind:ty),+ $(; $number:ident; $answer:ident: $words:ty)?
    );)+) => {$(
        pub fn $name($n: u64, $(mut $slice: $kind,)+ $($number: u64, mut $answer: $words)?) -> u64 {
            unsafe {
                raw::$raw(
                    $n,
                    $($slice.pointer(), $slice.len(),)+
                    $($number, $answer.pointer(), $answer.len())?
                )
            }
        }
    )+};
}

// A record is the first words of `words`.
over_slices! {
    open = journal_open(words: &mut [u64]; n, r);
    append_insert = journal_append_insert(words: &mut [u64], ring: &mut [u8], key: &[u8], value: &[u8]);
    append_clone = journal_append_clone(words: &mut [u64], ring: &mut [u8], from: &[u8], to: &[u8]);
    freeze = journal_freeze(words: &mut [u64]);
    thaw = journal_thaw(words: &mut [u64]);
    package_frozen = journal_package_frozen(words: &mut [u64], ring: &[u8], out: &mut [u8]);
    package_in_memory = journal_package_in_memory(words: &mut [u64], ring: &[u8], out: &mut [u8]);
    set_written = journal_set_written(words: &mut [u64]; len);
    update_written = journal_update_written(words: &mut [u64]; len);
    set_front = journal_set_front(words: &mut [u64], payload: &[u8], front: &mut [u8]);
    set_back = journal_set_back(words: &mut [u64], payload: &[u8], back: &mut [u8]);
    load = journal_load(words: &mut [u64], front: &[u8], back: &[u8], replay: &mut [u8]);
    top = journal_top(words: &[u64], replay: &[u8], top: &mut [u64]);
    pop = journal_pop(words: &mut [u64], replay: &[u8]);
    has_frozen = journal_has_frozen(words: &[u64], answer: &mut [u64]);
    has_in_memory = journal_has_in_memory(words: &[u64], answer: &mut [u64]);
    get_written = journal_get_written(words: &[u64], answer: &mut [u64]);
    waiting_clones = journal_waiting_clones(words: &[u64], answer: &mut [u64]);
    is_replay_empty = journal_is_replay_empty(words: &[u64], answer: &mut [u64]);
    has_front = journal_has_front(words: &[u64], answer: &mut [u64]);
    has_back = journal_has_back(words: &[u64], answer: &mut [u64]);
}

// Images, payloads and checksums.
over_slices! {
    strip = journal_strip(image: &[u8], out: &mut [u8]);
    range = journal_range(front: &[u8], back: &[u8], totals: &mut [u64]);
    checksum = journal_checksum(payload: &[u8], out: &mut [u8]);
}

/// CRC-32C of bytes, which is never refused.
pub fn crc32c(s: &[u8]) -> u32 {
    unsafe { raw::journal_crc32c(s.as_ptr(), s.len()) }
}

// Places in a region of `n` blocks, as words of an answer.
over_slices! {
    place_of_block = journal_place_of_block(n, block);
    place_front = journal_place_front(n, start, len);
    place_back = journal_place_back(n, start, len);
    place_next_start = journal_place_next_start(n, start, len);
    place_contained = journal_place_contained(n, a_start, a_len, b_start, b_len);
    place_overlap = journal_place_overlap(n, a_start, a_len, b_start, b_len);
    place_shares_block = journal_place_shares_block(n, a_start, a_len, b_start, b_len);
    place_location = journal_place_location(n, start, len);
    place_interval = journal_place_interval(n, addr, len);
}

// The region on the unit's card.
over_slices! {
    card_format = journal_card_format(n; card: &mut [u8]);
    card_find = journal_card_find(n; card: &[u8], out: &mut [u8], answer: &mut [u64]);
    card_store = journal_card_store(n; card: &mut [u8], image: &[u8]; made; answer: &mut [u64]);
    card_release = journal_card_release(n; card: &mut [u8], answer: &mut [u64]);
}
