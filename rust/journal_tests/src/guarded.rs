//! Bytes that end at a page that may be neither read nor written, so that compiled code that
//! reaches past their end stops the run. (The proofs are about the source; this is about what was
//! made of it.) The start is not guarded.
use std::ffi::c_void;
use std::ptr::{null_mut, NonNull};
use std::slice::from_raw_parts_mut;

extern "C" {
    fn mmap(
        at: *mut c_void,
        len: usize,
        prot: i32,
        flags: i32,
        fd: i32,
        offset: i64,
    ) -> *mut c_void;
    fn mprotect(at: *mut c_void, len: usize, prot: i32) -> i32;
    fn munmap(at: *mut c_void, len: usize) -> i32;
}

const PROT_NONE: i32 = 0;
const PROT_READ_WRITE: i32 = 3;
const MAP_PRIVATE_ANONYMOUS: i32 = 0x22;
const PAGE: usize = 4096;

pub struct Guarded {
    pages: NonNull<u8>,
    /// Bytes of the pages before the guard.
    open: usize,
    len: usize,
}

impl Guarded {
    /// `len` zeros.
    pub fn new(len: usize) -> Self {
        let open = len.next_multiple_of(PAGE);
        unsafe {
            let pages =
                mmap(null_mut(), open + PAGE, PROT_READ_WRITE, MAP_PRIVATE_ANONYMOUS, -1, 0);
            assert_ne!(pages.addr(), usize::MAX, "no memory is mapped");
            assert_eq!(mprotect(pages.add(open), PAGE, PROT_NONE), 0);
            Guarded { pages: NonNull::new(pages.cast()).unwrap(), open, len }
        }
    }

    /// Holds a copy of `s` instead. Pages are mapped anew only where there are too few.
    pub fn hold(&mut self, s: &[u8]) {
        self.hold_behind([], s);
    }

    /// The same with `before` in front of the copy.
    pub fn hold_behind<const N: usize>(&mut self, before: [u8; N], s: &[u8]) {
        let len = N + s.len();
        if len > self.open {
            *self = Guarded::new(len);
        }
        self.len = len;
        let (front, behind) = self.bytes().split_at_mut(N);
        front.copy_from_slice(&before);
        behind.copy_from_slice(s);
    }

    pub fn bytes(&mut self) -> &mut [u8] {
        unsafe { from_raw_parts_mut(self.pages.as_ptr().add(self.open - self.len), self.len) }
    }

    /// The same, as words of eight bytes: the length is a multiple of that.
    pub fn words(&mut self) -> &mut [u64] {
        let (before, words, after) = unsafe { self.bytes().align_to_mut() };
        assert!(before.is_empty() && after.is_empty(), "not whole words");
        words
    }
}

impl Drop for Guarded {
    fn drop(&mut self) {
        unsafe { munmap(self.pages.as_ptr().cast(), self.open + PAGE) };
    }
}

/// The kernel copies the last byte, and refuses to copy the one behind it.
#[test]
fn the_guard_holds() {
    use std::os::fd::AsRawFd;
    extern "C" {
        fn write(fd: i32, from: *const u8, n: usize) -> isize;
    }
    let (_reader, writer) = std::io::pipe().unwrap();
    let mut guarded = Guarded::new(0);
    for len in [8, 1, PAGE, PAGE + 1, PAGE - 1] {
        guarded.hold(&vec![7; len]);
        assert_eq!(guarded.bytes(), vec![7; len]);
        let end = guarded.bytes().as_ptr_range().end;
        unsafe {
            assert_eq!(write(writer.as_raw_fd(), end.sub(1), 1), 1, "the last of {len}");
            assert_eq!(write(writer.as_raw_fd(), end, 1), -1, "the one behind {len}");
        }
    }
}
