//! The bytes of stack that a call uses: it is made on a painted stack of its own, and the lowest word
//! that is no longer paint says how deep it went.
use std::arch::{asm, naked_asm};

const PAINTED: usize = 1 << 20;

/// Calls `f`, a C function of words, on the stack that ends at `top`, a multiple of 16.
unsafe fn call_on(top: *mut u8, f: *const (), words: &[u64]) -> u64 {
    let (first, rest) = words.split_at(words.len().min(6));
    let mut registers = [0; 6];
    registers[..first.len()].copy_from_slice(first);
    // the stack is a multiple of 16 where the call stands
    let top = top.sub(rest.len() % 2 * 8);
    let answer;
    asm!(
        "mov r12, rsp",
        "mov rsp, r10",
        "2: test r14, r14",
        "jz 3f",
        "push qword ptr [r15 + r14 * 8 - 8]",
        "dec r14",
        "jmp 2b",
        "3: call r13",
        "mov rsp, r12",
        inout("r10") top => _,
        out("r12") _,
        in("r13") f,
        inout("r14") rest.len() => _,
        in("r15") rest.as_ptr(),
        inout("rdi") registers[0] => _,
        inout("rsi") registers[1] => _,
        inout("rdx") registers[2] => _,
        inout("rcx") registers[3] => _,
        inout("r8") registers[4] => _,
        inout("r9") registers[5] => _,
        lateout("rax") answer,
        clobber_abi("sysv64"),
    );
    answer
}

/// The bytes of stack that a call uses, and its answer. Two paints, since it may store the byte that
/// is one of them. `words` makes ready what the call changes, and gives the words that it gets.
pub fn used(f: *const (), mut words: impl FnMut() -> Vec<u64>) -> (usize, u64) {
    let (a, _) = used_on(0xA5, f, &words());
    let (b, answer) = used_on(0x3C, f, &words());
    (a.max(b), answer)
}

fn used_on(paint: u8, f: *const (), words: &[u64]) -> (usize, u64) {
    let mut stack = vec![paint; PAINTED];
    let end = stack.as_mut_ptr_range().end;
    let odd = end.addr() % 16;
    let answer = unsafe { call_on(end.sub(odd), f, words) };
    let lowest = stack.iter().position(|byte| *byte != paint).unwrap();
    assert!(lowest > 0, "the whole of the painted stack was used");
    ((PAINTED - odd - lowest).next_multiple_of(8), answer)
}

#[unsafe(naked)]
extern "C" fn returns() {
    naked_asm!("ret")
}

#[unsafe(naked)]
extern "C" fn goes_10_000_deep() {
    naked_asm!("sub rsp, 10000", "mov byte ptr [rsp], 0", "add rsp, 10000", "ret")
}

#[allow(clippy::too_many_arguments)]
extern "C" fn digits(
    a: u64,
    b: u64,
    c: u64,
    d: u64,
    e: u64,
    f: u64,
    g: u64,
    h: u64,
    i: u64,
) -> u64 {
    [a, b, c, d, e, f, g, h, i].iter().fold(0, |sum, digit| 10 * sum + digit)
}

/// The measure is right to the word, and every word of a call arrives.
pub fn check_itself() {
    assert_eq!(used(returns as *const (), Vec::new).0, 8);
    assert_eq!(used(goes_10_000_deep as *const (), Vec::new).0, 10_008);
    assert_eq!(used(digits as *const (), || (1..=9).collect()).1, 123_456_789);
}
