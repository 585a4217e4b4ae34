//! CRC-32C as RFC 3720 has it, in four ways: one to believe, and three to be measured against.
//! None is inlined, so that each has a time, and a name in a profile, of its own.

/// The polynomial, highest power first and x^32 left out.
const POLYNOMIAL: u32 = 0x1EDC_6F41;

/// The definition: a division, bit by bit. The register starts as all ones, each byte goes in from
/// its lowest bit, and the remainder is complemented and read from its other end.
#[inline(never)]
pub fn bit_by_bit(s: &[u8]) -> u32 {
    let mut register = u32::MAX;
    for byte in s {
        for i in 0..8 {
            let bit = u32::from((byte >> i) & 1);
            let out = (register >> 31) ^ bit;
            register = (register << 1) ^ (out * POLYNOMIAL);
        }
    }
    !register.reverse_bits()
}

/// `TABLES[k][b]`: the register `b`, read from its other end, `k + 1` bytes of zeros on.
static TABLES: [[u32; 256]; 8] = tables();

const fn tables() -> [[u32; 256]; 8] {
    let mut tables = [[0; 256]; 8];
    let mut b = 0;
    while b < 256 {
        let mut register = b as u32;
        let mut k = 0;
        while k < 8 {
            let mut i = 0;
            while i < 8 {
                register = (register >> 1) ^ ((register & 1) * POLYNOMIAL.reverse_bits());
                i += 1;
            }
            tables[k][b] = register;
            k += 1;
        }
        b += 1;
    }
    tables
}

fn with_bytes(register: u32, s: &[u8]) -> u32 {
    s.iter().fold(register, |register, byte| {
        TABLES[0][usize::from(register as u8 ^ byte)] ^ (register >> 8)
    })
}

/// A look in one table for each byte.
#[inline(never)]
pub fn plain_table(s: &[u8]) -> u32 {
    !with_bytes(u32::MAX, s)
}

/// Eight bytes at a turn, each in its own table.
#[inline(never)]
pub fn slicing_by_8(s: &[u8]) -> u32 {
    let (words, rest) = s.as_chunks::<8>();
    let mut register = u32::MAX;
    for word in words {
        let x = (u64::from_le_bytes(*word) ^ u64::from(register)).to_le_bytes();
        register = TABLES[7][usize::from(x[0])]
            ^ TABLES[6][usize::from(x[1])]
            ^ TABLES[5][usize::from(x[2])]
            ^ TABLES[4][usize::from(x[3])]
            ^ TABLES[3][usize::from(x[4])]
            ^ TABLES[2][usize::from(x[5])]
            ^ TABLES[1][usize::from(x[6])]
            ^ TABLES[0][usize::from(x[7])];
    }
    !with_bytes(register, rest)
}

/// The processor's crc32 instruction, eight bytes at a turn; nothing where it has none.
pub fn instruction() -> Option<fn(&[u8]) -> u32> {
    is_x86_feature_detected!("sse4.2").then_some(|s| unsafe { by_instruction(s) })
}

#[inline(never)]
#[target_feature(enable = "sse4.2")]
fn by_instruction(s: &[u8]) -> u32 {
    use std::arch::x86_64::{_mm_crc32_u64, _mm_crc32_u8};
    let (words, rest) = s.as_chunks::<8>();
    let register = words.iter().fold(u64::from(u32::MAX), |register, word| {
        _mm_crc32_u64(register, u64::from_le_bytes(*word))
    });
    !rest.iter().fold(register as u32, |register, byte| _mm_crc32_u8(register, *byte))
}
