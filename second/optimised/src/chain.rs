//! The check of a block, by a chain of windows: modulo x^4 + x + 1, x^15 is 1, so
//! x^60 is too and a number of 64 bits moves on by 64 as it does by 4.

use crate::window;

/// An octet times x^4, divided.
const REST: [u8; 256] = rest();

const fn rest() -> [u8; 256] {
    let mut rest = [0; 256];
    let mut octet = 0;
    while octet < 256 {
        let mut left = octet << 4;
        let mut bit = 11;
        while bit >= 4 {
            if left >> bit & 1 == 1 {
                left ^= 0b1_0011 << (bit - 4);
            }
            bit -= 1;
        }
        rest[octet] = left as u8;
        octet += 1;
    }
    rest
}

/// The check of the block that begins at bit `o` of octet 0, o up to 7; its
/// last bits are in octet 256 where o is not 0. C1 is the bit worth 8.
pub fn check(octets: &[u8], o: usize) -> u8 {
    let bit1 = 1 << (63 - o);
    // x^1024 moves as x^64 does, so the halves join as their numbers do.
    let (mut first, mut second) = (0, 0);
    for f in 0..4 {
        let cleared = match f {
            0 => !0 << (63 - o),
            2 => bit1,
            _ => 0,
        };
        first = frame(first, &octets[32 * f..32 * f + 32], cleared);
        let cleared = if f % 2 == 0 { bit1 } else { 0 };
        second = frame(second, &octets[32 * f + 128..32 * f + 160], cleared);
    }
    let mut sum = folded(next(first, second)) << o;
    if o > 0 {
        sum ^= u64::from(octets[256] >> (8 - o));
    }
    remainder(sum)
}

/// The sum with a frame behind it, some of whose first bits are read as 0.
#[inline]
fn frame(sum: u64, octets: &[u8], cleared: u64) -> u64 {
    let sum = next(sum, window(octets, 0) & !cleared);
    let sum = next(sum, window(octets, 8));
    let sum = next(sum, window(octets, 16));
    next(sum, window(octets, 24))
}

/// The sum times x^64, and the number.
#[inline]
fn next(sum: u64, number: u64) -> u64 {
    (sum ^ sum >> 60) << 4 ^ number
}

/// The same modulo x^15 + 1, in 15 bits.
fn folded(sum: u64) -> u64 {
    let low = |sum: u64, bits: u32| sum >> bits ^ sum & !(!0 << bits);
    low(low(low(sum, 60), 30), 15)
}

/// The sum of at most 30 bits times x^4, divided.
fn remainder(sum: u64) -> u8 {
    let [high, low] = (folded(sum) as u16).to_be_bytes();
    let after = REST[usize::from(high)];
    REST[usize::from(after << 4 ^ low)]
}
