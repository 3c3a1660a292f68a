//! Writing multiframes: all slots first, then the checks, block after block.

use crate::Check;
use oracle::Written;

/// Slot 0 of each odd frame with no overhead in it: the signal and bit 2.
const ODD: [u8; 8] = [0x40, 0x40, 0xC0, 0x40, 0xC0, 0xC0, 0x40, 0x40];

/// The bits that each odd frame's overhead may have; E is worth 64.
const MOST: [u8; 8] = [63, 63, 63, 63, 63, 63, 127, 127];

/// As [`oracle::write`], by this check.
pub fn write(
    payload: &[u8],
    overhead: &[u8],
    carried: u64,
    out: &mut [u8],
    check: Check,
) -> Written {
    let n = match multiframes_given(payload, overhead, carried) {
        Ok(n) => n,
        Err(number) => return refused(number),
    };
    if out.len() < 512 * n {
        return refused(4);
    }
    let out = &mut out[..512 * n];
    fill(payload, overhead, out);
    carry_all(out, carried as u8, check)
}

pub fn refused(number: u64) -> Written {
    Written { number, check: 0 }
}

/// The n of what a write is given, or the first of numbers 5, 6 and 7.
#[inline]
pub fn multiframes_given(payload: &[u8], overhead: &[u8], carried: u64) -> Result<usize, u64> {
    let n = payload.len() / 496;
    if payload.len() % 496 != 0 || !(1..=16).contains(&n) {
        return Err(5);
    }
    if overhead.len() != 8 * n || !overhead.chunks_exact(8).all(allowed) {
        return Err(6);
    }
    if carried > 15 {
        return Err(7);
    }
    Ok(n)
}

/// The check bits of every block, of which the first carries this check.
#[inline]
pub fn carry_all(out: &mut [u8], carried: u8, check: Check) -> Written {
    let mut check_before = carried;
    for block in out.chunks_exact_mut(256) {
        // Before its bits are stored, or the next loads would wait for them.
        let check = check(block, 0);
        carry(block, check_before);
        check_before = check;
    }
    Written {
        number: 0,
        check: u64::from(check_before),
    }
}

/// Whether a multiframe's overhead has only bits that may be 1.
fn allowed(overhead: &[u8]) -> bool {
    overhead
        .iter()
        .zip(MOST)
        .all(|(octet, most)| octet & !most == 0)
}

/// Every frame, check bits 0: an even and an odd one at a time.
pub fn fill(payload: &[u8], overhead: &[u8], out: &mut [u8]) {
    let frames = out.chunks_exact_mut(64).zip(payload.chunks_exact(62));
    for (i, ((out, slots), octet)) in frames.zip(overhead).enumerate() {
        out[0] = 0x1B;
        out[1..32].copy_from_slice(&slots[..31]);
        out[32] = odd_slot0(i % 8, *octet);
        out[33..].copy_from_slice(&slots[31..]);
    }
}

/// E becomes bit 1, worth 128.
fn odd_slot0(i: usize, overhead: u8) -> u8 {
    ODD[i] | overhead & 63 | (overhead & 64) << 1
}

/// The check of the block before into bit 1 of the even frames.
fn carry(block: &mut [u8], check: u8) {
    for c in 0..4 {
        block[64 * c] |= (check << (4 + c)) & 128;
    }
}
