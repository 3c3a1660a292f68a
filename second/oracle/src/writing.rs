//! Writing multiframes.

use crate::check::{check, PLACES};
use crate::line::{bits, number, octets, BLOCK, FRAME, MULTIFRAME, SIGNAL, WORD};

/// What a write answers: the check of the last block, or 0 beside a refusal.
#[derive(Clone, Copy, Debug, Default, PartialEq, Eq)]
pub struct Written {
    pub number: u64,
    pub check: u64,
}

/// The n of a payload of 496n octets, where it is 1 to 16.
pub fn multiframes(payload: &[u8]) -> Option<usize> {
    (1..=16).find(|n| payload.len() == 496 * n)
}

/// The n of what a write is given, or the number with which it is refused
/// whatever else is given.
pub fn multiframes_given(payload: &[u8], overhead: &[u8], carried: u64) -> Result<usize, u64> {
    let n = multiframes(payload).ok_or(5_u64)?;
    if overhead.len() != 8 * n || !overhead.iter().enumerate().all(allowed) {
        return Err(6);
    }
    if carried > 15 {
        return Err(7);
    }
    Ok(n)
}

/// Writes multiframes from a payload, the overhead of their odd frames and the
/// check of the block before.
pub fn write(payload: &[u8], overhead: &[u8], carried: u64, out: &mut [u8]) -> Written {
    let refused = |number| Written { number, check: 0 };
    let n = match multiframes_given(payload, overhead, carried) {
        Ok(n) => n,
        Err(number) => return refused(number),
    };
    if out.len() < 512 * n {
        return refused(4);
    }
    let mut line = unchecked(payload, overhead);
    let mut carried = bits(&[carried as u8])[4..].to_vec();
    for block in line.chunks_mut(BLOCK) {
        for (place, bit) in PLACES.iter().zip(&carried) {
            block[*place] = *bit;
        }
        carried = check(block).to_vec();
    }
    out[..512 * n].copy_from_slice(&octets(&line));
    Written {
        number: 0,
        check: u64::from(number(&carried)),
    }
}

/// Whether the octet has only bits that may be 1: E is for frames 13 and 15,
/// the last two of a multiframe's eight.
fn allowed((i, octet): (usize, &u8)) -> bool {
    let bits = bits(&[*octet]);
    let e_frame = i % 8 >= 6;
    bits[0] == 0 && (e_frame || bits[1] == 0)
}

/// The line with its check bits still 0.
fn unchecked(payload: &[u8], overhead: &[u8]) -> Vec<u8> {
    let mut line = Vec::with_capacity(overhead.len() / 8 * MULTIFRAME);
    for (f, slots) in payload.chunks(31).enumerate() {
        if f % 2 == 0 {
            line.push(0);
            line.extend(WORD);
        } else {
            line.extend(odd_slot0(f % 16, overhead[f / 2]));
        }
        line.extend(bits(slots));
        debug_assert!(line.len() == (f + 1) * FRAME);
    }
    line
}

/// Slot 0 of an odd frame: bit 1, then 1, then A and Sa4 to Sa8.
pub fn odd_slot0(frame: usize, overhead: u8) -> [u8; 8] {
    let o = bits(&[overhead]);
    let bit1 = match frame {
        13 | 15 => o[1],
        _ => SIGNAL[frame / 2],
    };
    [bit1, 1, o[2], o[3], o[4], o[5], o[6], o[7]]
}
