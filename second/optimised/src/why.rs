//! Why a place does not stand. A word is judged whole: its wrong bits are an
//! exclusive or, and the first of them is told by the zeros before it.

use crate::place::{pairs, AHEAD};
use oracle::Why;

fn refused(number: u64) -> Why {
    Why {
        number,
        ..Why::default()
    }
}

/// As [`oracle::why`].
pub fn why(image: &[u8], place: u64) -> Why {
    if image.len() < 2_048 {
        return refused(1);
    }
    if image.len() > 8_192 {
        return refused(2);
    }
    if place > 8 * (image.len() - AHEAD) as u64 {
        return refused(14);
    }
    let (i, o) = (place as usize / 8, place as usize % 8);
    let ahead = image[i..i + AHEAD].try_into().unwrap();
    let (condition, k, bit) = judged(ahead, o);
    Why {
        number: 0,
        condition,
        k,
        // A wrong bit is never at the place itself.
        bit: if bit == 0 { 0 } else { place + bit },
    }
}

/// Condition, k and bit of the place at bit o, the bit counted from the place.
fn judged(ahead: &[u8; AHEAD], o: usize) -> (u64, u64, u64) {
    let wrong = (slot(ahead, 0, o) ^ 0x1B) & 0x7F;
    if wrong != 0 {
        return (1, 0, u64::from(wrong.leading_zeros()));
    }
    if slot(ahead, 1, o) & 0x40 == 0 {
        return (2, 0, 0);
    }
    let wrong = (slot(ahead, 2, o) ^ 0x1B) & 0x7F;
    if wrong != 0 {
        return (3, 0, 512 + u64::from(wrong.leading_zeros()));
    }
    match pairs(ahead, o) {
        0 => (4, 0, 0),
        pairs => (0, u64::from(pairs.trailing_zeros()), 0),
    }
}

/// Slot 0 of the frame so many frames on.
#[inline]
fn slot(ahead: &[u8; AHEAD], frame: usize, o: usize) -> u8 {
    let two = u16::from_be_bytes([ahead[32 * frame], ahead[32 * frame + 1]]);
    (two >> (8 - o)) as u8
}
