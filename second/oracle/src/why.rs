//! Why a place does not stand.

use crate::line::{bits, wrong_bits, WORD};
use crate::place::pair_at;

/// What is said of a place. Of a refusal all but the number is 0.
#[derive(Clone, Copy, Debug, Default, PartialEq, Eq)]
pub struct Why {
    pub number: u64,
    pub condition: u64,
    pub k: u64,
    pub bit: u64,
}

fn refused(number: u64) -> Why {
    Why {
        number,
        ..Why::default()
    }
}

fn condition(condition: u64) -> Why {
    Why {
        condition,
        ..Why::default()
    }
}

/// Says of a place, any number, which condition it fails first.
pub fn why(image: &[u8], place: u64) -> Why {
    if image.len() < 2_048 {
        return refused(1);
    }
    if image.len() > 8_192 {
        return refused(2);
    }
    // The other way round, as a large place and 16,384 would be too large.
    let last = 8 * image.len() - 16_384;
    if place > last as u64 {
        return refused(14);
    }
    with_room(&bits(image), place as usize)
}

/// The same of a place that has 16,384 bits behind it.
pub fn with_room(bits: &[u8], p: usize) -> Why {
    if wrong_bits(bits, p) != 0 {
        let bit = first_wrong_bit(bits, p);
        return Why {
            bit,
            ..condition(1)
        };
    }
    if bits[p + 257] == 0 {
        return condition(2);
    }
    if wrong_bits(bits, p + 512) != 0 {
        let bit = first_wrong_bit(bits, p + 512);
        return Why {
            bit,
            ..condition(3)
        };
    }
    match (0..=26).find(|&k| pair_at(bits, p, k)) {
        Some(k) => Why {
            k: k as u64,
            ..condition(0)
        },
        None => condition(4),
    }
}

/// The place of the first wrong bit of a wrong word, in the frame that begins
/// at this bit place.
fn first_wrong_bit(bits: &[u8], frame: usize) -> u64 {
    let mut i = 0;
    while bits[frame + 1 + i] == WORD[i] {
        i += 1;
    }
    (frame + 1 + i) as u64
}

/// What the why program prints for a place of an image.
pub fn said(image: &[u8], place: u64) -> String {
    let w = why(image, place);
    if w.number != 0 {
        return format!("refused {}\n", w.number);
    }
    match w.condition {
        0 => format!("stands, k {}\n", w.k),
        1 => format!("first word wrong at bit {}\n", w.bit),
        2 => "bit 257 after it is 0\n".to_string(),
        3 => format!("second word wrong at bit {}\n", w.bit),
        _ => "no pair of signals\n".to_string(),
    }
}
