//! Places to ask about: those that stand, with each condition spoilt in turn,
//! those near them, those near the last that is answered, and any others.

use crate::image::{hit_words, image};
use crate::Random;
use oracle::line::{bits, octets, FRAME};
use oracle::place::{first, first_basic};

/// An image, and places in it or past its end.
pub struct Asked {
    pub image: Vec<u8>,
    pub places: [u64; 6],
}

/// An image as a read gets it, most often hit once more where it is asked about.
pub fn asked(r: &mut Random) -> Asked {
    let mut line = bits(&image(r));
    let place = match first(&line) {
        Some((p, k)) => {
            // So many pairs of frames on, where there still is room. With each
            // of them the signals are a mark nearer.
            let on = r.below((line.len() - 16_384 - p) / 512 + 1);
            let place = p + 512 * on;
            for _ in 0..r.pick(&[0, 1, 1, 1, 2]) {
                spoil(r, &mut line[place..], (k + 7 * on) % 8);
            }
            place
        }
        None => first_basic(&line).unwrap_or_else(|| r.below(line.len() + 1)),
    };
    Asked {
        places: places(r, line.len(), place),
        image: octets(&line),
    }
}

/// Makes a condition fail, or a later k the least. The line begins at the
/// place; the signal is at this mark and at every eighth behind it.
fn spoil(r: &mut Random, line: &mut [u8], mark: usize) {
    match r.below(6) {
        0 => spoil_word(r, line, 0),
        1 => line[FRAME + 1] ^= 1,
        2 => spoil_word(r, line, 2),
        3 => {
            for m in 0..4 {
                if r.once_in(2) {
                    spoil_signal(r, line, mark + 8 * m);
                }
            }
        }
        _ => {
            for m in 0..r.between(1, 4) {
                spoil_signal(r, line, mark + 8 * m);
            }
        }
    }
}

/// Hits the word of this frame, most often in a single bit.
fn spoil_word(r: &mut Random, line: &mut [u8], frame: usize) {
    if r.once_in(3) {
        hit_words(r, line, [frame].into_iter(), 1);
    } else {
        line[frame * FRAME + r.between(1, 7)] ^= 1;
    }
}

/// Hits any of the six marks from this one on, where it is one of the 32.
fn spoil_signal(r: &mut Random, line: &mut [u8], mark: usize) {
    let mark = mark + r.below(6);
    if mark < 32 {
        line[FRAME + 512 * mark] ^= 1;
    }
}

/// The place, one near it, any that is answered, the last of these and the
/// first that is not, and one far off.
fn places(r: &mut Random, bits: usize, place: usize) -> [u64; 6] {
    let last = bits.saturating_sub(16_384);
    let away = r.pick(&[1, 2, 7, 8, 9, 64, 255, 256, 257, 511, 512, 513, 4_096]);
    let near = match r.below(2) {
        0 => place + away,
        _ => place.saturating_sub(away),
    };
    let anywhere = r.below(last + 1);
    let (any, past) = (r.any(), last + r.below(20_000));
    let (bits, place) = (bits as u64, place as u64);
    let far = r.pick(&[
        past as u64,
        bits,
        (1 << 32) + place,
        1 << 61,
        (1 << 61) + place,
        1 << 63,
        (1 << 63) + place,
        u64::MAX - 16_383,
        u64::MAX,
        any,
    ]);
    let last = last as u64;
    [place, near as u64, anywhere as u64, last, last + 1, far]
}
