//! Images made from lines: moved, hit, and false from the start.

use crate::Random;
use oracle::line::{bits, octets, FRAME, WORD};

/// `front` 0 bits, the line, and 0 bits up to a whole octet.
pub fn shifted(line: &[u8], front: usize) -> Vec<u8> {
    let mut image = vec![0; front];
    image.extend(bits(line));
    whole_octets(&mut image, 0);
    octets(&image)
}

/// Fills the last octet up with this bit.
pub fn whole_octets(image: &mut Vec<u8>, bit: u8) {
    while image.len() % 8 != 0 {
        image.push(bit);
    }
}

/// Turns over the bit at this place.
pub fn flip(line: &mut [u8], place: usize) {
    line[place / 8] ^= 128 >> (place % 8);
}

/// Two data bits of a block that lie so far apart, by the first of them: any
/// that there are. Bits 0, `d`, 2`d` and so on of the block are no data bits.
pub fn two_bits(r: &mut Random, block: usize, d: usize, distance: usize) -> Option<usize> {
    let data = |i: usize| i % d != 0;
    let firsts = (0..block - distance).filter(|i| data(*i) && data(i + distance));
    let firsts: Vec<usize> = firsts.collect();
    match firsts.len() {
        0 => None,
        count => Some(firsts[r.below(count)]),
    }
}

/// Makes the words of these frames wrong, by their last bit.
pub fn wrong_words(line: &mut [u8], frames: &[usize]) {
    for f in frames {
        flip(line, f * FRAME + 7);
    }
}

/// Makes bits 2 of these frames wrong, where they are right.
pub fn wrong_bits_2(line: &mut [u8], frames: &[usize]) {
    for f in frames {
        flip(line, f * FRAME + 1);
    }
}

/// Makes the signals of these multiframes wrong, by their first bit.
pub fn wrong_signals(line: &mut [u8], multiframes: &[usize]) {
    for m in multiframes {
        flip(line, (16 * m + 1) * FRAME);
    }
}

/// Puts this octet into slot 16 of these frames.
pub fn set_slot16(line: &mut [u8], frames: &[usize], octet: u8) {
    for f in frames {
        line[32 * f + 16] = octet;
    }
}

/// Gives a place of these bits basic alignment: a word, a bit 2 of 1, a word.
pub fn set_basic(bits: &mut [u8], place: usize) {
    bits[place + 1..place + 8].copy_from_slice(&WORD);
    bits[place + FRAME + 1] = 1;
    bits[place + 2 * FRAME + 1..place + 2 * FRAME + 8].copy_from_slice(&WORD);
}

/// Places with basic alignment and marks of any kind: even frames of nothing
/// but words, a word begins at every seventh bit, and odd frames of ones. Bit
/// 1 before each of those ones repeats `signals`, so it can hold signals with
/// no pair.
pub fn false_starts(count: usize, signals: &[u8]) -> Vec<u8> {
    let mut image = vec![1; 8 * count];
    for (f, frame) in image.chunks_mut(FRAME).enumerate() {
        let words = frame.len() / 7;
        for i in 0..words {
            if f % 2 == 0 {
                frame[7 * i..7 * i + 7].copy_from_slice(&WORD);
            } else if i > 0 {
                frame[7 * i - 1] = signals[f / 2 % signals.len()];
            }
        }
    }
    octets(&image)
}

/// As many places with basic alignment as there can be, for words cannot
/// overlap: words and nothing else, in odd frames two bits later, so that a 1
/// of theirs is where a word begins in an even frame, and the other way too.
/// Every mark is 0.
pub fn densest(count: usize) -> Vec<u8> {
    let bit = |b: usize| WORD[(b % FRAME + 5 * (b / FRAME % 2)) % 7];
    let image: Vec<u8> = (0..8 * count).map(bit).collect();
    octets(&image)
}

#[cfg(test)]
mod tests {
    use super::*;
    use oracle::line::wrong_bits;

    /// The densest false starts are as many as they are said to be.
    #[test]
    fn densest_is_dense() {
        let image = bits(&densest(8_192));
        let word_at = |p: usize| wrong_bits(&image, p) == 0;
        let aligned = |p: &usize| word_at(*p) && image[p + 257] == 1 && word_at(p + 512);
        let count = (0..8 * 6_144).filter(aligned).count();
        assert!(count >= 6_144 / 32 * 36 - 1, "{count}");
    }
}
