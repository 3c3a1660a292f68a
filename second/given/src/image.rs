//! Images as they may come: lines written, damaged, moved and cut, false
//! starts, octets that are no line at all, and these with basic alignment set
//! at a place or more.

use crate::making::{densest, false_starts, set_basic, whole_octets};
use crate::Random;
use oracle::line::{bits, octets, FRAME, MULTIFRAME};
use oracle::write;

/// A length from just too short to just too long, those most of all.
fn length(r: &mut Random) -> usize {
    match r.below(4) {
        0 => r.pick(&[2_047, 2_048, 2_049, 8_191, 8_192, 8_193]),
        1 => r.pick(&[0, 1, 64, 1_024, 2_046, 8_194, 10_000, 16_384]),
        _ => r.between(2_048, 8_192),
    }
}

/// An image of any of these kinds, most often a line.
pub fn image(r: &mut Random) -> Vec<u8> {
    match r.below(40) {
        0 => {
            let length = length(r);
            r.octets(length)
        }
        1 => {
            let octet = r.octet();
            let octet = r.pick(&[0x1B, 0x9B, 0x5F, 0x00, 0xFF, octet]);
            vec![octet; length(r)]
        }
        2 => {
            let signals = signals(r);
            let length = length(r);
            match r.below(4) {
                0 => densest(length),
                _ => false_starts(length, &signals),
            }
        }
        3 | 4 => {
            let length = length(r);
            let mut bits = match r.below(3) {
                0 => bits(&r.octets(length)),
                _ => vec![r.pick(&[0, 1]); 8 * length],
            };
            basics(r, &mut bits);
            octets(&bits)
        }
        _ => {
            let mut line = line(r);
            for _ in 0..r.pick(&[0, 1, 1, 2, 3]) {
                damage(r, &mut line);
            }
            moved(r, line)
        }
    }
}

/// Sets basic alignment once or more: at the last place with room, at one
/// without, near the front, at any with room.
fn basics(r: &mut Random, bits: &mut [u8]) {
    let last = bits.len().saturating_sub(16_384);
    for _ in 0..r.pick(&[1, 1, 1, 2, 3]) {
        let past = r.pick(&[8, 600, 15_000]);
        let place = match r.below(6) {
            0 | 1 => last,
            2 | 3 => last + r.between(1, past),
            4 => r.below(64),
            _ => r.below(last + 1),
        };
        if place + 2 * FRAME + 8 <= bits.len() {
            set_basic(bits, place);
        }
    }
}

/// What the odd frames of false starts repeat: seldom a pair, at times one.
fn signals(r: &mut Random) -> Vec<u8> {
    let mut signals = r
        .pick(&[
            vec![0, 0, 1, 0, 1, 1, 0].as_slice(),
            &[0, 0, 1, 0, 1, 1, 1, 1, 1],
            &[0, 0, 1, 0, 1, 1],
            &[0, 0, 1, 0, 1, 0, 0, 0],
            &[1],
        ])
        .to_vec();
    if r.once_in(3) {
        signals.extend(bits(&r.octets(2)));
    }
    signals
}

/// The bits of a written line, of four multiframes or more but seldom less.
pub fn line(r: &mut Random) -> Vec<u8> {
    let n = match r.below(8) {
        0 => r.between(1, 16),
        1 => 16,
        2 => 4,
        _ => r.between(5, 8),
    };
    let payload = payload(r, 496 * n);
    let e = |j: usize| if j % 8 >= 6 { 64 } else { 0 };
    let clear = r.once_in(2);
    let overhead: Vec<u8> = (0..8 * n)
        .map(|j| match clear {
            true => 31 + e(j),
            false => r.octet() & (63 + e(j)),
        })
        .collect();
    let mut out = vec![0; 512 * n];
    let written = write(&payload, &overhead, r.below(16) as u64, &mut out);
    assert_eq!(written.number, 0);
    bits(&out)
}

/// Octets at random, all the same, a few only, or what slot 0 looks like.
fn payload(r: &mut Random, count: usize) -> Vec<u8> {
    match r.below(5) {
        0 => vec![r.octet(); count],
        1 => {
            let few = r.octets(3);
            (0..count).map(|_| r.pick(&few)).collect()
        }
        2 => {
            let like = [0x1B, 0x9B, 0x5F, 0xDF, 0x7F];
            (0..count).map(|_| r.pick(&like)).collect()
        }
        3 => {
            // Slots that look like slot 0 in even and in odd frames alike.
            let (even, odd) = (r.pick(&[0x1B, 0x36, 0x6C]), r.pick(&[0x5F, 0xDF, 0xFF]));
            (0..count)
                .map(|i| match i / 31 % 2 {
                    0 => even,
                    _ => odd ^ (r.octet() & 0x80),
                })
                .collect()
        }
        _ => r.octets(count),
    }
}

/// Turns over each of the bits at these places, once in `times`.
pub fn hit(r: &mut Random, line: &mut [u8], places: impl Iterator<Item = usize>, times: usize) {
    for place in places {
        if r.once_in(times) {
            line[place] ^= 1;
        }
    }
}

/// Turns over bits of the word in each of these frames, once in `times`: 1 to
/// 7 of them, each number as often.
pub fn hit_words(
    r: &mut Random,
    line: &mut [u8],
    frames: impl Iterator<Item = usize>,
    times: usize,
) {
    for f in frames {
        if r.once_in(times) {
            let mut word = [1, 2, 3, 4, 5, 6, 7];
            for i in 0..r.between(1, 7) {
                word.swap(i, r.between(i, 6));
                line[f * FRAME + word[i]] ^= 1;
            }
        }
    }
}

/// Words in a row, or bits 2, of which those are hit that are 1 here.
const ROWS: [&[u8]; 8] = [
    &[1],
    &[1, 1],
    &[1, 1, 0, 1, 1],
    &[1, 1, 0, 1, 1, 1],
    &[1, 0, 1, 1, 0, 1],
    &[1, 1, 1],
    &[1, 1, 1],
    &[1, 1, 1, 1],
];

/// Hits words in a row, bits 2 in a row, or most often both near each other:
/// over the end of a multiframe, from its begin on, up to the last frame, or
/// anywhere.
fn hit_rows(r: &mut Random, line: &mut [u8]) {
    // Pairs of an even frame and the odd one behind it.
    let pairs = line.len() / FRAME / 2;
    let multiframe = 8 * r.below(pairs / 8 + 1);
    let near = match r.below(4) {
        0 => multiframe.saturating_sub(r.between(1, 4)),
        1 => multiframe,
        2 => pairs.saturating_sub(r.pick(&[3, 3, 4, 5])),
        _ => r.below(pairs + 1),
    };
    let mut row = || -> Vec<usize> {
        let (first, row) = (near + r.pick(&[0, 0, 1, 2, 3]), r.pick(&ROWS));
        let hit = (first..pairs).zip(row).filter(|(_, hit)| **hit == 1);
        hit.map(|(pair, _)| pair).collect()
    };
    let (words, bits_2) = (row(), row());
    let which = r.below(5);
    if which > 0 {
        let words = words.into_iter().map(|pair| 2 * pair);
        hit_words(r, line, words, 1);
    }
    if which < 4 {
        let bits_2 = bits_2.into_iter().map(|pair| (2 * pair + 1) * FRAME + 1);
        hit(r, line, bits_2, 1);
    }
}

pub fn damage(r: &mut Random, line: &mut Vec<u8>) {
    let length = line.len();
    let (frames, multiframes) = (length / FRAME, length / MULTIFRAME);
    let times = r.pick(&[1, 2, 3, 5, 10, 30]);
    let at = r.below(length);
    match r.below(20) {
        // Anywhere.
        0 => {
            for _ in 0..r.between(1, 300) {
                line[r.below(length)] ^= 1;
            }
        }
        // One bit, four, five that hide, a short burst, a long one.
        1 => line[at] ^= 1,
        2 => hit(r, line, at..length.min(at + 4), 1),
        3 => {
            for place in [at, at + 3, at + 4] {
                if place < length {
                    line[place] ^= 1;
                }
            }
        }
        4 => hit(r, line, at..length.min(at + 8), 2),
        5 => {
            let end = length.min(at + r.between(1, 6_000));
            hit(r, line, at..end, 2);
        }
        // Words, all by the same bit, each by any of its bits; some in a row.
        6 => {
            let bit = r.between(1, 7);
            let words = (0..frames).step_by(2).map(|f| f * FRAME + bit);
            hit(r, line, words, times);
        }
        7 | 8 => {
            let times = r.pick(&[3, 5, 10, 30]);
            hit_words(r, line, (0..frames).step_by(2), times);
        }
        9 => {
            let first = 2 * r.below(frames / 2);
            let in_row = r.between(2, 4);
            let words = (first..frames).step_by(2).take(in_row);
            hit_words(r, line, words, 1);
        }
        // Bit 2 of odd frames.
        10 => {
            let seconds = (1..frames).step_by(2).map(|f| f * FRAME + 1);
            hit(r, line, seconds, times);
        }
        // Words and bits 2, some of each in a row.
        11 | 12 | 13 => hit_rows(r, line),
        // Signals, E bits, check bits, all bits 1 of odd frames.
        14 => {
            let f = r.pick(&[1, 3, 5, 7, 9, 11]);
            let signals = (0..multiframes).map(|m| (16 * m + f) * FRAME);
            hit(r, line, signals, times);
        }
        15 => {
            let f = r.pick(&[13, 15]);
            let es = (0..multiframes).map(|m| (16 * m + f) * FRAME);
            hit(r, line, es, times);
        }
        16 => {
            let checks = (0..frames).step_by(2).map(|f| f * FRAME);
            hit(r, line, checks, times);
        }
        17 => {
            let firsts = (1..frames).step_by(2).map(|f| f * FRAME);
            hit(r, line, firsts, times);
        }
        // A mark of every signal.
        18 => {
            for m in 0..multiframes {
                line[(16 * m + r.pick(&[1, 3, 5, 7, 9, 11])) * FRAME] ^= 1;
            }
        }
        // A slip: bits left out, or sent twice.
        _ => {
            let end = length.min(at + r.between(1, 600));
            if r.once_in(2) {
                line.drain(at..end);
            } else {
                let again = line[at..end].to_vec();
                line.splice(at..at, again);
            }
        }
    }
}

/// Bits in front, whole octets, cut at either end; an image as it may come.
pub fn moved(r: &mut Random, line: Vec<u8>) -> Vec<u8> {
    let mut image = match r.below(6) {
        // False starts in front of the true place, at any distance.
        0 => {
            let signals = signals(r);
            let count = r.between(70, 1_200);
            bits(&false_starts(count, &signals))
        }
        1 => Vec::new(),
        _ => {
            let (front, fill) = (r.between(0, 64), r.octets(8));
            let fill = r.pick(&[[0; 8], [255; 8], fill.try_into().unwrap()]);
            bits(&fill)[..front].to_vec()
        }
    };
    if r.once_in(6) {
        image.drain(..r.below(64).min(image.len()));
    }
    image.extend(line);
    if r.once_in(6) {
        image.drain(..r.below(image.len() / 3));
    }
    let behind = if r.once_in(4) { r.below(2_000) } else { 0 };
    let bit = r.pick(&[0, 1]);
    image.resize(image.len() + behind, bit);
    if r.once_in(12) {
        basics(r, &mut image);
    }
    whole_octets(&mut image, bit);
    let mut image = octets(&image);
    match r.below(8) {
        0 => image.truncate(length(r)),
        1 => image.truncate(r.between(2_040, 2_600)),
        2 => image.resize(length(r), 0x1B),
        3 => {}
        _ => image.truncate(8_192),
    }
    image
}
