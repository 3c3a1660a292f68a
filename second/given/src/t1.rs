//! T1 as it may come: superframes written, damaged, moved and cut, with false
//! places among their bits, lines of nothing but false places, octets that are
//! no line at all; and what writes are given.

use crate::image::hit;
use crate::making::whole_octets;
use crate::{near, room, Random};
use oracle::line::{bits, octets};
use oracle::t1::{write, CHECK, FRAME, LINK, SIGNAL, SIGNAL_PLACES, SUPERFRAME};

/// Places from a signal bit to the next.
const BETWEEN: usize = 4 * FRAME;

/// The bits of a superframe over and over.
fn over_and_over(superframe: &[u8], count: usize) -> Vec<u8> {
    let bits: Vec<u8> = superframe.iter().copied().cycle().take(8 * count).collect();
    octets(&bits)
}

/// Six runs of equal bits, which are the signal for 772 places in a row.
fn runs_of_bits() -> Vec<u8> {
    (0..SUPERFRAME).map(|b| SIGNAL[b / BETWEEN]).collect()
}

/// Runs and nothing else.
pub fn runs(count: usize) -> Vec<u8> {
    over_and_over(&runs_of_bits(), count)
}

/// Runs with two bits turned over, so that none of as many places stands as can
/// have both signals.
pub fn worst(count: usize) -> Vec<u8> {
    let mut superframe = runs_of_bits();
    for place in [5, 220] {
        superframe[place] ^= 1;
    }
    over_and_over(&superframe, count)
}

/// A place with both signals in each row of 56, as every window then has to be
/// looked at; none of them stands.
pub fn spread(count: usize) -> Vec<u8> {
    let mut superframe = bits(&Random::new(0, SPREAD).octets(SUPERFRAME / 8));
    for place in (0..SUPERFRAME).step_by(56) {
        set_signal(&mut superframe, place);
    }
    over_and_over(&superframe, count)
}

/// The first item of which no place stands.
const SPREAD: u64 = 10;

/// Gives a place of a superframe that comes over and over the signal.
fn set_signal(superframe: &mut [u8], place: usize) {
    for (signal_place, bit) in SIGNAL_PLACES.iter().zip(SIGNAL) {
        superframe[(place + signal_place) % SUPERFRAME] = bit;
    }
}

/// A length from just too short to just too long, those most of all.
fn length(r: &mut Random) -> usize {
    match r.below(4) {
        0 => r.pick(&[1_157, 1_158, 1_159, 8_191, 8_192, 8_193]),
        1 => r.pick(&[0, 1, 579, 1_156, 1_736, 1_737, 8_194, 10_000]),
        _ => r.between(1_158, 8_192),
    }
}

/// An image of any of these kinds, most often a line.
pub fn image(r: &mut Random) -> Vec<u8> {
    match r.below(40) {
        0 => {
            let length = length(r);
            r.octets(length)
        }
        1 => vec![r.pick(&[0, 255, 0x55, 0x2D]); length(r)],
        2 | 3 => {
            let mut bits = bits(&false_places(r, 8_192));
            if r.once_in(2) {
                damage(r, &mut bits);
            }
            moved(r, bits)
        }
        _ => {
            let mut line = line(r);
            for _ in 0..r.pick(&[0, 1, 1, 2, 3]) {
                damage(r, &mut line);
            }
            moved(r, line)
        }
    }
}

/// Nothing but false places. Few of the worst, as they cost the oracle most.
fn false_places(r: &mut Random, count: usize) -> Vec<u8> {
    match r.below(16) {
        0 => worst(count.min(2_000)),
        1 => runs(count),
        2 | 3 => {
            let mut superframe = runs_of_bits();
            for _ in 0..r.between(1, 40) {
                superframe[r.below(SUPERFRAME)] ^= 1;
            }
            over_and_over(&superframe, count)
        }
        4 | 5 | 6 => spread(count),
        _ => {
            let mut superframe = bits(&r.octets(SUPERFRAME / 8));
            for _ in 0..r.pick(&[1, 2, 10, 80]) {
                set_signal(&mut superframe, r.below(SUPERFRAME));
            }
            over_and_over(&superframe, count)
        }
    }
}

/// The bits of a written line, of two superframes or more but seldom less.
fn line(r: &mut Random) -> Vec<u8> {
    let n = match r.below(8) {
        0 => r.between(1, 14),
        1 => 14,
        2 => 2,
        _ => r.between(2, 5),
    };
    let mut payload = payload(r, 576 * n);
    if r.once_in(3) {
        for _ in 0..r.pick(&[1, 3, 30]) {
            set_false_place(&mut payload, r.between(1, SUPERFRAME - 1));
        }
    }
    let link = r.numbers(12 * n, 0, 1);
    let mut out = vec![0; 579 * n];
    let written = write(&payload, &link, r.below(64) as u64, &mut out);
    assert_eq!(written.number, 0);
    bits(&out)
}

/// Octets at random, all the same, or a few only.
fn payload(r: &mut Random, count: usize) -> Vec<u8> {
    match r.below(4) {
        0 => vec![r.octet(); count],
        1 => {
            let few = r.octets(3);
            (0..count).map(|_| r.pick(&few)).collect()
        }
        _ => r.octets(count),
    }
}

/// Gives the place so many bits behind each superframe's first the signal, as
/// far as it lies in the payload.
fn set_false_place(payload: &mut [u8], behind: usize) {
    for superframe in payload.chunks_mut(576) {
        for (place, bit) in SIGNAL_PLACES.iter().zip(SIGNAL) {
            let place = (behind + place) % SUPERFRAME;
            let (frame, b) = (place / FRAME, place % FRAME);
            if b > 0 {
                let (octet, weight) = (24 * frame + (b - 1) / 8, 128 >> ((b - 1) % 8));
                superframe[octet] = superframe[octet] & !weight | bit * weight;
            }
        }
    }
}

fn damage(r: &mut Random, line: &mut Vec<u8>) {
    let length = line.len();
    let superframes = length / SUPERFRAME;
    let times = r.pick(&[1, 2, 3, 5, 10, 30]);
    let at = r.below(length);
    let few = |places: &[usize], line: &mut [u8]| {
        for place in places {
            if let Some(bit) = line.get_mut(*place) {
                *bit ^= 1;
            }
        }
    };
    match r.below(13) {
        // Anywhere.
        0 => {
            for _ in 0..r.between(1, 100) {
                line[r.below(length)] ^= 1;
            }
        }
        // One bit, six, some that hide, a short burst, a long one.
        1 | 2 => line[at] ^= 1,
        3 => hit(r, line, at..length.min(at + 6), 1),
        4 => few(&[at, at + 5, at + 6], line),
        5 => few(&[at, at + 63], line),
        6 => hit(r, line, at..length.min(at + 12), 2),
        7 => {
            let end = length.min(at + r.between(1, 8_000));
            hit(r, line, at..end, 2);
        }
        // Framing bits: of one kind, or of the first two superframes.
        8 => framing(r, line, &SIGNAL_PLACES, superframes, times),
        9 => framing(r, line, &CHECK, superframes, times),
        10 => framing(r, line, &LINK, superframes, times),
        11 => {
            let places = (0..48).map(|f| f * FRAME).filter(|place| *place < length);
            hit(r, line, places, 24);
        }
        // A slip: bits left out, or sent twice.
        _ => {
            let end = length.min(at + r.between(1, 600));
            if r.once_in(2) {
                line.drain(at..end);
            } else {
                let again = line[at..end].to_vec();
                line.splice(at..at, again);
            }
        }
    }
}

/// Hits framing bits of one kind, once in `times`.
fn framing(r: &mut Random, line: &mut [u8], places: &[usize], superframes: usize, times: usize) {
    for s in 0..superframes {
        let places = places.iter().map(|place| s * SUPERFRAME + place);
        hit(r, line, places, times);
    }
}

/// Bits in front, whole octets, cut at either end; an image as it may come.
fn moved(r: &mut Random, line: Vec<u8>) -> Vec<u8> {
    let mut image = match r.below(8) {
        0 => {
            let count = r.between(600, 1_500);
            bits(&false_places(r, count))
        }
        1 => Vec::new(),
        2 => {
            let count = r.below(6_000);
            bits(&r.octets(count))
        }
        _ => {
            let front = r.between(0, 64);
            let fill = r.octet();
            bits(&[r.pick(&[0, 255, fill]); 8])[..front].to_vec()
        }
    };
    image.extend(line);
    if r.once_in(4) {
        image.drain(..r.below(image.len().min(5_000)));
    }
    let behind = if r.once_in(4) { r.below(2_000) } else { 0 };
    let bit = r.pick(&[0, 1]);
    image.resize(image.len() + behind, bit);
    whole_octets(&mut image, bit);
    let mut image = octets(&image);
    match r.below(8) {
        0 => image.truncate(length(r)),
        1 => image.truncate(r.between(1_150, 1_800)),
        2 => image.resize(length(r), 0x2D),
        3 => {}
        _ => image.truncate(8_192),
    }
    image
}

/// What a write is given; the output by what it holds beforehand.
pub struct Write {
    pub payload: Vec<u8>,
    pub link: Vec<u8>,
    pub check: u64,
    pub before: Vec<u8>,
}

/// A write that is accepted more often than not.
pub fn write_given(r: &mut Random) -> Write {
    let n = if r.once_in(20) { 15 } else { r.between(1, 14) };
    let length = near(r, 576 * n);
    let payload = payload(r, length);
    let length = near(r, 12 * n);
    let link = bits_but(r, length);
    let check = match r.below(16) {
        0 => 64,
        1 => r.any(),
        2 => r.pick(&[255, 256, 1 << 32, (1 << 32) + 5, 1 << 63, u64::MAX]),
        _ => r.below(64) as u64,
    };
    let room = room(r, 579 * n);
    Write {
        payload,
        link,
        check,
        before: r.octets(room),
    }
}

/// So many octets of 0 or 1, or all the same, at times but one.
fn bits_but(r: &mut Random, count: usize) -> Vec<u8> {
    let (low, high) = r.pick(&[(0, 0), (1, 1), (0, 1), (0, 1)]);
    let mut bits = r.numbers(count, low, high);
    if r.once_in(8) && count > 0 {
        let octet = r.between(2, 255) as u8;
        let any = r.below(count);
        bits[r.pick(&[0, count - 1, any])] = r.pick(&[2, 3, 128, 255, octet]);
    }
    bits
}

/// What a write with signalling is given.
pub struct WriteSignalled {
    pub write: Write,
    pub signalling: Vec<u8>,
}

/// A write that is accepted more often than not.
pub fn write_signalled_given(r: &mut Random) -> WriteSignalled {
    let write = write_given(r);
    // Where the payload has a wrong length, near what goes with the data link.
    let n = match write.payload.len() % 576 {
        0 => write.payload.len() / 576,
        _ => write.link.len() / 12,
    };
    let count = near(r, 96 * n);
    let signalling = bits_but(r, count);
    WriteSignalled { write, signalling }
}

#[cfg(test)]
mod tests {
    use super::*;
    use oracle::t1::{agrees, has_signals};

    /// The places with both signals, none of which stands.
    fn candidates(image: &[u8]) -> Vec<usize> {
        let image = bits(image);
        let found: Vec<usize> = (0..image.len())
            .filter(|p| has_signals(&image, *p))
            .collect();
        assert!(found.iter().all(|p| !agrees(&image, *p)));
        found
    }

    #[test]
    fn worst_is_worst() {
        assert_eq!(candidates(&worst(8_192)).len(), 9_433);
    }

    #[test]
    fn spread_is_spread() {
        let found = candidates(&spread(8_192));
        let windows = (8 * 8_192 - 2 * SUPERFRAME) / 56;
        for w in 0..windows {
            assert!(found.iter().any(|p| p / 56 == w), "{w}");
        }
    }
}
