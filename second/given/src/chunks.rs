//! Lines in chunks: images of any kind, and longer lines behind octets in which
//! nothing stands; cut where it matters and anywhere.

use crate::image::{damage, image, line};
use crate::making::{false_starts, shifted, whole_octets};
use crate::{overhead, Random};
use oracle::line::{bits, octets, FRAME};
use oracle::place::first;
use oracle::write;

/// A line as a stream gets it, one in three no longer than an image may be.
pub fn joined(r: &mut Random) -> Vec<u8> {
    if r.once_in(3) {
        return image(r);
    }
    let mut joined = front(r);
    for _ in 0..r.pick(&[1, 1, 1, 2, 3]) {
        let mut line = line(r);
        for _ in 0..r.pick(&[0, 0, 1, 2]) {
            damage(r, &mut line);
        }
        joined.extend(line);
    }
    if r.once_in(4) {
        joined.truncate(r.below(joined.len() + 1));
    }
    whole_octets(&mut joined, r.pick(&[0, 1]));
    octets(&joined)
}

/// Bits in which nothing stands, so many that the window is full, or about to
/// be, or not yet: octets all alike, any octets, false starts, a line with every
/// mark hit in one of its bits; or only a few, as most often.
fn front(r: &mut Random) -> Vec<u8> {
    let any = r.below(4_096);
    let count = r.pick(&[any, any, 1, 64, 2_016, 2_047, 2_048, 2_049]);
    let mut front = match r.below(8) {
        0 => bits(&vec![r.octet(); count]),
        1 => bits(&r.octets(count)),
        2 => bits(&false_starts(count, &[0, 0, 1, 0, 1, 1, 0])),
        3 => {
            let mut line = line(r);
            let frame = r.pick(&[1, 3, 5, 7, 9, 11]);
            for mark in line.iter_mut().skip(frame * FRAME).step_by(16 * FRAME) {
                *mark ^= 1;
            }
            line
        }
        _ => Vec::new(),
    };
    for _ in 0..r.below(16) {
        front.push(r.pick(&[0, 1]));
    }
    front
}

/// A line of the most octets that a stream takes, hit here and there.
pub fn longest(r: &mut Random) -> Vec<u8> {
    let (mut line, mut check) = (Vec::new(), 0);
    while line.len() < 16_777_216 {
        let (payload, overhead) = (r.octets(7_936), overhead(r, 128));
        let mut out = [0; 8_192];
        check = write(&payload, &overhead, check, &mut out).check;
        line.extend(out);
    }
    for _ in 0..5_000 {
        let at = r.below(line.len());
        line[at] ^= 1 << r.below(8);
    }
    let mut line = shifted(&line, r.between(1, 20_000));
    line.truncate(16_777_216);
    line
}

/// The line in chunks.
pub fn chunks<'a>(r: &mut Random, line: &'a [u8]) -> Vec<&'a [u8]> {
    let mut cuts = cuts(r, line);
    cuts.retain(|cut| *cut <= line.len());
    cuts.extend([0, line.len()]);
    cuts.sort_unstable();
    let chunk = |ends: &[usize]| &line[ends[0]..ends[1]];
    cuts.windows(2).map(chunk).collect()
}

/// Where the line is cut; a place that is there twice makes an empty chunk.
fn cuts(r: &mut Random, line: &[u8]) -> Vec<usize> {
    let around = |r: &mut Random, at: usize| (at + r.below(3)).saturating_sub(1);
    let anywhere = r.below(line.len() + 1);
    match r.below(8) {
        0 => Vec::new(),
        1 => {
            let count = r.between(1, 12);
            (0..count).map(|_| r.below(line.len() + 1)).collect()
        }
        // Where the window is full.
        2 => vec![around(r, 2_048), anywhere],
        3 => (2_040..2_056).collect(),
        // At the ends of multiframes or of blocks, of all or of some.
        4 | 5 => {
            let (start, step) = (start(line), r.pick(&[512, 512, 256, 1_024]));
            let times = r.pick(&[1, 2, 4]);
            let ends = (start..line.len()).step_by(step);
            let ends: Vec<usize> = ends.filter(|_| r.once_in(times)).collect();
            ends.into_iter().map(|end| around(r, end)).collect()
        }
        // Chunks all alike, but not too many; the last is shorter.
        6 => {
            let step = r.pick(&[255, 256, 257, 511, 512, 513, 1_000, 2_047, 2_048, 4_096]);
            (0..line.len()).step_by(step).collect()
        }
        // Octet by octet for a while, with empty chunks.
        _ => {
            let end = start(line) + 512 * r.below(line.len() / 512 + 1);
            let from = r.pick(&[end, anywhere, 2_048]).saturating_sub(r.below(20));
            let empty = r.pick(&[1, 2, 3]);
            (from..from + 20).flat_map(|cut| vec![cut; empty]).collect()
        }
    }
}

/// The octet in which the line's start is; 0 where it has none.
fn start(line: &[u8]) -> usize {
    first(&bits(line)).map_or(0, |(p, k)| (p + 512 * k) / 8)
}
