//! Lines with signalling: slot 16 as it may come, aligned anywhere, with
//! signals wrong, moved, missing, and false ones among the channels.

use crate::image::{damage, image, line, moved};
use crate::{near, write, Random, Write};
use oracle::line::{bits, FRAME};

/// An image with signalling, once in eight one of any kind.
pub fn signalled(r: &mut Random) -> Vec<u8> {
    if r.once_in(8) {
        return image(r);
    }
    let mut line = line(r);
    let slots = slots(r, line.len() / FRAME);
    for (frame, slot) in line.chunks_mut(FRAME).zip(slots) {
        frame[128..136].copy_from_slice(&bits(&[slot]));
    }
    if r.once_in(3) {
        damage(r, &mut line);
    }
    moved(r, line)
}

/// Slot 16 of so many frames.
fn slots(r: &mut Random, count: usize) -> Vec<u8> {
    match r.below(12) {
        0 => r.octets(count),
        1 => {
            let octet = r.octet();
            vec![r.pick(&[0, 0x0B, 0x10, 0xDD, octet]); count]
        }
        2 => {
            let few = [0, 0, 0x01, 0x0B, 0x10, 0xDD];
            (0..count).map(|_| r.pick(&few)).collect()
        }
        _ => {
            let mut slots = channels(r, count);
            set_signals(r, &mut slots);
            for _ in 0..r.pick(&[0, 1, 1, 2, 3]) {
                spoil(r, &mut slots);
            }
            slots
        }
    }
}

/// Channels that speak at random, are idle, or at times have the 0000 that
/// they must not.
fn channels(r: &mut Random, count: usize) -> Vec<u8> {
    let least = r.pick(&[0, 1, 1, 1]);
    let idle = r.once_in(4);
    (0..count)
        .map(|_| match idle {
            true => 0xDD,
            false => (16 * r.between(least, 15) + r.between(least, 15)) as u8,
        })
        .collect()
}

/// A signal in every sixteenth frame, from any frame on. At times that moves,
/// once or over and over, as after slips.
fn set_signals(r: &mut Random, slots: &mut [u8]) {
    let first = r.pick(&[18, 18, 18, 18, 18, slots.len()]);
    let mut f = r.below(first);
    let times = r.pick(&[3, 8, 1_000, 1_000]);
    while f < slots.len() {
        slots[f] = r.below(16) as u8;
        f += if r.once_in(times) {
            r.between(1, 50)
        } else {
            16
        };
    }
}

fn spoil(r: &mut Random, slots: &mut [u8]) {
    let at = r.below(slots.len());
    let end = slots.len().min(at + r.between(1, 40));
    let times = r.pick(&[2, 3, 5, 10]);
    match r.below(6) {
        // Signals, where there are any: once in so often, or two in a row and more.
        0 | 1 => {
            for slot in slots.iter_mut().filter(|slot| **slot < 16) {
                if r.once_in(times) {
                    *slot |= 16 << r.below(4);
                }
            }
        }
        2 => {
            let in_row = r.between(1, 4);
            let signals = slots[at..].iter_mut().filter(|slot| **slot < 16);
            for slot in signals.take(in_row) {
                *slot |= 16 * r.between(1, 15) as u8;
            }
        }
        // A false signal, or some in the frames where the true ones would be next.
        3 => slots[at] &= 15,
        4 => {
            let in_row = r.between(1, 6);
            for slot in slots[at..].iter_mut().step_by(16).take(in_row) {
                *slot &= 15;
            }
        }
        // Nothing but zeros.
        _ => slots[at..end].fill(0),
    }
}

/// What a write with signalling is given.
pub struct WriteSignalled {
    pub write: Write,
    pub xy: Vec<u8>,
    pub abcd: Vec<u8>,
}

/// A write that is accepted more often than not.
pub fn write_signalled(r: &mut Random) -> WriteSignalled {
    let write = write(r);
    // Where the payload has a wrong length, near what goes with the overhead.
    let n = match write.payload.len() % 496 {
        0 => write.payload.len() / 496,
        _ => write.overhead.len() / 8,
    };
    let (count, count_abcd) = (near(r, n), near(r, 30 * n));
    let (mut xy, mut abcd) = (r.numbers(count, 0, 15), r.numbers(count_abcd, 1, 15));
    let high = 16 * r.between(1, 15) as u8;
    if r.once_in(12) && count > 0 {
        xy[r.below(count)] |= r.pick(&[16, 128, high]);
    }
    if r.once_in(8) && count_abcd > 0 {
        let i = r.below(count_abcd);
        abcd[i] = r.pick(&[0, 0, 16, 255, abcd[i] | high, high]);
    }
    WriteSignalled { write, xy, abcd }
}
