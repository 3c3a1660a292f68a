//! What the tests and the benchmark give to calls: good for the most part, and
//! near it for the rest.

#![forbid(unsafe_code)]

mod asked;
mod chunks;
mod image;
pub mod making;
mod random;
mod signalled;
pub mod t1;

pub use asked::{asked, Asked};
pub use chunks::{chunks, joined, longest};
pub use image::image;
pub use random::Random;
pub use signalled::{signalled, write_signalled, WriteSignalled};

use oracle::Exchange;

/// A length for an output that needs `need` octets.
pub fn room(r: &mut Random, need: usize) -> usize {
    match r.below(20) {
        0 => 0,
        1 => need.saturating_sub(1),
        2 => r.below(need + 1),
        3 | 4 => need + 1,
        5 | 6 => need + r.below(600),
        _ => need,
    }
}

/// What a write is given; the output by what it holds beforehand.
pub struct Write {
    pub payload: Vec<u8>,
    pub overhead: Vec<u8>,
    pub check: u64,
    pub before: Vec<u8>,
}

/// A write that is accepted more often than not.
pub fn write(r: &mut Random) -> Write {
    let n = if r.once_in(20) { 17 } else { r.between(1, 16) };
    let length = near(r, 496 * n);
    let payload = r.octets(length);
    let length = near(r, 8 * n);
    let mut overhead = overhead(r, length);
    if r.once_in(6) && length > 0 {
        overhead[r.below(length)] |= r.pick(&[64, 128, 192]);
    }
    let check = check(r);
    let room = room(r, 512 * n);
    Write {
        payload,
        overhead,
        check,
        before: r.octets(room),
    }
}

/// Overhead octets with any of the bits that they may have.
pub fn overhead(r: &mut Random, count: usize) -> Vec<u8> {
    (0..count)
        .map(|j| r.octet() & if j % 8 >= 6 { 127 } else { 63 })
        .collect()
}

/// Once in eight, a length near the good one.
fn near(r: &mut Random, good: usize) -> usize {
    match r.below(32) {
        0 => good + 1,
        1 => good.saturating_sub(1),
        2 => r.below(10_000),
        3 => 0,
        _ => good,
    }
}

fn check(r: &mut Random) -> u64 {
    match r.below(16) {
        0 => 16,
        1 => r.any(),
        2 => r.pick(&[255, 256, 1 << 32, (1 << 32) + 5, 1 << 63, u64::MAX]),
        _ => r.below(16) as u64,
    }
}

/// What a mapping is given; the output by what it holds beforehand.
pub struct Mapping {
    pub exchange: Exchange,
    pub payload: Vec<u8>,
    pub before: Vec<u8>,
}

/// Through a live map of any octets, most of them entries.
pub fn mapping(r: &mut Random) -> Mapping {
    let n = if r.once_in(20) { 17 } else { r.between(1, 16) };
    let length = near(r, 496 * n);
    let most = r.pick(&[32, 32, 40, 256]);
    let mut exchange = Exchange::start();
    exchange.live = std::array::from_fn(|_| r.below(most) as u8);
    let room = room(r, length);
    Mapping {
        exchange,
        payload: r.octets(length),
        before: r.octets(room),
    }
}
