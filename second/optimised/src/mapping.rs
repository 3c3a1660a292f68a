//! Mapping a payload, eight slots of every frame at a time: their entries
//! stay in registers, and what they bring is stored as one number.

use oracle::Exchange;

/// As [`Exchange::map`].
pub fn map(exchange: &Exchange, payload: &[u8], out: &mut [u8]) -> u64 {
    let n = payload.len() / 496;
    if payload.len() % 496 != 0 || !(1..=16).contains(&n) {
        return 5;
    }
    if out.len() < payload.len() {
        return 4;
    }
    // The last eight begin inside those before, as 31 is not a multiple.
    for first in [1, 9, 17, 24] {
        eight(&exchange.live[first..first + 8], first - 1, payload, out);
    }
    0
}

/// The slots with these entries, at this octet of every frame.
fn eight(entries: &[u8], at: usize, payload: &[u8], out: &mut [u8]) {
    let idle = |i: usize| !(1..=31).contains(&entries[i]);
    let from = |i: usize| {
        if idle(i) {
            0
        } else {
            usize::from(entries[i]) - 1
        }
    };
    let from: [usize; 8] = std::array::from_fn(from);
    let ones = u64::from_le_bytes(std::array::from_fn(|i| if idle(i) { 255 } else { 0 }));
    for (frame, out) in payload.chunks_exact(31).zip(out.chunks_exact_mut(31)) {
        let octet = |i: usize| u64::from(frame[from[i].min(30)]) << (8 * i);
        let low = octet(0) | octet(1) | octet(2) | octet(3);
        let high = octet(4) | octet(5) | octet(6) | octet(7);
        let octets = low | high | ones;
        out[at..at + 8].copy_from_slice(&octets.to_le_bytes());
    }
}
