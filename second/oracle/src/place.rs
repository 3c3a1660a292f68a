//! Which place stands.

use crate::line::{wrong_bits, SIGNAL};

/// Whether four multiframes are left from a place on.
fn has_room(bits: &[u8], p: usize) -> bool {
    p + 16_384 <= bits.len()
}

/// Of a place that has room.
fn basic_alignment(bits: &[u8], p: usize) -> bool {
    wrong_bits(bits, p) == 0 && bits[p + 257] == 1 && wrong_bits(bits, p + 512) == 0
}

fn signal_at(bits: &[u8], p: usize, k: usize) -> bool {
    let m = |k| bits[p + 256 + 512 * k];
    (0..6).all(|i| m(k + i) == SIGNAL[i])
}

/// Whether another signal follows the one at k, a multiple of 2 ms later.
fn paired(bits: &[u8], p: usize, k: usize) -> bool {
    (1..=3).any(|j| k + 8 * j + 5 <= 31 && signal_at(bits, p, k + 8 * j))
}

/// Whether a pair of signals begins at k, which is 26 at most.
pub fn pair_at(bits: &[u8], p: usize, k: usize) -> bool {
    signal_at(bits, p, k) && paired(bits, p, k)
}

/// The least k of a place that stands.
fn stands(bits: &[u8], p: usize) -> Option<usize> {
    if !has_room(bits, p) || !basic_alignment(bits, p) {
        return None;
    }
    (0..=26).find(|&k| pair_at(bits, p, k))
}

/// The first place that stands, with its least k.
pub fn first(bits: &[u8]) -> Option<(usize, usize)> {
    (0..bits.len()).find_map(|p| stands(bits, p).map(|k| (p, k)))
}

/// The first place with room and basic alignment, whether or not it stands.
pub fn first_basic(bits: &[u8]) -> Option<usize> {
    (0..bits.len()).find(|&p| has_room(bits, p) && basic_alignment(bits, p))
}
