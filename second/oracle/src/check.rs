//! The check of a block.

/// The places of C1 to C4 in a block: bit 1 of its even frames.
pub const PLACES: [usize; 4] = [0, 512, 1024, 1536];

/// x^4 + x + 1.
const DIVISOR: [u8; 5] = [1, 0, 0, 1, 1];

/// The remainder of the block times x^4, C1 first, by long division.
pub fn check(block: &[u8]) -> [u8; 4] {
    let mut rest = block.to_vec();
    for place in PLACES {
        rest[place] = 0;
    }
    rest.extend([0; 4]);
    for i in 0..block.len() {
        if rest[i] == 1 {
            for (bit, term) in rest[i..].iter_mut().zip(DIVISOR) {
                *bit ^= term;
            }
        }
    }
    [0, 1, 2, 3].map(|i| rest[block.len() + i])
}

/// The check bits that a block carries, those of the block before it.
pub fn carried(block: &[u8]) -> [u8; 4] {
    PLACES.map(|place| block[place])
}
