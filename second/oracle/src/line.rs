//! Bits, frames, blocks. A bit is a `u8` that is 0 or 1; a stretch of a line
//! is a list of them, the first sent first.

/// The bits of a frame, 32 slots of 8.
pub const FRAME: usize = 256;

/// The bits of a block.
pub const BLOCK: usize = 8 * FRAME;

/// The bits of a multiframe, which is two blocks.
pub const MULTIFRAME: usize = 16 * FRAME;

/// The alignment word, bits 2 to 8 of slot 0 in every even frame.
pub const WORD: [u8; 7] = [0, 0, 1, 1, 0, 1, 1];

/// The multiframe signal, bit 1 of frames 1, 3, 5, 7, 9, 11.
pub const SIGNAL: [u8; 6] = [0, 0, 1, 0, 1, 1];

/// The bits of the octets, each octet's most significant bit first.
pub fn bits(octets: &[u8]) -> Vec<u8> {
    let mut bits = Vec::with_capacity(8 * octets.len());
    for octet in octets {
        for weight in [128, 64, 32, 16, 8, 4, 2, 1] {
            bits.push(u8::from(octet & weight != 0));
        }
    }
    bits
}

/// The number that a few bits write, the first the highest.
pub fn number(bits: &[u8]) -> u8 {
    bits.iter().fold(0, |number, bit| 2 * number + bit)
}

/// The octets of the bits, which are a multiple of 8.
pub fn octets(bits: &[u8]) -> Vec<u8> {
    assert!(bits.len() % 8 == 0);
    bits.chunks(8).map(number).collect()
}

/// How many bits of the alignment word are wrong, 0 to 7, in the frame that
/// begins at this bit place. A word is wrong where this is not 0.
pub fn wrong_bits(bits: &[u8], frame: usize) -> u64 {
    let mut wrong = 0;
    for (bit, right) in bits[frame + 1..frame + 8].iter().zip(&WORD) {
        if bit != right {
            wrong += 1;
        }
    }
    wrong
}
