//! Remainders modulo x^6 + x + 1. There x^63 is 1, so x^64 is x.

/// The check of a superframe whose payload is all 0: what the framing bits,
/// read as 1, add to any.
pub const FRAMING: u64 = 0b00_0010;

/// The remainder of 64 bits.
#[inline(always)]
pub const fn reduced(bits: u64) -> u64 {
    // x^48 is x^8 + 1, x^24 is x^4 + 1, and so on down to x^6, which is x + 1.
    let bits = folded(folded(bits, 48), 24);
    let bits = folded(folded(bits, 12), 12);
    folded(folded(bits, 6), 6)
}

#[inline(always)]
const fn folded(bits: u64, at: u32) -> u64 {
    let high = bits >> at;
    high << (at / 6) ^ high ^ bits & ((1 << at) - 1)
}

/// 128 bits as 64, where those in front are no more than 63.
#[inline(always)]
pub fn halved(bits: u128) -> u64 {
    ((bits >> 64) as u64) << 1 ^ bits as u64
}

/// The bits of a payload, with a place left for each framing bit.
#[derive(Clone, Copy, Default)]
pub struct Sum(u128);

impl Sum {
    /// A framing bit, and the three words of a frame.
    #[inline(always)]
    pub fn add(&mut self, [first, second, third]: [u64; 3]) {
        self.0 = self.0 << 2 ^ u128::from(first);
        self.0 = self.0 << 1 ^ u128::from(second);
        self.0 = self.0 << 1 ^ u128::from(third);
    }

    /// Makes room for eight frames more.
    #[inline(always)]
    pub fn halve(&mut self) {
        self.0 = u128::from(halved(self.0));
    }

    /// The check of the superframe that has all been added.
    #[inline(always)]
    pub fn check(self) -> u64 {
        reduced(halved(u128::from(halved(self.0)) << 6)) ^ FRAMING
    }
}
