//! A small generator of test values (splitmix64).

/// The generator, by its state.
pub struct Random(u64);

impl Random {
    /// The generator of one item of a seed's list, so that an item can be
    /// made again without those before it.
    pub fn new(seed: u64, item: u64) -> Random {
        let mut random = Random(seed ^ item.wrapping_mul(0xD1B5_4A32_D192_ED03));
        random.any();
        random
    }

    /// Any number of 64 bits.
    pub fn any(&mut self) -> u64 {
        self.0 = self.0.wrapping_add(0x9E37_79B9_7F4A_7C15);
        let mut z = self.0;
        z = (z ^ (z >> 30)).wrapping_mul(0xBF58_476D_1CE4_E5B9);
        z = (z ^ (z >> 27)).wrapping_mul(0x94D0_49BB_1331_11EB);
        z ^ (z >> 31)
    }

    /// A number below `bound`, which is not 0.
    pub fn below(&mut self, bound: usize) -> usize {
        (self.any() % bound as u64) as usize
    }

    /// A number from `low` to `high`, both possible.
    pub fn between(&mut self, low: usize, high: usize) -> usize {
        low + self.below(high - low + 1)
    }

    /// True once in `times`.
    pub fn once_in(&mut self, times: usize) -> bool {
        self.below(times) == 0
    }

    /// Any octet.
    pub fn octet(&mut self) -> u8 {
        self.any() as u8
    }

    /// Any octets, so many.
    pub fn octets(&mut self, count: usize) -> Vec<u8> {
        (0..count).map(|_| self.octet()).collect()
    }

    /// So many octets from `low` to `high`, both possible.
    pub fn numbers(&mut self, count: usize, low: usize, high: usize) -> Vec<u8> {
        (0..count).map(|_| self.between(low, high) as u8).collect()
    }

    /// One of these.
    pub fn pick<T: Copy>(&mut self, from: &[T]) -> T {
        from[self.below(from.len())]
    }
}
