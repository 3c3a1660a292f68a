//! Where alignment is lost. Each frame is a bit, 1 where its word, of an even
//! frame, or its bit 2, of an odd one, is wrong. Both runs go from a frame to the
//! second next, so that one test sees either end.

/// The last multiframe seen, frame 0 the highest bit of sixteen, and above it
/// those before.
#[derive(Clone, Default, PartialEq, Eq)]
pub struct Runs(u32);

impl Runs {
    /// A multiframe in which nothing is wrong.
    #[inline(always)]
    pub fn end(&mut self) {
        self.0 = 0;
    }

    /// A multiframe with these wrong; its first frame, 0 to 15, that is the third
    /// in a row.
    #[inline(always)]
    pub fn go_on(&mut self, wrong: u32) -> Option<usize> {
        self.0 = self.0 << 16 | wrong;
        match (self.0 & self.0 >> 2 & self.0 >> 4) as u16 {
            0 => None,
            thirds => Some(thirds.leading_zeros() as usize),
        }
    }
}

/// The cause of a loss at this frame, 0 where there is none.
pub fn cause(lost: Option<usize>) -> u64 {
    lost.map_or(0, |f| 1 + f as u64 % 2)
}
