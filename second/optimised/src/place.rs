//! Which place stands, by windows of 64 bits. In a set of places the highest
//! bit is the place at the window's first bit, the next bit the next place.

use crate::{as_is, window};

/// The octets that the places of a window look at.
pub const AHEAD: usize = 2_048;

/// The octets from a window to the next, 56 places: the word of the last of
/// them still ends in the window.
const STEP: usize = 7;

/// The windows that are passed over with one test of what is left.
const ROW: usize = 8;

/// What is found: the first place that stands, with its least k; where none
/// does, the first with basic alignment; or neither.
pub enum Found {
    At(usize, usize),
    BasicAt(usize),
    Nothing,
}

/// A search: the last place with room, and the first with basic alignment so
/// far, which is past that one where there is none.
struct Search<'a> {
    image: &'a [u8],
    last: usize,
    first: usize,
}

/// The first place that stands, and what there is where none does.
pub fn find(image: &[u8]) -> Found {
    let last = 8 * (image.len() - AHEAD);
    let mut search = Search {
        image,
        last,
        first: last + 1,
    };
    let passed = match search.pass::<ROW>(image) {
        Ok(rest) => search.pass::<1>(rest),
        stands => stands,
    };
    match passed {
        Err((place, k)) => Found::At(place, k),
        Ok(_) if search.first <= last => Found::BasicAt(search.first),
        Ok(_) => Found::Nothing,
    }
}

impl<'a> Search<'a> {
    /// Passes over the rest of the image by rows of N windows, until there is
    /// no row left or, as an error, a place stands.
    #[inline(always)]
    fn pass<const N: usize>(&mut self, mut rest: &'a [u8]) -> Result<&'a [u8], (usize, usize)> {
        while let Some(row) = rest.get(..AHEAD + STEP * (N - 1)) {
            let (i, ones) = first_ones::<N>(row);
            let mut passed = i + STEP;
            if ones != 0 {
                let aligned = ones << 2 & bits_2(row, i);
                if aligned != 0 {
                    let at = self.image.len() - rest.len() + i;
                    passed = i + self.step(at, aligned)?;
                }
            }
            rest = &rest[passed..];
        }
        Ok(rest)
    }

    /// Looks at the window at octet i, of which these have ones and bit 2, and
    /// gives the octets to the next one. The words are taken from the image, as
    /// the loop over rows would keep those of every window for this.
    #[inline(always)]
    fn step(&mut self, i: usize, aligned: u64) -> Result<usize, (usize, usize)> {
        let aligned = (aligned & zeros(&self.image[i..i + AHEAD], 0)) << 1;
        if aligned == 0 {
            return Ok(STEP);
        }
        self.look(i, aligned)?;
        Ok(2 * STEP)
    }

    /// Looks at two windows, of which the first is at octet i and has these
    /// with basic alignment. An error is the first place that stands.
    #[inline(never)]
    fn look(&mut self, i: usize, aligned: u64) -> Result<(), (usize, usize)> {
        let ahead: &[u8; AHEAD] = self.image[i..i + AHEAD].try_into().unwrap();
        let next = (ones(ahead, STEP) << 2 & bits_2(ahead, STEP) & zeros(ahead, STEP)) << 1;
        let aligned = u128::from(aligned) << 64 | u128::from(next) << (64 - 8 * STEP);
        let place = |set: u128| 8 * i + set.leading_zeros() as usize;
        if self.first > self.last {
            // The first is most often the one that stands.
            self.first = place(aligned);
            self.judge(self.first)?;
        }
        match aligned & paired(ahead) {
            0 => Ok(()),
            stand => self.judge(place(stand)),
        }
    }

    /// An error where this place, which has basic alignment, stands.
    fn judge(&self, place: usize) -> Result<(), (usize, usize)> {
        if place > self.last {
            return Ok(());
        }
        let ahead = self.image[place / 8..place / 8 + AHEAD].try_into().unwrap();
        match pairs(ahead, place % 8) {
            0 => Ok(()),
            pairs => Err((place, pairs.trailing_zeros() as usize)),
        }
    }
}

/// The first window of a row with ones, and these; the last where none has.
#[inline(always)]
fn first_ones<const N: usize>(row: &[u8]) -> (usize, u64) {
    for i in (0..N).map(|w| STEP * w) {
        let ones = ones(row, i);
        if ones != 0 {
            return (i, ones);
        }
    }
    (STEP * (N - 1), 0)
}

/// Where both words of the window at octet i have the ones of the word, 0, 0,
/// 11, 0, 11: the first of them. Most often there are none.
#[inline(always)]
fn ones(octets: &[u8], i: usize) -> u64 {
    let both = u64::from_be(as_is(octets, i) & as_is(octets, i + 64));
    let twos = both & both << 1;
    twos & twos << 3
}

/// Where bit 2 between the two words is 1. This set and the next have the bit
/// behind a place for it; a window's first is behind none of its places.
#[inline(always)]
fn bits_2(octets: &[u8], i: usize) -> u64 {
    window(octets, i + 32)
}

/// Where both words have the zeros of the word.
#[inline(always)]
fn zeros(octets: &[u8], i: usize) -> u64 {
    let none = !u64::from_be(as_is(octets, i) | as_is(octets, i + 64));
    none & none << 1 & none << 4
}

/// The places with two signals a multiple of 2 ms apart, of 128. All marks of a
/// place lie at one bit of their 16 octets, so these are put in order at the
/// end; here they are two numbers, one behind the other in each list.
#[inline(never)]
fn paired(ahead: &[u8; AHEAD]) -> u128 {
    let mut m = [0; 2 * 32];
    for k in 0..32 {
        m[2 * k] = as_is(ahead, 32 + 64 * k);
        m[2 * k + 1] = as_is(ahead, 40 + 64 * k);
    }
    // The signal is 0, 01, 01, 1.
    let mut rise = [0; 2 * 30];
    for (j, rise) in rise.iter_mut().enumerate() {
        *rise = !m[j] & m[j + 2];
    }
    let mut signal = [0; 2 * 27];
    for (j, signal) in signal.iter_mut().enumerate() {
        *signal = !m[j] & rise[j + 2] & rise[j + 6] & m[j + 10];
    }
    let mut later = [0; 2 * 27];
    let mut paired = [0; 2];
    for k in (0..19).rev() {
        for (i, paired) in paired.iter_mut().enumerate() {
            let j = 2 * k + i;
            later[j] = signal[j + 16] | later[j + 16];
            *paired |= signal[j] & later[j];
        }
    }
    let [front, back] = paired.map(u64::from_be);
    u128::from(front) << 64 | u128::from(back)
}

/// Each k with a pair of signals of the place at bit o, as a 1; the least k is
/// the lowest bit.
pub fn pairs(ahead: &[u8; AHEAD], o: usize) -> u32 {
    let mut m: u32 = 0;
    for k in 0..32 {
        let bit = window(ahead, 32 + 64 * k) << o >> 63;
        m |= (bit as u32) << k;
    }
    let signal = !m & !(m >> 1) & m >> 2 & !(m >> 3) & m >> 4 & m >> 5;
    signal & (signal >> 8 | signal >> 16 | signal >> 24)
}
