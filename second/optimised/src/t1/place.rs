//! Which place stands, by windows of 64 bits. In a set of places the highest
//! bit is the place at the window's first bit, the next bit the next place.

use super::check::{halved, reduced, FRAMING};
use crate::{as_is, window};

/// The octets that the places of a window look at.
const AHEAD: usize = 1_158;

/// The octets of a superframe.
const SUPERFRAME: usize = 579;

/// The octets from a window to the next, 56 places: the bits of the last of
/// them still end in the window.
const STEP: usize = 7;

/// The windows that are passed over with one test of what is left.
const ROW: usize = 8;

/// The windows over which a remainder is moved on; further on it is worked out
/// anew.
const NEAR: usize = 3;

/// A search: the last place with room, and the remainder of a superframe's bits
/// from an octet on that was looked at last.
struct Search<'a> {
    image: &'a [u8],
    last: usize,
    known: Option<(usize, u64)>,
}

/// The first place that stands.
pub fn find(image: &[u8]) -> Option<usize> {
    let mut search = Search {
        image,
        last: 8 * (image.len() - AHEAD),
        known: None,
    };
    let passed = match search.pass::<ROW>(image) {
        Ok(rest) => search.pass::<1>(rest),
        stands => stands,
    };
    passed.err()
}

impl<'a> Search<'a> {
    /// Passes over the rest of the image by rows of N windows, until there is
    /// no row left or, as an error, a place stands.
    #[inline(always)]
    fn pass<const N: usize>(&mut self, mut rest: &'a [u8]) -> Result<&'a [u8], usize> {
        while let Some(row) = rest.get(..AHEAD + STEP * (N - 1)) {
            let (i, some) = first::<N>(row);
            if some != 0 {
                let signals = some & sevens(row, i + SUPERFRAME);
                if signals != 0 {
                    let at = self.image.len() - rest.len() + i;
                    self.look(at, signals)?;
                }
            }
            rest = &rest[i + STEP..];
        }
        Ok(rest)
    }

    /// Looks at the window at octet i, of which these have both signals. An
    /// error is the first place that stands.
    #[inline(never)]
    fn look(&mut self, i: usize, signals: u64) -> Result<(), usize> {
        let remainder = self.remainder(i);
        let ahead: &[u8; AHEAD] = self.image[i..i + AHEAD].try_into().unwrap();
        let stand = signals & agreed(ahead, remainder);
        let place = 8 * i + stand.leading_zeros() as usize;
        if stand != 0 && place <= self.last {
            return Err(place);
        }
        Ok(())
    }

    /// The remainder of the superframe's bits from octet i on.
    #[inline(always)]
    fn remainder(&mut self, i: usize) -> u64 {
        let mut remainder = match self.known {
            Some((at, remainder)) if i <= at + NEAR * STEP => (at, remainder),
            _ => {
                let octets = &self.image[i..i + SUPERFRAME];
                (i, whole(octets.try_into().unwrap()))
            }
        };
        while remainder.0 < i {
            let (at, before) = remainder;
            let next = moved(before, &self.image[at..at + SUPERFRAME + 8]);
            remainder = (at + STEP, next);
        }
        self.known = Some(remainder);
        remainder.1
    }
}

/// The first window of a row in which places are left, and these; the last
/// where none has any.
#[inline(always)]
fn first<const N: usize>(row: &[u8]) -> (usize, u64) {
    for i in (0..N).map(|w| STEP * w) {
        let some = threes(row, i) & sevens(row, i);
        if some != 0 {
            return (i, some);
        }
    }
    (STEP * (N - 1), 0)
}

/// Where both superframes of the window at octet i have the 0, 1, 1 that lie
/// three bits on.
#[inline(always)]
fn threes(octets: &[u8], i: usize) -> u64 {
    let at = |octet: usize| as_is(octets, i + octet);
    let ones = at(265) & at(458) & at(265 + SUPERFRAME) & at(458 + SUPERFRAME);
    u64::from_be(ones & !(at(72) | at(72 + SUPERFRAME))) << 3
}

/// Where a superframe has the 0, 0, 1 that lie seven bits on.
#[inline(always)]
fn sevens(octets: &[u8], i: usize) -> u64 {
    let at = |octet: usize| as_is(octets, i + octet);
    u64::from_be(at(554) & !(at(168) | at(361))) << 7
}

/// The remainder of a superframe's bits. x^504 is 1 as well, so that all but
/// the first twelve octets are nine rows of 63 with the same weight; a row is
/// taken with the octet before it, and the sum of these is left out.
#[inline(always)]
fn whole(octets: &[u8; SUPERFRAME]) -> u64 {
    let mut rows = [0; 8];
    for r in 0..9 {
        for (c, row) in rows.iter_mut().enumerate() {
            *row ^= as_is(octets, 11 + 63 * r + 8 * c);
        }
    }
    let mut sum = u128::from(u64::from_be(rows[0]) << 8 >> 8);
    for row in &rows[1..] {
        sum = sum << 1 ^ u128::from(u64::from_be(*row));
    }
    let front = window(octets, 0) >> 32;
    reduced(halved(sum) ^ front << 1 ^ window(octets, 4))
}

/// The remainder seven octets on: x^4632 is x^4 + x.
#[inline(always)]
fn moved(remainder: u64, octets: &[u8]) -> u64 {
    let (gone, come) = (window(octets, 0) >> 8, window(octets, SUPERFRAME) >> 8);
    reduced(remainder << 56 ^ come ^ gone << 4 ^ gone << 1)
}

/// Numbers of six bits, one for each place: their coefficients, 1 first.
type Six = [u64; 6];

/// x^o times x^6 times each remainder, for every place o, and what framing bits
/// of 1 add to each.
const POWERS: [Six; 64] = powers();

const fn powers() -> [Six; 64] {
    let mut powers = [[0; 6]; 64];
    let mut remainder = 0;
    while remainder < 64 {
        let mut power = reduced(remainder << 6);
        let mut o = 0;
        while o < 64 {
            let mut c = 0;
            while c < 6 {
                powers[remainder as usize][c] |= ((power ^ FRAMING) >> c & 1) << (63 - o);
                c += 1;
            }
            power = reduced(power << 1);
            o += 1;
        }
        remainder += 1;
    }
    powers
}

/// The places that agree, by the remainder of the first.
#[inline(always)]
fn agreed(ahead: &[u8; AHEAD], remainder: u64) -> u64 {
    let (gone, come) = (window(ahead, 0) >> 1, window(ahead, SUPERFRAME) >> 1);
    // Times x^6: what comes counts x + 1, what goes x^5 + x^4 + x^2 + x.
    let mut six = [come, come ^ gone, gone, 0, gone, gone];
    six = along(six, 1, x1);
    six = along(six, 2, x2);
    six = along(six, 4, x4);
    six = along(six, 8, |six| x4(x4(six)));
    six = along(six, 16, x16);
    six = along(six, 32, x32);
    let power = &POWERS[remainder as usize % 64];
    for (coefficient, power) in six.iter_mut().zip(power) {
        *coefficient ^= power;
    }
    frames(ahead, &mut six);
    carried(ahead, &mut six);
    let [a, b, c, d, e, f] = six;
    !(a | b | c | d | e | f)
}

/// Adds to every place what is so many before it, times this.
#[inline(always)]
fn along(six: Six, places: u32, times: impl Fn(Six) -> Six) -> Six {
    let mut before = six;
    for coefficient in &mut before {
        *coefficient >>= places;
    }
    sum(six, times(before))
}

#[inline(always)]
fn sum(mut six: Six, other: Six) -> Six {
    for (coefficient, other) in six.iter_mut().zip(other) {
        *coefficient ^= other;
    }
    six
}

#[inline(always)]
fn x1([a, b, c, d, e, f]: Six) -> Six {
    [f, a ^ f, b, c, d, e]
}

#[inline(always)]
fn x2([a, b, c, d, e, f]: Six) -> Six {
    [e, e ^ f, a ^ f, b, c, d]
}

#[inline(always)]
fn x4([a, b, c, d, e, f]: Six) -> Six {
    [c, c ^ d, d ^ e, e ^ f, a ^ f, b]
}

/// x^4 + x + 1.
#[inline(always)]
fn x16(six: Six) -> Six {
    sum(six, sum(x1(six), x4(six)))
}

/// x^3 + 1.
#[inline(always)]
fn x32(six: Six) -> Six {
    sum(six, x1(x2(six)))
}

/// Takes the framing bits out, each with its weight.
#[inline(always)]
fn frames(ahead: &[u8; AHEAD], six: &mut Six) {
    macro_rules! frames {
        ($($f:literal)*) => {
            $(frame::<$f>(ahead, six);)*
        };
    }
    frames!(0 1 2 3 4 5 6 7 8 9 10 11 12 13 14 15 16 17 18 19 20 21 22 23);
}

/// The framing bit of frame f, counted from 0. It counts x^(4631 - 193f), and
/// x^6 times that.
#[inline(always)]
fn frame<const F: usize>(ahead: &[u8; AHEAD], six: &mut Six) {
    let bit = window(ahead, 193 * F / 8) << (193 * F % 8);
    let weight = reduced(1 << ((4_637 - 193 * F) % 63));
    for (c, coefficient) in six.iter_mut().enumerate() {
        if weight >> c & 1 == 1 {
            *coefficient ^= bit;
        }
    }
}

/// Takes away the check that the next superframe carries, C1 the highest.
#[inline(always)]
fn carried(ahead: &[u8; AHEAD], six: &mut Six) {
    for (i, coefficient) in six.iter_mut().rev().enumerate() {
        let place = 8 * SUPERFRAME + 193 + 772 * i;
        *coefficient ^= window(ahead, place / 8) << (place % 8);
    }
}
