use crate::refusal::{accepted, Refusal};
use crate::sys::{self, ANSWER};

/// What is said of a place: that it stands, or which condition it fails first.
/// Those before the one that is named hold.
#[derive(Clone, Copy, Debug, PartialEq, Eq, Hash)]
pub enum Why {
    /// It stands. The first multiframe known to begin starts 512k bits after
    /// it, and no smaller k has a pair of signals.
    Stands {
        /// The pairs of frames in between, 0 to 18.
        k: usize,
    },
    /// The alignment word in the seven bits after the place is wrong.
    FirstWord {
        /// The bit of the image that is the first wrong one of that word.
        bit: usize,
    },
    /// Bit 2 of the next frame, 257 bits after the place, is 0.
    Bit2,
    /// The alignment word two frames on, 513 to 519 bits after the place, is
    /// wrong.
    SecondWord {
        /// The bit of the image that is the first wrong one of that word.
        bit: usize,
    },
    /// There are no two multiframe signals 2, 4 or 6 ms apart.
    NoPair,
}

/// Says why a place, a bit of the image counted from 0, does not stand, or that
/// it does. Any number may be asked about.
///
/// # Errors
///
/// In this order [`ShortImage`](Refusal::ShortImage),
/// [`LongImage`](Refusal::LongImage) and [`LatePlace`](Refusal::LatePlace).
pub fn why(image: &[u8], place: u64) -> Result<Why, Refusal> {
    let mut answer = [0; ANSWER];
    // SAFETY: the pointer comes with the length of its own slice.
    unsafe { sys::jk_why(image.as_ptr(), image.len(), place, &mut answer) };
    accepted(&answer)?;
    let [_, condition, k, bit, ..] = answer.map(|value| value as usize);
    Ok(match condition {
        0 => Why::Stands { k },
        1 => Why::FirstWord { bit },
        2 => Why::Bit2,
        3 => Why::SecondWord { bit },
        4 => Why::NoPair,
        _ => panic!("a condition that the header does not name: {condition}"),
    })
}
