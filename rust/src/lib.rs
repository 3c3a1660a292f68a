#![doc = include_str!("../README.md")]
#![warn(missing_docs)]

mod refusal;
mod signalling;
mod state;
mod stream;
pub mod sys;
pub mod t1;
mod why;

pub use refusal::Refusal;
pub use signalling::{signals, write_signalled, Signalling};
pub use state::{kind, State};
pub use stream::Stream;
pub use why::{why, Why};

use refusal::accepted;
use sys::ANSWER;

/// What a line that is read has.
#[derive(Clone, Copy, Debug, PartialEq, Eq)]
#[non_exhaustive]
pub struct Reading {
    /// The bit at which alignment stands.
    pub place: usize,
    /// The bit at which the first multiframe starts.
    pub start: usize,
    /// Whole multiframes from there to the end of the image, or of the joined
    /// line.
    pub whole: usize,
    /// Those before the one in which alignment is lost.
    pub used: usize,
    /// The frame, numbered from the start, at which alignment is lost, even or
    /// odd as [`cause`](Reading::cause) says.
    pub lost: Option<usize>,
    /// Wrong alignment words in the multiframes used.
    pub words: usize,
    /// Blocks compared with the check bits after them.
    pub compared: usize,
    /// Those of them that differ.
    pub errored: usize,
    /// E bits that are 0 in the multiframes used.
    pub farend: usize,
    /// Wrong bits of the alignment words in the multiframes used, 1 to 7 for
    /// each wrong word.
    pub wordbits: usize,
    /// By what alignment is lost; none where it is not.
    pub cause: Option<Cause>,
}

impl Reading {
    /// What an answer of `jk_read` or `jk_end` says.
    fn from_answer(answer: &[u64; ANSWER]) -> Result<Reading, Refusal> {
        accepted(answer)?;
        let [_, place, start, whole, used, lost, words, compared, errored, farend, wordbits, ..] =
            answer.map(|value| value as usize);
        Ok(Reading {
            place,
            start,
            whole,
            used,
            lost: Some(lost).filter(|frame| *frame != 0),
            words,
            compared,
            errored,
            farend,
            wordbits,
            cause: Cause::from_answer(answer),
        })
    }
}

/// By what alignment is lost. Words and bits 2 go by runs of their own, and it
/// is lost at the first frame that is the third in a row of either.
#[derive(Clone, Copy, Debug, PartialEq, Eq, Hash)]
pub enum Cause {
    /// Three even frames in a row have a wrong alignment word. The frame of
    /// loss is even.
    Word,
    /// Three odd frames in a row have a bit 2 of 0. The frame of loss is odd.
    Bit2,
}

impl Cause {
    /// The cause that an answer of [`jk_read`](sys::jk_read) or
    /// [`jk_end`](sys::jk_end) says; none where alignment is not lost or the
    /// call is refused.
    ///
    /// # Panics
    ///
    /// Where it is none that the C header names.
    pub fn from_answer(answer: &[u64; ANSWER]) -> Option<Cause> {
        Some(match answer[11] {
            0 => return None,
            1 => Cause::Word,
            2 => Cause::Bit2,
            cause => panic!("a cause that the header does not name: {cause}"),
        })
    }
}

/// Reads an image, whose bit 0 is the most significant bit of its first octet,
/// from the first place that stands.
///
/// `payload` takes slots 1 to 31, 496 octets a multiframe used, and `slot0`
/// takes 16 a multiframe: 7,936 and 256 always do. Octets past those needed
/// keep what they held.
///
/// # Errors
///
/// In this order [`ShortImage`](Refusal::ShortImage),
/// [`LongImage`](Refusal::LongImage), [`NoPlace`](Refusal::NoPlace),
/// [`BasicOnly`](Refusal::BasicOnly) and
/// [`ShortOutput`](Refusal::ShortOutput). Nothing is written then.
pub fn read(image: &[u8], payload: &mut [u8], slot0: &mut [u8]) -> Result<Reading, Refusal> {
    let mut answer = [0; ANSWER];
    // SAFETY: every pointer comes with the length of its own slice.
    unsafe {
        sys::jk_read(
            image.as_ptr(),
            image.len(),
            payload.as_mut_ptr(),
            payload.len(),
            slot0.as_mut_ptr(),
            slot0.len(),
            &mut answer,
        )
    };
    Reading::from_answer(&answer)
}

/// Writes n multiframes, n from 1 to 16, from a payload of 496n octets and 8n
/// octets of overhead to 512n octets of `out`. It answers the check of the
/// last block, for the next call.
///
/// An overhead octet is for one odd frame: A and Sa4 to Sa8 are its low six
/// bits, A the highest of them; for frames 13 and 15 the bit worth 64 is E; all
/// other bits are 0. `check` is that of the block before. Octets of `out` past
/// those needed keep what they held.
///
/// # Errors
///
/// In this order [`BadPayload`](Refusal::BadPayload),
/// [`BadOverhead`](Refusal::BadOverhead), [`BadCheck`](Refusal::BadCheck) and
/// [`ShortOutput`](Refusal::ShortOutput). Nothing is written then.
pub fn write(payload: &[u8], overhead: &[u8], check: u64, out: &mut [u8]) -> Result<u64, Refusal> {
    let mut answer = [0; ANSWER];
    // SAFETY: every pointer comes with the length of its own slice.
    unsafe {
        sys::jk_write(
            payload.as_ptr(),
            payload.len(),
            overhead.as_ptr(),
            overhead.len(),
            check,
            out.as_mut_ptr(),
            out.len(),
            &mut answer,
        )
    };
    accepted(&answer)?;
    Ok(answer[1])
}
