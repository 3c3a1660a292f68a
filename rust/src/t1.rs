//! T1 with the extended superframe: 24 frames of 193 bits, each a framing bit
//! and 24 octets.
//!
//! ```
//! use jikhvanto::{t1, Refusal};
//!
//! // Two superframes written, with a data link of zeros; the first carries the check 0.
//! let (payload, link) = ([0x55; 2 * 576], [0; 2 * 12]);
//! let mut line = [0; 2 * 579];
//! t1::write(&payload, &link, 0, &mut line)?;
//!
//! // Read again; 8,064 and 168 octets are enough for any line.
//! let (mut octets, mut bits) = ([0; 8_064], [0; 168]);
//! let reading = t1::read(&line, &mut octets, &mut bits)?;
//! assert_eq!((reading.place, reading.whole), (0, 2));
//! assert_eq!((reading.compared, reading.errored), (1, 0));
//! assert_eq!((&octets[..2 * 576], &bits[..2 * 12]), (&payload[..], &link[..]));
//! # Ok::<(), Refusal>(())
//! ```

use crate::refusal::{accepted, Refusal};
use crate::sys::{self, ANSWER};

/// What a T1 line that is read has.
#[derive(Clone, Copy, Debug, PartialEq, Eq)]
#[non_exhaustive]
pub struct Reading {
    /// The bit at which the first superframe starts.
    pub place: usize,
    /// Whole superframes from there to the end of the image.
    pub whole: usize,
    /// Superframes compared with the check bits after them: all but the last.
    pub compared: usize,
    /// Those of them that differ.
    pub errored: usize,
}

/// Reads an image of T1, whose bit 0 is the most significant bit of its first
/// octet, from the first place that stands.
///
/// `payload` takes the octets of the 24 channels, 576 a superframe, and `link`
/// the data link, 12 octets of 0 or 1 a superframe: 8,064 and 168 always do.
/// Octets past those needed keep what they held.
///
/// # Errors
///
/// In this order [`ShortImage`](Refusal::ShortImage),
/// [`LongImage`](Refusal::LongImage), [`NoPlace`](Refusal::NoPlace) and
/// [`ShortOutput`](Refusal::ShortOutput). Nothing is written then.
///
/// # Example
///
/// ```
/// use jikhvanto::{t1, Refusal};
///
/// let mut line = [0; 4 * 579];
/// t1::write(&[0xD5; 4 * 576], &[1; 4 * 12], 0, &mut line)?;
/// let (mut octets, mut bits) = ([0; 8_064], [0; 168]);
///
/// // A bit of the third superframe hit: it does not agree any more.
/// line[2 * 579 + 100] ^= 1;
/// assert_eq!(t1::read(&line, &mut octets, &mut bits)?.errored, 1);
///
/// // One of the first: the first place that stands is the second superframe's.
/// line[100] ^= 1;
/// let reading = t1::read(&line, &mut octets, &mut bits)?;
/// assert_eq!((reading.place, reading.whole), (8 * 579, 3));
///
/// // No line at all.
/// let nothing = t1::read(&[0; 1_158], &mut octets, &mut bits);
/// assert_eq!(nothing, Err(Refusal::NoPlace));
/// # Ok::<(), Refusal>(())
/// ```
pub fn read(image: &[u8], payload: &mut [u8], link: &mut [u8]) -> Result<Reading, Refusal> {
    let mut answer = [0; ANSWER];
    // SAFETY: every pointer comes with the length of its own slice.
    unsafe {
        sys::jk_t1_read(
            image.as_ptr(),
            image.len(),
            payload.as_mut_ptr(),
            payload.len(),
            link.as_mut_ptr(),
            link.len(),
            &mut answer,
        )
    };
    accepted(&answer)?;
    let [_, place, whole, compared, errored, ..] = answer.map(|value| value as usize);
    Ok(Reading {
        place,
        whole,
        compared,
        errored,
    })
}

/// Writes n superframes, n from 1 to 14, from a payload of 576n octets and 12n
/// octets of the data link, each of them 0 or 1, to 579n octets of `out`. It
/// answers the check of the last superframe, for the next call.
///
/// `check` is that of the superframe before, 0 to 63. Octets of `out` past
/// those needed keep what they held.
///
/// # Errors
///
/// In this order [`BadPayload`](Refusal::BadPayload),
/// [`BadOverhead`](Refusal::BadOverhead), [`BadCheck`](Refusal::BadCheck) and
/// [`ShortOutput`](Refusal::ShortOutput). Nothing is written then.
///
/// # Example
///
/// ```
/// use jikhvanto::{t1, Refusal};
///
/// // Two superframes at once, and one by one with the check handed on.
/// let (payload, link) = ([0x2A; 2 * 576], [1; 2 * 12]);
/// let (mut line, mut parts) = ([0; 2 * 579], [0; 2 * 579]);
/// let last = t1::write(&payload, &link, 63, &mut line)?;
/// let first = t1::write(&payload[..576], &link[..12], 63, &mut parts[..579])?;
/// let second = t1::write(&payload[576..], &link[12..], first, &mut parts[579..])?;
/// assert_eq!((second, parts), (last, line));
/// # Ok::<(), Refusal>(())
/// ```
pub fn write(payload: &[u8], link: &[u8], check: u64, out: &mut [u8]) -> Result<u64, Refusal> {
    let mut answer = [0; ANSWER];
    // SAFETY: every pointer comes with the length of its own slice.
    unsafe {
        sys::jk_t1_write(
            payload.as_ptr(),
            payload.len(),
            link.as_ptr(),
            link.len(),
            check,
            out.as_mut_ptr(),
            out.len(),
            &mut answer,
        )
    };
    accepted(&answer)?;
    Ok(answer[1])
}

/// Writes n superframes as [`write`] does, but the last bits of the octets in
/// frames 6, 12, 18 and 24 from 96n octets of `signalling`, each of them 0 or
/// 1, in the order of the line: frame 6 first, in each frame from channel 1 to
/// 24. What the payload has in these bits goes nowhere. It answers the check
/// of the last superframe, for the next call.
///
/// # Errors
///
/// In this order [`BadPayload`](Refusal::BadPayload),
/// [`BadOverhead`](Refusal::BadOverhead), [`BadCheck`](Refusal::BadCheck),
/// [`BadSignals`](Refusal::BadSignals) and
/// [`ShortOutput`](Refusal::ShortOutput). Nothing is written then.
///
/// # Example
///
/// ```
/// use jikhvanto::{t1, Refusal};
///
/// // Channel 3 signals 1 in frame 12, and every other bit of signalling is 0.
/// let (payload, link) = ([0xFF; 2 * 576], [0; 2 * 12]);
/// let mut signalling = [0; 2 * 96];
/// signalling[24 + 2] = 1;
/// let mut line = [0; 2 * 579];
/// t1::write_signalled(&payload, &link, 0, &signalling, &mut line)?;
///
/// // In the payload that is read it stands in these bits.
/// let (mut octets, mut bits) = ([0; 8_064], [0; 168]);
/// t1::read(&line, &mut octets, &mut bits)?;
/// let frame = |number: usize| &octets[24 * (number - 1)..][..24];
/// assert_eq!(frame(6), [0xFE; 24]);
/// assert_eq!(frame(12)[1..4], [0xFE, 0xFF, 0xFE]);
/// assert_eq!(frame(13), [0xFF; 24]);
/// # Ok::<(), Refusal>(())
/// ```
pub fn write_signalled(
    payload: &[u8],
    link: &[u8],
    check: u64,
    signalling: &[u8],
    out: &mut [u8],
) -> Result<u64, Refusal> {
    let mut answer = [0; ANSWER];
    // SAFETY: every pointer comes with the length of its own slice.
    unsafe {
        sys::jk_t1_write_signalled(
            payload.as_ptr(),
            payload.len(),
            link.as_ptr(),
            link.len(),
            check,
            signalling.as_ptr(),
            signalling.len(),
            out.as_mut_ptr(),
            out.len(),
            &mut answer,
        )
    };
    accepted(&answer)?;
    Ok(answer[1])
}
