use crate::refusal::{accepted, Refusal};
use crate::sys::{self, ANSWER};

/// What is heard of a line's thirty channels.
#[derive(Clone, Copy, Debug, PartialEq, Eq)]
#[non_exhaustive]
pub struct Signalling {
    /// Signalling multiframes read.
    pub multiframes: usize,
    /// The frame, numbered from the start, at which alignment with them is
    /// first taken.
    pub first: Option<usize>,
    /// How often that alignment is lost.
    pub losses: usize,
    /// Whether it is held after the last frame used.
    pub held: bool,
    /// X0 of the last signalling multiframe read. Where none is read, or
    /// alignment is not held, each X is true and Y is false.
    pub x0: bool,
    /// X1 of it.
    pub x1: bool,
    /// X2 of it.
    pub x2: bool,
    /// Y of it, the far end's alarm.
    pub y: bool,
}

/// Reads the signalling of thirty channels in slot 16 of the multiframes that
/// [`read`](crate::read()) uses of the same image.
///
/// `abcd` takes ABCD of channels 1 to 30 as numbers from 0 to 15, A worth 8: 30
/// octets a signalling multiframe read, and 450 always do. Octets past those
/// needed keep what they held.
///
/// # Errors
///
/// In this order [`ShortImage`](Refusal::ShortImage),
/// [`LongImage`](Refusal::LongImage), [`NoPlace`](Refusal::NoPlace),
/// [`BasicOnly`](Refusal::BasicOnly) and
/// [`ShortOutput`](Refusal::ShortOutput). Nothing is written then. `BasicOnly`
/// has the place that [`read`](crate::read()) says with it.
pub fn signals(image: &[u8], abcd: &mut [u8]) -> Result<Signalling, Refusal> {
    let mut answer = [0; ANSWER];
    // SAFETY: every pointer comes with the length of its own slice.
    let number = unsafe {
        sys::jk_signals(
            image.as_ptr(),
            image.len(),
            abcd.as_mut_ptr(),
            abcd.len(),
            &mut answer,
        )
    };
    if number == 15 {
        // There is no place in this answer. A reading refuses the same image
        // before it asks for room, and says it.
        crate::read(image, &mut [], &mut [])?;
    }
    accepted(&answer)?;
    let [_, multiframes, first, losses, ..] = answer.map(|value| value as usize);
    let [_, _, _, _, held, x0, x1, x2, y, ..] = answer.map(|value| value == 1);
    Ok(Signalling {
        multiframes,
        first: Some(first).filter(|frame| *frame != 0),
        losses,
        held,
        x0,
        x1,
        x2,
        y,
    })
}

/// Writes n multiframes as [`write`](crate::write()) does, but slot 16 from n
/// octets of `xy`, for frame 0 of each multiframe, and 30n of `abcd`, for
/// channels 1 to 30 in its frames 1 to 15. What the payload has in slot 16 goes
/// nowhere. It answers the check of the last block, for the next call.
///
/// An octet of `xy` is X0 worth 8, Y 4, X1 2 and X2 1; one of `abcd` is a
/// channel's ABCD, A worth 8, which may not be 0.
///
/// # Errors
///
/// In this order [`BadPayload`](Refusal::BadPayload),
/// [`BadOverhead`](Refusal::BadOverhead), [`BadCheck`](Refusal::BadCheck),
/// [`BadSignals`](Refusal::BadSignals) and
/// [`ShortOutput`](Refusal::ShortOutput). Nothing is written then.
pub fn write_signalled(
    payload: &[u8],
    overhead: &[u8],
    check: u64,
    xy: &[u8],
    abcd: &[u8],
    out: &mut [u8],
) -> Result<u64, Refusal> {
    let mut answer = [0; ANSWER];
    // SAFETY: every pointer comes with the length of its own slice.
    unsafe {
        sys::jk_write_signalled(
            payload.as_ptr(),
            payload.len(),
            overhead.as_ptr(),
            overhead.len(),
            check,
            xy.as_ptr(),
            xy.len(),
            abcd.as_ptr(),
            abcd.len(),
            out.as_mut_ptr(),
            out.len(),
            &mut answer,
        )
    };
    accepted(&answer)?;
    Ok(answer[1])
}
