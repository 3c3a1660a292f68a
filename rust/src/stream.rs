use crate::refusal::{accepted, Refusal};
use crate::sys::{self, ANSWER, STREAM_OCTETS};
use crate::Reading;

/// A line in chunks: it is fed rows of octets of any length, and answers of all
/// that it took, joined, what [`read`](crate::read()) answers of an image,
/// wherever the line was cut. It takes 16,777,216 octets at most, and holds the
/// last 2,048 of them at most.
#[derive(Clone, Debug)]
pub struct Stream([u8; STREAM_OCTETS]);

impl Stream {
    /// Nothing has come.
    pub fn new() -> Stream {
        let mut octets = [0; STREAM_OCTETS];
        // SAFETY: the octets are lent whole.
        unsafe { sys::jk_stream_start(&mut octets) };
        Stream(octets)
    }

    /// Takes a chunk of the line, also one of no octets, and answers how many
    /// multiframes leave with it.
    ///
    /// A multiframe leaves with the chunk that makes it whole and known to be
    /// used, in the order of the line: `payload` takes its slots 1 to 31, 496
    /// octets, and `slot0` its slot 0, 16 octets. Room for n / 512 + 4
    /// multiframes always does for a chunk of n octets. Octets past those
    /// needed keep what they held.
    ///
    /// # Errors
    ///
    /// In this order [`Ended`](Refusal::Ended), [`LongLine`](Refusal::LongLine)
    /// and [`ShortOutput`](Refusal::ShortOutput). Nothing is written then, the
    /// stream stays as it was, and the chunk may be offered again.
    pub fn feed(
        &mut self,
        chunk: &[u8],
        payload: &mut [u8],
        slot0: &mut [u8],
    ) -> Result<usize, Refusal> {
        let mut answer = [0; ANSWER];
        // SAFETY: the octets are lent whole, every pointer comes with the
        // length of its own slice.
        unsafe {
            sys::jk_feed(
                &mut self.0,
                chunk.as_ptr(),
                chunk.len(),
                payload.as_mut_ptr(),
                payload.len(),
                slot0.as_mut_ptr(),
                slot0.len(),
                &mut answer,
            )
        };
        accepted(&answer)?;
        Ok(answer[1] as usize)
    }

    /// Ends the stream, and answers what is read of the joined line.
    ///
    /// # Errors
    ///
    /// In this order [`Ended`](Refusal::Ended),
    /// [`ShortImage`](Refusal::ShortImage), [`NoPlace`](Refusal::NoPlace) and
    /// [`BasicOnly`](Refusal::BasicOnly). After any of these but the first more
    /// chunks may follow, and another end.
    pub fn end(&mut self) -> Result<Reading, Refusal> {
        let mut answer = [0; ANSWER];
        // SAFETY: the octets are lent whole.
        unsafe { sys::jk_end(&mut self.0, &mut answer) };
        Reading::from_answer(&answer)
    }

    /// The octets, as the C header lays them out.
    pub fn octets(&self) -> &[u8; STREAM_OCTETS] {
        &self.0
    }
}

impl Default for Stream {
    fn default() -> Stream {
        Stream::new()
    }
}
