use crate::refusal::{accepted, accepted_number, Refusal};
use crate::sys::{self, ANSWER, STATE};

/// The kinds of a host's record.
pub mod kind {
    /// Sets staged entry a to b; where nothing is staged, a copy of the live
    /// map is staged first.
    pub const STAGE: u8 = 1;
    /// Makes the staged map the waiting one, in place of any that waits.
    pub const COMMIT: u8 = 2;
    /// Reads live entry a.
    pub const READ: u8 = 3;
    /// Drops the staged map.
    pub const DROP: u8 = 4;
}

/// The slot map and its key: a live map, perhaps a staged one, perhaps a
/// waiting one, and whether the key is on.
#[derive(Clone, Debug)]
pub struct State([u8; STATE]);

impl State {
    /// The key off, nothing staged, nothing waiting, and slot j taking from j.
    pub fn new() -> State {
        let mut octets = [0; STATE];
        // SAFETY: the octets are lent whole.
        unsafe { sys::jk_start(&mut octets) };
        State(octets)
    }

    /// Takes a host's record, 4 octets: a [`kind`], the output slot a, the
    /// input slot b (0 for idle), the host number. It answers the entry for
    /// [`kind::READ`], else 0.
    ///
    /// # Errors
    ///
    /// In this order [`BadRecord`](Refusal::BadRecord),
    /// [`BadKind`](Refusal::BadKind), [`BadSlot`](Refusal::BadSlot),
    /// [`KeyOff`](Refusal::KeyOff) and
    /// [`NothingStaged`](Refusal::NothingStaged).
    pub fn host(&mut self, record: &[u8]) -> Result<u8, Refusal> {
        let mut answer = [0; ANSWER];
        // SAFETY: the octets are lent whole, the record with its length.
        unsafe { sys::jk_host(&mut self.0, record.as_ptr(), record.len(), &mut answer) };
        accepted(&answer)?;
        Ok(answer[1] as u8)
    }

    /// Turns the key: 1 is on; 0 is off, and drops the staged and the waiting
    /// map.
    ///
    /// # Errors
    ///
    /// [`BadPosition`](Refusal::BadPosition) for any other position.
    pub fn key(&mut self, position: u64) -> Result<(), Refusal> {
        // SAFETY: the octets are lent whole.
        accepted_number(unsafe { sys::jk_key(&mut self.0, position) })
    }

    /// A multiframe boundary: a waiting map is live from here on.
    pub fn boundary(&mut self) {
        // SAFETY: the octets are lent whole. The number is always 0.
        unsafe { sys::jk_boundary(&mut self.0) };
    }

    /// Puts every frame of a payload of 496n octets, n from 1 to 16, through
    /// the live map into as many octets of `out`: output slot j holds the input
    /// slot that entry j names, or 255 where that is 0. Octets past those keep
    /// what they held.
    ///
    /// # Errors
    ///
    /// In this order [`BadPayload`](Refusal::BadPayload) and
    /// [`ShortOutput`](Refusal::ShortOutput). Nothing is written then.
    pub fn map(&self, payload: &[u8], out: &mut [u8]) -> Result<(), Refusal> {
        // SAFETY: the octets are lent whole, every pointer comes with the
        // length of its own slice.
        accepted_number(unsafe {
            sys::jk_map(
                &self.0,
                payload.as_ptr(),
                payload.len(),
                out.as_mut_ptr(),
                out.len(),
            )
        })
    }

    /// The octets, as the C header lays them out.
    pub fn octets(&self) -> &[u8; STATE] {
        &self.0
    }
}

impl Default for State {
    fn default() -> State {
        State::new()
    }
}
