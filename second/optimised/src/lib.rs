//! Reading, in chunks too, asking why, writing, both with signalling too, and
//! mapping once more, as fast as safe Rust has them here: many places in one window
//! of 64 bits, checks by folding, octets moved by the frame. The mark that the proved
//! library's times are held to; the agreement tests hold it to the oracle.
//! Reading and writing take the check of [`chain`] or that of [`fold`]; nothing
//! else differs.

#![forbid(unsafe_code)]

pub mod chain;
pub mod fold;
mod loss;
mod mapping;
mod place;
mod reading;
mod signalling;
mod stream;
pub mod t1;
mod why;
mod writing;

pub use mapping::map;
pub use reading::read;
pub use signalling::{signals, write_signalled};
pub use stream::Stream;
pub use why::why;
pub use writing::write;

/// The check of a block, as [`chain::check`] says.
pub type Check = fn(&[u8], usize) -> u8;

/// The 64 bits from octet i on, the first the highest.
#[inline]
fn window(octets: &[u8], i: usize) -> u64 {
    u64::from_be_bytes(octets[i..i + 8].try_into().unwrap())
}

/// The 64 bits from octet i on, in the order of this machine's octets.
#[inline(always)]
fn as_is(octets: &[u8], i: usize) -> u64 {
    u64::from_ne_bytes(octets[i..i + 8].try_into().unwrap())
}
