//! T1 with its extended superframe, as fast as the rest.

mod check;
mod place;
mod reading;
mod writing;

pub use reading::read;
pub use writing::{write, write_signalled};

/// The octets of eight frames, which begin one bit later each.
const EIGHT: usize = 193;
