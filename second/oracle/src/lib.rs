//! The kit a second time, written from the paper alone and as plainly as it
//! reads: bits in lists, long division, maps in a struct. It shares nothing
//! with the proved library, which the agreement tests hold to it.

#![forbid(unsafe_code)]

pub mod check;
pub mod exchange;
pub mod line;
pub mod place;
pub mod reading;
pub mod signalling;
pub mod stream;
pub mod t1;
pub mod why;
pub mod writing;

pub use exchange::{Answer, Exchange};
pub use reading::{read, report, Reading};
pub use signalling::{signals, write_signalled, Signals};
pub use stream::{Fed, Stream};
pub use why::{said, why, Why};
pub use writing::{write, Written};
