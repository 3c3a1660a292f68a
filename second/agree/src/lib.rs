//! What the agreement tests share: the same reads, lines in chunks, places and
//! writes, those of signalling and of T1 too, and two hits in one block, given to the
//! oracle and to another form, whose answers and octets are held together.
//! Another seed: `SEED=7 cargo test --release`.

mod hits;
mod losses;
mod reads;
mod signals;
mod streams;
mod t1;
mod whys;
mod writes;

pub use hits::{t1_two_hits, two_hits};
pub use reads::reads;
pub use signals::{signals, write_signalled_both, writes_signalled};
pub use streams::{longest, streams, streams_by_octets, Stream};
pub use t1::{t1_reads, t1_writes, t1_writes_signalled};
pub use whys::whys;
pub use writes::{write_both, writes};

use std::io::Write;
use std::{env, fs, io, process, thread};

/// The seed, printed with what it is for, past the harness, which would keep
/// it for failures.
pub fn seed(of: &str) -> u64 {
    let seed = env::var("SEED").map_or(2_048_704, |text| text.parse().expect("a number"));
    let text = format!("{of}: seed {seed}\n");
    io::stderr().write_all(text.as_bytes()).unwrap();
    seed
}

/// Octets to be written to a file if the test fails while they are kept.
struct Kept<'a> {
    name: String,
    octets: &'a [u8],
}

impl Drop for Kept<'_> {
    fn drop(&mut self) {
        if thread::panicking() {
            let name = format!("{}-{}", self.name, process::id());
            let path = env::temp_dir().join(name);
            fs::write(&path, self.octets).unwrap();
            eprintln!("what failed is in {}", path.display());
        }
    }
}
