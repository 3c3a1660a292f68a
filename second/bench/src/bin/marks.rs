//! The marks that the library's times are held to, without the library.

use std::process::ExitCode;

fn main() -> ExitCode {
    bench::main(&[bench::plain(), bench::optimised(), bench::folded()])
}
