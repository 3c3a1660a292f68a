//! How fast the library is: its times, and what they are to those of the
//! plain form, the optimised form with either check and a copy. `marks` has
//! the same without the library.

use bench::{hidden, Form, T1};
use jikhvanto::{Refusal, State, Stream};
use oracle::Fed;
use std::process::ExitCode;

fn main() -> ExitCode {
    bench::main(&[kit(), bench::plain(), bench::optimised(), bench::folded()])
}

fn kit() -> Form {
    let state = state().expect("records that are taken");
    Form {
        name: "kit",
        read: Box::new(|image, payload, slot0| {
            number(hidden(jikhvanto::read(image, payload, slot0)))
        }),
        signals: Box::new(|image, abcd| number(hidden(jikhvanto::signals(image, abcd)))),
        why: Box::new(|image, place| number(hidden(jikhvanto::why(image, place)))),
        write: Box::new(|payload, overhead, check, out| {
            number(hidden(jikhvanto::write(payload, overhead, check, out)))
        }),
        write_signalled: Box::new(|payload, overhead, check, xy, abcd, out| {
            let written = jikhvanto::write_signalled(payload, overhead, check, xy, abcd, out);
            number(hidden(written))
        }),
        map: Box::new(move |payload, out| number(state.map(payload, out))),
        feeds: Some(bench::feeds(Stream::new, feed)),
        t1: t1(),
    }
}

fn t1() -> T1 {
    use jikhvanto::t1::{read, write, write_signalled};
    T1 {
        read: Box::new(|image, payload, link| number(hidden(read(image, payload, link)))),
        write: Box::new(|payload, link, check, out| {
            number(hidden(write(payload, link, check, out)))
        }),
        write_signalled: Box::new(|payload, link, check, signalling, out| {
            number(hidden(write_signalled(
                payload, link, check, signalling, out,
            )))
        }),
    }
}

fn state() -> Result<State, Refusal> {
    let mut state = State::new();
    state.key(1)?;
    for record in bench::records() {
        state.host(&record)?;
    }
    state.boundary();
    Ok(state)
}

fn feed(stream: &mut Stream, chunk: &[u8], payload: &mut [u8], slot0: &mut [u8]) -> Fed {
    let left = stream.feed(chunk, payload, slot0);
    Fed {
        number: number(left),
        multiframes: left.unwrap_or(0) as u64,
    }
}

fn number<T>(answer: Result<T, Refusal>) -> u64 {
    answer.map_or_else(Refusal::number, |_| 0)
}
