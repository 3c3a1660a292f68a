//! Reads a line, from the file that is named or from standard input, and
//! prints its report. It ends with status 0; with 1 where the line is refused;
//! with 2 where the line could not be read or the report not be written.

use jikhvanto::{Cause, Reading, Refusal};
use std::env;
use std::fs::File;
use std::io::{self, Read, Write};
use std::process::ExitCode;

fn main() -> ExitCode {
    match run() {
        Ok(status) => status,
        Err(why) => {
            eprintln!("{why}");
            ExitCode::from(2)
        }
    }
}

fn run() -> Result<ExitCode, String> {
    let line = match env::args().nth(1) {
        Some(name) => File::open(&name)
            .and_then(octets)
            .map_err(|why| format!("{name}: {why}"))?,
        None => octets(io::stdin()).map_err(|why| format!("standard input: {why}"))?,
    };
    let (text, status) = match jikhvanto::read(&line, &mut [0; 7_936], &mut [0; 256]) {
        Ok(reading) => (report(&reading), ExitCode::SUCCESS),
        Err(refusal) => {
            if let Refusal::BasicOnly { place } = refusal {
                eprintln!("basic alignment and no more, first at place {place}");
            }
            (format!("refused {}\n", refusal.number()), ExitCode::from(1))
        }
    };
    let mut out = io::stdout();
    out.write_all(text.as_bytes())
        .and_then(|()| out.flush())
        .map_err(|why| format!("standard output: {why}"))?;
    Ok(status)
}

/// One octet more than are taken at most, so that a longer line is refused.
fn octets(from: impl Read) -> io::Result<Vec<u8>> {
    let mut octets = Vec::new();
    from.take(8_192 + 1).read_to_end(&mut octets)?;
    Ok(octets)
}

fn report(r: &Reading) -> String {
    let lost = match r.lost {
        Some(frame) => frame.to_string(),
        None => "no".to_string(),
    };
    let cause = match r.cause {
        Some(Cause::Word) => "cause word\n",
        Some(Cause::Bit2) => "cause bit2\n",
        None => "",
    };
    [
        format!("place {}\n", r.place),
        format!("start {}\n", r.start),
        format!("whole {}\n", r.whole),
        format!("used {}\n", r.used),
        format!("lost {lost}\n{cause}"),
        format!("words {}\n", r.words),
        format!("wordbits {}\n", r.wordbits),
        format!("compared {}\n", r.compared),
        format!("errored {}\n", r.errored),
        format!("farend {}\n", r.farend),
    ]
    .concat()
}
