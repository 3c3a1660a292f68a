//! The rows of T1.

use crate::{hidden, Asked, Contender, Row};
use given::making::shifted;
use given::t1::{runs, spread, worst};
use given::Random;
use oracle::t1::{read, write, write_signalled};

type Read = Box<dyn Fn(&[u8], &mut [u8], &mut [u8]) -> u64>;
type Write = Box<dyn Fn(&[u8], &[u8], u64, &mut [u8]) -> u64>;
type WriteSignalled = Box<dyn Fn(&[u8], &[u8], u64, &[u8], &mut [u8]) -> u64>;

/// The operations on T1 in one form, each answering its number.
pub struct T1 {
    pub read: Read,
    pub write: Write,
    pub write_signalled: WriteSignalled,
}

/// The oracle.
pub fn plain() -> T1 {
    T1 {
        read: Box::new(|image, payload, link| hidden(read(image, payload, link)).number),
        write: Box::new(|payload, link, check, out| {
            hidden(write(payload, link, check, out)).number
        }),
        write_signalled: Box::new(|payload, link, check, signalling, out| {
            hidden(write_signalled(payload, link, check, signalling, out)).number
        }),
    }
}

/// The form that is the mark.
pub fn optimised() -> T1 {
    use optimised::t1::{read, write, write_signalled};
    T1 {
        read: Box::new(|image, payload, link| hidden(read(image, payload, link)).number),
        write: Box::new(|payload, link, check, out| {
            hidden(write(payload, link, check, out)).number
        }),
        write_signalled: Box::new(|payload, link, check, signalling, out| {
            hidden(write_signalled(payload, link, check, signalling, out)).number
        }),
    }
}

/// What a row of T1 calls.
pub enum Call {
    /// Of an image that is answered with this number.
    Read {
        image: Vec<u8>,
        number: u64,
    },
    Write {
        payload: Vec<u8>,
        link: Vec<u8>,
    },
    WriteSignalled {
        payload: Vec<u8>,
        link: Vec<u8>,
        signalling: Vec<u8>,
    },
}

pub fn rows() -> Vec<Row> {
    let r = &mut Random::new(0, 1);
    let (payload, link) = (r.octets(8_064), r.numbers(168, 0, 1));
    let signalling = r.numbers(1_344, 0, 1);
    let mut aligned = vec![0; 8_106];
    write(&payload, &link, 0, &mut aligned);
    let moved = shifted(&aligned, 3);
    let noise = r.octets(8_192);
    let read = |image, number| Asked::T1(Call::Read { image, number });
    vec![
        ("t1-read-place-0", read(aligned, 0)),
        ("t1-read-place-3", read(moved, 0)),
        ("t1-read-noise", read(noise, 3)),
        ("t1-read-runs", read(runs(8_192), 0)),
        ("t1-read-worst", read(worst(8_192), 3)),
        ("t1-read-spread", read(spread(8_192), 3)),
        (
            "t1-write-14",
            Asked::T1(Call::Write {
                payload: payload.clone(),
                link: link.clone(),
            }),
        ),
        (
            "t1-write-signalled-14",
            Asked::T1(Call::WriteSignalled {
                payload,
                link,
                signalling,
            }),
        ),
    ]
}

impl Call {
    pub fn handed_over(&self) -> &[u8] {
        match self {
            Call::Read { image, .. } => &image[..8_064],
            Call::Write { payload, .. } | Call::WriteSignalled { payload, .. } => payload,
        }
    }

    /// The call in this form.
    pub fn of<'a>(&'a self, name: &str, form: &'a T1) -> Contender<'a> {
        let mut out = vec![0; 8_192];
        match self {
            Call::Read { image, number } => {
                let mut link = [0; 168];
                let answered = (form.read)(image, &mut out, &mut link);
                assert_eq!(answered, *number, "{name}");
                Box::new(move || {
                    hidden((form.read)(hidden(image), &mut out, &mut link));
                    hidden(&out);
                })
            }
            Call::Write { payload, link } => Box::new(move || {
                let (payload, link) = hidden((payload, link));
                hidden((form.write)(payload, link, 9, &mut out));
                hidden(&out);
            }),
            Call::WriteSignalled {
                payload,
                link,
                signalling,
            } => Box::new(move || {
                let (payload, link, signalling) = hidden((payload, link, signalling));
                hidden((form.write_signalled)(
                    payload, link, 9, signalling, &mut out,
                ));
                hidden(&out);
            }),
        }
    }
}
