//! The proved library in the shape of the oracle, through its safe binding.
//! Each read, why and write, with signalling and of T1 too, is made once more
//! through the C interface: the number returned, all places of the answer, which are set
//! beforehand, and every octet must be what the binding says.

use jikhvanto::sys::{self, ANSWER};
use jikhvanto::{Cause, Refusal, Why as Said};
use oracle::{t1, Reading, Signals, Why, Written};

/// What a call leaves in the places of its answer.
pub fn answered(call: impl FnOnce(&mut [u64; ANSWER]) -> u64) -> [u64; ANSWER] {
    let mut answer = [0xAAAA_AAAA_AAAA_AAAA; ANSWER];
    let number = call(&mut answer);
    assert_eq!(number, answer[0], "returned and answered");
    answer
}

/// The values, and zeros behind.
pub fn places<const N: usize>(values: [u64; N]) -> [u64; ANSWER] {
    let mut places = [0; ANSWER];
    places[..N].copy_from_slice(&values);
    places
}

pub fn read(image: &[u8], payload: &mut [u8], slot0: &mut [u8]) -> Reading {
    let (mut c_payload, mut c_slot0) = (payload.to_vec(), slot0.to_vec());
    // SAFETY: every pointer comes with the length of its own slice.
    let answer = answered(|answer| unsafe {
        sys::jk_read(
            image.as_ptr(),
            image.len(),
            c_payload.as_mut_ptr(),
            c_payload.len(),
            c_slot0.as_mut_ptr(),
            c_slot0.len(),
            answer,
        )
    });
    let r = reading(jikhvanto::read(image, payload, slot0));
    assert_eq!(answer, reading_places(&r));
    assert!(c_payload == payload && c_slot0 == slot0, "outputs of {r:?}");
    r
}

/// What the binding says of a read, or at a stream's end.
pub fn reading(answer: Result<jikhvanto::Reading, Refusal>) -> Reading {
    match answer {
        Ok(r) => Reading {
            number: 0,
            place: r.place as u64,
            start: r.start as u64,
            whole: r.whole as u64,
            used: r.used as u64,
            lost: r.lost.unwrap_or(0) as u64,
            words: r.words as u64,
            compared: r.compared as u64,
            errored: r.errored as u64,
            farend: r.farend as u64,
            wordbits: r.wordbits as u64,
            cause: cause(r.cause),
        },
        Err(refusal) => Reading {
            number: refusal.number(),
            place: place(refusal),
            ..Reading::default()
        },
    }
}

/// The same as the C interface has it.
pub fn reading_places(r: &Reading) -> [u64; ANSWER] {
    places([
        r.number, r.place, r.start, r.whole, r.used, r.lost, r.words, r.compared, r.errored,
        r.farend, r.wordbits, r.cause,
    ])
}

/// The number of a cause.
fn cause(cause: Option<Cause>) -> u64 {
    match cause {
        None => 0,
        Some(Cause::Word) => 1,
        Some(Cause::Bit2) => 2,
    }
}

/// The one value that a refusal may have.
fn place(refusal: Refusal) -> u64 {
    match refusal {
        Refusal::BasicOnly { place } => place as u64,
        _ => 0,
    }
}

pub fn signals(image: &[u8], abcd: &mut [u8]) -> Signals {
    let mut c_abcd = abcd.to_vec();
    // SAFETY: every pointer comes with the length of its own slice.
    let answer = answered(|answer| unsafe {
        sys::jk_signals(
            image.as_ptr(),
            image.len(),
            c_abcd.as_mut_ptr(),
            c_abcd.len(),
            answer,
        )
    });
    let s = match jikhvanto::signals(image, abcd) {
        Ok(s) => Signals {
            number: 0,
            multiframes: s.multiframes as u64,
            first: s.first.unwrap_or(0) as u64,
            losses: s.losses as u64,
            held: s.held.into(),
            x0: s.x0.into(),
            x1: s.x1.into(),
            x2: s.x2.into(),
            y: s.y.into(),
        },
        Err(refusal) => {
            if let Refusal::BasicOnly { .. } = refusal {
                let reading = jikhvanto::read(image, &mut [], &mut []);
                assert_eq!(reading, Err(refusal), "the place that a reading says");
            }
            Signals {
                number: refusal.number(),
                ..Signals::default()
            }
        }
    };
    let values = [
        s.number,
        s.multiframes,
        s.first,
        s.losses,
        s.held,
        s.x0,
        s.x1,
        s.x2,
        s.y,
    ];
    assert_eq!(answer, places(values));
    assert!(c_abcd == abcd, "ABCD of {s:?}");
    s
}

pub fn why(image: &[u8], place: u64) -> Why {
    // SAFETY: the pointer comes with the length of its own slice.
    let answer =
        answered(|answer| unsafe { sys::jk_why(image.as_ptr(), image.len(), place, answer) });
    let (number, condition, k, bit) = match jikhvanto::why(image, place) {
        Ok(Said::Stands { k }) => (0, 0, k, 0),
        Ok(Said::FirstWord { bit }) => (0, 1, 0, bit),
        Ok(Said::Bit2) => (0, 2, 0, 0),
        Ok(Said::SecondWord { bit }) => (0, 3, 0, bit),
        Ok(Said::NoPair) => (0, 4, 0, 0),
        Err(refusal) => (refusal.number(), 0, 0, 0),
    };
    let w = Why {
        number,
        condition,
        k: k as u64,
        bit: bit as u64,
    };
    assert_eq!(answer, places([w.number, w.condition, w.k, w.bit]));
    w
}

pub fn write(payload: &[u8], overhead: &[u8], check: u64, out: &mut [u8]) -> Written {
    let mut c_out = out.to_vec();
    // SAFETY: every pointer comes with the length of its own slice.
    let answer = answered(|answer| unsafe {
        sys::jk_write(
            payload.as_ptr(),
            payload.len(),
            overhead.as_ptr(),
            overhead.len(),
            check,
            c_out.as_mut_ptr(),
            c_out.len(),
            answer,
        )
    });
    let w = written(jikhvanto::write(payload, overhead, check, out));
    assert_eq!(answer, places([w.number, w.check]));
    assert!(c_out == out, "output of {w:?}");
    w
}

fn written(answer: Result<u64, Refusal>) -> Written {
    match answer {
        Ok(check) => Written { number: 0, check },
        Err(refusal) => Written {
            number: refusal.number(),
            check: 0,
        },
    }
}

pub fn write_signalled(
    payload: &[u8],
    overhead: &[u8],
    check: u64,
    xy: &[u8],
    abcd: &[u8],
    out: &mut [u8],
) -> Written {
    let mut c_out = out.to_vec();
    // SAFETY: every pointer comes with the length of its own slice.
    let answer = answered(|answer| unsafe {
        sys::jk_write_signalled(
            payload.as_ptr(),
            payload.len(),
            overhead.as_ptr(),
            overhead.len(),
            check,
            xy.as_ptr(),
            xy.len(),
            abcd.as_ptr(),
            abcd.len(),
            c_out.as_mut_ptr(),
            c_out.len(),
            answer,
        )
    });
    let w = written(jikhvanto::write_signalled(
        payload, overhead, check, xy, abcd, out,
    ));
    assert_eq!(answer, places([w.number, w.check]));
    assert!(c_out == out, "output of {w:?}");
    w
}

pub fn t1_read(image: &[u8], payload: &mut [u8], link: &mut [u8]) -> t1::Reading {
    let (mut c_payload, mut c_link) = (payload.to_vec(), link.to_vec());
    // SAFETY: every pointer comes with the length of its own slice.
    let answer = answered(|answer| unsafe {
        sys::jk_t1_read(
            image.as_ptr(),
            image.len(),
            c_payload.as_mut_ptr(),
            c_payload.len(),
            c_link.as_mut_ptr(),
            c_link.len(),
            answer,
        )
    });
    let r = match jikhvanto::t1::read(image, payload, link) {
        Ok(r) => t1::Reading {
            number: 0,
            place: r.place as u64,
            whole: r.whole as u64,
            compared: r.compared as u64,
            errored: r.errored as u64,
        },
        Err(refusal) => t1::refused(refusal.number()),
    };
    let values = [r.number, r.place, r.whole, r.compared, r.errored];
    assert_eq!(answer, places(values));
    assert!(c_payload == payload && c_link == link, "outputs of {r:?}");
    r
}

pub fn t1_write(payload: &[u8], link: &[u8], check: u64, out: &mut [u8]) -> Written {
    let mut c_out = out.to_vec();
    // SAFETY: every pointer comes with the length of its own slice.
    let answer = answered(|answer| unsafe {
        sys::jk_t1_write(
            payload.as_ptr(),
            payload.len(),
            link.as_ptr(),
            link.len(),
            check,
            c_out.as_mut_ptr(),
            c_out.len(),
            answer,
        )
    });
    let w = written(jikhvanto::t1::write(payload, link, check, out));
    assert_eq!(answer, places([w.number, w.check]));
    assert!(c_out == out, "output of {w:?}");
    w
}

pub fn t1_write_signalled(
    payload: &[u8],
    link: &[u8],
    check: u64,
    signalling: &[u8],
    out: &mut [u8],
) -> Written {
    let mut c_out = out.to_vec();
    // SAFETY: every pointer comes with the length of its own slice.
    let answer = answered(|answer| unsafe {
        sys::jk_t1_write_signalled(
            payload.as_ptr(),
            payload.len(),
            link.as_ptr(),
            link.len(),
            check,
            signalling.as_ptr(),
            signalling.len(),
            c_out.as_mut_ptr(),
            c_out.len(),
            answer,
        )
    });
    let w = written(jikhvanto::t1::write_signalled(
        payload, link, check, signalling, out,
    ));
    assert_eq!(answer, places([w.number, w.check]));
    assert!(c_out == out, "output of {w:?}");
    w
}
