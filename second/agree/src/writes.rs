//! Multiframes written by the oracle and by another form.

use crate::{seed, Kept};
use given::Random;
use oracle::{write, Written};

const WRITES: u64 = 20_000;

type Write = fn(&[u8], &[u8], u64, &mut [u8]) -> Written;

/// Holds the writes of a form to the oracle's.
pub fn writes(form: &str, other: Write) {
    let seed = seed(&format!("{WRITES} writes, {form}"));
    let mut numbers = [0; 8];
    for item in 0..WRITES {
        let given = given::write(&mut Random::new(seed, item));
        let _kept = Kept {
            name: format!("payload-{seed}-{item}"),
            octets: &given.payload,
        };
        let written = write_both(&given, other);
        numbers[written.number as usize] += 1;
    }
    for number in [0, 4, 5, 6, 7] {
        assert!(numbers[number] >= 1_000, "{numbers:?}");
    }
}

/// Every octet and every number of one write.
pub fn write_both(given: &given::Write, other: Write) -> Written {
    let given::Write {
        payload,
        overhead,
        check,
        before,
    } = given;
    let what = format!(
        "{} octets, overhead {overhead:?}, check {check}, room {}",
        payload.len(),
        before.len()
    );
    let (mut out, mut other_out) = (before.clone(), before.clone());
    let written = write(payload, overhead, *check, &mut out);
    let other_written = other(payload, overhead, *check, &mut other_out);
    assert_eq!(other_written, written, "{what}");
    assert!(other_out == out, "output of {what}");
    let needed = match written.number {
        0 => payload.len() / 496 * 512,
        _ => 0,
    };
    assert!(out[needed..] == before[needed..], "behind {what}");
    written
}
