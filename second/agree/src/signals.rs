//! Signalling read and written by the oracle and by another form.

use crate::{seed, Kept};
use given::{room, Random};
use oracle::{Signals, Written};

const LINES: u64 = 16_000;
const WRITES: u64 = 16_000;

type Read = fn(&[u8], &mut [u8]) -> Signals;
type Write = fn(&[u8], &[u8], u64, &[u8], &[u8], &mut [u8]) -> Written;

/// Holds the signalling that a form reads to the oracle's.
pub fn signals(form: &str, other: Read) {
    let seed = seed(&format!("{LINES} lines with signalling read, {form}"));
    let (mut numbers, mut places, mut starts) = ([0; 16], [0; 8], [0; 16]);
    let (mut read, mut losses) = ([0; 16], [0; 4]);
    let (mut ends, mut xys, mut causes) = ([0; 4], [[0; 2]; 4], [0; 3]);
    for item in 0..LINES {
        let r = &mut Random::new(seed, item);
        let image = given::signalled(r);
        let _kept = Kept {
            name: format!("signalled-{seed}-{item}"),
            octets: &image,
        };
        let s = both(r, &image, other);
        numbers[s.number as usize] += 1;
        if s.number != 0 {
            continue;
        }
        let reading = oracle::read(&image, &mut [0; 7_936], &mut [0; 256]);
        places[reading.place as usize % 8] += 1;
        causes[reading.cause as usize] += u64::from(reading.used > 0);
        read[s.multiframes as usize] += 1;
        losses[s.losses.min(3) as usize] += 1;
        if s.first != 0 {
            starts[s.first as usize % 16] += 1;
            let none = u64::from(s.multiframes == 0);
            ends[(2 * none + s.held) as usize] += 1;
        }
        if s.held == 1 && s.multiframes > 0 {
            for (counts, bit) in xys.iter_mut().zip([s.x0, s.x1, s.x2, s.y]) {
                counts[bit as usize] += 1;
            }
        }
    }
    // Every answer and every bit of an octet has had its share of the lines, and
    // so has every frame of sixteen to begin with, and every value.
    for number in [0, 1, 2, 3, 4, 15] {
        assert!(numbers[number] >= 100, "{numbers:?}");
    }
    assert!(numbers[0] >= LINES / 2, "{numbers:?}");
    assert!(places.iter().all(|&count| count >= 300), "{places:?}");
    assert!(starts.iter().all(|&count| count >= 100), "{starts:?}");
    assert!(read.iter().all(|&count| count >= 30), "{read:?}");
    assert!(losses.iter().all(|&count| count >= 100), "{losses:?}");
    // Either loss of a line's own alignment has left some of its frames.
    assert!(causes.iter().all(|&count| count >= 200), "{causes:?}");
    // Alignment is held and not held at the end, with some read and with none;
    // none are read where it is lost.
    assert!(ends[..2].iter().all(|&count| count >= 300), "{ends:?}");
    assert!(ends[3] >= 100 && ends[2] == 0, "{ends:?}");
    for counts in xys {
        assert!(counts.iter().all(|&count| count >= 300), "{xys:?}");
    }
}

/// Every octet and every value, with outputs of lengths that matter.
fn both(r: &mut Random, image: &[u8], other: Read) -> Signals {
    let need = oracle::signals(image, &mut [0; 450]);
    let room = match need.number {
        0 => room(r, 30 * need.multiframes as usize),
        _ => r.below(500),
    };
    let before = r.octets(room);
    let (mut abcd, mut other_abcd) = (before.clone(), before.clone());
    let signals = oracle::signals(image, &mut abcd);
    let other_signals = other(image, &mut other_abcd);
    assert_eq!(other_signals, signals, "room {room}");
    assert!(other_abcd == abcd, "ABCD of {signals:?}, room {room}");
    let needed = 30 * signals.multiframes as usize;
    assert!(abcd[needed..] == before[needed..]);
    signals
}

/// Holds the writes with signalling of a form to the oracle's.
pub fn writes_signalled(form: &str, other: Write) {
    let seed = seed(&format!("{WRITES} writes with signalling, {form}"));
    let (mut numbers, mut later) = ([0; 17], 0);
    for item in 0..WRITES {
        let given = given::write_signalled(&mut Random::new(seed, item));
        let _kept = Kept {
            name: format!("payload-signalled-{seed}-{item}"),
            octets: &given.write.payload,
        };
        let written = write_signalled_both(&given, other);
        numbers[written.number as usize] += 1;
        let signals = given.xy.iter().any(|xy| *xy > 15) || given.abcd.contains(&0);
        later += u64::from([5, 6, 7].contains(&written.number) && signals);
    }
    for number in [0, 4, 5, 6, 7, 16] {
        assert!(numbers[number] >= 500, "{numbers:?}");
    }
    // Number 16 would apply, but is not the first.
    assert!(later >= 200, "{later}");
}

/// Every octet and every number of one write with signalling.
pub fn write_signalled_both(given: &given::WriteSignalled, other: Write) -> Written {
    let given::WriteSignalled { write, xy, abcd } = given;
    let given::Write {
        payload,
        overhead,
        check,
        before,
    } = write;
    let what = format!(
        "{} octets, overhead {overhead:?}, check {check}, XY {xy:?}, ABCD {abcd:?}, room {}",
        payload.len(),
        before.len()
    );
    let (mut out, mut other_out) = (before.clone(), before.clone());
    let written = oracle::write_signalled(payload, overhead, *check, xy, abcd, &mut out);
    let other_written = other(payload, overhead, *check, xy, abcd, &mut other_out);
    assert_eq!(other_written, written, "{what}");
    assert!(other_out == out, "output of {what}");
    let needed = match written.number {
        0 => payload.len() / 496 * 512,
        _ => 0,
    };
    assert!(out[needed..] == before[needed..], "behind {what}");
    written
}
