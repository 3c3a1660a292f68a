//! T1 read and written by the oracle and by another form.

use crate::{seed, Kept};
use given::{room, t1, Random};
use oracle::line::{bits, number};
use oracle::t1::{
    agrees, carried, check, has_signals, read, remainder, write, write_signalled, Reading, FRAME,
    SUPERFRAME,
};
use oracle::Written;

const LINES: u64 = 12_000;
const WRITES: u64 = 8_000;

/// The lines and writes that are held against wrong rules: once in so many.
const RULED: u64 = 6;

type Read = fn(&[u8], &mut [u8], &mut [u8]) -> Reading;
type Write = fn(&[u8], &[u8], u64, &mut [u8]) -> Written;
type WriteSignalled = fn(&[u8], &[u8], u64, &[u8], &mut [u8]) -> Written;

/// Whether the superframe at this place of these bits agrees with the next, by
/// some wrong rule.
type Rule = fn(&[u8], usize) -> bool;

const WRONG_RULES: [(&str, Rule); 6] = [
    ("framing bits left in", |bits, p| {
        remainder(&bits[p..p + SUPERFRAME]) == next_carries(bits, p)
    }),
    ("framing bits read as 0", |bits, p| {
        check_by_zeros(&bits[p..p + SUPERFRAME]) == next_carries(bits, p)
    }),
    ("the check in the same superframe", |bits, p| {
        let superframe = &bits[p..p + SUPERFRAME];
        check(superframe) == carried(superframe)
    }),
    ("no check", |_, _| true),
    ("C1 and C6 exchanged", |bits, p| {
        let mut carried = next_carries(bits, p);
        carried.swap(0, 5);
        check(&bits[p..p + SUPERFRAME]) == carried
    }),
    ("C6 first", |bits, p| {
        let mut carried = next_carries(bits, p);
        carried.reverse();
        check(&bits[p..p + SUPERFRAME]) == carried
    }),
];

fn next_carries(bits: &[u8], p: usize) -> [u8; 6] {
    carried(&bits[p + SUPERFRAME..p + 2 * SUPERFRAME])
}

fn check_by_zeros(superframe: &[u8]) -> [u8; 6] {
    let mut bits = superframe.to_vec();
    for f in 0..24 {
        bits[f * FRAME] = 0;
    }
    remainder(&bits)
}

/// The place, and how many superframes are errored, by some rule.
fn ruled(bits: &[u8], agrees: Rule) -> Option<(usize, usize)> {
    let stands = |p: &usize| has_signals(bits, *p) && agrees(bits, *p);
    let place = (0..bits.len()).find(stands)?;
    let whole = (bits.len() - place) / SUPERFRAME;
    let compared = (0..whole - 1).map(|s| place + s * SUPERFRAME);
    let errored = compared.filter(|p| !agrees(bits, *p)).count();
    Some((place, errored))
}

/// Holds the reads of a form to the oracle's.
pub fn t1_reads(form: &str, other: Read) {
    let seed = seed(&format!("{LINES} lines of T1 read, {form}"));
    let (mut numbers, mut places, mut wholes) = ([0; 5], [0; 8], [0; 15]);
    let (mut errored, mut late, mut told) = ([0; 3], 0, [0; WRONG_RULES.len()]);
    for item in 0..LINES {
        let r = &mut Random::new(seed, item);
        let image = t1::image(r);
        let _kept = Kept {
            name: format!("t1-{seed}-{item}"),
            octets: &image,
        };
        let reading = both(r, &image, other);
        numbers[reading.number as usize] += 1;
        if reading.number != 0 {
            continue;
        }
        places[reading.place as usize % 8] += 1;
        wholes[reading.whole as usize] += 1;
        errored[reading.errored.min(2) as usize] += 1;
        late += u64::from(reading.place > 10_000);
        if item % RULED == 0 {
            let bits = bits(&image);
            let answer = Some((reading.place as usize, reading.errored as usize));
            assert_eq!(ruled(&bits, agrees), answer);
            for (told, (_, rule)) in told.iter_mut().zip(WRONG_RULES) {
                *told += u64::from(ruled(&bits, rule) != answer);
            }
        }
    }
    // Every answer, every bit of an octet and every number of superframes has
    // had its share of the lines.
    assert!(numbers.iter().all(|&count| count >= 300), "{numbers:?}");
    assert!(numbers[0] >= LINES / 3, "{numbers:?}");
    assert!(places.iter().all(|&count| count >= 300), "{places:?}");
    assert!(wholes[2..].iter().all(|&count| count >= 50), "{wholes:?}");
    assert!(errored.iter().all(|&count| count >= 200), "{errored:?}");
    assert!(late >= 200, "{late}");
    for (count, (name, _)) in told.iter().zip(WRONG_RULES) {
        assert!(*count >= 100, "told from {name}: {count}");
    }
}

/// Every octet and every number, with outputs of lengths that matter.
fn both(r: &mut Random, image: &[u8], other: Read) -> Reading {
    let need = read(image, &mut [0; 8_064], &mut [0; 168]);
    let whole = need.whole as usize;
    let (room, room_link) = match need.number {
        0 => (room(r, 576 * whole), room(r, 12 * whole)),
        _ => (r.below(8_200), r.below(200)),
    };
    let (before, before_link) = (r.octets(room), r.octets(room_link));

    let (mut payload, mut link) = (before.clone(), before_link.clone());
    let reading = match need.number {
        // What is needed is known, and so is the rest of the answer.
        0 if room >= 576 * whole && room_link >= 12 * whole => {
            let again = read(image, &mut payload, &mut link);
            assert_eq!(again, need);
            again
        }
        0 => oracle::t1::refused(4),
        _ => need,
    };
    let (mut other_payload, mut other_link) = (before.clone(), before_link.clone());
    let other_reading = other(image, &mut other_payload, &mut other_link);

    assert_eq!(other_reading, reading, "rooms {room} and {room_link}");
    let what = format!("{reading:?}, rooms {room} and {room_link}");
    assert!(other_payload == payload, "payload of {what}");
    assert!(other_link == link, "data link of {what}");
    let whole = reading.whole as usize;
    assert!(payload[576 * whole..] == before[576 * whole..]);
    assert!(link[12 * whole..] == before_link[12 * whole..]);
    reading
}

/// Holds the writes of a form to the oracle's.
pub fn t1_writes(form: &str, other: Write) {
    let seed = seed(&format!("{WRITES} writes of T1, {form}"));
    let (mut numbers, mut later) = ([0; 8], [0; 3]);
    for item in 0..WRITES {
        let given = t1::write_given(&mut Random::new(seed, item));
        let _kept = Kept {
            name: format!("t1-payload-{seed}-{item}"),
            octets: &given.payload,
        };
        let what = what(&given);
        let (mut out, mut other_out) = (given.before.clone(), given.before.clone());
        let written = write(&given.payload, &given.link, given.check, &mut out);
        let other_written = other(&given.payload, &given.link, given.check, &mut other_out);
        assert_eq!(other_written, written, "{what}");
        held(&given, &written, &out, &other_out);
        numbers[written.number as usize] += 1;
        let wrong_link = given.link.iter().any(|bit| *bit > 1);
        later[0] += u64::from(written.number == 5 && wrong_link);
        later[1] += u64::from([5, 6].contains(&written.number) && given.check > 63);
        later[2] += u64::from([5, 6, 7].contains(&written.number) && out.is_empty());
    }
    for number in [0, 4, 5, 6, 7] {
        assert!(numbers[number] >= 300, "{numbers:?}");
    }
    // Numbers 6, 7 and 4 would apply, but are not the first.
    assert!(later.iter().all(|&count| count >= 50), "{later:?}");
}

/// Holds the writes with signalling of a form to the oracle's.
pub fn t1_writes_signalled(form: &str, other: WriteSignalled) {
    let seed = seed(&format!("{WRITES} writes of T1 with signalling, {form}"));
    let (mut numbers, mut later, mut told) = ([0; 17], 0, 0);
    for item in 0..WRITES {
        let given = t1::write_signalled_given(&mut Random::new(seed, item));
        let t1::WriteSignalled {
            write: given,
            signalling,
        } = given;
        let _kept = Kept {
            name: format!("t1-payload-signalled-{seed}-{item}"),
            octets: &given.payload,
        };
        let what = format!("{}, signalling {signalling:?}", what(&given));
        let (mut out, mut other_out) = (given.before.clone(), given.before.clone());
        let t1::Write {
            payload,
            link,
            check,
            ..
        } = &given;
        let written = write_signalled(payload, link, *check, &signalling, &mut out);
        let other_written = other(payload, link, *check, &signalling, &mut other_out);
        assert_eq!(other_written, written, "{what}");
        held(&given, &written, &out, &other_out);
        numbers[written.number as usize] += 1;
        let wrong = signalling.iter().any(|bit| *bit > 1);
        later += u64::from([5, 6, 7].contains(&written.number) && wrong);
        if written.number == 0 && item % RULED == 0 {
            // The check is of what is sent, and not of what the payload had there.
            let before = write(payload, link, *check, &mut out);
            told += u64::from(before != written);
        }
    }
    for number in [0, 4, 5, 6, 7, 16] {
        assert!(numbers[number] >= 200, "{numbers:?}");
    }
    // Number 16 would apply, but is not the first.
    assert!(later >= 100, "{later}");
    assert!(told >= 100, "told from the check before signalling: {told}");
}

fn what(given: &t1::Write) -> String {
    let (octets, room) = (given.payload.len(), given.before.len());
    let (link, check) = (&given.link, given.check);
    format!("{octets} octets, data link {link:?}, check {check}, room {room}")
}

/// Holds the outputs of a write together; what is not needed stays.
fn held(given: &t1::Write, written: &Written, out: &[u8], other: &[u8]) {
    assert!(other == out, "output of {}", what(given));
    let needed = match written.number {
        0 => given.payload.len() / 576 * 579,
        _ => 0,
    };
    let kept = out[needed..] == given.before[needed..];
    assert!(kept, "behind {}", what(given));
    if written.number == 0 {
        let last = &bits(&out[needed - 579..needed]);
        assert_eq!(u64::from(number(&check(last))), written.check);
    }
}
