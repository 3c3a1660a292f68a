//! Lines read by the oracle and by another form.

use crate::losses::Losses;
use crate::{seed, Kept};
use given::{image, room, Random};
use oracle::line::{bits, wrong_bits};
use oracle::{read, Reading};

const LINES: u64 = 24_000;

type Read = fn(&[u8], &mut [u8], &mut [u8]) -> Reading;

/// Holds the reads of a form to the oracle's.
pub fn reads(form: &str, other: Read) {
    let seed = seed(&format!("{LINES} lines read, {form}"));
    let (mut numbers, mut starts, mut basics) = ([0; 16], [0; 8], [0; 8]);
    let (mut several, mut hit, mut far) = (0, [0; 8], 0);
    let mut losses = Losses::default();
    for item in 0..LINES {
        let r = &mut Random::new(seed, item);
        let image = image(r);
        let _kept = Kept {
            name: format!("line-{seed}-{item}"),
            octets: &image,
        };
        let (reading, slot0) = both(r, &image, other);
        numbers[reading.number as usize] += 1;
        match reading.number {
            0 => {
                starts[reading.start as usize % 8] += 1;
                losses.count(&image, &reading);
            }
            15 => basics[reading.place as usize % 8] += 1,
            _ => {}
        }
        several += u64::from(reading.wordbits > reading.words);
        for slot in slot0.iter().step_by(2) {
            hit[wrong_bits(&bits(&[*slot]), 0) as usize] += 1;
        }
        let last = slot0.rchunks(16).next();
        far += u64::from(last.map_or(false, |m| m[13] < 128 || m[15] < 128));
    }
    // Every answer, and every bit of an octet, has had its share of the lines.
    for number in [0, 1, 2, 3, 4, 15] {
        assert!(numbers[number] >= 500, "{numbers:?}");
    }
    assert!(numbers[0] >= LINES / 3, "{numbers:?}");
    assert!(starts.iter().all(|&count| count >= 500), "{starts:?}");
    assert!(basics.iter().all(|&count| count >= 50), "{basics:?}");
    // Words with any number of wrong bits have been read, several in a word often.
    assert!(several >= numbers[0] / 8, "{several} of {numbers:?}");
    assert!(hit.iter().all(|&count| count >= 500), "{hit:?}");
    // E bits of 0 have been read of a last multiframe, whose second block is not
    // compared.
    assert!(far >= numbers[0] / 8, "{far} of {numbers:?}");
    losses.check();
}

/// Every octet and every number, with outputs of lengths that matter. It gives
/// the answer and slot 0 of the frames used.
fn both(r: &mut Random, image: &[u8], other: Read) -> (Reading, Vec<u8>) {
    let need = read(image, &mut [0; 7_936], &mut [0; 256]);
    let used = need.used as usize;
    let (room, room0) = match need.number {
        0 => (room(r, 496 * used), room(r, 16 * used)),
        _ => (r.below(8_000), r.below(300)),
    };
    let (before, before0) = (r.octets(room), r.octets(room0));

    let (mut payload, mut slot0) = (before.clone(), before0.clone());
    let reading = read(image, &mut payload, &mut slot0);
    let (mut other_payload, mut other_slot0) = (before.clone(), before0.clone());
    let other_reading = other(image, &mut other_payload, &mut other_slot0);

    assert_eq!(other_reading, reading, "rooms {room} and {room0}");
    assert!(
        other_payload == payload,
        "payload of {reading:?}, room {room}"
    );
    assert!(other_slot0 == slot0, "slot 0 of {reading:?}, room {room0}");
    let used = reading.used as usize;
    assert!(payload[496 * used..] == before[496 * used..]);
    assert!(slot0[16 * used..] == before0[16 * used..]);
    slot0.truncate(16 * used);
    (reading, slot0)
}
