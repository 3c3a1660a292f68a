//! Places asked about of the oracle and of another form.

use crate::{seed, Kept};
use given::Random;
use oracle::why;

const IMAGES: u64 = 12_000;

type Why = fn(&[u8], u64) -> oracle::Why;

/// Holds what a form says of places to what the oracle says.
pub fn whys(form: &str, other: Why) {
    let seed = seed(&format!("{IMAGES} images asked about at 6 places, {form}"));
    let (mut numbers, mut conditions, mut offsets) = ([0; 15], [0; 5], [0; 8]);
    let (mut least, mut first, mut second) = ([0; 19], [0; 7], [0; 7]);
    for item in 0..IMAGES {
        let given = given::asked(&mut Random::new(seed, item));
        let _kept = Kept {
            name: format!("asked-{seed}-{item}"),
            octets: &given.image,
        };
        for place in given.places {
            let said = why(&given.image, place);
            assert_eq!(other(&given.image, place), said, "place {place}");
            numbers[said.number as usize] += 1;
            if said.number != 0 {
                continue;
            }
            conditions[said.condition as usize] += 1;
            offsets[place as usize % 8] += 1;
            match said.condition {
                0 => least[said.k as usize] += 1,
                1 => first[(said.bit - place) as usize - 1] += 1,
                3 => second[(said.bit - place) as usize - 513] += 1,
                _ => {}
            }
        }
    }
    // Every answer, every k, every bit of both words and every bit of an octet
    // has had its share.
    for number in [0, 1, 2, 14] {
        assert!(numbers[number] >= 1_000, "{numbers:?}");
    }
    assert!(conditions.iter().all(|&n| n >= 1_000), "{conditions:?}");
    assert!(offsets.iter().all(|&n| n >= 1_000), "{offsets:?}");
    assert!(least.iter().all(|&n| n >= 20), "{least:?}");
    assert!(first.iter().all(|&n| n >= 100), "{first:?}");
    assert!(second.iter().all(|&n| n >= 50), "{second:?}");
}
