//! Two hits in one block, at every distance, read by the oracle and by another
//! form.

use crate::{seed, Kept};
use given::making::{flip, two_bits};
use given::{overhead, Random};
use oracle::line::BLOCK;
use oracle::t1::SUPERFRAME;
use oracle::{t1, Reading};

const FARTHEST: usize = 2_047;

/// A kind of line.
struct Kind {
    name: &'static str,
    /// The bits of a block, of which 0, d, 2d and so on are no data bits.
    block: usize,
    d: usize,
    /// Two hits hide where their distance is a multiple of this.
    hides: usize,
    /// Hits in so many blocks from the first on may move the begin.
    moves: usize,
    /// A line of any octets, and how many blocks it has, which all agree.
    line: fn(&mut Random) -> (Vec<u8>, usize),
}

const E1: Kind = Kind {
    name: "E1",
    block: BLOCK,
    d: 512,
    hides: 15,
    moves: 2,
    line: |r| {
        let n = r.between(4, 16);
        let (payload, overhead) = (r.octets(496 * n), overhead(r, 8 * n));
        let mut line = vec![0; 512 * n];
        oracle::write(&payload, &overhead, r.below(16) as u64, &mut line);
        (line, 2 * n)
    },
};

const T1: Kind = Kind {
    name: "T1",
    block: SUPERFRAME,
    d: t1::FRAME,
    hides: 63,
    moves: 1,
    line: |r| {
        let n = r.between(3, 14);
        let (payload, link) = (r.octets(576 * n), r.numbers(12 * n, 0, 1));
        let mut line = vec![0; 579 * n];
        t1::write(&payload, &link, r.below(64) as u64, &mut line);
        (line, n)
    },
};

/// Where a reading begins, how many blocks it compares, and how many of these
/// are errored; all 0 where it is refused.
#[derive(Debug, PartialEq, Eq)]
struct Blocks {
    from: u64,
    compared: u64,
    errored: u64,
}

/// Holds the reads of a form to the oracle's, and both to what is promised.
pub fn two_hits(form: &str, other: fn(&[u8], &mut [u8], &mut [u8]) -> Reading) {
    every_distance(form, &E1, |image| {
        let (mut payload, mut slot0) = ([0; 7_936], [0; 256]);
        let (mut other_payload, mut other_slot0) = ([0; 7_936], [0; 256]);
        let r = oracle::read(image, &mut payload, &mut slot0);
        assert_eq!(other(image, &mut other_payload, &mut other_slot0), r);
        assert!(other_payload == payload && other_slot0 == slot0);
        Blocks {
            from: r.start,
            compared: r.compared,
            errored: r.errored,
        }
    });
}

/// The same of T1.
pub fn t1_two_hits(form: &str, other: fn(&[u8], &mut [u8], &mut [u8]) -> t1::Reading) {
    every_distance(form, &T1, |image| {
        let (mut payload, mut link) = ([0; 8_064], [0; 168]);
        let (mut other_payload, mut other_link) = ([0; 8_064], [0; 168]);
        let r = t1::read(image, &mut payload, &mut link);
        assert_eq!(other(image, &mut other_payload, &mut other_link), r);
        assert!(other_payload == payload && other_link == link);
        Blocks {
            from: r.place,
            compared: r.compared,
            errored: r.errored,
        }
    });
}

fn every_distance(form: &str, kind: &Kind, read: impl Fn(&[u8]) -> Blocks) {
    let name = kind.name;
    let seed = seed(&format!("two hits at every distance, {name}, {form}"));
    for distance in 1..=FARTHEST {
        let r = &mut Random::new(seed, distance as u64);
        let (line, blocks) = (kind.line)(r);
        let clean = Blocks {
            from: 0,
            compared: blocks as u64 - 1,
            errored: 0,
        };
        assert_eq!(read(&line), clean, "distance {distance}");
        // Bit 0 is no data bit.
        if distance == kind.block - 1 {
            continue;
        }
        // Whether all blocks are read still, of which so many are errored.
        let mut held = |block: usize, errored: u64| {
            let i = two_bits(r, kind.block, kind.d, distance).expect("two data bits");
            let place = kind.block * block + i;
            let mut image = line.clone();
            flip(&mut image, place);
            flip(&mut image, place + distance);
            let _kept = Kept {
                name: format!("two-hits-{name}-{seed}-{distance}"),
                octets: &image,
            };
            let seen = read(&image);
            let moved = (seen.from, seen.compared) != (clean.from, clean.compared);
            if moved && block < kind.moves {
                return false;
            }
            assert!(!moved, "distance {distance}, place {place}");
            assert_eq!(seen.errored, errored, "distance {distance}, place {place}");
            true
        };
        assert!(held(blocks - 1, 0), "distance {distance}, the last block");
        // Where the begin is moved, the next block is hit.
        let errored = u64::from(distance % kind.hides != 0);
        let mut others = (0..blocks - 1).map(|b| (distance + b) % (blocks - 1));
        let any = others.any(|block| held(block, errored));
        assert!(any, "distance {distance}");
    }
}
