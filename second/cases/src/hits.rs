//! Two hits in one block, at every distance from 1 to 2,047.

use crate::t1::t1_line_of;
use crate::{hit, line_of, overhead};
use oracle::{read, t1};
use std::fmt::Write;

const FARTHEST: usize = 2_047;

/// Random octets, by the number that the last one was made of.
struct Random(u64);

impl Random {
    fn number(&mut self) -> u64 {
        self.0 = 16_807 * self.0 % 2_147_483_647;
        self.0
    }

    fn octets(&mut self, count: usize) -> Vec<u8> {
        let octet = |_| (self.number() / 8_192) as u8;
        (0..count).map(octet).collect()
    }
}

/// The two kinds of line.
struct Kind {
    label: &'static str,
    /// So many distances in a row of characters.
    row: usize,
    /// The bits of a block, of which 0, d, 2d and so on are no data bits.
    block: usize,
    d: usize,
    /// Where the block that is hit begins.
    at: usize,
    payload: usize,
    line: fn(&[u8]) -> Vec<u8>,
    /// The number of a reading, and how many blocks are errored.
    read: fn(&[u8]) -> (u64, u64),
}

const E1: Kind = Kind {
    label: "28 from",
    row: 60,
    block: 2_048,
    d: 512,
    at: 2 * 2_048,
    payload: 4 * 496,
    line: |payload| line_of(payload, &overhead(32)),
    read: |image| {
        let r = read(image, &mut [0; 1_984], &mut [0; 64]);
        (r.number, r.errored)
    },
};

const T1: Kind = Kind {
    label: "28 t1 from",
    row: 63,
    block: 4_632,
    d: 193,
    at: 4_632,
    payload: 3 * 576,
    line: t1_line_of,
    read: |image| {
        let r = t1::read(image, &mut [0; 1_728], &mut [0; 36]);
        (r.number, r.errored)
    },
};

impl Kind {
    /// The first of two data bits that lie so far apart.
    fn first_bit(&self, distance: usize, random: u64) -> Option<usize> {
        let end = self.block - distance;
        let r = random as usize % end;
        let data = |i: usize| i % self.d != 0;
        (r..end)
            .chain(0..r)
            .find(|i| data(*i) && data(i + distance))
    }

    fn character(&self, distance: usize) -> char {
        let mut random = Random(distance as u64);
        let mut line = (self.line)(&random.octets(self.payload));
        let i = match self.first_bit(distance, random.number()) {
            Some(i) => self.at + i,
            None => return '-',
        };
        hit(&mut line, &[i, i + distance]);
        match (self.read)(&line) {
            (0, errored) => char::from_digit(errored as u32, 10).expect("a digit"),
            _ => 'x',
        }
    }
}

pub fn two_hits(text: &mut String) {
    for kind in [E1, T1] {
        for from in (1..=FARTHEST).step_by(kind.row) {
            let to = FARTHEST.min(from + kind.row - 1);
            let row: String = (from..=to).map(|m| kind.character(m)).collect();
            writeln!(text, "{} {from}: {row}", kind.label).unwrap();
        }
    }
}
