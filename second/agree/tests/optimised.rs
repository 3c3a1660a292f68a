//! The optimised form and the oracle, held together.

use agree::seed;
use given::Random;
use optimised::{chain, fold, Check};
use oracle::check::check;
use oracle::line::{bits, number, BLOCK};
use oracle::{Fed, Reading};

const MAPS: u64 = 24_000;
const CHECKS: u64 = 4_000;

#[test]
fn reads() {
    agree::reads("the optimised form", |image, payload, slot0| {
        optimised::read(image, payload, slot0, chain::check)
    });
}

#[test]
fn reads_folded() {
    agree::reads("the folded form", |image, payload, slot0| {
        optimised::read(image, payload, slot0, fold::check)
    });
}

/// A stream with either check.
macro_rules! stream {
    ($name:ident, $check:expr) => {
        #[derive(Clone, PartialEq)]
        struct $name(optimised::Stream);

        impl agree::Stream for $name {
            fn start() -> $name {
                $name(optimised::Stream::start())
            }

            fn feed(&mut self, chunk: &[u8], payload: &mut [u8], slot0: &mut [u8]) -> Fed {
                self.0.feed(chunk, payload, slot0, $check)
            }

            fn end(&mut self) -> Reading {
                self.0.end()
            }
        }
    };
}

stream!(Chained, chain::check);
stream!(Folded, fold::check);

#[test]
fn streams() {
    agree::streams::<Chained>("the optimised form");
}

#[test]
fn streams_folded() {
    agree::streams::<Folded>("the folded form");
}

#[test]
fn streams_by_octets() {
    agree::streams_by_octets::<Chained>("the optimised form");
}

#[test]
fn longest() {
    agree::longest::<Chained>("the optimised form");
}

#[test]
fn signals() {
    agree::signals("the optimised form", optimised::signals);
}

#[test]
fn whys() {
    agree::whys("the optimised form", optimised::why);
}

#[test]
fn writes() {
    agree::writes("the optimised form", |payload, overhead, carried, out| {
        optimised::write(payload, overhead, carried, out, chain::check)
    });
}

#[test]
fn writes_folded() {
    agree::writes("the folded form", |payload, overhead, carried, out| {
        optimised::write(payload, overhead, carried, out, fold::check)
    });
}

#[test]
fn writes_signalled() {
    agree::writes_signalled(
        "the optimised form",
        |payload, overhead, carried, xy, abcd, out| {
            optimised::write_signalled(payload, overhead, carried, xy, abcd, out, chain::check)
        },
    );
}

#[test]
fn writes_signalled_folded() {
    agree::writes_signalled(
        "the folded form",
        |payload, overhead, carried, xy, abcd, out| {
            optimised::write_signalled(payload, overhead, carried, xy, abcd, out, fold::check)
        },
    );
}

#[test]
fn t1_reads() {
    agree::t1_reads("the optimised form", optimised::t1::read);
}

#[test]
fn t1_writes() {
    agree::t1_writes("the optimised form", optimised::t1::write);
}

#[test]
fn t1_writes_signalled() {
    agree::t1_writes_signalled("the optimised form", optimised::t1::write_signalled);
}

#[test]
fn two_hits() {
    agree::two_hits("the optimised form", |image, payload, slot0| {
        optimised::read(image, payload, slot0, chain::check)
    });
}

#[test]
fn two_hits_folded() {
    agree::two_hits("the folded form", |image, payload, slot0| {
        optimised::read(image, payload, slot0, fold::check)
    });
}

#[test]
fn t1_two_hits() {
    agree::t1_two_hits("the optimised form", optimised::t1::read);
}

#[test]
fn maps() {
    let seed = seed(&format!("{MAPS} mappings, the optimised form"));
    let mut numbers = [0; 6];
    for item in 0..MAPS {
        let m = given::mapping(&mut Random::new(seed, item));
        let (mut out, mut other_out) = (m.before.clone(), m.before);
        let number = m.exchange.map(&m.payload, &mut out);
        let other = optimised::map(&m.exchange, &m.payload, &mut other_out);
        assert_eq!(other, number, "mapping {item}");
        assert!(other_out == out, "output of mapping {item}");
        numbers[number as usize] += 1;
    }
    for number in [0, 4, 5] {
        assert!(numbers[number] >= 1_000, "{numbers:?}");
    }
}

#[test]
fn checks() {
    blocks("the optimised form", chain::check);
}

#[test]
fn checks_folded() {
    blocks("the folded form", fold::check);
}

/// At every bit place, with any bits before and behind.
fn blocks(form: &str, other: Check) {
    let seed = seed(&format!("{CHECKS} blocks at 8 places, {form}"));
    for item in 0..CHECKS {
        let octets = Random::new(seed, item).octets(257);
        for o in 0..8 {
            let block = &bits(&octets)[o..o + BLOCK];
            let check = number(&check(block));
            assert_eq!(other(&octets, o), check, "item {item}, bit {o}");
        }
    }
}
