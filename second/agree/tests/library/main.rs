//! The proved library and the oracle, held together.

mod kit;
mod runs;
mod streams;

use agree::{seed, write_both, write_signalled_both};
use given::{overhead, Random};

const ROWS: u64 = 500;

#[test]
fn reads() {
    agree::reads("the library", kit::read);
}

#[test]
fn signals() {
    agree::signals("the library", kit::signals);
}

#[test]
fn whys() {
    agree::whys("the library", kit::why);
}

#[test]
fn writes() {
    agree::writes("the library", kit::write);
}

#[test]
fn writes_signalled() {
    agree::writes_signalled("the library", kit::write_signalled);
}

#[test]
fn t1_reads() {
    agree::t1_reads("the library", kit::t1_read);
}

#[test]
fn t1_writes() {
    agree::t1_writes("the library", kit::t1_write);
}

#[test]
fn t1_writes_signalled() {
    agree::t1_writes_signalled("the library", kit::t1_write_signalled);
}

#[test]
fn two_hits() {
    agree::two_hits("the library", kit::read);
}

#[test]
fn t1_two_hits() {
    agree::t1_two_hits("the library", kit::t1_read);
}

/// Any octet at each place of the data link and of signalling, the others good.
#[test]
fn t1_every_bit() {
    let r = &mut Random::new(0, 0);
    let (payload, link) = (r.octets(1_152), r.numbers(24, 0, 1));
    let signalling = r.numbers(192, 0, 1);
    for octet in [2, 3, 4, 8, 16, 32, 64, 128, 129, 254, 255] {
        for i in 0..24 + 192 {
            let (mut link, mut signalling) = (link.clone(), signalling.clone());
            *link.iter_mut().chain(&mut signalling).nth(i).unwrap() = octet;
            let number = if i < 24 { 6 } else { 16 };
            let mut out = [0; 1_158];
            let w = kit::t1_write_signalled(&payload, &link, 0, &signalling, &mut out);
            assert_eq!((w.number, w.check), (number, 0));
            assert_eq!(out, [0; 1_158]);
        }
    }
}

/// Each bit of the payload and of the data link turned over alone, and each
/// carried check, in a line that is written and read again.
#[test]
fn t1_each_bit_alone() {
    let r = &mut Random::new(0, 1);
    let (payload, link) = (r.octets(1_152), r.numbers(24, 0, 1));
    let both = |payload: &[u8], link: &[u8], check: u64| {
        let (mut out, mut kit_out) = ([0; 1_158], [0; 1_158]);
        let written = oracle::t1::write(payload, link, check, &mut out);
        assert_eq!(kit::t1_write(payload, link, check, &mut kit_out), written);
        assert!(kit_out == out);
        let (mut octets, mut bits) = ([0; 1_152], [0; 24]);
        let reading = kit::t1_read(&out, &mut octets, &mut bits);
        assert_eq!((reading.number, reading.place), (0, 0));
        assert_eq!((reading.whole, reading.errored), (2, 0));
        assert!(octets == payload && bits == link);
    };
    for bit in 0..8 * 1_152 {
        let mut payload = payload.clone();
        payload[bit / 8] ^= 128 >> (bit % 8);
        both(&payload, &link, 0);
    }
    for j in 0..24 {
        let mut link = link.clone();
        link[j] ^= 1;
        both(&payload, &link, 0);
    }
    for check in 0..64 {
        both(&payload, &link, check);
    }
}

/// Each bit of each overhead octet alone, and each with all others.
#[test]
fn every_overhead_bit() {
    let r = &mut Random::new(0, 0);
    for n in [1, 2, 16] {
        let payload = r.octets(496 * n);
        let before = r.octets(512 * n);
        let both = |overhead: Vec<u8>, check| {
            let given = given::Write {
                payload: payload.clone(),
                overhead,
                check,
                before: before.clone(),
            };
            write_both(&given, kit::write);
        };
        let most = [63, 63, 63, 63, 63, 63, 127, 127].repeat(n);
        for j in 0..8 * n {
            for bit in 0..8 {
                let mut alone = vec![0; 8 * n];
                alone[j] = 1 << bit;
                both(alone, 0);
                let mut others = most.clone();
                others[j] ^= 1 << bit;
                both(others, 15);
            }
        }
    }
}

/// Any octet at each place of XY and ABCD, the others good.
#[test]
fn every_signal() {
    let r = &mut Random::new(0, 0);
    for n in [1, 3] {
        let (payload, before) = (r.octets(496 * n), r.octets(512 * n));
        let (xy, abcd) = (r.numbers(n, 0, 15), r.numbers(30 * n, 1, 15));
        for octet in 0..=255 {
            for i in 0..31 * n {
                let (mut xy, mut abcd) = (xy.clone(), abcd.clone());
                *xy.iter_mut().chain(&mut abcd).nth(i).unwrap() = octet;
                let given = given::WriteSignalled {
                    write: given::Write {
                        payload: payload.clone(),
                        overhead: vec![0; 8 * n],
                        check: 0,
                        before: before.clone(),
                    },
                    xy,
                    abcd,
                };
                let good = octet < 16 && (octet > 0 || i < n);
                let written = write_signalled_both(&given, kit::write_signalled);
                assert_eq!(written.number, if good { 0 } else { 16 });
            }
        }
    }
}

/// Parts written one after another, the check handed on, are the whole.
#[test]
fn handed_on() {
    let seed = seed(&format!("{ROWS} writes handed on, the library"));
    for item in 0..ROWS {
        let r = &mut Random::new(seed, item);
        let (n, check) = (r.between(2, 16), r.below(16) as u64);
        let (payload, overhead) = (r.octets(496 * n), overhead(r, 8 * n));
        let cut = r.between(1, n - 1);

        let mut whole = vec![0; 512 * n];
        let at_once = kit::write(&payload, &overhead, check, &mut whole);
        let mut parts = vec![0; 512 * n];
        let (out, out_rest) = parts.split_at_mut(512 * cut);
        let first = kit::write(&payload[..496 * cut], &overhead[..8 * cut], check, out);
        let second = kit::write(
            &payload[496 * cut..],
            &overhead[8 * cut..],
            first.check,
            out_rest,
        );
        assert_eq!(second, at_once, "item {item}");
        assert!(parts == whole, "item {item}");
    }
}

#[test]
fn t1_handed_on() {
    let seed = seed(&format!("{ROWS} writes of T1 handed on, the library"));
    for item in 0..ROWS {
        let r = &mut Random::new(seed, item);
        let (n, check) = (r.between(2, 14), r.below(64) as u64);
        let (payload, link) = (r.octets(576 * n), r.numbers(12 * n, 0, 1));
        let cut = r.between(1, n - 1);

        let mut whole = vec![0; 579 * n];
        let at_once = kit::t1_write(&payload, &link, check, &mut whole);
        let mut parts = vec![0; 579 * n];
        let (out, out_rest) = parts.split_at_mut(579 * cut);
        let first = kit::t1_write(&payload[..576 * cut], &link[..12 * cut], check, out);
        let second = kit::t1_write(
            &payload[576 * cut..],
            &link[12 * cut..],
            first.check,
            out_rest,
        );
        assert_eq!(second, at_once, "item {item}");
        assert!(parts == whole, "item {item}");
    }
}
