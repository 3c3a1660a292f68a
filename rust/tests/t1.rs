//! The calls of T1, accepted and with each of their refusals.

use jikhvanto::t1::{read, write, write_signalled, Reading};
use jikhvanto::Refusal;

const BEFORE: u8 = 0xAA;

fn payload(n: usize) -> Vec<u8> {
    (0..576 * n).map(|i| (7 * i + i / 24) as u8).collect()
}

fn link(n: usize) -> Vec<u8> {
    (0..12 * n).map(|i| (i % 3 / 2) as u8).collect()
}

fn signalling(n: usize) -> Vec<u8> {
    (0..96 * n).map(|i| (i % 5 / 4) as u8).collect()
}

/// Written superframes.
fn line(n: usize) -> Vec<u8> {
    let mut line = vec![0; 579 * n];
    write(&payload(n), &link(n), 0, &mut line).unwrap();
    line
}

/// What is read of an image, with room for any.
fn of(image: &[u8]) -> Result<Reading, Refusal> {
    read(image, &mut [0; 8_064], &mut [0; 168])
}

/// The bits at these places turned over.
fn hit(line: &[u8], places: &[usize]) -> Vec<u8> {
    let mut line = line.to_vec();
    for place in places {
        line[place / 8] ^= 128 >> (place % 8);
    }
    line
}

/// So many bits 0 in front, fewer than eight.
fn behind(bits: usize, line: &[u8]) -> Vec<u8> {
    let mut before = 0;
    let shifted = |octet: &u8| {
        let word = u16::from(before) << 8 | u16::from(*octet);
        before = *octet;
        (word >> bits) as u8
    };
    line.iter().chain(&[0]).map(shifted).collect()
}

#[test]
fn a_line_is_read_as_it_was_written() {
    for n in [2, 3, 14] {
        for bits in 0..8 {
            let mut image = behind(bits, &line(n));
            image.truncate(8_192);
            let (mut octets, mut data) = (vec![BEFORE; 576 * n + 1], vec![BEFORE; 12 * n + 1]);
            let r = read(&image, &mut octets, &mut data).unwrap();
            assert_eq!((r.place, r.whole), (bits, n));
            assert_eq!((r.compared, r.errored), (n - 1, 0));
            assert_eq!(octets[..576 * n], payload(n));
            assert_eq!(data[..12 * n], link(n));
            assert_eq!((octets[576 * n], data[12 * n]), (BEFORE, BEFORE));
        }
    }
}

#[test]
fn superframes_that_do_not_agree_are_counted() {
    let line = line(14);
    let errored = |places: &[usize]| {
        let r = of(&hit(&line, places)).unwrap();
        assert_eq!((r.place, r.whole, r.compared), (0, 14, 13));
        r.errored
    };
    let (third, fourth, last) = (2 * 4_632, 3 * 4_632, 13 * 4_632);
    // A data bit; C2 of the one after it; both in one.
    assert_eq!(errored(&[third + 1]), 1);
    assert_eq!(errored(&[fourth + 965]), 1);
    assert_eq!(errored(&[third + 1, fourth + 965]), 1);
    assert_eq!(errored(&[third + 1, fourth + 2]), 2);
    // Two bits 63 apart have the same share.
    assert_eq!(errored(&[third + 1, third + 64]), 0);
    // The data link, the signal after the first two, and the last superframe's data.
    assert_eq!(errored(&[third, fourth + 386]), 0);
    assert_eq!(errored(&[third + 579, last + 4_439]), 0);
    assert_eq!(errored(&[last + 1, last + 4_631]), 0);
    assert_eq!(errored(&[last + 193]), 1);
}

#[test]
fn the_first_place_that_stands_is_taken() {
    let line = line(3);
    let place = |line: &[u8]| of(line).map(|r| (r.place, r.whole));
    assert_eq!(place(&line), Ok((0, 3)));
    // A data bit of the first, a bit of its signal, and a check bit of the second.
    assert_eq!(place(&hit(&line, &[1])), Ok((4_632, 2)));
    assert_eq!(place(&hit(&line, &[2_123])), Ok((4_632, 2)));
    assert_eq!(place(&hit(&line, &[4_632 + 193])), Ok((4_632, 2)));
    // The check bits of the first are nobody's.
    assert_eq!(place(&hit(&line, &[193, 4_053])), Ok((0, 3)));
    assert_eq!(place(&hit(&line[..1_158], &[1])), Err(Refusal::NoPlace));
    // A rest at the end is left alone.
    assert_eq!(place(&line[..1_736]), Ok((0, 2)));
    assert_eq!(place(&line[1..]), Ok((4_632 - 8, 2)));
}

#[test]
fn a_check_is_handed_on() {
    let (payload, link, signalling) = (payload(2), link(2), signalling(2));
    let (mut whole, mut parts) = ([0; 1_158], [0; 1_158]);
    let last = write(&payload, &link, 41, &mut whole);
    let first = write(&payload[..576], &link[..12], 41, &mut parts[..579]).unwrap();
    let second = write(&payload[576..], &link[12..], first, &mut parts[579..]);
    assert_eq!((second, parts), (last, whole));

    let last = write_signalled(&payload, &link, 41, &signalling, &mut whole);
    let (one, two) = parts.split_at_mut(579);
    let first = write_signalled(&payload[..576], &link[..12], 41, &signalling[..96], one).unwrap();
    let second = write_signalled(&payload[576..], &link[12..], first, &signalling[96..], two);
    assert_eq!((second, parts), (last, whole));
}

#[test]
fn a_payload_of_one_octet_has_its_check() {
    let check = |octet| write(&[octet; 576], &[0; 12], 0, &mut [0; 579]);
    assert_eq!(check(0x00), Ok(0b000010));
    assert_eq!(check(0xFF), Ok(0b010011));
    assert_eq!(check(0x7F), Ok(0b000110));
}

#[test]
fn last_bits_are_replaced() {
    let n = 3;
    let (link, signalling, mut payload) = (link(n), signalling(n), payload(n));
    let (mut line, mut plain) = (vec![BEFORE; 579 * n + 1], vec![BEFORE; 579 * n + 1]);
    let check = write_signalled(&payload, &link, 9, &signalling, &mut line);
    for (frame, octets) in payload.chunks_mut(24).enumerate() {
        if frame % 6 == 5 {
            let bits = &signalling[frame / 6 * 24..];
            for (octet, bit) in octets.iter_mut().zip(bits) {
                *octet = *octet & 0xFE | bit;
            }
        }
    }
    assert_eq!(write(&payload, &link, 9, &mut plain), check);
    assert_eq!(line, plain);
    assert_eq!(line[579 * n], BEFORE);
}

#[test]
fn reads_are_refused() {
    let line = line(14);
    let refused = |image: &[u8], room, bits| {
        let (mut octets, mut data) = (vec![BEFORE; room], vec![BEFORE; bits]);
        let refusal = read(image, &mut octets, &mut data).unwrap_err();
        assert!(octets.iter().chain(&data).all(|octet| *octet == BEFORE));
        refusal
    };
    assert_eq!(refused(&[], 0, 0), Refusal::ShortImage);
    assert_eq!(refused(&line[..1_157], 8_064, 168), Refusal::ShortImage);
    assert_eq!(refused(&[0; 8_193], 8_064, 168), Refusal::LongImage);
    assert_eq!(refused(&[0; 8_192], 8_064, 168), Refusal::NoPlace);
    assert_eq!(refused(&[255; 1_158], 0, 0), Refusal::NoPlace);
    assert_eq!(refused(&line, 8_063, 168), Refusal::ShortOutput);
    assert_eq!(refused(&line, 8_064, 167), Refusal::ShortOutput);
}

#[test]
fn writes_are_refused() {
    let (payload, bits) = (payload(15), link(15));
    let refused = |octets, link: &[u8], check, room| {
        let mut out = vec![BEFORE; room];
        let refusal = write(&payload[..octets], link, check, &mut out).unwrap_err();
        assert!(out.iter().all(|octet| *octet == BEFORE));
        refusal
    };
    assert_eq!(refused(0, &[], 0, 0), Refusal::BadPayload);
    assert_eq!(refused(575, &[2], 64, 0), Refusal::BadPayload);
    assert_eq!(refused(15 * 576, &bits, 0, 8_685), Refusal::BadPayload);
    assert_eq!(refused(576, &bits[..11], 64, 0), Refusal::BadOverhead);
    assert_eq!(refused(576, &bits[..13], 64, 0), Refusal::BadOverhead);
    assert_eq!(refused(576, &[2; 12], 64, 0), Refusal::BadOverhead);
    assert_eq!(refused(576, &bits[..12], 64, 0), Refusal::BadCheck);
    assert_eq!(refused(576, &bits[..12], u64::MAX, 579), Refusal::BadCheck);
    assert_eq!(refused(576, &bits[..12], 63, 578), Refusal::ShortOutput);
}

#[test]
fn writes_with_signalling_are_refused() {
    let (payload, bits) = (payload(1), signalling(1));
    let refused = |octets, link: &[u8], check, signalling: &[u8], room| {
        let mut out = vec![BEFORE; room];
        let refusal =
            write_signalled(&payload[..octets], link, check, signalling, &mut out).unwrap_err();
        assert!(out.iter().all(|octet| *octet == BEFORE));
        refusal
    };
    let signals = |signalling: &[u8]| refused(576, &[1; 12], 63, signalling, 578);
    assert_eq!(refused(575, &[2], 64, &[2], 0), Refusal::BadPayload);
    assert_eq!(refused(576, &[2; 12], 64, &[2], 0), Refusal::BadOverhead);
    assert_eq!(refused(576, &[1; 12], 64, &[2], 0), Refusal::BadCheck);
    assert_eq!(signals(&[]), Refusal::BadSignals);
    assert_eq!(signals(&bits[..95]), Refusal::BadSignals);
    assert_eq!(
        signals(&[bits.as_slice(), &[0]].concat()),
        Refusal::BadSignals
    );
    assert_eq!(signals(&[2; 96]), Refusal::BadSignals);
    assert_eq!(signals(&bits), Refusal::ShortOutput);
}
