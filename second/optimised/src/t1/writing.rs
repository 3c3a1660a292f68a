//! Writing superframes, eight frames at a time: these begin one bit later each,
//! and end with an octet.

use super::check::Sum;
use super::EIGHT;
use crate::window;
use oracle::Written;

fn refused(number: u64) -> Written {
    Written { number, check: 0 }
}

/// As [`oracle::t1::write`].
pub fn write(payload: &[u8], link: &[u8], carried: u64, out: &mut [u8]) -> Written {
    let n = match superframes(payload, link, carried) {
        Ok(n) => n,
        Err(number) => return refused(number),
    };
    if out.len() < 579 * n {
        return refused(4);
    }
    let mut check = carried;
    for s in 0..n {
        let payload = payload[576 * s..576 * s + 576].try_into().unwrap();
        check = superframe(payload, s, link, check, out);
    }
    Written { number: 0, check }
}

/// As [`oracle::t1::write_signalled`].
pub fn write_signalled(
    payload: &[u8],
    link: &[u8],
    carried: u64,
    signalling: &[u8],
    out: &mut [u8],
) -> Written {
    let n = match superframes(payload, link, carried) {
        Ok(n) => n,
        Err(number) => return refused(number),
    };
    if signalling.len() != 96 * n || !are_bits(signalling) {
        return refused(16);
    }
    if out.len() < 579 * n {
        return refused(4);
    }
    let mut check = carried;
    for (s, signalling) in signalling.chunks_exact(96).enumerate() {
        let mut payload: Payload = payload[576 * s..576 * s + 576].try_into().unwrap();
        signal(&mut payload, signalling);
        check = superframe(&payload, s, link, check, out);
    }
    Written { number: 0, check }
}

/// The n of what a write is given, or the first of numbers 5, 6 and 7.
fn superframes(payload: &[u8], link: &[u8], carried: u64) -> Result<usize, u64> {
    let n = payload.len() / 576;
    if payload.len() % 576 != 0 || !(1..=14).contains(&n) {
        return Err(5);
    }
    if link.len() != 12 * n || !are_bits(link) {
        return Err(6);
    }
    if carried > 63 {
        return Err(7);
    }
    Ok(n)
}

/// Whether each octet is 0 or 1. All are looked at, as that goes faster.
fn are_bits(octets: &[u8]) -> bool {
    octets.iter().fold(0, |all, octet| all | octet) <= 1
}

/// The payload of a superframe.
type Payload = [u8; 576];

/// Puts signalling into the last bits of frames 6, 12, 18 and 24.
#[inline(always)]
fn signal(payload: &mut Payload, signalling: &[u8]) {
    for (k, signalling) in signalling.chunks_exact(24).enumerate() {
        let octets = &mut payload[144 * k + 120..144 * k + 144];
        for (octet, bit) in octets.iter_mut().zip(signalling) {
            *octet = *octet & 0xFE | bit;
        }
    }
}

/// Writes superframe s, and gives its check.
#[inline(always)]
fn superframe(payload: &Payload, s: usize, link: &[u8], carried: u64, out: &mut [u8]) -> u64 {
    let mut sum = Sum::default();
    let link = &link[12 * s..12 * s + 12];
    let out = &mut out[579 * s..579 * s + 579];
    for g in 0..3 {
        let framing = framing(g, &link[4 * g..4 * g + 4], carried);
        let payload = payload[192 * g..192 * g + 192].try_into().unwrap();
        let out = &mut out[EIGHT * g..EIGHT * g + EIGHT];
        frames(payload, framing, out.try_into().unwrap(), &mut sum);
    }
    sum.check()
}

/// The framing bits of eight frames, the first the highest.
#[inline(always)]
fn framing(g: usize, link: &[u8], carried: u64) -> u64 {
    let link = u64::from(u32::from_be_bytes(link.try_into().unwrap()));
    let link = link >> 17 & 0x80 | link >> 11 & 0x20 | link >> 5 & 8 | link << 1 & 2;
    let signal = [0b0000_0000, 0b0001_0000, 0b0001_0001][g];
    let two = carried >> (4 - 2 * g);
    link | signal | two << 5 & 0x40 | two << 2 & 4
}

/// Eight frames with these framing bits.
#[inline(never)]
fn frames(payload: &[u8; 192], framing: u64, out: &mut [u8; EIGHT], sum: &mut Sum) {
    let mut summed = *sum;
    summed.halve();
    let mut last = 0;
    for i in 0..8 {
        last = last << 1 | framing >> (7 - i) & 1;
        let mut words = [0; 3];
        for c in 0..3 {
            let at = 24 * i + 8 * c;
            words[c] = window(payload, at);
            let octets = joined(last, words[c], i as u32 + 1);
            out[at..at + 8].copy_from_slice(&octets.to_be_bytes());
            last = words[c];
        }
        summed.add(words);
    }
    out[192] = last as u8;
    *sum = summed;
}

/// The last s bits of the first word, and the second as far as it goes.
#[inline(always)]
fn joined(last: u64, word: u64, s: u32) -> u64 {
    ((u128::from(last) << 64 | u128::from(word)) >> (s & 63)) as u64
}
