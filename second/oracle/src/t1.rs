//! T1 with its extended superframe. Bits are those of [`crate::line`].

use crate::line::{bits, number, octets};
use crate::writing::Written;

/// The bits of a frame, a framing bit and 24 octets.
pub const FRAME: usize = 193;

/// The bits of a superframe, 24 frames.
pub const SUPERFRAME: usize = 24 * FRAME;

/// The places of the data link in a superframe: frames 1, 3, .. 23.
pub const LINK: [usize; 12] = [
    0, 386, 772, 1_158, 1_544, 1_930, 2_316, 2_702, 3_088, 3_474, 3_860, 4_246,
];

/// The places of C1 to C6: frames 2, 6, .. 22.
pub const CHECK: [usize; 6] = [193, 965, 1_737, 2_509, 3_281, 4_053];

/// The places of the signal: frames 4, 8, .. 24.
pub const SIGNAL_PLACES: [usize; 6] = [579, 1_351, 2_123, 2_895, 3_667, 4_439];

/// By which a superframe is found.
pub const SIGNAL: [u8; 6] = [0, 0, 1, 0, 1, 1];

/// The frames whose octets may give their last bits to signalling.
pub const SIGNALLED: [usize; 4] = [6, 12, 18, 24];

/// x^6 + x + 1.
const DIVISOR: [u8; 7] = [1, 0, 0, 0, 0, 1, 1];

/// The remainder of the bits times x^6, the coefficient of x^5 first, by long
/// division.
pub fn remainder(bits: &[u8]) -> [u8; 6] {
    let mut rest = bits.to_vec();
    rest.extend([0; 6]);
    for i in 0..bits.len() {
        if rest[i] == 1 {
            for (bit, term) in rest[i..].iter_mut().zip(DIVISOR) {
                *bit ^= term;
            }
        }
    }
    [0, 1, 2, 3, 4, 5].map(|i| rest[bits.len() + i])
}

/// The check of a superframe, C1 first: all framing bits count as 1.
pub fn check(superframe: &[u8]) -> [u8; 6] {
    let mut bits = superframe.to_vec();
    for f in 0..24 {
        bits[f * FRAME] = 1;
    }
    remainder(&bits)
}

/// The check bits that a superframe carries, those of the one before it.
pub fn carried(superframe: &[u8]) -> [u8; 6] {
    CHECK.map(|place| superframe[place])
}

/// Whether a superframe has the signal.
pub fn has_signal(superframe: &[u8]) -> bool {
    SIGNAL_PLACES.map(|place| superframe[place]) == SIGNAL
}

/// Whether two whole superframes follow a place, both with the signal.
pub fn has_signals(bits: &[u8], p: usize) -> bool {
    p + 2 * SUPERFRAME <= bits.len()
        && has_signal(&bits[p..p + SUPERFRAME])
        && has_signal(&bits[p + SUPERFRAME..p + 2 * SUPERFRAME])
}

/// Whether the superframe at this place agrees with the one behind it.
pub fn agrees(bits: &[u8], p: usize) -> bool {
    check(&bits[p..p + SUPERFRAME]) == carried(&bits[p + SUPERFRAME..p + 2 * SUPERFRAME])
}

/// The first place that stands.
pub fn first(bits: &[u8]) -> Option<usize> {
    (0..bits.len()).find(|&p| has_signals(bits, p) && agrees(bits, p))
}

/// What a read of T1 answers. Of a refusal all but the number is 0.
#[derive(Clone, Copy, Debug, Default, PartialEq, Eq)]
pub struct Reading {
    pub number: u64,
    pub place: u64,
    pub whole: u64,
    pub compared: u64,
    pub errored: u64,
}

pub fn refused(number: u64) -> Reading {
    Reading {
        number,
        ..Reading::default()
    }
}

/// Reads an image from the first place that stands: the octets of its whole
/// superframes go to `payload`, the bits of their data link to `link`.
pub fn read(image: &[u8], payload: &mut [u8], link: &mut [u8]) -> Reading {
    if image.len() < 1_158 {
        return refused(1);
    }
    if image.len() > 8_192 {
        return refused(2);
    }
    let bits = bits(image);
    let p = match first(&bits) {
        Some(p) => p,
        None => return refused(3),
    };
    let superframes: Vec<&[u8]> = bits[p..].chunks_exact(SUPERFRAME).collect();
    let whole = superframes.len();
    if payload.len() < 576 * whole || link.len() < 12 * whole {
        return refused(4);
    }
    for (superframe, payload) in superframes.iter().zip(payload.chunks_mut(576)) {
        payload.copy_from_slice(&payload_of(superframe));
    }
    for (superframe, link) in superframes.iter().zip(link.chunks_mut(12)) {
        link.copy_from_slice(&LINK.map(|place| superframe[place]));
    }
    let agreed = |pair: &&[&[u8]]| check(pair[0]) == carried(pair[1]);
    let agreed = superframes.windows(2).filter(agreed).count();
    Reading {
        number: 0,
        place: p as u64,
        whole: whole as u64,
        compared: whole as u64 - 1,
        errored: (whole - 1 - agreed) as u64,
    }
}

/// The 24 octets of every frame, which are behind its framing bit.
fn payload_of(superframe: &[u8]) -> Vec<u8> {
    let frames = superframe.chunks(FRAME);
    frames.flat_map(|frame| octets(&frame[1..])).collect()
}

/// The n of a payload of 576n octets, where it is 1 to 14.
pub fn superframes(payload: &[u8]) -> Option<usize> {
    (1..=14).find(|n| payload.len() == 576 * n)
}

/// So many octets, each one bit.
fn are_bits(octets: &[u8], count: usize) -> bool {
    octets.len() == count && octets.iter().all(|octet| *octet <= 1)
}

/// The n of what a write is given, or the number with which it is refused
/// whatever else is given.
fn superframes_given(payload: &[u8], link: &[u8], carried: u64) -> Result<usize, u64> {
    let n = superframes(payload).ok_or(5_u64)?;
    if !are_bits(link, 12 * n) {
        return Err(6);
    }
    if carried > 63 {
        return Err(7);
    }
    Ok(n)
}

/// Writes superframes from a payload, their data link and the check of the
/// superframe before.
pub fn write(payload: &[u8], link: &[u8], carried: u64, out: &mut [u8]) -> Written {
    let refused = |number| Written { number, check: 0 };
    let n = match superframes_given(payload, link, carried) {
        Ok(n) => n,
        Err(number) => return refused(number),
    };
    if out.len() < 579 * n {
        return refused(4);
    }
    let mut carried = bits(&[carried as u8])[2..].to_vec();
    let mut line = Vec::new();
    for (payload, link) in payload.chunks(576).zip(link.chunks(12)) {
        let superframe = superframe(payload, link, &carried);
        carried = check(&superframe).to_vec();
        line.extend(superframe);
    }
    out[..579 * n].copy_from_slice(&octets(&line));
    Written {
        number: 0,
        check: u64::from(number(&carried)),
    }
}

/// A superframe with all of its framing bits.
fn superframe(payload: &[u8], link: &[u8], carried: &[u8]) -> Vec<u8> {
    let mut superframe = Vec::new();
    for channels in payload.chunks(24) {
        superframe.push(0);
        superframe.extend(bits(channels));
    }
    for (places, bits) in [
        (&LINK[..], link),
        (&CHECK[..], carried),
        (&SIGNAL_PLACES[..], &SIGNAL[..]),
    ] {
        for (place, bit) in places.iter().zip(bits) {
            superframe[*place] = *bit;
        }
    }
    superframe
}

/// Writes superframes as [`write`] does, with the last bits of frames 6, 12, 18
/// and 24 replaced by signalling.
pub fn write_signalled(
    payload: &[u8],
    link: &[u8],
    carried: u64,
    signalling: &[u8],
    out: &mut [u8],
) -> Written {
    let refused = |number| Written { number, check: 0 };
    let n = match superframes_given(payload, link, carried) {
        Ok(n) => n,
        Err(number) => return refused(number),
    };
    if !are_bits(signalling, 96 * n) {
        return refused(16);
    }
    write(&signalled(payload, signalling), link, carried, out)
}

/// The payload with signalling in the last bits of its octets.
pub fn signalled(payload: &[u8], signalling: &[u8]) -> Vec<u8> {
    let mut payload = payload.to_vec();
    let superframes = payload.chunks_mut(576);
    for (superframe, signalling) in superframes.zip(signalling.chunks(96)) {
        for (frame, bits) in SIGNALLED.iter().zip(signalling.chunks(24)) {
            let octets = &mut superframe[24 * (frame - 1)..24 * frame];
            for (octet, bit) in octets.iter_mut().zip(bits) {
                *octet = *octet / 2 * 2 + bit;
            }
        }
    }
    payload
}
