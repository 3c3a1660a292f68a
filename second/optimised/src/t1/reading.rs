//! Reading from the place: payload, framing bits and check of eight frames go by
//! at once.

use super::check::Sum;
use super::{place, EIGHT};
use crate::window;
use oracle::t1::Reading;

/// The octets that eight frames lie in, in words.
const WORDS: usize = 200;

fn refused(number: u64) -> Reading {
    Reading {
        number,
        ..Reading::default()
    }
}

/// As [`oracle::t1::read`].
pub fn read(image: &[u8], payload: &mut [u8], link: &mut [u8]) -> Reading {
    if image.len() < 1_158 {
        return refused(1);
    }
    if image.len() > 8_192 {
        return refused(2);
    }
    let place = match place::find(image) {
        Some(place) => place,
        None => return refused(3),
    };
    let whole = (8 * image.len() - place) / 4_632;
    if payload.len() < 576 * whole || link.len() < 12 * whole {
        return refused(4);
    }
    let line = &image[place / 8..];
    let (payload, link) = (&mut payload[..576 * whole], &mut link[..12 * whole]);
    let errored = take(line, place % 8, payload, link);
    Reading {
        number: 0,
        place: place as u64,
        whole: whole as u64,
        compared: whole as u64 - 1,
        errored,
    }
}

/// Fills the outputs, whose superframes begin at bit o, and counts the errored.
fn take(line: &[u8], o: usize, payload: &mut [u8], link: &mut [u8]) -> u64 {
    let superframes = payload.chunks_exact_mut(576).zip(link.chunks_exact_mut(12));
    let (mut check, mut errored) = (None, 0);
    for (s, (payload, link)) in superframes.enumerate() {
        let (mut sum, mut carried) = (Sum::default(), 0);
        let eights = payload.chunks_exact_mut(192).zip(link.chunks_exact_mut(4));
        for (g, (payload, link)) in eights.enumerate() {
            let framing = eight(line, EIGHT * (3 * s + g), o, payload, &mut sum);
            link.copy_from_slice(&links(framing));
            carried = carried << 2 | framing >> 5 & 2 | framing >> 2 & 1;
        }
        errored += u64::from(check.map_or(false, |check| check != carried));
        check = Some(sum.check());
    }
    errored
}

/// Eight frames, from this octet on; their last word may go past the image's
/// end.
#[inline(always)]
fn eight(line: &[u8], at: usize, o: usize, payload: &mut [u8], sum: &mut Sum) -> u64 {
    let mut last;
    let octets = match line.get(at..at + WORDS) {
        Some(octets) => octets.try_into().unwrap(),
        None => {
            last = [0; WORDS];
            let rest = &line[at..];
            last[..rest.len()].copy_from_slice(rest);
            &last
        }
    };
    frames(octets, o, payload.try_into().unwrap(), sum)
}

/// How far a frame is behind its first octet, from 0 on. Of a number from a
/// list the compiler takes it that it may be any, and two words are then shifted
/// by one instruction.
const SHIFTS: [u8; 16] = [0, 1, 2, 3, 4, 5, 6, 7, 8, 9, 10, 11, 12, 13, 14, 15];

/// The payload of eight frames, and their framing bits, the first the highest.
#[inline(never)]
fn frames(octets: &[u8; WORDS], o: usize, payload: &mut [u8; 192], sum: &mut Sum) -> u64 {
    let (mut framing, mut summed) = (0, *sum);
    summed.halve();
    let mut word = window(octets, 0);
    for i in 0..8 {
        framing = framing << 1 | word << (o + i) >> 63;
        let shift = SHIFTS[o + i + 1];
        let mut words = [0; 3];
        for c in 0..3 {
            let at = 24 * i + 8 * c;
            let next = window(octets, at + 8);
            words[c] = joined(word, next, shift);
            payload[at..at + 8].copy_from_slice(&words[c].to_be_bytes());
            word = next;
        }
        summed.add(words);
    }
    *sum = summed;
    framing
}

/// The 64 bits from bit s of the first word on.
#[inline(always)]
fn joined(word: u64, next: u64, s: u8) -> u64 {
    ((u128::from(word) << 64 | u128::from(next)) << (s & 63) >> 64) as u64
}

/// The framing bits of frames 1, 3, 5 and 7 of eight, an octet each.
#[inline(always)]
fn links(framing: u64) -> [u8; 4] {
    (((framing * 0x4010_0401) >> 7) as u32 & 0x0101_0101).to_le_bytes()
}
