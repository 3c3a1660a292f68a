//! Reading from the start. Slot 0 is gathered first, as loss, words, checks
//! and E bits are all in it; then payload and blocks go by once.

use crate::loss::{cause, Runs};
use crate::place::{self, Found};
use crate::Check;
use oracle::Reading;

pub fn refused(number: u64) -> Reading {
    Reading {
        number,
        ..Reading::default()
    }
}

/// No place stands, and this is the first with basic alignment.
pub fn basic_only(place: usize) -> Reading {
    Reading {
        place: place as u64,
        ..refused(15)
    }
}

/// As [`oracle::read`], by this check.
pub fn read(image: &[u8], payload: &mut [u8], slot0: &mut [u8], check: Check) -> Reading {
    if image.len() < 2_048 {
        return refused(1);
    }
    if image.len() > 8_192 {
        return refused(2);
    }
    let (p, k) = match place::find(image) {
        Found::At(place, k) => (place, k),
        Found::BasicAt(place) => return basic_only(place),
        Found::Nothing => return refused(3),
    };
    let start = p + 512 * k;
    let whole = (8 * image.len() - start) / 4_096;
    let (line, o) = (&image[start / 8..], start % 8);
    let mut slots = [0; 256];
    gather(line, o, &mut slots[..16 * whole]);
    let judged = judge(&slots[..16 * whole], &mut Runs::default());
    let used = judged.lost.map_or(whole, |f| f / 16);
    if payload.len() < 496 * used || slot0.len() < 16 * used {
        return refused(4);
    }
    let slots = &slots[..16 * used];
    slot0[..16 * used].copy_from_slice(slots);
    take(line, o, &mut payload[..496 * used]);
    Reading {
        number: 0,
        place: p as u64,
        start: start as u64,
        whole: whole as u64,
        used: used as u64,
        lost: judged.lost.unwrap_or(0) as u64,
        words: judged.words,
        compared: (2 * used as u64).saturating_sub(1),
        errored: compare(line, o, slots, check),
        farend: far_end_errors(slots),
        wordbits: judged.wordbits,
        cause: cause(judged.lost),
    }
}

/// Slot 0 of every frame; o is the bit of an octet at which frames begin.
pub fn gather(line: &[u8], o: usize, slots: &mut [u8]) {
    for (frame, slot) in line.chunks(32).zip(slots) {
        let two = u16::from_be_bytes([frame[0], frame[1]]);
        *slot = (two >> (8 - o)) as u8;
    }
}

/// The loss, and what is wrong in the words of the multiframes before it.
#[derive(Default)]
pub struct Judged {
    pub lost: Option<usize>,
    pub words: u64,
    pub wordbits: u64,
}

/// Judges a multiframe at a time, behind these runs; one in which all is right
/// takes one test.
pub fn judge(slots: &[u8], runs: &mut Runs) -> Judged {
    let mut judged = Judged::default();
    for (m, slots) in slots.chunks_exact(16).enumerate() {
        let wrong = wrong_in(slots);
        if wrong == 0 {
            runs.end();
            continue;
        }
        let frames = frames_of(wrong);
        if let Some(f) = runs.go_on(frames) {
            judged.lost = Some(16 * m + f);
            break;
        }
        judged.words += u64::from((frames & EVEN).count_ones());
        judged.wordbits += u64::from((wrong & WORDS).count_ones());
    }
    judged
}

/// An octet of 1 for each frame, and for each even one.
const EACH: u128 = u128::MAX / 0xFF;
const EACH_EVEN: u128 = u128::MAX / 0xFFFF << 8;

/// The bits of the words, and the even ones of sixteen frames.
const WORDS: u128 = 0x7F * EACH_EVEN;
const EVEN: u32 = 0xAAAA;

/// What is wrong in slot 0 of a multiframe's frames, each bit a 1 where it lies:
/// those of the word, or bit 2.
#[inline]
fn wrong_in(slots: &[u8]) -> u128 {
    const RIGHT: u128 = 0x1B * EACH_EVEN | 0x40 * (EACH ^ EACH_EVEN);
    const JUDGED: u128 = WORDS | 0x40 * EACH;
    let slots = u128::from_be_bytes(slots.try_into().unwrap());
    (slots ^ RIGHT) & JUDGED
}

/// A bit for each frame in which something is wrong, frame 0 the highest of
/// sixteen.
fn frames_of(wrong: u128) -> u32 {
    // No octet is above 0x7F, so what is added carries into the highest bit of
    // each that is not 0. A multiplication brings those of eight together.
    let some = (wrong + 0x7F * EACH) >> 7 & EACH;
    let together = |eight: u64| (eight.wrapping_mul(0x0102_0408_1020_4080) >> 56) as u32;
    together((some >> 64) as u64) << 8 | together(some as u64)
}

/// Slots 1 to 31 of every frame.
pub fn take(line: &[u8], o: usize, payload: &mut [u8]) {
    if o != 0 {
        return take_moved(line, o, payload);
    }
    for (out, frame) in payload.chunks_exact_mut(31).zip(line.chunks_exact(32)) {
        out.copy_from_slice(&frame[1..]);
    }
}

/// The same where o is not 0: 32 octets go faster than 31, and the first of
/// the next frame replaces what is too many.
fn take_moved(line: &[u8], o: usize, payload: &mut [u8]) {
    let last = match payload.len() / 31 {
        0 => return,
        frames => frames - 1,
    };
    for f in 0..last {
        let out = &mut payload[31 * f..31 * f + 32];
        out.copy_from_slice(&moved(&line[32 * f + 1..32 * f + 34], o));
    }
    let slots = &line[32 * last + 1..];
    for (i, out) in payload[31 * last..].iter_mut().enumerate() {
        *out = slots[i] << o | slots[i + 1] >> (8 - o);
    }
}

/// The 32 octets that begin at bit o. By value, so that all are worked out at
/// once and stored after.
#[inline]
fn moved(octets: &[u8], o: usize) -> [u8; 32] {
    let mut moved: [u8; 32] = octets[..32].try_into().unwrap();
    let next: [u8; 32] = octets[1..].try_into().unwrap();
    for (octet, next) in moved.iter_mut().zip(&next) {
        *octet = *octet << o | next >> (8 - o);
    }
    moved
}

/// The check bits that block b carries, C1 the bit worth 8.
pub fn carried(slots: &[u8], b: usize) -> u8 {
    let c = |i: usize| slots[8 * b + 2 * i] >> 7;
    c(0) << 3 | c(1) << 2 | c(2) << 1 | c(3)
}

/// Blocks errored.
pub fn compare(line: &[u8], o: usize, slots: &[u8], check: Check) -> u64 {
    let mut errored = 0;
    for b in 1..slots.len() / 8 {
        let agreed = check(&line[256 * (b - 1)..], o) == carried(slots, b);
        errored += u64::from(!agreed);
    }
    errored
}

/// E bits that are 0; an octet holds their count, which is at most 32.
pub fn far_end_errors(slots: &[u8]) -> u64 {
    let zeros = |slots: &[u8]| u8::from(slots[13] < 128) + u8::from(slots[15] < 128);
    let zeros: u8 = slots.chunks_exact(16).map(zeros).sum();
    u64::from(zeros)
}
