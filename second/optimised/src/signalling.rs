//! Signalling: slot 16 is taken from the image where it is, a signalling
//! multiframe at a step while alignment is held, and written over the payload's.

use crate::loss::Runs;
use crate::place::{self, Found};
use crate::writing::{carry_all, fill, multiframes_given, refused as unwritten};
use crate::{as_is, Check};
use oracle::{Signals, Written};

fn refused(number: u64) -> Signals {
    Signals {
        number,
        ..Signals::default()
    }
}

/// As [`oracle::signals`].
pub fn signals(image: &[u8], abcd: &mut [u8]) -> Signals {
    if image.len() < 2_048 {
        return refused(1);
    }
    if image.len() > 8_192 {
        return refused(2);
    }
    let start = match place::find(image) {
        Found::At(place, k) => place + 512 * k,
        Found::BasicAt(_) => return refused(15),
        Found::Nothing => return refused(3),
    };
    let whole = (8 * image.len() - start) / 4_096;
    let (line, o) = (&image[start / 8..], start % 8);
    let used = used(&line[..512 * whole], o);
    let slots = Slots {
        line: &line[..512 * used],
        o,
    };
    // Frame 0 is never taken, so one fewer is read at the most.
    let most = used.saturating_sub(1);
    if abcd.len() < 30 * most {
        let walk = walk(&slots, |_, _| {});
        if abcd.len() < 30 * walk.read {
            return refused(4);
        }
    }
    let walk = walk(&slots, |i, multiframe| {
        slots.unpack(multiframe, &mut abcd[30 * i..30 * i + 30]);
    });
    walk.answer(&slots)
}

/// How many multiframes come before the one in which alignment is lost, or all
/// of them.
fn used(line: &[u8], o: usize) -> usize {
    let slot0 = Slot0::at(o);
    let mut runs = Runs::default();
    for (m, multiframe) in line.chunks_exact(512).enumerate() {
        if slot0.all_right(multiframe) {
            runs.end();
        } else if runs.go_on(slot0.wrong(multiframe)).is_some() {
            return m;
        }
    }
    line.len() / 512
}

/// Which bits of a window at a frame are its word, those of the right one, and
/// which is bit 2, in the order of this machine's octets.
struct Slot0 {
    word: u64,
    right: u64,
    bit_2: u64,
}

impl Slot0 {
    /// Of frames that begin at bit o.
    #[inline(always)]
    fn at(o: usize) -> Slot0 {
        let mask = |octet: u64| (octet << 56 >> o).to_be();
        Slot0 {
            word: mask(0x7F),
            right: mask(0x1B),
            bit_2: mask(0x40),
        }
    }

    /// Whether every word and every bit 2 of a multiframe is right.
    #[inline(always)]
    fn all_right(&self, multiframe: &[u8]) -> bool {
        let (mut any, mut all, mut all_odd) = (0, !0, !0);
        for i in 0..8 {
            any |= as_is(multiframe, 64 * i);
            all &= as_is(multiframe, 64 * i);
            all_odd &= as_is(multiframe, 64 * i + 32);
        }
        let words = (any ^ self.right | all ^ self.right) & self.word;
        words | !all_odd & self.bit_2 == 0
    }

    /// A bit for each frame with a wrong word or bit 2, frame 0 the highest of
    /// sixteen.
    #[inline(never)]
    fn wrong(&self, multiframe: &[u8]) -> u32 {
        let mut frames = 0;
        for i in 0..8 {
            let word = (as_is(multiframe, 64 * i) ^ self.right) & self.word != 0;
            let bit_2 = as_is(multiframe, 64 * i + 32) & self.bit_2 == 0;
            frames = frames << 2 | u32::from(word) << 1 | u32::from(bit_2);
        }
        frames
    }
}

/// The two octets at octet i, in the order of this machine's octets.
#[inline(always)]
fn two(octets: &[u8], i: usize) -> u16 {
    u16::from_ne_bytes(octets[i..i + 2].try_into().unwrap())
}

/// What is in the upper octet for frames that begin at bit 0, for those that
/// begin at bit o, in the order of this machine's octets.
#[inline(always)]
fn mask(bits: u16, o: usize) -> u16 {
    (bits >> o).to_be()
}

/// Slot 16 of the frames used, which begin at bit o.
struct Slots<'a> {
    line: &'a [u8],
    o: usize,
}

impl Slots<'_> {
    fn frames(&self) -> usize {
        self.line.len() / 32
    }

    #[inline(always)]
    fn has_signal(&self, f: usize) -> bool {
        two(self.line, 32 * f + 16) & mask(0xF000, self.o) == 0
    }

    /// The first frame from this one on at which alignment is taken: eight at a
    /// time, and the frame before only where there is a signal.
    fn search(&self, from: usize) -> Option<usize> {
        let (signal, slot) = (mask(0xF000, self.o), mask(0xFF00, self.o));
        let taken = |f: usize| two(self.line, 32 * f - 16) & slot != 0;
        let mut f = from;
        while let Some(eight) = self.line.get(32 * f..32 * f + 256) {
            for i in 0..8 {
                if two(eight, 32 * i + 16) & signal == 0 && taken(f + i) {
                    return Some(f + i);
                }
            }
            f += 8;
        }
        (f..self.frames()).find(|&f| self.has_signal(f) && taken(f))
    }

    /// ABCD of a signalling multiframe.
    #[inline(always)]
    fn unpack(&self, multiframe: &[u8], abcd: &mut [u8]) {
        let (mut high, mut low) = ([0; 16], [0; 16]);
        for (i, slot) in together(multiframe).iter().enumerate() {
            let slot = u16::from_be(*slot) << self.o;
            high[i] = (slot >> 12) as u8;
            low[i] = (slot >> 8) as u8 & 15;
        }
        abcd[..15].copy_from_slice(&high[1..]);
        abcd[15..].copy_from_slice(&low[1..]);
    }
}

/// The two octets of each frame that slot 16 lies in. A call, so that they are
/// side by side when they are worked on.
#[inline(never)]
fn together(multiframe: &[u8]) -> [u16; 16] {
    let mut slots = [0; 16];
    for (slot, frame) in slots.iter_mut().zip(multiframe.chunks_exact(32)) {
        *slot = two(frame, 16);
    }
    slots
}

/// What a walk over the frames finds.
#[derive(Default)]
struct Walk {
    first: usize,
    losses: usize,
    held: bool,
    /// How many signalling multiframes are read, and where the last begins.
    read: usize,
    last: usize,
}

/// Walks over the frames, and hands on each signalling multiframe read with
/// its number.
#[inline(always)]
fn walk(slots: &Slots, mut hand_on: impl FnMut(usize, &[u8])) -> Walk {
    let mut walk = Walk::default();
    let mut taken = slots.search(1);
    walk.first = taken.unwrap_or(0);
    while let Some(f) = taken {
        walk.held = true;
        taken = match walk.follow(slots, f, &mut hand_on) {
            Some(loss) => {
                walk.held = false;
                walk.losses += 1;
                slots.search(loss + 1)
            }
            None => None,
        };
    }
    walk
}

impl Walk {
    /// Goes on from the frame at which alignment is taken to that of the loss,
    /// where there is one.
    #[inline(always)]
    fn follow(
        &mut self,
        slots: &Slots,
        mut f: usize,
        mut hand_on: impl FnMut(usize, &[u8]),
    ) -> Option<usize> {
        let mut wrong = false;
        while let Some(multiframe) = slots.line.get(32 * f..32 * f + 512) {
            hand_on(self.read, multiframe);
            self.read += 1;
            self.last = f;
            f += 16;
            let wrong_before = wrong;
            wrong = f < slots.frames() && !slots.has_signal(f);
            if wrong && wrong_before {
                return Some(f);
            }
        }
        None
    }

    fn answer(&self, slots: &Slots) -> Signals {
        let xy = match self.held && self.read > 0 {
            true => u16::from_be(two(slots.line, 32 * self.last + 16)) << slots.o >> 8,
            false => 0b1011,
        };
        let bit = |weight: u16| u64::from(xy & weight != 0);
        Signals {
            number: 0,
            multiframes: self.read as u64,
            first: self.first as u64,
            losses: self.losses as u64,
            held: u64::from(self.held),
            x0: bit(8),
            x1: bit(2),
            x2: bit(1),
            y: bit(4),
        }
    }
}

/// As [`oracle::write_signalled`], by this check.
pub fn write_signalled(
    payload: &[u8],
    overhead: &[u8],
    carried: u64,
    xy: &[u8],
    abcd: &[u8],
    out: &mut [u8],
    check: Check,
) -> Written {
    let n = match multiframes_given(payload, overhead, carried) {
        Ok(n) => n,
        Err(number) => return unwritten(number),
    };
    if xy.len() != n || abcd.len() != 30 * n || !allowed(xy, abcd) {
        return unwritten(16);
    }
    if out.len() < 512 * n {
        return unwritten(4);
    }
    let out = &mut out[..512 * n];
    fill(payload, overhead, out);
    let multiframes = out.chunks_exact_mut(512).zip(abcd.chunks_exact(30));
    for ((out, abcd), xy) in multiframes.zip(xy) {
        pack(*xy, abcd.try_into().unwrap(), out.try_into().unwrap());
    }
    carry_all(out, carried as u8, check)
}

/// XY of 0 to 15, ABCD of 1 to 15. All are looked at, as that goes faster.
fn allowed(xy: &[u8], abcd: &[u8]) -> bool {
    let over = xy.iter().fold(0, |over, octet| over | octet & 0xF0);
    let wrong = abcd.iter().fold(0, |wrong, octet| {
        wrong | u8::from(octet.wrapping_sub(1) > 14)
    });
    over | wrong == 0
}

/// Slot 16 of a multiframe.
fn pack(xy: u8, abcd: &[u8; 30], out: &mut [u8; 512]) {
    out[16] = xy;
    for i in 1..16 {
        out[32 * i + 16] = abcd[i - 1] << 4 | abcd[i + 14];
    }
}
