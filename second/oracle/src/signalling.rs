//! The signalling of thirty channels, in slot 16.

use crate::line::{bits, number};
use crate::reading::read;
use crate::writing::{multiframes_given, write, Written};

/// What a reading of signalling answers. Of a refusal all but the number is 0.
#[derive(Clone, Copy, Debug, Default, PartialEq, Eq)]
pub struct Signals {
    pub number: u64,
    pub multiframes: u64,
    pub first: u64,
    pub losses: u64,
    pub held: u64,
    pub x0: u64,
    pub x1: u64,
    pub x2: u64,
    pub y: u64,
}

/// Reads the signalling of an image: ABCD of channels 1 to 30 of each
/// signalling multiframe read goes to `abcd`.
pub fn signals(image: &[u8], abcd: &mut [u8]) -> Signals {
    let refused = |number| Signals {
        number,
        ..Signals::default()
    };
    let (mut payload, mut slot0) = ([0; 7_936], [0; 256]);
    let reading = read(image, &mut payload, &mut slot0);
    if reading.number != 0 {
        return refused(reading.number);
    }
    let slots = slots_16(&payload[..496 * reading.used as usize]);
    let heard = Heard::of(&slots);
    let multiframes: Vec<&[u8]> = heard
        .begins
        .iter()
        .filter_map(|f| slots.get(*f..f + 16))
        .collect();
    if abcd.len() < 30 * multiframes.len() {
        return refused(4);
    }
    for (multiframe, abcd) in multiframes.iter().zip(abcd.chunks_mut(30)) {
        abcd.copy_from_slice(&channels(multiframe));
    }
    let held = heard.alignment != Alignment::None;
    let [x0, y, x1, x2] = match multiframes.last() {
        Some(multiframe) if held => last_four(multiframe[0]),
        _ => [1, 0, 1, 1],
    };
    Signals {
        number: 0,
        multiframes: multiframes.len() as u64,
        first: heard.first.unwrap_or(0) as u64,
        losses: heard.losses,
        held: u64::from(held),
        x0: u64::from(x0),
        x1: u64::from(x1),
        x2: u64::from(x2),
        y: u64::from(y),
    }
}

/// Slot 16 of every frame of a payload.
fn slots_16(payload: &[u8]) -> Vec<u8> {
    payload.chunks(31).map(|slots| slots[15]).collect()
}

fn first_four(slot: u8) -> [u8; 4] {
    bits(&[slot])[..4].try_into().unwrap()
}

fn last_four(slot: u8) -> [u8; 4] {
    bits(&[slot])[4..].try_into().unwrap()
}

fn has_signal(slot: u8) -> bool {
    first_four(slot) == [0; 4]
}

/// ABCD of channels 1 to 30.
fn channels(multiframe: &[u8]) -> Vec<u8> {
    let to_15 = multiframe[1..].iter().map(|slot| first_four(*slot));
    let to_30 = multiframe[1..].iter().map(|slot| last_four(*slot));
    to_15.chain(to_30).map(|abcd| number(&abcd)).collect()
}

/// Alignment after a frame: none, or the frame at which the next signal should
/// be, and whether the last one was wrong.
#[derive(Clone, Copy, PartialEq, Eq)]
enum Alignment {
    None,
    Held { next: usize, wrong: bool },
}

/// What the frames so far have told.
struct Heard {
    alignment: Alignment,
    first: Option<usize>,
    losses: u64,
    /// The frames at which a signalling multiframe begins with alignment held.
    begins: Vec<usize>,
}

impl Heard {
    fn of(slots: &[u8]) -> Heard {
        let mut heard = Heard {
            alignment: Alignment::None,
            first: None,
            losses: 0,
            begins: Vec::new(),
        };
        for f in 1..slots.len() {
            heard.frame(f, slots[f - 1], slots[f]);
        }
        heard
    }

    /// One more frame, with slot 16 of the one before it and its own.
    fn frame(&mut self, f: usize, before: u8, slot: u8) {
        match self.alignment {
            Alignment::None => {
                if has_signal(slot) && before != 0 {
                    self.first = self.first.or(Some(f));
                    self.begin(f, false);
                }
            }
            Alignment::Held { next, wrong } if next == f => {
                if has_signal(slot) {
                    self.begin(f, false);
                } else if !wrong {
                    self.begin(f, true);
                } else {
                    self.alignment = Alignment::None;
                    self.losses += 1;
                }
            }
            Alignment::Held { .. } => {}
        }
    }

    fn begin(&mut self, f: usize, wrong: bool) {
        self.begins.push(f);
        self.alignment = Alignment::Held {
            next: f + 16,
            wrong,
        };
    }
}

/// Writes multiframes as `write` does, with slot 16 from XY and ABCD.
pub fn write_signalled(
    payload: &[u8],
    overhead: &[u8],
    carried: u64,
    xy: &[u8],
    abcd: &[u8],
    out: &mut [u8],
) -> Written {
    let refused = |number| Written { number, check: 0 };
    let n = match multiframes_given(payload, overhead, carried) {
        Ok(n) => n,
        Err(number) => return refused(number),
    };
    if xy.len() != n || !xy.iter().all(|octet| *octet <= 15) {
        return refused(16);
    }
    if abcd.len() != 30 * n || !abcd.iter().all(|octet| (1..=15).contains(octet)) {
        return refused(16);
    }
    let mut signalled = payload.to_vec();
    for (f, slots) in signalled.chunks_mut(31).enumerate() {
        slots[15] = slot_16(f % 16, xy[f / 16], &abcd[30 * (f / 16)..]);
    }
    write(&signalled, overhead, carried, out)
}

/// Slot 16 of a frame of a signalling multiframe with this XY and ABCD.
fn slot_16(frame: usize, xy: u8, abcd: &[u8]) -> u8 {
    let of_channel = |channel: usize| abcd[channel - 1];
    match frame {
        0 => xy,
        i => 16 * of_channel(i) + of_channel(i + 15),
    }
}
