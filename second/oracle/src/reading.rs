//! Reading from the start.

use crate::check::{carried, check};
use crate::line::{bits, octets, wrong_bits, BLOCK, FRAME, MULTIFRAME};
use crate::place;

/// What a read answers. Of a refusal all but the number is 0, and but the place
/// that goes with number 15.
#[derive(Clone, Copy, Debug, Default, PartialEq, Eq)]
pub struct Reading {
    pub number: u64,
    pub place: u64,
    pub start: u64,
    pub whole: u64,
    pub used: u64,
    pub lost: u64,
    pub words: u64,
    pub compared: u64,
    pub errored: u64,
    pub farend: u64,
    pub wordbits: u64,
    pub cause: u64,
}

/// The causes of a loss.
const BY_WORDS: u64 = 1;
const BY_BITS_2: u64 = 2;

pub fn refused(number: u64) -> Reading {
    Reading {
        number,
        ..Reading::default()
    }
}

/// Reads an image from the first place that stands: slots 1 to 31 of the
/// multiframes used go to `payload`, slot 0 of each of their frames to `slot0`.
pub fn read(image: &[u8], payload: &mut [u8], slot0: &mut [u8]) -> Reading {
    if image.len() > 8_192 {
        return refused(2);
    }
    let line = Line::read(image);
    match line.fill(0, payload, slot0) {
        true => line.reading,
        false => refused(4),
    }
}

/// A line of any length as it is read, with the octets of the multiframes used.
/// Of a refused one there are none.
pub struct Line {
    pub reading: Reading,
    payload: Vec<u8>,
    slot0: Vec<u8>,
}

impl Line {
    pub fn read(line: &[u8]) -> Line {
        let unread = |reading| Line {
            reading,
            payload: Vec::new(),
            slot0: Vec::new(),
        };
        if line.len() < 2_048 {
            return unread(refused(1));
        }
        let line = bits(line);
        match place::first(&line) {
            Some((p, k)) => from_start(&line, p, p + 512 * k),
            None => unread(without_place(&line)),
        }
    }

    /// Puts what there is from this multiframe on to the front of the outputs,
    /// where they have room for it.
    pub fn fill(&self, from: usize, payload: &mut [u8], slot0: &mut [u8]) -> bool {
        let (octets, octets0) = (&self.payload[496 * from..], &self.slot0[16 * from..]);
        let room = payload.len() >= octets.len() && slot0.len() >= octets0.len();
        if room {
            payload[..octets.len()].copy_from_slice(octets);
            slot0[..octets0.len()].copy_from_slice(octets0);
        }
        room
    }
}

/// The place p stands, and this is the start.
fn from_start(line: &[u8], p: usize, start: usize) -> Line {
    let whole = (line.len() - start) / MULTIFRAME;
    let line = &line[start..start + whole * MULTIFRAME];
    let words = words(line);
    let loss = loss(&words, &bits_2(line));
    let used = loss.map_or(whole, |(f, _)| f / 16);
    let (line, words) = (&line[..used * MULTIFRAME], &words[..8 * used]);
    let (payload, slot0) = take(line);
    let agreed = agreed(line);
    let (lost, cause) = loss.unwrap_or((0, 0));
    let reading = Reading {
        number: 0,
        place: p as u64,
        start: start as u64,
        whole: whole as u64,
        used: used as u64,
        lost: lost as u64,
        words: words.iter().filter(|&&bits| bits != 0).count() as u64,
        compared: agreed.len() as u64,
        errored: agreed.iter().filter(|&&agreed| !agreed).count() as u64,
        farend: far_end_errors(line),
        wordbits: words.iter().sum(),
        cause,
    };
    Line {
        reading,
        payload,
        slot0,
    }
}

/// The refusal of a line in which no place stands.
fn without_place(bits: &[u8]) -> Reading {
    match place::first_basic(bits) {
        Some(p) => Reading {
            place: p as u64,
            ..refused(15)
        },
        None => refused(3),
    }
}

/// How many bits are wrong in each word; word w is that of frame 2w.
fn words(line: &[u8]) -> Vec<u64> {
    let frames = line.len() / FRAME;
    (0..frames)
        .step_by(2)
        .map(|f| wrong_bits(line, f * FRAME))
        .collect()
}

/// Bit 2 of each odd frame; bit i is that of frame 2i + 1.
fn bits_2(line: &[u8]) -> Vec<u8> {
    let frames = line.len() / FRAME;
    (1..frames)
        .step_by(2)
        .map(|f| line[f * FRAME + 1])
        .collect()
}

/// The frame of loss with its cause: the earlier of the one by words, which is
/// even, and the one by bits 2, which is odd.
fn loss(words: &[u64], bits_2: &[u8]) -> Option<(usize, u64)> {
    let wrong_words: Vec<bool> = words.iter().map(|&bits| bits != 0).collect();
    let wrong_bits_2: Vec<bool> = bits_2.iter().map(|&bit| bit == 0).collect();
    let by_words = third_in_row(&wrong_words).map(|w| (2 * w, BY_WORDS));
    let by_bits_2 = third_in_row(&wrong_bits_2).map(|i| (2 * i + 1, BY_BITS_2));
    by_words.into_iter().chain(by_bits_2).min()
}

/// The first that is the third wrong one in a row.
fn third_in_row(wrong: &[bool]) -> Option<usize> {
    (2..wrong.len()).find(|&i| wrong[i - 2] && wrong[i - 1] && wrong[i])
}

/// Slots 1 to 31 of every frame, and slot 0.
fn take(line: &[u8]) -> (Vec<u8>, Vec<u8>) {
    let (mut payload, mut slot0) = (Vec::new(), Vec::new());
    for frame in line.chunks(FRAME) {
        let slots = octets(frame);
        slot0.push(slots[0]);
        payload.extend(&slots[1..]);
    }
    (payload, slot0)
}

/// For every block but the last, whether its check is what the next carries.
fn agreed(line: &[u8]) -> Vec<bool> {
    let blocks: Vec<&[u8]> = line.chunks(BLOCK).collect();
    blocks
        .windows(2)
        .map(|pair| check(pair[0]) == carried(pair[1]))
        .collect()
}

/// E bits that are 0, whether or not their blocks agreed.
fn far_end_errors(line: &[u8]) -> u64 {
    let mut count = 0;
    for multiframe in line.chunks(MULTIFRAME) {
        for f in [13, 15] {
            count += u64::from(multiframe[f * FRAME] == 0);
        }
    }
    count
}

/// What the report program prints for an image.
pub fn report(image: &[u8]) -> String {
    let r = read(image, &mut [0; 7_936], &mut [0; 256]);
    if r.number != 0 {
        return format!("refused {}\n", r.number);
    }
    let lost = match r.cause {
        BY_WORDS => format!("lost {}\ncause word\n", r.lost),
        BY_BITS_2 => format!("lost {}\ncause bit2\n", r.lost),
        _ => "lost no\n".to_string(),
    };
    [
        format!("place {}\n", r.place),
        format!("start {}\n", r.start),
        format!("whole {}\n", r.whole),
        format!("used {}\n", r.used),
        lost,
        format!("words {}\n", r.words),
        format!("wordbits {}\n", r.wordbits),
        format!("compared {}\n", r.compared),
        format!("errored {}\n", r.errored),
        format!("farend {}\n", r.farend),
    ]
    .concat()
}
