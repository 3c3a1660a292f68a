//! Lines fed to the oracle and to another form in the same chunks.

use crate::{seed, Kept};
use given::{chunks, joined, room, Random};
use oracle::{Fed, Reading};

const LINES: u64 = 8_000;
const BY_OCTETS: u64 = 24;

/// A stream of another form.
pub trait Stream: Clone + PartialEq {
    fn start() -> Self;
    fn feed(&mut self, chunk: &[u8], payload: &mut [u8], slot0: &mut [u8]) -> Fed;
    fn end(&mut self) -> Reading;

    /// Fails where the stream does not hold what it has to of this joined line,
    /// of which its end would answer this.
    fn holds(&self, _joined: &[u8], _reading: &Reading) {}
}

/// The same stream in both forms.
#[derive(Clone)]
struct Both<S> {
    oracle: oracle::Stream,
    other: S,
}

impl<S: Stream> Both<S> {
    fn start() -> Both<S> {
        Both {
            oracle: oracle::Stream::start(),
            other: S::start(),
        }
    }

    /// Every octet and every number of a chunk, fed into outputs of these
    /// lengths. A refusal changes nothing.
    fn feed(&mut self, r: &mut Random, chunk: &[u8], rooms: [usize; 2]) -> Fed {
        let [before, before0] = rooms.map(|room| r.octets(room));
        let (mut payload, mut slot0) = (before.clone(), before0.clone());
        let fed = self.oracle.feed(chunk, &mut payload, &mut slot0);
        let (mut other_payload, mut other_slot0) = (before.clone(), before0.clone());
        let stream = self.other.clone();
        let other_fed = self.other.feed(chunk, &mut other_payload, &mut other_slot0);

        let what = format!("{} octets, rooms {rooms:?}", chunk.len());
        assert_eq!(other_fed, fed, "{what}");
        assert!(other_payload == payload, "payload of {what}");
        assert!(other_slot0 == slot0, "slot 0 of {what}");
        let left = fed.multiframes as usize;
        assert!(payload[496 * left..] == before[496 * left..], "{what}");
        assert!(slot0[16 * left..] == before0[16 * left..], "{what}");
        assert!(fed.number == 0 || self.other == stream, "stream of {what}");
        fed
    }

    fn end(&mut self) -> Reading {
        let stream = self.other.clone();
        let reading = self.oracle.end();
        assert_eq!(self.other.end(), reading);
        assert!(reading.number == 0 || self.other == stream, "{reading:?}");
        reading
    }

    /// How many multiframes leave with a chunk.
    fn leaving(&self, chunk: &[u8]) -> usize {
        let rooms = most(chunk);
        let (mut payload, mut slot0) = (vec![0; rooms[0]], vec![0; rooms[1]]);
        let fed = self.oracle.clone().feed(chunk, &mut payload, &mut slot0);
        fed.multiframes as usize
    }

    /// Everything is refused with 21, be there room or not.
    fn has_ended(&mut self, r: &mut Random) {
        for (chunk, rooms) in [(0, [0; 2]), (1, [0; 2]), (2_048, [4_000; 2])] {
            let chunk = r.octets(chunk);
            assert_eq!(self.feed(r, &chunk, rooms).number, 21);
            assert_eq!(self.end().number, 21);
        }
    }
}

/// The room that a chunk needs at the most.
fn most(chunk: &[u8]) -> [usize; 2] {
    let multiframes = chunk.len() / 512 + 4;
    [496 * multiframes, 16 * multiframes]
}

/// What the lines have had.
#[derive(Default)]
struct Shares {
    /// By the numbers of chunks and of ends.
    fed: [u64; 5],
    ends: [u64; 16],
    starts: [u64; 8],
    basics: [u64; 8],
    causes: [u64; 3],
    /// Accepted at last, after an end that was refused with this number.
    again: [u64; 16],
    /// So many multiframes left with a chunk, up to five.
    left: [u64; 6],
}

impl Shares {
    fn check(&self) {
        let Shares {
            fed, ends, again, ..
        } = self;
        assert!(fed[0] >= 8 * LINES && fed[4] >= LINES / 2, "{fed:?}");
        for number in [0, 1, 3, 15] {
            assert!(ends[number] >= LINES / 8, "{ends:?}");
            assert!(again[number] >= LINES / 80, "{again:?}");
        }
        let Shares {
            starts,
            basics,
            causes,
            left,
            ..
        } = self;
        assert!(starts.iter().all(|&n| n >= LINES / 40), "{starts:?}");
        assert!(basics.iter().all(|&n| n >= LINES / 400), "{basics:?}");
        assert!(causes.iter().all(|&n| n >= LINES / 40), "{causes:?}");
        assert!(left.iter().all(|&n| n >= LINES / 20), "{left:?}");
    }
}

/// Holds the streams of a form to the oracle's.
pub fn streams<S: Stream>(form: &str) {
    let seed = seed(&format!("{LINES} lines in chunks, {form}"));
    let mut shares = Shares::default();
    for item in 0..LINES {
        let r = &mut Random::new(seed, item);
        let line = joined(r);
        let _kept = Kept {
            name: format!("joined-{seed}-{item}"),
            octets: &line,
        };
        let chunks = chunks(r, &line);
        fed_in::<S>(r, &line, &chunks, &mut shares);
    }
    shares.check();
}

/// Feeds the chunks of a line, with ends in between that are refused or made on
/// a copy, and chunks offered with too little room before they are taken.
fn fed_in<S: Stream>(r: &mut Random, line: &[u8], chunks: &[&[u8]], shares: &mut Shares) {
    let mut both = Both::<S>::start();
    let (mut taken, mut refused) = (0, 0);
    for chunk in chunks {
        let rooms = match r.below(3) {
            0 => offered(r, &mut both, chunk, shares),
            _ => most(chunk),
        };
        let fed = both.feed(r, chunk, rooms);
        assert_eq!(fed.number, 0, "rooms {rooms:?}");
        shares.fed[0] += 1;
        shares.left[fed.multiframes.min(5) as usize] += 1;
        taken += chunk.len();
        if r.once_in(8) {
            let mut copy = both.clone();
            let reading = copy.end();
            both.other.holds(&line[..taken], &reading);
            shares.ends[reading.number as usize] += 1;
            if reading.number == 0 {
                copy.has_ended(r);
            } else {
                refused = reading.number as usize;
                both = copy;
            }
        }
    }
    let reading = both.end();
    shares.ends[reading.number as usize] += 1;
    match reading.number {
        0 => {
            both.has_ended(r);
            shares.starts[reading.start as usize % 8] += 1;
            shares.causes[reading.cause as usize] += 1;
            shares.again[refused] += 1;
        }
        15 => shares.basics[reading.place as usize % 8] += 1,
        _ => {}
    }
}

/// Offers a chunk with an octet too little of either output and with any room,
/// while it is refused, and gives rooms that are enough.
fn offered<S: Stream>(
    r: &mut Random,
    both: &mut Both<S>,
    chunk: &[u8],
    shares: &mut Shares,
) -> [usize; 2] {
    let left = both.leaving(chunk);
    if left == 0 {
        return [0; 2];
    }
    let (payload, slot0) = (496 * left, 16 * left);
    for rooms in [[payload - 1, slot0], [payload, slot0 - 1]] {
        assert_eq!(both.feed(r, chunk, rooms).number, 4);
        shares.fed[4] += 1;
    }
    let rooms = [room(r, payload), room(r, slot0)];
    if rooms[0] >= payload && rooms[1] >= slot0 {
        return rooms;
    }
    assert_eq!(both.feed(r, chunk, rooms).number, 4);
    [payload, slot0]
}

/// The same of short lines, octet by octet.
pub fn streams_by_octets<S: Stream>(form: &str) {
    let seed = seed(&format!("{BY_OCTETS} lines octet by octet, {form}"));
    for item in 0..BY_OCTETS {
        let r = &mut Random::new(seed, item);
        let mut line = joined(r);
        while line.len() < 2_600 {
            line = joined(r);
        }
        line.truncate(4_000);
        let _kept = Kept {
            name: format!("octets-{seed}-{item}"),
            octets: &line,
        };
        let chunks: Vec<&[u8]> = line.chunks(1).collect();
        fed_in::<S>(r, &line, &chunks, &mut Shares::default());
    }
}

/// Holds the longest line there is, in chunks of any length, to the same at once,
/// and what is offered past its end.
pub fn longest<S: Stream>(form: &str) {
    let seed = seed(&format!("the longest line, {form}"));
    let r = &mut Random::new(seed, 0);
    let line = given::longest(r);
    let _kept = Kept {
        name: format!("longest-{seed}"),
        octets: &line,
    };
    let (front, last) = line.split_at(line.len() - 1_000);
    let mut both = Both::<S>::start();
    let rooms = most(front);
    let (mut payload, mut slot0) = (vec![0; rooms[0]], vec![0; rooms[1]]);
    let at_once = both.oracle.feed(front, &mut payload, &mut slot0);

    let (mut rest, mut left) = (front, 0);
    while !rest.is_empty() {
        let most_octets = r.pick(&[1, 600, 5_000, 100_000]);
        let (chunk, behind) = rest.split_at(r.between(0, most_octets).min(rest.len()));
        let [room, room0] = most(chunk);
        let (mut out, mut out0) = (vec![0; room], vec![0; room0]);
        let fed = both.other.feed(chunk, &mut out, &mut out0);
        assert_eq!(fed.number, 0);
        let more = fed.multiframes as usize;
        assert!(out[..496 * more] == payload[496 * left..496 * (left + more)]);
        assert!(out0[..16 * more] == slot0[16 * left..16 * (left + more)]);
        rest = behind;
        left += more;
    }
    assert_eq!(left as u64, at_once.multiframes);

    // One octet too many is refused whatever the room, and changes nothing.
    let past = [last, &[0]].concat();
    assert_eq!(both.feed(r, &past, [0; 2]).number, 17);
    assert_eq!(both.feed(r, &line, [0; 2]).number, 17);
    assert_eq!(both.feed(r, last, [0; 2]).number, 4);
    assert_eq!(both.feed(r, last, most(last)).number, 0);
    assert_eq!(both.feed(r, &[0], [0; 2]).number, 17);
    assert_eq!(both.feed(r, &[], [0; 2]).number, 0);
    let reading = both.end();
    assert_eq!((reading.number, reading.lost), (0, 0));
    both.has_ended(r);
    assert_eq!(both.feed(r, &line, [0; 2]).number, 21);
}
