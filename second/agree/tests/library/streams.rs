//! Lines in chunks on both sides, and streams of any octets.

use crate::kit::{answered, places, reading, reading_places};
use agree::{seed, Stream};
use given::{chunks, joined, Random};
use jikhvanto::sys::{self, STREAM_OCTETS};
use jikhvanto::Refusal;
use oracle::{Fed, Reading};

const STATES: u64 = 12_000;

/// Where the window begins, behind the numbers.
const WINDOW: usize = 96;

/// A stream through the C interface, of any octets.
#[derive(Clone, PartialEq)]
struct Octets([u8; STREAM_OCTETS]);

impl Octets {
    fn start() -> Octets {
        let mut octets = [0xAA; STREAM_OCTETS];
        // SAFETY: the octets are lent whole.
        unsafe { sys::jk_stream_start(&mut octets) };
        assert!(octets == [0; STREAM_OCTETS], "nothing has come");
        Octets(octets)
    }

    fn feed(&mut self, chunk: &[u8], payload: &mut [u8], slot0: &mut [u8]) -> Fed {
        let before = self.0;
        // SAFETY: the octets are lent whole, every pointer comes with the length
        // of its own slice.
        let answer = answered(|answer| unsafe {
            sys::jk_feed(
                &mut self.0,
                chunk.as_ptr(),
                chunk.len(),
                payload.as_mut_ptr(),
                payload.len(),
                slot0.as_mut_ptr(),
                slot0.len(),
                answer,
            )
        });
        let [number, multiframes, ..] = answer;
        assert_eq!(answer, places([number, multiframes]));
        // Octets of the window past those that are in it stay.
        let past = WINDOW + self.window().len();
        assert!(self.0[past..] == before[past..], "window past {past}");
        Fed {
            number,
            multiframes,
        }
    }

    fn end(&mut self) -> Reading {
        // SAFETY: the octets are lent whole.
        let answer = answered(|answer| unsafe { sys::jk_end(&mut self.0, answer) });
        let [number, place, start, whole, used, lost, words, compared, ..] = answer;
        let [.., errored, farend, wordbits, cause, _, _, _, _] = answer;
        let r = Reading {
            number,
            place,
            start,
            whole,
            used,
            lost,
            words,
            compared,
            errored,
            farend,
            wordbits,
            cause,
        };
        assert_eq!(answer, reading_places(&r));
        assert!(number != 0 || self.numbers()[0] == 1, "has ended");
        r
    }

    fn numbers(&self) -> [u64; 12] {
        let number = |i: usize| self.0[8 * i..8 * i + 8].try_into().unwrap();
        std::array::from_fn(|i| u64::from_be_bytes(number(i)))
    }

    fn set(&mut self, i: usize, number: u64) {
        self.0[8 * i..8 * i + 8].copy_from_slice(&number.to_be_bytes());
    }

    /// The octets that are in the window.
    fn window(&self) -> &[u8] {
        &self.0[WINDOW..][..self.numbers()[1].min(2_048) as usize]
    }

    /// Whether it counts as ended. What is not looked at may be of any size:
    /// where nothing is found the place and its k, and with basic alignment k.
    fn has_ended(&self) -> bool {
        let [ended, held, before, found, place, k, counts @ ..] = self.numbers();
        let (place, k) = match found {
            2 => (place, k),
            1 => (place, 0),
            _ => (0, 0),
        };
        let over = |number: &u64| *number > 134_217_728;
        ended == 1 || held > 2_048 || [before, place, k].iter().chain(&counts).any(over)
    }

    /// How many octets have come.
    fn joined(&self) -> u64 {
        let [_, held, before, ..] = self.numbers();
        held + before
    }
}

/// A stream through the binding, and once more through the C interface.
#[derive(Clone)]
struct Kit {
    stream: jikhvanto::Stream,
    octets: Octets,
}

impl PartialEq for Kit {
    fn eq(&self, other: &Kit) -> bool {
        self.octets == other.octets
    }
}

impl Kit {
    fn check(&self) {
        assert!(self.stream.octets() == &self.octets.0, "octets of both");
    }
}

impl Stream for Kit {
    fn start() -> Kit {
        let kit = Kit {
            stream: jikhvanto::Stream::new(),
            octets: Octets::start(),
        };
        kit.check();
        kit
    }

    fn feed(&mut self, chunk: &[u8], payload: &mut [u8], slot0: &mut [u8]) -> Fed {
        let (mut c_payload, mut c_slot0) = (payload.to_vec(), slot0.to_vec());
        let fed = self.octets.feed(chunk, &mut c_payload, &mut c_slot0);
        let left = self.stream.feed(chunk, payload, slot0);
        let multiframes = left.map_or(0, |left| left as u64);
        let number = left.map_or_else(Refusal::number, |_| 0);
        assert_eq!((number, multiframes), (fed.number, fed.multiframes));
        assert!(c_payload == payload && c_slot0 == slot0, "{fed:?}");
        self.check();
        fed
    }

    fn end(&mut self) -> Reading {
        let r = self.octets.end();
        assert_eq!(reading(self.stream.end()), r);
        self.check();
        r
    }

    /// The numbers and the window are what the paper says.
    fn holds(&self, joined: &[u8], r: &Reading) {
        let [ended, held, before, found, place, k, counts @ ..] = self.octets.numbers();
        let octets = joined.len() as u64;
        let window = match r.number {
            0 if r.cause != 0 => 0,
            0 => octets - r.start / 8 - 512 * (r.used - 1),
            _ => octets.min(2_048),
        };
        assert_eq!([ended, held, before], [0, window, octets - window], "{r:?}");
        assert!(self.octets.window() == &joined[before as usize..], "{r:?}");
        match r.number {
            0 => assert_eq!([found, place, place + 512 * k], [2, r.place, r.start]),
            15 => assert_eq!([found, place], [1, r.place]),
            _ => assert_eq!(found, 0, "{r:?}"),
        }
        let so_far = [r.used, r.lost, r.words, r.errored, r.farend, r.wordbits];
        assert_eq!(counts, so_far, "{r:?}");
    }
}

#[test]
fn streams() {
    agree::streams::<Kit>("the library");
}

#[test]
fn streams_by_octets() {
    agree::streams_by_octets::<Kit>("the library");
}

#[test]
fn longest() {
    agree::longest::<Kit>("the library");
}

/// A stream of any octets: at random, with numbers of any size or of one that
/// matters, or one that calls have made of this line and in which something is
/// changed.
fn any(r: &mut Random, line: &[u8]) -> Octets {
    let octets = r.octets(STREAM_OCTETS);
    let mut stream = Octets(octets.try_into().unwrap());
    if r.once_in(8) {
        return stream;
    }
    if r.once_in(2) {
        stream = Octets::start();
        let octets = r.below(line.len() + 1);
        for chunk in chunks(r, &line[..octets]) {
            let most = chunk.len() / 512 + 4;
            stream.feed(chunk, &mut vec![0; 496 * most], &mut vec![0; 16 * most]);
        }
        for _ in 0..r.pick(&[1, 1, 2, 3]) {
            let number = number(r);
            match r.below(3) {
                0 => stream.0[r.below(STREAM_OCTETS)] = r.octet(),
                1 => stream.0[r.below(WINDOW)] ^= 1 << r.below(8),
                _ => stream.set(r.below(12), number),
            }
        }
        return stream;
    }
    let limits = [2, 2_049, 16_777_217, 134_217_729, 3, 134_217_729, 20];
    for i in 0..12 {
        let limit = limits[i.min(6)];
        let number = match r.below(12) {
            0 => number(r),
            1 => limit,
            2 => limit - 1,
            _ => r.below(limit as usize) as u64,
        };
        stream.set(i, number);
    }
    stream
}

fn number(r: &mut Random) -> u64 {
    let (any, small) = (r.any(), r.below(20_000) as u64);
    r.pick(&[
        0,
        1,
        2,
        3,
        256,
        2_048,
        2_049,
        16_777_216,
        134_217_728,
        134_217_729,
        1 << 32,
        u64::MAX,
        any,
        small,
    ])
}

/// Any octets are a stream: every call returns, refused exactly where it has to
/// be, a refusal changes nothing, and a chunk may be cut in two.
#[test]
fn any_octets_are_a_stream() {
    let seed = seed(&format!("{STATES} streams of any octets, the library"));
    let (mut fed, mut ended) = ([0; 22], [0; 22]);
    for item in 0..STATES {
        let r = &mut Random::new(seed, item);
        let line = joined(r);
        let mut stream = any(r, &line);
        for _ in 0..4 {
            let before = stream.clone();
            let number = if r.once_in(3) {
                let number = end_any(&mut stream);
                ended[number as usize] += 1;
                number
            } else {
                let number = feed_any(r, &mut stream, &line);
                fed[number as usize] += 1;
                number
            };
            assert_eq!(number == 21, before.has_ended(), "stream {item}");
            assert!(number == 0 || stream == before, "stream {item}");
        }
    }
    for number in [0, 4, 17, 21] {
        assert!(fed[number] >= 200, "{fed:?}");
    }
    for number in [0, 1, 3, 15, 21] {
        assert!(ended[number] >= 200, "{ended:?}");
    }
}

/// Feeds the end of a line.
fn feed_any(r: &mut Random, stream: &mut Octets, line: &[u8]) -> u64 {
    let room = r.below(6);
    let octets = r.pick(&[0, 1, 500, 3_000, 10_000]).min(line.len());
    let chunk = &line[line.len() - octets..];
    let before = stream.clone();
    let (payload, slot0) = (r.octets(496 * room), r.octets(16 * room));
    let (mut out, mut out0) = (payload.clone(), slot0.clone());
    let fed = stream.feed(chunk, &mut out, &mut out0);
    let left = fed.multiframes as usize;
    assert!(out[496 * left..] == payload[496 * left..]);
    assert!(out0[16 * left..] == slot0[16 * left..]);
    if !before.has_ended() {
        let past = before.joined() + chunk.len() as u64 > 16_777_216;
        assert_eq!(fed.number == 17, past);
    }
    if fed.number == 0 {
        let (first, second) = chunk.split_at(r.below(chunk.len() + 1));
        let mut cut = before;
        let (mut in_two, mut in_two0) = (payload, slot0);
        let left = cut.feed(first, &mut in_two, &mut in_two0).multiframes as usize;
        // Numbers that come from no calls may grow past what calls make.
        if !cut.has_ended() {
            let (rest, rest0) = (&mut in_two[496 * left..], &mut in_two0[16 * left..]);
            cut.feed(second, rest, rest0);
            assert!(in_two == out && in_two0 == out0);
            assert_eq!(cut.numbers(), stream.numbers());
            assert!(cut.window() == stream.window());
        }
    }
    fed.number
}

fn end_any(stream: &mut Octets) -> u64 {
    let before = stream.clone();
    let reading = stream.end();
    let [_, _, _, found, place, ..] = before.numbers();
    let (number, place) = match found {
        _ if before.has_ended() => (21, 0),
        _ if before.joined() < 2_048 => (1, 0),
        1 => (15, place),
        2 => (0, place),
        _ => (3, 0),
    };
    assert_eq!((reading.number, reading.place), (number, place));
    number
}
