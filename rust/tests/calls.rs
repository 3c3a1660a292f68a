//! Every call, accepted and with each of its refusals.

use jikhvanto::{kind, read, signals, sys, why, write, write_signalled};
use jikhvanto::{Cause, Reading, Refusal, State, Stream, Why};

const BEFORE: u8 = 0xAA;

fn payload(n: usize) -> Vec<u8> {
    (0..496 * n).map(|i| (7 * i + i / 31) as u8).collect()
}

/// Written multiframes with E bits 1.
fn line(n: usize) -> Vec<u8> {
    let overhead = [31, 31, 31, 31, 31, 31, 95, 95].repeat(n);
    let mut line = vec![0; 512 * n];
    write(&payload(n), &overhead, 0, &mut line).unwrap();
    line
}

#[test]
fn a_line_is_read_as_it_was_written() {
    let (mut slots, mut slot0) = ([BEFORE; 4 * 496 + 1], [BEFORE; 4 * 16]);
    let r = read(&line(4), &mut slots, &mut slot0).unwrap();
    assert_eq!((r.place, r.start, r.whole, r.used), (0, 0, 4, 4));
    assert_eq!((r.lost, r.words, r.compared), (None, 0, 7));
    assert_eq!((r.errored, r.farend, r.wordbits), (0, 0, 0));
    assert_eq!(r.cause, None);
    assert_eq!(slots[..4 * 496], payload(4));
    assert_eq!(slots[4 * 496], BEFORE);
    assert!(slot0
        .iter()
        .zip(line(4).chunks(32))
        .all(|(s, f)| *s == f[0]));
}

/// XY and ABCD of n multiframes.
fn signalling(n: usize) -> (Vec<u8>, Vec<u8>) {
    let xy = (0..n).map(|m| (15 - 3 * m % 16) as u8).collect();
    let abcd = (0..30 * n).map(|i| (1 + (i + i / 30) % 15) as u8).collect();
    (xy, abcd)
}

/// Written multiframes with signalling.
fn signalled_line(n: usize) -> Vec<u8> {
    let overhead = [31, 31, 31, 31, 31, 31, 95, 95].repeat(n);
    let (xy, abcd) = signalling(n);
    let mut line = vec![0; 512 * n];
    write_signalled(&payload(n), &overhead, 0, &xy, &abcd, &mut line).unwrap();
    line
}

#[test]
fn signalling_is_read_as_it_was_written() {
    let (xy, abcd) = signalling(4);
    let mut heard = [BEFORE; 91];
    let s = signals(&signalled_line(4), &mut heard).unwrap();
    assert_eq!((s.multiframes, s.first, s.losses), (3, Some(16), 0));
    assert_eq!(xy[3], 0b0110);
    assert_eq!(
        (s.held, s.x0, s.y, s.x1, s.x2),
        (true, false, true, true, false)
    );
    assert_eq!(heard[..90], abcd[30..]);
    assert_eq!(heard[90], BEFORE);
}

#[test]
fn slot_16_is_replaced() {
    let (n, overhead) = (2, [0; 16]);
    let (xy, abcd) = signalling(n);
    let mut payload = payload(n);
    let (mut line, mut plain) = ([0; 1_024], [0; 1_024]);
    let check = write_signalled(&payload, &overhead, 9, &xy, &abcd, &mut line);
    for (f, slots) in payload.chunks_mut(31).enumerate() {
        let channels = &abcd[30 * (f / 16)..];
        slots[15] = match f % 16 {
            0 => xy[f / 16],
            i => channels[i - 1] << 4 | channels[i + 14],
        };
    }
    assert_eq!(write(&payload, &overhead, 9, &mut plain), check);
    assert_eq!(line, plain);
}

#[test]
fn signalling_is_lost_and_found() {
    let mut line = signalled_line(4);
    let mut heard = |slots: &[(usize, u8)]| {
        for (frame, octet) in slots {
            line[32 * frame + 16] = *octet;
        }
        let s = signals(&line, &mut [0; 450]).unwrap();
        ((s.multiframes, s.first, s.losses), (s.held, s.x0, s.y))
    };
    // The last signal wrong, then the one before it too.
    assert_eq!(
        heard(&[(48, 0x14)]),
        ((3, Some(16), 0), (true, false, true))
    );
    assert_eq!(
        heard(&[(32, 0x14)]),
        ((2, Some(16), 1), (false, true, false))
    );
    // Found again in the next frame. X and Y are those of before.
    assert_eq!(
        heard(&[(49, 0x04)]),
        ((2, Some(16), 1), (true, false, true))
    );
    // No signal but that of frame 0, then one in the last frame.
    assert_eq!(
        heard(&[(16, 0x14), (49, 0xDD)]),
        ((0, None, 0), (false, true, false))
    );
    assert_eq!(
        heard(&[(63, 0x00)]),
        ((0, Some(63), 0), (true, true, false))
    );
}

#[test]
fn a_loss_is_read() {
    let mut line = line(4);
    for frame in [28, 30, 32] {
        line[32 * frame] ^= 1;
    }
    let r = read(&line, &mut [0; 7_936], &mut [0; 256]).unwrap();
    assert_eq!((r.whole, r.used, r.lost, r.words), (4, 2, Some(32), 2));
    assert_eq!((r.wordbits, r.cause), (2, Some(Cause::Word)));
}

#[test]
fn a_loss_has_its_cause() {
    // A bit of the word of each even frame named, and bit 2 of each odd one.
    let lost = |line: &[u8], frames: &[usize]| {
        let mut line = line.to_vec();
        for frame in frames {
            line[32 * frame] ^= if frame % 2 == 0 { 0x01 } else { 0x40 };
        }
        let r = read(&line, &mut [0; 7_936], &mut [0; 256]).unwrap();
        (r.used, r.lost, r.cause)
    };
    let (word, bit2) = (Some(Cause::Word), Some(Cause::Bit2));
    let four = line(4);
    assert_eq!(lost(&four, &[3, 5, 7]), (0, Some(7), bit2));
    assert_eq!(lost(&four, &[59, 61, 63]), (3, Some(63), bit2));
    assert_eq!(lost(&four, &[58, 60, 62]), (3, Some(62), word));
    // The earlier of the two.
    assert_eq!(lost(&four, &[20, 21, 22, 23, 24, 25]), (1, Some(24), word));
    assert_eq!(lost(&four, &[19, 20, 21, 22, 23, 24]), (1, Some(23), bit2));
    // Four wrong in a row, but two of each kind; then a right one in between.
    assert_eq!(lost(&four, &[20, 21, 22, 23]), (4, None, None));
    assert_eq!(lost(&four, &[19, 21, 25, 27]), (4, None, None));
    assert_eq!(lost(&four, &[20, 22, 26, 28]), (4, None, None));
    // From frame 14 on, two frames before the start: those are numbered from it.
    let late = &line(5)[32 * 14..];
    assert_eq!(lost(late, &[3, 5, 7]), (0, Some(5), bit2));
}

#[test]
fn signalling_is_read_up_to_a_loss() {
    let mut line = signalled_line(4);
    for frame in [35, 37, 39] {
        line[32 * frame] ^= 0x40;
    }
    let mut heard = [BEFORE; 31];
    let s = signals(&line, &mut heard).unwrap();
    assert_eq!((s.multiframes, s.first, s.held), (1, Some(16), true));
    assert_eq!(heard[..30], signalling(2).1[30..]);
    assert_eq!(heard[30], BEFORE);
}

#[test]
fn wrong_bits_of_words_are_counted() {
    let mut line = line(4);
    let mut hit = |frame: usize, bits: u8| {
        line[32 * frame] ^= bits;
        let r = read(&line, &mut [0; 7_936], &mut [0; 256]).unwrap();
        assert_eq!((r.used, r.lost), (4, None));
        (r.words, r.wordbits)
    };
    assert_eq!(hit(20, 0b000_0001), (1, 1));
    assert_eq!(hit(24, 0b111_1111), (2, 8));
    assert_eq!(hit(40, 0b010_1100), (3, 11));
    // A check bit, and an odd frame's bits, are no part of a word.
    assert_eq!(hit(44, 0b1000_0000), (3, 11));
    assert_eq!(hit(45, 0b0111_1111), (3, 11));
    // A bit hit again is right.
    assert_eq!(hit(40, 0b000_0100), (3, 10));
}

#[test]
fn far_end_errors_are_counted() {
    // E bits 1 in multiframes 0 and 2, and 0 in 1 and 3.
    let mut overhead = [31; 4 * 8];
    for e in [6, 7, 22, 23] {
        overhead[e] += 64;
    }
    let mut line = [0; 4 * 512];
    write(&payload(4), &overhead, 0, &mut line).unwrap();
    let mut hit = |frames: &[usize], bits: u8| {
        for frame in frames {
            line[32 * frame] ^= bits;
        }
        let r = read(&line, &mut [0; 7_936], &mut [0; 256]).unwrap();
        (r.used, r.errored, r.farend)
    };
    assert_eq!(hit(&[], 0), (4, 0, 4));
    // A word of the second block of multiframe 1, then an E bit of multiframe 2.
    assert_eq!(hit(&[30], 0b000_0001), (4, 1, 4));
    assert_eq!(hit(&[45], 0b1000_0000), (4, 2, 5));
    // A loss in multiframe 2: those of multiframe 1 are left, in a block that
    // is not compared any more.
    assert_eq!(hit(&[36, 38, 40], 0b000_0001), (2, 0, 2));
}

#[test]
fn a_place_is_asked_about() {
    let mut line = line(5);
    let hit = |line: &mut [u8], places: &[usize]| {
        for place in places {
            line[place / 8] ^= 128 >> (place % 8);
        }
    };
    assert_eq!(why(&line, 0), Ok(Why::Stands { k: 0 }));
    assert_eq!(why(&line, 512), Ok(Why::Stands { k: 7 }));
    assert_eq!(why(&line, 4_096), Ok(Why::Stands { k: 0 }));
    // An odd frame's bit 2 is where a word begins with 0.
    assert_eq!(why(&line, 256), Ok(Why::FirstWord { bit: 257 }));

    hit(&mut line, &[5, 7, 257, 514]);
    assert_eq!(why(&line, 0), Ok(Why::FirstWord { bit: 5 }));
    hit(&mut line, &[5, 7]);
    assert_eq!(why(&line, 0), Ok(Why::Bit2));
    hit(&mut line, &[257]);
    assert_eq!(why(&line, 0), Ok(Why::SecondWord { bit: 514 }));
    assert_eq!(why(&line, 512), Ok(Why::FirstWord { bit: 514 }));
    hit(&mut line, &[514]);
    assert_eq!(why(&line, 0), Ok(Why::Stands { k: 0 }));

    // The first mark of a signal: that of frame 1, then those of three others.
    hit(&mut line, &[256]);
    assert_eq!(why(&line, 0), Ok(Why::Stands { k: 8 }));
    hit(&mut line, &[256, 17 * 256, 33 * 256, 49 * 256]);
    assert_eq!(why(&line, 0), Ok(Why::NoPair));
}

#[test]
fn a_check_is_handed_on() {
    let (payload, overhead) = (payload(2), [0; 16]);
    let (mut whole, mut parts) = ([0; 1_024], [0; 1_024]);
    let last = write(&payload, &overhead, 5, &mut whole);
    let first = write(&payload[..496], &overhead[..8], 5, &mut parts[..512]).unwrap();
    assert_eq!(
        write(&payload[496..], &overhead[8..], first, &mut parts[512..]),
        last
    );
    assert_eq!(parts, whole);
}

#[test]
fn reads_are_refused() {
    let line = line(16);
    let refused = |image: &[u8], room, room0| {
        let (mut slots, mut slot0) = (vec![BEFORE; room], vec![BEFORE; room0]);
        let refusal = read(image, &mut slots, &mut slot0).unwrap_err();
        assert!(slots.iter().chain(&slot0).all(|octet| *octet == BEFORE));
        refusal
    };
    assert_eq!(refused(&line[..2_047], 7_936, 256), Refusal::ShortImage);
    assert_eq!(refused(&[0; 8_193], 7_936, 256), Refusal::LongImage);
    assert_eq!(refused(&[0; 8_192], 7_936, 256), Refusal::NoPlace);
    assert_eq!(refused(&line, 7_935, 256), Refusal::ShortOutput);
    assert_eq!(refused(&line, 7_936, 255), Refusal::ShortOutput);
    assert_eq!(refused(&[], 0, 0), Refusal::ShortImage);
    assert_eq!(refused(&[0; 2_048], 0, 0), Refusal::NoPlace);
}

#[test]
fn basic_alignment_is_refused_with_its_place() {
    let refused = |image: &[u8]| read(image, &mut [], &mut []).unwrap_err();
    // Three octets in front of a line whose signals are all hit.
    let mut line = [&[0; 3], line(4).as_slice()].concat();
    assert_eq!(refused(&line), Refusal::ShortOutput);
    for m in 0..4 {
        line[3 + (16 * m + 1) * 32] ^= 0x80;
    }
    assert_eq!(refused(&line), Refusal::BasicOnly { place: 24 });
    assert_eq!(why(&line, 24), Ok(Why::NoPair));
    let said = refused(&line).to_string();
    assert_eq!(said, "place 24 has basic alignment, but no place stands");
    // An octet less, and the place has no room.
    assert_eq!(refused(&line[..2_050]), Refusal::NoPlace);
    assert_eq!(why(&line[..2_050], 24), Err(Refusal::LatePlace));

    // A word, a bit 2 of 1 and a word at two places: the first.
    let mut octets = [0; 8_192];
    for place in [6_144, 200] {
        octets[place] = 0x1B;
        octets[place + 32] = 0x40;
        octets[place + 64] = 0x1B;
        let place = 8 * place;
        assert_eq!(refused(&octets), Refusal::BasicOnly { place });
    }
}

#[test]
fn signalling_is_refused() {
    let line = signalled_line(16);
    let refused = |image: &[u8], room| {
        let mut abcd = vec![BEFORE; room];
        let refusal = signals(image, &mut abcd).unwrap_err();
        assert!(abcd.iter().all(|octet| *octet == BEFORE));
        refusal
    };
    assert_eq!(refused(&line[..2_047], 450), Refusal::ShortImage);
    assert_eq!(refused(&[0; 8_193], 450), Refusal::LongImage);
    assert_eq!(refused(&[0; 8_192], 450), Refusal::NoPlace);
    assert_eq!(refused(&line, 449), Refusal::ShortOutput);
    assert_eq!(refused(&line, 0), Refusal::ShortOutput);
    assert_eq!(refused(&[0; 2_048], 0), Refusal::NoPlace);

    // The place is that of a reading, whatever room there is.
    let mut line = [&[0; 3], &line[..2_048]].concat();
    for m in 0..4 {
        line[3 + (16 * m + 1) * 32] ^= 0x80;
    }
    for room in [0, 450] {
        assert_eq!(refused(&line, room), Refusal::BasicOnly { place: 24 });
    }
}

#[test]
fn places_are_refused() {
    let line = line(16);
    assert_eq!(why(&line, 49_152), Ok(Why::Stands { k: 0 }));
    assert_eq!(why(&line, 49_153), Err(Refusal::LatePlace));
    assert_eq!(why(&line[..2_048], 0), Ok(Why::Stands { k: 0 }));
    assert_eq!(why(&line[..2_048], 1), Err(Refusal::LatePlace));
    for place in [1 << 32, 1 << 61, 1 << 63, u64::MAX - 16_383, u64::MAX] {
        assert_eq!(why(&line, place), Err(Refusal::LatePlace));
        assert_eq!(why(&line[..2_047], place), Err(Refusal::ShortImage));
        assert_eq!(why(&[0; 8_193], place), Err(Refusal::LongImage));
    }
    assert_eq!(why(&[], 0), Err(Refusal::ShortImage));
}

/// A line fed in chunks of so many octets: what left, and what its end says.
/// Every chunk is first offered with an octet of room too few, and after every
/// chunk an end on a copy says what is read of what came.
fn streamed(line: &[u8], octets: usize) -> (Vec<u8>, Vec<u8>, Result<Reading, Refusal>) {
    let (mut stream, mut came) = (Stream::new(), 0);
    let (mut payload, mut payload0) = (Vec::new(), Vec::new());
    for chunk in line.chunks(octets) {
        let most = chunk.len() / 512 + 4;
        let (mut slots, mut slot0) = (vec![BEFORE; 496 * most], vec![BEFORE; 16 * most]);
        let left = stream
            .clone()
            .feed(chunk, &mut slots.clone(), &mut slot0.clone())
            .unwrap();
        if left > 0 {
            let was = *stream.octets();
            let short = stream.feed(chunk, &mut slots[..496 * left - 1], &mut slot0);
            assert_eq!(short, Err(Refusal::ShortOutput));
            let short = stream.feed(chunk, &mut slots, &mut slot0[..16 * left - 1]);
            assert_eq!(short, Err(Refusal::ShortOutput));
            assert_eq!(*stream.octets(), was);
            assert!(slots.iter().chain(&slot0).all(|octet| *octet == BEFORE));
        }
        assert_eq!(stream.feed(chunk, &mut slots, &mut slot0), Ok(left));
        let (new, kept) = slots.split_at(496 * left);
        let (new0, kept0) = slot0.split_at(16 * left);
        assert!(kept.iter().chain(kept0).all(|octet| *octet == BEFORE));
        payload.extend(new);
        payload0.extend(new0);
        came += chunk.len();
        let mut copy = stream.clone();
        let read = read(&line[..came], &mut [0; 7_936], &mut [0; 256]);
        assert_eq!(copy.end(), read);
        assert_eq!(read.is_err(), copy.octets() == stream.octets());
    }
    (payload, payload0, stream.end())
}

#[test]
fn a_line_in_chunks_is_read_as_at_once() {
    // Three octets in front; a word, a block and an E bit hit; then also a loss.
    let mut line = [&[0; 3], line(15).as_slice()].concat();
    line[3 + 32 * 20] ^= 0b101;
    line[3 + 1_500] ^= 1;
    line[3 + 32 * 61] ^= 0x80;
    let mut lost = line.clone();
    for frame in [175, 177, 179] {
        lost[3 + 32 * frame] ^= 0x40;
    }
    for line in [line, lost] {
        let (mut slots, mut slot0) = ([0; 7_936], [0; 256]);
        let r = read(&line, &mut slots, &mut slot0).unwrap();
        assert_eq!((r.place, r.words, r.wordbits, r.farend), (24, 1, 2, 1));
        for octets in [1, 97, 512, 1_300, 8_000] {
            let (payload, payload0, end) = streamed(&line, octets);
            assert_eq!(end, Ok(r));
            assert_eq!(payload, slots[..496 * r.used]);
            assert_eq!(payload0, slot0[..16 * r.used]);
        }
    }
}

#[test]
fn a_line_may_be_long() {
    let (payload, overhead) = (payload(16), [31, 31, 31, 31, 31, 31, 95, 95].repeat(16));
    let (mut stream, mut written, mut check) = (Stream::new(), [0; 16 * 512], 0);
    let (mut slots, mut slot0) = ([0; 16 * 496], [0; 16 * 16]);
    for _ in 0..2_048 {
        check = write(&payload, &overhead, check, &mut written).unwrap();
        assert_eq!(stream.feed(&written, &mut slots, &mut slot0), Ok(16));
        assert!(slots[..] == payload);
    }
    let was = *stream.octets();
    assert_eq!(stream.feed(&[0], &mut [], &mut []), Err(Refusal::LongLine));
    assert_eq!(*stream.octets(), was);
    assert_eq!(stream.feed(&[], &mut [], &mut []), Ok(0));
    let r = stream.end().unwrap();
    assert_eq!((r.whole, r.used, r.lost), (32_768, 32_768, None));
    assert_eq!((r.compared, r.errored, r.words), (65_535, 0, 0));
}

#[test]
fn ends_are_refused() {
    let mut stream = Stream::new();
    let mut basic = line(4);
    for m in 0..4 {
        basic[(16 * m + 1) * 32] ^= 0x80;
    }
    assert_eq!(*stream.octets(), [0; sys::STREAM_OCTETS]);
    assert_eq!(stream.end(), Err(Refusal::ShortImage));
    assert_eq!(stream.feed(&[0; 2_048], &mut [], &mut []), Ok(0));
    assert_eq!(stream.end(), Err(Refusal::NoPlace));
    assert_eq!(stream.feed(&basic, &mut [], &mut []), Ok(0));
    assert_eq!(stream.end(), Err(Refusal::BasicOnly { place: 16_384 }));
    // More follows, and another end.
    let (mut slots, mut slot0) = ([0; 4 * 496], [0; 4 * 16]);
    assert_eq!(stream.feed(&line(4), &mut slots, &mut slot0), Ok(4));
    assert_eq!(slots[..], payload(4));
    let r = stream.end().unwrap();
    assert_eq!((r.start, r.used), (8 * 4_096, 4));

    // After an end nothing is taken.
    let was = *stream.octets();
    assert_eq!(stream.end(), Err(Refusal::Ended));
    let fed = stream.feed(&[0; 4], &mut slots, &mut slot0);
    assert_eq!(fed, Err(Refusal::Ended));
    assert_eq!(*stream.octets(), was);
}

#[test]
fn writes_are_refused() {
    let payload = payload(1);
    let refused = |payload: &[u8], overhead: &[u8], check, room| {
        let mut out = vec![BEFORE; room];
        let refusal = write(payload, overhead, check, &mut out).unwrap_err();
        assert!(out.iter().all(|octet| *octet == BEFORE));
        refusal
    };
    assert_eq!(refused(&payload[1..], &[0; 8], 0, 512), Refusal::BadPayload);
    assert_eq!(refused(&payload, &[0; 9], 0, 512), Refusal::BadOverhead);
    assert_eq!(refused(&payload, &[64; 8], 0, 512), Refusal::BadOverhead);
    assert_eq!(refused(&payload, &[0; 8], 16, 512), Refusal::BadCheck);
    assert_eq!(refused(&payload, &[0; 8], 0, 511), Refusal::ShortOutput);
}

#[test]
fn writes_with_signalling_are_refused() {
    let (xy, abcd) = signalling(1);
    let refused = |octets, overhead: &[u8], check, xy: &[u8], abcd: &[u8], room| {
        let mut out = vec![BEFORE; room];
        let payload = &payload(1)[..octets];
        let refusal = write_signalled(payload, overhead, check, xy, abcd, &mut out).unwrap_err();
        assert!(out.iter().all(|octet| *octet == BEFORE));
        refusal
    };
    let signals = |xy: &[u8], abcd: &[u8]| refused(496, &[0; 8], 0, xy, abcd, 0);
    assert_eq!(refused(495, &[64], 16, &[], &[], 0), Refusal::BadPayload);
    assert_eq!(refused(496, &[64], 16, &[], &[], 0), Refusal::BadOverhead);
    assert_eq!(refused(496, &[0; 8], 16, &[], &[], 0), Refusal::BadCheck);
    assert_eq!(signals(&[], &abcd), Refusal::BadSignals);
    assert_eq!(signals(&[16], &abcd), Refusal::BadSignals);
    assert_eq!(signals(&xy, &abcd[..29]), Refusal::BadSignals);
    assert_eq!(signals(&xy, &[16; 30]), Refusal::BadSignals);
    let mut none = abcd.clone();
    none[29] = 0;
    assert_eq!(signals(&xy, &none), Refusal::BadSignals);
    assert_eq!(
        refused(496, &[0; 8], 0, &xy, &abcd, 511),
        Refusal::ShortOutput
    );
}

#[test]
fn the_key_and_the_map() {
    let mut state = State::new();
    let stage = [kind::STAGE, 5, 9, 0];
    let commit = [kind::COMMIT, 0, 0, 0];
    let look = [kind::READ, 5, 0, 0];
    let drop = [kind::DROP, 0, 0, 0];

    let before = *state.octets();
    assert_eq!(state.host(&look), Ok(5));
    assert_eq!(state.host(&stage[..3]), Err(Refusal::BadRecord));
    assert_eq!(state.host(&[0, 5, 9, 0]), Err(Refusal::BadKind));
    assert_eq!(state.host(&[kind::STAGE, 5, 32, 0]), Err(Refusal::BadSlot));
    assert_eq!(state.host(&stage), Err(Refusal::KeyOff));
    assert_eq!(state.key(2), Err(Refusal::BadPosition));
    assert_eq!(*state.octets(), before);

    assert_eq!(state.key(1), Ok(()));
    assert_eq!(state.host(&drop), Err(Refusal::NothingStaged));
    assert_eq!(state.host(&stage), Ok(0));
    assert_eq!(state.host(&drop), Ok(0));
    assert_eq!(state.host(&stage), Ok(0));
    assert_eq!(state.host(&commit), Ok(0));
    assert_eq!(state.host(&look), Ok(5));
    state.boundary();
    assert_eq!(state.host(&look), Ok(9));

    let payload = payload(1);
    let mut out = [BEFORE; 497];
    assert_eq!(state.map(&payload[1..], &mut out), Err(Refusal::BadPayload));
    assert_eq!(
        state.map(&payload, &mut out[..495]),
        Err(Refusal::ShortOutput)
    );
    assert_eq!(out, [BEFORE; 497]);
    assert_eq!(state.map(&payload, &mut out), Ok(()));
    assert_eq!((out[4], out[5], out[496]), (payload[8], payload[5], BEFORE));
}
