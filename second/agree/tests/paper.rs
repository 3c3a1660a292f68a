//! The oracle held to the bench cases of the paper, by their numbers, and to
//! what the paper promises of the loss, of `wordbits`, of `why`, of numbers 3 and
//! 15, of signalling, of lines in chunks, of T1 and of two hits in one block.

use agree::seed;
use given::making::{
    flip, set_basic, set_slot16, shifted, two_bits, wrong_bits_2, wrong_signals, wrong_words,
};
use given::Random;
use oracle::check::{check, PLACES};
use oracle::line::{bits, number, octets, wrong_bits, BLOCK, FRAME, SIGNAL, WORD};
use oracle::t1;
use oracle::why::with_room;
use oracle::writing::odd_slot0;
use oracle::{
    read, report, said, signals, why, write, write_signalled, Answer, Exchange, Fed, Reading,
    Signals, Stream, Why,
};

const IMAGES: u64 = 4_000;
const T1_LINES: u64 = 500;

/// The check of a block that is 1 at these places only, as C1 to C4 read.
fn check_of(ones: &[usize]) -> String {
    let mut block = [0; BLOCK];
    for place in ones {
        block[*place] = 1;
    }
    check(&block).map(|bit| bit.to_string()).concat()
}

/// The overhead of a multiframe with E bits 1, and with E bits 0.
const CLEAR: [u8; 8] = [31, 31, 31, 31, 31, 31, 95, 95];
const FAR: [u8; 8] = [31; 8];

/// Multiframes written with this overhead.
fn line_of(overhead: &[[u8; 8]]) -> Vec<u8> {
    let n = overhead.len();
    let payload: Vec<u8> = (0..496 * n).map(|i| (11 * i + i / 31) as u8).collect();
    let mut out = vec![0; 512 * n];
    assert_eq!(write(&payload, &overhead.concat(), 0, &mut out).number, 0);
    out
}

/// Written multiframes with E bits 1.
fn line(n: usize) -> Vec<u8> {
    line_of(&[CLEAR].repeat(n))
}

fn read_all(image: &[u8]) -> Reading {
    read(image, &mut [0; 7_936], &mut [0; 256])
}

fn refusal(number: u64) -> Reading {
    Reading {
        number,
        ..Reading::default()
    }
}

/// The refusal of an image whose first place with basic alignment is this.
fn basic_only(place: usize) -> Reading {
    Reading {
        place: place as u64,
        ..refusal(15)
    }
}

#[test]
fn case_1_a_block_of_zeros() {
    assert_eq!(check_of(&[]), "0000");
}

#[test]
fn case_2_one_bit_near_the_end() {
    assert_eq!(check_of(&[2047]), "0011");
    assert_eq!(check_of(&[2046]), "0110");
    assert_eq!(check_of(&[2045]), "1100");
    assert_eq!(check_of(&[2044]), "1011");
}

#[test]
fn case_3_fifteen_bits_apart() {
    assert_eq!(check_of(&[2047, 2032]), "0000");
}

#[test]
fn case_4_a_check_place() {
    assert_eq!(check_of(&[0]), "0000");
}

#[test]
fn case_5_five_bits_can_hide() {
    assert_eq!(check_of(&[2043, 2046, 2047]), "0000");
}

#[test]
fn case_5_four_bits_cannot() {
    for burst in 1..16 {
        let ones: Vec<usize> = (0..4).filter(|i| burst >> i & 1 == 1).collect();
        for at in [3, 600, 2044] {
            let ones: Vec<usize> = ones.iter().map(|i| at + i).collect();
            assert_ne!(check_of(&ones), "0000");
        }
    }
}

#[test]
fn case_6_slot_0() {
    let payload = [0; 496];
    let mut out = [0; 512];
    for (check, octet) in [(0, 0x1B), (8, 0x9B)] {
        write(&payload, &[0; 8], check, &mut out);
        assert_eq!(out[0], octet);
    }
    assert_eq!(number(&odd_slot0(1, 31)), 0x5F);
    assert_eq!(number(&odd_slot0(1, 32 + 31)), 0x7F);
}

/// The live entry 5, as a host reads it.
fn entry_5(exchange: &mut Exchange) -> Answer {
    exchange.host(&[3, 5, 0, 0])
}

#[test]
fn case_7_no_waiting_map_survives_the_key() {
    let mut exchange = Exchange::start();
    exchange.key(1);
    exchange.host(&[1, 5, 9, 0]);
    exchange.host(&[2, 0, 0, 0]);
    exchange.key(0);
    exchange.boundary();
    exchange.key(1);
    let entry = entry_5(&mut exchange);
    assert_eq!((entry.number, entry.entry), (0, 5));
}

#[test]
fn case_8_a_live_map_stays() {
    let mut exchange = Exchange::start();
    exchange.key(1);
    exchange.host(&[1, 5, 9, 0]);
    exchange.host(&[2, 0, 0, 0]);
    exchange.boundary();
    exchange.key(0);
    let entry = entry_5(&mut exchange);
    assert_eq!((entry.number, entry.entry), (0, 9));
}

#[test]
fn case_9_lengths() {
    assert_eq!(read_all(&[0; 2_047]), refusal(1));
    assert_eq!(read_all(&[0; 2_048]), refusal(3));
    assert_eq!(read_all(&[255; 2_048]), refusal(3));
    assert_eq!(read_all(&[0; 8_192]), refusal(3));
    assert_eq!(read_all(&line(16)).whole, 16);
    assert_eq!(read_all(&[0; 8_193]), refusal(2));
}

#[test]
fn case_10_one_bit_in_front() {
    let image = shifted(&line(4), 1);
    assert_eq!(image.len(), 2_049);
    let r = read_all(&image);
    assert_eq!((r.number, r.place, r.start, r.whole), (0, 1, 1, 4));
}

#[test]
fn case_11_loss() {
    let mut image = line(4);
    wrong_words(&mut image, &[28, 30, 32]);
    let r = read_all(&image);
    assert_eq!((r.number, r.lost, r.used), (0, 32, 2));
    assert_eq!((r.words, r.compared, r.errored), (2, 3, 0));
}

#[test]
fn case_12_report() {
    let lines = [
        "place 0",
        "start 0",
        "whole 4",
        "used 4",
        "lost no",
        "words 0",
        "wordbits 0",
        "compared 7",
        "errored 0",
        "farend 0",
        "",
    ];
    assert_eq!(report(&line(4)), lines.join("\n"));
    assert_eq!(report(&[0; 2_048]), "refused 3\n");
    let mut image = line(4);
    wrong_words(&mut image, &[28, 30, 32]);
    assert!(report(&image).contains("\nlost 32\ncause word\nwords 2\nwordbits 2\n"));
    let mut image = line(4);
    wrong_bits_2(&mut image, &[29, 31, 33]);
    assert!(report(&image).contains("\nlost 33\ncause bit2\nwords 0\nwordbits 0\n"));
}

#[test]
fn case_13_wrong_bits() {
    let mut image = line(4);
    flip(&mut image, 20 * FRAME + 7);
    for bit in 1..=7 {
        flip(&mut image, 24 * FRAME + bit);
    }
    let r = read_all(&image);
    assert_eq!((r.number, r.words, r.wordbits), (0, 2, 8));
    assert!(report(&image).contains("\nlost no\nwords 2\nwordbits 8\n"));
}

#[test]
fn case_14_why() {
    let hit = |places: &[usize]| {
        let mut image = line(4);
        for place in places {
            flip(&mut image, *place);
        }
        image
    };
    assert_eq!(said(&line(4), 0), "stands, k 0\n");
    assert_eq!(said(&hit(&[5, 7]), 0), "first word wrong at bit 5\n");
    assert_eq!(said(&hit(&[257, 514]), 0), "bit 257 after it is 0\n");
    assert_eq!(said(&hit(&[514]), 0), "second word wrong at bit 514\n");
    let mut image = line(4);
    wrong_signals(&mut image, &[1, 2, 3]);
    assert_eq!(said(&image, 0), "no pair of signals\n");
    assert_eq!(said(&line(4), 1), "refused 14\n");
}

#[test]
fn case_15_far_end_errors() {
    let mut image = line_of(&[CLEAR, FAR, CLEAR, CLEAR]);
    flip(&mut image, 6_300);
    let r = read_all(&image);
    assert_eq!((r.number, r.errored, r.farend), (0, 1, 2));
    let mut image = line_of(&[FAR, CLEAR, CLEAR, CLEAR]);
    wrong_words(&mut image, &[20, 22, 24]);
    let r = read_all(&image);
    assert_eq!((r.number, r.used, r.compared, r.farend), (0, 1, 1, 2));
}

#[test]
fn case_16_basic_alignment_only() {
    let mut image = line(4);
    wrong_signals(&mut image, &[0, 1, 2, 3]);
    assert_eq!(read_all(&image), basic_only(0));
    assert_eq!(report(&image), "refused 15\n");
    assert_eq!(read_all(&shifted(&image, 8)), basic_only(8));
    let set = |place| {
        let mut image = [0; 8 * 2_048];
        set_basic(&mut image, place);
        octets(&image)
    };
    assert_eq!(read_all(&set(0)), basic_only(0));
    assert_eq!(read_all(&set(1)), refusal(3));
}

#[test]
fn case_19_either_loss() {
    // The line from this frame on.
    let lost = |n: usize, words: &[usize], bits_2: &[usize], frame: usize| {
        let mut image = line(n);
        wrong_words(&mut image, words);
        wrong_bits_2(&mut image, bits_2);
        let r = read_all(&image[32 * frame..]);
        assert_eq!((r.number, r.place), (0, 0));
        (r.start, r.lost, r.used, r.cause)
    };
    assert_eq!(lost(4, &[], &[3, 5, 7], 0), (0, 7, 0, 2));
    let words_first = lost(4, &[20, 22, 24], &[21, 23, 25], 0);
    assert_eq!(words_first, (0, 24, 1, 1));
    let bits_2_first = lost(4, &[20, 22, 24], &[19, 21, 23], 0);
    assert_eq!(bits_2_first, (0, 23, 1, 2));
    assert_eq!(lost(5, &[], &[17, 19, 21], 14), (512, 5, 0, 2));
}

/// Feeds a chunk with room for so many multiframes.
fn feed(stream: &mut Stream, chunk: &[u8], room: usize) -> Fed {
    let (mut payload, mut slot0) = (vec![0; 496 * room], vec![0; 16 * room]);
    stream.feed(chunk, &mut payload, &mut slot0)
}

fn left(multiframes: u64) -> Fed {
    Fed {
        number: 0,
        multiframes,
    }
}

fn unfed(number: u64) -> Fed {
    Fed {
        number,
        multiframes: 0,
    }
}

#[test]
fn case_20_chunks() {
    let line = line(5);
    let mut stream = Stream::start();
    for chunk in [&line[..0], &line[..1], &line[1..2_047]] {
        assert_eq!(feed(&mut stream, chunk, 0), left(0));
    }
    assert_eq!(stream.end(), refusal(1));
    assert_eq!(feed(&mut stream, &line[2_047..2_048], 4), left(4));
    assert_eq!(feed(&mut stream, &line[2_048..2_049], 0), left(0));
    let last = &line[2_049..];
    assert_eq!(stream.feed(last, &mut [0; 495], &mut [0; 16]), unfed(4));
    assert_eq!(stream.feed(last, &mut [0; 496], &mut [0; 15]), unfed(4));
    assert_eq!(feed(&mut stream, last, 1), left(1));
    assert_eq!(stream.end(), read_all(&line));
    assert_eq!(feed(&mut stream, &[], 0), unfed(21));
    assert_eq!(stream.end(), refusal(21));
}

#[test]
fn case_20_an_end_too_early() {
    let mut stream = Stream::start();
    assert_eq!(feed(&mut stream, &[0; 2_048], 0), left(0));
    assert_eq!(stream.end(), refusal(3));
    let mut image = line(4);
    wrong_signals(&mut image, &[0, 1, 2, 3]);
    assert_eq!(feed(&mut stream, &image, 0), left(0));
    assert_eq!(stream.end(), basic_only(16_384));
    assert_eq!(feed(&mut stream, &line(4), 4), left(4));
    let r = stream.end();
    assert_eq!((r.number, r.place, r.start), (0, 23_552, 32_768));
    assert_eq!((r.whole, r.used), (4, 4));
}

#[test]
fn case_20_the_longest_line() {
    let line = line(16).repeat(2_048);
    let (front, last) = line.split_at(line.len() - 1);
    let mut stream = Stream::start();
    assert_eq!(feed(&mut stream, front, 32_767), left(32_767));
    assert_eq!(feed(&mut stream, &[0; 2], 0), unfed(17));
    assert_eq!(feed(&mut stream, last, 1), left(1));
    let r = stream.end();
    assert_eq!((r.number, r.whole, r.used), (0, 32_768, 32_768));
    assert_eq!((r.compared, r.errored), (65_535, 2_047));
    assert_eq!(feed(&mut stream, &[0; 2], 0), unfed(21));
}

/// The check of a superframe with this payload, as C1 to C6 read.
fn t1_check(payload: &[u8; 576]) -> String {
    let w = t1::write(payload, &[0; 12], 0, &mut [0; 579]);
    assert_eq!(w.number, 0);
    format!("{:06b}", w.check)
}

/// The check of a superframe of 0 that is 1 at these places only.
fn t1_check_of(ones: &[usize]) -> String {
    let mut superframe = [0; t1::SUPERFRAME];
    for place in ones {
        superframe[*place] = 1;
    }
    t1::check(&superframe).map(|bit| bit.to_string()).concat()
}

/// The payload and the data link of so many superframes.
fn t1_given(n: usize) -> (Vec<u8>, Vec<u8>) {
    let payload = (0..576 * n).map(|i| (11 * i + i / 31) as u8).collect();
    (payload, (0..12 * n).map(|j| (j / 5 % 2) as u8).collect())
}

fn t1_line(n: usize) -> Vec<u8> {
    let (payload, link) = t1_given(n);
    let mut out = vec![0; 579 * n];
    assert_eq!(t1::write(&payload, &link, 0, &mut out).number, 0);
    out
}

fn t1_read_all(image: &[u8]) -> t1::Reading {
    t1::read(image, &mut [0; 8_064], &mut [0; 168])
}

/// A reading from this place.
fn t1_reading(place: u64, whole: u64, errored: u64) -> t1::Reading {
    t1::Reading {
        number: 0,
        place,
        whole,
        compared: whole - 1,
        errored,
    }
}

#[test]
fn case_21_superframes_alike() {
    assert_eq!(t1_check(&[0x00; 576]), "000010");
    assert_eq!(t1_check(&[0xFF; 576]), "010011");
    assert_eq!(t1_check(&[0x7F; 576]), "000110");
}

/// The framing bits, which are read as 1, alone make 000010.
#[test]
fn case_22_single_bits() {
    assert_eq!(t1_check_of(&[]), "000010");
    assert_eq!(t1_check_of(&[4_631]), "000001");
    assert_eq!(t1_check_of(&[4_630]), "000100");
    for f in 0..24 {
        assert_eq!(t1_check_of(&[193 * f]), "000010");
    }
    assert_eq!(t1_check_of(&[4_631, 4_568]), "000010");
}

#[test]
fn case_23_lengths() {
    assert_eq!(t1_read_all(&[0; 1_157]), t1::refused(1));
    assert_eq!(t1_read_all(&[0; 1_158]), t1::refused(3));
    assert_eq!(t1_read_all(&[255; 1_158]), t1::refused(3));
    assert_eq!(t1_read_all(&[0; 8_193]), t1::refused(2));
}

#[test]
fn case_24_one_bit_in_front() {
    let image = shifted(&t1_line(2), 1);
    assert_eq!(image.len(), 1_159);
    assert_eq!(t1_read_all(&image), t1_reading(1, 2, 0));
}

#[test]
fn case_25_hits() {
    let read_hit = |place: usize| {
        let mut image = t1_line(14);
        flip(&mut image, place);
        t1_read_all(&image)
    };
    assert_eq!(t1_read_all(&t1_line(14)), t1_reading(0, 14, 0));
    for place in [1, 8, 100, 192, 194, 4_631] {
        assert_eq!(read_hit(2 * 4_632 + place), t1_reading(0, 14, 1));
    }
    assert_eq!(read_hit(3 * 4_632 + t1::CHECK[1]), t1_reading(0, 14, 1));
    for place in t1::LINK {
        assert_eq!(read_hit(5 * 4_632 + place), t1_reading(0, 14, 0));
    }
    for place in t1::SIGNAL_PLACES {
        assert_eq!(read_hit(2 * 4_632 + place), t1_reading(0, 14, 0));
    }
}

#[test]
fn case_26_the_first_is_errored() {
    for (n, answer) in [(3, t1_reading(4_632, 2, 0)), (2, t1::refused(3))] {
        let mut image = t1_line(n);
        flip(&mut image, 100);
        assert_eq!(t1_read_all(&image), answer);
    }
}

#[test]
fn case_27_the_check_of_what_is_sent() {
    let mut payload = [0xFF; 576];
    let (mut out, mut replaced_out) = ([0; 579], [0; 579]);
    let w = t1::write_signalled(&payload, &[0; 12], 63, &[0; 96], &mut out);
    for f in [6, 12, 18, 24] {
        payload[24 * (f - 1)..24 * f].fill(0xFE);
    }
    let replaced = t1::write(&payload, &[0; 12], 63, &mut replaced_out);
    assert_eq!((w.number, w), (0, replaced));
    assert_eq!(out, replaced_out);
    assert_eq!(t1::carried(&bits(&out)), [1; 6]);
}

/// What is written comes back, with the bits that signalling replaced.
#[test]
fn t1_lines_come_back() {
    let seed = seed(&format!("{T1_LINES} lines of T1 written and read"));
    for item in 0..T1_LINES {
        let r = &mut Random::new(seed, item);
        let n = r.between(2, 14);
        let (payload, link) = (r.octets(576 * n), r.numbers(12 * n, 0, 1));
        let signalling = r.numbers(96 * n, 0, 1);
        let mut out = vec![0; 579 * n];
        t1::write_signalled(&payload, &link, 0, &signalling, &mut out);
        let (mut read, mut read_link) = (vec![0; 576 * n], vec![0; 12 * n]);
        let reading = t1::read(&out, &mut read, &mut read_link);
        assert_eq!(reading, t1_reading(0, n as u64, 0), "line {item}");
        assert!(read_link == link, "line {item}");
        let mut heard = Vec::new();
        for (i, (read, octet)) in read.iter().zip(&payload).enumerate() {
            if i / 24 % 6 == 5 {
                heard.push(read & 1);
                assert_eq!(read >> 1, octet >> 1, "line {item}");
            } else {
                assert_eq!(read, octet, "line {item}");
            }
        }
        assert!(heard == signalling, "line {item}");
    }
}

/// A hit of up to six neighbours shows, but where no check can tell; one of
/// seven may hide.
#[test]
fn t1_hits_show() {
    let line = bits(&t1_line(3));
    let last = 2 * t1::SUPERFRAME;
    let untold = |place: usize| {
        let at = place % t1::SUPERFRAME;
        match at % t1::FRAME {
            0 => !t1::CHECK.contains(&at) || place < t1::SUPERFRAME,
            _ => place >= last,
        }
    };
    let agrees = |line: &[u8]| (0..2).all(|s| t1::agrees(line, s * t1::SUPERFRAME));
    let r = &mut Random::new(0, 0);
    for hit in (1..64).cycle().take(4_000) {
        let at = match r.below(3) {
            0 => r.below(3 * 24) * t1::FRAME + r.below(6),
            _ => r.below(line.len() - 6),
        };
        let mut image = line.clone();
        let places = (0..6).filter(|i| hit >> i & 1 == 1).map(|i| at + i);
        let places: Vec<usize> = places.filter(|place| *place < line.len()).collect();
        for place in &places {
            image[*place] ^= 1;
        }
        let shows = !places.iter().all(|place| untold(*place));
        assert_eq!(!agrees(&image), shows, "{places:?}");
    }
    let mut image = line;
    for place in [100, 105, 106] {
        image[place] ^= 1;
    }
    assert!(agrees(&image));
}

/// What blocks are: so many bits, of which 0, d, 2d and so on are no data bits;
/// where the check of the block before is; and the multiples of which two hits
/// that hide lie apart.
struct Blocks {
    bits: usize,
    d: usize,
    check: fn(&[u8]) -> Vec<u8>,
    places: &'static [usize],
    hides: usize,
}

const E1_BLOCKS: Blocks = Blocks {
    bits: BLOCK,
    d: 512,
    check: |block| check(block).to_vec(),
    places: &PLACES,
    hides: 15,
};

const T1_BLOCKS: Blocks = Blocks {
    bits: t1::SUPERFRAME,
    d: t1::FRAME,
    check: |superframe| t1::check(superframe).to_vec(),
    places: &t1::CHECK,
    hides: 63,
};

impl Blocks {
    /// So many blocks of any bits, each with the check of the one before.
    fn agreeing(&self, r: &mut Random, count: usize) -> Vec<Vec<u8>> {
        let mut blocks: Vec<Vec<u8>> = Vec::new();
        for _ in 0..count {
            let mut block = bits(&r.octets(self.bits / 8));
            if let Some(before) = blocks.last() {
                for (place, bit) in self.places.iter().zip((self.check)(before)) {
                    block[*place] = bit;
                }
            }
            blocks.push(block);
        }
        blocks
    }

    /// Which of these blocks, all but the last, agree.
    fn agree(&self, blocks: &[Vec<u8>]) -> Vec<bool> {
        let carried = |block: &[u8]| -> Vec<u8> { self.places.iter().map(|p| block[*p]).collect() };
        let agrees = |pair: &[Vec<u8>]| (self.check)(&pair[0]) == carried(&pair[1]);
        blocks.windows(2).map(agrees).collect()
    }

    /// What a 1 at this place adds to the check of its block.
    fn share(&self, place: usize) -> u8 {
        let mut block = vec![0; self.bits];
        let none = number(&(self.check)(&block));
        block[place] = 1;
        none ^ number(&(self.check)(&block))
    }

    /// Every distance once, in a block and in the last one.
    fn two_hits(&self, seed: u64) {
        for distance in 1..=2_047 {
            let r = &mut Random::new(seed, distance as u64);
            let (count, what) = (r.between(2, 4), format!("distance {distance}"));
            let blocks = self.agreeing(r, count);
            let mut right = vec![true; count - 1];
            assert_eq!(self.agree(&blocks), right, "{what}");
            let mut agree_hit = |block: usize| {
                let i = two_bits(r, self.bits, self.d, distance)?;
                let mut blocks = blocks.clone();
                blocks[block][i] ^= 1;
                blocks[block][i + distance] ^= 1;
                Some(self.agree(&blocks))
            };
            let last = agree_hit(count - 1);
            let block = distance % (count - 1);
            let other = agree_hit(block);
            // Bit 0 is no data bit.
            if distance == self.bits - 1 {
                assert_eq!((last, other), (None, None));
                continue;
            }
            assert_eq!(last.as_ref(), Some(&right), "{what}, the last block");
            right[block] = distance % self.hides == 0;
            assert_eq!(other, Some(right), "{what}");
        }
    }

    /// How many pairs of data bits there are, and how many have the same share:
    /// those that hide, and no others.
    fn pairs(&self) -> (u64, u64) {
        let data: Vec<(usize, u8)> = (0..self.bits)
            .filter(|place| place % self.d != 0)
            .map(|place| (place, self.share(place)))
            .collect();
        let (mut all, mut same) = (0, 0);
        for (n, (j, share_j)) in data.iter().enumerate() {
            for (i, share_i) in &data[..n] {
                let alike = share_i == share_j;
                assert_eq!(alike, (j - i) % self.hides == 0, "bits {i} and {j}");
                all += 1;
                same += u64::from(alike);
            }
        }
        (all, same)
    }
}

/// Two hits in a block that agreed show but where they lie a multiple of 15
/// apart, on T1 of 63; in the last block none do.
#[test]
fn two_hits_in_the_words_of_the_paper() {
    let seed = seed("two hits in blocks of any bits, at every distance");
    E1_BLOCKS.two_hits(seed);
    T1_BLOCKS.two_hits(seed);
}

#[test]
fn pairs_with_the_same_share() {
    assert_eq!(E1_BLOCKS.pairs(), (2_087_946, 138_244));
    assert_eq!(T1_BLOCKS.pairs(), (10_614_528, 166_228));
}

/// What is heard of a line of which slot 16 is this, over and over, frame 0
/// first, with ABCD of the first signalling multiframe read.
fn heard(slots: &[u8; 16]) -> (Signals, [u8; 30]) {
    let mut image = line(4);
    for (f, slot) in (0..64).zip(slots.iter().cycle()) {
        set_slot16(&mut image, &[f], *slot);
    }
    let mut abcd = [0; 450];
    let s = signals(&image, &mut abcd);
    (s, abcd[..30].try_into().unwrap())
}

#[test]
fn an_idle_line_is_heard() {
    let mut slots = [0xDD; 16];
    slots[0] = 0x0B;
    let (s, abcd) = heard(&slots);
    assert_eq!((s.multiframes, s.first, s.losses, s.held), (3, 16, 0, 1));
    assert_eq!((s.x0, s.x1, s.x2, s.y), (1, 1, 1, 0));
    assert_eq!(abcd, [0b1101; 30]);
}

#[test]
fn the_known_trap() {
    let mut slots = [0; 16];
    slots[0] = 0x0B;
    let (s, abcd) = heard(&slots);
    // One frame late: the true frame 0 is taken for channels 15 and 30.
    assert_eq!((s.multiframes, s.first, s.losses, s.held), (3, 1, 0, 1));
    assert_eq!((abcd[14], abcd[29]), (0x0, 0xB));
    assert_eq!(abcd.iter().filter(|octet| **octet != 0).count(), 1);
}

#[test]
fn no_signal_is_heard() {
    for octet in [0x00, 0x10, 0xDD, 0xFF] {
        let (s, _) = heard(&[octet; 16]);
        assert_eq!((s.multiframes, s.first, s.losses, s.held), (0, 0, 0, 0));
        assert_eq!((s.x0, s.x1, s.x2, s.y), (1, 1, 1, 0));
    }
}

/// Slot 16 of the frames of an image that are used.
fn used_slots(image: &[u8], reading: &Reading) -> Vec<u8> {
    let bits = bits(image);
    let frame = |f: usize| reading.start as usize + f * FRAME;
    (0..16 * reading.used as usize)
        .map(|f| number(&bits[frame(f) + 128..frame(f) + 136]))
        .collect()
}

/// The frames at which alignment is taken, each with that of the loss.
fn alignments(slots: &[u8]) -> Vec<(usize, Option<usize>)> {
    let right = |f: usize| slots[f] < 16;
    let mut alignments = Vec::new();
    let mut from = 1;
    while let Some(taken) = (from..slots.len()).find(|&f| right(f) && slots[f - 1] != 0) {
        let loss = (taken + 32..slots.len())
            .step_by(16)
            .find(|&f| !right(f - 16) && !right(f));
        alignments.push((taken, loss));
        match loss {
            Some(f) => from = f + 1,
            None => break,
        }
    }
    alignments
}

/// What is said of signalling, of images as they may come.
#[test]
fn signalling_in_the_words_of_the_paper() {
    let seed = seed(&format!("{IMAGES} images, what is heard of them"));
    let (mut lost, mut twice) = (0, 0);
    for item in 0..IMAGES {
        let image = given::signalled(&mut Random::new(seed, item));
        let reading = read_all(&image);
        let mut abcd = [0; 450];
        let s = signals(&image, &mut abcd);
        assert_eq!(s.number, reading.number, "image {item}");
        if s.number != 0 {
            continue;
        }
        let slots = used_slots(&image, &reading);
        let alignments = alignments(&slots);
        let first = alignments.first().map_or(0, |(taken, _)| *taken);
        let losses = alignments.iter().filter(|(_, loss)| loss.is_some()).count();
        let held = alignments.len() > losses;
        assert_eq!(s.first, first as u64, "image {item}");
        assert_eq!(s.losses, losses as u64, "image {item}");
        assert_eq!(s.held, u64::from(held), "image {item}");

        let begins: Vec<usize> = alignments
            .iter()
            .flat_map(|(taken, loss)| (*taken..loss.unwrap_or(slots.len())).step_by(16))
            .filter(|f| f + 16 <= slots.len())
            .collect();
        assert_eq!(s.multiframes, begins.len() as u64, "image {item}");
        for (f, abcd) in begins.iter().zip(abcd.chunks(30)) {
            for i in 1..=15 {
                let slot = 16 * abcd[i - 1] + abcd[i + 14];
                assert_eq!(slot, slots[f + i], "image {item}");
            }
        }
        let xy = match begins.last() {
            Some(f) if held => u64::from(slots[*f] % 16),
            _ => 0b1011,
        };
        assert_eq!(8 * s.x0 + 4 * s.y + 2 * s.x1 + s.x2, xy, "image {item}");
        lost += u64::from(losses > 0);
        twice += u64::from(losses > 1);
    }
    assert!(lost >= IMAGES / 8 && twice >= IMAGES / 40, "{lost} {twice}");
}

/// After each chunk all used multiframes of the joined line have left, and its end
/// would answer what a reading of it does.
#[test]
fn chunks_in_the_words_of_the_paper() {
    let seed = seed(&format!("{IMAGES} images in chunks"));
    let mut several = 0;
    for item in 0..IMAGES {
        let r = &mut Random::new(seed, item);
        let image = given::image(r);
        let (mut stream, mut joined) = (Stream::start(), Vec::new());
        let (mut payload, mut slot0): (Vec<u8>, Vec<u8>) = (Vec::new(), Vec::new());
        let mut leaving = 0;
        for chunk in given::chunks(r, &image) {
            joined.extend(chunk);
            if joined.len() > 8_192 {
                break;
            }
            let most = chunk.len() / 512 + 4;
            let (mut out, mut out0) = (vec![0; 496 * most], vec![0; 16 * most]);
            let fed = stream.feed(chunk, &mut out, &mut out0);
            assert_eq!(fed.number, 0, "image {item}");
            payload.extend(&out[..496 * fed.multiframes as usize]);
            slot0.extend(&out0[..16 * fed.multiframes as usize]);

            let (mut read_payload, mut read_slot0) = ([0; 7_936], [0; 256]);
            let reading = read(&joined, &mut read_payload, &mut read_slot0);
            let used = reading.used as usize;
            assert!(payload == read_payload[..496 * used], "image {item}");
            assert!(slot0 == read_slot0[..16 * used], "image {item}");
            assert_eq!(stream.clone().end(), reading, "image {item}");
            leaving += u64::from(fed.multiframes > 0);
        }
        several += u64::from(leaving > 1);
    }
    assert!(several >= IMAGES / 8, "{several}");
}

/// What is written with signalling is what is written without, of a payload
/// with slot 16 replaced; and it is heard again from frame 16 on.
#[test]
fn signalling_is_heard_as_it_was_written() {
    let seed = seed(&format!(
        "{IMAGES} lines with signalling, written and heard"
    ));
    for item in 0..IMAGES {
        let r = &mut Random::new(seed, item);
        let (n, check) = (r.between(4, 16), r.below(16) as u64);
        let (mut payload, overhead) = (r.octets(496 * n), given::overhead(r, 8 * n));
        let (xy, abcd) = (r.numbers(n, 0, 15), r.numbers(30 * n, 1, 15));
        let mut line = vec![0; 512 * n];
        let written = write_signalled(&payload, &overhead, check, &xy, &abcd, &mut line);
        for (f, slot) in payload.iter_mut().skip(15).step_by(31).enumerate() {
            let channels = &abcd[30 * (f / 16)..];
            *slot = match f % 16 {
                0 => xy[f / 16],
                i => channels[i - 1] << 4 | channels[i + 14],
            };
        }
        let mut plain = vec![0; 512 * n];
        assert_eq!(write(&payload, &overhead, check, &mut plain), written);
        assert!(line == plain, "line {item}");

        let mut heard = vec![0; 30 * (n - 1)];
        let s = signals(&line, &mut heard);
        assert_eq!((s.number, s.multiframes), (0, n as u64 - 1), "line {item}");
        assert_eq!((s.first, s.losses, s.held), (16, 0, 1), "line {item}");
        assert!(heard == abcd[30..], "line {item}");
        let last = 8 * s.x0 + 4 * s.y + 2 * s.x1 + s.x2;
        assert_eq!(last, u64::from(xy[n - 1]), "line {item}");
    }
}

/// Frame f of a line that is read from this start on, as the rules of loss see it:
/// whether it is the third in a row by its word, and whether by its bit 2.
fn third_in_row(bits: &[u8], start: usize, f: usize) -> [bool; 2] {
    let slot0 = |f: usize| &bits[start + f * FRAME..start + f * FRAME + 8];
    let wrong_word = |f: usize| slot0(f)[1..] != WORD;
    let wrong_bit_2 = |f: usize| slot0(f)[1] == 0;
    let three = |wrong: &dyn Fn(usize) -> bool| [4, 2, 0].iter().all(|back| wrong(f - back));
    [
        f >= 4 && f % 2 == 0 && three(&wrong_word),
        f >= 4 && f % 2 == 1 && three(&wrong_bit_2),
    ]
}

/// The frame of loss by either rule, its cause, and how many multiframes are used.
fn loss_of(bits: &[u8], start: usize, whole: usize) -> (u64, u64, u64) {
    for f in 0..16 * whole {
        let cause = match third_in_row(bits, start, f) {
            [true, true] => panic!("frame {f} meets both"),
            [true, false] => 1,
            [false, true] => 2,
            [false, false] => continue,
        };
        return (f as u64, cause, f as u64 / 16);
    }
    (0, 0, whole as u64)
}

/// What is promised of the loss, of images as they may come.
#[test]
fn losses_in_the_words_of_the_paper() {
    let seed = seed(&format!("{IMAGES} images, where alignment is lost"));
    let (mut causes, mut words_alone) = ([0; 3], [0; 2]);
    for item in 0..IMAGES {
        let image = given::image(&mut Random::new(seed, item));
        let r = read_all(&image);
        if r.number != 0 {
            assert_eq!((r.lost, r.cause), (0, 0), "image {item}");
            continue;
        }
        let (start, whole) = (r.start as usize, r.whole as usize);
        let mut bits = bits(&image);
        let loss = loss_of(&bits, start, whole);
        assert_eq!((r.lost, r.cause, r.used), loss, "image {item}");
        causes[r.cause as usize] += 1;

        // With every bit 2 of the whole multiframes right, words alone.
        let words = (0..16 * whole).find(|&f| third_in_row(&bits, start, f)[0]);
        for f in (1..16 * whole).step_by(2) {
            bits[start + f * FRAME + 1] = 1;
        }
        let righted = read_all(&octets(&bits));
        if (righted.start, righted.whole) == (r.start, r.whole) {
            assert_eq!(righted.lost, words.unwrap_or(0) as u64, "image {item}");
            assert_eq!(righted.cause, u64::from(words.is_some()), "image {item}");
            words_alone[usize::from(r.cause == 2)] += 1;
        }
    }
    assert!(causes.iter().all(|&n| n >= IMAGES / 40), "{causes:?}");
    assert!(
        words_alone.iter().all(|&n| n >= IMAGES / 40),
        "{words_alone:?}"
    );
}

/// A line that was written has no loss.
#[test]
fn no_loss_in_what_was_written() {
    let seed = seed(&format!("{IMAGES} lines, written and read"));
    for item in 0..IMAGES {
        let r = &mut Random::new(seed, item);
        let n = r.between(4, 16);
        let (payload, overhead) = (r.octets(496 * n), given::overhead(r, 8 * n));
        let mut line = vec![0; 512 * n];
        write(&payload, &overhead, r.below(16) as u64, &mut line);
        let read = read_all(&line);
        assert_eq!((read.number, read.used), (0, n as u64), "line {item}");
        assert_eq!(
            (read.lost, read.cause, read.words),
            (0, 0, 0),
            "line {item}"
        );
    }
}

#[test]
fn wrong_bits_of_every_slot() {
    for slot in 0..=255_u8 {
        let ones = ((slot ^ 0b001_1011) & 0b111_1111).count_ones();
        assert_eq!(wrong_bits(&bits(&[slot]), 0), u64::from(ones));
    }
}

/// What is promised of `wordbits`, of images as they may come.
#[test]
fn wordbits_and_words() {
    let seed = seed(&format!("{IMAGES} images, words and their bits"));
    let mut one_more = 0;
    for item in 0..IMAGES {
        let r = &mut Random::new(seed, item);
        let mut image = given::image(r);
        let before = read_all(&image);
        assert!(before.words <= before.wordbits, "image {item}");
        assert!(before.wordbits <= 7 * before.words, "image {item}");
        assert_eq!(before.wordbits == 0, before.words == 0, "image {item}");
        if !turn_over_a_right_bit(r, &mut image, &before) {
            continue;
        }
        let after = read_all(&image);
        if (after.number, after.start, after.used) == (0, before.start, before.used) {
            assert_eq!(after.wordbits, before.wordbits + 1, "image {item}");
            one_more += 1;
        }
    }
    assert!(one_more >= IMAGES / 2, "{one_more}");
}

/// Turns over any bit of a used word, where that bit is right.
fn turn_over_a_right_bit(r: &mut Random, image: &mut [u8], reading: &Reading) -> bool {
    if reading.used == 0 {
        return false;
    }
    let (word, bit) = (r.below(8 * reading.used as usize), r.below(7));
    let place = reading.start as usize + 2 * word * FRAME + 1 + bit;
    let right = bits(image)[place] == WORD[bit];
    if right {
        flip(image, place);
    }
    right
}

fn refused(number: u64) -> Why {
    Why {
        number,
        ..Why::default()
    }
}

/// The place that is read from is the first of which `why` says that it stands,
/// and there is none where there is no reading. The place that goes with 15 is
/// then the first of which it says that there is no pair, and with 3 there is
/// none of these either.
#[test]
fn why_and_read() {
    let seed = seed(&format!("{IMAGES} images, every place asked about"));
    let (mut none, mut basic, mut late) = (0, 0, 0);
    for item in 0..IMAGES {
        let image = given::image(&mut Random::new(seed, item));
        let reading = read_all(&image);
        if [1, 2].contains(&reading.number) {
            assert_eq!(why(&image, 0), refused(reading.number), "image {item}");
            continue;
        }
        let bits = bits(&image);
        let first = |condition| {
            let said = |p: &usize| with_room(&bits, *p).condition == condition;
            (0..=bits.len() - 16_384).find(said)
        };
        if let Some(p) = first(0) {
            let said = why(&image, p as u64);
            assert_eq!(said, with_room(&bits, p), "image {item}");
            assert_eq!((reading.number, reading.place), (0, p as u64));
            assert_eq!(reading.start, reading.place + 512 * said.k);
            late += u64::from(p > 64);
        } else if let Some(p) = first(4) {
            assert_eq!(reading, basic_only(p), "image {item}");
            basic += 1;
        } else {
            assert_eq!(reading, refusal(3), "image {item}");
            none += 1;
        }
    }
    let counts = [none, basic, late];
    assert!(counts.iter().all(|&n| n >= IMAGES / 20), "{counts:?}");
}

/// Of an image one of three holds, and it is what is answered: a place stands;
/// none does, and one with room has basic alignment; none with room has.
#[test]
fn numbers_3_and_15_in_the_words_of_the_paper() {
    let seed = seed(&format!("{IMAGES} images, numbers 3 and 15"));
    let (mut three, mut others) = ([0; 3], [0; 4]);
    for item in 0..IMAGES {
        let image = given::image(&mut Random::new(seed, item));
        if image.len() < 2_048 || image.len() > 8_192 {
            continue;
        }
        let bits = bits(&image);
        let aligned = |p: &usize| aligned(&bits, *p) == [true; 3];
        let end = bits.len() - 16_383;
        let basic: Vec<usize> = (0..end).filter(aligned).collect();
        let stand = basic.iter().find(|p| least_k(&bits, **p).is_some());

        let reading = read_all(&image);
        let number = match (stand, basic.first()) {
            (Some(p), _) => {
                assert_eq!((reading.number, reading.place), (0, *p as u64));
                others[0] += u64::from(basic[0] < *p);
                0
            }
            (None, Some(p)) => {
                assert_eq!(reading, basic_only(*p), "image {item}");
                others[1] += u64::from(basic.len() > 1);
                others[2] += u64::from(p + 1 == end);
                1
            }
            (None, None) => {
                assert_eq!(reading, refusal(3), "image {item}");
                let without_room = (end..bits.len() - 520).any(|p| aligned(&p));
                others[3] += u64::from(without_room);
                2
            }
        };
        three[number] += 1;
    }
    assert!(three.iter().all(|&n| n >= IMAGES / 20), "{three:?}");
    // Each of these has had its share: basic alignment before the place that
    // stands, at several places, at the last with room, at none but without.
    assert!(others.iter().all(|&n| n >= IMAGES / 200), "{others:?}");
}

/// Of the five answers one holds, and it is the one that is given.
#[test]
fn why_in_the_words_of_the_paper() {
    let seed = seed(&format!("{IMAGES} images, what is said of 6 places"));
    let mut conditions = [0; 5];
    for item in 0..IMAGES {
        let given = given::asked(&mut Random::new(seed, item));
        let bits = bits(&given.image);
        for place in given.places {
            let room = u128::from(place) + 16_384 <= bits.len() as u128;
            let number = match given.image.len() {
                0..=2_047 => 1,
                2_048..=8_192 if room => 0,
                2_048..=8_192 => 14,
                _ => 2,
            };
            let said = why(&given.image, place);
            assert_eq!(said.number, number, "image {item}, place {place}");
            if number == 0 {
                holds(&bits, place as usize, &said);
                conditions[said.condition as usize] += 1;
            } else {
                assert_eq!(said, refused(number), "image {item}, place {place}");
            }
        }
    }
    assert!(conditions.iter().all(|&n| n >= 200), "{conditions:?}");
}

/// The three parts of basic alignment at p, which hold and which do not.
fn aligned(bits: &[u8], p: usize) -> [bool; 3] {
    let (first, second) = (&bits[p + 1..p + 8], &bits[p + 513..p + 520]);
    [first == WORD, bits[p + 257] == 1, second == WORD]
}

/// The least k of p, which has room.
fn least_k(bits: &[u8], p: usize) -> Option<usize> {
    let marks: Vec<u8> = (0..32).map(|k| bits[p + 256 + 512 * k]).collect();
    let signal = |k: usize| marks.get(k..k + 6) == Some(&SIGNAL);
    let pair = |k: &usize| signal(*k) && [8, 16, 24].iter().any(|later| signal(k + later));
    (0..32).find(pair)
}

/// What is said of the place p, held to its bits.
fn holds(bits: &[u8], p: usize, said: &Why) {
    assert!(bits.len() - p >= 16_384);
    let (aligned, k) = (aligned(bits, p), least_k(bits, p));

    let five = [
        aligned == [true; 3] && k.is_some(),
        !aligned[0],
        aligned[..2] == [true, false],
        aligned == [true, true, false],
        aligned == [true; 3] && k.is_none(),
    ];
    let held: Vec<usize> = (0..5).filter(|i| five[*i]).collect();
    assert_eq!(held, [said.condition as usize], "place {p}");

    let least = if said.condition == 0 { k.unwrap() } else { 0 };
    assert_eq!(said.k, least as u64, "place {p}");
    let word = match said.condition {
        1 => p + 1,
        3 => p + 513,
        _ => return assert_eq!(said.bit, 0, "place {p}"),
    };
    let right = said.bit as usize - word;
    assert_eq!(bits[word..word + right], WORD[..right], "place {p}");
    assert_ne!(bits[word + right], WORD[right], "place {p}");
}

#[test]
fn a_line_reads_as_it_was_written() {
    let payload: Vec<u8> = (0..496 * 5).map(|i| (3 * i) as u8).collect();
    let mut image = [0; 512 * 5];
    write(&payload, &[0; 40], 9, &mut image);
    let (mut read_back, mut slot0) = ([0; 496 * 5], [0; 80]);
    let r = read(&image, &mut read_back, &mut slot0);
    assert_eq!((r.number, r.used, r.errored, r.farend), (0, 5, 0, 10));
    assert_eq!(read_back.as_slice(), payload);
    assert!((0..80).all(|f| slot0[f] == image[32 * f]));
}
