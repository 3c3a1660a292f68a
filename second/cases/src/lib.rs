//! The further bench cases, one line of text a call. `CASES.md` says each in
//! words; the kit's own cases program prints the same text.

#![forbid(unsafe_code)]

mod chunks;
mod hits;
mod t1;

use chunks::chunks;
use given::making::{
    flip, set_basic, set_slot16, shifted, wrong_bits_2, wrong_signals, wrong_words,
};
use hits::two_hits;
use oracle::line::octets;
use oracle::{read, signals, why, write, write_signalled, Exchange, Reading};
use std::fmt::Write;
use t1::t1;

/// What every lent octet holds before a call.
const BEFORE: u8 = 170;

/// The text of all cases.
pub fn all() -> String {
    let mut text = String::new();
    lengths(&mut text);
    places(&mut text);
    losses(&mut text);
    losses_by_bits_2(&mut text);
    losses_by_either(&mut text);
    words(&mut text);
    blocks(&mut text);
    far_ends(&mut text);
    basics(&mut text);
    outputs(&mut text);
    chunks(&mut text);
    whys(&mut text);
    heard(&mut text);
    alignments(&mut text);
    wrongs(&mut text);
    agains(&mut text);
    xs_and_ys(&mut text);
    used(&mut text);
    used_by_bits_2(&mut text);
    abcds(&mut text);
    writes(&mut text);
    rows(&mut text);
    signalled_writes(&mut text);
    runs(&mut text);
    t1(&mut text);
    two_hits(&mut text);
    text
}

/// The sum of octet i times i + 1, modulo 65,521.
fn digest(octets: &[u8]) -> u64 {
    let mut sum = 0;
    for (i, octet) in octets.iter().enumerate() {
        sum += (i as u64 + 1) * u64::from(*octet);
    }
    sum % 65_521
}

fn payload(octets: usize) -> Vec<u8> {
    (0..octets).map(|i| (7 * i + 5 * (i / 31)) as u8).collect()
}

/// Every bit that may be 1 is at times 1; E is always.
fn overhead(octets: usize) -> Vec<u8> {
    let e = |j: usize| if j % 8 >= 6 { 64 } else { 0 };
    (0..octets)
        .map(|j| ((5 * j + 31) % 64 + e(j)) as u8)
        .collect()
}

fn line_of(payload: &[u8], overhead: &[u8]) -> Vec<u8> {
    let mut line = vec![0; payload.len() / 496 * 512];
    write(payload, overhead, 5, &mut line);
    line
}

fn line(n: usize) -> Vec<u8> {
    line_of(&payload(496 * n), &overhead(8 * n))
}

fn xy(octets: usize) -> Vec<u8> {
    (0..octets).map(|m| ((5 * m + 11) % 16) as u8).collect()
}

fn abcd(octets: usize) -> Vec<u8> {
    let of = |i: usize| 1 + (7 * i + 3 * (i / 30)) % 15;
    (0..octets).map(|i| of(i) as u8).collect()
}

fn signalled(n: usize) -> Vec<u8> {
    let (payload, overhead) = (payload(496 * n), overhead(8 * n));
    let mut line = vec![0; 512 * n];
    write_signalled(&payload, &overhead, 5, &xy(n), &abcd(30 * n), &mut line);
    line
}

fn read_into(text: &mut String, label: &str, image: &[u8], room: usize, room0: usize) {
    let (mut payload, mut slot0) = (vec![BEFORE; room], vec![BEFORE; room0]);
    let r = read(image, &mut payload, &mut slot0);
    write!(text, "{label}: ").unwrap();
    write_values(text, &r);
    let (payload, slot0) = (digest(&payload), digest(&slot0));
    writeln!(text, " payload {payload} slot0 {slot0}").unwrap();
}

fn write_values(text: &mut String, r: &Reading) {
    write!(text, "{} place {}", r.number, r.place).unwrap();
    write!(text, " start {} whole {}", r.start, r.whole).unwrap();
    write!(text, " used {} lost {}", r.used, r.lost).unwrap();
    write!(text, " words {} compared {}", r.words, r.compared).unwrap();
    write!(text, " errored {} farend {}", r.errored, r.farend).unwrap();
    write!(text, " wordbits {} cause {}", r.wordbits, r.cause).unwrap();
}

/// Turns over the bits at these places.
fn hit(image: &mut [u8], places: &[usize]) {
    for place in places {
        flip(image, *place);
    }
}

/// With room for all that any image holds.
fn read_case(text: &mut String, label: &str, image: &[u8]) {
    read_into(text, label, image, 7_936, 256);
}

fn lengths(text: &mut String) {
    read_case(text, "9 short", &[0; 2_047]);
    read_case(text, "9 zeros", &[0; 2_048]);
    read_case(text, "9 ones", &[255; 2_048]);
    read_case(text, "9 good", &line(16));
    let mut long = line(16);
    long.push(0);
    read_case(text, "9 long", &long);
}

fn places(text: &mut String) {
    read_case(text, "10", &shifted(&line(4), 1));

    for front in [0, 1, 2, 3, 4, 5, 6, 7, 61] {
        let image = shifted(&line(4), front);
        read_case(text, &format!("shift {front}"), &image);
    }

    read_case(text, "k 7", &unsignalled(5, &[], 64));
    read_case(text, "k 8", &unsignalled(4, &[0], 0));
    read_case(text, "k 15", &unsignalled(5, &[1], 64));
    read_case(text, "apart 16", &unsignalled(4, &[1, 3], 0));
    read_case(text, "apart 24", &unsignalled(4, &[1, 2], 0));
    read_case(text, "apart none", &unsignalled(4, &[1, 2, 3], 0));
    read_case(text, "apart too far", &unsignalled(5, &[2, 3], 64));

    read_case(text, "no room", &shifted(&line(4), 1)[..2_048]);
    read_case(text, "false place", &false_place());
}

/// A line with the signals of these multiframes wrong, without its first
/// octets.
fn unsignalled(n: usize, multiframes: &[usize], without: usize) -> Vec<u8> {
    let mut image = line(n);
    wrong_signals(&mut image, multiframes);
    image.split_off(without)
}

/// Place 0 is that of slot 1 of a frame: words and bit 2, but no signal.
fn false_place() -> Vec<u8> {
    with_false_place().split_off(1)
}

/// A line in which that is place 8.
fn with_false_place() -> Vec<u8> {
    let mut payload = payload(496 * 5);
    payload[0] = 0x1B;
    payload[31] = 0x40;
    payload[62] = 0x1B;
    line_of(&payload, &overhead(40))
}

fn losses(text: &mut String) {
    let mut lost = |label: &str, frames: &[usize]| {
        let mut image = line(4);
        wrong_words(&mut image, frames);
        read_case(text, label, &image);
    };
    lost("11", &[28, 30, 32]);
    lost("12", &[]);
    lost("loss first", &[4, 6, 8]);
    lost("loss last", &[58, 60, 62]);
    lost("loss of four", &[28, 30, 32, 34]);
    lost("loss twice", &[28, 30, 32, 44, 46, 48]);
    lost("no loss", &[40, 42, 46, 60, 62]);

    let mut image = line(5);
    wrong_words(&mut image, &[16, 18, 20]);
    read_case(text, "loss at 4", &image[64..]);

    let mut image = line(5);
    wrong_words(&mut image, &[12, 14, 16]);
    read_case(text, "loss before", &image[64..]);
}

/// A line with these words wrong, and bits 2 of these frames.
fn unaligned(n: usize, words: &[usize], bits_2: &[usize]) -> Vec<u8> {
    let mut image = line(n);
    wrong_words(&mut image, words);
    wrong_bits_2(&mut image, bits_2);
    image
}

fn losses_by_bits_2(text: &mut String) {
    let mut lost = |label: &str, frames: &[usize]| {
        read_case(text, label, &unaligned(4, &[], frames));
    };
    lost("19 bits 2", &[3, 5, 7]);
    lost("bits 2 of one", &[21]);
    lost("bits 2 of two", &[21, 23]);
    lost("bits 2 of four", &[21, 23, 25, 27]);
    lost("bits 2 of eight", &[17, 19, 21, 23, 25, 27, 29, 31]);
    lost("bits 2 twice", &[21, 23, 25, 41, 43, 45]);
    lost("bits 2 apart", &[21, 23, 27, 29, 33, 35]);
    lost("bits 2 every other", &[19, 23, 27, 31, 35, 39, 43]);
    for end in [31, 33, 35, 37] {
        let label = format!("bits 2 up to {end}");
        lost(&label, &[end - 4, end - 2, end]);
    }
    lost("bits 2 last", &[59, 61, 63]);
    lost("bits 2 last two", &[61, 63]);
    lost("bits 2 of words", &[20, 22, 24]);

    let mut of_five = |label: &str, frames: &[usize], from: usize, to: usize| {
        let image = unaligned(5, &[], frames);
        read_case(text, label, &image[from..to]);
    };
    of_five("19 at 5", &[17, 19, 21], 448, 2_560);
    of_five("bits 2 before", &[13, 15, 17], 64, 2_560);
    of_five("bits 2 from before on", &[15, 17, 19, 21], 64, 2_560);
    of_five("bits 2 past the end", &[61, 63, 65], 0, 2_304);

    for front in 0..8 {
        let image = unaligned(4, &[], &[29, 31, 33]);
        let label = format!("bits 2 shift {front}");
        read_case(text, &label, &shifted(&image, front));
    }
    let places = [5_376, 5_378, 5_888, 5_890, 6_400, 6_402];
    read_case(text, "bits 1 and 3", &hit_line(&places));
}

fn losses_by_either(text: &mut String) {
    let mut lost = |label: &str, words: &[usize], bits_2: &[usize]| {
        read_case(text, label, &unaligned(4, words, bits_2));
    };
    lost("19 words first", &[20, 22, 24], &[21, 23, 25]);
    lost("19 bits 2 first", &[20, 22, 24], &[19, 21, 23]);
    lost("both of two", &[20, 22], &[21, 23]);
    lost("both and a right word", &[20, 22], &[21, 23, 25]);
    lost("both and a right bit 2", &[20, 22, 24], &[19, 21]);
    lost("both and right ones", &[20, 22, 26, 28], &[21, 23, 27, 29]);
    lost("both words through", &[28, 30, 32], &[29, 33]);
    lost("both bits 2 through", &[28, 32], &[29, 31, 33]);
    lost("both words earlier", &[20, 22, 24], &[53, 55, 57]);
    lost("both bits 2 earlier", &[52, 54, 56], &[21, 23, 25]);
    lost("both over the end", &[28, 30, 32], &[27, 29, 33]);
    lost("both words last", &[58, 60, 62], &[59, 61, 63]);
    lost("both bits 2 last", &[60, 62], &[59, 61, 63]);
    lost("both counted", &[18, 36, 38], &[19, 37, 39, 41]);
}

fn words(text: &mut String) {
    // These words are wrong, and these bits of the line are hit.
    let mut wrong = |label: &str, frames: &[usize], places: &[usize]| {
        let mut image = line(4);
        wrong_words(&mut image, frames);
        hit(&mut image, places);
        read_case(text, label, &image);
    };
    let word_20: Vec<usize> = (5_121..=5_127).collect();
    let word_24: Vec<usize> = (6_145..=6_151).collect();
    let word_40: Vec<usize> = (10_241..=10_247).collect();
    wrong("13", &[20], &word_24);
    for n in 0..=7 {
        wrong(&format!("word bits {n}"), &[], &word_20[..n]);
    }
    for bit in 2..=8 {
        wrong(&format!("word bit {bit}"), &[], &[5_119 + bit]);
    }
    wrong("word and check", &[], &[5_120, 5_121]);
    wrong("loss by single bits", &[], &[7_169, 7_684, 8_199]);
    wrong("bits before the loss", &[32, 34, 36], &word_20[..3]);
    wrong("bits past the loss", &[28, 30, 32], &word_40);
}

fn blocks(text: &mut String) {
    let mut block = |label: &str, places: &[usize]| {
        let mut image = line(4);
        hit(&mut image, places);
        read_case(text, label, &image);
    };
    block("data of block 2", &[4_200]);
    block("last bit of block 0", &[2_047]);
    block("check of block 2", &[4_096]);
    block("check of block 0", &[0, 512, 1_024, 1_536]);
    block("data of block 7", &[16_383]);
    block("four bits", &[4_200, 4_201, 4_202, 4_203]);
    block("five bits", &[4_200, 4_203, 4_204]);
    block("two blocks", &[4_200, 6_300, 6_301]);
}

fn far_ends(text: &mut String) {
    // The E bits of these overhead octets are 0, these words are wrong, and
    // these bits of the line are hit.
    let mut far = |label: &str, octets: &[usize], frames: &[usize], places: &[usize]| {
        let mut overhead = overhead(32);
        for j in octets {
            overhead[*j] -= 64;
        }
        let mut image = line_of(&payload(496 * 4), &overhead);
        wrong_words(&mut image, frames);
        hit(&mut image, places);
        read_case(text, label, &image);
    };
    far("15 errored", &[14, 15], &[], &[6_300]);
    far("15 one used", &[6, 7], &[20, 22, 24], &[]);
    far("far clean", &[14, 15], &[], &[]);
    far("far first errored", &[14, 15], &[], &[4_200]);
    far("far last", &[30, 31], &[], &[]);
    far("far all", &[6, 7, 14, 15, 22, 23, 30, 31], &[], &[]);
    far("far 13", &[14], &[], &[]);
    far("far 15", &[15], &[], &[]);
    far("far received", &[14, 15], &[], &[3_328]);
    far("far past the loss", &[14, 15], &[20, 22, 24], &[]);
    far("far none used", &[6, 7], &[4, 6, 8], &[]);
}

/// So many octets 0, with basic alignment set at these places.
fn set(count: usize, places: &[usize]) -> Vec<u8> {
    let mut bits = vec![0; 8 * count];
    for place in places {
        set_basic(&mut bits, *place);
    }
    octets(&bits)
}

fn basics(text: &mut String) {
    let none = unsignalled(4, &[0, 1, 2, 3], 0);
    read_case(text, "16 signals", &none);
    read_case(text, "16 in front", &shifted(&none, 8));
    read_case(text, "16 set at 0", &set(2_048, &[0]));
    read_case(text, "16 set at 1", &set(2_048, &[1]));

    for front in 0..8 {
        let label = format!("basic shift {front}");
        read_case(text, &label, &shifted(&none, front));
    }
    let all: Vec<usize> = (0..16).collect();
    read_case(text, "basic line of 16", &unsignalled(16, &all, 0));
    read_case(text, "basic cut", &unsignalled(5, &all[..5], 37));
    read_case(text, "basic first signal", &unsignalled(8, &all[1..8], 0));
    read_case(text, "basic in noise", &basic_in_noise());

    let mut at = |label: &str, count: usize, places: &[usize]| {
        read_case(text, label, &set(count, places));
    };
    at("basic last of 2049", 2_049, &[8]);
    at("basic past 2049", 2_049, &[9]);
    at("basic last of 8192", 8_192, &[49_152]);
    at("basic past 8192", 8_192, &[49_153]);
    at("basic far past 8192", 8_192, &[64_000]);
    at("basic first of two", 2_304, &[1_000, 77]);
    at("basic two in a row", 2_304, &[13, 3]);
    at("basic first of three", 8_192, &[49_152, 30_003, 20_015]);
    at("basic with room", 2_304, &[2_056, 2_040]);

    read_case(text, "basic and stands", &unsignalled(8, &all[..4], 0));
}

/// Every word of the line is wrong, and slot 22 of frames 9 to 11 has basic
/// alignment.
fn basic_in_noise() -> Vec<u8> {
    let mut payload = payload(496 * 5);
    payload[300] = 0x1B;
    payload[331] = 0x40;
    payload[362] = 0x1B;
    let mut image = line_of(&payload, &overhead(40));
    let even: Vec<usize> = (0..80).step_by(2).collect();
    wrong_words(&mut image, &even);
    image
}

fn outputs(text: &mut String) {
    let image = line(4);
    read_into(text, "out exact", &image, 1_984, 64);
    read_into(text, "out payload short", &image, 1_983, 64);
    read_into(text, "out slot0 short", &image, 1_984, 63);
    read_into(text, "out longer", &image, 1_985, 65);
    read_into(text, "out none", &image, 0, 0);

    let mut image = line(4);
    wrong_words(&mut image, &[4, 6, 8]);
    read_into(text, "out none needed", &image, 0, 0);
    let image = unaligned(4, &[], &[3, 5, 7]);
    read_into(text, "out none needed of bits 2", &image, 0, 0);
    let image = unaligned(4, &[], &[37, 39, 41]);
    read_into(text, "out exact of bits 2", &image, 992, 32);
    read_into(text, "out short of bits 2", &image, 991, 32);

    read_into(text, "order 1", &[], 0, 0);
    read_into(text, "order 2", &[0; 8_193], 0, 0);
    read_into(text, "order 3", &[0; 2_048], 0, 0);

    let none = unsignalled(4, &[0, 1, 2, 3], 0);
    read_into(text, "order 15", &none, 0, 0);
    read_into(text, "order 1 of basic", &none[..2_047], 0, 0);
    read_into(text, "order 2 of basic", &set(8_193, &[0]), 0, 0);
    read_into(text, "order 3 of basic", &set(2_048, &[1]), 0, 0);
}

fn why_case(text: &mut String, label: &str, image: &[u8], place: u64) {
    let w = why(image, place);
    write!(text, "{label}: {} condition {}", w.number, w.condition).unwrap();
    writeln!(text, " k {} bit {}", w.k, w.bit).unwrap();
}

/// A line of four multiframes with these bits hit.
fn hit_line(places: &[usize]) -> Vec<u8> {
    let mut image = line(4);
    hit(&mut image, places);
    image
}

fn whys(text: &mut String) {
    let no_pair = unsignalled(4, &[1, 2, 3], 0);
    why_case(text, "14 stands", &line(4), 0);
    why_case(text, "14 first word", &hit_line(&[5, 7]), 0);
    why_case(text, "14 bit 2", &hit_line(&[257, 514]), 0);
    why_case(text, "14 second word", &hit_line(&[514]), 0);
    why_case(text, "14 no pair", &no_pair, 0);
    why_case(text, "14 refused", &line(4), 1);

    for (what, image) in [
        ("stands", line(4)),
        ("first word", hit_line(&[3, 6])),
        ("bit 2", hit_line(&[257])),
        ("second word", hit_line(&[516, 519])),
        ("no pair", no_pair.clone()),
    ] {
        for front in 0..8 {
            let label = format!("why {what} {front}");
            why_case(text, &label, &shifted(&image, front), front as u64);
        }
    }

    for bit in 2..=8 {
        let label = format!("why bit {bit} of the first");
        why_case(text, &label, &hit_line(&[bit - 1]), 0);
    }
    for bit in 2..=8 {
        let label = format!("why bit {bit} of the second");
        why_case(text, &label, &hit_line(&[511 + bit]), 0);
    }
    for bit in 2..=8 {
        let label = format!("why from bit {bit} on");
        let places: Vec<usize> = (bit - 1..=7).collect();
        why_case(text, &label, &hit_line(&places), 0);
    }
    why_case(text, "why check bits", &hit_line(&[0, 512]), 0);
    let mut image = no_pair;
    hit(&mut image, &[1, 257, 513]);
    why_case(text, "why all wrong", &image, 0);
    why_case(text, "why zeros", &[0; 2_048], 0);
    why_case(text, "why ones", &[255; 2_048], 0);
    why_case(text, "why false place", &false_place(), 0);
    why_case(text, "why past it", &false_place(), 504);
    why_case(text, "why odd frame", &line(5), 256);

    let mut signals = |label: &str, n: usize, multiframes: &[usize], without: usize| {
        why_case(text, label, &unsignalled(n, multiframes, without), 0);
    };
    signals("why k 7", 5, &[], 64);
    signals("why k 8", 4, &[0], 0);
    signals("why k 15", 5, &[1], 64);
    signals("why k 18", 5, &[1, 2], 384);
    signals("why no k past 18", 6, &[1, 2, 3], 384);
    signals("why apart 16", 4, &[1, 3], 0);
    signals("why apart 24", 4, &[1, 2], 0);
    signals("why too far", 5, &[2, 3], 64);

    why_case(text, "why last of 2048", &line(4), 0);
    why_case(text, "why past 2048", &line(4), 1);
    why_case(text, "why last of 2049", &shifted(&line(4), 5), 8);
    why_case(text, "why past 2049", &shifted(&line(4), 5), 9);
    let most = line(16);
    why_case(text, "why last of 8192", &most, 49_152);
    why_case(text, "why past 8192", &most, 49_153);
    why_case(text, "why end of 8192", &most, 65_536);
    why_case(text, "why 2 to the 32", &most, 1 << 32);
    why_case(text, "why 2 to the 61", &most, 1 << 61);
    why_case(text, "why 2 to the 63", &most, 1 << 63);
    why_case(text, "why 16384 below", &most, u64::MAX - 16_383);
    why_case(text, "why most", &most, u64::MAX);
    why_case(text, "why order 1", &[0; 2_047], u64::MAX);
    why_case(text, "why order 2", &[0; 8_193], u64::MAX);
    why_case(text, "why short", &most[..2_047], 0);
    let mut long = most;
    long.push(0);
    why_case(text, "why long", &long, 0);
}

fn signals_into(text: &mut String, label: &str, image: &[u8], room: usize) {
    let mut abcd = vec![BEFORE; room];
    let s = signals(image, &mut abcd);
    write!(text, "{label}: {} multiframes {}", s.number, s.multiframes).unwrap();
    write!(text, " first {} losses {}", s.first, s.losses).unwrap();
    write!(text, " held {} x0 {} x1 {}", s.held, s.x0, s.x1).unwrap();
    write!(text, " x2 {} y {}", s.x2, s.y).unwrap();
    writeln!(text, " abcd {}", digest(&abcd)).unwrap();
}

/// With room for all that any image holds.
fn signals_case(text: &mut String, label: &str, image: &[u8]) {
    signals_into(text, label, image, 450);
}

fn heard(text: &mut String) {
    for n in [4, 5, 16] {
        signals_case(text, &format!("heard {n}"), &signalled(n));
    }
    for front in [0, 1, 2, 3, 4, 5, 6, 7, 61] {
        let image = shifted(&signalled(4), front);
        signals_case(text, &format!("heard front {front}"), &image);
    }
    signals_case(text, "heard cut", &signalled(5)[64..]);
    let mut image = signalled(5);
    wrong_signals(&mut image, &[0]);
    signals_case(text, "heard k 8", &image);
    signals_case(text, "heard rest", &signalled(5)[..2_528]);
    signals_case(text, "heard short", &signalled(16)[..2_047]);
    let mut long = signalled(16);
    long.push(0);
    signals_case(text, "heard long", &long);
    signals_case(text, "heard in payload", &line(4));
    signals_case(text, "heard in payload 16", &line(16));
}

/// A line with signalling in which slot 16 of these frames is changed.
fn heard_line(n: usize, slots: &[(u8, &[usize])]) -> Vec<u8> {
    let mut image = signalled(n);
    for (octet, frames) in slots {
        set_slot16(&mut image, frames, *octet);
    }
    image
}

/// Every 16th frame from this one on, of n multiframes.
fn sixteenths(n: usize, first: usize) -> Vec<usize> {
    (first..16 * n).step_by(16).collect()
}

/// The first alignment taken is at this frame, where there are so many left.
fn taken_at(first: usize) -> Vec<u8> {
    heard_line(4, &[(221, &sixteenths(4, 0)), (4, &sixteenths(4, first))])
}

fn alike(octet: u8) -> Vec<u8> {
    let all: Vec<usize> = (0..64).collect();
    heard_line(4, &[(octet, &all)])
}

fn alignments(text: &mut String) {
    let with_signals = |octet| {
        let mut image = alike(octet);
        set_slot16(&mut image, &sixteenths(4, 0), 11);
        image
    };
    let mut idle = with_signals(221);
    signals_case(text, "18 idle", &idle);
    signals_case(text, "18 late", &with_signals(0));
    set_slot16(&mut idle, &[32], 27);
    signals_case(text, "18 one wrong", &idle);
    set_slot16(&mut idle, &[48], 27);
    signals_case(text, "18 two wrong", &idle);
    set_slot16(&mut idle, &[49], 11);
    signals_case(text, "18 again", &idle);
    for octet in [0, 11, 16, 221, 255] {
        signals_case(text, &format!("all {octet}"), &alike(octet));
    }
    let channels: Vec<usize> = (17..64).filter(|f| f % 16 != 0).collect();
    signals_case(text, "trap not met", &heard_line(4, &[(0, &channels)]));

    for first in [0, 1, 2, 15, 16, 17, 47, 48, 49, 63] {
        signals_case(text, &format!("taken at {first}"), &taken_at(first));
    }

    let front: Vec<usize> = (0..16).collect();
    for bit in 1..=8 {
        let image = heard_line(4, &[(0, &front), (1 << (8 - bit), &[15])]);
        signals_case(text, &format!("lone bit {bit}"), &image);
    }
    signals_case(text, "no bit before", &heard_line(4, &[(0, &front)]));
}

fn wrongs(text: &mut String) {
    let mut wrong = |label: &str, frames: &[usize], octet: u8| {
        signals_case(text, label, &heard_line(8, &[(octet, frames)]));
    };
    wrong("wrong one", &[48], 221);
    wrong("wrong two", &[48, 64], 221);
    wrong("wrong three", &[48, 64, 80], 221);
    wrong("wrong four", &[48, 64, 80, 96], 221);
    wrong("wrong apart", &[48, 80], 221);
    wrong("wrong every other", &[32, 64, 96], 221);
    wrong("wrong at once", &[32, 48], 221);
    wrong("wrong twice", &[32, 48, 80, 96], 221);
    for bit in 1..=4 {
        wrong(&format!("wrong bit {bit}"), &[48, 64], 1 << (8 - bit));
    }
    wrong("wrong none", &[48, 64], 15);
    wrong("wrong last", &[112], 221);
    wrong("wrong last two", &[96, 112], 221);
    for octet in [16, 31, 242] {
        wrong(&format!("wrong last {octet}"), &[112], octet);
    }

    let mut at_15 = |label: &str, right: &[usize]| {
        let image = heard_line(4, &[(221, &sixteenths(4, 0)), (4, right)]);
        signals_case(text, label, &image);
    };
    at_15("wrong last frame", &[15, 31, 47]);
    at_15("loss last frame", &[15, 31]);
}

fn agains(text: &mut String) {
    let mut again = |label: &str, slots: &[(u8, &[usize])]| {
        signals_case(text, label, &heard_line(8, slots));
    };
    again("again next", &[(221, &[48, 64]), (11, &[65])]);
    again(
        "again next kept",
        &[(221, &[48, 64]), (4, &sixteenths(8, 65))],
    );
    again("again later", &[(221, &[48, 64]), (4, &sixteenths(8, 70))]);
    again("again after one bit", &[(16, &[48, 64]), (0, &[65])]);
    let zeros: Vec<usize> = (65..80).collect();
    again("again in zeros", &[(221, &[48, 64]), (0, &zeros)]);
    again("again unread", &[(213, &[96]), (221, &[112]), (11, &[120])]);

    again("false start", &[(13, &[5])]);
    again("false start at 1", &[(13, &[1])]);
    again("false start early", &[(0, &[4]), (13, &[5])]);
    again("false start kept", &[(13, &sixteenths(8, 5))]);
    again("false start not met", &[(13, &[21, 37])]);

    let mut most = |label: &str, slots: &[(u8, &[usize])]| {
        signals_case(text, label, &heard_line(16, slots));
    };
    let before: Vec<usize> = (16..240).step_by(16).collect();
    most("false start of 16", &[(13, &[239]), (221, &before)]);
    most("most read", &[(9, &sixteenths(16, 1))]);
    let starts: Vec<usize> = (1..256).step_by(33).collect();
    most("most losses", &[(13, &starts)]);
}

fn xs_and_ys(text: &mut String) {
    for octet in [0, 1, 2, 4, 8, 15] {
        let image = heard_line(4, &[(octet, &[48])]);
        signals_case(text, &format!("x and y {octet}"), &image);
    }
    let mut image = taken_at(15);
    set_slot16(&mut image, &[63], 11);
    signals_case(text, "x and y of a whole one", &image);
}

/// A line with signalling with these words wrong.
fn unworded(n: usize, frames: &[usize]) -> Vec<u8> {
    let mut image = signalled(n);
    wrong_words(&mut image, frames);
    image
}

fn used(text: &mut String) {
    signals_case(text, "used none", &unworded(4, &[4, 6, 8]));
    signals_case(text, "used one", &unworded(4, &[20, 22, 24]));
    for first in [1, 15] {
        let mut image = unworded(4, &[20, 22, 24]);
        set_slot16(&mut image, &[first], 4);
        signals_case(text, &format!("used one at {first}"), &image);
    }
    signals_case(text, "used two", &unworded(5, &[36, 38, 40]));
    let mut four = |label: &str, frames: &[usize]| {
        let mut image = unworded(8, &[68, 70, 72]);
        set_slot16(&mut image, frames, 221);
        signals_case(text, label, &image);
    };
    four("used four wrong past", &[48, 64]);
    four("used four wrong in", &[32, 48]);
}

fn used_by_bits_2(text: &mut String) {
    // These words are wrong, and bits 2 of these frames.
    let unaligned = |n: usize, words: &[usize], bits_2: &[usize]| {
        let mut image = unworded(n, words);
        wrong_bits_2(&mut image, bits_2);
        image
    };
    let mut used = |label: &str, words: &[usize], bits_2: &[usize]| {
        signals_case(text, label, &unaligned(8, words, bits_2));
    };
    used("used none by bits 2", &[], &[3, 5, 7]);
    used("used one by bits 2", &[], &[21, 23, 25]);
    used("used four by bits 2", &[], &[67, 69, 71]);
    used("used over the end", &[], &[61, 63, 65]);
    used("used last by bits 2", &[], &[123, 125, 127]);
    used("used all by bits 2", &[], &[67, 69, 73, 75]);
    used("used words first", &[52, 54, 56], &[67, 69, 71]);
    used("used bits 2 first", &[68, 70, 72], &[51, 53, 55]);
    used("used a right word", &[68, 70], &[69, 71, 73]);
    used("used a right bit 2", &[68, 70, 72], &[67, 69]);
    used("used right ones", &[68, 70, 74, 76], &[69, 71, 75, 77]);
    for front in 0..8 {
        let image = unaligned(4, &[], &[45, 47, 49]);
        let label = format!("used front {front}");
        signals_case(text, &label, &shifted(&image, front));
    }
    let two = unaligned(4, &[], &[37, 39, 41]);
    signals_into(text, "used abcd exact", &two, 30);
    signals_into(text, "used abcd short", &two, 29);
}

fn abcds(text: &mut String) {
    signals_into(text, "abcd exact", &signalled(4), 90);
    signals_into(text, "abcd short", &signalled(4), 89);
    signals_into(text, "abcd longer", &signalled(4), 91);
    signals_into(text, "abcd none", &signalled(4), 0);
    signals_into(text, "abcd most short", &signalled(16), 449);
    signals_into(text, "abcd most longer", &signalled(16), 512);
    let two = heard_line(8, &[(221, &sixteenths(8, 32))]);
    signals_into(text, "abcd of two exact", &two, 60);
    signals_into(text, "abcd of two short", &two, 59);
    signals_into(text, "abcd none used", &unworded(4, &[4, 6, 8]), 0);
    signals_into(text, "abcd none heard", &alike(221), 0);
    signals_into(text, "abcd none whole", &taken_at(49), 0);

    signals_into(text, "abcd order 1", &[], 0);
    signals_into(text, "abcd order 2", &[0; 8_193], 0);
    signals_into(text, "abcd order 3", &[0; 2_048], 0);
    let mut none = signalled(4);
    wrong_signals(&mut none, &[0, 1, 2, 3]);
    signals_into(text, "abcd order 15", &none, 0);
    signals_into(text, "abcd order 15 in front", &shifted(&none, 8), 0);
    signals_into(text, "abcd order 1 of basic", &none[..2_047], 0);
    signals_into(text, "abcd order 2 of basic", &set(8_193, &[0]), 0);
    signals_into(text, "abcd order 3 of basic", &set(2_048, &[1]), 0);
}

fn write_line(text: &mut String, label: &str, number: u64, check: u64, out: &[u8]) {
    writeln!(text, "{label}: {number} check {check} out {}", digest(out)).unwrap();
}

fn writes(text: &mut String) {
    let mut written = |label: &str, payload: &[u8], overhead: &[u8], check: u64, room: usize| {
        let mut out = vec![BEFORE; room];
        let w = write(payload, overhead, check, &mut out);
        write_line(text, label, w.number, w.check, &out);
    };
    for n in [1, 2, 16] {
        let label = format!("write {n}");
        written(&label, &payload(496 * n), &overhead(8 * n), 5, 512 * n);
    }
    let payload_1 = payload(496);
    for check in 0..16 {
        let label = format!("write check {check}");
        written(&label, &payload_1, &overhead(8), check, 512);
    }
    written("write zeros", &[0; 496], &[0; 8], 0, 512);
    let most = [63, 63, 63, 63, 63, 63, 127, 127];
    written("write ones", &[255; 496], &most, 15, 512);

    written("write 5 none", &[], &[], 5, 512);
    written("write 5 less", &payload(495), &overhead(8), 5, 512);
    written("write 5 more", &payload(497), &overhead(8), 5, 1_024);
    written("write 5 over", &payload(8_432), &overhead(136), 5, 8_704);

    written("write 6 less", &payload_1, &overhead(7), 5, 512);
    written("write 6 more", &payload_1, &overhead(9), 5, 512);
    written("write 6 none", &payload_1, &[], 5, 512);
    for j in 0..8 {
        let mut bad = overhead(8);
        bad[j] |= 128;
        written(&format!("write 128 at {j}"), &payload_1, &bad, 5, 512);
        let mut bad = overhead(8);
        bad[j] |= 64;
        written(&format!("write 64 at {j}"), &payload_1, &bad, 5, 512);
    }
    let mut bad = overhead(16);
    bad[13] |= 64;
    written("write 64 at 13", &payload(992), &bad, 5, 1_024);

    written("write 7", &payload_1, &overhead(8), 16, 512);
    written("write 7 most", &payload_1, &overhead(8), u64::MAX, 512);

    written("write 4", &payload_1, &overhead(8), 5, 511);
    written("write 4 none", &payload_1, &overhead(8), 5, 0);
    written("write longer", &payload_1, &overhead(8), 5, 513);

    written("write order 5", &payload(495), &overhead(7), 16, 0);
    written("write order 6", &payload_1, &overhead(7), 16, 0);
    written("write order 7", &payload_1, &overhead(8), 16, 0);
}

/// Two writes with the check handed on, then one of both.
fn rows(text: &mut String) {
    let (payload, overhead) = (payload(992), overhead(16));

    let mut out = [BEFORE; 1_024];
    let first = write(&payload[..496], &overhead[..8], 5, &mut out[..512]);
    let second = write(
        &payload[496..],
        &overhead[8..],
        first.check,
        &mut out[512..],
    );
    write_line(text, "row of two", second.number, second.check, &out);

    let mut out = [BEFORE; 1_024];
    let both = write(&payload, &overhead, 5, &mut out);
    write_line(text, "row at once", both.number, both.check, &out);
}

/// What a write with signalling is given, and the room of its output.
struct Signalled {
    payload: Vec<u8>,
    overhead: Vec<u8>,
    check: u64,
    xy: Vec<u8>,
    abcd: Vec<u8>,
    room: usize,
}

impl Signalled {
    fn of(n: usize) -> Signalled {
        Signalled {
            payload: payload(496 * n),
            overhead: overhead(8 * n),
            check: 5,
            xy: xy(n),
            abcd: abcd(30 * n),
            room: 512 * n,
        }
    }

    fn write(&self, text: &mut String, label: &str) {
        let mut out = vec![BEFORE; self.room];
        let w = write_signalled(
            &self.payload,
            &self.overhead,
            self.check,
            &self.xy,
            &self.abcd,
            &mut out,
        );
        write_line(text, label, w.number, w.check, &out);
    }
}

/// Writes n multiframes of which something is otherwise.
fn signalled_but(text: &mut String, label: &str, n: usize, other: impl Fn(&mut Signalled)) {
    let mut given = Signalled::of(n);
    other(&mut given);
    given.write(text, label);
}

fn signalled_writes(text: &mut String) {
    for n in [1, 4, 16] {
        Signalled::of(n).write(text, &format!("signalled {n}"));
    }
    for check in [0, 10, 15] {
        let label = format!("signalled check {check}");
        signalled_but(text, &label, 1, |w| w.check = check);
    }
    let zeros = Signalled {
        payload: vec![0; 496],
        overhead: vec![0; 8],
        check: 0,
        xy: vec![0],
        abcd: vec![1; 30],
        room: 512,
    };
    zeros.write(text, "signalled zeros");
    let ones = Signalled {
        payload: vec![255; 496],
        overhead: vec![63, 63, 63, 63, 63, 63, 127, 127],
        check: 15,
        xy: vec![15],
        abcd: vec![15; 30],
        room: 512,
    };
    ones.write(text, "signalled ones");
    signalled_but(text, "signalled over slot 16", 1, |w| {
        for i in [15, 46, 480] {
            w.payload[i] = 255;
        }
    });
    signalled_but(text, "signalled beside slot 16", 1, |w| {
        for i in [14, 16] {
            w.payload[i] = 255;
        }
    });
    bad_signals(text);
    bad_lengths(text);
    signalled_orders(text);
}

fn bad_signals(text: &mut String) {
    for octet in [0, 15, 16, 255] {
        let label = format!("signalled XY {octet}");
        signalled_but(text, &label, 1, |w| w.xy[0] = octet);
    }
    signalled_but(text, "signalled XY last 16", 4, |w| w.xy[3] = 16);
    for octet in [0, 1, 15, 16, 255] {
        for i in [0, 29] {
            let label = format!("signalled ABCD {octet} at {i}");
            signalled_but(text, &label, 1, |w| w.abcd[i] = octet);
        }
    }
    for i in [14, 15, 75, 119] {
        for octet in [0, 16] {
            let label = format!("signalled ABCD {octet} at {i}");
            signalled_but(text, &label, 4, |w| w.abcd[i] = octet);
        }
    }
}

fn bad_lengths(text: &mut String) {
    signalled_but(text, "signalled XY none", 1, |w| w.xy.clear());
    signalled_but(text, "signalled XY more", 1, |w| w.xy = xy(2));
    signalled_but(text, "signalled XY three", 4, |w| w.xy = xy(3));
    signalled_but(text, "signalled XY five", 4, |w| w.xy = xy(5));
    signalled_but(text, "signalled ABCD none", 1, |w| w.abcd.clear());
    signalled_but(text, "signalled ABCD less", 1, |w| w.abcd = abcd(29));
    signalled_but(text, "signalled ABCD more", 1, |w| w.abcd = abcd(31));
    signalled_but(text, "signalled ABCD twice", 1, |w| w.abcd = abcd(60));
    signalled_but(text, "signalled ABCD past 0", 1, |w| w.abcd.push(0));
    Signalled::of(17).write(text, "signalled over");
    signalled_but(text, "signalled none", 0, |w| w.room = 512);
}

fn signalled_orders(text: &mut String) {
    let mut order = |label: &str, other: &dyn Fn(&mut Signalled)| {
        signalled_but(text, label, 1, other);
    };
    order("signalled 5 before 6", &|w| {
        w.payload = payload(495);
        w.overhead = overhead(7);
    });
    order("signalled 6 before 7", &|w| {
        w.overhead = overhead(7);
        w.check = 16;
    });
    order("signalled 7 before 16", &|w| {
        w.check = 16;
        w.xy.clear();
    });
    order("signalled 16 before 4", &|w| {
        w.abcd = abcd(29);
        w.room = 511;
    });

    // Everything is refused from the number on.
    let order_16 = |w: &mut Signalled| {
        w.xy.clear();
        w.abcd.clear();
        w.room = 0;
    };
    let order_7 = |w: &mut Signalled| {
        w.check = 16;
        order_16(w);
    };
    let order_6 = |w: &mut Signalled| {
        w.overhead = overhead(7);
        order_7(w);
    };
    order("signalled order 5", &|w| {
        w.payload = payload(495);
        order_6(w);
    });
    order("signalled order 6", &order_6);
    order("signalled order 7", &order_7);
    order("signalled order 16", &order_16);
    order("signalled 64 at 5", &|w| {
        w.overhead[5] = 64;
        w.xy[0] = 16;
    });
    order("signalled most", &|w| {
        w.check = u64::MAX;
        w.xy[0] = 16;
    });
    order("signalled 4 short", &|w| w.room = 511);
    order("signalled 4 none", &|w| w.room = 0);
    order("signalled longer", &|w| w.room = 513);
}

/// A run of calls from the start.
struct Run<'a> {
    text: &'a mut String,
    name: &'a str,
    exchange: Exchange,
}

impl Run<'_> {
    fn host(&mut self, record: &[u8]) {
        let answer = self.exchange.host(record);
        write!(self.text, "run {} host", self.name).unwrap();
        for octet in record {
            write!(self.text, " {octet}").unwrap();
        }
        writeln!(self.text, ": {} entry {}", answer.number, answer.entry).unwrap();
    }

    fn key(&mut self, position: u64) {
        let number = self.exchange.key(position);
        writeln!(self.text, "run {} key {position}: {number}", self.name).unwrap();
    }

    fn boundary(&mut self) {
        let number = self.exchange.boundary();
        writeln!(self.text, "run {} boundary: {number}", self.name).unwrap();
    }

    fn map(&mut self, octets: usize, room: usize) {
        let mut out = vec![BEFORE; room];
        let number = self.exchange.map(&payload(octets), &mut out);
        let digest = digest(&out);
        writeln!(
            self.text,
            "run {} map {octets} {room}: {number} out {digest}",
            self.name
        )
        .unwrap();
    }
}

fn runs(text: &mut String) {
    let mut run = |name: &str, calls: fn(&mut Run)| {
        let exchange = Exchange::start();
        calls(&mut Run {
            text,
            name,
            exchange,
        });
    };
    run("7", run_7);
    run("8", run_8);
    run("refused", run_refused);
    run("staged", run_staged);
    run("mapped", run_mapped);
}

fn run_7(run: &mut Run) {
    run.key(1);
    run.host(&[1, 5, 9, 0]);
    run.host(&[2, 0, 0, 0]);
    run.key(0);
    run.boundary();
    run.key(1);
    run.host(&[3, 5, 0, 0]);
}

fn run_8(run: &mut Run) {
    run.key(1);
    run.host(&[1, 5, 9, 0]);
    run.host(&[2, 0, 0, 0]);
    run.boundary();
    run.key(0);
    run.host(&[3, 5, 0, 0]);
}

/// Every number from 8 to 13, and which comes first.
fn run_refused(run: &mut Run) {
    run.host(&[]);
    run.host(&[3, 5, 0]);
    run.host(&[3, 5, 0, 0, 0]);
    run.host(&[0, 0, 0, 0]);
    run.host(&[5, 0, 32, 0]);
    run.host(&[255, 5, 9, 0]);
    run.host(&[1, 0, 9, 0]);
    run.host(&[1, 32, 9, 0]);
    run.host(&[1, 5, 32, 0]);
    run.host(&[3, 0, 0, 0]);
    run.host(&[3, 32, 0, 0]);
    run.host(&[1, 5, 9, 0]);
    run.host(&[2, 0, 32, 0]);
    run.host(&[4, 255, 255, 0]);
    run.host(&[3, 31, 255, 7]);
    run.key(2);
    run.key(u64::MAX);
    run.host(&[2, 0, 0, 0]);
    run.key(1);
    run.host(&[2, 0, 32, 0]);
    run.host(&[4, 255, 255, 0]);
    run.host(&[1, 5, 32, 0]);
    run.host(&[2, 0, 0, 0]);
    run.host(&[1, 5, 9, 255]);
    run.key(2);
    run.host(&[2, 0, 0, 1]);
    run.host(&[2, 0, 0, 2]);
    run.host(&[4, 0, 0, 3]);
    run.boundary();
    run.host(&[3, 5, 0, 0]);
}

/// What becomes of staged and waiting maps.
fn run_staged(run: &mut Run) {
    run.key(1);
    run.host(&[1, 1, 31, 0]);
    run.host(&[1, 31, 1, 0]);
    run.host(&[3, 1, 0, 0]);
    run.boundary();
    run.host(&[3, 1, 0, 0]);
    run.host(&[2, 0, 0, 0]);
    run.host(&[3, 1, 0, 0]);
    run.boundary();
    run.host(&[3, 1, 0, 0]);
    run.host(&[3, 31, 0, 0]);
    // The second commit replaces the first, from the live map.
    run.host(&[1, 2, 20, 0]);
    run.host(&[2, 0, 0, 0]);
    run.host(&[1, 3, 21, 0]);
    run.host(&[2, 0, 0, 0]);
    run.boundary();
    run.host(&[3, 1, 0, 0]);
    run.host(&[3, 2, 0, 0]);
    run.host(&[3, 3, 0, 0]);
    // A drop leaves what waits.
    run.host(&[1, 4, 22, 0]);
    run.host(&[2, 0, 0, 0]);
    run.host(&[1, 4, 23, 0]);
    run.host(&[4, 0, 0, 0]);
    run.host(&[4, 0, 0, 0]);
    run.boundary();
    run.host(&[3, 4, 0, 0]);
    run.boundary();
    run.host(&[3, 4, 0, 0]);
    // The key drops what is staged; a staged map is a copy of its time.
    run.host(&[1, 6, 24, 0]);
    run.key(1);
    run.host(&[1, 7, 25, 0]);
    run.key(0);
    run.key(1);
    run.host(&[2, 0, 0, 0]);
    run.host(&[1, 8, 26, 0]);
    run.host(&[2, 0, 0, 0]);
    run.host(&[1, 9, 27, 0]);
    run.boundary();
    run.host(&[2, 0, 0, 0]);
    run.host(&[3, 8, 0, 0]);
    run.boundary();
    run.host(&[3, 8, 0, 0]);
    run.host(&[3, 9, 0, 0]);
}

/// Mapping through the first map and through one with idle slots.
fn run_mapped(run: &mut Run) {
    run.map(496, 496);
    run.map(7_936, 7_936);
    run.map(0, 0);
    run.map(495, 496);
    run.map(497, 992);
    run.map(8_432, 8_432);
    run.map(495, 0);
    run.map(496, 495);
    run.map(992, 496);
    run.map(496, 0);
    run.map(496, 497);
    run.key(1);
    for slot in 1..=31 {
        run.host(&[1, slot, 32 - slot, 0]);
    }
    run.host(&[1, 16, 0, 0]);
    run.host(&[1, 31, 0, 0]);
    run.host(&[1, 1, 7, 0]);
    run.host(&[1, 2, 7, 0]);
    run.map(496, 496);
    run.host(&[2, 0, 0, 0]);
    run.map(496, 496);
    run.boundary();
    run.map(496, 496);
    run.key(0);
    run.map(992, 992);
    run.map(7_936, 7_937);
    run.map(7_936, 7_935);
    run.map(7_935, 7_935);
    run.host(&[3, 16, 0, 0]);
    run.host(&[3, 30, 0, 0]);
}
