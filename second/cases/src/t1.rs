//! T1: reads, writes, writes with signalling.

use crate::{digest, hit, line, payload, write_line, BEFORE};
use given::making::shifted;
use oracle::t1::{read, write, write_signalled, Reading};
use std::fmt::Write;

/// For the data link and for signalling.
fn bits(octets: usize) -> Vec<u8> {
    let of = |j: usize| (7 * j + 5 * (j / 31)) / 4 % 2;
    (0..octets).map(|j| of(j) as u8).collect()
}

pub fn t1_line_of(payload: &[u8]) -> Vec<u8> {
    let n = payload.len() / 576;
    let mut line = vec![0; 579 * n];
    write(payload, &bits(12 * n), 5, &mut line);
    line
}

fn t1_line(n: usize) -> Vec<u8> {
    t1_line_of(&payload(576 * n))
}

fn read_into(text: &mut String, label: &str, image: &[u8], room: usize, room_link: usize) {
    let (mut payload, mut link) = (vec![BEFORE; room], vec![BEFORE; room_link]);
    let r = read(image, &mut payload, &mut link);
    write!(text, "{label}: ").unwrap();
    write_values(text, &r);
    let (payload, link) = (digest(&payload), digest(&link));
    writeln!(text, " payload {payload} link {link}").unwrap();
}

fn write_values(text: &mut String, r: &Reading) {
    write!(text, "{} place {} whole {}", r.number, r.place, r.whole).unwrap();
    write!(text, " compared {} errored {}", r.compared, r.errored).unwrap();
}

/// With room for all that any image holds.
fn read_case(text: &mut String, label: &str, image: &[u8]) {
    read_into(text, label, image, 8_064, 168);
}

/// Of so many superframes, with these bits turned over.
fn hit_case(text: &mut String, label: &str, n: usize, places: &[usize]) {
    let mut image = t1_line(n);
    hit(&mut image, places);
    read_case(text, label, &image);
}

pub fn t1(text: &mut String) {
    numbered(text);
    places(text);
    hits(text);
    outputs(text);
    writes(text);
    signalled_writes(text);
}

/// The cases of KIT.
fn numbered(text: &mut String) {
    read_case(text, "23 short", &[0; 1_157]);
    read_case(text, "23 zeros", &[0; 1_158]);
    read_case(text, "23 ones", &[255; 1_158]);
    read_case(text, "23 long", &[0; 8_193]);
    read_case(text, "24", &shifted(&t1_line(2), 1));
    hit_case(text, "25 good", 14, &[]);
    hit_case(text, "25 data", 14, &[9_364]);
    hit_case(text, "25 C2", 14, &[14_861]);
    hit_case(text, "25 link", 14, &[18_914]);
    hit_case(text, "25 frame 4", 14, &[9_843]);
    hit_case(text, "26 of three", 3, &[100]);
    hit_case(text, "26 of two", 2, &[100]);
}

fn places(text: &mut String) {
    for front in 0..8 {
        let image = shifted(&t1_line(3), front);
        read_case(text, &format!("t1 shift {front}"), &image);
    }
    read_case(text, "t1 cut", &t1_line(4)[37..]);
    read_case(text, "t1 rest", &t1_line(3)[..1_736]);
    let mut most = t1_line(14);
    most.resize(8_192, 0);
    read_case(text, "t1 8192", &most);
    let firsts: Vec<usize> = (0..12).map(|s| 4_632 * s + 100).collect();
    hit_case(text, "t1 last two", 14, &firsts);
    hit_case(text, "t1 signal of the first", 3, &[579]);
    hit_case(text, "t1 signal of the second", 4, &[5_211]);
    hit_case(text, "t1 check of the first", 3, &[193, 965]);
    hit_case(text, "t1 check of the second", 3, &[4_825]);
    hit_case(text, "t1 link of the first", 3, &[0]);
    read_case(text, "t1 of E1", &line(16));
}

fn hits(text: &mut String) {
    let six: Vec<usize> = (9_364..9_370).collect();
    hit_case(text, "t1 six bits", 14, &six);
    hit_case(text, "t1 seven bits", 14, &[9_364, 9_369, 9_370]);
    hit_case(text, "t1 63 apart", 14, &[9_364, 9_427]);
    hit_case(text, "t1 three errored", 14, &[9_364, 18_527, 60_000]);
    hit_case(text, "t1 data of the last", 14, &[64_847]);
}

fn outputs(text: &mut String) {
    read_into(text, "t1 out exact", &t1_line(3), 1_728, 36);
    read_into(text, "t1 out payload short", &t1_line(3), 1_727, 36);
    read_into(text, "t1 out link short", &t1_line(3), 1_728, 35);
    read_into(text, "t1 out longer", &t1_line(3), 1_729, 37);
    read_into(text, "t1 order 1", &[], 0, 0);
    read_into(text, "t1 order 2", &[0; 8_193], 0, 0);
    read_into(text, "t1 order 3", &[0; 1_158], 0, 0);
    read_into(text, "t1 order 4", &t1_line(2), 0, 0);
}

/// What a write is given, and the room of its output.
struct Given {
    payload: Vec<u8>,
    link: Vec<u8>,
    check: u64,
    signalling: Vec<u8>,
    room: usize,
}

impl Given {
    fn of(n: usize) -> Given {
        Given {
            payload: payload(576 * n),
            link: bits(12 * n),
            check: 5,
            signalling: bits(96 * n),
            room: 579 * n,
        }
    }

    /// All octets and bits alike, one superframe.
    fn alike(octet: u8, bit: u8, check: u64) -> Given {
        Given {
            payload: vec![octet; 576],
            link: vec![bit; 12],
            check,
            signalling: vec![bit; 96],
            room: 579,
        }
    }

    fn write(&self, text: &mut String, label: &str) {
        let mut out = vec![BEFORE; self.room];
        let w = write(&self.payload, &self.link, self.check, &mut out);
        write_line(text, label, w.number, w.check, &out);
    }

    fn write_signalled(&self, text: &mut String, label: &str) {
        let mut out = vec![BEFORE; self.room];
        let w = write_signalled(
            &self.payload,
            &self.link,
            self.check,
            &self.signalling,
            &mut out,
        );
        write_line(text, label, w.number, w.check, &out);
    }
}

/// One superframe of which something is otherwise.
fn but(other: impl Fn(&mut Given)) -> Given {
    let mut given = Given::of(1);
    other(&mut given);
    given
}

fn writes(text: &mut String) {
    for n in [1, 2, 14] {
        Given::of(n).write(text, &format!("t1 write {n}"));
    }
    but(|w| w.check = 63).write(text, "t1 write check 63");
    Given::alike(0, 0, 0).write(text, "t1 write zeros");
    Given::alike(255, 1, 63).write(text, "t1 write ones");

    let none = Given {
        room: 579,
        ..Given::of(0)
    };
    none.write(text, "t1 write 5 none");
    but(|w| w.payload = payload(575)).write(text, "t1 write 5 less");
    but(|w| w.payload = payload(577)).write(text, "t1 write 5 more");
    let over = Given {
        payload: payload(8_432),
        link: bits(180),
        room: 8_685,
        ..Given::of(1)
    };
    over.write(text, "t1 write 5 over");

    but(|w| w.link = bits(11)).write(text, "t1 write 6 less");
    but(|w| w.link = bits(13)).write(text, "t1 write 6 more");
    but(|w| w.link[0] = 2).write(text, "t1 write 2 at 0");
    but(|w| w.link[11] = 255).write(text, "t1 write 255 at 11");
    but(|w| w.check = 64).write(text, "t1 write 7");
    but(|w| w.check = u64::MAX).write(text, "t1 write 7 most");
    but(|w| w.room = 578).write(text, "t1 write 4");
    but(|w| w.room = 580).write(text, "t1 write longer");

    // Everything is refused from the number on.
    but(order_5).write(text, "t1 write order 5");
    but(order_6).write(text, "t1 write order 6");
    but(order_7).write(text, "t1 write order 7");
}

fn order_5(w: &mut Given) {
    w.payload = payload(575);
    order_6(w);
}

fn order_6(w: &mut Given) {
    w.link = bits(11);
    order_7(w);
}

fn order_7(w: &mut Given) {
    w.check = 64;
    order_16(w);
}

fn order_16(w: &mut Given) {
    w.signalling = bits(95);
    w.room = 0;
}

fn signalled_writes(text: &mut String) {
    case_27(text);
    for n in [1, 14] {
        Given::of(n).write_signalled(text, &format!("t1 signalled {n}"));
    }
    but(|w| w.signalling = bits(95)).write_signalled(text, "t1 signalled 16 less");
    but(|w| w.signalling = bits(97)).write_signalled(text, "t1 signalled 16 more");
    but(|w| w.signalling[12] = 2).write_signalled(text, "t1 signalled 2 at 12");
    but(|w| w.signalling[95] = 255).write_signalled(text, "t1 signalled 255 at 95");
    but(|w| w.room = 578).write_signalled(text, "t1 signalled 4");
    but(|w| w.room = 580).write_signalled(text, "t1 signalled longer");
    but(order_5).write_signalled(text, "t1 signalled order 5");
    but(order_6).write_signalled(text, "t1 signalled order 6");
    but(order_7).write_signalled(text, "t1 signalled order 7");
    but(order_16).write_signalled(text, "t1 signalled order 16");
}

/// The same line, once by signalling of 0 and once by the payload.
fn case_27(text: &mut String) {
    let mut given = Given::alike(255, 0, 63);
    given.write_signalled(text, "27 signalled");
    for f in [5, 11, 17, 23] {
        given.payload[24 * f..24 * f + 24].fill(254);
    }
    given.write(text, "27 payload");
}
