//! Lines in chunks.

use crate::{
    digest, hit, line, line_of, overhead, payload, set, unaligned, unsignalled, with_false_place,
    write_values, BEFORE,
};
use given::making::shifted;
use oracle::Stream;
use std::fmt::Write;

/// A stream from its start, and what it is fed from.
struct Run<'a> {
    text: &'a mut String,
    label: &'a str,
    stream: Stream,
    image: Vec<u8>,
    rooms: [usize; 2],
}

impl Run<'_> {
    /// Feeds octets of the image.
    fn feed(&mut self, from: usize, to: usize) {
        let [mut payload, mut slot0] = self.rooms.map(|room| vec![BEFORE; room]);
        let fed = self
            .stream
            .feed(&self.image[from..to], &mut payload, &mut slot0);
        write!(self.text, "{} feed {from} {to}: {}", self.label, fed.number).unwrap();
        write!(self.text, " multiframes {}", fed.multiframes).unwrap();
        let (payload, slot0) = (digest(&payload), digest(&slot0));
        writeln!(self.text, " payload {payload} slot0 {slot0}").unwrap();
    }

    /// Feeds the octets from each of these places to the next.
    fn cut(&mut self, places: &[usize]) {
        for ends in places.windows(2) {
            self.feed(ends[0], ends[1]);
        }
    }

    /// Feeds octets of the image so many times, here as one chunk.
    fn feeds(&mut self, times: usize, from: usize, to: usize) {
        let chunk = self.image[from..to].repeat(times);
        let most = chunk.len() / 512 + 4;
        let (mut payload, mut slot0) = (vec![0; 496 * most], vec![0; 16 * most]);
        let fed = self.stream.feed(&chunk, &mut payload, &mut slot0);
        write!(self.text, "{} feeds {times} {from} {to}:", self.label).unwrap();
        writeln!(self.text, " {} multiframes {}", fed.number, fed.multiframes).unwrap();
    }

    fn room(&mut self, payload: usize, slot0: usize) {
        self.rooms = [payload, slot0];
    }

    fn end(&mut self) {
        let reading = self.stream.end();
        write!(self.text, "{} end: ", self.label).unwrap();
        write_values(self.text, &reading);
        self.text.push('\n');
    }
}

fn run<'a>(text: &'a mut String, label: &'a str, image: Vec<u8>) -> Run<'a> {
    Run {
        text,
        label,
        stream: Stream::start(),
        image,
        rooms: [7_936, 256],
    }
}

pub fn chunks(text: &mut String) {
    case_20(text);
    cuts(text);
    fronts(text);
    losses(text);
    counts(text);
    rooms(text);
    ends(text);
}

fn case_20(text: &mut String) {
    let mut cuts = run(text, "20 cuts", line(5));
    cuts.cut(&[0, 0, 1, 2_047]);
    cuts.end();
    cuts.cut(&[2_047, 2_048, 2_049]);
    for (payload, slot0) in [(495, 16), (496, 15), (496, 16)] {
        cuts.room(payload, slot0);
        cuts.feed(2_049, 2_560);
    }
    cuts.end();
    cuts.cut(&[0, 0, 1]);
    cuts.end();

    let mut found = run(text, "20 found", vec![0; 2_048]);
    for image in [vec![0; 2_048], unsignalled(4, &[0, 1, 2, 3], 0), line(4)] {
        found.image = image;
        found.feed(0, 2_048);
        found.end();
    }

    let mut longest = run(text, "20 longest", line(16));
    longest.image.push(0);
    longest.feeds(2_047, 0, 8_192);
    longest.feed(0, 8_191);
    longest.room(0, 0);
    longest.feed(8_191, 8_193);
    longest.feed(8_191, 8_192);
    longest.room(496, 16);
    longest.feed(8_191, 8_192);
    longest.cut(&[0, 0, 1]);
    longest.end();
    longest.feed(0, 8_192);
    longest.end();
}

fn cuts(text: &mut String) {
    let mut once = run(text, "chunks at once", line(16));
    once.feed(0, 8_192);
    once.end();

    for octets in [256, 511, 512, 513, 1_024] {
        let label = format!("chunks of {octets}");
        let mut alike = run(text, &label, line(6));
        let places: Vec<usize> = (0..3_072).step_by(octets).chain([3_072]).collect();
        alike.cut(&places);
        alike.end();
    }

    let mut octets = run(text, "chunks of 1", line(6));
    octets.feed(0, 2_044);
    octets.cut(&(2_044..=2_052).collect::<Vec<usize>>());
    octets.feed(2_052, 2_556);
    octets.cut(&(2_556..=2_564).collect::<Vec<usize>>());
    octets.end();

    for front in 0..8 {
        let label = format!("chunks shift {front}");
        let mut image = shifted(&line(4), front);
        image.resize(2_049, 0);
        let mut shift = run(text, &label, image);
        shift.cut(&[0, 2_047, 2_048, 2_049]);
        shift.end();
    }
}

/// What is before the place that stands.
fn fronts(text: &mut String) {
    let mut far = run(text, "chunks far", vec![255; 8_192]);
    far.cut(&[0, 8_192, 8_192]);
    far.feed(0, 8_192);
    far.image = line(5);
    far.cut(&[0, 2_047, 2_048, 2_560]);
    far.end();

    let mut near = run(text, "chunks near", vec![0; 300]);
    near.feed(0, 300);
    near.image = line(5);
    near.cut(&[0, 1_748, 2_047, 2_048, 2_560]);
    near.end();

    let mut k_18 = run(text, "chunks k 18", unsignalled(8, &[1, 2], 0));
    k_18.cut(&[384, 2_431, 2_432, 4_096]);
    k_18.end();

    let mut place = run(text, "chunks false place", with_false_place());
    place.cut(&[1, 65, 2_049, 2_111, 2_112, 2_560]);
    place.end();
}

fn losses(text: &mut String) {
    // The line is cut at these places.
    let mut lost = |label: &str, words: &[usize], bits_2: &[usize], places: &[usize]| {
        let mut lost = run(text, label, unaligned(8, words, bits_2));
        lost.cut(places);
        lost.end();
    };
    let each = [0, 2_432, 2_496, 2_560, 2_561, 2_593, 3_072, 4_096];
    lost("chunks loss by words", &[76, 78, 80], &[], &each);
    lost("chunks loss by bits 2", &[], &[77, 79, 81], &each);
    lost("chunks words first", &[76, 78, 80], &[77, 79, 81], &each);
    lost("chunks bits 2 first", &[78, 80, 82], &[77, 79, 81], &each);
    lost("chunks no loss", &[76, 78, 82], &[77, 79, 83], &each);
    lost(
        "chunks loss in the next",
        &[84, 86, 88],
        &[],
        &[0, 2_560, 4_096],
    );
    lost(
        "chunks loss last",
        &[],
        &[123, 125, 127],
        &[0, 4_095, 4_096],
    );
    lost("chunks loss at once", &[52, 54, 56], &[], &[0, 4_096]);

    let mut none = run(text, "chunks loss first", unaligned(4, &[4, 6, 8], &[]));
    none.room(0, 0);
    none.cut(&[0, 2_047, 2_048]);
    none.feed(0, 512);
    none.end();
}

/// Counts over the end of a chunk.
fn counts(text: &mut String) {
    let mut counted = |label: &str, places: &[usize]| {
        let mut image = line(6);
        hit(&mut image, places);
        let mut counted = run(text, label, image);
        counted.cut(&[0, 2_304, 2_560, 2_816, 3_072]);
        counted.end();
    };
    counted("chunks block before", &[20_479]);
    counted("chunks check behind", &[20_480]);
    counted("chunks second block", &[22_527]);
    counted("chunks last block", &[24_575]);
    counted("chunks word", &[20_481, 20_482, 20_483, 20_484]);
    counted("chunks words", &[19_975, 20_487, 22_529, 22_530]);

    let mut overhead = overhead(48);
    for j in [38, 39, 47] {
        overhead[j] -= 64;
    }
    let image = line_of(&payload(496 * 6), &overhead);
    let mut far = run(text, "chunks farend", image);
    far.cut(&[0, 2_304, 2_560, 2_816, 3_072]);
    far.end();
}

fn rooms(text: &mut String) {
    let mut out = run(text, "chunks out", line(8));
    for (payload, slot0) in [(0, 0), (1_983, 64), (1_984, 63), (1_984, 64)] {
        out.room(payload, slot0);
        out.feed(0, 2_048);
    }
    out.room(0, 0);
    out.feed(2_048, 2_559);
    for (payload, slot0) in [(1_487, 48), (1_488, 47), (1_490, 50)] {
        out.room(payload, slot0);
        out.feed(2_559, 4_000);
    }
    out.end();

    // Of what is whole, only what comes before the loss has to have room.
    let mut lost = run(
        text,
        "chunks out of a loss",
        unaligned(8, &[84, 86, 88], &[]),
    );
    for (payload, slot0) in [(2_479, 80), (2_480, 79), (2_480, 80)] {
        lost.room(payload, slot0);
        lost.feed(0, 4_096);
    }
    lost.room(0, 0);
    lost.feed(0, 4_096);
    lost.end();
}

fn ends(text: &mut String) {
    let mut none = run(text, "chunks none", Vec::new());
    none.end();
    none.feed(0, 0);
    none.end();

    // Basic alignment without room, then with it; an earlier place stays.
    let mut basic = run(text, "chunks basic", set(2_304, &[1_000, 77]));
    basic.cut(&[0, 2_047]);
    basic.end();
    basic.cut(&[2_047, 2_048, 2_057]);
    basic.end();
    basic.cut(&[2_057, 2_058]);
    basic.end();
    basic.cut(&[2_058, 2_304]);
    basic.end();
    basic.image = line(5);
    basic.cut(&[0, 2_047, 2_560]);
    basic.end();
    basic.feed(0, 1);

    let mut again = run(text, "chunks end again", line(5));
    again.feed(0, 2_047);
    again.end();
    again.end();
    again.feed(2_047, 2_500);
    again.end();
    again.end();
    again.feed(2_500, 2_560);
}
