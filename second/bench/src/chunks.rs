//! Lines in chunks: a row feeds the same octets over and over, so that a call
//! costs the same however long the line is, or it shows.

use crate::{hidden, Contender};
use given::Random;
use oracle::line::{bits, octets};
use oracle::{write, Fed};

/// Octets that are fed in chunks of so many.
pub struct Chunks {
    octets: Vec<u8>,
    chunk: usize,
    /// How often they were fed before the first call.
    before: usize,
    /// How many multiframes leave with each call.
    leaving: u64,
}

/// What makes the contender of a form.
pub type Feeds = Box<dyn for<'a> Fn(&'a Chunks) -> Contender<'a>>;

/// Each call feeds all octets once; where a stream would be full, from the first
/// call on again.
pub fn feeds<S, F>(start: fn() -> S, feed: F) -> Feeds
where
    S: Clone + 'static,
    F: Fn(&mut S, &[u8], &mut [u8], &mut [u8]) -> Fed + Copy + 'static,
{
    Box::new(move |chunks| {
        // As much as the longest chunk may need.
        let (mut payload, mut slot0) = (vec![0; 496 * 132], vec![0; 16 * 132]);
        let mut call = move |stream: &mut S| {
            chunks.feed(|chunk| feed(stream, chunk, &mut payload, &mut slot0))
        };
        let mut first = start();
        for _ in 0..chunks.before {
            call(&mut first);
        }
        assert_eq!(call(&mut first.clone()), chunks.leaving);
        let (mut stream, mut calls) = (first.clone(), chunks.calls());
        Box::new(move || {
            if calls == 0 {
                (stream, calls) = (first.clone(), chunks.calls());
            }
            calls -= 1;
            hidden(call(&mut stream));
        })
    })
}

impl Chunks {
    fn feed(&self, mut feed: impl FnMut(&[u8]) -> Fed) -> u64 {
        let mut leaving = 0;
        for chunk in hidden(&self.octets).chunks(self.chunk) {
            let fed = hidden(feed(chunk));
            assert_eq!(fed.number, 0);
            leaving += fed.multiframes;
        }
        leaving
    }

    /// How many there can be before the stream is full.
    fn calls(&self) -> usize {
        16_777_216 / self.octets.len() - self.before
    }

    pub fn octets(&self) -> &[u8] {
        &self.octets
    }
}

/// Rows with their names.
pub fn rows() -> Vec<(&'static str, Chunks)> {
    let r = &mut Random::new(0, 0);
    let payload = r.octets(7_936);
    let overhead = [31, 31, 31, 31, 31, 31, 95, 95].repeat(16);
    // The first block carries the check of the last, so that the line goes on.
    let mut aligned = vec![0; 8_192];
    let check = write(&payload, &overhead, 0, &mut aligned).check;
    write(&payload, &overhead, check, &mut aligned);
    let mut moved = bits(&aligned);
    moved.rotate_right(3);
    let moved = octets(&moved);
    let noise = r.octets(8_192);

    let of = |image: &[u8], chunk: usize, before, leaving| {
        let times = (chunk / image.len()).max(1);
        Chunks {
            octets: image.repeat(times),
            chunk,
            before,
            leaving: leaving * times as u64,
        }
    };
    let at_0 = |chunk| of(&aligned, chunk, 1, 16);
    let at_3 = |chunk| of(&moved, chunk, 1, 16);
    // The last calls before the stream is full.
    let late = 2_048 - 20;
    vec![
        ("feed-4096-place-0", at_0(4_096)),
        ("feed-4096-place-3", at_3(4_096)),
        ("feed-4096-late-place-0", of(&aligned, 4_096, late, 16)),
        ("feed-4096-late-place-3", of(&moved, 4_096, late, 16)),
        ("feed-65536-place-0", at_0(65_536)),
        ("feed-65536-place-3", at_3(65_536)),
        ("feed-2048-place-0", at_0(2_048)),
        ("feed-2048-place-3", at_3(2_048)),
        ("feed-512-place-0", at_0(512)),
        ("feed-512-place-3", at_3(512)),
        ("feed-64-place-0", at_0(64)),
        ("feed-64-place-3", at_3(64)),
        ("feed-1-place-0", at_0(1)),
        ("feed-1-place-3", at_3(1)),
        ("feed-4096-noise", of(&noise, 4_096, 1, 0)),
        ("feed-1-noise", of(&noise, 1, 1, 0)),
    ]
}
