//! A line in chunks. The joined line is kept, and read anew at every call.

use crate::reading::{refused, Line, Reading};

/// What feeding a chunk answers. Of a refusal all but the number is 0.
#[derive(Clone, Copy, Debug, Default, PartialEq, Eq)]
pub struct Fed {
    pub number: u64,
    pub multiframes: u64,
}

fn unfed(number: u64) -> Fed {
    Fed {
        number,
        multiframes: 0,
    }
}

/// The joined line, how many of its multiframes have left, and whether there
/// was an end that was accepted.
#[derive(Clone, Debug, PartialEq, Eq)]
pub struct Stream {
    joined: Vec<u8>,
    left: usize,
    ended: bool,
}

impl Stream {
    /// Nothing has come.
    pub fn start() -> Stream {
        Stream {
            joined: Vec::new(),
            left: 0,
            ended: false,
        }
    }

    /// Takes a chunk: of the multiframes that it makes whole and used, slots 1
    /// to 31 go to `payload`, slot 0 of each of their frames to `slot0`.
    pub fn feed(&mut self, chunk: &[u8], payload: &mut [u8], slot0: &mut [u8]) -> Fed {
        if self.ended {
            return unfed(21);
        }
        if self.joined.len() + chunk.len() > 16_777_216 {
            return unfed(17);
        }
        let joined = [&self.joined, chunk].concat();
        let line = Line::read(&joined);
        if !line.fill(self.left, payload, slot0) {
            return unfed(4);
        }
        let used = line.reading.used as usize;
        let multiframes = (used - self.left) as u64;
        self.joined = joined;
        self.left = used;
        Fed {
            number: 0,
            multiframes,
        }
    }

    /// What is read of the joined line.
    pub fn end(&mut self) -> Reading {
        if self.ended {
            return refused(21);
        }
        let reading = Line::read(&self.joined).reading;
        self.ended = reading.number == 0;
        reading
    }
}
