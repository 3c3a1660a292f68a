//! A line in chunks. While nothing stands, the window has the last 2,048 octets;
//! from then on it has what there is of the next multiframe, as of those before
//! it the wrong frames and the check of the last block are enough. Multiframes
//! are read in the chunk where they lie, but the first behind what the window has.

use crate::loss::{cause, Runs};
use crate::place::{find, Found, AHEAD};
use crate::reading::{basic_only, carried, compare, far_end_errors, gather, judge, refused, take};
use crate::Check;
use oracle::{Fed, Reading};

/// The octets of the longest line.
const LONGEST: usize = 16_777_216;

/// The most multiframes that are read at once.
const ROW: usize = 16;

/// As [`oracle::Stream`].
#[derive(Clone, PartialEq)]
pub struct Stream {
    ended: bool,
    /// The octets of the joined line.
    joined: usize,
    window: Window,
    /// How many octets the window has to have before there is anything to do.
    wanted: usize,
    phase: Phase,
}

#[derive(Clone, PartialEq)]
enum Phase {
    /// No place stands; the first with basic alignment, where there is one.
    Search(Option<usize>),
    Stands(Line),
}

fn fed(multiframes: usize) -> Fed {
    Fed {
        number: 0,
        multiframes: multiframes as u64,
    }
}

fn unfed(number: u64) -> Fed {
    Fed { number, ..fed(0) }
}

impl Stream {
    pub fn start() -> Stream {
        Stream {
            ended: false,
            joined: 0,
            window: Window::new(),
            wanted: AHEAD,
            phase: Phase::Search(None),
        }
    }

    /// By this check.
    pub fn feed(
        &mut self,
        chunk: &[u8],
        payload: &mut [u8],
        slot0: &mut [u8],
        check: Check,
    ) -> Fed {
        if self.ended {
            return unfed(21);
        }
        if chunk.len() > LONGEST - self.joined {
            return unfed(17);
        }
        let held = self.window.len();
        if held + chunk.len() < self.wanted {
            self.joined += chunk.len();
            self.window.push(chunk);
            return fed(0);
        }
        let before = self.joined - held;
        let ahead = match &self.phase {
            _ if held == 0 => 0,
            Phase::Search(_) => AHEAD,
            Phase::Stands(_) => self.wanted - held,
        };
        let both = Both {
            front: self.window.with(&chunk[..ahead.min(chunk.len())]),
            held,
            chunk,
        };
        let mut line = match &mut self.phase {
            Phase::Stands(line) => line.clone(),
            Phase::Search(first) => match both.find() {
                Found::At(place, k) => Line::at(8 * before + place, k),
                found => {
                    if let Found::BasicAt(place) = found {
                        first.get_or_insert(8 * before + place);
                    }
                    self.keep(chunk, AHEAD);
                    return fed(0);
                }
            },
        };
        let used = match line.read(&both, before, payload, slot0, check) {
            Some(used) => used,
            None => return unfed(4),
        };
        self.wanted = line.wanted();
        self.keep(chunk, line.behind(self.joined + chunk.len()));
        self.phase = Phase::Stands(line);
        fed(used)
    }

    /// Takes a chunk, and keeps so many last octets at the most.
    fn keep(&mut self, chunk: &[u8], most: usize) {
        self.joined += chunk.len();
        self.window.take(chunk, most);
    }

    pub fn end(&mut self) -> Reading {
        if self.ended {
            return refused(21);
        }
        match &self.phase {
            Phase::Search(_) if self.joined < AHEAD => refused(1),
            Phase::Search(None) => refused(3),
            Phase::Search(Some(first)) => basic_only(*first),
            Phase::Stands(line) => {
                self.ended = true;
                line.answer(self.joined)
            }
        }
    }
}

/// The last octets of the line, 2,048 at the most. They move on in a buffer, and
/// to its front when they have come to its end.
#[derive(Clone)]
struct Window {
    buffer: [u8; 2 * AHEAD],
    from: usize,
    to: usize,
}

impl PartialEq for Window {
    fn eq(&self, other: &Window) -> bool {
        self.buffer[self.from..self.to] == other.buffer[other.from..other.to]
    }
}

impl Window {
    fn new() -> Window {
        Window {
            buffer: [0; 2 * AHEAD],
            from: 0,
            to: 0,
        }
    }

    fn len(&self) -> usize {
        self.to - self.from
    }

    /// Its octets and behind them others, 2,048 at the most, which are not its own
    /// yet.
    fn with(&mut self, octets: &[u8]) -> &[u8] {
        if self.to + octets.len() > self.buffer.len() {
            self.buffer.copy_within(self.from..self.to, 0);
            self.to -= self.from;
            self.from = 0;
        }
        let end = self.to + octets.len();
        self.buffer[self.to..end].copy_from_slice(octets);
        &self.buffer[self.from..end]
    }

    fn push(&mut self, octets: &[u8]) {
        self.with(octets);
        self.to += octets.len();
    }

    /// Takes a chunk, and keeps so many last octets at the most.
    fn take(&mut self, chunk: &[u8], most: usize) {
        let octets = &chunk[chunk.len().saturating_sub(most)..];
        self.from = self.to - self.len().min(most - octets.len());
        self.push(octets);
    }
}

/// A chunk behind what the window has.
struct Both<'a> {
    /// What the window has, and so much of the chunk as is looked at with it.
    front: &'a [u8],
    held: usize,
    chunk: &'a [u8],
}

impl<'a> Both<'a> {
    /// The first place that stands, and what there is where none does.
    fn find(&self) -> Found {
        let first = match self.held {
            0 => Found::Nothing,
            _ => find(self.front),
        };
        if self.held > 0 && self.chunk.len() <= AHEAD {
            return first;
        }
        let behind = 8 * self.held;
        match first {
            Found::At(place, k) => Found::At(place, k),
            first => match (find(self.chunk), first) {
                (Found::At(place, k), _) => Found::At(behind + place, k),
                (Found::BasicAt(place), Found::Nothing) => Found::BasicAt(behind + place),
                (_, first) => first,
            },
        }
    }

    /// From octet i on a row of multiframes, `most` of them or fewer.
    fn row(&self, i: usize, most: usize) -> (&'a [u8], usize) {
        if i < self.held {
            let begin = (self.held - i + 511) / 512;
            (&self.front[i..], most.min(begin))
        } else {
            (&self.chunk[i - self.held..], most.min(ROW))
        }
    }
}

/// What a line that stands has had.
#[derive(Clone, Default, PartialEq)]
struct Line {
    place: usize,
    start: usize,
    used: usize,
    lost: Option<usize>,
    words: u64,
    errored: u64,
    farend: u64,
    wordbits: u64,
    runs: Runs,
    /// The check of the last block.
    check: Option<u8>,
}

impl Line {
    fn at(place: usize, k: usize) -> Line {
        Line {
            place,
            start: place + 512 * k,
            ..Line::default()
        }
    }

    /// The octets in which a multiframe lies, where another is to come.
    fn wanted(&self) -> usize {
        match (self.lost, self.start % 8) {
            (Some(_), _) => 0,
            (None, 0) => 512,
            (None, _) => 513,
        }
    }

    /// The octets of a line of so many that are behind the multiframes used.
    fn behind(&self, octets: usize) -> usize {
        match self.lost {
            Some(_) => 0,
            None => octets - self.next(),
        }
    }

    /// The octet of the line in which the next multiframe begins.
    fn next(&self) -> usize {
        self.start / 8 + 512 * self.used
    }

    /// Reads all multiframes that are whole, with so many octets of the line
    /// before these, and says how many are used; none, and nothing has changed,
    /// where the outputs lack room.
    fn read(
        &mut self,
        both: &Both,
        before: usize,
        payload: &mut [u8],
        slot0: &mut [u8],
        check: Check,
    ) -> Option<usize> {
        if self.lost.is_some() {
            return Some(0);
        }
        let from = self.next() - before;
        let bits = 8 * (both.held + both.chunk.len() - from) - self.start % 8;
        let whole = bits / 4_096;
        let room = (payload.len() / 496).min(slot0.len() / 16);
        if room < whole && room < self.leaving(both, from, whole) {
            return None;
        }
        let mut m = 0;
        while m < whole && self.lost.is_none() {
            let (row, n) = both.row(from + 512 * m, whole - m);
            let (payload, slot0) = (&mut payload[496 * m..], &mut slot0[16 * m..]);
            m += self.read_row(row, n, payload, slot0, check);
        }
        Some(m)
    }

    /// How many of these multiframes are used.
    fn leaving(&self, both: &Both, from: usize, whole: usize) -> usize {
        let (mut m, mut runs) = (0, self.runs.clone());
        while m < whole {
            let (row, n) = both.row(from + 512 * m, whole - m);
            let mut slots = [0; 16 * ROW];
            gather(row, self.start % 8, &mut slots[..16 * n]);
            if let Some(f) = judge(&slots[..16 * n], &mut runs).lost {
                return m + f / 16;
            }
            m += n;
        }
        whole
    }

    /// Reads the n multiframes of a row up to a loss, and says how many are
    /// used.
    fn read_row(
        &mut self,
        row: &[u8],
        n: usize,
        payload: &mut [u8],
        slot0: &mut [u8],
        check: Check,
    ) -> usize {
        let o = self.start % 8;
        let mut slots = [0; 16 * ROW];
        gather(row, o, &mut slots[..16 * n]);
        let judged = judge(&slots[..16 * n], &mut self.runs);
        let used = judged.lost.map_or(n, |f| f / 16);
        let slots = &slots[..16 * used];
        slot0[..16 * used].copy_from_slice(slots);
        take(row, o, &mut payload[..496 * used]);
        if used > 0 {
            let agreed = self.check.map_or(true, |check| check == carried(slots, 0));
            self.errored += u64::from(!agreed) + compare(row, o, slots, check);
            self.check = Some(check(&row[512 * used - 256..], o));
        }
        self.words += judged.words;
        self.wordbits += judged.wordbits;
        self.farend += far_end_errors(slots);
        self.lost = judged.lost.map(|f| 16 * self.used + f);
        self.used += used;
        used
    }

    /// What is answered at the end of a line of so many octets.
    fn answer(&self, octets: usize) -> Reading {
        Reading {
            number: 0,
            place: self.place as u64,
            start: self.start as u64,
            whole: ((8 * octets - self.start) / 4_096) as u64,
            used: self.used as u64,
            lost: self.lost.unwrap_or(0) as u64,
            words: self.words,
            compared: (2 * self.used as u64).saturating_sub(1),
            errored: self.errored,
            farend: self.farend,
            wordbits: self.wordbits,
            cause: cause(self.lost),
        }
    }
}
