//! Runs of calls on both sides, from the start and from any octets.

use crate::kit::{answered, places};
use agree::seed;
use given::{room, Random};
use jikhvanto::sys::{self, STATE};
use jikhvanto::{Refusal, State};
use oracle::exchange::Map;
use oracle::{Answer, Exchange};

const RUNS: u64 = 2_000;
const CALLS: usize = 100;

/// The calls on a state, whoever keeps it. Each but `host` gives its number.
trait Calls: Clone {
    fn host(&mut self, record: &[u8]) -> Answer;
    fn key(&mut self, position: u64) -> u64;
    fn boundary(&mut self) -> u64;
    fn map(&self, payload: &[u8], out: &mut [u8]) -> u64;
}

impl Calls for Exchange {
    fn host(&mut self, record: &[u8]) -> Answer {
        Exchange::host(self, record)
    }

    fn key(&mut self, position: u64) -> u64 {
        Exchange::key(self, position)
    }

    fn boundary(&mut self) -> u64 {
        Exchange::boundary(self)
    }

    fn map(&self, payload: &[u8], out: &mut [u8]) -> u64 {
        Exchange::map(self, payload, out)
    }
}

/// A state of the library.
trait Kit: Calls {
    fn octets(&self) -> [u8; STATE];
}

fn number(answer: Result<(), Refusal>) -> u64 {
    answer.map_or_else(Refusal::number, |()| 0)
}

impl Calls for State {
    fn host(&mut self, record: &[u8]) -> Answer {
        match State::host(self, record) {
            Ok(entry) => Answer {
                number: 0,
                entry: entry.into(),
            },
            Err(refusal) => Answer {
                number: refusal.number(),
                entry: 0,
            },
        }
    }

    fn key(&mut self, position: u64) -> u64 {
        number(State::key(self, position))
    }

    fn boundary(&mut self) -> u64 {
        State::boundary(self);
        0
    }

    fn map(&self, payload: &[u8], out: &mut [u8]) -> u64 {
        number(State::map(self, payload, out))
    }
}

impl Kit for State {
    fn octets(&self) -> [u8; STATE] {
        *State::octets(self)
    }
}

/// A state of any octets, which the binding has not, through the C interface.
#[derive(Clone)]
struct Octets([u8; STATE]);

impl Calls for Octets {
    fn host(&mut self, record: &[u8]) -> Answer {
        // SAFETY: the state is lent whole, the record with its length.
        let answer = answered(|answer| unsafe {
            sys::jk_host(&mut self.0, record.as_ptr(), record.len(), answer)
        });
        let [number, entry, ..] = answer;
        assert_eq!(answer, places([number, entry]));
        Answer { number, entry }
    }

    fn key(&mut self, position: u64) -> u64 {
        // SAFETY: the state is lent whole.
        unsafe { sys::jk_key(&mut self.0, position) }
    }

    fn boundary(&mut self) -> u64 {
        // SAFETY: the state is lent whole.
        unsafe { sys::jk_boundary(&mut self.0) }
    }

    fn map(&self, payload: &[u8], out: &mut [u8]) -> u64 {
        // SAFETY: the state is lent whole, every pointer comes with the length
        // of its own slice.
        unsafe {
            sys::jk_map(
                &self.0,
                payload.as_ptr(),
                payload.len(),
                out.as_mut_ptr(),
                out.len(),
            )
        }
    }
}

impl Kit for Octets {
    fn octets(&self) -> [u8; STATE] {
        self.0
    }
}

#[derive(Debug)]
enum Call {
    Host(Vec<u8>),
    Key(u64),
    Boundary,
    /// Octets made from a salt, so that a history can be read.
    Map {
        salt: u64,
        octets: usize,
        room: usize,
    },
}

fn call(r: &mut Random) -> Call {
    match r.below(16) {
        0 => Call::Key(0),
        1 | 2 => Call::Key(1),
        3 => {
            let any = r.any();
            Call::Key(r.pick(&[2, 256, 1 << 32, (1 << 32) + 1, u64::MAX, any]))
        }
        4 | 5 => Call::Boundary,
        6 => {
            let n = r.pick(&[0, 1, 1, 1, 1, 2, 16, 17]);
            let octets: usize = 496 * n + r.pick(&[0, 0, 0, 1]);
            let octets = octets.saturating_sub(r.pick(&[0, 0, 0, 1]));
            Call::Map {
                salt: r.any(),
                octets,
                room: room(r, octets),
            }
        }
        7 => {
            let length = r.pick(&[0, 1, 3, 5, 8]);
            let mut record = r.octets(length);
            if length > 0 {
                record[0] = r.between(1, 4) as u8;
            }
            Call::Host(record)
        }
        8 => Call::Host(r.octets(4)),
        _ => {
            let kind = r.pick(&[1, 1, 1, 1, 2, 2, 3, 4, 0, 5]);
            let a = r.between(0, 32) as u8;
            let b = r.between(0, 32) as u8;
            Call::Host(vec![kind, a, b, r.octet()])
        }
    }
}

/// The call's answer and what is then in the output, if it has one.
fn make(state: &mut impl Calls, call: &Call) -> (Answer, Vec<u8>) {
    let number = |number| Answer { number, entry: 0 };
    match call {
        Call::Host(record) => (state.host(record), Vec::new()),
        Call::Key(position) => (number(state.key(*position)), Vec::new()),
        Call::Boundary => (number(state.boundary()), Vec::new()),
        Call::Map { salt, octets, room } => {
            let payload = Random::new(*salt, 0).octets(*octets);
            let mut out = vec![0xAA; *room];
            (number(state.map(&payload, &mut out)), out)
        }
    }
}

fn live(state: &impl Calls) -> Vec<Answer> {
    let mut state = state.clone();
    (1..=31).map(|a| state.host(&[3, a, 0, 0])).collect()
}

/// All that calls can show of a state: the flag, the live map, and by calls on
/// copies the waiting map and the staged one; and a mapping.
fn shown(state: &impl Calls) -> (Vec<Answer>, Vec<u8>) {
    let mut all = live(state);
    let mut copy = state.clone();
    copy.boundary();
    all.extend(live(&copy));
    all.push(state.clone().host(&[4, 0, 0, 0]));
    let mut copy = state.clone();
    copy.key(1);
    all.push(copy.host(&[2, 0, 0, 0]));
    copy.boundary();
    all.extend(live(&copy));
    let payload: Vec<u8> = (0..496).map(|i| (i * 7) as u8).collect();
    let mut out = vec![0; 496];
    state.map(&payload, &mut out);
    (all, out)
}

/// Where the state's octets hold what, found by calls alone.
struct Layout {
    flag: usize,
    staged_is: usize,
    waiting_is: usize,
    live: [usize; 32],
    staged: [usize; 32],
    waiting: [usize; 32],
}

/// The only octet in which the two differ, those known left aside.
fn only(one: &State, other: &State, known: &[usize]) -> usize {
    let (one, other) = (one.octets(), other.octets());
    let differ: Vec<usize> = (0..STATE)
        .filter(|i| one[*i] != other[*i] && !known.contains(i))
        .collect();
    assert_eq!(differ.len(), 1, "{differ:?}");
    differ[0]
}

impl Layout {
    fn found() -> Result<Layout, Refusal> {
        let start = State::new();
        let mut keyed = start.clone();
        keyed.key(1)?;
        let mut layout = Layout {
            flag: only(&start, &keyed, &[]),
            staged_is: 0,
            waiting_is: 0,
            live: [0; 32],
            staged: [0; 32],
            waiting: [0; 32],
        };
        // Two states that differ in one entry, which calls then move along.
        let mut maps = Vec::new();
        for a in 1..32 {
            let (mut one, mut other) = (keyed.clone(), keyed.clone());
            one.host(&[1, a as u8, 1, 0])?;
            other.host(&[1, a as u8, 2, 0])?;
            layout.staged[a] = only(&one, &other, &[]);
            maps.push(layout.staged[a]);
            one.host(&[2, 0, 0, 0])?;
            other.host(&[2, 0, 0, 0])?;
            layout.waiting[a] = only(&one, &other, &maps);
            maps.push(layout.waiting[a]);
            one.boundary();
            other.boundary();
            layout.live[a] = only(&one, &other, &maps);
            maps.push(layout.live[a]);
        }
        let mut staged = keyed.clone();
        staged.host(&[1, 1, 1, 0])?;
        layout.staged_is = only(&keyed, &staged, &maps);
        maps.push(layout.staged_is);
        let mut waiting = staged.clone();
        waiting.host(&[2, 0, 0, 0])?;
        layout.waiting_is = only(&staged, &waiting, &maps);
        Ok(layout)
    }

    fn unpacked(&self, octets: &[u8; STATE]) -> Exchange {
        let map = |places: &[usize; 32]| -> Map { places.map(|i| octets[i]) };
        let is = |place: usize| octets[place] == 1;
        Exchange {
            flag: is(self.flag),
            live: map(&self.live),
            staged: is(self.staged_is).then(|| map(&self.staged)),
            waiting: is(self.waiting_is).then(|| map(&self.waiting)),
        }
    }

    /// Octets of any value, entries in use often enough, flags mostly 1.
    fn any(&self, r: &mut Random) -> [u8; STATE] {
        let most = r.pick(&[32, 40, 256]);
        let mut octets = std::array::from_fn(|_| r.below(most) as u8);
        for place in [self.flag, self.staged_is, self.waiting_is] {
            octets[place] = r.pick(&[1, 1, 1, 0, 2, 3, 129, 255]);
        }
        octets
    }
}

/// One run on both sides, each call's number counted.
fn run(r: &mut Random, mut kit: impl Kit, mut oracle: Exchange, numbers: &mut [u64; 14]) {
    let mut history = Vec::new();
    assert_eq!(shown(&kit), shown(&oracle), "before any call");
    for i in 0..CALLS {
        let call = call(r);
        let before = kit.octets();
        let (kit_answer, answer) = (make(&mut kit, &call), make(&mut oracle, &call));
        history.push(call);
        let last = history.last().unwrap();
        assert_eq!(kit_answer.0, answer.0, "{last:?} after {history:?}");
        assert!(kit_answer.1 == answer.1, "output after {history:?}");
        let refused = answer.0.number != 0;
        let reads = match last {
            Call::Map { .. } => true,
            Call::Host(record) => record.first() == Some(&3),
            _ => false,
        };
        if refused || reads {
            assert!(kit.octets() == before, "octets after {history:?}");
        }
        if i % 10 == 9 {
            assert_eq!(shown(&kit), shown(&oracle), "after {history:?}");
        } else {
            assert_eq!(live(&kit), live(&oracle), "after {history:?}");
        }
        numbers[answer.0.number as usize] += 1;
    }
}

#[test]
fn runs() {
    let seed = seed(&format!("{RUNS} runs of {CALLS} calls, the library"));
    let layout = Layout::found().unwrap();
    let mut numbers = [0; 14];
    for item in 0..RUNS {
        let r = &mut Random::new(seed, item);
        if item % 2 == 0 {
            run(r, State::new(), Exchange::start(), &mut numbers);
        } else {
            let octets = layout.any(r);
            run(r, Octets(octets), layout.unpacked(&octets), &mut numbers);
        }
    }
    for number in [0, 4, 5, 8, 9, 10, 11, 12, 13] {
        assert!(numbers[number] >= 500, "{numbers:?}");
    }
}
