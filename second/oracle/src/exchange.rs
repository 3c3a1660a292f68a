//! The map and the key.

use crate::writing::multiframes;

/// Entry a of a map is `map[a]`, for a from 1 to 31; `map[0]` is no entry.
pub type Map = [u8; 32];

/// The state: the flag that the key sets, the live map, and the maps that may
/// be staged and waiting.
#[derive(Clone, Debug, PartialEq, Eq)]
pub struct Exchange {
    pub flag: bool,
    pub live: Map,
    pub staged: Option<Map>,
    pub waiting: Option<Map>,
}

/// What a host record gets back: the entry for kind 3, otherwise 0.
#[derive(Clone, Copy, Debug, Default, PartialEq, Eq)]
pub struct Answer {
    pub number: u64,
    pub entry: u64,
}

/// Each call but `host` gives its number alone.
impl Exchange {
    /// The flag off, and slot j taking from j.
    pub fn start() -> Exchange {
        Exchange {
            flag: false,
            live: std::array::from_fn(|j| j as u8),
            staged: None,
            waiting: None,
        }
    }

    /// The live entry as it is used: one over 31 counts as 0.
    fn live(&self, a: usize) -> u8 {
        match self.live[a] {
            entry @ 0..=31 => entry,
            _ => 0,
        }
    }

    /// The number that refuses the record, or 0.
    fn refusal(&self, record: &[u8]) -> u64 {
        let (kind, a, b) = match *record {
            [kind, a, b, _host] => (kind, a, b),
            _ => return 8,
        };
        if !(1..=4).contains(&kind) {
            return 9;
        }
        let a_wrong = !(1..=31).contains(&a);
        if (kind == 1 || kind == 3) && a_wrong || kind == 1 && b > 31 {
            return 10;
        }
        if kind != 3 && !self.flag {
            return 11;
        }
        if (kind == 2 || kind == 4) && self.staged.is_none() {
            return 12;
        }
        0
    }

    /// Takes a host's record: kind, a, b, host number.
    pub fn host(&mut self, record: &[u8]) -> Answer {
        let number = self.refusal(record);
        if number != 0 {
            return Answer { number, entry: 0 };
        }
        let (kind, a, b) = (record[0], record[1] as usize, record[2]);
        let mut entry = 0;
        match kind {
            1 => self.staged.get_or_insert(self.live)[a] = b,
            2 => self.waiting = self.staged.take(),
            3 => entry = u64::from(self.live(a)),
            _ => self.staged = None,
        }
        Answer { number: 0, entry }
    }

    /// Turns the key to a position.
    pub fn key(&mut self, position: u64) -> u64 {
        match position {
            0 => {
                self.flag = false;
                self.staged = None;
                self.waiting = None;
                0
            }
            1 => {
                self.flag = true;
                0
            }
            _ => 13,
        }
    }

    /// A multiframe boundary.
    pub fn boundary(&mut self) -> u64 {
        if let Some(map) = self.waiting.take() {
            self.live = map;
        }
        0
    }

    /// Puts every frame of a payload through the live map.
    pub fn map(&self, payload: &[u8], out: &mut [u8]) -> u64 {
        if multiframes(payload).is_none() {
            return 5;
        }
        if out.len() < payload.len() {
            return 4;
        }
        for (frame, out) in payload.chunks(31).zip(out.chunks_mut(31)) {
            for slot in 1..=31 {
                out[slot - 1] = match self.live(slot) {
                    0 => 255,
                    from => frame[from as usize - 1],
                };
            }
        }
        0
    }
}
