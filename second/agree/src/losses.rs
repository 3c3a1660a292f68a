//! The losses of the lines that are read: how many there are of each kind, and
//! how many lines each of some wrong rules would answer otherwise. Every count
//! is to have its share.

use oracle::line::{bits, wrong_bits, FRAME};
use oracle::Reading;

/// The frames from the place on up to the image's end.
struct Frames {
    /// Whether the word of an even frame, or bit 2 of an odd one, is wrong.
    wrong: Vec<bool>,
    /// Whether bit 2 is 0, of even ones too.
    zero: Vec<bool>,
    /// Those of the whole multiframes.
    from: usize,
    to: usize,
}

impl Frames {
    fn of(image: &[u8], r: &Reading) -> Frames {
        let bits = bits(image);
        let begins = (r.place as usize..bits.len() - 7).step_by(FRAME);
        let zero: Vec<bool> = begins.clone().map(|p| bits[p + 1] == 0).collect();
        let wrong = |(f, p): (usize, usize)| match f % 2 {
            0 => wrong_bits(&bits, p) != 0,
            _ => zero[f],
        };
        let from = (r.start - r.place) as usize / FRAME;
        Frames {
            wrong: begins.enumerate().map(wrong).collect(),
            zero,
            from,
            to: from + 16 * r.whole as usize,
        }
    }

    /// Of the whole multiframes.
    fn wrong(&self) -> &[bool] {
        &self.wrong[self.from..self.to]
    }

    fn zero(&self) -> &[bool] {
        &self.zero[self.from..self.to]
    }
}

/// Whether f and the two frames of its kind before it are wrong.
fn third(w: &[bool], f: usize) -> bool {
    f >= 4 && w[f - 4] && w[f - 2] && w[f]
}

fn first(w: &[bool], lost: impl Fn(usize) -> bool) -> Option<usize> {
    (0..w.len()).find(|&f| lost(f))
}

fn by_words(w: &[bool]) -> Option<usize> {
    first(w, |f| f % 2 == 0 && third(w, f))
}

fn by_bits_2(w: &[bool]) -> Option<usize> {
    first(w, |f| f % 2 == 1 && third(w, f))
}

/// A rule for the frame of loss.
type Rule = fn(&Frames) -> Option<usize>;

const WRONG_RULES: [(&str, Rule); 13] = [
    ("words alone", |frames| by_words(frames.wrong())),
    ("bits 2 alone", |frames| by_bits_2(frames.wrong())),
    ("the later of the two", |frames| {
        let w = frames.wrong();
        by_words(w).max(by_bits_2(w))
    }),
    ("one run for both", |frames| {
        let w = frames.wrong();
        first(w, |f| f >= 2 && w[f - 2] && w[f - 1] && w[f])
    }),
    ("a right word ends both runs", |frames| {
        let w = frames.wrong();
        first(w, |f| third(w, f) && (f % 2 == 0 || w[f - 3] && w[f - 1]))
    }),
    ("a right bit 2 ends both runs", |frames| {
        let w = frames.wrong();
        first(w, |f| third(w, f) && (f % 2 == 1 || w[f - 3] && w[f - 1]))
    }),
    ("a right one ends no run", |frames| {
        let w = frames.wrong();
        let before = |f: usize| (f % 2..f).step_by(2).filter(|&f| w[f]).count();
        first(w, |f| w[f] && before(f) == 2)
    }),
    ("the fourth in a row", |frames| {
        let w = frames.wrong();
        first(w, |f| f >= 6 && w[f - 6] && third(w, f))
    }),
    ("a multiframe's end ends runs", |frames| {
        let w = frames.wrong();
        first(w, |f| f % 16 >= 4 && third(w, f))
    }),
    ("bit 2 of even frames", |frames| {
        let (w, zero) = (frames.wrong(), frames.zero());
        first(w, |f| f % 2 == 0 && (third(w, f) || third(zero, f)))
    }),
    ("bit 2 of all frames", |frames| {
        let (w, zero) = (frames.wrong(), frames.zero());
        let third_zero = |f: usize| f >= 2 && zero[f - 2] && zero[f - 1] && zero[f];
        first(w, |f| f % 2 == 0 && third(w, f) || third_zero(f))
    }),
    ("frames before the start", |frames| {
        let w = &frames.wrong[..frames.to];
        first(w, |f| f >= frames.from && third(w, f)).map(|f| f - frames.from)
    }),
    ("frames past the whole multiframes", |frames| {
        let w = &frames.wrong[frames.from..];
        first(w, |f| third(w, f))
    }),
];

/// What a line may have.
type Kind = fn(&Frames, &Reading) -> bool;

const KINDS: [(&str, Kind); 10] = [
    ("by words", |_, r| r.cause == 1),
    ("by bits 2", |_, r| r.cause == 2),
    ("by words, later by bits 2", |frames, r| {
        r.cause == 1 && by_bits_2(frames.wrong()).is_some()
    }),
    ("by bits 2, later by words", |frames, r| {
        r.cause == 2 && by_words(frames.wrong()).is_some()
    }),
    ("none, with bits 2 wrong", |frames, r| {
        let w = frames.wrong();
        r.cause == 0 && w.iter().skip(1).step_by(2).any(|wrong| *wrong)
    }),
    ("by bits 2 over an end", |_, r| {
        r.cause == 2 && r.lost % 16 < 4
    }),
    ("by bits 2, none used", |_, r| r.cause == 2 && r.used == 0),
    ("by bits 2, all but one used", |_, r| {
        r.cause == 2 && r.used + 1 == r.whole
    }),
    ("by bits 2 at frame 5", |_, r| r.cause == 2 && r.lost == 5),
    ("by bits 2 at the last frame", |_, r| {
        r.cause == 2 && r.lost + 1 == 16 * r.whole
    }),
];

/// How many lines of each kind, and told from each wrong rule.
#[derive(Default)]
pub struct Losses {
    kinds: [u64; KINDS.len()],
    told: [u64; WRONG_RULES.len()],
}

impl Losses {
    /// Counts a line that is accepted.
    pub fn count(&mut self, image: &[u8], r: &Reading) {
        let frames = Frames::of(image, r);
        for (count, (_, kind)) in self.kinds.iter_mut().zip(KINDS) {
            *count += u64::from(kind(&frames, r));
        }
        for (count, (_, rule)) in self.told.iter_mut().zip(WRONG_RULES) {
            *count += u64::from(rule(&frames).unwrap_or(0) as u64 != r.lost);
        }
    }

    /// Fails where one has had too few lines.
    pub fn check(&self) {
        for (count, (name, _)) in self.kinds.iter().zip(KINDS) {
            assert!(*count >= 10, "{name}: {count}");
        }
        for (count, (name, _)) in self.told.iter().zip(WRONG_RULES) {
            assert!(*count >= 100, "told from {name}: {count}");
        }
    }
}
