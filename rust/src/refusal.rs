use crate::sys::ANSWER;
use std::error::Error;
use std::fmt;

/// Why a call is refused. A refused call changes nothing.
#[derive(Clone, Copy, Debug, PartialEq, Eq, Hash)]
#[non_exhaustive]
pub enum Refusal {
    /// The image, or the joined line, is under 2,048 octets; of T1, the image
    /// is under 1,158.
    ShortImage,
    /// The image is over 8,192 octets.
    LongImage,
    /// No place with room, 16,384 bits to the end of the image, has basic
    /// alignment: no frames are found. Of T1, no place stands.
    NoPlace,
    /// An output is shorter than the call needs.
    ShortOutput,
    /// The payload isn't 496n octets, n from 1 to 16; of T1, 576n octets, n
    /// from 1 to 14.
    BadPayload,
    /// The overhead isn't 8n octets, or one has a bit that must be 0; of T1,
    /// the data link isn't 12n octets of 0 or 1.
    BadOverhead,
    /// The carried check is over 15; of T1, over 63.
    BadCheck,
    /// The record isn't 4 octets.
    BadRecord,
    /// The kind isn't 1 to 4.
    BadKind,
    /// The output slot isn't 1 to 31, or the input slot is over 31.
    BadSlot,
    /// The key is off, and the record is not one that reads.
    KeyOff,
    /// Nothing is staged, so there is nothing to commit or drop.
    NothingStaged,
    /// The key's position isn't 0 or 1.
    BadPosition,
    /// Fewer than 16,384 bits from the place to the end of the image.
    LatePlace,
    /// A place with room has basic alignment, but none stands: no such place
    /// has a pair of multiframe signals. No other refusal has a value.
    BasicOnly {
        /// The first place with room and basic alignment, of which
        /// [`why`](crate::why()) says [`NoPair`](crate::Why::NoPair).
        place: usize,
    },
    /// XY isn't n octets of 0 to 15, or ABCD isn't 30n octets of 1 to 15; of
    /// T1, the signalling isn't 96n octets of 0 or 1.
    BadSignals,
    /// With the chunk the joined line would be over 16,777,216 octets.
    LongLine,
    /// The stream has ended.
    Ended,
}

use Refusal::*;

impl Refusal {
    /// The number that the library answers for it.
    pub fn number(self) -> u64 {
        match self {
            ShortImage => 1,
            LongImage => 2,
            NoPlace => 3,
            ShortOutput => 4,
            BadPayload => 5,
            BadOverhead => 6,
            BadCheck => 7,
            BadRecord => 8,
            BadKind => 9,
            BadSlot => 10,
            KeyOff => 11,
            NothingStaged => 12,
            BadPosition => 13,
            LatePlace => 14,
            BasicOnly { .. } => 15,
            BadSignals => 16,
            LongLine => 17,
            Ended => 21,
        }
    }

    /// The refusal that an answer of the library says, by its number in place
    /// 0 and, with number 15, the value behind it; none where the call is
    /// accepted. That value is [`jk_read`](crate::sys::jk_read)'s or
    /// [`jk_end`](crate::sys::jk_end)'s:
    /// [`jk_signals`](crate::sys::jk_signals) has a 0 there, which is no place.
    ///
    /// # Panics
    ///
    /// Where the number is none that the C header names.
    pub fn from_answer(answer: &[u64; ANSWER]) -> Option<Refusal> {
        Some(match answer[0] {
            0 => return None,
            1 => ShortImage,
            2 => LongImage,
            3 => NoPlace,
            4 => ShortOutput,
            5 => BadPayload,
            6 => BadOverhead,
            7 => BadCheck,
            8 => BadRecord,
            9 => BadKind,
            10 => BadSlot,
            11 => KeyOff,
            12 => NothingStaged,
            13 => BadPosition,
            14 => LatePlace,
            15 => BasicOnly {
                place: answer[1] as usize,
            },
            16 => BadSignals,
            17 => LongLine,
            21 => Ended,
            number => panic!("a number that the header does not name: {number}"),
        })
    }
}

impl fmt::Display for Refusal {
    fn fmt(&self, f: &mut fmt::Formatter) -> fmt::Result {
        f.write_str(match self {
            ShortImage => {
                "the image, or the joined line, is under 2,048 octets; of T1, under 1,158"
            }
            LongImage => "the image is over 8,192 octets",
            NoPlace => "no place with room has basic alignment; of T1, no place stands",
            ShortOutput => "an output is shorter than the call needs",
            BadPayload => {
                "the payload isn't 496n octets, n from 1 to 16; of T1, 576n, n from 1 to 14"
            }
            BadOverhead => {
                "the overhead isn't 8n octets, or one has a bit that must be 0; \
                 of T1, the data link isn't 12n octets of 0 or 1"
            }
            BadCheck => "the carried check is over 15; of T1, over 63",
            BadRecord => "the record isn't 4 octets",
            BadKind => "the kind isn't 1 to 4",
            BadSlot => "the output slot isn't 1 to 31, or the input slot is over 31",
            KeyOff => "the key is off, and the record is not one that reads",
            NothingStaged => "nothing is staged, so there is nothing to commit or drop",
            BadPosition => "the key's position isn't 0 or 1",
            LatePlace => "fewer than 16,384 bits from the place to the end of the image",
            BasicOnly { place } => {
                return write!(f, "place {place} has basic alignment, but no place stands");
            }
            BadSignals => {
                "XY isn't n octets of 0 to 15, or ABCD isn't 30n octets of 1 to 15; \
                 of T1, the signalling isn't 96n octets of 0 or 1"
            }
            LongLine => "with the chunk the joined line would be over 16,777,216 octets",
            Ended => "the stream has ended",
        })
    }
}

impl Error for Refusal {}

/// Nothing where the call is accepted, else the refusal.
pub(crate) fn accepted(answer: &[u64; ANSWER]) -> Result<(), Refusal> {
    Refusal::from_answer(answer).map_or(Ok(()), Err)
}

/// The same of a call that answers its number and nothing else.
pub(crate) fn accepted_number(number: u64) -> Result<(), Refusal> {
    let mut answer = [0; ANSWER];
    answer[0] = number;
    accepted(&answer)
}
