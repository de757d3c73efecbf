//! Why a call was refused: the numbers of castribba_common.h, and the values that two of them carry.

use core::fmt;

/// Why a call was refused. Nothing was changed, and nothing was written; a reader of pieces may have ended.
///
/// More may come with later versions.
#[derive(Clone, Copy, Debug, PartialEq, Eq, Hash)]
#[non_exhaustive]
pub enum Refusal {
    /// 1: a bad length, kind, unused field, order or zero counter in an image.
    Malformed,
    /// 2: an image over its longest length, or over a limit.
    OverLimit,
    /// 3: records of an image that belong together do not.
    Unrelated,
    /// 4: the result would have a clock of more than 8 dots.
    TooManyDots,
    /// 5: the result would have more than 32 entries.
    TooManyEntries,
    /// 6: the result would have an entry of more than 4 values.
    TooManyValues,
    /// 7: the result would have more than 16 waiting removals.
    TooManyWaiting,
    /// 8: the result would have a waiting removal of more than 16 keys.
    TooManyKeys,
    /// 9: the actor's counter is at its largest, and no update can be made.
    CounterSpent,
    /// 10: the output buffer is shorter than the answer.
    ShortBuffer,
    /// 11: the map clock, or else the entry of the update's key, has not seen the update's actor from
    /// counter `start` on; `end` is the update's own.
    Gap { start: u64, end: u64 },
    /// 12: the two maps hold one dot under different keys.
    DoubleSpent { actor: u16, counter: u64, our_key: u32, their_key: u32 },
    /// 13: the reader of pieces has ended, or was not begun.
    Ended,
    /// 14: the loader has no such bay.
    NoBay,
    /// 16: the operations of a list end in another map's image than theirs.
    EndsElsewhere,
    /// 17: a list has more than 32 operations.
    TooManyOperations,
    /// 18: a floor of more than 64 peers.
    TooManyPeers,
    /// A number that this version does not know: the archive is of a later one.
    Unknown(u32),
}

impl Refusal {
    /// The number that the archive answers.
    ///
    /// ```
    /// assert_eq!(castribba::Refusal::Gap { start: 1, end: 2 }.number(), 11);
    /// ```
    pub fn number(&self) -> u32 {
        match self {
            Refusal::Malformed => 1,
            Refusal::OverLimit => 2,
            Refusal::Unrelated => 3,
            Refusal::TooManyDots => 4,
            Refusal::TooManyEntries => 5,
            Refusal::TooManyValues => 6,
            Refusal::TooManyWaiting => 7,
            Refusal::TooManyKeys => 8,
            Refusal::CounterSpent => 9,
            Refusal::ShortBuffer => 10,
            Refusal::Gap { .. } => 11,
            Refusal::DoubleSpent { .. } => 12,
            Refusal::Ended => 13,
            Refusal::NoBay => 14,
            Refusal::EndsElsewhere => 16,
            Refusal::TooManyOperations => 17,
            Refusal::TooManyPeers => 18,
            Refusal::Unknown(number) => *number,
        }
    }

    /// The refusal with this number, where it carries nothing.
    pub(crate) fn with_number(number: u32) -> Refusal {
        match number {
            1 => Refusal::Malformed,
            2 => Refusal::OverLimit,
            3 => Refusal::Unrelated,
            4 => Refusal::TooManyDots,
            5 => Refusal::TooManyEntries,
            6 => Refusal::TooManyValues,
            7 => Refusal::TooManyWaiting,
            8 => Refusal::TooManyKeys,
            9 => Refusal::CounterSpent,
            10 => Refusal::ShortBuffer,
            13 => Refusal::Ended,
            14 => Refusal::NoBay,
            16 => Refusal::EndsElsewhere,
            17 => Refusal::TooManyOperations,
            18 => Refusal::TooManyPeers,
            _ => Refusal::Unknown(number),
        }
    }
}

impl fmt::Display for Refusal {
    fn fmt(&self, f: &mut fmt::Formatter<'_>) -> fmt::Result {
        match self {
            Refusal::Malformed => write!(f, "an image is malformed"),
            Refusal::OverLimit => write!(f, "an image is over its longest length or a limit"),
            Refusal::Unrelated => write!(f, "records of an image that belong together do not"),
            Refusal::TooManyDots => write!(f, "a clock would have more than 8 dots"),
            Refusal::TooManyEntries => write!(f, "the map would have more than 32 entries"),
            Refusal::TooManyValues => write!(f, "an entry would have more than 4 values"),
            Refusal::TooManyWaiting => write!(f, "more than 16 removals would wait"),
            Refusal::TooManyKeys => write!(f, "a waiting removal would have more than 16 keys"),
            Refusal::CounterSpent => write!(f, "the actor's counter is at its largest"),
            Refusal::ShortBuffer => write!(f, "the output buffer is shorter than the answer"),
            Refusal::Gap { start, end } => {
                write!(f, "update {end} came, but those from {start} on are missing")
            }
            Refusal::DoubleSpent { actor, counter, our_key, their_key } => write!(
                f,
                "update {counter} of actor {actor} is under key {our_key} here, {their_key} there"
            ),
            Refusal::Ended => write!(f, "the reader of pieces has ended, or was not begun"),
            Refusal::NoBay => write!(f, "there is no such bay"),
            Refusal::EndsElsewhere => write!(f, "the operations end in another map than theirs"),
            Refusal::TooManyOperations => write!(f, "the list has more than 32 operations"),
            Refusal::TooManyPeers => write!(f, "more than 64 peers"),
            Refusal::Unknown(_) => write!(f, "a number that this version does not know"),
        }
    }
}

impl core::error::Error for Refusal {}

/// Why a list of operations does not bring one map to another.
#[derive(Clone, Copy, Debug, PartialEq, Eq, Hash)]
pub enum Rejected {
    /// Our map's image is refused.
    Ours(Refusal),
    /// Their map's image is refused.
    Theirs(Refusal),
    /// The operation at this place, counted from 0, is refused.
    Operation { place: usize, refusal: Refusal },
    /// [`Refusal::TooManyOperations`] or [`Refusal::EndsElsewhere`].
    List(Refusal),
}

impl Rejected {
    /// The refusal, whatever it is of.
    pub fn refusal(&self) -> Refusal {
        match *self {
            Rejected::Ours(refusal) | Rejected::Theirs(refusal) | Rejected::List(refusal) => {
                refusal
            }
            Rejected::Operation { refusal, .. } => refusal,
        }
    }
}

impl fmt::Display for Rejected {
    fn fmt(&self, f: &mut fmt::Formatter<'_>) -> fmt::Result {
        match self {
            Rejected::Ours(refusal) => write!(f, "our map: {refusal}"),
            Rejected::Theirs(refusal) => write!(f, "their map: {refusal}"),
            Rejected::Operation { place, refusal } => write!(f, "operation {place}: {refusal}"),
            Rejected::List(refusal) => write!(f, "{refusal}"),
        }
    }
}

impl core::error::Error for Rejected {}
