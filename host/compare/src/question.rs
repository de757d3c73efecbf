//! One call with its arguments: what the oracle answers to it, and what an implementation does.

use calls::Calls;
use oracle::expected::{self, Answer};
use oracle::image::{bytes_of, records_of, RECORD_LENGTH};
use oracle::model::ValueAndOrigin;
use std::fmt;

#[derive(Clone, Copy, Debug, PartialEq, Eq, PartialOrd, Ord)]
pub enum Call {
    Apply,
    Merge,
    ResetRemove,
    Update,
    RmGet,
    RmReadCtx,
    Get,
    Len,
    ValidateOp,
    ValidateMerge,
    Ready,
    CatchUp,
    Bay,
    Bays,
    ClockAdvance,
    PiecesTake,
    PiecesEnd,
    Differences,
    Floor,
}

impl Call {
    pub const ALL: [Call; 19] = [
        Call::Apply,
        Call::Merge,
        Call::ResetRemove,
        Call::Update,
        Call::RmGet,
        Call::RmReadCtx,
        Call::Get,
        Call::Len,
        Call::ValidateOp,
        Call::ValidateMerge,
        Call::Ready,
        Call::CatchUp,
        Call::Bay,
        Call::Bays,
        Call::ClockAdvance,
        Call::PiecesTake,
        Call::PiecesEnd,
        Call::Differences,
        Call::Floor,
    ];

    /// The largest number that any of them can answer.
    pub const MOST: u32 = 21;

    pub fn name(self) -> &'static str {
        match self {
            Call::Apply => "apply",
            Call::Merge => "merge",
            Call::ResetRemove => "reset_remove",
            Call::Update => "update",
            Call::RmGet => "rm_get",
            Call::RmReadCtx => "rm_read_ctx",
            Call::Get => "get",
            Call::Len => "len",
            Call::ValidateOp => "validate_op",
            Call::ValidateMerge => "validate_merge",
            Call::Ready => "ready",
            Call::CatchUp => "catch_up",
            Call::Bay => "bay",
            Call::Bays => "bays",
            Call::ClockAdvance => "clock_advance",
            Call::PiecesTake => "pieces_take",
            Call::PiecesEnd => "pieces_end",
            Call::Differences => "differences",
            Call::Floor => "floor",
        }
    }

    /// Whether the second image is a map's too.
    pub fn takes_two_maps(self) -> bool {
        matches!(self, Call::Merge | Call::ValidateMerge | Call::CatchUp | Call::Differences)
    }

    /// The numbers that the call can answer: a run must meet each of them.
    pub fn possible(self) -> &'static [u32] {
        match self {
            Call::Apply | Call::Merge => &[0, 1, 2, 3, 4, 5, 6, 7, 8, 10],
            // a reset makes nothing longer but the key list of united removals
            Call::ResetRemove => &[0, 1, 2, 3, 8, 10],
            Call::Update => &[0, 1, 2, 3, 4, 9, 10],
            Call::RmGet | Call::RmReadCtx | Call::Get => &[0, 1, 2, 3, 10],
            Call::Len => &[0, 1, 2, 3],
            Call::ValidateOp => &[0, 1, 2, 3, 11],
            Call::ValidateMerge => &[0, 1, 2, 3, 12],
            Call::Ready => &[0, 1, 2, 3, 19, 20, 21],
            Call::CatchUp => &[0, 1, 2, 3, 4, 5, 6, 7, 8, 16, 17],
            Call::Bay => &[0, 1, 2, 3, 10, 14],
            Call::Bays => &[0, 1, 2, 3, 10],
            Call::ClockAdvance => &[0, 1, 2, 4],
            Call::PiecesTake => &[0, 13],
            Call::PiecesEnd => &[0, 1, 2, 3, 10, 13],
            Call::Differences => &[0, 1, 2, 3, 10],
            Call::Floor => &[0, 1, 2, 18],
        }
    }
}

/// A call over images. Arguments that the call does not take are zero or missing.
#[derive(Clone)]
pub struct Question {
    pub call: Call,
    pub images: Vec<Vec<u8>>,
    pub actor: u16,
    pub key: u32,
    pub value: ValueAndOrigin,
}

impl Question {
    pub fn of_one(call: Call, map: &[u8]) -> Question {
        Question { call, images: vec![map.to_vec()], actor: 0, key: 0, value: (0, 0) }
    }

    pub fn of_two(call: Call, first: &[u8], second: &[u8]) -> Question {
        let images = vec![first.to_vec(), second.to_vec()];
        Question { call, images, actor: 0, key: 0, value: (0, 0) }
    }

    pub fn of_three(call: Call, map: &[u8], other: &[u8], list: &[u8]) -> Question {
        let images = vec![map.to_vec(), other.to_vec(), list.to_vec()];
        Question { call, images, actor: 0, key: 0, value: (0, 0) }
    }

    /// What must be answered, given room enough. An error is a disagreement of the published
    /// crate with document 01.
    pub fn expected(&self) -> Result<Answer, String> {
        let (first, second) = (&self.images[0][..], self.images.last().unwrap());
        Ok(match self.call {
            Call::Apply => expected::apply(first, second),
            Call::Merge => expected::merge(first, second),
            Call::ResetRemove => expected::reset_remove(first, second)?,
            Call::Update => expected::update(first, self.actor, self.key, self.value),
            Call::RmGet => expected::rm_get(first, self.key),
            Call::RmReadCtx => expected::rm_read_ctx(first, self.key),
            Call::Get => expected::get(first, self.key),
            Call::Len => expected::len(first),
            Call::ValidateOp => expected::validate_op(first, second),
            Call::ValidateMerge => expected::validate_merge(first, second),
            Call::Ready => expected::ready(first, second),
            Call::CatchUp => expected::catch_up(first, &self.images[1], second),
            Call::Bay => expected::bay(first, self.key),
            Call::Bays => expected::bays(first),
            Call::Differences => expected::differences(first, second),
            Call::ClockAdvance | Call::Floor => unreachable!("a lent clock is no image"),
            Call::PiecesTake | Call::PiecesEnd => unreachable!("a reader is no image"),
        })
    }

    /// The word, and the numbers that the calls beside this one carry. The images are lent anew,
    /// so that they can stand anywhere in memory.
    pub fn ask(&self, calls: &dyn Calls, images: &[&[u8]], out: &mut [u8]) -> (u64, Vec<u64>) {
        let (first, second) = (images[0], images[images.len() - 1]);
        match self.call {
            Call::Apply => {
                let deleted = calls.apply_deleted(first, second, out.len());
                (calls.apply(first, second, out), vec![deleted])
            }
            Call::Merge => (calls.merge(first, second, out), vec![]),
            Call::ResetRemove => {
                let deleted = calls.reset_remove_deleted(first, second, out.len());
                (calls.reset_remove(first, second, out), vec![deleted])
            }
            Call::Update => {
                let (value, origin) = self.value;
                (calls.update(first, self.actor, self.key, value, origin, out), vec![])
            }
            Call::RmGet => (calls.rm_get(first, self.key, out), vec![]),
            Call::RmReadCtx => (calls.rm_read_ctx(first, self.key, out), vec![]),
            Call::Get => (calls.get(first, self.key, out), vec![]),
            Call::Len => (calls.len(first), vec![calls.len_count(first)]),
            Call::ValidateOp => {
                let start = calls.validate_op_start(first, second);
                let end = calls.validate_op_end(first, second);
                (calls.validate_op(first, second), vec![start, end])
            }
            Call::ValidateMerge => {
                let carried = vec![
                    calls.validate_merge_actor(first, second),
                    calls.validate_merge_counter(first, second),
                    calls.validate_merge_our_key(first, second),
                    calls.validate_merge_their_key(first, second),
                ];
                (calls.validate_merge(first, second), carried)
            }
            Call::Ready => {
                let actor = calls.ready_actor(first, second);
                let counter = calls.ready_counter(first, second);
                (calls.ready(first, second), vec![actor, counter])
            }
            Call::CatchUp => {
                let place = calls.catch_up_place(first, images[1], second);
                (calls.catch_up(first, images[1], second), vec![place])
            }
            Call::Bay => (calls.bay(first, self.key, out), vec![]),
            Call::Bays => (calls.bays(first, out), vec![]),
            Call::Differences => (calls.differences(first, second, out), vec![]),
            Call::ClockAdvance | Call::Floor => unreachable!("a lent clock is no image"),
            Call::PiecesTake | Call::PiecesEnd => unreachable!("a reader is no image"),
        }
    }

    /// Whether no origin of a value in the images has any part in the answer.
    pub fn is_blind_to_origins(&self) -> bool {
        !matches!(
            self.call,
            Call::Apply
                | Call::Merge
                | Call::ResetRemove
                | Call::Get
                | Call::CatchUp
                | Call::Differences
        )
    }

    /// The same question, where each value's origin in the images is another, or by chance the same.
    pub fn with_other_origins(&self, mut origin: impl FnMut() -> u16) -> Question {
        let changed = |image: &Vec<u8>| {
            let mut records = records_of(image);
            for record in records.iter_mut().filter(|record| record.holds_value()) {
                record.actor = origin();
            }
            let behind = &image[records.len() * RECORD_LENGTH..];
            [&bytes_of(&records)[..], behind].concat()
        };
        Question { images: self.images.iter().map(changed).collect(), ..self.clone() }
    }

    /// Whether the call has an output buffer.
    pub fn writes(&self) -> bool {
        !matches!(
            self.call,
            Call::Len | Call::ValidateOp | Call::ValidateMerge | Call::Ready | Call::CatchUp
        )
    }
}

/// The records of an image as `mapdump` prints them.
pub fn dump(image: &[u8]) -> String {
    let mut lines: Vec<String> = records_of(image)
        .iter()
        .map(|r| format!("    {} {} {} {} {}", r.kind, r.index, r.actor, r.key, r.number))
        .collect();
    if image.len() % 16 != 0 {
        lines.push(format!("    and the bytes {:?}", &image[image.len() / 16 * 16..]));
    }
    lines.join("\n")
}

impl fmt::Display for Question {
    fn fmt(&self, f: &mut fmt::Formatter<'_>) -> fmt::Result {
        write!(f, "{}", self.call.name())?;
        if self.call == Call::Update {
            let (value, origin) = self.value;
            write!(f, " by actor {} of key {} to {value}", self.actor, self.key)?;
            write!(f, ", origin {origin}")?;
        } else if matches!(self.call, Call::RmGet | Call::RmReadCtx | Call::Get | Call::Bay) {
            write!(f, " of key {}", self.key)?;
        }
        for (place, image) in self.images.iter().enumerate() {
            write!(f, "\n  image {place}, {} bytes:\n{}", image.len(), dump(image))?;
        }
        Ok(())
    }
}
