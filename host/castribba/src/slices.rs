//! The calls on byte slices: they take images of every content, and write into the caller's buffer.
//!
//! A call with an output buffer answers the length of the image at its start; bytes behind that
//! stay as they were.
//!
//! ```
//! use castribba::{slices, Refusal};
//!
//! let mut op = [0; castribba::LONGEST_OPERATION];
//! let len = slices::update(&[], 1, 5, 40, 0, &mut op)?;
//! assert_eq!(len, 48);
//! assert_eq!(slices::update(&[], 1, 5, 40, 0, &mut op[..47]), Err(Refusal::ShortBuffer));
//! # Ok::<(), Refusal>(())
//! ```

use crate::declared;
use crate::{Ready, Refusal, Rejected};

pub use crate::declared::{LentClock, LentDot, LentPieces};

const GAP: u32 = 11;
const DOUBLE_SPENT: u32 = 12;
const FOREIGN: u32 = 19;
const SEEN: u32 = 20;
const HOLD: u32 = 21;

fn number_of(word: u64) -> u32 {
    (word >> 32) as u32
}

/// What a word says, where its number carries nothing.
pub(crate) fn judged(word: u64) -> Result<usize, Refusal> {
    match number_of(word) {
        0 => Ok(word as u32 as usize),
        number => Err(Refusal::with_number(number)),
    }
}

/// A call on one image, with whatever plain arguments follow, and an output buffer or none.
macro_rules! with_one {
    ($call:ident, $image:expr $(, $argument:expr)* $(; $out:expr)?) => {
        // SAFETY: each pointer goes with the length of the slice that it comes from, and a mutable
        // slice overlaps no other.
        unsafe {
            $crate::declared::$call(
                $image.as_ptr(), $image.len() $(, $argument)* $(, $out.as_mut_ptr(), $out.len())?
            )
        }
    };
}
#[cfg(any(feature = "loader", feature = "salvage"))]
pub(crate) use with_one;

/// A call on two images, with an output buffer or none.
macro_rules! with_two {
    ($call:ident, $first:expr, $second:expr $(, $argument:expr)* $(; $out:expr)?) => {
        with_one!($call, $first, $second.as_ptr(), $second.len() $(, $argument)* $(; $out)?)
    };
}

/// The map after an operation.
pub fn apply(map: &[u8], op: &[u8], out: &mut [u8]) -> Result<usize, Refusal> {
    judged(with_two!(castribba_apply, map, op; out))
}

/// The two maps merged.
pub fn merge(map: &[u8], other: &[u8], out: &mut [u8]) -> Result<usize, Refusal> {
    judged(with_two!(castribba_merge, map, other; out))
}

/// The map without all that the clock has seen.
pub fn reset_remove(map: &[u8], clock: &[u8], out: &mut [u8]) -> Result<usize, Refusal> {
    judged(with_two!(castribba_reset_remove, map, clock; out))
}

/// How many dots [`apply`] deletes from entry clocks, given a buffer of `room` bytes: the dots in all entry
/// clocks before, less those after. 0 for an update, for a removal that only waits, and where the call is
/// refused.
///
/// ```
/// use castribba::{slices, Refusal, LONGEST_MAP, LONGEST_OPERATION};
///
/// let (mut op, mut map) = ([0; LONGEST_OPERATION], [0; LONGEST_MAP]);
/// let update = slices::update(&[], 1, 5, 40, 0, &mut op)?;
/// let len = slices::apply(&[], &op[..update], &mut map)?;
/// let removal = slices::rm_get(&map[..len], 5, &mut op)?;
/// assert_eq!(slices::apply_deleted(&map[..len], &op[..removal], LONGEST_MAP), 1);
/// assert_eq!(slices::apply_deleted(&map[..len], &op[..removal], 0), 0);
/// # Ok::<(), Refusal>(())
/// ```
pub fn apply_deleted(map: &[u8], op: &[u8], room: usize) -> u64 {
    with_one!(castribba_apply_deleted, map, op.as_ptr(), op.len(), room)
}

/// The same of [`reset_remove`].
pub fn reset_remove_deleted(map: &[u8], clock: &[u8], room: usize) -> u64 {
    with_one!(castribba_reset_remove_deleted, map, clock.as_ptr(), clock.len(), room)
}

/// The operation by which an actor puts a value under a key; `origin` says who set it.
pub fn update(
    map: &[u8],
    actor: u16,
    key: u32,
    value: u64,
    origin: u16,
    out: &mut [u8],
) -> Result<usize, Refusal> {
    judged(with_one!(castribba_update, map, actor, key, value, origin; out))
}

/// The operation that removes a key under its entry's clock; `Map::remove_entry` says what that is for.
pub fn rm_get(map: &[u8], key: u32, out: &mut [u8]) -> Result<usize, Refusal> {
    judged(with_one!(castribba_rm_get, map, key; out))
}

/// The operation that removes under a key all that the map has seen: the one that withdraws.
pub fn rm_read_ctx(map: &[u8], key: u32, out: &mut [u8]) -> Result<usize, Refusal> {
    judged(with_one!(castribba_rm_read_ctx, map, key; out))
}

/// The map clock and one entry alone.
pub fn get(map: &[u8], key: u32, out: &mut [u8]) -> Result<usize, Refusal> {
    judged(with_one!(castribba_get, map, key; out))
}

/// What differs between two maps: a record of five bytes for each key, as [`Differences`](crate::Differences)
/// reads them.
///
/// ```
/// use castribba::{slices, Class, Difference, Differences, Refusal, LONGEST_DIFFERENCES};
///
/// let (mut op, mut map) = ([0; castribba::LONGEST_OPERATION], [0; 64]);
/// let update = slices::update(&[], 1, 5, 40, 0, &mut op)?;
/// let len = slices::apply(&[], &op[..update], &mut map)?;
/// let mut out = [0; LONGEST_DIFFERENCES];
/// let report = slices::differences(&map[..len], &[], &mut out)?;
/// assert!(Differences::of(&out[..report]).eq([Difference { class: Class::OnlyFirst, key: 5 }]));
/// # Ok::<(), Refusal>(())
/// ```
pub fn differences(map: &[u8], other: &[u8], out: &mut [u8]) -> Result<usize, Refusal> {
    judged(with_two!(castribba_differences, map, other; out))
}

/// The number of entries.
pub fn len(map: &[u8]) -> Result<usize, Refusal> {
    judged(with_one!(castribba_len, map))?;
    Ok(with_one!(castribba_len_count, map) as usize)
}

/// Whether neither the map clock nor the entry of the update's key misses updates of its actor;
/// `Map::validate_op` has what this does not say.
pub fn validate_op(map: &[u8], op: &[u8]) -> Result<(), Refusal> {
    let word = with_two!(castribba_validate_op, map, op);
    if number_of(word) == GAP {
        return Err(Refusal::Gap {
            start: with_two!(castribba_validate_op_start, map, op),
            end: with_two!(castribba_validate_op_end, map, op),
        });
    }
    judged(word).map(|_| ())
}

/// Whether an operation may be applied: the guard. It judges no limit.
///
/// ```
/// use castribba::{slices, Ready, Refusal, LONGEST_MAP, LONGEST_OPERATION};
///
/// let (mut op, mut map) = ([0; LONGEST_OPERATION], [0; LONGEST_MAP]);
/// let update = slices::update(&[], 1, 5, 40, 0, &mut op)?;
/// assert_eq!(slices::ready(&[], &op[..update])?, Ready::Next);
/// let len = slices::apply(&[], &op[..update], &mut map)?;
/// assert_eq!(slices::ready(&map[..len], &op[..update])?, Ready::Seen);
/// let second = slices::update(&map[..len], 1, 6, 60, 0, &mut op)?;
/// assert_eq!(slices::ready(&[], &op[..second])?, Ready::Hold { actor: 1, counter: 1 });
/// # Ok::<(), Refusal>(())
/// ```
pub fn ready(map: &[u8], op: &[u8]) -> Result<Ready, Refusal> {
    let word = with_two!(castribba_ready, map, op);
    match number_of(word) {
        FOREIGN => Ok(Ready::Foreign),
        SEEN => Ok(Ready::Seen),
        HOLD => Ok(Ready::Hold {
            // an actor has 16 bits: the carried word holds nothing above
            actor: with_two!(castribba_ready_actor, map, op) as u16,
            counter: with_two!(castribba_ready_counter, map, op),
        }),
        _ => judged(word).map(|_| Ready::Next),
    }
}

/// Whether no dot stands under different keys in the two maps.
pub fn validate_merge(map: &[u8], other: &[u8]) -> Result<(), Refusal> {
    let word = with_two!(castribba_validate_merge, map, other);
    if number_of(word) == DOUBLE_SPENT {
        // an actor has 16 bits and a key 32: the carried words hold nothing above
        return Err(Refusal::DoubleSpent {
            actor: with_two!(castribba_validate_merge_actor, map, other) as u16,
            counter: with_two!(castribba_validate_merge_counter, map, other),
            our_key: with_two!(castribba_validate_merge_our_key, map, other) as u32,
            their_key: with_two!(castribba_validate_merge_their_key, map, other) as u32,
        });
    }
    judged(word).map(|_| ())
}

/// Whether a list of operation images, one after another, brings our map to theirs, byte for byte.
///
/// ```
/// use castribba::{slices, Map, Refusal, Rejected};
///
/// let mut theirs = Map::new();
/// let first = theirs.update(1, 5, 40, 0)?;
/// theirs.apply(&first)?;
/// let second = theirs.update(1, 6, 60, 0)?;
/// theirs.apply(&second)?;
/// let list = [first.as_image(), second.as_image()].concat();
/// assert_eq!(slices::catch_up(&[], theirs.as_image(), &list), Ok(()));
/// // a part of a record at the end belongs to the operation before it
/// let rejected = slices::catch_up(&[], theirs.as_image(), &list[..list.len() - 1]);
/// assert_eq!(rejected, Err(Rejected::Operation { place: 1, refusal: Refusal::Malformed }));
/// let rejected = slices::catch_up(&[], theirs.as_image(), first.as_image());
/// assert_eq!(rejected, Err(Rejected::List(Refusal::EndsElsewhere)));
/// # Ok::<(), Refusal>(())
/// ```
pub fn catch_up(map: &[u8], other: &[u8], list: &[u8]) -> Result<(), Rejected> {
    let word = with_two!(castribba_catch_up, map, other, list.as_ptr(), list.len());
    let Err(refusal) = judged(word) else { return Ok(()) };
    // a map's own number comes first
    if let Err(own) = len(map) {
        return Err(Rejected::Ours(own));
    }
    if let Err(own) = len(other) {
        return Err(Rejected::Theirs(own));
    }
    if matches!(refusal, Refusal::EndsElsewhere | Refusal::TooManyOperations) {
        return Err(Rejected::List(refusal));
    }
    let place = with_two!(castribba_catch_up_place, map, other, list.as_ptr(), list.len());
    Err(Rejected::Operation { place: place as usize, refusal })
}

/// Where each operation of a list begins and ends: it is cut before each whole record of kind 7 or 10.
pub fn operations(list: &[u8]) -> impl Iterator<Item = &[u8]> {
    let mut rest = list;
    core::iter::from_fn(move || {
        let head = |at: &usize| rest.len() - at >= 16 && matches!(rest[*at], 7 | 10);
        let end = (16..rest.len()).step_by(16).find(head).unwrap_or(rest.len());
        let (operation, behind) = rest.split_at(end);
        rest = behind;
        (!operation.is_empty()).then_some(operation)
    })
}

/// Advances a clock in place by one dot.
///
/// ```
/// use castribba::slices::{clock_advance, LentClock};
///
/// let mut clock = LentClock::default();
/// clock_advance(&mut clock, 1, 3)?;
/// assert_eq!((clock.len, clock.dots[0].counter), (1, 3));
/// # Ok::<(), castribba::Refusal>(())
/// ```
pub fn clock_advance(clock: &mut LentClock, actor: u16, counter: u64) -> Result<(), Refusal> {
    // SAFETY: a LentClock has the layout of castribba_clock.
    let word = unsafe { declared::castribba_clock_advance(clock, actor, counter) };
    judged(word).map(|_| ())
}

/// The floor of some peers' clocks: for each actor the smallest counter over all of them.
///
/// ```
/// use castribba::slices::{clock_advance, floor, LentClock};
///
/// let (mut one, mut two) = (LentClock::default(), LentClock::default());
/// clock_advance(&mut one, 1, 3)?;
/// clock_advance(&mut two, 1, 2)?;
/// clock_advance(&mut two, 2, 7)?;
/// let all_have_seen = floor(&[one, two])?;
/// assert_eq!((all_have_seen.len, all_have_seen.dots[0].counter), (1, 2));
/// # Ok::<(), castribba::Refusal>(())
/// ```
pub fn floor(peers: &[LentClock]) -> Result<LentClock, Refusal> {
    let mut floor = LentClock::default();
    // SAFETY: a LentClock has the layout of castribba_clock, the pointer goes with the slice's length, and
    // `floor` overlaps no peer.
    let word = unsafe { declared::castribba_floor(peers.as_ptr(), peers.len(), &mut floor) };
    judged(word).map(|_| floor)
}

/// Begins a reader of pieces, whatever its memory held.
pub fn pieces_begin(reader: &mut LentPieces) -> Result<(), Refusal> {
    // SAFETY: a LentPieces has the layout of castribba_pieces.
    let word = unsafe { declared::castribba_pieces_begin(reader) };
    judged(word).map(|_| ())
}

/// Takes the next piece, of any length; refused with 13 where the reader is not open.
pub fn pieces_take(reader: &mut LentPieces, piece: &[u8]) -> Result<(), Refusal> {
    // SAFETY: as above; the pointer goes with the slice's length, and `reader` overlaps no other.
    let word = unsafe { declared::castribba_pieces_take(reader, piece.as_ptr(), piece.len()) };
    judged(word).map(|_| ())
}

/// Ends: the map's image is written, as long as the answer says. 10 leaves the reader open, and as it was.
///
/// ```
/// use castribba::slices::{pieces_begin, pieces_end, pieces_take, LentPieces};
/// use castribba::{Refusal, PIECES};
///
/// let mut reader = LentPieces { bytes: [0; PIECES] };
/// assert_eq!(pieces_take(&mut reader, &[]), Err(Refusal::Ended));
/// pieces_begin(&mut reader)?;
/// pieces_take(&mut reader, &[1, 0, 1, 0, 0, 0, 0])?;
/// pieces_take(&mut reader, &[0, 1, 0, 0, 0, 0, 0, 0, 0])?;
/// let mut out = [0; 16];
/// assert_eq!(pieces_end(&mut reader, &mut out[..15]), Err(Refusal::ShortBuffer));
/// assert_eq!(pieces_end(&mut reader, &mut out), Ok(16));
/// assert_eq!(pieces_end(&mut reader, &mut out), Err(Refusal::Ended));
/// # Ok::<(), Refusal>(())
/// ```
pub fn pieces_end(reader: &mut LentPieces, out: &mut [u8]) -> Result<usize, Refusal> {
    // SAFETY: as above.
    judged(unsafe { declared::castribba_pieces_end(reader, out.as_mut_ptr(), out.len()) })
}
