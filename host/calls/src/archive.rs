//! The proved version behind the trait: libcastribba.a and libloader.a, called as their headers declare.

use crate::{Calls, LentClock};
use castribba::declared;
use castribba::slices::LentPieces;

pub struct Archive;

/// A call on one map, with whatever plain arguments follow, then the output buffer.
macro_rules! from_map {
    ($call:ident, $map:expr, ($($argument:expr),*), $out:expr) => {
        // SAFETY: each pointer goes with the length of the slice that it comes from.
        unsafe {
            declared::$call($map.as_ptr(), $map.len(), $($argument,)* $out.as_mut_ptr(), $out.len())
        }
    };
}

/// A call on two images, with an output buffer, with such a one's length alone, or without.
macro_rules! from_two {
    ($call:ident, $first:expr, $second:expr $(, $out:expr)? $(; $room:expr)?) => {
        // SAFETY: each pointer goes with the length of the slice that it comes from.
        unsafe {
            declared::$call(
                $first.as_ptr(), $first.len(), $second.as_ptr(), $second.len()
                $(, $out.as_mut_ptr(), $out.len())? $(, $room)?
            )
        }
    };
}

/// A call on two maps and a list of operations.
macro_rules! from_three {
    ($call:ident, $map:expr, $other:expr, $list:expr) => {
        // SAFETY: each pointer goes with the length of the slice that it comes from.
        unsafe {
            declared::$call(
                $map.as_ptr(),
                $map.len(),
                $other.as_ptr(),
                $other.len(),
                $list.as_ptr(),
                $list.len(),
            )
        }
    };
}

impl Calls for Archive {
    fn name(&self) -> &'static str {
        "archive"
    }
    fn apply(&self, map: &[u8], op: &[u8], out: &mut [u8]) -> u64 {
        from_two!(castribba_apply, map, op, out)
    }
    fn apply_deleted(&self, map: &[u8], op: &[u8], out_len: usize) -> u64 {
        from_two!(castribba_apply_deleted, map, op; out_len)
    }
    fn merge(&self, map: &[u8], other: &[u8], out: &mut [u8]) -> u64 {
        from_two!(castribba_merge, map, other, out)
    }
    fn reset_remove(&self, map: &[u8], clock: &[u8], out: &mut [u8]) -> u64 {
        from_two!(castribba_reset_remove, map, clock, out)
    }
    fn reset_remove_deleted(&self, map: &[u8], clock: &[u8], out_len: usize) -> u64 {
        from_two!(castribba_reset_remove_deleted, map, clock; out_len)
    }
    fn update(
        &self,
        map: &[u8],
        actor: u16,
        key: u32,
        value: u64,
        origin: u16,
        out: &mut [u8],
    ) -> u64 {
        from_map!(castribba_update, map, (actor, key, value, origin), out)
    }
    fn rm_get(&self, map: &[u8], key: u32, out: &mut [u8]) -> u64 {
        from_map!(castribba_rm_get, map, (key), out)
    }
    fn rm_read_ctx(&self, map: &[u8], key: u32, out: &mut [u8]) -> u64 {
        from_map!(castribba_rm_read_ctx, map, (key), out)
    }
    fn get(&self, map: &[u8], key: u32, out: &mut [u8]) -> u64 {
        from_map!(castribba_get, map, (key), out)
    }
    fn len(&self, map: &[u8]) -> u64 {
        // SAFETY: the pointer goes with the slice's length.
        unsafe { declared::castribba_len(map.as_ptr(), map.len()) }
    }
    fn len_count(&self, map: &[u8]) -> u64 {
        // SAFETY: the pointer goes with the slice's length.
        unsafe { declared::castribba_len_count(map.as_ptr(), map.len()) }
    }
    fn validate_op(&self, map: &[u8], op: &[u8]) -> u64 {
        from_two!(castribba_validate_op, map, op)
    }
    fn validate_op_start(&self, map: &[u8], op: &[u8]) -> u64 {
        from_two!(castribba_validate_op_start, map, op)
    }
    fn validate_op_end(&self, map: &[u8], op: &[u8]) -> u64 {
        from_two!(castribba_validate_op_end, map, op)
    }
    fn ready(&self, map: &[u8], op: &[u8]) -> u64 {
        from_two!(castribba_ready, map, op)
    }
    fn ready_actor(&self, map: &[u8], op: &[u8]) -> u64 {
        from_two!(castribba_ready_actor, map, op)
    }
    fn ready_counter(&self, map: &[u8], op: &[u8]) -> u64 {
        from_two!(castribba_ready_counter, map, op)
    }
    fn validate_merge(&self, map: &[u8], other: &[u8]) -> u64 {
        from_two!(castribba_validate_merge, map, other)
    }
    fn validate_merge_actor(&self, map: &[u8], other: &[u8]) -> u64 {
        from_two!(castribba_validate_merge_actor, map, other)
    }
    fn validate_merge_counter(&self, map: &[u8], other: &[u8]) -> u64 {
        from_two!(castribba_validate_merge_counter, map, other)
    }
    fn validate_merge_our_key(&self, map: &[u8], other: &[u8]) -> u64 {
        from_two!(castribba_validate_merge_our_key, map, other)
    }
    fn validate_merge_their_key(&self, map: &[u8], other: &[u8]) -> u64 {
        from_two!(castribba_validate_merge_their_key, map, other)
    }
    fn catch_up(&self, map: &[u8], other: &[u8], list: &[u8]) -> u64 {
        from_three!(castribba_catch_up, map, other, list)
    }
    fn catch_up_place(&self, map: &[u8], other: &[u8], list: &[u8]) -> u64 {
        from_three!(castribba_catch_up_place, map, other, list)
    }
    fn bay(&self, map: &[u8], bay: u32, out: &mut [u8]) -> u64 {
        from_map!(castribba_bay, map, (bay), out)
    }
    fn bays(&self, map: &[u8], out: &mut [u8]) -> u64 {
        from_map!(castribba_bays, map, (), out)
    }
    fn clock_advance(&self, clock: &mut LentClock, actor: u16, counter: u64) -> u64 {
        let clock: *mut LentClock = clock;
        // SAFETY: a LentClock has the layout of castribba_clock.
        unsafe { declared::castribba_clock_advance(clock.cast(), actor, counter) }
    }
    fn differences(&self, map: &[u8], other: &[u8], out: &mut [u8]) -> u64 {
        from_two!(castribba_differences, map, other, out)
    }
    fn floor(&self, peers: &[LentClock], floor: &mut LentClock) -> u64 {
        let floor: *mut LentClock = floor;
        // SAFETY: a LentClock has the layout of castribba_clock, and the pointer goes with the slice's length.
        unsafe { declared::castribba_floor(peers.as_ptr().cast(), peers.len(), floor.cast()) }
    }
    fn pieces_len(&self) -> usize {
        castribba::PIECES
    }
    fn pieces_begin(&self, reader: &mut [u8]) -> u64 {
        // SAFETY: `lent` has seen to the length.
        unsafe { declared::castribba_pieces_begin(lent(reader)) }
    }
    fn pieces_take(&self, reader: &mut [u8], piece: &[u8]) -> u64 {
        // SAFETY: `lent` has seen to the length, and the pointer goes with the slice's.
        unsafe { declared::castribba_pieces_take(lent(reader), piece.as_ptr(), piece.len()) }
    }
    fn pieces_end(&self, reader: &mut [u8], out: &mut [u8]) -> u64 {
        // SAFETY: as above.
        unsafe { declared::castribba_pieces_end(lent(reader), out.as_mut_ptr(), out.len()) }
    }
}

/// The bytes as castribba_pieces, which may lie anywhere.
fn lent(reader: &mut [u8]) -> *mut LentPieces {
    assert_eq!(reader.len(), castribba::PIECES);
    reader.as_mut_ptr().cast()
}
