//! castribba.h, loader.h and salvage.h, declared for Rust: what a pointer points to, and for how long, is the
//! caller's to see to. [`slices`](crate::slices), `loader` and `salvage` have the same calls, safe.

use crate::PIECES;

/// A dot of a [`LentClock`]: `castribba_dot`.
#[derive(Clone, Copy, Debug, Default, PartialEq, Eq)]
#[repr(C)]
pub struct LentDot {
    pub actor: u16,
    pub counter: u64,
}

/// A clock to be advanced in place: `castribba_clock`. Dots from `len` on are not read.
#[derive(Clone, Copy, Debug, Default, PartialEq, Eq)]
#[repr(C)]
pub struct LentClock {
    pub dots: [LentDot; 8],
    pub len: usize,
}

/// The reader of a map's image that comes in pieces: `castribba_pieces`, whose bytes are the archive's own.
///
/// It may hold any content, and [`castribba_pieces_begin`] makes a reader of it, as
/// [`Pieces`](crate::Pieces) does by itself.
#[derive(Clone, Copy, Debug, PartialEq, Eq)]
#[repr(C)]
pub struct LentPieces {
    pub bytes: [u8; PIECES],
}

#[rustfmt::skip]
extern "C" {
    pub fn castribba_apply(map: *const u8, map_len: usize, op: *const u8, op_len: usize, out: *mut u8, out_len: usize) -> u64;
    pub fn castribba_apply_deleted(map: *const u8, map_len: usize, op: *const u8, op_len: usize, out_len: usize) -> u64;
    pub fn castribba_merge(map: *const u8, map_len: usize, other: *const u8, other_len: usize, out: *mut u8, out_len: usize) -> u64;
    pub fn castribba_reset_remove(map: *const u8, map_len: usize, clock: *const u8, clock_len: usize, out: *mut u8, out_len: usize) -> u64;
    pub fn castribba_reset_remove_deleted(map: *const u8, map_len: usize, clock: *const u8, clock_len: usize, out_len: usize) -> u64;
    pub fn castribba_update(map: *const u8, map_len: usize, actor: u16, key: u32, value: u64, origin: u16, out: *mut u8, out_len: usize) -> u64;
    pub fn castribba_rm_get(map: *const u8, map_len: usize, key: u32, out: *mut u8, out_len: usize) -> u64;
    pub fn castribba_rm_read_ctx(map: *const u8, map_len: usize, key: u32, out: *mut u8, out_len: usize) -> u64;
    pub fn castribba_get(map: *const u8, map_len: usize, key: u32, out: *mut u8, out_len: usize) -> u64;
    pub fn castribba_len(map: *const u8, map_len: usize) -> u64;
    pub fn castribba_len_count(map: *const u8, map_len: usize) -> u64;
    pub fn castribba_validate_op(map: *const u8, map_len: usize, op: *const u8, op_len: usize) -> u64;
    pub fn castribba_validate_op_start(map: *const u8, map_len: usize, op: *const u8, op_len: usize) -> u64;
    pub fn castribba_validate_op_end(map: *const u8, map_len: usize, op: *const u8, op_len: usize) -> u64;
    pub fn castribba_ready(map: *const u8, map_len: usize, op: *const u8, op_len: usize) -> u64;
    pub fn castribba_ready_actor(map: *const u8, map_len: usize, op: *const u8, op_len: usize) -> u64;
    pub fn castribba_ready_counter(map: *const u8, map_len: usize, op: *const u8, op_len: usize) -> u64;
    pub fn castribba_validate_merge(map: *const u8, map_len: usize, other: *const u8, other_len: usize) -> u64;
    pub fn castribba_validate_merge_actor(map: *const u8, map_len: usize, other: *const u8, other_len: usize) -> u64;
    pub fn castribba_validate_merge_counter(map: *const u8, map_len: usize, other: *const u8, other_len: usize) -> u64;
    pub fn castribba_validate_merge_our_key(map: *const u8, map_len: usize, other: *const u8, other_len: usize) -> u64;
    pub fn castribba_validate_merge_their_key(map: *const u8, map_len: usize, other: *const u8, other_len: usize) -> u64;
    pub fn castribba_catch_up(
        map: *const u8,
        map_len: usize,
        other: *const u8,
        other_len: usize,
        list: *const u8,
        list_len: usize,
    ) -> u64;
    pub fn castribba_catch_up_place(
        map: *const u8,
        map_len: usize,
        other: *const u8,
        other_len: usize,
        list: *const u8,
        list_len: usize,
    ) -> u64;
    pub fn castribba_clock_advance(clock: *mut LentClock, actor: u16, counter: u64) -> u64;
    pub fn castribba_differences(map: *const u8, map_len: usize, other: *const u8, other_len: usize, out: *mut u8, out_len: usize) -> u64;
    pub fn castribba_floor(peers: *const LentClock, count: usize, floor: *mut LentClock) -> u64;
    pub fn castribba_pieces_begin(reader: *mut LentPieces) -> u64;
    pub fn castribba_pieces_take(reader: *mut LentPieces, piece: *const u8, piece_len: usize) -> u64;
    pub fn castribba_pieces_end(reader: *mut LentPieces, out: *mut u8, out_len: usize) -> u64;
}

#[cfg(feature = "loader")]
#[rustfmt::skip]
extern "C" {
    pub fn castribba_bay(map: *const u8, map_len: usize, bay: u32, out: *mut u8, out_len: usize) -> u64;
    pub fn castribba_bays(map: *const u8, map_len: usize, out: *mut u8, out_len: usize) -> u64;
}

#[cfg(feature = "salvage")]
#[rustfmt::skip]
extern "C" {
    pub fn castribba_salvage(image: *const u8, image_len: usize, out: *mut u8, out_len: usize) -> u64;
    pub fn castribba_salvage_report(image: *const u8, image_len: usize, out: *mut u8, out_len: usize) -> u64;
}
