//! The calls of castribba.h and loader.h as one trait, and each implementation that can stand behind it.

#[cfg(feature = "archive")]
mod archive;
mod plain_calls;

#[cfg(feature = "archive")]
pub use archive::Archive;
pub use plain_calls::Plain;

pub const LONGEST_MAP: usize = 28_800;
pub const LONGEST_OPERATION: usize = 400;
pub const LONGEST_CLOCK: usize = 128;

#[derive(Clone, Copy, Debug, Default, PartialEq, Eq)]
#[repr(C)]
pub struct LentDot {
    pub actor: u16,
    pub counter: u64,
}

/// castribba_clock: lent to the call, which may find any content in it.
#[derive(Clone, Copy, Debug, Default, PartialEq, Eq)]
#[repr(C)]
pub struct LentClock {
    pub dots: [LentDot; 8],
    pub len: usize,
}

/// One method per call, named as in castribba.h and loader.h without the prefix.
pub trait Calls {
    fn name(&self) -> &'static str;

    fn apply(&self, map: &[u8], op: &[u8], out: &mut [u8]) -> u64;
    fn apply_deleted(&self, map: &[u8], op: &[u8], out_len: usize) -> u64;
    fn merge(&self, map: &[u8], other: &[u8], out: &mut [u8]) -> u64;
    fn reset_remove(&self, map: &[u8], clock: &[u8], out: &mut [u8]) -> u64;
    fn reset_remove_deleted(&self, map: &[u8], clock: &[u8], out_len: usize) -> u64;
    fn update(
        &self,
        map: &[u8],
        actor: u16,
        key: u32,
        value: u64,
        origin: u16,
        out: &mut [u8],
    ) -> u64;
    fn rm_get(&self, map: &[u8], key: u32, out: &mut [u8]) -> u64;
    fn rm_read_ctx(&self, map: &[u8], key: u32, out: &mut [u8]) -> u64;
    fn get(&self, map: &[u8], key: u32, out: &mut [u8]) -> u64;
    fn len(&self, map: &[u8]) -> u64;
    fn len_count(&self, map: &[u8]) -> u64;
    fn validate_op(&self, map: &[u8], op: &[u8]) -> u64;
    fn validate_op_start(&self, map: &[u8], op: &[u8]) -> u64;
    fn validate_op_end(&self, map: &[u8], op: &[u8]) -> u64;
    fn ready(&self, map: &[u8], op: &[u8]) -> u64;
    fn ready_actor(&self, map: &[u8], op: &[u8]) -> u64;
    fn ready_counter(&self, map: &[u8], op: &[u8]) -> u64;
    fn validate_merge(&self, map: &[u8], other: &[u8]) -> u64;
    fn validate_merge_actor(&self, map: &[u8], other: &[u8]) -> u64;
    fn validate_merge_counter(&self, map: &[u8], other: &[u8]) -> u64;
    fn validate_merge_our_key(&self, map: &[u8], other: &[u8]) -> u64;
    fn validate_merge_their_key(&self, map: &[u8], other: &[u8]) -> u64;
    fn catch_up(&self, map: &[u8], other: &[u8], list: &[u8]) -> u64;
    fn catch_up_place(&self, map: &[u8], other: &[u8], list: &[u8]) -> u64;
    fn bay(&self, map: &[u8], bay: u32, out: &mut [u8]) -> u64;
    fn bays(&self, map: &[u8], out: &mut [u8]) -> u64;
    fn clock_advance(&self, clock: &mut LentClock, actor: u16, counter: u64) -> u64;
    fn differences(&self, map: &[u8], other: &[u8], out: &mut [u8]) -> u64;
    fn floor(&self, peers: &[LentClock], floor: &mut LentClock) -> u64;

    /// The bytes of a reader of pieces, which the three calls below are lent. The first is its mark.
    fn pieces_len(&self) -> usize;
    fn pieces_begin(&self, reader: &mut [u8]) -> u64;
    fn pieces_take(&self, reader: &mut [u8], piece: &[u8]) -> u64;
    fn pieces_end(&self, reader: &mut [u8], out: &mut [u8]) -> u64;
}

/// Document 01's number in a word.
pub fn number_of(word: u64) -> u32 {
    (word >> 32) as u32
}

/// The length in a word.
pub fn length_of(word: u64) -> usize {
    word as u32 as usize
}
