//! The plain Rust program behind the trait.

use crate::{Calls, LentClock, LentDot};

pub struct Plain;

impl Calls for Plain {
    fn name(&self) -> &'static str {
        "plain"
    }
    fn apply(&self, map: &[u8], op: &[u8], out: &mut [u8]) -> u64 {
        plain::castribba_apply(map, op, out)
    }
    fn apply_deleted(&self, map: &[u8], op: &[u8], out_len: usize) -> u64 {
        plain::castribba_apply_deleted(map, op, out_len)
    }
    fn merge(&self, map: &[u8], other: &[u8], out: &mut [u8]) -> u64 {
        plain::castribba_merge(map, other, out)
    }
    fn reset_remove(&self, map: &[u8], clock: &[u8], out: &mut [u8]) -> u64 {
        plain::castribba_reset_remove(map, clock, out)
    }
    fn reset_remove_deleted(&self, map: &[u8], clock: &[u8], out_len: usize) -> u64 {
        plain::castribba_reset_remove_deleted(map, clock, out_len)
    }
    fn update(
        &self,
        map: &[u8],
        actor: u16,
        key: u32,
        value: u64,
        origin: u16,
        out: &mut [u8],
    ) -> u64 {
        plain::castribba_update(map, actor, key, value, origin, out)
    }
    fn rm_get(&self, map: &[u8], key: u32, out: &mut [u8]) -> u64 {
        plain::castribba_rm_get(map, key, out)
    }
    fn rm_read_ctx(&self, map: &[u8], key: u32, out: &mut [u8]) -> u64 {
        plain::castribba_rm_read_ctx(map, key, out)
    }
    fn get(&self, map: &[u8], key: u32, out: &mut [u8]) -> u64 {
        plain::castribba_get(map, key, out)
    }
    fn len(&self, map: &[u8]) -> u64 {
        plain::castribba_len(map)
    }
    fn len_count(&self, map: &[u8]) -> u64 {
        plain::castribba_len_count(map)
    }
    fn validate_op(&self, map: &[u8], op: &[u8]) -> u64 {
        plain::castribba_validate_op(map, op)
    }
    fn validate_op_start(&self, map: &[u8], op: &[u8]) -> u64 {
        plain::castribba_validate_op_start(map, op)
    }
    fn validate_op_end(&self, map: &[u8], op: &[u8]) -> u64 {
        plain::castribba_validate_op_end(map, op)
    }
    fn ready(&self, map: &[u8], op: &[u8]) -> u64 {
        plain::castribba_ready(map, op)
    }
    fn ready_actor(&self, map: &[u8], op: &[u8]) -> u64 {
        plain::castribba_ready_actor(map, op)
    }
    fn ready_counter(&self, map: &[u8], op: &[u8]) -> u64 {
        plain::castribba_ready_counter(map, op)
    }
    fn validate_merge(&self, map: &[u8], other: &[u8]) -> u64 {
        plain::castribba_validate_merge(map, other)
    }
    fn validate_merge_actor(&self, map: &[u8], other: &[u8]) -> u64 {
        plain::castribba_validate_merge_actor(map, other)
    }
    fn validate_merge_counter(&self, map: &[u8], other: &[u8]) -> u64 {
        plain::castribba_validate_merge_counter(map, other)
    }
    fn validate_merge_our_key(&self, map: &[u8], other: &[u8]) -> u64 {
        plain::castribba_validate_merge_our_key(map, other)
    }
    fn validate_merge_their_key(&self, map: &[u8], other: &[u8]) -> u64 {
        plain::castribba_validate_merge_their_key(map, other)
    }
    fn catch_up(&self, map: &[u8], other: &[u8], list: &[u8]) -> u64 {
        plain::castribba_catch_up(map, other, list)
    }
    fn catch_up_place(&self, map: &[u8], other: &[u8], list: &[u8]) -> u64 {
        plain::castribba_catch_up_place(map, other, list)
    }
    fn bay(&self, map: &[u8], bay: u32, out: &mut [u8]) -> u64 {
        plain::castribba_bay(map, bay, out)
    }
    fn bays(&self, map: &[u8], out: &mut [u8]) -> u64 {
        plain::castribba_bays(map, out)
    }
    fn clock_advance(&self, clock: &mut LentClock, actor: u16, counter: u64) -> u64 {
        let mut own = own_clock(clock);
        let word = plain::castribba_clock_advance(&mut own, actor, counter);
        *clock = lent_clock(&own);
        word
    }
    fn differences(&self, map: &[u8], other: &[u8], out: &mut [u8]) -> u64 {
        plain::castribba_differences(map, other, out)
    }
    fn floor(&self, peers: &[LentClock], floor: &mut LentClock) -> u64 {
        let peers: Vec<plain::Clock> = peers.iter().map(own_clock).collect();
        let mut own = own_clock(floor);
        let word = plain::castribba_floor(&peers, &mut own);
        *floor = lent_clock(&own);
        word
    }
    fn pieces_len(&self) -> usize {
        plain::PIECES
    }
    fn pieces_begin(&self, reader: &mut [u8]) -> u64 {
        plain::castribba_pieces_begin(lent(reader))
    }
    fn pieces_take(&self, reader: &mut [u8], piece: &[u8]) -> u64 {
        plain::castribba_pieces_take(lent(reader), piece)
    }
    fn pieces_end(&self, reader: &mut [u8], out: &mut [u8]) -> u64 {
        plain::castribba_pieces_end(lent(reader), out)
    }
}

fn own_clock(clock: &LentClock) -> plain::Clock {
    let dots = clock.dots.map(|dot| plain::Dot { actor: dot.actor, counter: dot.counter });
    plain::Clock { dots, len: clock.len }
}

fn lent_clock(clock: &plain::Clock) -> LentClock {
    let dots = clock.dots.map(|dot| LentDot { actor: dot.actor, counter: dot.counter });
    LentClock { dots, len: clock.len }
}

fn lent(reader: &mut [u8]) -> &mut [u8; plain::PIECES] {
    reader.try_into().expect("a reader of pieces_len() bytes")
}
