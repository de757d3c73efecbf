//! The calls of castribba.h over slices: same names, same arguments, same words.

use crate::image::{fits, read_map_into};
use crate::{number, read_clock, read_op, write_map, write_op, MOST_PEERS};
use crate::{Clock, Dot, DoubleSpent, Gap, Map, NotNext, Operation};

/// number * 2^32 + length
pub(crate) fn word(answer: impl FnOnce() -> Result<usize, u32>) -> u64 {
    match answer() {
        Ok(length) => length as u64,
        Err(number) => u64::from(number) << 32,
    }
}

pub fn castribba_apply(map: &[u8], op: &[u8], out: &mut [u8]) -> u64 {
    word(|| {
        let mut ours = Map::EMPTY;
        read_map_into(map, &mut ours)?;
        ours.apply(&read_op(op)?)?;
        write_map(&ours, out)
    })
}

/// How many dots a change deletes from entry clocks, where its answer has room in so many bytes.
fn deleted(
    map: &[u8],
    room: usize,
    change: impl FnOnce(&mut Map) -> Result<(), u32>,
) -> Result<u64, u32> {
    let mut ours = Map::EMPTY;
    read_map_into(map, &mut ours)?;
    let before = ours.entry_dots();
    change(&mut ours)?;
    fits(&ours, room)?;
    Ok((before - ours.entry_dots()) as u64)
}

pub fn castribba_apply_deleted(map: &[u8], op: &[u8], out_len: usize) -> u64 {
    match read_op(op) {
        Ok(Operation::Update { .. }) | Err(_) => 0,
        Ok(removal) => deleted(map, out_len, |ours| ours.apply(&removal)).unwrap_or(0),
    }
}

pub fn castribba_merge(map: &[u8], other: &[u8], out: &mut [u8]) -> u64 {
    word(|| {
        let (mut ours, mut theirs) = (Map::EMPTY, Map::EMPTY);
        read_map_into(map, &mut ours)?;
        read_map_into(other, &mut theirs)?;
        write_map(&ours.merge(&theirs)?, out)
    })
}

pub fn castribba_reset_remove(map: &[u8], clock: &[u8], out: &mut [u8]) -> u64 {
    word(|| {
        let mut ours = Map::EMPTY;
        read_map_into(map, &mut ours)?;
        ours.reset_remove(&read_clock(clock)?)?;
        write_map(&ours, out)
    })
}

pub fn castribba_reset_remove_deleted(map: &[u8], clock: &[u8], out_len: usize) -> u64 {
    deleted(map, out_len, |ours| ours.reset_remove(&read_clock(clock)?)).unwrap_or(0)
}

pub fn castribba_update(
    map: &[u8],
    actor: u16,
    key: u32,
    value: u64,
    origin: u16,
    out: &mut [u8],
) -> u64 {
    word(|| {
        let mut ours = Map::EMPTY;
        read_map_into(map, &mut ours)?;
        write_op(&ours.update(actor, key, value, origin)?, out)
    })
}

pub fn castribba_rm_get(map: &[u8], key: u32, out: &mut [u8]) -> u64 {
    word(|| {
        let mut ours = Map::EMPTY;
        read_map_into(map, &mut ours)?;
        write_op(&ours.rm_get(key), out)
    })
}

pub fn castribba_rm_read_ctx(map: &[u8], key: u32, out: &mut [u8]) -> u64 {
    word(|| {
        let mut ours = Map::EMPTY;
        read_map_into(map, &mut ours)?;
        write_op(&ours.rm_read_ctx(key), out)
    })
}

pub fn castribba_get(map: &[u8], key: u32, out: &mut [u8]) -> u64 {
    word(|| {
        let mut ours = Map::EMPTY;
        read_map_into(map, &mut ours)?;
        write_map(&ours.get(key), out)
    })
}

fn len_of(map: &[u8]) -> Result<usize, u32> {
    let mut ours = Map::EMPTY;
    read_map_into(map, &mut ours)?;
    Ok(ours.len())
}

pub fn castribba_len(map: &[u8]) -> u64 {
    word(|| len_of(map).map(|_| 0))
}

pub fn castribba_len_count(map: &[u8]) -> u64 {
    len_of(map).map_or(0, |count| count as u64)
}

fn gap_of(map: &[u8], op: &[u8]) -> Result<Option<Gap>, u32> {
    let mut ours = Map::EMPTY;
    read_map_into(map, &mut ours)?;
    Ok(ours.validate_op(&read_op(op)?).err())
}

pub fn castribba_validate_op(map: &[u8], op: &[u8]) -> u64 {
    word(|| match gap_of(map, op) {
        Ok(None) => Ok(0),
        Ok(Some(_)) => Err(number::SOURCE_ORDER),
        Err(number) => Err(number),
    })
}

pub fn castribba_validate_op_start(map: &[u8], op: &[u8]) -> u64 {
    gap_of(map, op).ok().flatten().map_or(0, |gap| gap.start)
}

pub fn castribba_validate_op_end(map: &[u8], op: &[u8]) -> u64 {
    gap_of(map, op).ok().flatten().map_or(0, |gap| gap.end)
}

fn not_next_of(map: &[u8], op: &[u8]) -> Result<Option<NotNext>, u32> {
    let mut ours = Map::EMPTY;
    read_map_into(map, &mut ours)?;
    Ok(ours.ready(&read_op(op)?).err())
}

pub fn castribba_ready(map: &[u8], op: &[u8]) -> u64 {
    word(|| match not_next_of(map, op)? {
        None => Ok(0),
        Some(NotNext::Foreign) => Err(number::FOREIGN),
        Some(NotNext::Seen) => Err(number::SEEN),
        Some(NotNext::Hold(_)) => Err(number::HOLD),
    })
}

/// One of the numbers that 21 carries, 0 where it is not carried.
fn carried_by_21(map: &[u8], op: &[u8], pick: impl Fn(Dot) -> u64) -> u64 {
    match not_next_of(map, op) {
        Ok(Some(NotNext::Hold(missing))) => pick(missing),
        _ => 0,
    }
}

pub fn castribba_ready_actor(map: &[u8], op: &[u8]) -> u64 {
    carried_by_21(map, op, |missing| missing.actor.into())
}

pub fn castribba_ready_counter(map: &[u8], op: &[u8]) -> u64 {
    carried_by_21(map, op, |missing| missing.counter)
}

fn double_spent_of(map: &[u8], other: &[u8]) -> Result<Option<DoubleSpent>, u32> {
    let (mut ours, mut theirs) = (Map::EMPTY, Map::EMPTY);
    read_map_into(map, &mut ours)?;
    read_map_into(other, &mut theirs)?;
    Ok(ours.validate_merge(&theirs).err())
}

pub fn castribba_validate_merge(map: &[u8], other: &[u8]) -> u64 {
    word(|| match double_spent_of(map, other) {
        Ok(None) => Ok(0),
        Ok(Some(_)) => Err(number::DOUBLE_SPENT),
        Err(number) => Err(number),
    })
}

/// One of the numbers that 12 carries, 0 where it is not carried.
fn carried_by_12(map: &[u8], other: &[u8], pick: impl Fn(DoubleSpent) -> u64) -> u64 {
    double_spent_of(map, other).ok().flatten().map_or(0, pick)
}

pub fn castribba_validate_merge_actor(map: &[u8], other: &[u8]) -> u64 {
    carried_by_12(map, other, |spent| spent.dot.actor.into())
}

pub fn castribba_validate_merge_counter(map: &[u8], other: &[u8]) -> u64 {
    carried_by_12(map, other, |spent| spent.dot.counter)
}

pub fn castribba_validate_merge_our_key(map: &[u8], other: &[u8]) -> u64 {
    carried_by_12(map, other, |spent| spent.our_key.into())
}

pub fn castribba_validate_merge_their_key(map: &[u8], other: &[u8]) -> u64 {
    carried_by_12(map, other, |spent| spent.their_key.into())
}

/// A key's class and the key in five bytes, for each key that differs.
pub fn castribba_differences(map: &[u8], other: &[u8], out: &mut [u8]) -> u64 {
    word(|| {
        let (mut ours, mut theirs) = (Map::EMPTY, Map::EMPTY);
        read_map_into(map, &mut ours)?;
        read_map_into(other, &mut theirs)?;
        let length = ours.differences(&theirs, |_, _| ()) * 5;
        let Some(out) = out.get_mut(..length) else { return Err(number::SHORT_BUFFER) };
        let mut records = out.chunks_exact_mut(5);
        ours.differences(&theirs, |class, key| {
            let record = records.next().expect("as many as were counted");
            record[0] = class;
            record[1..].copy_from_slice(&key.to_le_bytes());
        });
        Ok(length)
    })
}

/// The smallest counter of each actor over all peers.
pub fn castribba_floor(peers: &[Clock], floor: &mut Clock) -> u64 {
    word(|| {
        if peers.len() > MOST_PEERS {
            return Err(number::TOO_MANY_PEERS);
        }
        let mut least = Clock::EMPTY;
        for (place, peer) in peers.iter().enumerate() {
            peer.judge()?;
            if place == 0 {
                peer.dots().iter().for_each(|dot| least.push(*dot).expect("at most eight"));
            } else {
                least.lower(peer);
            }
        }
        *floor = Clock::EMPTY;
        least.dots().iter().for_each(|dot| floor.push(*dot).expect("at most eight"));
        Ok(0)
    })
}

pub fn castribba_clock_advance(clock: &mut Clock, actor: u16, counter: u64) -> u64 {
    word(|| clock.advance(Dot { actor, counter }).map(|()| 0))
}
