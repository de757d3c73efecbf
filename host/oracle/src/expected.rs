//! What each call of castribba.h must answer, given room enough: number, bytes, numbers carried.

use crate::bays::{report, BAYS};
use crate::guard::{self, Place};
use crate::image::{map_image, operation_image, read_clock, read_map, read_operation};
use crate::model::{Entry, Map, Operation, ValueAndOrigin};
use crate::published;
use crate::salvage;
use std::collections::BTreeSet;

#[derive(Clone, Debug, Default, PartialEq, Eq)]
pub struct Answer {
    pub number: u32,
    /// What is written at the start of `out`; empty unless `number` is 0.
    pub bytes: Vec<u8>,
    /// One number per carrying call beside this one, in castribba.h's order; zeros if not carried.
    pub carried: Vec<u64>,
}

pub fn refused(number: u32) -> Answer {
    Answer { number, ..Answer::default() }
}

impl Answer {
    /// The same answer to a call whose buffer has only this room: 10 comes after all others.
    pub fn in_room(&self, room: usize) -> Answer {
        if self.number == 0 && self.bytes.len() > room {
            Answer { number: 10, bytes: vec![], carried: vec![0; self.carried.len()] }
        } else {
            self.clone()
        }
    }
}

fn written(over_limit: Option<u32>, bytes: Vec<u8>) -> Answer {
    match over_limit {
        Some(number) => refused(number),
        None => Answer { bytes, ..Answer::default() },
    }
}

fn written_map(map: &Map) -> Answer {
    written(map.over_limit(), map_image(map))
}

fn written_operation(operation: &Operation) -> Answer {
    written(operation.over_limit(), operation_image(operation))
}

/// Runs the part after reading; a number from an image stands for the whole answer.
fn after_reading(answer: impl FnOnce() -> Result<Answer, u32>) -> Answer {
    answer().unwrap_or_else(refused)
}

/// The dots in all entry clocks.
fn entry_dots(map: &Map) -> usize {
    map.entries.values().map(|entry| entry.clock.len()).sum()
}

/// The same answer, with what was deleted from entry clocks: 0 where it is refused.
fn carrying(answer: Answer, deleted: usize) -> Answer {
    let carried = vec![if answer.number == 0 { deleted as u64 } else { 0 }];
    Answer { carried, ..answer }
}

/// Carries what a removal deleted from entry clocks.
pub fn apply(map: &[u8], op: &[u8]) -> Answer {
    let read = || Ok((read_map(map)?, read_operation(op)?));
    match read() {
        Err(number) => carrying(refused(number), 0),
        Ok((map, operation)) => {
            let after = published::apply(&map, &operation);
            let deleted = match operation {
                Operation::Removal { .. } => entry_dots(&map) - entry_dots(&after),
                Operation::Update { .. } => 0,
            };
            carrying(written_map(&after), deleted)
        }
    }
}

pub fn merge(map: &[u8], other: &[u8]) -> Answer {
    after_reading(|| {
        let (map, other) = (read_map(map)?, read_map(other)?);
        Ok(written_map(&published::merge(&map, &other)))
    })
}

/// Carries what was deleted from entry clocks. An error is a disagreement of the published crate with
/// document 01, other than those listed.
pub fn reset_remove(map: &[u8], clock: &[u8]) -> Result<Answer, String> {
    let read = || Ok((read_map(map)?, read_clock(clock)?));
    match read() {
        Err(number) => Ok(carrying(refused(number), 0)),
        Ok((map, clock)) => published::reset_remove(&map, &clock)
            .map(|after| carrying(written_map(&after), entry_dots(&map) - entry_dots(&after))),
    }
}

pub fn update(map: &[u8], actor: u16, key: u32, value: ValueAndOrigin) -> Answer {
    after_reading(|| {
        let operation = published::update(&read_map(map)?, actor, key, value).ok_or(9u32)?;
        Ok(written_operation(&operation))
    })
}

pub fn rm_get(map: &[u8], key: u32) -> Answer {
    after_reading(|| Ok(written_operation(&published::rm_get(&read_map(map)?, key))))
}

pub fn rm_read_ctx(map: &[u8], key: u32) -> Answer {
    after_reading(|| Ok(written_operation(&published::rm_read_ctx(&read_map(map)?, key))))
}

pub fn get(map: &[u8], key: u32) -> Answer {
    after_reading(|| Ok(written_map(&published::get(&read_map(map)?, key))))
}

pub fn len(map: &[u8]) -> Answer {
    match read_map(map) {
        Err(number) => Answer { number, carried: vec![0], ..Answer::default() },
        Ok(map) => Answer { carried: vec![published::len(&map)], ..Answer::default() },
    }
}

pub fn validate_op(map: &[u8], op: &[u8]) -> Answer {
    let read = || Ok((read_map(map)?, read_operation(op)?));
    let (number, carried) = match read() {
        Err(number) => (number, vec![0; 2]),
        Ok((map, operation)) => match published::validate_op(&map, &operation) {
            None => (0, vec![0; 2]),
            Some((start, end)) => (11, vec![start, end]),
        },
    };
    Answer { number, bytes: vec![], carried }
}

/// Carries the actor and the counter that a held update waits for.
pub fn ready(map: &[u8], op: &[u8]) -> Answer {
    let read = || Ok((read_map(map)?, read_operation(op)?));
    let (number, carried) = match read() {
        Err(number) => (number, vec![0; 2]),
        Ok((map, operation)) => match guard::place(&map, &operation) {
            Place::Next => (0, vec![0; 2]),
            Place::Foreign => (19, vec![0; 2]),
            Place::Seen => (20, vec![0; 2]),
            Place::Hold(actor, counter) => (21, vec![actor.into(), counter]),
        },
    };
    Answer { number, bytes: vec![], carried }
}

pub fn validate_merge(map: &[u8], other: &[u8]) -> Answer {
    let read = || Ok((read_map(map)?, read_map(other)?));
    let (number, carried) = match read() {
        Err(number) => (number, vec![0; 4]),
        Ok((map, other)) => match published::validate_merge(&map, &other) {
            None => (0, vec![0; 4]),
            Some((actor, counter, ours, theirs)) => {
                (12, vec![actor.into(), counter, ours.into(), theirs.into()])
            }
        },
    };
    Answer { number, bytes: vec![], carried }
}

/// A list of operations, cut before each whole record of kind 7 or 10.
pub fn operations(list: &[u8]) -> Vec<Vec<u8>> {
    let mut operations: Vec<Vec<u8>> = vec![];
    for record in list.chunks(16) {
        let head = record.len() == 16 && (record[0] == 7 || record[0] == 10);
        match operations.last_mut() {
            Some(operation) if !head => operation.extend(record),
            _ => operations.push(record.to_vec()),
        }
    }
    operations
}

/// Carries the place of the operation that is refused.
pub fn catch_up(map: &[u8], other: &[u8], list: &[u8]) -> Answer {
    let carrying = |number, place| Answer { number, bytes: vec![], carried: vec![place] };
    if let Err(number) = read_map(map).and_then(|_| read_map(other)) {
        return carrying(number, 0);
    }
    let operations = operations(list);
    if operations.len() > 32 {
        return carrying(17, 0);
    }
    let mut here = map.to_vec();
    for (place, operation) in operations.iter().enumerate() {
        let answer = apply(&here, operation);
        if answer.number != 0 {
            return carrying(answer.number, place as u64);
        }
        here = answer.bytes;
    }
    carrying(if here == other { 0 } else { 16 }, 0)
}

/// 14 comes after the map's own number.
pub fn bay(map: &[u8], bay: u32) -> Answer {
    after_reading(|| {
        let map = read_map(map)?;
        if BAYS.contains(&bay) {
            Ok(written(None, report(&map, bay)))
        } else {
            Err(14)
        }
    })
}

pub fn bays(map: &[u8]) -> Answer {
    after_reading(|| {
        let map = read_map(map)?;
        Ok(written(None, BAYS.flat_map(|bay| report(&map, bay)).collect()))
    })
}

/// What comes back of a damaged image.
pub fn salvaged(input: &[u8]) -> Answer {
    after_reading(|| Ok(written(None, salvage::salvage(input)?.image)))
}

/// The report of what was removed or changed in it.
pub fn salvage_report(input: &[u8]) -> Answer {
    after_reading(|| Ok(written(None, salvage::salvage(input)?.report())))
}

/// A key's class: only in the first, only in the second, or in both with another clock or register, whose
/// pairs are counted (CR 5).
fn class_of(one: Option<&Entry>, other: Option<&Entry>) -> u8 {
    let times = |entry: &Entry, pair| entry.values.iter().filter(|held| *held == pair).count();
    match (one, other) {
        (Some(_), None) => 1,
        (None, Some(_)) => 2,
        (Some(one), Some(other)) => {
            let mut pairs = one.values.iter().chain(&other.values);
            let same = one.clock == other.clock
                && pairs.all(|pair| times(one, pair) == times(other, pair));
            if same {
                0
            } else {
                3
            }
        }
        (None, None) => 0,
    }
}

/// What differs between two maps, as the published crate holds them.
pub fn differences(map: &[u8], other: &[u8]) -> Answer {
    after_reading(|| {
        let (map, other) = (read_map(map)?, read_map(other)?);
        let (map, other) = (published::held(&map), published::held(&other));
        let keys: BTreeSet<u32> = map.entries.keys().chain(other.entries.keys()).copied().collect();
        let mut bytes = Vec::new();
        for key in keys {
            let class = class_of(map.entries.get(&key), other.entries.get(&key));
            if class != 0 {
                bytes.push(class);
                bytes.extend(key.to_le_bytes());
            }
        }
        Ok(written(None, bytes))
    })
}

/// The floor of lent clocks, each with any content: the number, and the dots where that is 0. The published
/// crate's `glb` keeps dots that only one clock has out, as the smallest counter does.
pub fn floor(peers: &[([(u16, u64); 8], usize)]) -> Result<Vec<(u16, u64)>, u32> {
    if peers.len() > 64 {
        return Err(18);
    }
    let mut floor: Option<crdts::VClock<u16>> = None;
    for (dots, len) in peers {
        if *len > 8 {
            return Err(2);
        }
        let held = &dots[..*len];
        let ascends = held.windows(2).all(|pair| pair[0].0 < pair[1].0);
        if !ascends || held.iter().any(|(_, counter)| *counter == 0) {
            return Err(1);
        }
        let clock: crdts::VClock<u16> = held.iter().map(|dot| crdts::Dot::from(*dot)).collect();
        floor = Some(match floor {
            None => clock,
            Some(mut before) => {
                before.glb(&clock);
                before
            }
        });
    }
    Ok(floor.map_or(vec![], |clock| clock.dots.into_iter().collect()))
}

/// The end of an image that came in pieces: what they are, joined.
pub fn delivered(image: &[u8]) -> Answer {
    after_reading(|| Ok(written_map(&read_map(image)?)))
}

/// The number, and the dots after the call, on all eight places that are lent: dots behind `len`
/// are not read, and become zero where the call has an effect (docs/DECISIONS.md, C6).
pub fn clock_advance(
    dots: &[(u16, u64); 8],
    len: usize,
    actor: u16,
    counter: u64,
) -> (u32, [(u16, u64); 8], usize) {
    let unchanged = |number| (number, *dots, len);
    if len > 8 {
        return unchanged(2);
    }
    let held = &dots[..len];
    let ascends = held.windows(2).all(|pair| pair[0].0 < pair[1].0);
    if !ascends || held.iter().any(|(_, counter)| *counter == 0) {
        return unchanged(1);
    }
    let mut clock: crdts::VClock<u16> = held.iter().map(|dot| crdts::Dot::from(*dot)).collect();
    crdts::CmRDT::apply(&mut clock, crdts::Dot::new(actor, counter));
    if clock.dots.len() > 8 {
        return unchanged(4);
    }
    if clock.dots.iter().map(|(actor, counter)| (*actor, *counter)).eq(held.iter().copied()) {
        return unchanged(0);
    }
    let mut after = [(0, 0); 8];
    let new_len = clock.dots.len();
    for (place, dot) in clock.dots.into_iter().enumerate() {
        after[place] = dot;
    }
    (0, after, new_len)
}
