//! The boot loader's calls, as loader.h has them.

use crate::calls::word;
use crate::image::read_map_into;
use crate::number;
use crate::{Map, Value};

pub const BAYS: u32 = 24;
pub const REPORT: usize = 11;

fn report(map: &Map, bay: u32) -> [u8; REPORT] {
    let values: &[Value] = map.entry(bay).map_or(&[], |entry| entry.register.values());
    let (mut count, mut smallest, mut largest) = (0, u64::MAX, 0);
    for value in values {
        if !values.iter().any(|other| value.clock.is_below(&other.clock)) {
            count += 1;
            smallest = smallest.min(value.value);
            largest = largest.max(value.value);
        }
    }
    let mut bytes = [0; REPORT];
    if count != 0 {
        bytes[0] = count;
        bytes[1] = (smallest != largest).into();
        bytes[2] = 1;
        bytes[3..].copy_from_slice(&smallest.to_le_bytes());
    }
    bytes
}

pub fn castribba_bay(map: &[u8], bay: u32, out: &mut [u8]) -> u64 {
    word(|| {
        let mut ours = Map::EMPTY;
        read_map_into(map, &mut ours)?;
        if !(1..=BAYS).contains(&bay) {
            return Err(number::NO_BAY);
        }
        let room = out.get_mut(..REPORT).ok_or(number::SHORT_BUFFER)?;
        room.copy_from_slice(&report(&ours, bay));
        Ok(REPORT)
    })
}

pub fn castribba_bays(map: &[u8], out: &mut [u8]) -> u64 {
    const ALL: usize = BAYS as usize * REPORT;
    word(|| {
        let mut ours = Map::EMPTY;
        read_map_into(map, &mut ours)?;
        let room = out.get_mut(..ALL).ok_or(number::SHORT_BUFFER)?;
        for (bay, place) in (1..=BAYS).zip(room.chunks_exact_mut(REPORT)) {
            place.copy_from_slice(&report(&ours, bay));
        }
        Ok(ALL)
    })
}
