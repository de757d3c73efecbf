//! Lists of operations from another maker, run on a copy of the map.

use crate::calls::word;
use crate::image::read_map_into;
use crate::{castribba_apply, number, Map, LONGEST_MAP};

const MOST_OPERATIONS: usize = 32;
const RECORD: usize = 16;

/// Where the operation that begins at `at` ends: at the next whole record of kind 7 or 10.
fn operation_end(list: &[u8], at: usize) -> usize {
    let mut end = at + RECORD;
    while end + RECORD <= list.len() {
        if matches!(list[end], 7 | 10) {
            return end;
        }
        end += RECORD;
    }
    list.len()
}

fn count_operations(list: &[u8]) -> usize {
    let (mut at, mut count) = (0, 0);
    while at < list.len() {
        at = operation_end(list, at);
        count += 1;
    }
    count
}

/// What is wrong with the list, and the place of the operation that is refused.
fn caught_up(map: &[u8], other: &[u8], list: &[u8]) -> Result<(), (u32, u64)> {
    let mut read = Map::EMPTY;
    read_map_into(map, &mut read).map_err(|number| (number, 0))?;
    let mut read = Map::EMPTY;
    read_map_into(other, &mut read).map_err(|number| (number, 0))?;
    if count_operations(list) > MOST_OPERATIONS {
        return Err((number::TOO_MANY_OPERATIONS, 0));
    }
    let (mut here, mut there) = ([0; LONGEST_MAP], [0; LONGEST_MAP]);
    let mut len = map.len();
    here[..len].copy_from_slice(map);
    let (mut at, mut place) = (0, 0);
    while at < list.len() {
        let end = operation_end(list, at);
        let answer = castribba_apply(&here[..len], &list[at..end], &mut there);
        if answer >> 32 != 0 {
            return Err(((answer >> 32) as u32, place));
        }
        len = answer as usize;
        here[..len].copy_from_slice(&there[..len]);
        at = end;
        place += 1;
    }
    if here[..len] == *other {
        Ok(())
    } else {
        Err((number::ENDS_ELSEWHERE, 0))
    }
}

pub fn castribba_catch_up(map: &[u8], other: &[u8], list: &[u8]) -> u64 {
    word(|| caught_up(map, other, list).map(|()| 0).map_err(|(number, _)| number))
}

pub fn castribba_catch_up_place(map: &[u8], other: &[u8], list: &[u8]) -> u64 {
    caught_up(map, other, list).err().map_or(0, |(_, place)| place)
}
