//! Images written record by record: kind, index, actor, key, number.
// each test program uses a part of this
#![allow(dead_code)]

use castribba::{Clock, Map, Operation, Record};

pub type Line = (u8, u8, u16, u32, u64);

/// Document 01's M: clock {1:1}, entry 5 {1:1} holding ({1:1}, 40).
pub const M: [Line; 4] = [(1, 0, 1, 0, 1), (2, 0, 1, 5, 1), (3, 0, 0, 5, 40), (4, 0, 1, 5, 1)];

pub fn image(lines: &[Line]) -> Vec<u8> {
    let records = lines.iter().map(|&(kind, index, actor, key, number)| Record {
        kind,
        index,
        actor,
        key,
        number,
    });
    records.flat_map(Record::to_bytes).collect()
}

pub fn map(lines: &[Line]) -> Map {
    Map::from_image(&image(lines)).expect("a map's image")
}

pub fn operation(lines: &[Line]) -> Operation {
    Operation::from_image(&image(lines)).expect("an operation's image")
}

pub fn clock(lines: &[Line]) -> Clock {
    Clock::from_image(&image(lines)).expect("a clock's image")
}

/// A map of as many entries as may be, 32, with clock {1:32}, as in W9.
pub fn most_entries() -> Vec<Line> {
    let entries = (1..=32).map(|key| (2, 0, 1, key, u64::from(key)));
    std::iter::once((1, 0, 1, 0, 32)).chain(entries).collect()
}
