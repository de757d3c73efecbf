//! Maps by their sizes: the longest, with every limit met at once, and shorter ones.

use crate::model::{
    Clock, Entry, Map, MOST_DOTS, MOST_ENTRIES, MOST_KEYS, MOST_VALUES, MOST_WAITING,
};

/// How many dots each clock has, entries a map, values an entry, removals wait, keys each of them.
pub struct Sizes {
    pub actors: u16,
    pub entries: u32,
    pub values: u16,
    pub waiting: u64,
    pub keys: u32,
}

const FULL: Sizes = Sizes {
    actors: MOST_DOTS as u16,
    entries: MOST_ENTRIES as u32,
    values: MOST_VALUES as u16,
    waiting: MOST_WAITING as u64,
    keys: MOST_KEYS as u32,
};

fn clock_of(actors: u16, counter: impl Fn(u16) -> u64) -> Clock {
    (1..=actors).map(|actor| (actor, counter(actor))).collect()
}

/// A clock of all eight actors.
pub fn full_clock(counter: impl Fn(u16) -> u64) -> Clock {
    clock_of(FULL.actors, counter)
}

/// An entry with concurrent values, all dots from `base` on.
fn entry_of(sizes: &Sizes, base: u64) -> Entry {
    let values = (1..=sizes.values)
        .map(|place| {
            let clock = clock_of(sizes.actors, |actor| base + u64::from(actor == place));
            (clock, (base + u64::from(place), place))
        })
        .collect();
    Entry { clock: clock_of(sizes.actors, |actor| base + u64::from(actor)), values }
}

/// Entries from key 1 on, and waiting removals of keys that are not there. The entries whose keys
/// `newer` picks were written later than those of a map that picks none.
pub fn map_of(sizes: &Sizes, newer: impl Fn(u32) -> bool) -> Map {
    let base = |key: u32| u64::from(key) * 10 + if newer(key) { 1000 } else { 0 };
    let seen = if (1..=sizes.entries).any(&newer) { 2000 } else { 1000 };
    Map {
        clock: clock_of(sizes.actors, |_| seen),
        entries: (1..=sizes.entries).map(|key| (key, entry_of(sizes, base(key)))).collect(),
        waiting: (1..=sizes.waiting)
            .map(|place| {
                let clock = clock_of(sizes.actors, |_| 3000 + place);
                (clock, (101..=100 + sizes.keys).collect())
            })
            .collect(),
    }
}

/// As many entries and waiting removals as may be, each of them full.
pub fn full_map(newer: impl Fn(u32) -> bool) -> Map {
    map_of(&FULL, newer)
}

/// A full map whose removals list its keys, the first of them and the last in turn, and have seen the
/// last actor's dots alone: every clock is cut by half of the removals, and seven dots of eight are left.
pub fn busy_map() -> Map {
    let waiting = (1..=FULL.waiting)
        .map(|place| {
            let clock = full_clock(|actor| if actor == FULL.actors { 3000 + place } else { place });
            let above = if place % 2 == 0 { FULL.entries - FULL.keys } else { 0 };
            (clock, (above + 1..=above + FULL.keys).collect())
        })
        .collect();
    Map { waiting, ..full_map(|_| false) }
}
