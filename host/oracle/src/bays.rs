//! The boot loader's choice, from document 02's words, on the published crate's clocks.

use crate::model::{Clock, Map, ValueAndOrigin};
use crate::published::clock_in;

/// Keys 1 to 24 are bays.
pub const BAYS: std::ops::RangeInclusive<u32> = 1..=24;

/// How many values remained, whether they differ, whether there is one, and the smallest.
pub fn report(map: &Map, bay: u32) -> Vec<u8> {
    let values: &[(Clock, ValueAndOrigin)] =
        map.entries.get(&bay).map_or(&[], |entry| &entry.values);
    let below = |one: &Clock| values.iter().any(|(other, _)| clock_in(one) < clock_in(other));
    let mut remaining: Vec<u64> =
        values.iter().filter(|(clock, _)| !below(clock)).map(|(_, (value, _))| *value).collect();
    remaining.sort_unstable();
    let Some(smallest) = remaining.first() else {
        return vec![0; 11];
    };
    let differ = remaining.last() != Some(smallest);
    let mut bytes = vec![remaining.len() as u8, differ.into(), 1];
    bytes.extend(smallest.to_le_bytes());
    bytes
}
