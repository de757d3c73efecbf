//! Document 01's image rules, rule by rule on whole lists of records: slow, obvious, independent.

use crate::model::{
    counter, Clock, Entry, Map, Operation, MOST_DOTS, MOST_ENTRIES, MOST_KEYS, MOST_VALUES,
    MOST_WAITING,
};
use std::collections::{BTreeMap, BTreeSet};

pub const RECORD_LENGTH: usize = 16;
pub const LONGEST_MAP: usize = 28_800;
pub const LONGEST_OPERATION: usize = 400;
pub const LONGEST_CLOCK: usize = 128;

pub(crate) const MAP_CLOCK_DOT: u8 = 1;
pub(crate) const ENTRY_DOT: u8 = 2;
pub(crate) const VALUE: u8 = 3;
pub(crate) const VALUE_DOT: u8 = 4;
pub(crate) const WAITING_DOT: u8 = 5;
pub(crate) const WAITING_KEY: u8 = 6;
const REMOVAL_HEAD: u8 = 7;
const REMOVAL_DOT: u8 = 8;
const REMOVAL_KEY: u8 = 9;
const UPDATE_HEAD: u8 = 10;
const PUT_VALUE: u8 = 11;
const PUT_DOT: u8 = 12;

#[derive(Clone, Copy, Debug, Default, PartialEq, Eq)]
pub struct Record {
    pub kind: u8,
    pub index: u8,
    pub actor: u16,
    pub key: u32,
    pub number: u64,
}

impl Record {
    pub fn from_bytes(bytes: &[u8]) -> Record {
        Record {
            kind: bytes[0],
            index: bytes[1],
            actor: u16::from_le_bytes(bytes[2..4].try_into().unwrap()),
            key: u32::from_le_bytes(bytes[4..8].try_into().unwrap()),
            number: u64::from_le_bytes(bytes[8..16].try_into().unwrap()),
        }
    }

    pub fn to_bytes(self) -> Vec<u8> {
        let mut bytes = vec![self.kind, self.index];
        bytes.extend(self.actor.to_le_bytes());
        bytes.extend(self.key.to_le_bytes());
        bytes.extend(self.number.to_le_bytes());
        bytes
    }

    /// A value's record, which has an origin code where others have an actor.
    pub fn holds_value(&self) -> bool {
        matches!(self.kind, VALUE | PUT_VALUE)
    }

    /// What records ascend by: an origin has no part in it.
    pub fn place(&self) -> (u8, u32, u8, u16) {
        (self.kind, self.key, self.index, if self.holds_value() { 0 } else { self.actor })
    }

    pub(crate) fn unused_fields_are_zero(&self) -> bool {
        let uses_index = matches!(self.kind, VALUE | VALUE_DOT | WAITING_DOT | WAITING_KEY);
        let uses_actor = !matches!(self.kind, WAITING_KEY | REMOVAL_HEAD | REMOVAL_KEY);
        let uses_key = matches!(
            self.kind,
            ENTRY_DOT | VALUE | VALUE_DOT | WAITING_KEY | REMOVAL_KEY | UPDATE_HEAD
        );
        let uses_number = !matches!(self.kind, WAITING_KEY | REMOVAL_HEAD | REMOVAL_KEY);
        (uses_index || self.index == 0)
            && (uses_actor || self.actor == 0)
            && (uses_key || self.key == 0)
            && (uses_number || self.number == 0)
    }

    pub(crate) fn counter_is_zero(&self) -> bool {
        let holds_counter = matches!(
            self.kind,
            MAP_CLOCK_DOT
                | ENTRY_DOT
                | VALUE_DOT
                | WAITING_DOT
                | REMOVAL_DOT
                | UPDATE_HEAD
                | PUT_DOT
        );
        holds_counter && self.number == 0
    }
}

pub fn records_of(bytes: &[u8]) -> Vec<Record> {
    bytes.chunks_exact(RECORD_LENGTH).map(Record::from_bytes).collect()
}

pub fn bytes_of(records: &[Record]) -> Vec<u8> {
    records.iter().flat_map(|record| record.to_bytes()).collect()
}

/// Everything that answers 1.
fn well_formed(bytes: &[u8], kinds: std::ops::RangeInclusive<u8>) -> bool {
    let records = records_of(bytes);
    bytes.len() % RECORD_LENGTH == 0
        && records.iter().all(|record| kinds.contains(&record.kind))
        && records.iter().all(Record::unused_fields_are_zero)
        && records.windows(2).all(|pair| pair[0].place() < pair[1].place())
        && !records.iter().any(Record::counter_is_zero)
}

fn of_kind(records: &[Record], kind: u8) -> Vec<Record> {
    records.iter().filter(|record| record.kind == kind).copied().collect()
}

/// How many distinct things the records hold.
fn distinct<T: Ord>(records: &[Record], thing: impl Fn(&Record) -> T) -> usize {
    records.iter().map(thing).collect::<BTreeSet<T>>().len()
}

/// The largest number of distinct things among records that share a group.
fn most_per_group<G: Ord, T: Ord>(
    records: &[Record],
    group: impl Fn(&Record) -> G,
    thing: impl Fn(&Record) -> T,
) -> usize {
    let mut groups: BTreeMap<G, BTreeSet<T>> = BTreeMap::new();
    for record in records {
        groups.entry(group(record)).or_default().insert(thing(record));
    }
    groups.values().map(BTreeSet::len).max().unwrap_or(0)
}

/// Everything that answers 2 but the length, one kind at a time.
fn within_limits(records: &[Record]) -> bool {
    let entry_dots = of_kind(records, ENTRY_DOT);
    let values = of_kind(records, VALUE);
    let value_dots = of_kind(records, VALUE_DOT);
    let waiting_dots = of_kind(records, WAITING_DOT);
    let waiting_keys = of_kind(records, WAITING_KEY);
    let lone_clocks_fit = [MAP_CLOCK_DOT, REMOVAL_DOT, PUT_DOT]
        .into_iter()
        .all(|kind| distinct(&of_kind(records, kind), |r| r.actor) <= MOST_DOTS);

    lone_clocks_fit
        && distinct(&entry_dots, |r| r.key) <= MOST_ENTRIES
        && most_per_group(&entry_dots, |r| r.key, |r| r.actor) <= MOST_DOTS
        && distinct(&values, |r| r.key) <= MOST_ENTRIES
        && most_per_group(&values, |r| r.key, |r| r.index) <= MOST_VALUES
        && distinct(&value_dots, |r| r.key) <= MOST_ENTRIES
        && most_per_group(&value_dots, |r| r.key, |r| r.index) <= MOST_VALUES
        && most_per_group(&value_dots, |r| (r.key, r.index), |r| r.actor) <= MOST_DOTS
        && distinct(&waiting_dots, |r| r.index) <= MOST_WAITING
        && most_per_group(&waiting_dots, |r| r.index, |r| r.actor) <= MOST_DOTS
        && distinct(&waiting_keys, |r| r.index) <= MOST_WAITING
        && most_per_group(&waiting_keys, |r| r.index, |r| r.key) <= MOST_KEYS
        && distinct(&of_kind(records, REMOVAL_KEY), |r| r.key) <= MOST_KEYS
}

/// The clock that some records' dots make.
fn clock_of(records: &[Record]) -> Clock {
    records.iter().map(|record| (record.actor, record.number)).collect()
}

/// No gap: whoever has an index has every smaller one.
fn no_gap(indexes: &BTreeSet<u8>) -> bool {
    indexes.iter().copied().eq(0..indexes.len() as u8)
}

/// The map that well-formed records within the limits mean, unless they answer 3.
fn related_map(records: &[Record]) -> Option<Map> {
    let clock = clock_of(&of_kind(records, MAP_CLOCK_DOT));
    let entry_dots = of_kind(records, ENTRY_DOT);
    let values = of_kind(records, VALUE);
    let value_dots = of_kind(records, VALUE_DOT);
    let waiting_dots = of_kind(records, WAITING_DOT);
    let waiting_keys = of_kind(records, WAITING_KEY);

    let entry_keys: BTreeSet<u32> = entry_dots.iter().map(|r| r.key).collect();
    let value_places: BTreeSet<(u32, u8)> = values.iter().map(|r| (r.key, r.index)).collect();
    let value_dot_places: BTreeSet<(u32, u8)> =
        value_dots.iter().map(|r| (r.key, r.index)).collect();
    let waiting_indexes: BTreeSet<u8> = waiting_dots.iter().map(|r| r.index).collect();

    let values_and_dots_pair = value_places == value_dot_places;
    let values_have_entries = value_places.iter().all(|(key, _)| entry_keys.contains(key));
    let value_indexes_have_no_gap = entry_keys.iter().all(|entry| {
        let indexes = value_places.iter().filter(|(key, _)| key == entry);
        no_gap(&indexes.map(|(_, index)| *index).collect())
    });
    let waiting_keys_have_clocks = waiting_keys.iter().all(|r| waiting_indexes.contains(&r.index));
    let entry_dots_lie_within = entry_dots.iter().all(|r| r.number <= counter(&clock, r.actor));
    let waiting_clocks: Vec<Clock> = waiting_indexes
        .iter()
        .map(|index| {
            let dots: Vec<Record> =
                waiting_dots.iter().filter(|r| r.index == *index).copied().collect();
            clock_of(&dots)
        })
        .collect();
    let waiting_clocks_ascend = waiting_clocks.windows(2).all(|pair| pair[0] < pair[1]);

    if !(values_and_dots_pair
        && values_have_entries
        && value_indexes_have_no_gap
        && no_gap(&waiting_indexes)
        && waiting_keys_have_clocks
        && waiting_clocks_ascend
        && entry_dots_lie_within)
    {
        return None;
    }

    let entry = |key: u32| Entry {
        clock: clock_of(&entry_dots.iter().filter(|r| r.key == key).copied().collect::<Vec<_>>()),
        values: values
            .iter()
            .filter(|r| r.key == key)
            .map(|value| {
                let dots: Vec<Record> = value_dots
                    .iter()
                    .filter(|r| (r.key, r.index) == (key, value.index))
                    .copied()
                    .collect();
                (clock_of(&dots), (value.number, value.actor))
            })
            .collect(),
    };
    Some(Map {
        clock,
        entries: entry_keys.iter().map(|key| (*key, entry(*key))).collect(),
        waiting: waiting_clocks
            .into_iter()
            .enumerate()
            .map(|(index, clock)| {
                let keys = waiting_keys.iter().filter(|r| usize::from(r.index) == index);
                (clock, keys.map(|r| r.key).collect())
            })
            .collect(),
    })
}

fn related_operation(records: &[Record]) -> Option<Operation> {
    let heads: Vec<Record> = records
        .iter()
        .filter(|r| r.kind == REMOVAL_HEAD || r.kind == UPDATE_HEAD)
        .copied()
        .collect();
    let [head] = heads[..] else { return None };
    if head.kind == REMOVAL_HEAD {
        let goes_with_head =
            |r: &Record| matches!(r.kind, REMOVAL_HEAD | REMOVAL_DOT | REMOVAL_KEY);
        records.iter().all(goes_with_head).then(|| Operation::Removal {
            clock: clock_of(&of_kind(records, REMOVAL_DOT)),
            keys: of_kind(records, REMOVAL_KEY).iter().map(|r| r.key).collect(),
        })
    } else {
        let goes_with_head = |r: &Record| matches!(r.kind, UPDATE_HEAD | PUT_VALUE | PUT_DOT);
        let put_values = of_kind(records, PUT_VALUE);
        let [put_value] = put_values[..] else { return None };
        records.iter().all(goes_with_head).then(|| Operation::Update {
            actor: head.actor,
            counter: head.number,
            key: head.key,
            put_clock: clock_of(&of_kind(records, PUT_DOT)),
            put_value: (put_value.number, put_value.actor),
        })
    }
}

/// The order of refusals: over the longest length, then form, limits, relations.
fn read<T>(
    bytes: &[u8],
    longest: usize,
    kinds: std::ops::RangeInclusive<u8>,
    related: impl Fn(&[Record]) -> Option<T>,
) -> Result<T, u32> {
    if bytes.len() > longest {
        return Err(2);
    }
    if !well_formed(bytes, kinds) {
        return Err(1);
    }
    let records = records_of(bytes);
    if !within_limits(&records) {
        return Err(2);
    }
    related(&records).ok_or(3)
}

pub fn read_map(bytes: &[u8]) -> Result<Map, u32> {
    read(bytes, LONGEST_MAP, MAP_CLOCK_DOT..=WAITING_KEY, related_map)
}

pub fn read_operation(bytes: &[u8]) -> Result<Operation, u32> {
    read(bytes, LONGEST_OPERATION, REMOVAL_HEAD..=PUT_DOT, related_operation)
}

pub fn read_clock(bytes: &[u8]) -> Result<Clock, u32> {
    read(bytes, LONGEST_CLOCK, MAP_CLOCK_DOT..=MAP_CLOCK_DOT, |records| Some(clock_of(records)))
}

fn dots(kind: u8, index: usize, key: u32, clock: &Clock) -> Vec<Record> {
    clock
        .iter()
        .map(|(actor, counter)| Record {
            kind,
            index: index as u8,
            actor: *actor,
            key,
            number: *counter,
        })
        .collect()
}

fn in_order(mut records: Vec<Record>) -> Vec<u8> {
    records.sort_by_key(Record::place);
    bytes_of(&records)
}

/// The image of a map, also of one over the limits (indexes must fit their byte).
pub fn map_image(map: &Map) -> Vec<u8> {
    let mut records = dots(MAP_CLOCK_DOT, 0, 0, &map.clock);
    for (key, entry) in &map.entries {
        records.extend(dots(ENTRY_DOT, 0, *key, &entry.clock));
        for (index, (clock, (value, origin))) in entry.values.iter().enumerate() {
            records.push(Record {
                kind: VALUE,
                index: index as u8,
                actor: *origin,
                key: *key,
                number: *value,
            });
            records.extend(dots(VALUE_DOT, index, *key, clock));
        }
    }
    for (index, (clock, keys)) in map.waiting.iter().enumerate() {
        records.extend(dots(WAITING_DOT, index, 0, clock));
        records.extend(keys.iter().map(|key| Record {
            kind: WAITING_KEY,
            index: index as u8,
            key: *key,
            ..Record::default()
        }));
    }
    in_order(records)
}

pub fn operation_image(operation: &Operation) -> Vec<u8> {
    match operation {
        Operation::Removal { clock, keys } => {
            let mut records = vec![Record { kind: REMOVAL_HEAD, ..Record::default() }];
            records.extend(dots(REMOVAL_DOT, 0, 0, clock));
            records.extend(keys.iter().map(|key| Record {
                kind: REMOVAL_KEY,
                key: *key,
                ..Record::default()
            }));
            in_order(records)
        }
        Operation::Update { actor, counter, key, put_clock, put_value } => {
            let head = Record {
                kind: UPDATE_HEAD,
                actor: *actor,
                key: *key,
                number: *counter,
                ..Record::default()
            };
            let (number, origin) = *put_value;
            let value = Record { kind: PUT_VALUE, actor: origin, number, ..Record::default() };
            let mut records = vec![head, value];
            records.extend(dots(PUT_DOT, 0, 0, put_clock));
            in_order(records)
        }
    }
}

pub fn clock_image(clock: &Clock) -> Vec<u8> {
    in_order(dots(MAP_CLOCK_DOT, 0, 0, clock))
}
