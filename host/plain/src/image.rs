//! Images: records of 16 bytes, read into maps, operations and clocks and written from them.

use crate::{
    number, Clock, Dot, Entry, Map, Operation, Removal, Value, LONGEST_CLOCK, LONGEST_MAP,
    LONGEST_OPERATION, MOST_DOTS, MOST_ENTRIES, MOST_KEYS, MOST_VALUES, MOST_WAITING,
};
use core::ops::RangeInclusive;

pub(crate) const RECORD_LENGTH: usize = 16;

pub(crate) const MAP_CLOCK_DOT: u8 = 1;
pub(crate) const ENTRY_DOT: u8 = 2;
pub(crate) const VALUE: u8 = 3;
pub(crate) const VALUE_DOT: u8 = 4;
pub(crate) const WAITING_DOT: u8 = 5;
pub(crate) const WAITING_KEY: u8 = 6;
const REMOVAL_HEAD: u8 = 7;
const REMOVAL_DOT: u8 = 8;
const REMOVAL_KEY: u8 = 9;
const UPDATE_HEAD: u8 = 10;
const PUT_VALUE: u8 = 11;
const PUT_DOT: u8 = 12;

const USES_INDEX: u8 = 1;
const USES_ACTOR: u8 = 2;
const USES_KEY: u8 = 4;
const USES_NUMBER: u8 = 8;

/// The fields that each kind may use; there is no kind 0.
const FIELDS: [u8; 13] = [0, 10, 14, 15, 15, 11, 5, 0, 10, 4, 14, 10, 10];

#[derive(Clone, Copy)]
pub(crate) struct Record {
    pub(crate) kind: u8,
    pub(crate) index: u8,
    pub(crate) actor: u16,
    pub(crate) key: u32,
    pub(crate) number: u64,
}

impl Record {
    pub(crate) fn read(bytes: &[u8; RECORD_LENGTH]) -> Record {
        let [kind, index, a0, a1, k0, k1, k2, k3, number @ ..] = *bytes;
        Record {
            kind,
            index,
            actor: u16::from_le_bytes([a0, a1]),
            key: u32::from_le_bytes([k0, k1, k2, k3]),
            number: u64::from_le_bytes(number),
        }
    }

    pub(crate) fn write(&self, bytes: &mut [u8]) {
        bytes[0] = self.kind;
        bytes[1] = self.index;
        bytes[2..4].copy_from_slice(&self.actor.to_le_bytes());
        bytes[4..8].copy_from_slice(&self.key.to_le_bytes());
        bytes[8..16].copy_from_slice(&self.number.to_le_bytes());
    }

    /// A value's record, which has an origin where others have an actor.
    fn holds_value(&self) -> bool {
        matches!(self.kind, VALUE | PUT_VALUE)
    }

    /// Kind, key, index and actor in one number: what records ascend by. An origin has no part in it.
    pub(crate) fn place(&self) -> u64 {
        let actor = if self.holds_value() { 0 } else { self.actor };
        u64::from(self.kind) << 56
            | u64::from(self.key) << 24
            | u64::from(self.index) << 16
            | u64::from(actor)
    }

    pub(crate) fn is_well_formed(&self) -> bool {
        let fields = FIELDS[usize::from(self.kind)];
        let is_counter = fields & USES_NUMBER != 0 && !self.holds_value();
        (fields & USES_INDEX != 0 || self.index == 0)
            && (fields & USES_ACTOR != 0 || self.actor == 0)
            && (fields & USES_KEY != 0 || self.key == 0)
            && (fields & USES_NUMBER != 0 || self.number == 0)
            && !(is_counter && self.number == 0)
    }

    pub(crate) fn dot(&self) -> Dot {
        Dot { actor: self.actor, counter: self.number }
    }

    /// A value whose clock is still to come.
    fn value(&self) -> Value {
        Value { clock: Clock::EMPTY, value: self.number, origin: self.actor }
    }
}

pub(crate) fn records(bytes: &[u8]) -> impl Iterator<Item = Record> + '_ {
    bytes
        .chunks_exact(RECORD_LENGTH)
        .map(|record| Record::read(record.try_into().expect("a chunk is as long as a record")))
}

/// Counts distinct keys, indexes under a key and actors under an index, one kind at a time.
struct Counts {
    last: Option<Record>,
    keys: usize,
    indexes: usize,
    actors: usize,
    /// Waiting keys ascend by key before index, so each index has a count of its own.
    waiting_indexes: [(u8, usize); MOST_WAITING],
    waiting_indexes_len: usize,
}

impl Counts {
    const NONE: Counts = Counts {
        last: None,
        keys: 0,
        indexes: 0,
        actors: 0,
        waiting_indexes: [(0, 0); MOST_WAITING],
        waiting_indexes_len: 0,
    };

    /// Counts the next record; false when it is over a limit of its kind.
    fn count(&mut self, record: &Record) -> bool {
        let last = self.last.replace(*record).filter(|last| last.kind == record.kind);
        match last {
            Some(last) if last.key == record.key && last.index == record.index => self.actors += 1,
            Some(last) if last.key == record.key => {
                self.indexes += 1;
                self.actors = 1;
            }
            Some(_) => {
                self.keys += 1;
                self.indexes = 1;
                self.actors = 1;
            }
            None => {
                self.keys = 1;
                self.indexes = 1;
                self.actors = 1;
            }
        }
        match record.kind {
            MAP_CLOCK_DOT | REMOVAL_DOT | PUT_DOT => self.actors <= MOST_DOTS,
            ENTRY_DOT => self.keys <= MOST_ENTRIES && self.actors <= MOST_DOTS,
            VALUE => self.keys <= MOST_ENTRIES && self.indexes <= MOST_VALUES,
            VALUE_DOT => {
                self.keys <= MOST_ENTRIES && self.indexes <= MOST_VALUES && self.actors <= MOST_DOTS
            }
            WAITING_DOT => self.indexes <= MOST_WAITING && self.actors <= MOST_DOTS,
            WAITING_KEY => self.count_waiting_key(record.index),
            REMOVAL_KEY => self.keys <= MOST_KEYS,
            _ => true,
        }
    }

    fn count_waiting_key(&mut self, index: u8) -> bool {
        let met = &mut self.waiting_indexes[..self.waiting_indexes_len];
        if let Some((_, keys)) = met.iter_mut().find(|(known, _)| *known == index) {
            *keys += 1;
            *keys <= MOST_KEYS
        } else if self.waiting_indexes_len < MOST_WAITING {
            self.waiting_indexes[self.waiting_indexes_len] = (index, 1);
            self.waiting_indexes_len += 1;
            true
        } else {
            false
        }
    }
}

/// Everything that is refused before records are related: length, then 1, then 2.
fn check(bytes: &[u8], longest: usize, kinds: RangeInclusive<u8>) -> Result<(), u32> {
    if bytes.len() > longest {
        return Err(number::IMAGE_OVER_LIMIT);
    }
    if bytes.len() % RECORD_LENGTH != 0 {
        return Err(number::BAD_FORM);
    }
    // every kind is above 0, so the first record's place is too
    let mut last_place = 0;
    let mut counts = Counts::NONE;
    let mut within_limits = true;
    for record in records(bytes) {
        let place = record.place();
        if !kinds.contains(&record.kind) || place <= last_place || !record.is_well_formed() {
            return Err(number::BAD_FORM);
        }
        last_place = place;
        within_limits = within_limits && counts.count(&record);
    }
    if within_limits {
        Ok(())
    } else {
        Err(number::IMAGE_OVER_LIMIT)
    }
}

pub fn read_map(bytes: &[u8]) -> Result<Map, u32> {
    let mut map = Map::EMPTY;
    read_map_into(bytes, &mut map)?;
    Ok(map)
}

/// Reads into an empty map, so that callers need no copy of it.
pub(crate) fn read_map_into(bytes: &[u8], map: &mut Map) -> Result<(), u32> {
    check(bytes, LONGEST_MAP, MAP_CLOCK_DOT..=WAITING_KEY)?;
    add_records(bytes, map).ok_or(number::UNRELATED)
}

/// None when records do not fit together; limits are checked before, so nothing overflows.
fn add_records(bytes: &[u8], map: &mut Map) -> Option<()> {
    // entries ascend by key, as the values and value dots do: both are met by walking on
    let mut of_values = 0;
    let mut of_dots = 0;
    for record in records(bytes) {
        match record.kind {
            MAP_CLOCK_DOT => map.clock.push(record.dot())?,
            ENTRY_DOT => {
                if record.number > map.clock.counter(record.actor) {
                    return None;
                }
                if map.entries().last().map(|entry| entry.key) != Some(record.key) {
                    map.entries[map.entries_len].key = record.key;
                    map.entries_len += 1;
                }
                map.entries[map.entries_len - 1].clock.push(record.dot())?;
            }
            VALUE => {
                let entry = walk_to(map, &mut of_values, record.key)?;
                if usize::from(record.index) != entry.register.len {
                    return None;
                }
                entry.register.push(&record.value());
            }
            VALUE_DOT => {
                let entry = walk_to(map, &mut of_dots, record.key)?;
                let len = entry.register.len;
                let value = entry.register.values[..len].get_mut(usize::from(record.index))?;
                value.clock.push(record.dot())?;
            }
            WAITING_DOT => {
                let index = usize::from(record.index);
                if index == map.waiting.len {
                    map.waiting.len += 1;
                } else if index + 1 != map.waiting.len {
                    return None;
                }
                map.waiting.removals[index].clock.push(record.dot())?;
            }
            _ => {
                let waiting = &mut map.waiting.removals[..map.waiting.len];
                let removal = waiting.get_mut(usize::from(record.index))?;
                removal.keys[removal.len] = record.key;
                removal.len += 1;
            }
        }
    }
    let values_have_dots = map
        .entries()
        .iter()
        .all(|entry| entry.register.values().iter().all(|value| !value.clock.is_empty()));
    let waiting_ascends =
        map.waiting().windows(2).all(|pair| pair[0].clock.list_order(&pair[1].clock).is_lt());
    (values_have_dots && waiting_ascends).then_some(())
}

/// The entry of a key, from the one last met on.
fn walk_to<'a>(map: &'a mut Map, at: &mut usize, key: u32) -> Option<&'a mut Entry> {
    let entries = &mut map.entries[..map.entries_len];
    while entries.get(*at)?.key < key {
        *at += 1;
    }
    Some(&mut entries[*at]).filter(|entry| entry.key == key)
}

pub fn read_op(bytes: &[u8]) -> Result<Operation, u32> {
    check(bytes, LONGEST_OPERATION, REMOVAL_HEAD..=PUT_DOT)?;
    let mut records = records(bytes);
    let head = records.next().ok_or(number::UNRELATED)?;
    match head.kind {
        REMOVAL_HEAD => removal_of(records),
        UPDATE_HEAD => update_of(head, records),
        _ => None,
    }
    .ok_or(number::UNRELATED)
}

fn removal_of(records: impl Iterator<Item = Record>) -> Option<Operation> {
    let mut removal = Removal::NONE;
    for record in records {
        match record.kind {
            REMOVAL_DOT => removal.clock.push(record.dot())?,
            REMOVAL_KEY => {
                removal.keys[removal.len] = record.key;
                removal.len += 1;
            }
            _ => return None,
        }
    }
    Some(Operation::Remove(removal))
}

fn update_of(head: Record, mut records: impl Iterator<Item = Record>) -> Option<Operation> {
    // the put value comes right behind the head, and order allows only one
    let value = records.next().filter(|record| record.kind == PUT_VALUE)?;
    let mut put = value.value();
    for record in records {
        put.clock.push(record.dot())?;
    }
    Some(Operation::Update { dot: head.dot(), key: head.key, put })
}

pub fn read_clock(bytes: &[u8]) -> Result<Clock, u32> {
    check(bytes, LONGEST_CLOCK, MAP_CLOCK_DOT..=MAP_CLOCK_DOT)?;
    let mut clock = Clock::EMPTY;
    for record in records(bytes) {
        clock.push(record.dot()).ok_or(number::IMAGE_OVER_LIMIT)?;
    }
    Ok(clock)
}

/// Writes records one behind the other into a buffer that has room for all of them.
struct Writer<'a> {
    out: &'a mut [u8],
    len: usize,
}

impl Writer<'_> {
    fn record(&mut self, kind: u8, index: usize, actor: u16, key: u32, number: u64) {
        let record = Record { kind, index: index as u8, actor, key, number };
        record.write(&mut self.out[self.len..self.len + RECORD_LENGTH]);
        self.len += RECORD_LENGTH;
    }

    fn clock(&mut self, kind: u8, index: usize, key: u32, clock: &Clock) {
        for dot in clock.dots() {
            self.record(kind, index, dot.actor, key, dot.counter);
        }
    }
}

fn map_records(map: &Map) -> usize {
    let of_entry = |entry: &Entry| {
        let of_value = |value: &Value| 1 + value.clock.len;
        entry.clock.len + entry.register.values().iter().map(of_value).sum::<usize>()
    };
    let of_removal = |removal: &Removal| removal.clock.len + removal.len;
    map.clock.len
        + map.entries().iter().map(of_entry).sum::<usize>()
        + map.waiting().iter().map(of_removal).sum::<usize>()
}

/// Whether the image has room in a buffer of so many bytes.
pub fn fits(map: &Map, room: usize) -> Result<(), u32> {
    if room < map_records(map) * RECORD_LENGTH {
        return Err(number::SHORT_BUFFER);
    }
    Ok(())
}

/// The length written; nothing is written when the buffer is shorter than the image.
pub fn write_map(map: &Map, out: &mut [u8]) -> Result<usize, u32> {
    fits(map, out.len())?;
    let mut writer = Writer { out, len: 0 };
    writer.clock(MAP_CLOCK_DOT, 0, 0, &map.clock);
    for entry in map.entries() {
        writer.clock(ENTRY_DOT, 0, entry.key, &entry.clock);
    }
    for entry in map.entries() {
        for (index, value) in entry.register.values().iter().enumerate() {
            writer.record(VALUE, index, value.origin, entry.key, value.value);
        }
    }
    for entry in map.entries() {
        for (index, value) in entry.register.values().iter().enumerate() {
            writer.clock(VALUE_DOT, index, entry.key, &value.clock);
        }
    }
    for (index, removal) in map.waiting().iter().enumerate() {
        writer.clock(WAITING_DOT, index, 0, &removal.clock);
    }
    write_waiting_keys(map, &mut writer);
    Ok(writer.len)
}

/// Waiting keys ascend by key before index.
fn write_waiting_keys(map: &Map, writer: &mut Writer) {
    let mut keys = [(0u32, 0usize); MOST_WAITING * MOST_KEYS];
    let mut len = 0;
    for (index, removal) in map.waiting().iter().enumerate() {
        for key in removal.keys() {
            keys[len] = (*key, index);
            len += 1;
        }
    }
    let keys = &mut keys[..len];
    keys.sort_unstable();
    for (key, index) in keys {
        writer.record(WAITING_KEY, *index, 0, *key, 0);
    }
}

/// The length written; nothing is written when the buffer is shorter than the image.
pub fn write_op(operation: &Operation, out: &mut [u8]) -> Result<usize, u32> {
    let records = match operation {
        Operation::Remove(removal) => 1 + removal.clock.len + removal.len,
        Operation::Update { put, .. } => 2 + put.clock.len,
    };
    if out.len() < records * RECORD_LENGTH {
        return Err(number::SHORT_BUFFER);
    }
    let mut writer = Writer { out, len: 0 };
    match operation {
        Operation::Remove(removal) => {
            writer.record(REMOVAL_HEAD, 0, 0, 0, 0);
            writer.clock(REMOVAL_DOT, 0, 0, &removal.clock);
            for key in removal.keys() {
                writer.record(REMOVAL_KEY, 0, 0, *key, 0);
            }
        }
        Operation::Update { dot, key, put } => {
            writer.record(UPDATE_HEAD, 0, dot.actor, *key, dot.counter);
            writer.record(PUT_VALUE, 0, put.origin, 0, put.value);
            writer.clock(PUT_DOT, 0, 0, &put.clock);
        }
    }
    Ok(writer.len)
}
