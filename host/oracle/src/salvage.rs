//! Salvage of a damaged image, from document 02's words alone: each step says, on plain collections, which records stay.

use crate::image::{
    bytes_of, Record, ENTRY_DOT, LONGEST_MAP, MAP_CLOCK_DOT, RECORD_LENGTH, VALUE, VALUE_DOT,
    WAITING_DOT, WAITING_KEY,
};
use crate::model::{counter, Clock, MOST_DOTS, MOST_ENTRIES, MOST_KEYS, MOST_VALUES, MOST_WAITING};
use std::collections::{BTreeMap, BTreeSet};

/// Records by their place in the input.
type Placed = BTreeMap<usize, Record>;

/// What comes back of a damaged image.
#[derive(Clone, Debug, Default, PartialEq, Eq)]
pub struct Salvaged {
    pub image: Vec<u8>,
    /// Place and step of each record that was removed or changed, in input order.
    pub told: Vec<(usize, u8)>,
}

impl Salvaged {
    /// The report: place in four little-endian bytes, step in one.
    pub fn report(&self) -> Vec<u8> {
        let bytes = |(place, step): &(usize, u8)| {
            let mut bytes = (*place as u32).to_le_bytes().to_vec();
            bytes.push(*step);
            bytes
        };
        self.told.iter().flat_map(bytes).collect()
    }
}

/// Up to 28,800 bytes are read; a longer input is 2.
pub fn salvage(input: &[u8]) -> Result<Salvaged, u32> {
    if input.len() > LONGEST_MAP {
        return Err(2);
    }
    let whole = input.len() / RECORD_LENGTH;
    let read: Placed =
        input.chunks_exact(RECORD_LENGTH).map(Record::from_bytes).enumerate().collect();
    let good = good_by_themselves(&read);
    let ascending = above_the_last_kept(&good);
    let needed = with_what_they_need(&ascending);
    let mended = mended(&needed);

    let mut told = BTreeMap::new();
    if input.len() % RECORD_LENGTH != 0 {
        told.insert(whole, 1);
    }
    for (before, after, step) in
        [(&read, &good, 2), (&good, &ascending, 3), (&ascending, &needed, 4), (&needed, &mended, 5)]
    {
        // gone, or another than it was
        let differ = before.iter().filter(|(place, record)| after.get(place) != Some(record));
        told.extend(differ.map(|(place, _)| (*place, step)));
    }
    let mut records: Vec<Record> = mended.into_values().collect();
    records.sort_by_key(Record::place);
    Ok(Salvaged { image: bytes_of(&records), told: told.into_iter().collect() })
}

fn those(records: &Placed, stays: impl Fn(&Record) -> bool) -> Placed {
    records.iter().filter(|(_, r)| stays(r)).map(|(place, r)| (*place, *r)).collect()
}

/// Step 2: what 01 answers 1 for on that record alone goes.
fn good_by_themselves(records: &Placed) -> Placed {
    those(records, |record| {
        (MAP_CLOCK_DOT..=WAITING_KEY).contains(&record.kind)
            && record.unused_fields_are_zero()
            && !record.counter_is_zero()
    })
}

/// Step 3: what is not above the last one kept goes.
fn above_the_last_kept(records: &Placed) -> Placed {
    let mut kept = Placed::new();
    for (place, record) in records {
        let last = kept.last_key_value().map(|(_, last): (_, &Record)| last.place());
        if last.is_none_or(|last| last < record.place()) {
            kept.insert(*place, *record);
        }
    }
    kept
}

/// The first so many of each group, in input order.
fn first_of_each<G: Ord>(records: &Placed, most: usize, group: impl Fn(&Record) -> G) -> Placed {
    let mut sizes: BTreeMap<G, usize> = BTreeMap::new();
    let mut first = Placed::new();
    for (place, record) in records {
        let size = sizes.entry(group(record)).or_default();
        if *size < most {
            *size += 1;
            first.insert(*place, *record);
        }
    }
    first
}

/// The first so many different things that records name, in input order.
fn first_named<T: Ord>(records: &Placed, most: usize, thing: impl Fn(&Record) -> T) -> BTreeSet<T> {
    let mut named = BTreeSet::new();
    for record in records.values() {
        if named.len() < most {
            named.insert(thing(record));
        }
    }
    named
}

/// All that some records name.
fn named<T: Ord>(records: &Placed, thing: impl Fn(&Record) -> T) -> BTreeSet<T> {
    records.values().map(thing).collect()
}

fn key_and_index(record: &Record) -> (u32, u8) {
    (record.key, record.index)
}

/// Step 4: what has all that it needs, and room, stays. Kinds stand in order, so that what a kind needs is settled before it.
fn with_what_they_need(records: &Placed) -> Placed {
    let of_kind = |kind: u8| those(records, |record| record.kind == kind);

    let clock_dots = first_of_each(&of_kind(MAP_CLOCK_DOT), MOST_DOTS, |_| ());
    let seen = clock_of(clock_dots.values());

    let within = those(&of_kind(ENTRY_DOT), |r| r.number <= counter(&seen, r.actor));
    let keys = first_named(&within, MOST_ENTRIES, |r| r.key);
    let in_entries = those(&within, |r| keys.contains(&r.key));
    let entry_dots = first_of_each(&in_entries, MOST_DOTS, |r| r.key);

    let with_dots = named(&of_kind(VALUE_DOT), key_and_index);
    let with_both =
        those(&of_kind(VALUE), |r| keys.contains(&r.key) && with_dots.contains(&key_and_index(r)));
    let values = first_of_each(&with_both, MOST_VALUES, |r| r.key);

    let places = named(&values, key_and_index);
    let of_values = those(&of_kind(VALUE_DOT), |r| places.contains(&key_and_index(r)));
    let value_dots = first_of_each(&of_values, MOST_DOTS, key_and_index);

    let indexes = first_named(&of_kind(WAITING_DOT), MOST_WAITING, |r| r.index);
    let of_removals = those(&of_kind(WAITING_DOT), |r| indexes.contains(&r.index));
    let waiting_dots = first_of_each(&of_removals, MOST_DOTS, |r| r.index);

    let of_clocks = those(&of_kind(WAITING_KEY), |r| indexes.contains(&r.index));
    let waiting_keys = first_of_each(&of_clocks, MOST_KEYS, |r| r.index);

    [clock_dots, entry_dots, values, value_dots, waiting_dots, waiting_keys]
        .into_iter()
        .flatten()
        .collect()
}

fn clock_of<'a>(dots: impl Iterator<Item = &'a Record>) -> Clock {
    dots.map(|dot| (dot.actor, dot.number)).collect()
}

/// Step 5: what stays, with its new index. Nothing is put in order yet.
fn mended(records: &Placed) -> Placed {
    let of_kind = |kind: u8| those(records, |record| record.kind == kind);

    // the waiting clock of each index, in their order each of them once, and the lowest index of each
    let waiting_dots = of_kind(WAITING_DOT);
    let clocks: BTreeMap<u8, Clock> = named(&waiting_dots, |r| r.index)
        .into_iter()
        .map(|index| (index, clock_of(waiting_dots.values().filter(|r| r.index == index))))
        .collect();
    let mut lowest: BTreeMap<&Clock, u8> = BTreeMap::new();
    for (index, clock) in &clocks {
        lowest.entry(clock).or_insert(*index);
    }
    // the keys that a united removal keeps, each with the lowest index that lists it
    let mut listed: BTreeMap<&Clock, BTreeMap<u32, u8>> = BTreeMap::new();
    for record in of_kind(WAITING_KEY).values() {
        let keys = listed.entry(&clocks[&record.index]).or_default();
        let index = keys.entry(record.key).or_insert(record.index);
        *index = record.index.min(*index);
    }
    let kept_keys: BTreeSet<(u32, u8)> =
        listed.into_values().flat_map(|keys| keys.into_iter().take(MOST_KEYS)).collect();
    let values = named(&of_kind(VALUE), key_and_index);

    // an index becomes the number of those below it
    let value_index = |r: &Record| values.range((r.key, 0)..(r.key, r.index)).count();
    let waiting_index =
        |r: &Record| lowest.keys().filter(|clock| **clock < &clocks[&r.index]).count();
    let mend = |record: &Record| {
        let index = match record.kind {
            VALUE | VALUE_DOT => value_index(record),
            WAITING_DOT if lowest[&clocks[&record.index]] == record.index => waiting_index(record),
            WAITING_KEY if kept_keys.contains(&key_and_index(record)) => waiting_index(record),
            WAITING_DOT | WAITING_KEY => return None,
            _ => 0,
        };
        Some(Record { index: index as u8, ..*record })
    };
    records.iter().filter_map(|(place, record)| Some((*place, mend(record)?))).collect()
}
