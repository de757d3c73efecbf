//! What must hold of document 02's steps, whatever the input: the statement that all is compared with is held to them.

use oracle::image::{read_map, records_of, Record, RECORD_LENGTH};
use oracle::salvage::{salvage, Salvaged};
use std::collections::BTreeMap;

/// A record up to its index.
type Unindexed = (u8, u16, u32, u64);

fn unindexed(record: &Record) -> Unindexed {
    (record.kind, record.actor, record.key, record.number)
}

/// How often each thing stands in a list.
fn counted<T: Ord>(things: impl Iterator<Item = T>) -> BTreeMap<T, usize> {
    let mut counts = BTreeMap::new();
    things.for_each(|thing| *counts.entry(thing).or_default() += 1);
    counts
}

/// Takes one out, if there is one.
fn taken<T: Ord>(from: &mut BTreeMap<T, usize>, thing: &T) -> bool {
    match from.get_mut(thing) {
        Some(count) if *count > 0 => {
            *count -= 1;
            true
        }
        _ => false,
    }
}

/// The law that is broken, if one is.
pub fn broken(input: &[u8], salvaged: &Salvaged) -> Option<&'static str> {
    let Salvaged { image, told } = salvaged;
    let records = records_of(input);
    let places = records.len() + usize::from(input.len() % RECORD_LENGTH != 0);
    if read_map(image).is_err() {
        return Some("what is written is not accepted");
    }
    if read_map(input).is_ok() != told.is_empty() {
        return Some("the report is empty exactly for what is accepted: not here");
    }
    if told.is_empty() && image != input {
        return Some("an accepted image is changed");
    }
    if salvage(image).as_ref() != Ok(&Salvaged { image: image.clone(), told: vec![] }) {
        return Some("salvaged twice it is another");
    }
    if !told.windows(2).all(|pair| pair[0].0 < pair[1].0) || told.iter().any(|one| one.0 >= places)
    {
        return Some("places do not ascend, or there is no such place");
    }
    if told.iter().any(|(place, step)| (*place == records.len()) != (*step == 1)) {
        return Some("step 1 is of the part at the end, and of nothing else");
    }
    accounted(&records, image, told)
}

/// What is written are the records that are not told, as they are, and some that are told by 5, up to their index.
fn accounted(records: &[Record], image: &[u8], told: &[(usize, u8)]) -> Option<&'static str> {
    let whole = |record: &Record| (unindexed(record), record.index);
    let mut written = counted(records_of(image).iter().map(whole));
    let steps: BTreeMap<usize, u8> = told.iter().copied().collect();
    for (place, record) in records.iter().enumerate() {
        if !steps.contains_key(&place) && !taken(&mut written, &whole(record)) {
            return Some("a record that is not told is not written");
        }
    }
    let by_five = told.iter().filter(|(_, step)| *step == 5);
    let mut changed = counted(by_five.map(|(place, _)| unindexed(&records[*place])));
    for ((record, _), times) in written {
        if (0..times).any(|_| !taken(&mut changed, &record)) {
            return Some("a record is invented");
        }
    }
    None
}

/// A key's records in an image: its entry dots, its values and their dots.
fn of_key(records: &[Record], key: u32) -> Vec<Record> {
    let own = |record: &&Record| (2..=4).contains(&record.kind) && record.key == key;
    records.iter().filter(own).copied().collect()
}

/// Where records were only lost from an accepted image: a key all of whose records are left, with the map clock's dots
/// that its entry needs, comes back whole.
pub fn broken_loss(before: &[u8], left: &[u8], salvaged: &Salvaged) -> Option<&'static str> {
    let (before, left, after) = (records_of(before), records_of(left), records_of(&salvaged.image));
    let seen = |record: &Record| left.iter().any(|dot| dot.kind == 1 && dot.actor == record.actor);
    let mut keys: Vec<u32> = before.iter().filter(|r| r.kind == 2).map(|r| r.key).collect();
    keys.dedup();
    for key in keys {
        let own = of_key(&before, key);
        let needs = own.iter().filter(|record| record.kind == 2);
        if of_key(&left, key) == own && needs.clone().all(seen) && of_key(&after, key) != own {
            return Some("a key all of whose records were left does not come back whole");
        }
    }
    None
}
