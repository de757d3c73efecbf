//! Inputs that are taken one by one: short lists of small records, one byte changed to every other, every length.

use crate::checker::Checker;
use crate::worn::Damage;
use oracle::full::full_map;
use oracle::image::{bytes_of, map_image, Record, LONGEST_MAP};

fn record(kind: u8, index: u8, actor: u16, key: u32, number: u64) -> Record {
    Record { kind, index, actor, key, number }
}

/// Small records: two of most kinds' fields, two that are bad by themselves.
fn small_records() -> Vec<Record> {
    vec![
        record(1, 0, 1, 0, 1),
        record(1, 0, 2, 0, 2),
        record(2, 0, 1, 5, 1),
        record(2, 0, 1, 5, 2),
        record(2, 0, 2, 6, 1),
        record(3, 0, 0, 5, 40),
        record(3, 0, 7, 5, 41),
        record(3, 2, 0, 5, 40),
        record(3, 1, 0, 6, 0),
        record(4, 0, 1, 5, 1),
        record(4, 2, 1, 5, 1),
        record(4, 2, 2, 5, 9),
        record(4, 1, 1, 6, 1),
        record(5, 0, 1, 0, 2),
        record(5, 1, 1, 0, 2),
        record(5, 1, 1, 0, 1),
        record(5, 3, 1, 0, 1),
        record(6, 0, 0, 5, 0),
        record(6, 1, 0, 5, 0),
        record(6, 1, 0, 6, 0),
        record(6, 3, 0, 4, 0),
        record(4, 0, 1, 5, 0),
        record(7, 0, 0, 0, 0),
    ]
}

/// Every list of so many of the records.
fn lists(checker: &mut Checker, records: &[Record], length: usize, list: &mut Vec<Record>) {
    if length == 0 {
        checker.compare(Damage::Short, &bytes_of(list));
        return;
    }
    for record in records {
        list.push(*record);
        lists(checker, records, length - 1, list);
        list.pop();
    }
}

/// Every list of so many of the records that are good by themselves, in order, each at most once.
fn ascending(checker: &mut Checker, records: &[Record], length: usize, list: &mut Vec<Record>) {
    checker.compare(Damage::Short, &bytes_of(list));
    if length == 0 {
        return;
    }
    for place in 0..records.len() {
        list.push(records[place]);
        ascending(checker, &records[place + 1..], length - 1, list);
        list.pop();
    }
}

/// A key with two values, one waiting removal: each byte of it as every other.
fn every_byte(checker: &mut Checker) {
    let records = [
        record(1, 0, 1, 0, 2),
        record(2, 0, 1, 5, 2),
        record(3, 0, 7, 5, 40),
        record(3, 1, 0, 5, 41),
        record(4, 0, 1, 5, 1),
        record(4, 1, 1, 5, 2),
        record(5, 0, 1, 0, 3),
        record(6, 0, 0, 5, 0),
    ];
    let image = bytes_of(&records);
    for place in 0..image.len() {
        for byte in 0..=255 {
            let mut changed = image.clone();
            changed[place] = byte;
            checker.compare(Damage::Bytes, &changed);
        }
    }
}

/// The longest image and those around it in length, and shorter ones cut at every byte of some records.
fn lengths(checker: &mut Checker) {
    let full = map_image(&full_map(|_| false));
    assert_eq!(full.len(), LONGEST_MAP);
    let mut padded = full.clone();
    padded.resize(LONGEST_MAP + 40, 0);
    for length in (0..80).chain(1000..1040).chain(LONGEST_MAP - 40..LONGEST_MAP + 40) {
        checker.compare(Damage::Cut, &padded[..length]);
    }
    // the longest image of nothing but what goes
    for fill in [0, 1, 7, 0xFF] {
        checker.compare(Damage::Noise, &vec![fill; LONGEST_MAP]);
        checker.compare(Damage::Noise, &vec![fill; LONGEST_MAP - 1]);
    }
    // each record of a kind lost, and each doubled
    for place in (0..full.len() / 16).step_by(7) {
        let mut lost = full.clone();
        lost.drain(place * 16..place * 16 + 16);
        checker.compare_loss(&full, &lost);
    }
}

/// All of them; `deep` also takes longer lists.
pub fn every_short_input(checker: &mut Checker, deep: bool) {
    let records = small_records();
    for length in 0..=3 {
        lists(checker, &records, length, &mut Vec::new());
    }
    ascending(checker, &records, if deep { 7 } else { 5 }, &mut Vec::new());
    every_byte(checker);
    lengths(checker);
}
