//! Images that are wrong somewhere: damaged copies of good ones, and single kinds around limits.

use crate::generate::any_origin;
use crate::random::Random;
use oracle::image::{bytes_of, records_of, Record};
use oracle::model::{MOST_DOTS, MOST_ENTRIES, MOST_KEYS, MOST_VALUES, MOST_WAITING};

/// A record with small fields, well formed or nearly so.
pub fn small_record(random: &mut Random) -> Record {
    let uses = |kind: u8| match kind {
        1 | 8 | 11 | 12 => 10,
        2 | 10 => 14,
        3 | 4 => 15,
        5 => 11,
        6 => 5,
        9 => 4,
        _ => 0,
    };
    let kind = random.below(14) as u8;
    let bits = if random.one_in(8) { random.below(16) } else { uses(kind) };
    let mut field = |bit: usize, low: usize, high: usize| {
        if bits & bit == 0 {
            0
        } else {
            random.between(low, high)
        }
    };
    Record {
        kind,
        index: field(1, 0, 9) as u8,
        actor: field(2, 0, 9) as u16,
        key: field(4, 4, 22) as u32,
        number: field(8, 0, 3) as u64,
    }
}

/// Does one random harm to an image; it may by chance stay good.
pub fn damage(random: &mut Random, image: &[u8]) -> Vec<u8> {
    let mut bytes = image.to_vec();
    let mut records = records_of(image);
    match random.below(14) {
        0 if !bytes.is_empty() => {
            let place = random.below(bytes.len());
            bytes[place] ^= 1 << random.below(8);
            return bytes;
        }
        1 => {
            bytes.truncate(random.below(bytes.len() + 1));
            return bytes;
        }
        2 => {
            let amount = random.between(1, 20);
            bytes.extend((0..amount).map(|_| random.next() as u8));
            return bytes;
        }
        3 if !records.is_empty() => {
            let (one, another) = (random.below(records.len()), random.below(records.len()));
            records.swap(one, another);
        }
        4 if !records.is_empty() => {
            let place = random.below(records.len() - usize::from(records.len() > 1));
            if records.len() > 1 {
                records.swap(place, place + 1);
            }
        }
        5 if !records.is_empty() => {
            let place = random.below(records.len());
            records.insert(place, records[place]);
        }
        6 | 7 if !records.is_empty() => {
            // only dropped: order stays, relations may not
            records.remove(random.below(records.len()));
        }
        8 | 9 => {
            records.push(small_record(random));
            records.sort_by_key(Record::place);
        }
        10 | 11 if !records.is_empty() => {
            let place = random.below(records.len());
            change_field(random, &mut records[place]);
            if random.one_in(2) {
                records.sort_by_key(Record::place);
            }
        }
        12 if records.iter().any(Record::holds_value) => {
            // a second record for one value, its origin higher or lower: order skips it
            let values: Vec<usize> =
                (0..records.len()).filter(|place| records[*place].holds_value()).collect();
            let place = *random.pick(&values);
            let mut second = records[place];
            second.actor = any_origin(random);
            records.insert(place + random.below(2), second);
        }
        _ => {
            let amount = random.between(1, 24);
            let kinds_of_good = random.one_in(2);
            for _ in 0..amount {
                let record = small_record(random);
                if !kinds_of_good || records.iter().any(|good| good.kind == record.kind) {
                    records.push(record);
                }
            }
            records.sort_by_key(Record::place);
            records.dedup_by_key(|record| record.place());
        }
    }
    bytes_of(&records)
}

fn change_field(random: &mut Random, record: &mut Record) {
    let step = if random.one_in(2) { 1i64 } else { -1 };
    match random.below(5) {
        0 => record.kind = random.below(14) as u8,
        1 => record.index = record.index.wrapping_add_signed(step as i8),
        2 => record.actor = record.actor.wrapping_add_signed(step as i16),
        3 => record.key = record.key.wrapping_add_signed(step as i32),
        _ => {
            record.number = *random.pick(&[0, 1, u64::MAX, record.number.wrapping_add_signed(step)])
        }
    }
}

/// Records of one kind alone, around its limits: whether 2 wins over 3 is up to the counting.
pub fn lone_kind(random: &mut Random) -> Vec<u8> {
    let kind = *random.pick(&[1u8, 2, 3, 4, 5, 6, 8, 9, 10, 11, 12]);
    let around = |random: &mut Random, limit: usize| match random.below(6) {
        0 => 1,
        1 => limit - 1,
        2 | 3 => limit,
        4 => limit + 1,
        _ => random.between(1, limit + 2),
    };
    let (keys, indexes, actors) = match kind {
        1 | 8 | 12 => (1, 1, around(random, MOST_DOTS)),
        2 => (around(random, MOST_ENTRIES), 1, around(random, MOST_DOTS)),
        3 => (around(random, MOST_ENTRIES), around(random, MOST_VALUES), 1),
        4 => (around(random, MOST_ENTRIES), around(random, MOST_VALUES), around(random, MOST_DOTS)),
        5 => (1, around(random, MOST_WAITING), around(random, MOST_DOTS)),
        6 => (around(random, MOST_KEYS), around(random, MOST_WAITING), 1),
        9 => (around(random, MOST_KEYS), 1, 1),
        _ => (around(random, 3), 1, around(random, 3)),
    };
    let uses_key = matches!(kind, 2 | 3 | 4 | 6 | 9 | 10);
    let uses_index = matches!(kind, 3..=6);
    let uses_number = !matches!(kind, 6 | 9);
    let holds_value = matches!(kind, 3 | 11);
    // distinct indexes are counted, not how high they are; the highest is below 256
    let step = if random.one_in(3) { random.between(2, 14) as u8 } else { 1 };
    let sparse = random.one_in(2);
    let mut records = Vec::new();
    for key in 0..keys {
        for index in 0..indexes {
            for actor in 0..actors {
                if sparse && random.one_in(6) {
                    continue;
                }
                records.push(Record {
                    kind,
                    index: if uses_index { index as u8 * step } else { 0 },
                    actor: match holds_value {
                        true => any_origin(random),
                        false if uses_number => actor as u16 + 1,
                        false => 0,
                    },
                    key: if uses_key { key as u32 + 5 } else { 0 },
                    number: u64::from(uses_number),
                });
            }
        }
    }
    records.sort_by_key(Record::place);
    records.dedup_by_key(|record| record.place());
    bytes_of(&records)
}

/// Longer than any image may be, by a byte or by records, good or bad at its start.
pub fn too_long(random: &mut Random, image: &[u8], longest: usize) -> Vec<u8> {
    let mut bytes = image.to_vec();
    let length = longest + *random.pick(&[1, 15, 16, 17, 160]);
    bytes.resize(length, random.next() as u8);
    bytes
}

/// Bytes with no sense at all.
pub fn noise(random: &mut Random) -> Vec<u8> {
    let length = *random.pick(&[0, 1, 15, 16, 17, 32, 48, 160]);
    let records = random.one_in(2);
    if records {
        let records: Vec<Record> = (0..length / 16).map(|_| small_record(random)).collect();
        bytes_of(&records)
    } else {
        (0..length).map(|_| random.next() as u8).collect()
    }
}
