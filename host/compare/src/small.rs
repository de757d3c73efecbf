//! Every short input: all short lists of small records, and all small maps with all small partners.

use crate::asks::Asks;
use calls::{LONGEST_CLOCK, LONGEST_MAP, LONGEST_OPERATION};
use oracle::image::{bytes_of, clock_image, operation_image, read_map, records_of, Record};
use oracle::model::{Clock, Operation};
use std::collections::BTreeSet;

/// All records with every field 0 or 1 (the number also as large as can be), of every kind near
/// the known ones.
fn any_records() -> Vec<Record> {
    let mut records = Vec::new();
    for kind in (0..=13).chain([255]) {
        for index in 0..=1 {
            for actor in 0..=1 {
                for key in 0..=1 {
                    for number in 0..=1 {
                        records.push(Record { kind, index, actor, key, number });
                    }
                }
            }
        }
    }
    records
}

/// Well-formed map records over two actors, two keys, two indexes, two counters and two origins.
fn map_records() -> Vec<Record> {
    let mut records = Vec::new();
    let none = Record::default();
    for actor in 1..=2 {
        for number in 1..=2 {
            records.push(Record { kind: 1, actor, number, ..none });
        }
        for key in 5..=6 {
            for number in 1..=2 {
                records.push(Record { kind: 2, actor, key, number, ..none });
            }
            for index in 0..=1 {
                records.push(Record { kind: 4, index, actor, key, number: 1 });
            }
        }
        for index in 0..=1 {
            for number in 1..=2 {
                records.push(Record { kind: 5, index, actor, number, ..none });
            }
        }
    }
    for index in 0..=1 {
        for key in 5..=6 {
            for origin in 0..=1 {
                records.push(Record { kind: 3, index, actor: origin, key, number: 7 });
            }
            records.push(Record { kind: 6, index, key, ..none });
        }
    }
    records.sort_by_key(|record| (record.place(), record.number));
    records
}

/// Hands over every ascending list of exactly `length` of the records.
fn each_choice(
    records: &[Record],
    length: usize,
    chosen: &mut Vec<Record>,
    take: &mut impl FnMut(&[Record]),
) {
    if chosen.len() == length {
        take(chosen);
        return;
    }
    for (place, record) in records.iter().enumerate() {
        chosen.push(*record);
        each_choice(&records[place + 1..], length, chosen, take);
        chosen.pop();
    }
}

/// All clocks over actors 1 and 2 with counters up to 2.
fn small_clocks() -> Vec<Clock> {
    let mut clocks = Vec::new();
    for one in 0..=2u64 {
        for two in 0..=2u64 {
            clocks.push([(1, one), (2, two)].into_iter().filter(|dot| dot.1 > 0).collect());
        }
    }
    clocks
}

fn small_operations() -> Vec<Vec<u8>> {
    let mut operations = Vec::new();
    for clock in small_clocks() {
        for keys in [vec![], vec![5], vec![6], vec![5, 6]] {
            let keys: BTreeSet<u32> = keys.into_iter().collect();
            operations.push(Operation::Removal { clock: clock.clone(), keys });
        }
        for actor in 1..=2 {
            for counter in 1..=3 {
                operations.push(Operation::Update {
                    actor,
                    counter,
                    key: 5,
                    put_clock: clock.clone(),
                    put_value: (8, counter as u16 - 1),
                });
            }
        }
    }
    operations.iter().map(operation_image).collect()
}

/// All images of at most two arbitrary records, as a map, an operation and a clock.
pub fn short_images(asks: &mut dyn Asks) {
    let records = any_records();
    asks.every_call(&[], &[], 1, 5, (7, 1));
    for first in &records {
        let one = bytes_of(&[*first]);
        asks.every_call(&one, &[], 1, 5, (7, 1));
        asks.every_call(&[], &one, 1, 5, (7, 1));
        for second in &records {
            let two = bytes_of(&[*first, *second]);
            asks.len(&two);
            asks.validate_op(&[], &two);
        }
    }
}

/// Every length of a good map, operation and clock, cut off or followed by zeros.
pub fn every_length(asks: &mut dyn Asks) {
    let clock: Clock = Clock::from([(1, 1), (2, 1)]);
    let map = bytes_of(&[
        Record { kind: 1, actor: 1, number: 1, ..Record::default() },
        Record { kind: 2, actor: 1, key: 5, number: 1, ..Record::default() },
        Record { kind: 3, key: 5, number: 40, ..Record::default() },
        Record { kind: 4, actor: 1, key: 5, number: 1, ..Record::default() },
    ]);
    let removal =
        operation_image(&Operation::Removal { clock: clock.clone(), keys: BTreeSet::from([5, 6]) });
    let clock = clock_image(&clock);
    let resized = |image: &[u8], length: usize| {
        let mut image = image.to_vec();
        image.resize(length, 0);
        image
    };
    for length in 0..=map.len() + 17 {
        asks.every_call(&resized(&map, length), &map, 1, 5, (7, 1));
        asks.every_call(&map, &resized(&map, length), 1, 5, (7, 1));
    }
    for length in 0..=removal.len() + 17 {
        asks.apply(&map, &resized(&removal, length));
        asks.validate_op(&map, &resized(&removal, length));
    }
    for length in 0..=clock.len() + 17 {
        asks.reset_remove(&map, &resized(&clock, length));
    }
    for longest in [LONGEST_MAP, LONGEST_OPERATION, LONGEST_CLOCK] {
        for length in longest - 15..=longest + 18 {
            // form is bad everywhere here, so only the length can answer 2
            let zeros = vec![0; length];
            asks.every_call(&zeros, &map, 1, 5, (7, 1));
            asks.every_call(&map, &zeros, 1, 5, (7, 1));
        }
    }
}

/// All images of up to four well-formed map records, and every small partner of the good ones.
pub fn small_maps(asks: &mut dyn Asks) {
    let records = map_records();
    let mut good = Vec::new();
    for length in 0..=4 {
        each_choice(&records, length, &mut Vec::new(), &mut |chosen| {
            let image = bytes_of(chosen);
            asks.len(&image);
            if read_map(&image).is_ok() {
                good.push(image);
            }
        });
    }
    let clocks: Vec<Vec<u8>> = small_clocks().iter().map(clock_image).collect();
    let operations = small_operations();
    for map in &good {
        for clock in &clocks {
            asks.reset_remove(map, clock);
        }
        for operation in &operations {
            asks.apply(map, operation);
            asks.validate_op(map, operation);
        }
        for actor in 1..=3 {
            asks.update(map, actor, 5, (9, actor - 1));
        }
        for key in 5..=7 {
            asks.rm_get(map, key);
            asks.rm_read_ctx(map, key);
            asks.get(map, key);
        }
    }
    let has_value = |map: &[u8]| records_of(map).iter().any(Record::holds_value);
    let shortest: Vec<&Vec<u8>> =
        good.iter().filter(|map| map.len() <= 3 * 16 || has_value(map)).collect();
    for map in &shortest {
        for other in &shortest {
            asks.merge(map, other);
            asks.validate_merge(map, other);
        }
    }
    println!("{} small maps, {} of them with each other", good.len(), shortest.len());
}

/// Every lent clock over few dots, every length, every dot added.
pub fn small_lent_clocks(asks: &mut dyn Asks) {
    let dots = [(1, 0), (1, 1), (1, 2), (2, 1), (3, u64::MAX)];
    for first in dots {
        for second in dots {
            for third in dots {
                for len in 0..=3 {
                    let mut lent = [(0xFFFF, 9); 8];
                    lent[..3].copy_from_slice(&[first, second, third]);
                    for actor in 0..=4 {
                        for counter in [0, 1, 2, u64::MAX] {
                            asks.clock_advance(&lent, len, actor, counter);
                        }
                    }
                }
            }
        }
    }
}
