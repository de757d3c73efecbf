//! Worn pages: accepted images with every sort of damage, images over every limit, and bytes with no sense.

use compare::generate::{any_origin, Taste};
use compare::random::Random;
use oracle::full::{busy_map, full_map};
use oracle::image::{bytes_of, map_image, records_of, Record, LONGEST_MAP, RECORD_LENGTH};

/// What was done to an image.
#[derive(Clone, Copy, Debug, PartialEq, Eq, PartialOrd, Ord)]
pub enum Damage {
    None,
    Short,
    Bits,
    Bytes,
    Page,
    Lost,
    Doubled,
    Exchanged,
    Cut,
    Shifted,
    Fields,
    Strangers,
    Together,
    Crowded,
    Waiting,
    Noise,
    TooLong,
    Several,
}

/// What single images are harmed by; the others make an image of their own.
const HARMS: [Damage; 10] = [
    Damage::Bits,
    Damage::Bytes,
    Damage::Page,
    Damage::Lost,
    Damage::Doubled,
    Damage::Exchanged,
    Damage::Cut,
    Damage::Shifted,
    Damage::Fields,
    Damage::Strangers,
];

/// An accepted image, mostly: small, of any size, full, or with much that waits.
pub fn image(random: &mut Random) -> Vec<u8> {
    let map = match random.below(24) {
        0..=13 => Taste::random(random).map(random),
        14..=19 => Taste::brim(random).map(random),
        20 | 21 => Taste::random(random).map_and_uniting_clock(random).0,
        22 => full_map(|_| false),
        _ => busy_map(),
    };
    map_image(&map)
}

/// Any input, and what was done to make it.
pub fn input(random: &mut Random) -> (Damage, Vec<u8>) {
    let damage = match random.below(32) {
        0 | 1 => Damage::None,
        2 => Damage::TooLong,
        3 => Damage::Noise,
        4..=6 => Damage::Together,
        7..=11 => Damage::Crowded,
        12..=15 => Damage::Waiting,
        16..=19 => Damage::Several,
        _ => *random.pick(&HARMS),
    };
    let bytes = match damage {
        Damage::None => image(random),
        Damage::TooLong => too_long(random),
        Damage::Noise => noise(random),
        Damage::Together => together(random),
        Damage::Crowded => crowded(random),
        Damage::Waiting => waiting(random),
        Damage::Several => several(random),
        _ => {
            let good = image(random);
            harmed(random, damage, &good)
        }
    };
    (damage, bytes)
}

fn several(random: &mut Random) -> Vec<u8> {
    let mut bytes = match random.below(4) {
        0 => crowded(random),
        1 => waiting(random),
        2 => together(random),
        _ => image(random),
    };
    for _ in 0..random.between(2, 6) {
        let harm = *random.pick(&HARMS);
        bytes = harmed(random, harm, &bytes);
    }
    bytes
}

/// One harm, which may by chance leave the image as it was.
pub fn harmed(random: &mut Random, damage: Damage, image: &[u8]) -> Vec<u8> {
    let mut bytes = image.to_vec();
    if bytes.is_empty() {
        return noise(random);
    }
    match damage {
        Damage::Bits => {
            for _ in 0..amount(random) {
                let place = random.below(bytes.len());
                bytes[place] ^= 1 << random.below(8);
            }
        }
        Damage::Bytes => {
            for _ in 0..amount(random) {
                let place = random.below(bytes.len());
                let any = random.next() as u8;
                bytes[place] = *random.pick(&[0, 1, 6, 0xFF, any]);
            }
        }
        Damage::Page => {
            // a run of bytes that reads as erased, as one byte, or as anything
            let start = random.below(bytes.len());
            let length = *random.pick(&[16, 64, 512, 2048]);
            let end = bytes.len().min(start + random.between(1, length));
            let fill = *random.pick(&[0, 0xFF, 0xAA]);
            let anything = random.one_in(4);
            for byte in &mut bytes[start..end] {
                *byte = if anything { random.next() as u8 } else { fill };
            }
        }
        Damage::Cut => bytes.truncate(random.below(bytes.len() + 1)),
        Damage::Shifted => {
            // a byte lost or one too many: all behind it stands elsewhere
            let place = random.below(bytes.len());
            if random.one_in(2) {
                bytes.remove(place);
            } else {
                bytes.insert(place, random.next() as u8);
            }
        }
        _ => return harmed_records(random, damage, image),
    }
    bytes
}

/// How often a harm is done: once, mostly.
fn amount(random: &mut Random) -> usize {
    match random.below(4) {
        0 => random.between(2, 12),
        1 => random.between(1, 3),
        _ => 1,
    }
}

/// Harm that leaves records whole; a part of one at the end stays there.
fn harmed_records(random: &mut Random, damage: Damage, image: &[u8]) -> Vec<u8> {
    let mut records = records_of(image);
    let part = &image[records.len() * RECORD_LENGTH..];
    for _ in 0..amount(random) {
        if records.is_empty() {
            break;
        }
        let place = random.below(records.len());
        match damage {
            Damage::Lost if random.one_in(3) => {
                let end = records.len().min(place + random.between(1, 32));
                records.drain(place..end);
            }
            Damage::Lost => {
                records.remove(place);
            }
            Damage::Doubled => {
                let mut second = records[place];
                if second.holds_value() && random.one_in(2) {
                    second.actor = any_origin(random);
                }
                let to = if random.one_in(2) { place } else { random.below(records.len() + 1) };
                records.insert(to, second);
            }
            Damage::Exchanged => {
                let near = (place + 1).min(records.len() - 1);
                let other = if random.one_in(2) { near } else { random.below(records.len()) };
                records.swap(place, other);
            }
            Damage::Fields => change_field(random, &mut records[place]),
            _ => {
                let stranger = small_record(random);
                records.insert(place, stranger);
                if random.one_in(2) {
                    records.sort_by_key(Record::place);
                }
            }
        }
    }
    if damage == Damage::Fields && random.one_in(2) {
        records.sort_by_key(Record::place);
    }
    [&bytes_of(&records)[..], part].concat()
}

fn change_field(random: &mut Random, record: &mut Record) {
    let step = if random.one_in(2) { 1i64 } else { -1 };
    match random.below(5) {
        0 => record.kind = random.below(9) as u8,
        1 if random.one_in(3) => record.index = random.next() as u8,
        1 => record.index = record.index.wrapping_add_signed(step as i8),
        2 => record.actor = record.actor.wrapping_add_signed(step as i16),
        3 => record.key = record.key.wrapping_add_signed(step as i32),
        _ => {
            record.number = *random.pick(&[0, 1, u64::MAX, record.number.wrapping_add_signed(step)])
        }
    }
}

/// A record with small fields, good by itself or nearly so.
fn small_record(random: &mut Random) -> Record {
    let kind = if random.one_in(12) { random.next() as u8 } else { random.between(1, 6) as u8 };
    let uses = match kind {
        1 => 10,
        2 => 14,
        3 | 4 => 15,
        5 => 11,
        6 => 5,
        _ => random.below(16),
    };
    let uses = if random.one_in(12) { random.below(16) } else { uses };
    let mut field = |bit: usize, most: usize| if uses & bit == 0 { 0 } else { random.below(most) };
    Record {
        kind,
        index: field(1, 6) as u8,
        actor: field(2, 10) as u16,
        key: field(4, 12) as u32,
        number: field(8, 4) as u64,
    }
}

/// Two images run together: one behind the other, one's beginning with the other's end, or record by record.
fn together(random: &mut Random) -> Vec<u8> {
    let taste = Taste::random(random);
    let map = taste.map(random);
    let (one, other) = (map_image(&map), map_image(&taste.other_map(random, &map)));
    match random.below(4) {
        0 => [one, other].concat(),
        1 => {
            let (cut, from) = (random.below(one.len() + 1), random.below(other.len() + 1));
            [&one[..cut], &other[from..]].concat()
        }
        2 => {
            let mut records = [records_of(&one), records_of(&other)].concat();
            records.sort_by_key(Record::place);
            bytes_of(&records)
        }
        _ => {
            let (mut one, mut other) = (records_of(&one), records_of(&other));
            let mut records = Vec::new();
            while !(one.is_empty() && other.is_empty()) {
                let from = if random.one_in(2) { &mut one } else { &mut other };
                let run = from.len().min(random.between(1, 6));
                records.extend(from.drain(..run));
            }
            bytes_of(&records)
        }
    }
}

/// So many numbers, ascending, with gaps now and then.
fn numbers(random: &mut Random, amount: usize, most: u32) -> Vec<u32> {
    let gaps = random.one_in(2);
    let first = if random.one_in(3) { random.below(4) as u32 } else { 0 };
    let mut next = first;
    let mut numbers = Vec::new();
    for _ in 0..amount {
        if next > most {
            break;
        }
        numbers.push(next);
        next += if gaps && random.one_in(3) { random.between(2, 9) as u32 } else { 1 };
    }
    numbers
}

/// A number around a limit, or a small one.
fn around(random: &mut Random, limit: usize) -> usize {
    match random.below(6) {
        0 => random.between(0, 2),
        1 => limit,
        2 => limit + 1,
        3 => limit + random.between(1, 6),
        _ => random.below(limit + 3),
    }
}

/// Records in order that are over some limits, with dots above the clock, values without dots, keys without clocks.
fn crowded(random: &mut Random) -> Vec<u8> {
    let actors = around(random, 8) as u16;
    let small = random.one_in(2);
    let most_keys = if small { random.between(1, 4) } else { around(random, 32) };
    let (most_values, most_waiting) = (around(random, 4), around(random, 16));
    let seen = random.between(1, 4);
    let holes = *random.pick(&[2, 4, 16, 1000]);
    let record = |kind, index, actor, key, number| Record { kind, index, actor, key, number };
    let mut records = Vec::new();

    for actor in 0..actors {
        records.push(record(1, 0, actor, 0, random.between(1, seen) as u64));
    }
    for key in numbers(random, most_keys, u32::MAX) {
        for actor in 0..around(random, 8) as u16 {
            let above = usize::from(random.one_in(4));
            let number = random.between(1, seen + above) as u64;
            records.push(record(2, 0, actor, key, number));
        }
        for index in numbers(random, most_values, 255) {
            records.push(record(3, index as u8, any_origin(random), key, random.below(3) as u64));
            let dots = if small { around(random, 8) } else { random.below(3) };
            for actor in 0..dots as u16 {
                records.push(record(4, index as u8, actor, key, random.between(1, 3) as u64));
            }
        }
    }
    for index in numbers(random, most_waiting, 255) {
        let dots = if small { around(random, 8) } else { random.between(1, 3) };
        for actor in 0..dots as u16 {
            records.push(record(5, index as u8, actor, 0, random.between(1, 2) as u64));
        }
        for key in 0..around(random, 16) as u32 {
            records.push(record(6, index as u8, 0, key, 0));
        }
    }
    records.retain(|_| !random.one_in(holes));
    records.sort_by_key(Record::place);
    let mut bytes = bytes_of(&records);
    if !random.one_in(16) {
        bytes.truncate(LONGEST_MAP);
    }
    bytes
}

/// Waiting removals alone: few clocks, so that many are equal, in any order, with gaps, and lists of keys that are long together.
fn waiting(random: &mut Random) -> Vec<u8> {
    let different = random.between(1, 6);
    let clocks: Vec<Vec<(u16, u64)>> = (0..different)
        .map(|_| {
            let dots = *random.pick(&[1, 1, 2, 2, 3, 8, 9]);
            let first = random.below(2) as u16;
            (0..dots).map(|actor| (first + actor, random.between(1, 2) as u64)).collect()
        })
        .collect();
    let amount = around(random, 16);
    let most = *random.pick(&[2, 6, 17, 20]);
    let mut records = Vec::new();
    for index in numbers(random, amount, 255) {
        let clock = random.pick(&clocks);
        for (actor, number) in clock {
            let (index, actor, number) = (index as u8, *actor, *number);
            records.push(Record { kind: 5, index, actor, key: 0, number });
        }
        let first = random.below(12) as u32;
        for key in first..first + random.between(0, most) as u32 {
            if !random.one_in(6) {
                records.push(Record { kind: 6, index: index as u8, key, ..Record::default() });
            }
        }
    }
    if random.one_in(4) {
        records.retain(|_| !random.one_in(12));
    }
    records.sort_by_key(Record::place);
    bytes_of(&records)
}

/// Bytes with no sense, or records that are good by themselves in any order.
fn noise(random: &mut Random) -> Vec<u8> {
    let length = *random.pick(&[0, 1, 15, 16, 17, 32, 48, 160, 1600]);
    if random.one_in(3) {
        return (0..length).map(|_| random.next() as u8).collect();
    }
    let mut records: Vec<Record> = (0..length / 16 + 2).map(|_| small_record(random)).collect();
    if random.one_in(2) {
        records.sort_by_key(Record::place);
    }
    bytes_of(&records)
}

/// Longer than any image may be, or as long as it may be, good or bad at its start.
fn too_long(random: &mut Random) -> Vec<u8> {
    let mut bytes = image(random);
    let length = LONGEST_MAP + *random.pick(&[0, 0, 1, 15, 16, 17, 1600]);
    let fill = *random.pick(&[0, 1, 0xFF]);
    bytes.resize(length, fill);
    bytes
}
