//! Lists of operations that bring one map to another, made by histories, and lists that do not quite.

use crate::asks::Asks;
use crate::damage;
use crate::generate::Taste;
use crate::random::Random;
use oracle::expected;
use oracle::image::{map_image, operation_image, read_map};

/// The image of a map, operations that were accepted one after the other from there, and where they ended.
struct Trail {
    start: Vec<u8>,
    operations: Vec<Vec<u8>>,
    end: Vec<u8>,
    /// An operation that the end refuses, where one was met.
    refused: Option<Vec<u8>>,
}

fn operation(random: &mut Random, taste: &Taste, here: &[u8]) -> Vec<u8> {
    let (actor, key) = (taste.actor(random), taste.key(random));
    let made = match random.below(5) {
        0 | 1 => expected::update(here, actor, key, taste.value(random)),
        2 => expected::rm_get(here, key),
        3 => expected::rm_read_ctx(here, key),
        _ => expected::refused(9),
    };
    match read_map(here) {
        Ok(map) if made.number != 0 => operation_image(&taste.operation(random, &map)),
        _ => made.bytes,
    }
}

/// W9 without its waiting removal: 32 entries, and an update on a key that is none of theirs.
fn full_house() -> Trail {
    let record = |kind: u8, key: u32, number: u64| {
        [&[kind, 0, 1, 0][..], &key.to_le_bytes(), &number.to_le_bytes()].concat()
    };
    let entries = (1..=32).flat_map(|key| record(2, key, key.into()));
    let start: Vec<u8> = record(1, 0, 32).into_iter().chain(entries).collect();
    let refused = Some(expected::update(&start, 9, 77, (7, 0)).bytes);
    Trail { end: start.clone(), start, operations: vec![], refused }
}

fn trail(random: &mut Random) -> Trail {
    if random.one_in(50) {
        return full_house();
    }
    let taste = if random.one_in(3) { Taste::brim(random) } else { Taste::random(random) };
    let start = if random.one_in(4) { vec![] } else { map_image(&taste.map(random)) };
    let most = *random.pick(&[0, 1, 2, 3, 4, 6, 9, 31, 32, 33]);
    let mut trail = Trail { end: start.clone(), start, operations: vec![], refused: None };
    for _ in 0..most {
        let operation = operation(random, &taste, &trail.end);
        let answer = expected::apply(&trail.end, &operation);
        if answer.number == 0 {
            trail.end = answer.bytes;
            trail.operations.push(operation);
        } else {
            trail.refused = Some(operation);
        }
    }
    trail
}

/// A list that is accepted, up to 32 operations, and lists with one operation missing, doubled, exchanged or damaged,
/// with a part of a record at the end, without its first head, with too many, and between other maps.
pub fn list_round(random: &mut Random, asks: &mut dyn Asks) {
    let trail = trail(random);
    let (start, end, operations) = (&trail.start, &trail.end, &trail.operations);
    let list = operations.concat();
    asks.catch_up(start, end, &list);
    asks.catch_up(start, start, &list);
    if let Some(refused) = &trail.refused {
        asks.catch_up(start, end, &[&list[..], refused, &list].concat());
    }
    let mut other = operations.clone();
    if !operations.is_empty() {
        let place = random.below(operations.len());
        match random.below(5) {
            0 => drop(other.remove(place)),
            1 => other.insert(place, operations[place].clone()),
            2 => other.swap(place, random.below(operations.len())),
            3 => other[place] = damage::damage(random, &operations[place]),
            _ => {
                while other.len() < 33 + random.below(3) {
                    other.push(operations[place].clone());
                }
            }
        }
    }
    asks.catch_up(start, end, &other.concat());
    match random.below(6) {
        0 => asks.catch_up(start, end, &[&list[..], &vec![7; random.between(1, 15)]].concat()),
        1 => asks.catch_up(start, end, &list[list.len().min(16)..]),
        2 => asks.catch_up(&damage::damage(random, start), end, &list),
        3 => asks.catch_up(start, &damage::damage(random, end), &list),
        4 => asks.catch_up(start, end, &damage::noise(random)),
        _ => asks.catch_up(end, start, &list),
    };
}
