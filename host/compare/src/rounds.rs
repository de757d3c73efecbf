//! What is asked: every short input, and rounds of random ones.

use crate::asks::Asks;
use crate::generate::Taste;
use crate::random::Random;
use crate::{damage, history, small};
use calls::{LONGEST_CLOCK, LONGEST_MAP, LONGEST_OPERATION};
use oracle::image::{clock_image, map_image, operation_image};

/// An image left as it is, mostly, or damaged once or more.
fn maybe_damaged(random: &mut Random, image: Vec<u8>, longest: usize) -> Vec<u8> {
    match random.below(24) {
        0..=2 => damage::damage(random, &image),
        3 => {
            let once = damage::damage(random, &image);
            damage::damage(random, &once)
        }
        4 if random.one_in(4) => damage::too_long(random, &image, longest),
        5 if random.one_in(2) => damage::noise(random),
        6 => damage::lone_kind(random),
        _ => image,
    }
}

/// Maps of all sizes.
fn random_round(random: &mut Random, asks: &mut dyn Asks) {
    if random.one_in(3) {
        let (ours, theirs) = Taste::pair_apart(random);
        round(random, asks, &ours, &theirs);
    } else {
        let taste = Taste::random(random);
        round(random, asks, &taste, &taste);
    }
}

/// Maps around the limits.
fn brim_round(random: &mut Random, asks: &mut dyn Asks) {
    if random.one_in(2) {
        let (ours, theirs) = Taste::brim_pair(random);
        round(random, asks, &ours, &theirs);
    } else {
        let taste = Taste::brim(random);
        round(random, asks, &taste, &taste);
    }
}

/// Some calls on a map of our taste and one of theirs, damaged now and then.
fn round(random: &mut Random, asks: &mut dyn Asks, ours: &Taste, theirs: &Taste) {
    let map = ours.map(random);
    let other = theirs.other_map(random, &map);
    let map_bytes = maybe_damaged(random, map_image(&map), LONGEST_MAP);
    let other_bytes = maybe_damaged(random, map_image(&other), LONGEST_MAP);

    let (actor, key) = (ours.actor(random), ours.key(random));
    let value = ours.value(random);
    let fresh_actor = actor.wrapping_add(random.below(2) as u16 * 100);
    asks.merge(&map_bytes, &other_bytes);
    asks.validate_merge(&map_bytes, &other_bytes);
    asks.update(&map_bytes, fresh_actor, key, value);
    for _ in 0..3 {
        let operation = operation_image(&ours.operation(random, &map));
        let operation = maybe_damaged(random, operation, LONGEST_OPERATION);
        asks.apply(&map_bytes, &operation);
        if random.one_in(2) {
            asks.validate_op(&map_bytes, &operation);
        }
    }
    let clock = clock_image(&ours.reset_clock(random, &map));
    asks.reset_remove(&map_bytes, &maybe_damaged(random, clock, LONGEST_CLOCK));
    match random.below(4) {
        0 => asks.rm_get(&map_bytes, key),
        1 => asks.rm_read_ctx(&map_bytes, key),
        2 => asks.get(&map_bytes, key),
        _ => asks.len(&map_bytes),
    };
}

/// Image verdicts alone: cheap, so many.
fn verdict_round(random: &mut Random, asks: &mut dyn Asks) {
    let lone = damage::lone_kind(random);
    asks.len(&lone);
    asks.validate_op(&[], &lone);
    asks.len(&damage::noise(random));
    let taste = Taste::random(random);
    let image = map_image(&taste.map(random));
    for _ in 0..4 {
        asks.len(&damage::damage(random, &image));
    }
}

fn uniting_round(random: &mut Random, asks: &mut dyn Asks) {
    let (map, by) = Taste::random(random).map_and_uniting_clock(random);
    asks.reset_remove(&map_image(&map), &clock_image(&by));
}

/// A clock as it is lent: mostly one in order, with any content behind its length.
fn lent_clock(random: &mut Random) -> ([(u16, u64); 8], usize) {
    let mut dots = [(0, 0); 8];
    let mut actor = 0;
    for dot in &mut dots {
        actor += random.between(1, 2) as u16;
        *dot = (actor, random.between(1, 3) as u64);
    }
    match random.below(6) {
        0 => dots[random.below(8)].1 = 0,
        1 => {
            let place = random.below(8);
            dots[place].0 = random.below(12) as u16;
        }
        2 => dots[random.below(8)].1 = u64::MAX,
        _ => {}
    }
    let len = match random.below(8) {
        0 => 9,
        1 => random.next() as usize,
        2 | 3 => 8,
        _ => random.below(9),
    };
    (dots, len)
}

/// What differs between two maps: strange to each other, apart, and near.
fn difference_round(random: &mut Random, asks: &mut dyn Asks) {
    let (ours, theirs) = match random.below(4) {
        0 => Taste::brim_pair(random),
        1 => Taste::pair_apart(random),
        2 => (Taste::brim(random), Taste::random(random)),
        _ => (Taste::random(random), Taste::random(random)),
    };
    let map = ours.map(random);
    let other = map_image(&theirs.other_map(random, &map));
    let near = map_image(&ours.near_map(random, &map));
    let map = maybe_damaged(random, map_image(&map), LONGEST_MAP);
    let other = maybe_damaged(random, other, LONGEST_MAP);
    asks.differences(&map, &other);
    asks.differences(&other, &map);
    asks.differences(&map, &near);
    asks.differences(&map, &map);
}

/// Some peers, mostly good ones, around the most that there may be, and none.
fn floor_round(random: &mut Random, asks: &mut dyn Asks) {
    for _ in 0..4 {
        let count = match random.below(8) {
            0 => *random.pick(&[63, 64, 65, 66]),
            1 => 0,
            _ => random.below(6),
        };
        let bad = random.one_in(3);
        let mut peers = Vec::new();
        while peers.len() < count {
            let (dots, len) = lent_clock(random);
            let held = &dots[..len.min(8)];
            let good = len <= 8
                && held.iter().all(|dot| dot.1 > 0)
                && held.windows(2).all(|pair| pair[0].0 < pair[1].0);
            if good || (bad && random.one_in(4)) {
                peers.push((dots, len));
            }
        }
        asks.floor(&peers);
    }
}

fn lent_clock_round(random: &mut Random, asks: &mut dyn Asks) {
    for _ in 0..4 {
        let (dots, len) = lent_clock(random);
        let counter = *random.pick(&[0, 1, 2, 4, u64::MAX]);
        asks.clock_advance(&dots, len, random.below(20) as u16, counter);
    }
}

/// A round of CR 14's calls. It has random numbers of its own, so that crates/replay's file stays.
pub fn report_round(random: &mut Random, asks: &mut dyn Asks) {
    if random.one_in(3) {
        floor_round(random, asks);
    } else {
        difference_round(random, asks);
    }
}

/// All inputs that are short enough to be taken one by one.
pub fn every_short_input(asks: &mut dyn Asks) {
    small::short_images(asks);
    small::every_length(asks);
    small::small_lent_clocks(asks);
    small::small_maps(asks);
}

/// One round of random inputs, of any sort.
pub fn any_round(random: &mut Random, asks: &mut dyn Asks) {
    match random.below(16) {
        0..=6 => random_round(random, asks),
        7..=10 => brim_round(random, asks),
        11 | 12 => verdict_round(random, asks),
        13 => uniting_round(random, asks),
        14 => lent_clock_round(random, asks),
        _ => {
            let steps = random.between(10, 120);
            history::history(random, asks, steps);
        }
    }
}
