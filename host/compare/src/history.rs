//! Long histories of three replicas whose operations arrive late, twice and in another order.

use crate::asks::Asks;
use crate::generate::any_origin;
use crate::random::Random;
use oracle::image::{clock_image, map_image, operation_image, read_map, read_operation};
use oracle::model::{Map, Operation};

const REPLICAS: usize = 3;

struct History {
    /// The image of each replica's map.
    maps: Vec<Vec<u8>>,
    /// Operation images on their way to each replica.
    mail: Vec<Vec<Vec<u8>>>,
    actors_each: usize,
    keys: usize,
}

/// One history of so many steps; every call on the way is compared.
pub fn history(random: &mut Random, asks: &mut dyn Asks, steps: usize) {
    let mut history = History {
        maps: vec![map_image(&Map::default()); REPLICAS],
        mail: vec![Vec::new(); REPLICAS],
        // with three each the ninth actor is the last that fits no more
        actors_each: *random.pick(&[1, 1, 2, 3]),
        keys: *random.pick(&[1, 3, 6, 18]),
    };
    for _ in 0..steps {
        let at = random.below(REPLICAS);
        match random.below(16) {
            0..=4 => history.make_update(random, asks, at),
            5 | 6 => history.make_removal(random, asks, at),
            7..=11 => history.deliver(random, asks, at),
            12 | 13 => history.merge(random, asks, at),
            14 => history.read(random, asks, at),
            _ => history.reset(random, asks, at),
        }
    }
}

impl History {
    fn key(&self, random: &mut Random) -> u32 {
        random.below(self.keys) as u32
    }

    fn apply(&mut self, asks: &mut dyn Asks, at: usize, op: &[u8]) {
        if let Some(answer) = asks.apply(&self.maps[at], op) {
            if answer.number == 0 {
                self.maps[at] = answer.bytes;
            }
        }
    }

    /// Applies at home at once, mostly, and sends it to all others.
    fn publish(&mut self, random: &mut Random, asks: &mut dyn Asks, at: usize, op: Vec<u8>) {
        if !random.one_in(10) {
            self.apply(asks, at, &op);
        }
        for other in 0..REPLICAS {
            if other != at || random.one_in(10) {
                self.mail[other].push(op.clone());
            }
        }
    }

    fn make_update(&mut self, random: &mut Random, asks: &mut dyn Asks, at: usize) {
        let actor = (at * self.actors_each + random.below(self.actors_each) + 1) as u16;
        let (key, value) = (self.key(random), (random.next() % 100, any_origin(random)));
        if let Some(answer) = asks.update(&self.maps[at], actor, key, value) {
            if answer.number == 0 {
                self.publish(random, asks, at, answer.bytes);
            }
        }
    }

    fn make_removal(&mut self, random: &mut Random, asks: &mut dyn Asks, at: usize) {
        let key = self.key(random);
        let answer = if random.one_in(2) {
            asks.rm_get(&self.maps[at], key)
        } else {
            asks.rm_read_ctx(&self.maps[at], key)
        };
        let Some(answer) = answer.filter(|answer| answer.number == 0) else { return };
        let mut op = answer.bytes;
        if random.one_in(3) {
            // the same clock, with more keys or none
            if let Ok(Operation::Removal { clock, mut keys }) = read_operation(&op) {
                if random.one_in(6) {
                    keys.clear();
                }
                for _ in 0..random.below(16) {
                    keys.insert(self.key(random));
                }
                op = operation_image(&Operation::Removal { clock, keys });
            }
        }
        self.publish(random, asks, at, op);
    }

    fn deliver(&mut self, random: &mut Random, asks: &mut dyn Asks, at: usize) {
        if self.mail[at].is_empty() {
            return;
        }
        let place = if random.one_in(3) { random.below(self.mail[at].len()) } else { 0 };
        let op = if random.one_in(5) {
            self.mail[at][place].clone()
        } else {
            self.mail[at].remove(place)
        };
        if random.one_in(3) {
            asks.validate_op(&self.maps[at], &op);
        }
        self.apply(asks, at, &op);
    }

    fn merge(&mut self, random: &mut Random, asks: &mut dyn Asks, at: usize) {
        let from = random.below(REPLICAS);
        let other = self.maps[from].clone();
        if random.one_in(3) {
            asks.validate_merge(&self.maps[at], &other);
        }
        if let Some(answer) = asks.merge(&self.maps[at], &other) {
            if answer.number == 0 {
                self.maps[at] = answer.bytes;
            }
        }
    }

    fn read(&mut self, random: &mut Random, asks: &mut dyn Asks, at: usize) {
        asks.len(&self.maps[at]);
        let key = self.key(random);
        asks.get(&self.maps[at], key);
    }

    fn reset(&mut self, random: &mut Random, asks: &mut dyn Asks, at: usize) {
        let from = random.below(REPLICAS);
        let Ok(mut by) = read_map(&self.maps[from]).map(|map| map.clock) else { return };
        by.retain(|_, _| random.one_in(2));
        for counter in by.values_mut() {
            *counter -= (random.below(2) as u64).min(*counter - 1);
        }
        if let Some(answer) = asks.reset_remove(&self.maps[at], &clock_image(&by)) {
            // mostly only asked, since a reset map forgets what it has seen
            if answer.number == 0 && random.one_in(3) {
                self.maps[at] = answer.bytes;
            }
        }
    }
}
