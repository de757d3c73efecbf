//! Random maps, operations and clocks: few actors, keys and counters, and every limit within reach.

use crate::random::Random;
use oracle::model::{
    counter, cut, Clock, Entry, Map, Operation, ValueAndOrigin, MOST_DOTS, MOST_ENTRIES, MOST_KEYS,
    MOST_VALUES, MOST_WAITING,
};
use oracle::published;
use std::collections::{BTreeMap, BTreeSet};

/// An origin code: often a small one or none, so that equal ones meet different values.
pub fn any_origin(random: &mut Random) -> u16 {
    match random.below(8) {
        0..=2 => 0,
        3..=5 => random.between(1, 2) as u16,
        6 => *random.pick(&[0x00FF, 0x0100, u16::MAX]),
        _ => random.next() as u16,
    }
}

/// An update that is the next on a map with this clock, or would be but for a counter or two. A put clock of
/// nine dots, and one without the update's own dot, come up too.
pub fn near_next(random: &mut Random, seen: &Clock) -> Operation {
    let mut put_clock = seen.clone();
    let actors: Vec<u16> = seen.keys().copied().chain([1, 2, 0xFFFF]).collect();
    let near = |random: &mut Random, held: u64| match random.below(8) {
        0 => held.saturating_add(2),
        1 => held.max(1),
        2 => held.saturating_sub(1).max(1),
        3 => u64::MAX,
        _ => held.saturating_add(1),
    };
    for _ in 0..random.below(3) {
        let actor = *random.pick(&actors);
        let counter = near(random, counter(seen, actor));
        put_clock.insert(actor, counter);
        if random.one_in(4) {
            put_clock.remove(&actor);
        }
    }
    let actor = *random.pick(&actors);
    let own = near(random, counter(seen, actor));
    if !random.one_in(12) {
        put_clock.insert(actor, own);
    }
    Operation::Update { actor, counter: own, key: 5, put_clock, put_value: (7, any_origin(random)) }
}

/// How many things there are where a limit allows so many.
#[derive(Clone, Copy)]
enum Fill {
    Few,
    Any,
    Brim,
    Over,
}

impl Fill {
    fn random(random: &mut Random) -> Fill {
        match random.below(40) {
            0..=19 => Fill::Few,
            20..=27 => Fill::Any,
            28..=37 => Fill::Brim,
            _ => Fill::Over,
        }
    }

    fn amount(self, random: &mut Random, limit: usize) -> usize {
        match self {
            Fill::Few => random.below(3),
            Fill::Any => random.below(limit + 1),
            Fill::Brim => limit - usize::from(random.one_in(4)),
            Fill::Over => limit + usize::from(random.one_in(2)),
        }
    }
}

/// What a family of maps and operations is made from, so that collisions are common.
pub struct Taste {
    actors: Vec<u16>,
    keys: Vec<u32>,
    counters: Vec<u64>,
    dots: Fill,
    entries: Fill,
    values: Fill,
    waiting: Fill,
    waiting_keys: Fill,
}

impl Taste {
    pub fn random(random: &mut Random) -> Taste {
        let actor_amount = *random.pick(&[1, 2, 3, 3, 5, 8, 9, 12]);
        let key_amount = *random.pick(&[1, 2, 3, 3, 6, 16, 17, 32, 33, 36]);
        let mut actors: Vec<u16> = (1..=actor_amount).collect();
        let mut keys: Vec<u32> = (5..5 + key_amount).collect();
        if random.one_in(4) {
            // the edges of the fields, and bytes that are not zero everywhere
            actors.splice(..1, [0, 0xFFFF, 0x0100]);
            keys.splice(..1, [0, u32::MAX, 0x0100_0000, 0x00FF_FF00]);
        }
        let counters = match random.below(8) {
            0 => vec![1],
            1..=3 => vec![1, 2, 3],
            4 => (1..=12).collect(),
            5 => vec![1, 2, u64::MAX - 1, u64::MAX],
            6 => vec![u64::MAX],
            _ => vec![1, 255, 256, 1 << 32, 1 << 63],
        };
        let mut fill = || Fill::random(random);
        Taste {
            actors,
            keys,
            counters,
            dots: fill(),
            entries: fill(),
            values: fill(),
            waiting: fill(),
            waiting_keys: fill(),
        }
    }

    /// Maps that are full, or nearly so, in most respects at once: up to the longest image.
    pub fn brim(random: &mut Random) -> Taste {
        let actor_amount = random.between(7, 9) as u16;
        let key_amount = random.between(MOST_ENTRIES, MOST_ENTRIES + 3) as u32;
        let mut fill = || match random.below(4) {
            0 => Fill::random(random),
            _ => Fill::Brim,
        };
        Taste {
            actors: (1..=actor_amount).collect(),
            keys: (1..=key_amount).collect(),
            counters: (1..=9).collect(),
            dots: fill(),
            entries: fill(),
            values: fill(),
            waiting: fill(),
            waiting_keys: fill(),
        }
    }

    /// Full maps whose actors are apart but fit into one clock together: merged they go over any
    /// of the other limits, often over several.
    pub fn brim_pair(random: &mut Random) -> (Taste, Taste) {
        let (mut ours, mut theirs) = (Taste::brim(random), Taste::brim(random));
        let split = random.between(1, 7) as u16;
        ours.actors = (1..=split).collect();
        theirs.actors = (split + 1..=8).collect();
        if random.one_in(2) {
            theirs.keys = theirs.keys.iter().map(|key| key + MOST_ENTRIES as u32 / 2 + 1).collect();
        }
        (ours, theirs)
    }

    /// Two tastes that meet in keys and shapes but hardly in actors: what one has made, the other
    /// has not seen, so that merging keeps almost all and goes over limits.
    pub fn pair_apart(random: &mut Random) -> (Taste, Taste) {
        let ours = Taste::random(random);
        let mut theirs = Taste::random(random);
        theirs.actors = ours.actors.iter().map(|actor| actor.wrapping_add(4)).collect();
        theirs.counters = ours.counters.clone();
        if random.one_in(2) {
            theirs.keys = ours.keys.clone();
        }
        (ours, theirs)
    }

    pub fn actor(&self, random: &mut Random) -> u16 {
        *random.pick(&self.actors)
    }

    pub fn key(&self, random: &mut Random) -> u32 {
        *random.pick(&self.keys)
    }

    pub fn counter(&self, random: &mut Random) -> u64 {
        *random.pick(&self.counters)
    }

    pub fn value(&self, random: &mut Random) -> ValueAndOrigin {
        let value = match random.below(4) {
            0 => 0,
            1 => u64::MAX,
            2 => random.next(),
            _ => 7,
        };
        (value, any_origin(random))
    }

    pub fn clock(&self, random: &mut Random) -> Clock {
        let amount = self.dots.amount(random, MOST_DOTS);
        let actors = random.sample(&self.actors, amount);
        actors.into_iter().map(|actor| (actor, self.counter(random))).collect()
    }

    fn clock_with_a_dot(&self, random: &mut Random) -> Clock {
        let mut clock = self.clock(random);
        if clock.is_empty() {
            clock.insert(self.actor(random), self.counter(random));
        }
        clock
    }

    /// Some dots of a clock, some of them lowered: what an entry of a map with that clock may have.
    fn clock_within(&self, random: &mut Random, bound: &Clock) -> Clock {
        let dots: Vec<(u16, u64)> = bound.iter().map(|(a, c)| (*a, *c)).collect();
        let amount = self.dots.amount(random, MOST_DOTS).max(1);
        let within = |random: &mut Random, (actor, most): (u16, u64)| {
            let lower = self.counter(random);
            let counter = if random.one_in(2) && lower <= most { lower } else { most };
            (actor, counter)
        };
        random.sample(&dots, amount).into_iter().map(|dot| within(random, dot)).collect()
    }

    /// A clock that has much to do with another.
    fn clock_near(&self, random: &mut Random, near: &Clock) -> Clock {
        let mut clock = near.clone();
        match random.below(4) {
            0 => {}
            1 => {
                clock.insert(self.actor(random), self.counter(random));
            }
            2 => {
                let actor = self.actor(random);
                clock.remove(&actor);
            }
            _ => {
                let actor = self.actor(random);
                let held = counter(&clock, actor);
                clock.insert(actor, held.saturating_add(1));
            }
        }
        clock
    }

    fn register(&self, random: &mut Random, entry_clock: &Clock) -> Vec<(Clock, ValueAndOrigin)> {
        let amount = self.values.amount(random, MOST_VALUES);
        let mut values: Vec<(Clock, ValueAndOrigin)> = Vec::new();
        for _ in 0..amount {
            let clock = match random.below(6) {
                0 => entry_clock.clone(),
                1 => self.clock_near(random, entry_clock),
                2 if !values.is_empty() => {
                    let (near, _) = values[random.below(values.len())].clone();
                    self.clock_near(random, &near)
                }
                // one dot each: mostly concurrent
                3 | 4 => Clock::from([(self.actor(random), self.counter(random))]),
                _ => self.clock_with_a_dot(random),
            };
            let clock = if clock.is_empty() { entry_clock.clone() } else { clock };
            values.push((clock, self.value(random)));
        }
        values
    }

    fn waiting(&self, random: &mut Random, map_clock: &Clock) -> BTreeMap<Clock, BTreeSet<u32>> {
        let amount = self.waiting.amount(random, MOST_WAITING);
        let mut waiting = BTreeMap::new();
        // tastes with few clocks may not have so many different ones
        for _ in 0..4 * amount {
            if waiting.len() == amount {
                break;
            }
            let clock = match random.below(4) {
                0 => self.clock_near(random, map_clock),
                1 => {
                    let held = counter(map_clock, self.actors[0]);
                    let ahead = held.saturating_add(random.between(1, 12) as u64);
                    Clock::from([(self.actors[0], ahead)])
                }
                _ => self.clock_with_a_dot(random),
            };
            if !clock.is_empty() {
                waiting.insert(clock, self.key_set(random));
            }
        }
        waiting
    }

    fn key_set(&self, random: &mut Random) -> BTreeSet<u32> {
        let amount = self.waiting_keys.amount(random, MOST_KEYS);
        random.sample(&self.keys, amount).into_iter().collect()
    }

    pub fn map(&self, random: &mut Random) -> Map {
        let clock = self.clock(random);
        let mut entries = BTreeMap::new();
        if !clock.is_empty() {
            let amount = self.entries.amount(random, MOST_ENTRIES);
            for key in random.sample(&self.keys, amount) {
                let entry_clock = self.clock_within(random, &clock);
                let values = self.register(random, &entry_clock);
                entries.insert(key, Entry { clock: entry_clock, values });
            }
        }
        let waiting = self.waiting(random, &clock);
        Map { clock, entries, waiting }
    }

    /// Another map to merge with: strange, apart, or grown from the same one.
    pub fn other_map(&self, random: &mut Random, map: &Map) -> Map {
        let mut other = match random.below(4) {
            0 => map.clone(),
            1 => self.grown(random, map),
            _ => self.map(random),
        };
        if random.one_in(3) {
            // equal waiting clocks, so that key lists are united
            for clock in map.waiting.keys() {
                if other.waiting.len() < MOST_WAITING && random.one_in(2) {
                    other.waiting.insert(clock.clone(), self.key_set(random));
                }
            }
        }
        other
    }

    /// A map that differs from another in little: values in another order, one twice or gone, another origin
    /// or entry clock, an entry gone; or in nothing.
    pub fn near_map(&self, random: &mut Random, map: &Map) -> Map {
        let mut near = map.clone();
        let keys: Vec<u32> = near.entries.keys().copied().collect();
        let changes = if keys.is_empty() { 0 } else { random.below(4) };
        for _ in 0..changes {
            let key = *random.pick(&keys);
            let Some(entry) = near.entries.get_mut(&key) else { continue };
            let some = !entry.values.is_empty();
            match random.below(6) {
                0 => entry.values.reverse(),
                1 if some && entry.values.len() < MOST_VALUES => {
                    let again = random.pick(&entry.values).clone();
                    entry.values.push(again);
                }
                2 => drop(entry.values.pop()),
                3 if some => entry.values[0].1 .1 ^= 1,
                4 if entry.clock.len() > 1 => drop(entry.clock.pop_first()),
                5 => drop(near.entries.remove(&key)),
                _ => {}
            }
        }
        near
    }

    fn grown(&self, random: &mut Random, map: &Map) -> Map {
        let mut grown = map.clone();
        for _ in 0..random.between(1, 4) {
            let after = published::apply(&grown, &self.operation(random, &grown));
            if after.over_limit().is_none() {
                grown = after;
            }
        }
        grown
    }

    pub fn operation(&self, random: &mut Random, map: &Map) -> Operation {
        if random.one_in(2) {
            self.removal(random, map)
        } else {
            self.update(random, map)
        }
    }

    fn removal(&self, random: &mut Random, map: &Map) -> Operation {
        let entry_clocks: Vec<&Clock> = map.entries.values().map(|entry| &entry.clock).collect();
        let waiting_clocks: Vec<&Clock> = map.waiting.keys().collect();
        let clock = match random.below(6) {
            0 => map.clock.clone(),
            1 if !entry_clocks.is_empty() => (*random.pick(&entry_clocks)).clone(),
            2 | 3 if !waiting_clocks.is_empty() => (*random.pick(&waiting_clocks)).clone(),
            4 => self.clock_near(random, &map.clock),
            _ => self.clock(random),
        };
        Operation::Removal { clock, keys: self.key_set(random) }
    }

    fn update(&self, random: &mut Random, map: &Map) -> Operation {
        let mut actor = self.actor(random);
        if random.one_in(6) {
            // maybe one that the clock has no room for
            actor = actor.wrapping_add(20);
        }
        let held = counter(&map.clock, actor);
        let counter = match random.below(8) {
            0 => self.counter(random),
            1 => held.max(1),
            2 => held.saturating_add(2),
            3 => u64::MAX,
            _ => held.saturating_add(1),
        };
        let mut keys = self.keys.clone();
        if random.one_in(4) {
            keys = vec![random.next() as u32];
        }
        let key = *random.pick(&keys);
        let values = map.entries.get(&key).map_or(&[][..], |entry| &entry.values[..]);
        let put_clock = match random.below(8) {
            0 => Clock::new(),
            1 if !values.is_empty() => random.pick(values).0.clone(),
            2 if !values.is_empty() => {
                let (near, _) = random.pick(values).clone();
                self.clock_near(random, &near)
            }
            3 => self.clock(random),
            4 | 5 => Clock::from([(actor, counter)]),
            _ => {
                let mut clock = map.clock.clone();
                clock.insert(actor, counter);
                clock
            }
        };
        Operation::Update { actor, counter, key, put_clock, put_value: self.value(random) }
    }

    /// A clock to reset by.
    pub fn reset_clock(&self, random: &mut Random, map: &Map) -> Clock {
        let waiting_clocks: Vec<&Clock> = map.waiting.keys().collect();
        match random.below(6) {
            0 => map.clock.clone(),
            1 => self.clock_within(random, &map.clock),
            2 if waiting_clocks.len() > 1 => {
                // what one waiting clock has more than another: cut by it they may become equal
                let (one, another) = (*random.pick(&waiting_clocks), *random.pick(&waiting_clocks));
                cut(one, another)
            }
            3 if !waiting_clocks.is_empty() => {
                let near = *random.pick(&waiting_clocks);
                self.clock_near(random, near)
            }
            _ => self.clock(random),
        }
    }

    /// Waiting removals that a reset makes equal, with key lists that are full together or over.
    pub fn map_and_uniting_clock(&self, random: &mut Random) -> (Map, Clock) {
        let mut map = self.map(random);
        let kept = Clock::from([(self.actors[0], u64::MAX)]);
        let highest = random.between(2, 5) as u64;
        map.waiting.clear();
        for level in 1..=highest {
            let mut clock = kept.clone();
            clock.insert(self.actors[0].wrapping_add(1), level);
            let first = random.below(20) as u32;
            let amount = random.between(0, MOST_KEYS) as u32;
            map.waiting.insert(clock, (first..first + amount).collect());
        }
        let by = Clock::from([(self.actors[0].wrapping_add(1), random.between(1, 5) as u64)]);
        (map, by)
    }
}
