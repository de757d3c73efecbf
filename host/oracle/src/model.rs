//! The settings map on unbounded collections, as document 01's sentences speak of it.

use std::collections::{BTreeMap, BTreeSet};

/// Its `Ord` is the order of waiting clocks: pair by pair (actor, then counter), a prefix first.
pub type Clock = BTreeMap<u16, u64>;

/// A value with its origin code: the pair is the published register's value.
pub type ValueAndOrigin = (u64, u16);

#[derive(Clone, Debug, Default, PartialEq, Eq)]
pub struct Entry {
    pub clock: Clock,
    pub values: Vec<(Clock, ValueAndOrigin)>,
}

#[derive(Clone, Debug, Default, PartialEq, Eq)]
pub struct Map {
    pub clock: Clock,
    pub entries: BTreeMap<u32, Entry>,
    pub waiting: BTreeMap<Clock, BTreeSet<u32>>,
}

#[derive(Clone, Debug, PartialEq, Eq)]
pub enum Operation {
    Removal { clock: Clock, keys: BTreeSet<u32> },
    Update { actor: u16, counter: u64, key: u32, put_clock: Clock, put_value: ValueAndOrigin },
}

pub const MOST_DOTS: usize = 8;
pub const MOST_ENTRIES: usize = 32;
pub const MOST_VALUES: usize = 4;
pub const MOST_WAITING: usize = 16;
pub const MOST_KEYS: usize = 16;

/// The counter of an actor; an absent actor has 0.
pub fn counter(clock: &Clock, actor: u16) -> u64 {
    clock.get(&actor).copied().unwrap_or(0)
}

/// Cutting deletes each dot whose counter is at most the cutter's.
pub fn cut(clock: &Clock, by: &Clock) -> Clock {
    clock
        .iter()
        .filter(|(actor, held)| **held > counter(by, **actor))
        .map(|(actor, held)| (*actor, *held))
        .collect()
}

impl Map {
    /// The first of 4 to 8 that this finished result is over, if any.
    pub fn over_limit(&self) -> Option<u32> {
        let entry_clocks = self.entries.values().map(|entry| &entry.clock);
        let value_clocks =
            self.entries.values().flat_map(|entry| entry.values.iter().map(|(clock, _)| clock));
        let mut clocks = std::iter::once(&self.clock)
            .chain(entry_clocks)
            .chain(value_clocks)
            .chain(self.waiting.keys());
        if clocks.any(|clock| clock.len() > MOST_DOTS) {
            Some(4)
        } else if self.entries.len() > MOST_ENTRIES {
            Some(5)
        } else if self.entries.values().any(|entry| entry.values.len() > MOST_VALUES) {
            Some(6)
        } else if self.waiting.len() > MOST_WAITING {
            Some(7)
        } else if self.waiting.values().any(|keys| keys.len() > MOST_KEYS) {
            Some(8)
        } else {
            None
        }
    }
}

impl Operation {
    /// As for maps; only its clock can be over, since it is made from a map within the limits.
    pub fn over_limit(&self) -> Option<u32> {
        let (clock, keys) = match self {
            Operation::Removal { clock, keys } => (clock, keys.len()),
            Operation::Update { put_clock, .. } => (put_clock, 0),
        };
        if clock.len() > MOST_DOTS {
            Some(4)
        } else if keys > MOST_KEYS {
            Some(8)
        } else {
            None
        }
    }
}
