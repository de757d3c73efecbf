//! What a map is, told from its operations alone, whatever their order: for drives that are fed by the guard.

use crate::history::{Made, Settings};
use castribba::{kind, Record};
use std::collections::{BTreeMap, BTreeSet};

/// Its order is that of waiting clocks: pair by pair, a prefix first.
type Clock = BTreeMap<u16, u64>;

fn counter(clock: &Clock, actor: u16) -> u64 {
    clock.get(&actor).copied().unwrap_or(0)
}

fn clock_of(made: &Made, kind: u8) -> Clock {
    made.op.of_kind(kind).map(|dot| (dot.actor, dot.number)).collect()
}

/// An update, taken apart.
struct Update {
    actor: u16,
    counter: u64,
    key: u32,
    put: Clock,
    value: (u64, u16),
}

fn update_of(made: &Made) -> Option<Update> {
    let (actor, counter) = made.op.dot()?;
    let put = made.op.of_kind(kind::PUT_VALUE).next()?;
    Some(Update {
        actor,
        counter,
        key: made.key,
        put: clock_of(made, kind::PUT_DOT),
        value: (put.number, put.actor),
    })
}

/// The settings of a drive that was given these operations.
pub fn picture<'a>(ops: impl Iterator<Item = &'a Made> + Clone) -> Settings {
    let updates: Vec<Update> = ops.clone().filter_map(update_of).collect();
    let removals: Vec<(Clock, u32)> = ops
        .filter(|made| made.is_removal())
        .map(|made| (clock_of(made, kind::REMOVAL_DOT), made.key))
        .collect();

    // clock[a]: the largest counter of a's updates
    let mut clock = Clock::new();
    for update in &updates {
        let held = clock.entry(update.actor).or_default();
        *held = update.counter.max(*held);
    }
    // gone(k): the join of the clocks of the removals that list k
    let gone = |key: u32, actor: u16| {
        let listing = removals.iter().filter(|removal| removal.1 == key);
        listing.map(|removal| counter(&removal.0, actor)).max().unwrap_or(0)
    };
    let mut frame = Vec::new();
    let record = |kind, index, actor, key, number| Record { kind, index, actor, key, number };
    frame
        .extend(clock.iter().map(|(actor, number)| record(kind::CLOCK_DOT, 0, *actor, 0, *number)));
    // entry(k)[a]: the counter of a's last update of k, if it is above gone(k)[a]
    let mut last: BTreeMap<(u32, u16), u64> = BTreeMap::new();
    for update in &updates {
        let held = last.entry((update.key, update.actor)).or_default();
        *held = update.counter.max(*held);
    }
    for ((key, actor), counter) in last {
        if counter > gone(key, actor) {
            frame.push(record(kind::ENTRY_DOT, 0, actor, key, counter));
        }
    }
    // values(k): the updates of k whose own dot gone(k) does not cover and which no other update of k names
    let named = |one: &Update| {
        let others =
            updates.iter().filter(|other| (other.actor, other.counter) != (one.actor, one.counter));
        others
            .filter(|other| other.key == one.key)
            .any(|other| counter(&other.put, one.actor) >= one.counter)
    };
    let standing = updates
        .iter()
        .filter(|update| update.counter > gone(update.key, update.actor) && !named(update));
    let mut values: Vec<_> =
        standing.map(|update| (update.key, update.value.0, update.value.1)).collect();
    values.sort_unstable();
    // waiting: the removal clocks that the clock does not cover, keys under equal clocks united
    let mut waiting: BTreeMap<Vec<(u16, u64)>, BTreeSet<u32>> = BTreeMap::new();
    for (under, key) in &removals {
        if under.iter().any(|(actor, held)| *held > counter(&clock, *actor)) {
            let dots = under.iter().map(|(actor, held)| (*actor, *held)).collect();
            waiting.entry(dots).or_default().insert(*key);
        }
    }
    for (index, (dots, keys)) in (0..).zip(waiting) {
        frame.extend(
            dots.iter().map(|(actor, number)| record(kind::WAITING_DOT, index, *actor, 0, *number)),
        );
        frame.extend(keys.iter().map(|key| record(kind::WAITING_KEY, index, 0, *key, 0)));
    }
    frame.sort_by_key(|r| (r.kind, r.key, r.index, r.actor));
    Settings { frame, values }
}
