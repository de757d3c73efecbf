//! The published crate crdts: maps put in and taken out, and each of its calls on them.

use crate::model::{counter, cut, Clock, Entry, Map, Operation, ValueAndOrigin};
use crate::tree::{from_tree, to_tree, Tree};
use crdts::{mvreg, CmRDT, CvRDT, Dot, MVReg, ResetRemove, VClock};
use std::collections::{BTreeMap, BTreeSet};

pub type PublishedRegister = MVReg<ValueAndOrigin, u16>;
pub type PublishedMap = crdts::Map<u32, PublishedRegister, u16>;
pub type PublishedOperation = crdts::map::Op<u32, PublishedRegister, u16>;

pub fn clock_in(clock: &Clock) -> VClock<u16> {
    VClock { dots: clock.clone() }
}

pub(crate) fn clock_tree(clock: &Clock) -> Tree {
    let dots = clock
        .iter()
        .map(|(actor, counter)| (Tree::Number((*actor).into()), Tree::Number(*counter)))
        .collect();
    Tree::List(vec![Tree::Table(dots)])
}

pub(crate) fn register_tree(values: &[(Clock, ValueAndOrigin)]) -> Tree {
    let values = values
        .iter()
        .map(|(clock, value)| Tree::List(vec![clock_tree(clock), to_tree(value)]))
        .collect();
    Tree::List(vec![Tree::List(values)])
}

pub fn register_in(values: &[(Clock, ValueAndOrigin)]) -> PublishedRegister {
    from_tree(register_tree(values))
}

pub fn map_in(map: &Map) -> PublishedMap {
    let entries = map
        .entries
        .iter()
        .map(|(key, entry)| {
            let fields = vec![clock_tree(&entry.clock), register_tree(&entry.values)];
            (Tree::Number((*key).into()), Tree::List(fields))
        })
        .collect();
    let waiting = map
        .waiting
        .iter()
        .map(|(clock, keys)| {
            let keys = keys.iter().map(|key| Tree::Number((*key).into())).collect();
            (clock_tree(clock), Tree::List(keys))
        })
        .collect();
    let fields = vec![clock_tree(&map.clock), Tree::Table(entries), Tree::Table(waiting)];
    from_tree(Tree::List(fields))
}

pub fn operation_in(operation: &Operation) -> PublishedOperation {
    match operation {
        Operation::Removal { clock, keys } => {
            crdts::map::Op::Rm { clock: clock_in(clock), keyset: keys.clone() }
        }
        Operation::Update { actor, counter, key, put_clock, put_value } => crdts::map::Op::Up {
            dot: Dot::new(*actor, *counter),
            key: *key,
            op: mvreg::Op::Put { clock: clock_in(put_clock), val: *put_value },
        },
    }
}

fn actor_of(tree: Tree) -> u16 {
    tree.number().try_into().expect("an actor has 16 bits")
}

pub(crate) fn key_of(tree: Tree) -> u32 {
    tree.number().try_into().expect("a key has 32 bits")
}

pub(crate) fn clock_of(tree: Tree) -> Clock {
    let [dots] = tree.fields();
    dots.table().into_iter().map(|(actor, counter)| (actor_of(actor), counter.number())).collect()
}

pub(crate) fn values_of(tree: Tree) -> Vec<(Clock, ValueAndOrigin)> {
    let [values] = tree.fields();
    let pair = |value: Tree| {
        let [clock, value] = value.fields();
        (clock_of(clock), from_tree(value))
    };
    values.list().into_iter().map(pair).collect()
}

pub fn register_out(register: &PublishedRegister) -> Vec<(Clock, ValueAndOrigin)> {
    values_of(to_tree(register))
}

pub fn map_out(map: &PublishedMap) -> Map {
    let [clock, entries, waiting] = to_tree(map).fields();
    let entry_of = |tree: Tree| {
        let [clock, register] = tree.fields();
        Entry { clock: clock_of(clock), values: values_of(register) }
    };
    Map {
        clock: clock_of(clock),
        entries: entries
            .table()
            .into_iter()
            .map(|(key, entry)| (key_of(key), entry_of(entry)))
            .collect(),
        waiting: waiting
            .table()
            .into_iter()
            .map(|(clock, keys)| (clock_of(clock), keys.list().into_iter().map(key_of).collect()))
            .collect(),
    }
}

/// A map as the published crate holds it.
pub fn held(map: &Map) -> Map {
    map_out(&map_in(map))
}

pub fn operation_out(operation: &PublishedOperation) -> Operation {
    match operation {
        crdts::map::Op::Rm { clock, keyset } => {
            Operation::Removal { clock: clock.dots.clone(), keys: keyset.clone() }
        }
        crdts::map::Op::Up { dot, key, op: mvreg::Op::Put { clock, val } } => Operation::Update {
            actor: dot.actor,
            counter: dot.counter,
            key: *key,
            put_clock: clock.dots.clone(),
            put_value: *val,
        },
    }
}

pub fn apply(map: &Map, operation: &Operation) -> Map {
    let mut published = map_in(map);
    published.apply(operation_in(operation));
    map_out(&published)
}

pub fn merge(map: &Map, other: &Map) -> Map {
    let mut published = map_in(map);
    published.merge(map_in(other));
    map_out(&published)
}

/// The published reset collects the cut waiting removals into a hash map: of those whose clocks
/// have become equal it keeps one, by hash order. Document 01 unites them. So waiting removals
/// follow the rule here, and the published answer must hold one of the united key sets.
pub fn reset_remove(map: &Map, by: &Clock) -> Result<Map, String> {
    let mut published = map_in(map);
    published.reset_remove(&clock_in(by));
    let mut after = map_out(&published);

    let mut candidates: BTreeMap<Clock, Vec<&BTreeSet<u32>>> = BTreeMap::new();
    for (clock, keys) in &map.waiting {
        let clock = cut(clock, by);
        if !clock.is_empty() {
            candidates.entry(clock).or_default().push(keys);
        }
    }
    let same_clocks = after.waiting.keys().eq(candidates.keys());
    let one_of_each = after.waiting.iter().all(|(clock, keys)| {
        candidates.get(clock).is_some_and(|candidates| candidates.contains(&keys))
    });
    if !same_clocks || !one_of_each {
        return Err(format!("the published reset waits for {:?}", after.waiting));
    }
    after.waiting = candidates
        .into_iter()
        .map(|(clock, united)| (clock, united.into_iter().flatten().copied().collect()))
        .collect();
    Ok(after)
}

/// The range of missing counters, if the operation is refused.
///
/// The published check adds 1 to the counter held, which overflows at 2^64-1 (a panic, or a wrap
/// to 0 that refuses every dot). Document 01 says that no dot is too high there.
pub fn validate_op(map: &Map, operation: &Operation) -> Option<(u64, u64)> {
    if let Operation::Update { actor, counter: dot, key, .. } = operation {
        let in_map = counter(&map.clock, *actor);
        let in_entry = map.entries.get(key).map_or(0, |entry| counter(&entry.clock, *actor));
        if in_map == u64::MAX || in_entry == u64::MAX {
            return [in_map, in_entry]
                .into_iter()
                .find(|held| *held < u64::MAX && *dot > *held + 1)
                .map(|held| (held + 1, *dot));
        }
    }
    match map_in(map).validate_op(&operation_in(operation)) {
        Ok(()) => None,
        Err(crdts::map::CmRDTValidation::SourceOrder(range)) => {
            Some((range.counter_range.start, range.counter_range.end))
        }
        Err(crdts::map::CmRDTValidation::Value(never)) => match never {},
    }
}

/// The dot spent twice with our key and theirs: actor, counter, our key, their key.
pub fn validate_merge(map: &Map, other: &Map) -> Option<(u16, u64, u32, u32)> {
    match map_in(map).validate_merge(&map_in(other)) {
        Ok(()) => None,
        Err(crdts::map::CvRDTValidation::DoubleSpentDot { dot, our_key, their_key }) => {
            Some((dot.actor, dot.counter, our_key, their_key))
        }
        Err(crdts::map::CvRDTValidation::Value(never)) => match never {},
    }
}

/// None at 2^64-1, where the published crate overflows and document 01 answers 9.
pub fn update(map: &Map, actor: u16, key: u32, value: ValueAndOrigin) -> Option<Operation> {
    if counter(&map.clock, actor) == u64::MAX {
        return None;
    }
    let published = map_in(map);
    let context = published.read_ctx().derive_add_ctx(actor);
    let operation =
        published.update(key, context, |register, context| register.write(value, context));
    Some(operation_out(&operation))
}

pub fn rm_get(map: &Map, key: u32) -> Operation {
    let published = map_in(map);
    operation_out(&published.rm(key, published.get(&key).derive_rm_ctx()))
}

pub fn rm_read_ctx(map: &Map, key: u32) -> Operation {
    let published = map_in(map);
    operation_out(&published.rm(key, published.read_ctx().derive_rm_ctx()))
}

/// The map clock and the entry of that key alone, as document 01 has reading answer.
pub fn get(map: &Map, key: u32) -> Map {
    let read = map_in(map).get(&key);
    let entry = read
        .val
        .map(|register| Entry { clock: read.rm_clock.dots, values: register_out(&register) });
    Map {
        clock: read.add_clock.dots,
        entries: entry.into_iter().map(|entry| (key, entry)).collect(),
        waiting: BTreeMap::new(),
    }
}

pub fn len(map: &Map) -> u64 {
    map_in(map).len().val as u64
}
