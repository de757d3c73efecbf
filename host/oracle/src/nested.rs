//! Maps within maps (CR 10), put into the published crate and taken out of it: an entry holds a
//! register at the lowest level, else a map again.

use crate::model::{Clock, ValueAndOrigin};
use crate::published::{clock_of, clock_tree, key_of, register_tree, values_of, PublishedMap};
use crate::tree::{from_tree, to_tree, Tree};
use serde::de::DeserializeOwned;
use serde::Serialize;
use std::collections::{BTreeMap, BTreeSet};

pub type TwoLevels = crdts::Map<u32, PublishedMap, u16>;
pub type ThreeLevels = crdts::Map<u32, TwoLevels, u16>;

/// What an entry holds.
#[derive(Clone, Debug, PartialEq, Eq)]
pub enum Held {
    Register(Vec<(Clock, ValueAndOrigin)>),
    Map(NestedMap),
}

#[derive(Clone, Debug, Default, PartialEq, Eq)]
pub struct NestedMap {
    pub clock: Clock,
    pub entries: BTreeMap<u32, (Clock, Held)>,
    pub waiting: BTreeMap<Clock, BTreeSet<u32>>,
}

fn held_tree(held: &Held) -> Tree {
    match held {
        Held::Register(values) => register_tree(values),
        Held::Map(map) => map_tree(map),
    }
}

fn map_tree(map: &NestedMap) -> Tree {
    let entries = map.entries.iter().map(|(key, (clock, held))| {
        (Tree::Number((*key).into()), Tree::List(vec![clock_tree(clock), held_tree(held)]))
    });
    let waiting = map.waiting.iter().map(|(clock, keys)| {
        let keys = keys.iter().map(|key| Tree::Number((*key).into())).collect();
        (clock_tree(clock), Tree::List(keys))
    });
    Tree::List(vec![
        clock_tree(&map.clock),
        Tree::Table(entries.collect()),
        Tree::Table(waiting.collect()),
    ])
}

fn map_of(levels: u32, tree: Tree) -> NestedMap {
    let [clock, entries, waiting] = tree.fields();
    let entry_of = |tree: Tree| {
        let [clock, held] = tree.fields();
        let held = match levels {
            1 => Held::Register(values_of(held)),
            _ => Held::Map(map_of(levels - 1, held)),
        };
        (clock_of(clock), held)
    };
    NestedMap {
        clock: clock_of(clock),
        entries: entries
            .table()
            .into_iter()
            .map(|(key, entry)| (key_of(key), entry_of(entry)))
            .collect(),
        waiting: waiting
            .table()
            .into_iter()
            .map(|(clock, keys)| (clock_of(clock), keys.list().into_iter().map(key_of).collect()))
            .collect(),
    }
}

/// The published map of as many levels as `M` has.
pub fn map_in<M: DeserializeOwned>(map: &NestedMap) -> M {
    from_tree(map_tree(map))
}

pub fn map_out<M: Serialize>(levels: u32, map: &M) -> NestedMap {
    map_of(levels, to_tree(map))
}
