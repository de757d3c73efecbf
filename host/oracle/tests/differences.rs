//! Keeps docs/DIFFERENCES.md's list true: what the published crate does on each smallest input.

use oracle::model::{Clock, Entry, Map, Operation};
use oracle::published;
use std::collections::{BTreeMap, BTreeSet};
use std::panic::catch_unwind;

fn clock<const N: usize>(dots: [(u16, u64); N]) -> Clock {
    dots.into_iter().collect()
}

fn update(actor: u16, counter: u64) -> Operation {
    Operation::Update { actor, counter, key: 5, put_clock: Clock::new(), put_value: (0, 0) }
}

#[test]
fn maps_come_out_as_they_went_in() {
    let entry =
        Entry { clock: clock([(1, 2)]), values: vec![(clock([(3, 9)]), (u64::MAX, u16::MAX))] };
    let map = Map {
        clock: clock([(1, 2), (65535, u64::MAX)]),
        entries: BTreeMap::from([(u32::MAX, entry), (5, Entry::default())]),
        waiting: BTreeMap::from([
            (clock([(2, 1)]), BTreeSet::from([7, 8])),
            (clock([(1, 5), (2, 1)]), BTreeSet::new()),
        ]),
    };
    assert_eq!(published::map_out(&published::map_in(&map)), map);
}

/// Document 01 waits under {2:1} for key 5, the published crate for key 5 or for none.
#[test]
fn equal_waiting_clocks_after_a_reset() {
    use crdts::ResetRemove;
    let map = Map {
        waiting: BTreeMap::from([
            (clock([(1, 1), (2, 1)]), BTreeSet::new()),
            (clock([(2, 1)]), BTreeSet::from([5])),
        ]),
        ..Map::default()
    };
    let by = clock([(1, 1)]);
    let mut met = BTreeSet::new();
    // each map hashes in its own order
    for _ in 0..200 {
        let mut reset = published::map_in(&map);
        reset.reset_remove(&published::clock_in(&by));
        met.insert(published::map_out(&reset).waiting[&clock([(2, 1)])].clone());
    }
    assert_eq!(met, BTreeSet::from([BTreeSet::new(), BTreeSet::from([5])]));
    let united = &published::reset_remove(&map, &by).unwrap().waiting[&clock([(2, 1)])];
    assert_eq!(*united, BTreeSet::from([5]));
}

/// Document 01 calls these equal or unequal; the published crate panics when it meets the repeated
/// pair before a missing one.
#[test]
fn repeated_pairs_in_register_equality() {
    let pair = (clock([(1, 1)]), (7, 3));
    let twice = published::register_in(&[pair.clone(), pair.clone()]);
    let once = published::register_in(&[pair]);
    assert!(catch_unwind(|| once == twice).is_err());
    assert!(catch_unwind(|| twice == once).is_err());
    let other = published::register_in(&[(clock([(1, 2)]), (7, 3))]);
    assert!(twice != other, "a missing pair that is met first is just unequal");
}

/// Document 01: no dot is too high at 2^64-1. The published crate overflows: a panic where
/// overflow is checked (as in the tests), else a range that starts at 0.
#[test]
fn validation_at_the_last_counter() {
    use crdts::CmRDT;
    let map = Map { clock: clock([(1, u64::MAX)]), ..Map::default() };
    let published_map = published::map_in(&map);
    let op = published::operation_in(&update(1, 1));
    assert!(catch_unwind(|| published_map.validate_op(&op).is_ok()).is_err());
    assert_eq!(published::validate_op(&map, &update(1, 1)), None);
}

/// Document 01 answers 9; the published crate overflows.
#[test]
fn making_an_update_at_the_last_counter() {
    let map = Map { clock: clock([(1, u64::MAX)]), ..Map::default() };
    let published_map = published::map_in(&map);
    let make = || published_map.read_ctx().derive_add_ctx(1).dot.counter;
    assert!(catch_unwind(make).is_err());
    assert_eq!(published::update(&map, 1, 5, (0, 0)), None);
}
