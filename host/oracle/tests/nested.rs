//! The table of small nested maps in crates/levels/proofs/Nested.antt, row by row, with the
//! published crate's answers.

use crdts::map::{CmRDTValidation, CvRDTValidation, Op};
use crdts::{mvreg, CmRDT, CvRDT, Dot, ResetRemove};
use oracle::model::{Clock, ValueAndOrigin};
use oracle::nested::{map_in, map_out, Held, NestedMap, ThreeLevels, TwoLevels};
use oracle::published::{clock_in, PublishedMap, PublishedRegister};
use std::collections::{BTreeMap, BTreeSet};

type Op1 = Op<u32, PublishedRegister, u16>;
type Op2 = Op<u32, PublishedMap, u16>;
type Op3 = Op<u32, TwoLevels, u16>;

fn clock<const N: usize>(dots: [(u16, u64); N]) -> Clock {
    dots.into_iter().collect()
}

fn one(actor: u16, counter: u64) -> Clock {
    clock([(actor, counter)])
}

fn pair() -> Clock {
    clock([(1, 1), (2, 1)])
}

fn values<const N: usize>(values: [(Clock, u64); N]) -> Held {
    Held::Register(values.into_iter().map(|(clock, value)| (clock, (value, 0))).collect())
}

/// A map of one entry, in which nothing waits.
fn holding(clock: Clock, key: u32, entry_clock: Clock, held: Held) -> NestedMap {
    let entries = BTreeMap::from([(key, (entry_clock, held))]);
    NestedMap { clock, entries, waiting: BTreeMap::new() }
}

fn within(map: NestedMap) -> Held {
    Held::Map(map)
}

fn bare(clock: Clock) -> NestedMap {
    NestedMap { clock, ..NestedMap::default() }
}

fn waiting<const N: usize>(mut map: NestedMap, removals: [(Clock, &[u32]); N]) -> NestedMap {
    map.waiting = removals
        .into_iter()
        .map(|(clock, keys)| (clock, keys.iter().copied().collect::<BTreeSet<u32>>()))
        .collect();
    map
}

fn rm<V: crdts::map::Val<u16>>(clock: Clock, keys: &[u32]) -> Op<u32, V, u16> {
    Op::Rm { clock: clock_in(&clock), keyset: keys.iter().copied().collect() }
}

fn up<V: crdts::map::Val<u16>>(counter: u64, key: u32, op: V::Op) -> Op<u32, V, u16> {
    Op::Up { dot: Dot::new(1, counter), key, op }
}

fn put(clock: Clock, value: u64) -> mvreg::Op<ValueAndOrigin, u16> {
    mvreg::Op::Put { clock: clock_in(&clock), val: (value, 0) }
}

/// An update of actor 1 down to a put.
fn down(counter: u64) -> Op3 {
    let lowest: Op1 = up(counter, 3, put(one(1, counter), 40));
    let middle: Op2 = up(counter, 2, lowest);
    up(counter, 1, middle)
}

fn applied2(map: &NestedMap, op: Op2) -> NestedMap {
    let mut published: TwoLevels = map_in(map);
    published.apply(op);
    map_out(2, &published)
}

fn applied3(map: &NestedMap, op: Op3) -> NestedMap {
    let mut published: ThreeLevels = map_in(map);
    published.apply(op);
    map_out(3, &published)
}

fn cut2(map: &NestedMap, by: Clock) -> NestedMap {
    let mut published: TwoLevels = map_in(map);
    published.reset_remove(&clock_in(&by));
    map_out(2, &published)
}

fn merged2(map: &NestedMap, other: &NestedMap) -> NestedMap {
    let mut published: TwoLevels = map_in(map);
    published.merge(map_in(other));
    map_out(2, &published)
}

/// Clock {1:1}, entry 4 {1:1}: clock {1:1}, entry 6 {1:1} holding ({1:1}, 40).
fn small() -> NestedMap {
    let inner = holding(one(1, 1), 6, one(1, 1), values([(one(1, 1), 40)]));
    holding(one(1, 1), 4, one(1, 1), within(inner))
}

#[test]
fn n1_a_put_three_levels_down() {
    let lowest = holding(one(1, 1), 3, one(1, 1), values([(one(1, 1), 40)]));
    let middle = holding(one(1, 1), 2, one(1, 1), within(lowest));
    let top = holding(one(1, 1), 1, one(1, 1), within(middle));
    assert_eq!(applied3(&NestedMap::default(), down(1)), top);
}

#[test]
fn n2_a_removal_inside_an_inner_map() {
    let op = up(2, 4, rm(one(1, 1), &[6]));
    assert_eq!(applied2(&small(), op), holding(one(1, 2), 4, one(1, 2), within(bare(one(1, 1)))));
}

#[test]
fn n3_a_removal_that_waits_in_an_inner_map() {
    let op = up(2, 4, rm(pair(), &[6]));
    let inner = waiting(bare(one(1, 1)), [(pair(), &[6])]);
    assert_eq!(applied2(&small(), op), holding(one(1, 2), 4, one(1, 2), within(inner)));
}

#[test]
fn n4_an_inner_map_left_empty_stays() {
    let inner = holding(one(1, 1), 6, one(1, 1), values([(one(1, 1), 40)]));
    let map = holding(pair(), 4, pair(), within(inner));
    let end = holding(pair(), 4, one(2, 1), within(NestedMap::default()));
    assert_eq!(applied2(&map, rm(one(1, 1), &[4])), end);
}

#[test]
fn n5_a_removal_cuts_three_levels_down() {
    let lowest = holding(pair(), 3, pair(), values([(one(1, 1), 40), (one(2, 1), 41)]));
    let middle = holding(pair(), 2, pair(), within(lowest));
    let top = holding(pair(), 1, pair(), within(middle));
    let lowest = holding(one(2, 1), 3, one(2, 1), values([(one(2, 1), 41)]));
    let middle = holding(one(2, 1), 2, one(2, 1), within(lowest));
    let end = holding(pair(), 1, one(2, 1), within(middle));
    assert_eq!(applied3(&top, rm(one(1, 1), &[1])), end);
}

/// Document 01 unites the keys, the published crate keeps one of both sets by hash order.
#[test]
fn n6_waiting_clocks_of_an_inner_map_that_become_equal() {
    let first: (Clock, &[u32]) = (clock([(1, 4), (2, 1)]), &[6]);
    let second: (Clock, &[u32]) = (clock([(1, 5), (2, 1)]), &[5]);
    let inner = waiting(NestedMap::default(), [first, second]);
    let map = holding(one(3, 1), 4, one(3, 1), within(inner));
    let left = |keys: &[u32]| {
        let inner = waiting(NestedMap::default(), [(one(2, 1), keys)]);
        holding(one(3, 1), 4, one(3, 1), within(inner))
    };
    let (mut five, mut six) = (false, false);
    // each map hashes in its own order
    for _ in 0..200 {
        let met = cut2(&map, one(1, 5));
        assert!(met == left(&[5]) || met == left(&[6]));
        five |= met == left(&[5]);
        six |= met == left(&[6]);
    }
    assert!(five && six);
}

/// Clock {2:1}, entry 6 {2:1} with no values, waiting {1:5,2:1} with 6.
fn resting() -> NestedMap {
    let inner = holding(one(2, 1), 6, one(2, 1), values([]));
    waiting(inner, [(clock([(1, 5), (2, 1)]), &[6])])
}

/// What is left of it by {1:5}: the waiting removal is covered, and is not applied.
fn covered() -> NestedMap {
    waiting(holding(one(2, 1), 6, one(2, 1), values([])), [(one(2, 1), &[6])])
}

#[test]
fn n7_a_cut_applies_no_waiting_removal() {
    let map = holding(one(3, 1), 4, one(3, 1), within(resting()));
    let end = holding(one(3, 1), 4, one(3, 1), within(covered()));
    assert_eq!(cut2(&map, one(1, 5)), end);
}

#[test]
fn n8_merged_first_and_cut_then() {
    let inner = holding(one(1, 1), 6, one(1, 1), values([(one(1, 1), 40)]));
    let ours = holding(pair(), 4, one(1, 1), within(inner));
    let inner = holding(pair(), 6, pair(), values([(pair(), 41)]));
    let theirs = holding(pair(), 4, pair(), within(inner));
    let inner = holding(one(1, 1), 6, one(1, 1), values([(one(1, 1), 41)]));
    assert_eq!(merged2(&ours, &theirs), holding(pair(), 4, one(1, 1), within(inner)));
}

#[test]
fn n9_an_inner_map_of_one_side_is_only_cut() {
    let both = clock([(1, 5), (3, 1)]);
    let ours = holding(both.clone(), 4, both.clone(), within(resting()));
    let end = holding(both, 4, one(3, 1), within(covered()));
    assert_eq!(merged2(&ours, &bare(one(1, 5))), end);
}

/// Actor 1's counters in each map's clock and in its entry's, under keys 1, 2 and 3.
fn nest(counters: [u64; 6]) -> NestedMap {
    let [a, b, c, d, e, f] = counters;
    let lowest = holding(one(1, e), 3, one(1, f), values([]));
    let middle = holding(one(1, c), 2, one(1, d), within(lowest));
    holding(one(1, a), 1, one(1, b), within(middle))
}

/// The missing range of an operation, if any, whatever the level that found it.
fn gap(map: &NestedMap) -> Option<(u64, u64)> {
    let published: ThreeLevels = map_in(map);
    let range = match published.validate_op(&down(9)).err()? {
        CmRDTValidation::SourceOrder(range) => range,
        CmRDTValidation::Value(CmRDTValidation::SourceOrder(range)) => range,
        CmRDTValidation::Value(CmRDTValidation::Value(CmRDTValidation::SourceOrder(range))) => {
            range
        }
        other => panic!("a register refused: {other:?}"),
    };
    assert_eq!(range.actor, 1);
    // the published range leaves its end, the dot, out
    Some((range.counter_range.start, range.counter_range.end))
}

#[test]
fn gaps_at_each_level() {
    assert_eq!(gap(&nest([1, 1, 8, 8, 8, 8])), Some((2, 9)));
    assert_eq!(gap(&nest([8, 2, 8, 8, 8, 8])), Some((3, 9)));
    assert_eq!(gap(&nest([8, 8, 3, 3, 8, 8])), Some((4, 9)));
    assert_eq!(gap(&nest([8, 8, 8, 4, 8, 8])), Some((5, 9)));
    assert_eq!(gap(&nest([8, 8, 8, 8, 5, 5])), Some((6, 9)));
    assert_eq!(gap(&nest([8, 8, 8, 8, 8, 6])), Some((7, 9)));
    assert_eq!(gap(&nest([8, 8, 8, 8, 8, 8])), None);
}

#[test]
fn a_removal_inside_passes() {
    let map = holding(one(1, 1), 4, one(1, 1), within(NestedMap::default()));
    let published: TwoLevels = map_in(&map);
    let op: Op2 = up(2, 4, rm(one(7, 9), &[6]));
    assert!(published.validate_op(&op).is_ok());
}

/// The dot that is spent twice and the keys of the map where it was found, if any.
fn spent(ours: &NestedMap, theirs: &NestedMap) -> Option<((u16, u64), u32, u32)> {
    let (ours, theirs): (ThreeLevels, ThreeLevels) = (map_in(ours), map_in(theirs));
    let (dot, our_key, their_key) = match ours.validate_merge(&theirs).err()? {
        CvRDTValidation::DoubleSpentDot { dot, our_key, their_key } => (dot, our_key, their_key),
        CvRDTValidation::Value(CvRDTValidation::DoubleSpentDot { dot, our_key, their_key }) => {
            (dot, our_key, their_key)
        }
        CvRDTValidation::Value(CvRDTValidation::Value(CvRDTValidation::DoubleSpentDot {
            dot,
            our_key,
            their_key,
        })) => (dot, our_key, their_key),
        other => panic!("a register refused: {other:?}"),
    };
    Some(((dot.actor, dot.counter), our_key, their_key))
}

#[test]
fn dots_spent_twice_at_each_level() {
    let top = |key| holding(one(1, 1), key, one(1, 1), within(NestedMap::default()));
    let middle = |actor, key| holding(one(actor, 1), 1, one(actor, 1), within(top(key)));
    let lowest = |actor, inner, key| {
        let map = holding(one(1, 1), key, one(1, 1), values([]));
        let map = holding(one(inner, 1), 2, one(inner, 1), within(map));
        holding(one(actor, 1), 1, one(actor, 1), within(map))
    };
    let twice = Some(((1, 1), 5, 6));
    assert_eq!(spent(&top(5), &top(6)), twice);
    assert_eq!(spent(&middle(2, 5), &middle(3, 6)), twice);
    assert_eq!(spent(&lowest(2, 4, 5), &lowest(3, 6, 6)), twice);
    // below the top only where both entry clocks are concurrent
    assert_eq!(spent(&middle(2, 5), &middle(2, 6)), None);
    assert_eq!(spent(&lowest(2, 4, 5), &lowest(3, 4, 6)), None);
}
