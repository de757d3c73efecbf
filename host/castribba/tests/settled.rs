//! Document 01's settled examples W1 to W12, each written out by hand.

mod common;

use castribba::{Map, Refusal};
use common::{clock, map, most_entries, operation, Line, M};

fn applied(before: &Map, op: &[Line]) -> Map {
    let mut after = before.clone();
    after.apply(&operation(op)).expect("an operation within the limits");
    after
}

fn remove_5(under: Line) -> [Line; 3] {
    [(7, 0, 0, 0, 0), under, (9, 0, 0, 5, 0)]
}

/// What W2 leaves, and W3 begins with.
const WAITING: [Line; 3] = [(1, 0, 1, 0, 1), (5, 0, 1, 0, 2), (6, 0, 0, 5, 0)];

#[test]
fn w1_a_removal_of_what_was_seen() {
    assert_eq!(applied(&map(&M), &remove_5((8, 0, 1, 0, 1))), map(&M[..1]));
}

#[test]
fn w2_a_removal_of_more_than_was_seen_waits() {
    assert_eq!(applied(&map(&M), &remove_5((8, 0, 1, 0, 2))), map(&WAITING));
}

#[test]
fn w3_a_waiting_removal_meets_its_update() {
    let update = [(10, 0, 1, 5, 2), (11, 0, 0, 0, 41), (12, 0, 1, 0, 2)];
    assert_eq!(applied(&map(&WAITING), &update), map(&[(1, 0, 1, 0, 2)]));
}

#[test]
fn w4_an_update_seen_before() {
    let update = [(10, 0, 1, 5, 1), (11, 0, 0, 0, 41), (12, 0, 1, 0, 1)];
    assert_eq!(applied(&map(&M), &update), map(&M));
}

#[test]
fn w5_a_removal_under_the_empty_clock() {
    assert_eq!(applied(&map(&M), &[(7, 0, 0, 0, 0), (9, 0, 0, 5, 0)]), map(&M));
}

#[test]
fn w6_a_removal_of_no_keys_waits_too() {
    let after = [M[0], M[1], M[2], M[3], (5, 0, 2, 0, 1)];
    assert_eq!(applied(&map(&M), &[(7, 0, 0, 0, 0), (8, 0, 2, 0, 1)]), map(&after));
}

#[test]
fn w7_a_merge_of_entries_that_each_side_removed() {
    let held_by = |actor| map(&[(1, 0, 1, 0, 1), (1, 0, 2, 0, 1), (2, 0, actor, 5, 1)]);
    let mut merged = held_by(1);
    merged.merge(&held_by(2)).expect("a merge within the limits");
    assert_eq!(merged, map(&[(1, 0, 1, 0, 1), (1, 0, 2, 0, 1)]));
}

#[test]
fn w8_waiting_removals_united_by_a_reset() {
    let mut reset = map(&[
        (5, 0, 1, 0, 4),
        (5, 0, 2, 0, 1),
        (5, 1, 1, 0, 5),
        (5, 1, 2, 0, 1),
        (6, 1, 0, 5, 0),
        (6, 0, 0, 6, 0),
    ]);
    reset.reset_remove(&clock(&[(1, 0, 1, 0, 5)])).expect("a reset within the limits");
    assert_eq!(reset, map(&[(5, 0, 2, 0, 1), (6, 0, 0, 5, 0), (6, 0, 0, 6, 0)]));
}

#[test]
fn w9_limits_are_judged_on_the_finished_result() {
    let update = [(10, 0, 9, 77, 1), (11, 0, 0, 0, 7), (12, 0, 9, 0, 1)];
    let full = most_entries();
    let mut without = map(&full);
    assert_eq!(without.apply(&operation(&update)), Err(Refusal::TooManyEntries));
    assert_eq!(without, map(&full));

    let waiting = [&full[..], &[(5, 0, 9, 0, 1), (6, 0, 0, 77, 0)]].concat();
    let after = [&full[..1], &[(1, 0, 9, 0, 1)], &full[1..]].concat();
    assert_eq!(applied(&map(&waiting), &update), map(&after));
}

#[test]
fn w10_a_gap_in_an_entry() {
    let op = operation(&[(10, 0, 1, 6, 2), (11, 0, 0, 0, 0)]);
    assert_eq!(map(&M).validate_op(&op), Err(Refusal::Gap { start: 1, end: 2 }));
}

#[test]
fn w11_a_counter_at_its_largest() {
    let spent = map(&[(1, 0, 1, 0, u64::MAX)]);
    assert_eq!(spent.update(1, 5, 7, 0), Err(Refusal::CounterSpent));
}

#[test]
fn w12_a_put_with_an_equal_clock() {
    // the register stands in an entry here, and the put comes with an unseen dot of actor 2
    let register = [(1, 0, 1, 0, 1), (2, 0, 1, 5, 1), (3, 0, 0, 5, 7), (4, 0, 1, 5, 1)];
    let put = [(10, 0, 2, 5, 1), (11, 0, 0, 0, 8), (12, 0, 1, 0, 1)];
    let after = applied(&map(&register), &put);
    assert_eq!(after.values(5), [8]);
    let lines = [
        (1, 0, 1, 0, 1),
        (1, 0, 2, 0, 1),
        (2, 0, 1, 5, 1),
        (2, 0, 2, 5, 1),
        (3, 0, 0, 5, 8),
        (4, 0, 1, 5, 1),
    ];
    assert_eq!(after, map(&lines));
}
