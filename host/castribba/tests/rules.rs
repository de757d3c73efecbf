//! Rules of document 01 that are easily taken for simpler ones.

mod common;

use castribba::Map;
use common::{clock, map, operation, Line};

fn applied(before: &[Line], ops: &[&[Line]]) -> Map {
    let mut after = map(before);
    for op in ops {
        after.apply(&operation(op)).expect("an operation within the limits");
    }
    after
}

fn merged(ours: &[Line], theirs: &[Line]) -> Map {
    let mut both = map(ours);
    both.merge(&map(theirs)).expect("a merge within the limits");
    both
}

#[test]
fn an_update_does_not_cross_a_removal_of_its_key() {
    let before = [
        (1, 0, 1, 0, 1),
        (1, 0, 2, 0, 1),
        (2, 0, 1, 5, 1),
        (3, 0, 0, 5, 7),
        (4, 0, 1, 5, 1),
        (4, 0, 2, 5, 1),
    ];
    let update = [(10, 0, 3, 5, 1), (11, 0, 0, 0, 9), (12, 0, 3, 0, 1)];
    let removal = [(7, 0, 0, 0, 0), (8, 0, 1, 0, 1), (9, 0, 0, 5, 0)];
    assert_eq!(applied(&before, &[&update, &removal]).values(5), [7, 9]);
    assert_eq!(applied(&before, &[&removal, &update]).values(5), [9]);
}

#[test]
fn a_put_with_the_empty_clock_puts_nothing() {
    let before = [(1, 0, 1, 0, 1), (2, 0, 1, 5, 1), (3, 0, 0, 5, 40), (4, 0, 1, 5, 1)];
    let after = applied(&before, &[&[(10, 0, 2, 5, 1), (11, 0, 0, 0, 41)]]);
    assert_eq!(after.values(5), [40]);
    assert_eq!(after.clock(), clock(&[(1, 0, 1, 0, 1), (1, 0, 2, 0, 1)]));
}

#[test]
fn a_cut_deletes_dots_and_lowers_none() {
    let before = [(1, 0, 1, 0, 5), (2, 0, 1, 5, 5), (3, 0, 0, 5, 7), (4, 0, 1, 5, 5)];
    let removal = [(7, 0, 0, 0, 0), (8, 0, 1, 0, 3), (9, 0, 0, 5, 0)];
    assert_eq!(applied(&before, &[&removal]), map(&before));
}

#[test]
fn values_that_a_cut_leaves_dominated_stay() {
    let before = [
        (1, 0, 1, 0, 2),
        (1, 0, 2, 0, 1),
        (2, 0, 1, 5, 2),
        (2, 0, 2, 5, 1),
        (3, 0, 0, 5, 7),
        (3, 1, 0, 5, 8),
        (4, 0, 1, 5, 1),
        (4, 0, 2, 5, 1),
        (4, 1, 1, 5, 2),
    ];
    let removal = [(7, 0, 0, 0, 0), (8, 0, 2, 0, 1), (9, 0, 0, 5, 0)];
    assert_eq!(applied(&before, &[&removal]).values(5), [7, 8]);
}

#[test]
fn a_reset_can_leave_a_covered_removal_waiting() {
    let mut reset = map(&[(1, 0, 2, 0, 3), (5, 0, 1, 0, 5), (5, 0, 2, 0, 1), (6, 0, 0, 5, 0)]);
    reset.reset_remove(&clock(&[(1, 0, 1, 0, 9)])).expect("a reset within the limits");
    assert_eq!(reset, map(&[(1, 0, 2, 0, 3), (5, 0, 2, 0, 1), (6, 0, 0, 5, 0)]));
}

#[test]
fn common_dots_have_equal_counters() {
    let ours = [(1, 0, 1, 0, 2), (2, 0, 1, 5, 2)];
    let theirs = [(1, 0, 1, 0, 2), (2, 0, 1, 5, 1)];
    assert_eq!(merged(&ours, &theirs), map(&ours[..1]));
}

#[test]
fn a_merge_appends_all_that_only_theirs_resemble() {
    let ours = [(1, 0, 1, 0, 1), (2, 0, 1, 5, 1)];
    let values = [(3, 0, 0, 5, 7), (3, 1, 0, 5, 8), (4, 0, 1, 5, 1), (4, 1, 1, 5, 1)];
    let theirs = [&ours[..], &values].concat();
    assert_eq!(merged(&ours, &theirs), map(&theirs));
}
