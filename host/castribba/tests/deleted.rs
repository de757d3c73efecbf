//! How many dots a removal and a reset delete from entry clocks.

mod common;

use castribba::{kind, slices, Map, LONGEST_MAP};
use common::{clock, image, map, operation, Line, M};

fn remove_5(under: Line) -> [Line; 3] {
    [(7, 0, 0, 0, 0), under, (9, 0, 0, 5, 0)]
}

/// Two entries of three dots, a value in each, whose own clocks have dots too.
const TWO: [Line; 9] = [
    (1, 0, 1, 0, 4),
    (1, 0, 2, 0, 2),
    (2, 0, 1, 5, 3),
    (2, 0, 2, 5, 2),
    (2, 0, 1, 6, 4),
    (3, 0, 0, 5, 50),
    (3, 0, 0, 6, 60),
    (4, 0, 1, 5, 3),
    (4, 0, 1, 6, 4),
];

/// What the count says is what the entry clocks have less.
fn holds(before: &Map, after: &Map, deleted: usize) {
    let dots = |map: &Map| map.of_kind(kind::ENTRY_DOT).count();
    assert_eq!(dots(before) - dots(after), deleted);
}

#[test]
fn w2_waits_and_counts_what_it_deletes() {
    let removal = operation(&remove_5((8, 0, 1, 0, 2)));
    let (before, mut after) = (map(&M), map(&M));
    assert_eq!(before.apply_deleted(&removal), 1);
    after.apply(&removal).expect("a removal within the limits");
    holds(&before, &after, 1);
}

#[test]
fn an_update_counts_nothing_though_it_sets_off_a_removal() {
    // key 5 has an old dot, and a removal of what comes next waits
    let waiting = [M[0], M[1], (5, 0, 1, 0, 1), (5, 0, 2, 0, 1), (6, 0, 0, 5, 0)];
    let update = [(10, 0, 2, 6, 1), (11, 0, 0, 0, 41), (12, 0, 2, 0, 1)];
    let (before, mut after) = (map(&waiting), map(&waiting));
    assert_eq!(before.apply_deleted(&operation(&update)), 0);
    after.apply(&operation(&update)).expect("an update within the limits");
    let left = [M[0], (1, 0, 2, 0, 1), (2, 0, 2, 6, 1), (3, 0, 0, 6, 41), (4, 0, 2, 6, 1)];
    assert_eq!(after, map(&left));
}

#[test]
fn a_removal_that_only_waits_counts_nothing() {
    let removal = [(7, 0, 0, 0, 0), (8, 0, 3, 0, 1), (9, 0, 0, 5, 0), (9, 0, 0, 9, 0)];
    assert_eq!(map(&TWO).apply_deleted(&operation(&removal)), 0);
}

#[test]
fn an_entry_that_goes_counts_its_dots_and_none_of_its_values() {
    let removal = operation(&[(7, 0, 0, 0, 0), (8, 0, 1, 0, 3), (8, 0, 2, 0, 2), (9, 0, 0, 5, 0)]);
    assert_eq!(map(&TWO).apply_deleted(&removal), 2);
    let half = operation(&remove_5((8, 0, 1, 0, 9)));
    assert_eq!(map(&TWO).apply_deleted(&half), 1);
}

#[test]
fn a_reset_counts_over_all_entries() {
    let by = clock(&[(1, 0, 1, 0, 4)]);
    let (before, mut after) = (map(&TWO), map(&TWO));
    assert_eq!(before.reset_remove_deleted(&by), 2);
    after.reset_remove(&by).expect("a reset within the limits");
    holds(&before, &after, 2);
}

#[test]
fn a_refused_call_counts_nothing() {
    let (m, by) = (image(&M), image(&[(1, 0, 1, 0, 1)]));
    let removal = image(&remove_5((8, 0, 1, 0, 1)));
    // what is left has 16 bytes
    assert_eq!(slices::apply_deleted(&m, &removal, 16), 1);
    assert_eq!(slices::apply_deleted(&m, &removal, 15), 0);
    assert_eq!(slices::apply_deleted(&m[..63], &removal, LONGEST_MAP), 0);
    assert_eq!(slices::apply_deleted(&m, &removal[..47], LONGEST_MAP), 0);
    // nothing is left, so that the shortest buffer will do
    assert_eq!(slices::reset_remove_deleted(&m, &by, 0), 1);
    assert_eq!(slices::reset_remove_deleted(&m, &by[..15], LONGEST_MAP), 0);
    let (two, by) = (image(&TWO), image(&[(1, 0, 1, 0, 4)]));
    assert_eq!(slices::reset_remove_deleted(&two, &by, 32), 2);
    assert_eq!(slices::reset_remove_deleted(&two, &by, 31), 0);
}
