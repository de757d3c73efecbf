//! Every answer of the guard, and that it lets an operation through exactly when nothing is missing.

mod common;

use castribba::{slices, Map, Ready, Refusal};
use common::{image, map, operation, Line, M};

/// An update of key 5 by actor 2, with this counter and put clock.
fn by_2(counter: u64, put: &[(u16, u64)]) -> Vec<Line> {
    let dots = put.iter().map(|&(actor, counter)| (12, 0, actor, 0, counter));
    [(10, 0, 2, 5, counter), (11, 0, 0, 0, 7)].into_iter().chain(dots).collect()
}

fn says(clock: &[(u16, u64)], update: &[Line]) -> Ready {
    let clock: Vec<Line> =
        clock.iter().map(|&(actor, counter)| (1, 0, actor, 0, counter)).collect();
    map(&clock).ready(&operation(update))
}

#[test]
fn a_removal_may_always_be_applied() {
    let removal = operation(&[(7, 0, 0, 0, 0), (8, 0, 1, 0, 9), (9, 0, 0, 5, 0)]);
    assert_eq!(map(&M).ready(&removal), Ready::Next);
    assert_eq!(Map::new().ready(&removal), Ready::Next);
}

#[test]
fn the_next_update() {
    assert_eq!(says(&[], &by_2(1, &[(2, 1)])), Ready::Next);
    assert_eq!(says(&[(1, 3), (2, 1)], &by_2(2, &[(1, 3), (2, 2)])), Ready::Next);
    // the map may have seen more of others
    assert_eq!(says(&[(1, 9), (2, 1), (4, 1)], &by_2(2, &[(1, 3), (2, 2)])), Ready::Next);
    let spent = u64::MAX;
    assert_eq!(
        says(&[(1, spent), (2, spent - 1)], &by_2(spent, &[(1, spent), (2, spent)])),
        Ready::Next
    );
}

#[test]
fn not_made_by_update() {
    assert_eq!(says(&[], &by_2(1, &[])), Ready::Foreign);
    assert_eq!(says(&[], &by_2(1, &[(1, 1)])), Ready::Foreign);
    assert_eq!(says(&[], &by_2(1, &[(2, 2)])), Ready::Foreign);
    assert_eq!(says(&[], &by_2(2, &[(2, 1)])), Ready::Foreign);
    // before it is told that it was seen, or that something is missing
    assert_eq!(says(&[(2, 5)], &by_2(1, &[(1, 9)])), Ready::Foreign);
}

#[test]
fn seen() {
    assert_eq!(says(&[(2, 1)], &by_2(1, &[(2, 1)])), Ready::Seen);
    assert_eq!(says(&[(2, 7)], &by_2(3, &[(1, 9), (2, 3)])), Ready::Seen);
}

#[test]
fn something_is_missing() {
    let hold = |actor, counter| Ready::Hold { actor, counter };
    assert_eq!(says(&[], &by_2(2, &[(2, 2)])), hold(2, 1));
    assert_eq!(says(&[(2, 3)], &by_2(9, &[(2, 9)])), hold(2, 4));
    assert_eq!(says(&[(2, 1)], &by_2(2, &[(1, 1), (2, 2)])), hold(1, 1));
    assert_eq!(says(&[(1, 1), (2, 1)], &by_2(2, &[(1, 3), (2, 2)])), hold(1, 2));
    assert_eq!(says(&[(2, 1)], &by_2(2, &[(2, 2), (9, u64::MAX)])), hold(9, 1));
    // the first actor by number, its own among them
    assert_eq!(says(&[], &by_2(2, &[(1, 1), (2, 2), (3, 1)])), hold(1, 1));
    assert_eq!(says(&[(1, 1)], &by_2(2, &[(1, 1), (2, 2), (3, 1)])), hold(2, 1));
    assert_eq!(says(&[(1, 1), (2, 1)], &by_2(2, &[(1, 1), (2, 2), (3, 1)])), hold(3, 1));
}

#[test]
fn images_first() {
    let (m, update) = (image(&M), image(&by_2(1, &[(2, 1)])));
    assert_eq!(slices::ready(&m[1..], &update[1..]), Err(Refusal::Malformed));
    assert_eq!(slices::ready(&m[16..], &update[1..]), Err(Refusal::Unrelated));
    assert_eq!(slices::ready(&m, &[0; 401]), Err(Refusal::OverLimit));
    assert_eq!(slices::ready(&m, &[]), Err(Refusal::Unrelated));
}

#[test]
fn only_what_is_next_is_fed() {
    let (mut ours, mut theirs) = (Map::new(), Map::new());
    let first = ours.update(1, 5, 40, 0).unwrap();
    assert_eq!(ours.feed(&first), Ok(Ready::Next));
    let second = ours.update(1, 6, 60, 0).unwrap();
    assert_eq!(theirs.feed(&second), Ok(Ready::Hold { actor: 1, counter: 1 }));
    assert_eq!(theirs, Map::new());
    assert_eq!(theirs.feed(&first), Ok(Ready::Next));
    assert_eq!(theirs.feed(&first), Ok(Ready::Seen));
    assert_eq!(theirs, ours);
    // a limit is judged where the operation is applied
    let four: Vec<_> = (2..=5).map(|actor| Map::new().update(actor, 7, 1, 0).unwrap()).collect();
    for op in &four {
        assert_eq!(theirs.feed(op), Ok(Ready::Next));
    }
    let fifth = Map::new().update(6, 7, 1, 0).unwrap();
    assert_eq!(
        (theirs.ready(&fifth), theirs.feed(&fifth)),
        (Ready::Next, Err(Refusal::TooManyValues))
    );
}
