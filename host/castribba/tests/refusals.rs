//! Every refusal once, with the map as it was; the numbers are document 01's.

mod common;

use castribba::{Clock, Map, Operation, Refusal};
use common::{image, map, operation, Line, M};

/// The operation is refused, and the map stays.
fn refused(before: &[Line], op: &[Line]) -> Refusal {
    let mut after = map(before);
    let refusal = after.apply(&operation(op)).expect_err("a result over a limit");
    assert_eq!(after, map(before));
    refusal
}

#[test]
fn malformed_images() {
    assert_eq!(Map::from_image(&image(&M)[..63]), Err(Refusal::Malformed));
    assert_eq!(Map::from_image(&image(&[M[1], M[0]])), Err(Refusal::Malformed));
    assert_eq!(Map::from_image(&image(&[(1, 0, 1, 0, 0)])), Err(Refusal::Malformed));
    assert_eq!(Map::from_image(&image(&[(7, 0, 0, 0, 0)])), Err(Refusal::Malformed));
    assert_eq!(Operation::from_image(&image(&M)), Err(Refusal::Malformed));
    assert_eq!(Clock::from_image(&image(&M[1..])), Err(Refusal::Malformed));
}

#[test]
fn images_over_a_limit() {
    let nine: Vec<Line> = (0..9).map(|actor| (1, 0, actor, 0, 1)).collect();
    assert_eq!(Map::from_image(&image(&nine)), Err(Refusal::OverLimit));
    assert_eq!(Clock::from_image(&[0; 129]), Err(Refusal::OverLimit));
    assert_eq!(Operation::from_image(&[0; 401]), Err(Refusal::OverLimit));
    assert_eq!(Map::from_image(&[0; castribba::LONGEST_MAP + 1]), Err(Refusal::OverLimit));
}

#[test]
fn unrelated_records() {
    assert_eq!(Map::from_image(&image(&M[1..])), Err(Refusal::Unrelated));
    assert_eq!(Map::from_image(&image(&M[..3])), Err(Refusal::Unrelated));
    assert_eq!(Operation::from_image(&[]), Err(Refusal::Unrelated));
}

#[test]
fn too_many_dots() {
    let eight: Vec<Line> = (0..8).map(|actor| (1, 0, actor, 0, 1)).collect();
    assert_eq!(map(&eight).update(8, 5, 7, 0), Err(Refusal::TooManyDots));
    let update = [(10, 0, 8, 5, 1), (11, 0, 0, 0, 7), (12, 0, 8, 0, 1)];
    assert_eq!(refused(&eight, &update), Refusal::TooManyDots);

    let mut clock = map(&eight).clock();
    assert_eq!(clock.advance(8, 1), Err(Refusal::TooManyDots));
    assert_eq!(clock, map(&eight).clock());
    assert_eq!(clock.advance(7, 2), Ok(()));
}

#[test]
fn too_many_values() {
    let by = |actor| Map::new().update(actor, 5, u64::from(actor), 0);
    let mut four = Map::new();
    for actor in 1..=4 {
        four.apply(&by(actor).unwrap()).unwrap();
    }
    assert_eq!(four.values(5), [1, 2, 3, 4]);
    assert_eq!(four.apply(&by(5).unwrap()), Err(Refusal::TooManyValues));
    assert_eq!(four.values(5), [1, 2, 3, 4]);
}

#[test]
fn too_many_waiting() {
    let sixteen: Vec<Line> = (0..16).map(|index| (5, index, u16::from(index), 0, 1)).collect();
    let removal = [(7, 0, 0, 0, 0), (8, 0, 16, 0, 1)];
    assert_eq!(refused(&sixteen, &removal), Refusal::TooManyWaiting);
}

#[test]
fn too_many_keys() {
    let keys = (1..=16).map(|key| (6, 0, 0, key, 0));
    let sixteen: Vec<Line> = std::iter::once((5, 0, 1, 0, 1)).chain(keys).collect();
    let removal = [(7, 0, 0, 0, 0), (8, 0, 1, 0, 1), (9, 0, 0, 17, 0)];
    assert_eq!(refused(&sixteen, &removal), Refusal::TooManyKeys);
}

#[test]
fn a_gap_in_the_map_clock() {
    let op = operation(&[(10, 0, 1, 5, 7), (11, 0, 0, 0, 0)]);
    assert_eq!(map(&M).validate_op(&op), Err(Refusal::Gap { start: 2, end: 7 }));
    // the map clock is asked before the entry, which would miss 1 too
    let op = operation(&[(10, 0, 1, 6, 7), (11, 0, 0, 0, 0)]);
    assert_eq!(map(&M).validate_op(&op), Err(Refusal::Gap { start: 2, end: 7 }));
}

#[test]
fn no_gap_above_the_largest_counter() {
    let spent = map(&[(1, 0, 1, 0, u64::MAX)]);
    let op = operation(&[(10, 0, 1, 5, 1), (11, 0, 0, 0, 0)]);
    assert_eq!(spent.validate_op(&op), Ok(()));
}

#[test]
fn a_dot_spent_twice() {
    let on_6 = [(1, 0, 1, 0, 1), (2, 0, 1, 6, 1)];
    let spent = Refusal::DoubleSpent { actor: 1, counter: 1, our_key: 5, their_key: 6 };
    assert_eq!(map(&M).validate_merge(&map(&on_6)), Err(spent));
    assert_eq!(map(&M).validate_merge(&map(&M)), Ok(()));
}

#[test]
fn numbers_and_words() {
    let all = [
        Refusal::Malformed,
        Refusal::OverLimit,
        Refusal::Unrelated,
        Refusal::TooManyDots,
        Refusal::TooManyEntries,
        Refusal::TooManyValues,
        Refusal::TooManyWaiting,
        Refusal::TooManyKeys,
        Refusal::CounterSpent,
        Refusal::ShortBuffer,
        Refusal::Gap { start: 1, end: 2 },
        Refusal::DoubleSpent { actor: 1, counter: 1, our_key: 5, their_key: 6 },
        Refusal::Ended,
    ];
    for (number, refusal) in (1..).zip(all) {
        assert_eq!(refusal.number(), number);
        assert!(!refusal.to_string().is_empty());
    }
}
