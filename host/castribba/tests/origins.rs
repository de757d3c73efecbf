//! Who set a value: its origin moves with it, and decides nothing.

mod common;

use castribba::{kind, Map, Operation, Refusal};
use common::{clock, image, map, operation, Line, M};

/// M, set by this origin.
fn m_by(origin: u16) -> [Line; 4] {
    [M[0], M[1], (3, 0, origin, 5, 40), M[3]]
}

fn values(map: &Map) -> Vec<(u64, u16)> {
    map.of_kind(kind::VALUE).map(|record| (record.number, record.actor)).collect()
}

#[test]
fn an_update_carries_it_into_the_map() {
    for origin in [0, 1, 0x0102, u16::MAX] {
        let update = Map::new().update(1, 5, 40, origin).expect("an update");
        assert_eq!(
            update,
            operation(&[(10, 0, 1, 5, 1), (11, 0, origin, 0, 40), (12, 0, 1, 0, 1)])
        );
        let mut after = Map::new();
        after.apply(&update).expect("an update that fits");
        assert_eq!(after, map(&m_by(origin)));
        let entry = after.entry(5).expect("an entry");
        assert_eq!((entry.values[0].value, entry.values[0].origin), (40, origin));
    }
}

#[test]
fn a_merge_looks_at_clocks_alone() {
    let (one, other) = (map(&m_by(1)), map(&m_by(2)));
    assert_ne!(one, other);
    let merged = |ours: &Map, theirs: &Map| {
        let mut both = ours.clone();
        both.merge(theirs).expect("a merge within the limits");
        both
    };
    // clocks that are equal: ours stays, whoever set it
    assert_eq!((merged(&one, &other), merged(&other, &one)), (one.clone(), other));
    assert_eq!(merged(&Map::new(), &one), one);

    let mut apart = Map::new();
    apart.apply(&Map::new().update(2, 5, 40, 1).expect("an update")).expect("an update that fits");
    assert_eq!(values(&merged(&one, &apart)), [(40, 1), (40, 1)]);
}

#[test]
fn a_cut_leaves_it() {
    let two = [(1, 0, 1, 0, 1), (1, 0, 2, 0, 1), (2, 0, 1, 5, 1), (2, 0, 2, 5, 1)];
    let held = [(3, 0, 7, 5, 40), (4, 0, 1, 5, 1), (4, 0, 2, 5, 1)];
    let before = [&two[..], &held].concat();

    let mut reset = map(&before);
    reset.reset_remove(&clock(&[(1, 0, 1, 0, 1)])).expect("a reset within the limits");
    assert_eq!(reset, map(&[two[1], two[3], held[0], held[2]]));

    let mut removed = map(&before);
    let removal = [(7, 0, 0, 0, 0), (8, 0, 1, 0, 1), (9, 0, 0, 5, 0)];
    removed.apply(&operation(&removal)).expect("a removal within the limits");
    assert_eq!(values(&removed), [(40, 7)]);
}

#[test]
fn a_second_record_for_one_value_is_malformed() {
    for (one, another) in [(0, 1), (1, 0), (7, 7)] {
        let twice = [M[0], M[1], (3, 0, one, 5, 40), (3, 0, another, 5, 41), M[3]];
        assert_eq!(Map::from_image(&image(&twice)), Err(Refusal::Malformed));
        let twice = [(10, 0, 1, 5, 1), (11, 0, one, 0, 40), (11, 0, another, 0, 41)];
        assert_eq!(Operation::from_image(&image(&twice)), Err(Refusal::Malformed));
    }
}

#[cfg(feature = "loader")]
#[test]
fn the_loader_does_not_see_it() {
    let reports = castribba::loader::bays(&image(&M)).expect("a map's image");
    for origin in [1, u16::MAX] {
        assert_eq!(castribba::loader::bays(&image(&m_by(origin))), Ok(reports));
    }
}
