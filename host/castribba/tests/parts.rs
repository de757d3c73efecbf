//! A map's parts one after the other, and what a person reads.

mod common;

use castribba::{Entry, Map, Standing};
use common::{clock, map, most_entries, operation, Line, M};

/// Key 5: 7 under {1:1}, which 8 under {1:2}, from origin 7, outdoes, and 9 under {2:1} beside both. Key 6: 3 twice
/// under one clock. Key 7: no value. Key 9: a value that no dot of the entry is in.
const MANY: [Line; 20] = [
    (1, 0, 1, 0, 3),
    (1, 0, 2, 0, 1),
    (2, 0, 1, 5, 2),
    (2, 0, 2, 5, 1),
    (2, 0, 1, 6, 3),
    (2, 0, 1, 7, 1),
    (2, 0, 1, 9, 3),
    (3, 0, 0, 5, 7),
    (3, 1, 7, 5, 8),
    (3, 2, 0, 5, 9),
    (3, 0, 0, 6, 3),
    (3, 1, 0, 6, 3),
    (3, 0, 65535, 9, 1),
    (4, 0, 1, 5, 1),
    (4, 1, 1, 5, 2),
    (4, 2, 2, 5, 1),
    (4, 0, 1, 6, 3),
    (4, 1, 1, 6, 3),
    (4, 0, 4, 9, 1),
    (5, 0, 4, 0, 2),
];

#[test]
fn keys_and_entries() {
    let many = map(&MANY);
    assert_eq!(many.keys().collect::<Vec<_>>(), [5, 6, 7, 9]);
    assert!(many.contains_key(7) && !many.contains_key(8));
    assert_eq!(many.entries().count(), many.len());
    assert_eq!((&many).into_iter().collect::<Vec<_>>(), many.entries().collect::<Vec<_>>());

    let five = many.entry(5).expect("an entry");
    assert_eq!(five.clock, clock(&[(1, 0, 1, 0, 2), (1, 0, 2, 0, 1)]));
    let values: Vec<_> = five.values.iter().map(|value| value.value).collect();
    assert_eq!((values, many.values(5)), (vec![7, 8, 9], vec![7, 8, 9]));
    assert_eq!(five.values[1].clock, clock(&[(1, 0, 1, 0, 2)]));
    assert_eq!(many.entry(8), None);
    assert_eq!(map(&most_entries()).entries().count(), 32);
    assert_eq!(Map::new().entries().count(), 0);
}

/// Three parties edit and merge at random: the parts are what the calls say of the map.
#[test]
fn the_parts_of_many_maps() {
    let mut seed = 1_u64;
    let mut below = |limit: u64| {
        seed = seed.wrapping_mul(6_364_136_223_846_793_005).wrapping_add(1);
        (seed >> 33) % limit
    };
    let mut parties = [Map::new(), Map::new(), Map::new()];
    let mut waited = 0;
    for _ in 0..2_000 {
        let (party, other) = (below(3) as usize, below(3) as usize);
        let (actor, key) = (party as u16 + 1, below(5) as u32);
        let edit = match below(3) {
            0 => parties[party].withdraw(key),
            _ => parties[party].update(actor, key, below(9), 0),
        };
        let edit = edit.expect("an edit within the limits");
        // a refused one leaves the map as it is
        let _ = parties[party].apply(&edit);
        let _ = match below(3) {
            0 => parties[other].apply(&edit),
            1 => parties[other].merge(&parties[party].clone()),
            _ => Ok(()),
        };
        let map = &parties[other];
        waited += map.waiting().count();
        assert_eq!(map.keys().count(), map.len());
        for entry in map {
            let values: Vec<_> = entry.values.iter().map(|value| value.value).collect();
            assert_eq!(values, map.values(entry.key));
            assert!(map.clock().covers(&entry.clock));
            assert_eq!(map.get(entry.key).entry(entry.key), Some(entry));
        }
        assert!(map.to_string().lines().count() > map.len());
    }
    assert!(waited > 0, "no removal ever waited");
}

#[test]
fn how_values_stand() {
    let many = map(&MANY);
    let standings = |entry: &Entry| {
        (0..entry.values.len()).map(|place| entry.standing(place)).collect::<Vec<_>>()
    };
    let five = many.entry(5).expect("an entry");
    let expected = [Standing::Outdone, Standing::Concurrent, Standing::Concurrent];
    assert_eq!(standings(&five), expected);
    assert_eq!(standings(&many.entry(6).expect("an entry")), [Standing::Repeated; 2]);
    assert_eq!(standings(&many.entry(9).expect("an entry")), [Standing::Alone]);
}

#[test]
fn who_wrote() {
    let mut two = map(&M);
    let entry = two.entry(5).expect("an entry");
    assert_eq!(entry.writers(&entry.values[0]).collect::<Vec<_>>(), [1]);
    // whether 2 had seen 1, or 1 had seen 2, no image says
    two.apply(&two.update(2, 5, 41, 0).expect("an update")).expect("an update that fits");
    let entry = two.entry(5).expect("an entry");
    assert_eq!(entry.writers(&entry.values[0]).collect::<Vec<_>>(), [1, 2]);
}

#[test]
fn removals_that_wait() {
    let lines = [
        (5, 0, 1, 0, 4),
        (5, 0, 2, 0, 1),
        (5, 1, 1, 0, 5),
        (6, 1, 0, 5, 0),
        (6, 0, 0, 6, 0),
        (6, 1, 0, 6, 0),
    ];
    let waiting: Vec<_> = map(&lines).waiting().collect();
    assert_eq!(waiting.len(), 2);
    assert_eq!((&waiting[0].keys, &waiting[1].keys), (&vec![6], &vec![5, 6]));
    assert_eq!(waiting[0].clock, clock(&[(1, 0, 1, 0, 4), (1, 0, 2, 0, 1)]));
    assert_eq!(waiting[1].to_string(), "removal of keys 5 and 6, until {1:5} is seen");
    assert_eq!(Map::new().waiting().count(), 0);
}

#[test]
fn maps_in_words() {
    assert_eq!(Map::new().to_string(), "seen: nothing\nno entries");
    assert_eq!(map(&M).to_string(), "seen: {1:1}\nkey 5: 40 by actor 1");
    let words = "\
seen: {1:3 2:1}
key 5: 3 values
  7 by an actor whose update was removed, outdone by another
  8 by actor 1, origin 7, concurrent
  9 by actor 2, concurrent
key 6: 2 values
  3 by actor 1, with the clock of another
  3 by actor 1, with the clock of another
key 7: no value
key 9: 1 by an actor whose update was removed, origin 65535
waiting: removal of no key, until {4:2} is seen";
    assert_eq!(map(&MANY).to_string(), words);
}

#[test]
fn operations_in_words() {
    let none = operation(&[(7, 0, 0, 0, 0)]);
    assert_eq!((none.to_string().as_str(), none.dot()), ("removal of no key under {}", None));
    let lines =
        [(7, 0, 0, 0, 0), (8, 0, 1, 0, 2), (9, 0, 0, 1, 0), (9, 0, 0, 2, 0), (9, 0, 0, 3, 0)];
    assert_eq!(operation(&lines).to_string(), "removal of keys 1, 2 and 3 under {1:2}");
    let update = operation(&[(10, 0, 3, 5, 9), (11, 0, 0, 0, 7)]);
    assert_eq!(update.dot(), Some((3, 9)));
    assert_eq!(update.to_string(), "update 9 of actor 3: key 5 is 7, having seen {}");
    let update = operation(&[(10, 0, 3, 5, 9), (11, 0, 8, 0, 7)]);
    assert_eq!(update.to_string(), "update 9 of actor 3: key 5 is 7, origin 8, having seen {}");
}
