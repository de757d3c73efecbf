//! Full maps, smaller ones, and what is done with them.

use calls::{LentClock, LentDot};
use oracle::expected;
use oracle::full::{busy_map, full_clock, full_map, map_of, Sizes};
use oracle::image::{clock_image, map_image, operation_image, LONGEST_MAP};
use oracle::model::{Clock, Map, Operation};

pub enum Work {
    Apply {
        op: Vec<u8>,
    },
    Merge {
        other: Vec<u8>,
    },
    ResetRemove {
        clock: Vec<u8>,
    },
    Len,
    /// What is asked of an image and changes no map: timed of the byte calls alone.
    Ask(Question),
}

pub enum Question {
    Update,
    RmGet,
    RmReadCtx,
    Get,
    ValidateOp {
        op: Vec<u8>,
    },
    ValidateMerge {
        other: Vec<u8>,
    },
    Ready {
        op: Vec<u8>,
    },
    Differences {
        other: Vec<u8>,
    },
    /// The floor of as many peers as may be lent, each with a full clock; no map is asked.
    Floor {
        peers: Vec<LentClock>,
    },
    CatchUp {
        other: Vec<u8>,
        list: Vec<u8>,
    },
    Bay,
    Bays,
    /// The map's image comes in pieces, and is written at the end.
    Pieces {
        length: usize,
    },
}

/// An entry of every full map, and an actor of its clock.
pub const KEY: u32 = 8;
pub const ACTOR: u16 = 3;

pub struct Task {
    pub name: &'static str,
    pub map: Vec<u8>,
    pub work: Work,
    /// Whether a byte call's time is that of the image, so that a record's share says something.
    pub of_image: bool,
}

/// Half of every limit.
const HALF: Sizes = Sizes { actors: 4, entries: 16, values: 2, waiting: 8, keys: 8 };
/// What most maps are like: two bays that two parties have set.
const SMALL: Sizes = Sizes { actors: 2, entries: 2, values: 1, waiting: 0, keys: 0 };

/// An actor's next update of a key, which has seen all of the map.
fn next_update(map: &Map, actor: u16, key: u32) -> Vec<u8> {
    let counter = map.clock[&actor] + 1;
    let mut put_clock = map.clock.clone();
    put_clock.insert(actor, counter);
    operation_image(&Operation::Update { actor, counter, key, put_clock, put_value: (5, 1) })
}

/// As many peers as may be lent, whose floor is full too.
fn full_peers() -> Vec<LentClock> {
    let peer = |of: u64| LentClock {
        dots: std::array::from_fn(|place| LentDot { actor: place as u16 + 1, counter: 100 + of }),
        len: 8,
    };
    (0..64).map(peer).collect()
}

pub fn tasks() -> Vec<Task> {
    let map = full_map(|_| false);
    let image = map_image(&map);
    assert_eq!(image.len(), LONGEST_MAP);
    let newer_half = map_image(&full_map(|key| key % 2 == 1));

    let update = next_update(&map, ACTOR, KEY);
    let removal = Operation::Removal { clock: map.clock.clone(), keys: [KEY].into() };
    let reset = full_clock(|actor| if actor % 2 == 1 { 90 } else { 1 });

    let (next, list) = (update.clone(), update.clone());
    let caught_up = expected::apply(&image, &update).bytes;
    let newer = newer_half.clone();

    let none = clock_image(&Clock::new());
    let busy = map_image(&busy_map());
    let half = map_of(&HALF, |_| false);
    let small = map_of(&SMALL, |_| false);

    let task = |name, work| Task { name, map: image.clone(), work, of_image: false };
    let of_image = |name, work| Task { of_image: true, ..task(name, work) };
    let of_map = |name, map: &Map, work| Task { name, map: map_image(map), work, of_image: false };
    vec![
        task("apply an update of one entry", Work::Apply { op: update.clone() }),
        task("apply a removal of one entry", Work::Apply { op: operation_image(&removal) }),
        task("merge with an equal map", Work::Merge { other: image.clone() }),
        task("merge with a map of which half is newer", Work::Merge { other: newer_half }),
        of_map(
            "merge with an equal map, every key is listed by half of the removals",
            &busy_map(),
            Work::Merge { other: busy },
        ),
        of_map(
            "half of every limit: merge with an equal map",
            &half,
            Work::Merge { other: map_image(&half) },
        ),
        of_map(
            "half of every limit: apply an update",
            &half,
            Work::Apply { op: next_update(&half, ACTOR, KEY) },
        ),
        of_map(
            "two entries: merge with an equal map",
            &small,
            Work::Merge { other: map_image(&small) },
        ),
        of_map(
            "two entries: apply an update",
            &small,
            Work::Apply { op: next_update(&small, 1, 2) },
        ),
        task("reset_remove", Work::ResetRemove { clock: clock_image(&reset) }),
        of_image("read: len", Work::Len),
        of_image(
            "read and write back: reset_remove by the empty clock",
            Work::ResetRemove { clock: none },
        ),
        of_image(
            "read in pieces of 64 bytes and write back: pieces",
            Work::Ask(Question::Pieces { length: 64 }),
        ),
        of_image(
            "read in one piece and write back: pieces",
            Work::Ask(Question::Pieces { length: LONGEST_MAP }),
        ),
        task("update", Work::Ask(Question::Update)),
        task("rm_get", Work::Ask(Question::RmGet)),
        task("rm_read_ctx", Work::Ask(Question::RmReadCtx)),
        task("get", Work::Ask(Question::Get)),
        task("validate_op", Work::Ask(Question::ValidateOp { op: update })),
        task(
            "validate_merge with an equal map",
            Work::Ask(Question::ValidateMerge { other: image.clone() }),
        ),
        task("ready, of an update that is next", Work::Ask(Question::Ready { op: next })),
        task(
            "differences of an equal map",
            Work::Ask(Question::Differences { other: image.clone() }),
        ),
        task("differences, half is newer", Work::Ask(Question::Differences { other: newer })),
        task("floor of 64 full clocks", Work::Ask(Question::Floor { peers: full_peers() })),
        task("catch_up by one update", Work::Ask(Question::CatchUp { other: caught_up, list })),
        task("the loader: bay", Work::Ask(Question::Bay)),
        task("the loader: bays", Work::Ask(Question::Bays)),
    ]
}
