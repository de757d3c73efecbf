//! The operations of a history, and what a drive shows.

use crate::rules::{Rules, Seen};
use castribba::loader::{self, Report, BAYS};
use castribba::{kind, Map, Operation, Record, Refusal};
use std::fmt;

/// An operation, and what its maker meant by it.
#[derive(Clone)]
pub struct Made {
    pub op: Operation,
    pub key: u32,
    /// Of a removal, the values that stood under its key where it was made. No two updates put one value.
    pub meant: Vec<u64>,
}

impl Made {
    pub fn is_removal(&self) -> bool {
        self.op.dot().is_none()
    }

    /// An update whose value is its own dot.
    pub fn update(map: &Map, actor: u16, key: u32) -> Result<Made, Refusal> {
        let counter = map.clock().get(actor) + 1;
        let value = counter * 16 + u64::from(actor);
        let op = map.update(actor, key, value, actor)?;
        Ok(Made { op, key, meant: Vec::new() })
    }

    pub fn removal(rules: Rules, map: &Map, key: u32) -> Result<Made, Refusal> {
        Ok(Made { op: rules.removal(map, key)?, key, meant: map.values(key) })
    }
}

/// A history for a reader: its operations in the order in which they were made.
pub struct Told<'a>(pub &'a [Made]);

impl fmt::Display for Told<'_> {
    fn fmt(&self, f: &mut fmt::Formatter<'_>) -> fmt::Result {
        self.0.iter().try_for_each(|made| write!(f, "\n    {}", made.op))
    }
}

/// The settings of a map: all its records but those of value clocks, and values without their order.
#[derive(Clone, PartialEq, Eq, Hash, Debug)]
pub struct Settings {
    pub frame: Vec<Record>,
    pub values: Vec<(u32, u64, u16)>,
}

impl Settings {
    pub fn of(map: &Map) -> Settings {
        let of_value = |record: &Record| matches!(record.kind, kind::VALUE | kind::VALUE_DOT);
        let values = map.of_kind(kind::VALUE).map(|value| (value.key, value.number, value.actor));
        let mut values: Vec<_> = values.collect();
        values.sort_unstable();
        Settings { frame: map.records().filter(|record| !of_value(record)).collect(), values }
    }
}

/// What is asked of a drive.
#[derive(PartialEq, Eq)]
pub struct Shown {
    pub settings: Settings,
    report: (usize, [Report; BAYS]),
}

impl Shown {
    pub fn of(map: &Map) -> Shown {
        let reports = loader::bays(map.as_image()).expect("a map that was accepted");
        Shown { settings: Settings::of(map), report: (map.len(), reports) }
    }
}

/// Whether a value stands that a removal among these operations was meant to remove.
pub fn withdrawn_stands<'a>(map: &Map, mut ops: impl Iterator<Item = &'a Made>) -> bool {
    ops.any(|made| {
        !made.meant.is_empty()
            && map.values(made.key).iter().any(|value| made.meant.contains(value))
    })
}

/// What differs between two drives that have the same operations.
pub fn compare(one: &Map, other: &Map, seen: &mut Seen) {
    let (shown, other_shown) = (Shown::of(one), Shown::of(other));
    let agree = shown.settings == other_shown.settings;
    // the safe crate's own comparison says the same
    assert_eq!(one.agrees_with(other), agree);
    seen.settings |= !agree;
    seen.reports |= shown.report != other_shown.report;
    seen.bytes |= one != other;
}
