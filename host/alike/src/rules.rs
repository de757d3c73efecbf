//! Which rules a search keeps, and what it found.

use castribba::{Map, Operation, Ready, Refusal};
use std::fmt;

/// What is asked before an update is applied.
#[derive(Clone, Copy, PartialEq, Eq)]
pub enum Guard {
    /// castribba_ready.
    Ready,
    /// Whether it is its actor's next, whatever its writer had seen of others.
    OwnActor,
    Nothing,
}

/// How drives that meet exchange maps.
#[derive(Clone, Copy, PartialEq, Eq)]
pub enum Merges {
    Never,
    /// By rule 4's choice.
    Chosen,
    AtWill,
}

#[derive(Clone, Copy, PartialEq, Eq)]
pub struct Rules {
    pub guard: Guard,
    /// Whether removals are made by castribba_rm_read_ctx, and not by castribba_rm_get.
    pub withdraw: bool,
    pub merges: Merges,
    name: &'static str,
}

const fn rules(guard: Guard, withdraw: bool, merges: Merges, name: &'static str) -> Rules {
    Rules { guard, withdraw, merges, name }
}

impl Rules {
    /// Without merges.
    pub const ALL: [Rules; 4] = [
        rules(Guard::Ready, true, Merges::Never, "by the rules"),
        rules(Guard::Ready, false, Merges::Never, "removals by rm_get"),
        rules(Guard::OwnActor, true, Merges::Never, "guarded by the own actor alone"),
        rules(Guard::Nothing, true, Merges::Never, "without a guard"),
    ];
    /// With merges.
    pub const MERGING: [Rules; 2] = [
        rules(Guard::Ready, true, Merges::Chosen, "by the rules, merges by the choice"),
        rules(Guard::Ready, true, Merges::AtWill, "merges at will"),
    ];

    /// Whether drives must agree.
    pub fn kept(self) -> bool {
        self.guard == Guard::Ready && self.withdraw && self.merges != Merges::AtWill
    }

    /// Whether an operation may be applied.
    pub fn allow(self, map: &Map, op: &Operation) -> bool {
        match (self.guard, op.dot()) {
            (Guard::Ready, _) => matches!(map.ready(op), Ready::Next | Ready::Seen),
            (Guard::OwnActor, Some((actor, counter))) => counter - 1 <= map.clock().get(actor),
            (Guard::OwnActor, None) | (Guard::Nothing, _) => true,
        }
    }

    pub fn removal(self, map: &Map, key: u32) -> Result<Operation, Refusal> {
        if self.withdraw {
            map.withdraw(key)
        } else {
            map.remove_entry(key)
        }
    }
}

/// What a search found: how many of its histories show each kind of difference.
pub struct Found {
    rules: Rules,
    pub histories: u64,
    pub calls: u64,
    pub settings: u64,
    pub reports: u64,
    /// A value stands where it was removed.
    pub withdrawn: u64,
    /// A map is not what its operations say.
    pub pictures: u64,
    pub bytes: u64,
    /// The first history in which something differs, for a reader.
    pub first: Option<String>,
}

impl Found {
    pub fn new(rules: Rules) -> Found {
        Found {
            rules,
            histories: 0,
            calls: 0,
            settings: 0,
            reports: 0,
            withdrawn: 0,
            pictures: 0,
            bytes: 0,
            first: None,
        }
    }

    /// One history more, and what differs in it.
    pub fn count(&mut self, seen: Seen, history: impl fmt::Display) {
        self.histories += 1;
        self.settings += u64::from(seen.settings);
        self.reports += u64::from(seen.reports);
        self.withdrawn += u64::from(seen.withdrawn);
        self.pictures += u64::from(seen.picture);
        self.bytes += u64::from(seen.bytes);
        let anything = seen.settings || seen.reports || seen.withdrawn || seen.picture;
        if anything && self.first.is_none() {
            self.first = Some(format!(": {history}"));
        }
    }
}

impl fmt::Display for Found {
    fn fmt(&self, f: &mut fmt::Formatter<'_>) -> fmt::Result {
        let Found { histories, calls, settings, reports, withdrawn, pictures, bytes, .. } = self;
        let name = self.rules.name;
        write!(f, "  {name}: {histories} histories, {calls} applies; settings differ in {settings}, reports in {reports}")?;
        write!(f, ", withdrawn values stand in {withdrawn}")?;
        if self.rules.kept() {
            write!(
                f,
                ", maps that are not their operations' in {pictures}, bytes differ in {bytes}"
            )?;
        }
        Ok(())
    }
}

/// What differs in one history.
#[derive(Clone, Copy, Default)]
pub struct Seen {
    pub settings: bool,
    pub reports: bool,
    pub withdrawn: bool,
    pub picture: bool,
    pub bytes: bool,
}
