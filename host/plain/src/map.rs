//! The map: a clock, entries by key, and removals that wait for what they have not yet seen.

use crate::register::{retain, WorkRegister};
use crate::{
    number, Clock, Dot, Register, Value, MOST_ENTRIES, MOST_KEYS, MOST_VALUES, MOST_WAITING,
};
use core::cmp::Ordering;

#[derive(Clone, Copy, Debug)]
pub struct Entry {
    pub key: u32,
    pub clock: Clock,
    pub register: Register,
}

#[derive(Clone, Copy, Debug)]
pub struct Removal {
    pub clock: Clock,
    pub keys: [u32; MOST_KEYS],
    pub len: usize,
}

/// Removals that ascend by clock.
#[derive(Clone, Copy, Debug)]
pub struct Waiting {
    pub removals: [Removal; MOST_WAITING],
    pub len: usize,
}

/// Entries ascend by key. Every entry clock is non-empty and covered by
/// the map clock.
#[derive(Clone, Copy, Debug)]
pub struct Map {
    pub clock: Clock,
    pub entries: [Entry; MOST_ENTRIES],
    pub entries_len: usize,
    pub waiting: Waiting,
}

#[derive(Clone, Copy, Debug)]
pub enum Operation {
    Remove(Removal),
    Update { dot: Dot, key: u32, put: Value },
}

/// The missing counters of an operation: from the first missing one to the operation's own.
#[derive(Clone, Copy, Debug, PartialEq, Eq)]
pub struct Gap {
    pub start: u64,
    pub end: u64,
}

/// Why an update is not the next.
#[derive(Clone, Copy, Debug, PartialEq, Eq)]
pub enum NotNext {
    /// Its put clock lacks its own dot.
    Foreign,
    Seen,
    /// This update, of one that its writer had seen, is the first that is missing.
    Hold(Dot),
}

/// A dot that stands under one key in our map and under another in theirs.
#[derive(Clone, Copy, Debug, PartialEq, Eq)]
pub struct DoubleSpent {
    pub dot: Dot,
    pub our_key: u32,
    pub their_key: u32,
}

impl Entry {
    pub const NONE: Entry = Entry { key: 0, clock: Clock::EMPTY, register: Register::EMPTY };

    /// Applies each removal that lists the key; false when the entry goes.
    fn survives(&mut self, removals: &[Removal]) -> bool {
        for removal in removals.iter().filter(|removal| removal.lists(self.key)) {
            self.clock.cut(&removal.clock);
            self.register.cut(&removal.clock);
        }
        !self.clock.is_empty()
    }
}

impl Removal {
    pub const NONE: Removal = Removal { clock: Clock::EMPTY, keys: [0; MOST_KEYS], len: 0 };

    pub fn keys(&self) -> &[u32] {
        &self.keys[..self.len]
    }

    pub fn lists(&self, key: u32) -> bool {
        self.keys().contains(&key)
    }

    /// Takes the other's keys in; None, and some keys in, when more than 16 would be listed.
    fn unite(&mut self, other: &Removal) -> Option<()> {
        for key in other.keys() {
            if let Err(place) = self.keys().binary_search(key) {
                if self.len == MOST_KEYS {
                    return None;
                }
                self.keys.copy_within(place..self.len, place + 1);
                self.keys[place] = *key;
                self.len += 1;
            }
        }
        Some(())
    }
}

impl Waiting {
    pub const EMPTY: Waiting = Waiting { removals: [Removal::NONE; MOST_WAITING], len: 0 };

    pub fn removals(&self) -> &[Removal] {
        &self.removals[..self.len]
    }

    /// Unites a removal with the waiting one of the same clock. Unchanged when refused.
    fn add(&mut self, removal: &Removal) -> Result<(), u32> {
        let place =
            self.removals().binary_search_by(|waiting| waiting.clock.list_order(&removal.clock));
        match place {
            Ok(place) => {
                let mut united = self.removals[place];
                united.unite(removal).ok_or(number::OVER_KEYS)?;
                self.removals[place] = united;
            }
            Err(_) if self.len == MOST_WAITING => return Err(number::OVER_WAITING),
            Err(place) => {
                self.removals.copy_within(place..self.len, place + 1);
                self.removals[place] = *removal;
                self.len += 1;
            }
        }
        Ok(())
    }
}

/// An entry in work: wider than a stored one, since limits are judged on finished entries only.
struct Work {
    clock: Clock,
    register: WorkRegister,
}

impl Work {
    const EMPTY: Work = Work { clock: Clock::EMPTY, register: WorkRegister::EMPTY };

    fn load(&mut self, entry: &Entry) {
        self.clock = entry.clock;
        self.register.load(&entry.register).expect("a stored register fits");
    }

    /// Applies each removal that lists the key; false when the entry goes.
    fn survives(&mut self, key: u32, removals: &[Removal]) -> bool {
        for removal in removals.iter().filter(|removal| removal.lists(key)) {
            self.clock.cut(&removal.clock);
            self.register.cut(&removal.clock);
        }
        !self.clock.is_empty()
    }

    /// An entry on one side only: false when the other map has seen all of it and dropped it.
    fn merge_lone(&mut self, other_clock: &Clock) -> bool {
        self.clock.cut(other_clock);
        if self.clock.is_empty() {
            return false;
        }
        let mut dropped = *other_clock;
        dropped.cut(&self.clock);
        self.register.cut(&dropped);
        true
    }

    /// An entry on both sides, ours loaded. The map clocks' join has at most eight dots, and the
    /// entry clocks lie within it, so no join here can fail.
    fn merge_shared(&mut self, our_clock: &Clock, theirs: &Entry, their_clock: &Clock) -> bool {
        let mut unseen_by_us = theirs.clock;
        unseen_by_us.cut(our_clock);
        let mut unseen_by_them = self.clock;
        unseen_by_them.cut(their_clock);
        let kept = self.clock.common(&theirs.clock);
        let kept = kept.join(&unseen_by_us).and_then(|kept| kept.join(&unseen_by_them));
        let kept = kept.expect("within the joined map clock");
        if kept.is_empty() {
            return false;
        }
        self.register.merge(&theirs.register);
        let mut dropped = self.clock.join(&theirs.clock).expect("within the joined map clock");
        dropped.cut(&kept);
        self.register.cut(&dropped);
        self.clock = kept;
        true
    }
}

impl Map {
    pub const EMPTY: Map = Map {
        clock: Clock::EMPTY,
        entries: [Entry::NONE; MOST_ENTRIES],
        entries_len: 0,
        waiting: Waiting::EMPTY,
    };

    /// Tells each key that differs with its class, ascending, and answers how many there are.
    pub fn differences(&self, other: &Map, mut tell: impl FnMut(u8, u32)) -> usize {
        let (mut ours, mut theirs) = (self.entries(), other.entries());
        let mut count = 0;
        loop {
            let (class, key) = match (ours.first(), theirs.first()) {
                (None, None) => return count,
                (Some(one), Some(two)) if one.key == two.key => {
                    (ours, theirs) = (&ours[1..], &theirs[1..]);
                    let same = one.clock == two.clock && one.register.equals(&two.register);
                    (if same { 0 } else { 3 }, one.key)
                }
                (Some(one), two) if two.map_or(true, |two| one.key < two.key) => {
                    ours = &ours[1..];
                    (1, one.key)
                }
                (_, two) => {
                    theirs = &theirs[1..];
                    (2, two.expect("the other side has one").key)
                }
            };
            if class != 0 {
                tell(class, key);
                count += 1;
            }
        }
    }

    pub fn entries(&self) -> &[Entry] {
        &self.entries[..self.entries_len]
    }

    pub fn waiting(&self) -> &[Removal] {
        self.waiting.removals()
    }

    pub fn entry(&self, key: u32) -> Option<&Entry> {
        self.place(key).ok().map(|place| &self.entries[place])
    }

    fn place(&self, key: u32) -> Result<usize, usize> {
        self.entries().binary_search_by_key(&key, |entry| entry.key)
    }

    /// Unchanged when refused.
    pub fn apply(&mut self, operation: &Operation) -> Result<(), u32> {
        match operation {
            Operation::Remove(removal) => self.remove(removal),
            Operation::Update { dot, key, put } => self.put(*dot, *key, put),
        }
    }

    fn remove(&mut self, removal: &Removal) -> Result<(), u32> {
        if !self.clock.covers(&removal.clock) {
            self.waiting.add(removal)?;
        }
        if removal.len > 0 && !removal.clock.is_empty() {
            retain(&mut self.entries, &mut self.entries_len, |entry| {
                entry.survives(core::slice::from_ref(removal))
            });
        }
        Ok(())
    }

    fn put(&mut self, dot: Dot, key: u32, put: &Value) -> Result<(), u32> {
        if self.clock.counter(dot.actor) >= dot.counter {
            return Ok(());
        }
        let mut clock = self.clock;
        clock.add(dot).ok_or(number::OVER_DOTS)?;

        let mut work = Work::EMPTY;
        let place = self.place(key);
        if let Ok(place) = place {
            work.load(&self.entries[place]);
        }
        work.clock.add(dot).expect("within the new map clock");
        work.register.put(put);
        let stays = work.survives(key, self.waiting());

        if stays {
            if place.is_err()
                && self.entries_len == MOST_ENTRIES
                && self.entries().iter().all(|entry| self.keeps(entry))
            {
                return Err(number::OVER_ENTRIES);
            }
            if work.register.len > MOST_VALUES {
                return Err(number::OVER_VALUES);
            }
        }

        // nothing is refused any more
        self.clock = clock;
        let waiting = self.waiting.removals();
        retain(&mut self.entries, &mut self.entries_len, |entry| {
            if entry.key == key {
                stays
            } else {
                entry.survives(waiting)
            }
        });
        if stays {
            let place = match self.place(key) {
                Ok(place) => place,
                Err(place) => {
                    self.entries.copy_within(place..self.entries_len, place + 1);
                    self.entries_len += 1;
                    place
                }
            };
            let entry = &mut self.entries[place];
            entry.key = key;
            entry.clock = work.clock;
            entry.register.load(&work.register).expect("counted above");
        }
        // a waiting removal that the map clock covers has done its work
        retain(&mut self.waiting.removals, &mut self.waiting.len, |removal| {
            !clock.covers(&removal.clock)
        });
        Ok(())
    }

    /// Whether an entry is left by every waiting removal that lists it.
    fn keeps(&self, entry: &Entry) -> bool {
        let mut clock = entry.clock;
        for removal in self.waiting().iter().filter(|removal| removal.lists(entry.key)) {
            clock.cut(&removal.clock);
        }
        !clock.is_empty()
    }

    pub fn merge(&self, other: &Map) -> Result<Map, u32> {
        let mut merged = Map::EMPTY;
        merged.clock = self.clock.join(&other.clock).ok_or(number::OVER_DOTS)?;

        let mut too_many_values = false;
        let mut work = Work::EMPTY;
        let (mut ours, mut theirs) = (self.entries(), other.entries());
        loop {
            let order = match (ours.first(), theirs.first()) {
                (Some(our), Some(their)) => our.key.cmp(&their.key),
                (Some(_), None) => Ordering::Less,
                (None, Some(_)) => Ordering::Greater,
                (None, None) => break,
            };
            let key;
            let stays = match order {
                Ordering::Less => {
                    key = ours[0].key;
                    work.load(&ours[0]);
                    ours = &ours[1..];
                    work.merge_lone(&other.clock)
                }
                Ordering::Greater => {
                    key = theirs[0].key;
                    work.load(&theirs[0]);
                    theirs = &theirs[1..];
                    work.merge_lone(&self.clock)
                }
                Ordering::Equal => {
                    key = ours[0].key;
                    work.load(&ours[0]);
                    let stays = work.merge_shared(&self.clock, &theirs[0], &other.clock);
                    ours = &ours[1..];
                    theirs = &theirs[1..];
                    stays
                }
            };
            if !stays || !work.survives(key, self.waiting()) || !work.survives(key, other.waiting())
            {
                continue;
            }
            if merged.entries_len == MOST_ENTRIES {
                return Err(number::OVER_ENTRIES);
            }
            let entry = &mut merged.entries[merged.entries_len];
            entry.key = key;
            entry.clock = work.clock;
            if entry.register.load(&work.register).is_none() {
                // told at the end: a later entry may be one too many, which comes first
                too_many_values = true;
            }
            merged.entries_len += 1;
        }
        if too_many_values {
            return Err(number::OVER_VALUES);
        }
        merged.merge_waiting(self.waiting(), other.waiting())?;
        Ok(merged)
    }

    /// Both lists side by side, without those that the map clock covers.
    fn merge_waiting(&mut self, mut ours: &[Removal], mut theirs: &[Removal]) -> Result<(), u32> {
        let mut too_many_keys = false;
        loop {
            let order = match (ours.first(), theirs.first()) {
                (Some(our), Some(their)) => our.clock.list_order(&their.clock),
                (Some(_), None) => Ordering::Less,
                (None, Some(_)) => Ordering::Greater,
                (None, None) => break,
            };
            let mut united = if order == Ordering::Greater { theirs[0] } else { ours[0] };
            let covered = self.clock.covers(&united.clock);
            if !covered && order == Ordering::Equal && united.unite(&theirs[0]).is_none() {
                // told at the end: a later removal may be one too many, which comes first
                too_many_keys = true;
            }
            if order != Ordering::Greater {
                ours = &ours[1..];
            }
            if order != Ordering::Less {
                theirs = &theirs[1..];
            }
            if covered {
                continue;
            }
            if self.waiting.len == MOST_WAITING {
                return Err(number::OVER_WAITING);
            }
            self.waiting.removals[self.waiting.len] = united;
            self.waiting.len += 1;
        }
        if too_many_keys {
            return Err(number::OVER_KEYS);
        }
        Ok(())
    }

    /// Unchanged when refused.
    pub fn reset_remove(&mut self, by: &Clock) -> Result<(), u32> {
        let mut waiting = Waiting::EMPTY;
        for removal in self.waiting() {
            let mut removal = *removal;
            removal.clock.cut(by);
            if !removal.clock.is_empty() {
                // equal clocks are united; there are never more than before
                waiting.add(&removal)?;
            }
        }
        self.waiting = waiting;
        retain(&mut self.entries, &mut self.entries_len, |entry| {
            entry.clock.cut(by);
            entry.register.cut(by);
            !entry.clock.is_empty()
        });
        self.clock.cut(by);
        Ok(())
    }

    pub fn validate_op(&self, operation: &Operation) -> Result<(), Gap> {
        let Operation::Update { dot, key, .. } = operation else {
            return Ok(());
        };
        let in_entry = self.entry(*key).map_or(0, |entry| entry.clock.counter(dot.actor));
        for held in [self.clock.counter(dot.actor), in_entry] {
            // at 2^64-1 no dot is too high
            if let Some(next) = held.checked_add(1) {
                if dot.counter > next {
                    return Err(Gap { start: next, end: dot.counter });
                }
            }
        }
        Ok(())
    }

    /// Whether an operation may be applied: a removal, or an update before which nothing is missing.
    pub fn ready(&self, operation: &Operation) -> Result<(), NotNext> {
        let Operation::Update { dot, put, .. } = operation else {
            return Ok(());
        };
        if !put.clock.dots().contains(dot) {
            return Err(NotNext::Foreign);
        }
        if self.clock.counter(dot.actor) >= dot.counter {
            return Err(NotNext::Seen);
        }
        for had in put.clock.dots() {
            let needed = had.counter - u64::from(had.actor == dot.actor);
            let seen = self.clock.counter(had.actor);
            if seen < needed {
                return Err(NotNext::Hold(Dot { actor: had.actor, counter: seen + 1 }));
            }
        }
        Ok(())
    }

    pub fn validate_merge(&self, other: &Map) -> Result<(), DoubleSpent> {
        for ours in self.entries() {
            for theirs in other.entries().iter().filter(|theirs| theirs.key != ours.key) {
                let spent = ours.clock.dots().iter().find(|dot| theirs.clock.dots().contains(dot));
                if let Some(dot) = spent {
                    let (our_key, their_key) = (ours.key, theirs.key);
                    return Err(DoubleSpent { dot: *dot, our_key, their_key });
                }
            }
        }
        Ok(())
    }

    /// Makes an update; the map is not changed.
    pub fn update(&self, actor: u16, key: u32, value: u64, origin: u16) -> Result<Operation, u32> {
        let counter = self.clock.counter(actor).checked_add(1).ok_or(number::COUNTER_SPENT)?;
        let dot = Dot { actor, counter };
        let mut clock = self.clock;
        clock.add(dot).ok_or(number::OVER_DOTS)?;
        Ok(Operation::Update { dot, key, put: Value { clock, value, origin } })
    }

    /// Makes a removal of the key under its entry clock, empty where there is no entry.
    pub fn rm_get(&self, key: u32) -> Operation {
        removal_of(key, self.entry(key).map_or(Clock::EMPTY, |entry| entry.clock))
    }

    /// Makes a removal of the key under the map clock.
    pub fn rm_read_ctx(&self, key: u32) -> Operation {
        removal_of(key, self.clock)
    }

    /// The map clock and that entry alone.
    pub fn get(&self, key: u32) -> Map {
        let mut read = Map::EMPTY;
        read.clock = self.clock;
        if let Some(entry) = self.entry(key) {
            read.entries[0] = *entry;
            read.entries_len = 1;
        }
        read
    }

    /// The dots in all entry clocks.
    pub fn entry_dots(&self) -> usize {
        self.entries().iter().map(|entry| entry.clock.dots().len()).sum()
    }

    pub fn len(&self) -> usize {
        self.entries_len
    }

    pub fn is_empty(&self) -> bool {
        self.entries_len == 0
    }
}

fn removal_of(key: u32, clock: Clock) -> Operation {
    let mut removal = Removal::NONE;
    removal.clock = clock;
    removal.keys[0] = key;
    removal.len = 1;
    Operation::Remove(removal)
}
