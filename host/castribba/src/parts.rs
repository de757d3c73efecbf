//! The parts of a map, one after the other, and everything in words.

use alloc::vec::{self, Vec};
use core::fmt;

use crate::{kind, Clock, Map, Operation, Record};

/// A key that is set: one entry of a map.
#[derive(Clone, Debug, PartialEq, Eq, Hash)]
#[non_exhaustive]
pub struct Entry {
    pub key: u32,
    /// The last update of this key by each actor that was not removed.
    pub clock: Clock,
    /// The values that stand side by side, perhaps none.
    pub values: Vec<Value>,
}

/// A value of an entry.
#[derive(Clone, Debug, PartialEq, Eq, Hash)]
#[non_exhaustive]
pub struct Value {
    pub value: u64,
    /// Who set it, 0 where nobody said: it moves with the value and decides nothing.
    pub origin: u16,
    /// What its writer had seen, this value's own update included.
    pub clock: Clock,
}

/// How a value stands to the others of its entry.
#[derive(Clone, Copy, Debug, PartialEq, Eq, Hash)]
pub enum Standing {
    /// It is alone.
    Alone,
    /// It and another did not know of each other.
    Concurrent,
    /// Another was put by one who had seen it: a removal between them has left both.
    Outdone,
    /// Another has the same clock.
    Repeated,
}

/// A removal that waits until the map has seen all that it had seen.
#[derive(Clone, Debug, PartialEq, Eq, Hash)]
#[non_exhaustive]
pub struct Removal {
    pub clock: Clock,
    pub keys: Vec<u32>,
}

impl Map {
    /// The keys that have an entry, ascending.
    pub fn keys(&self) -> impl Iterator<Item = u32> + '_ {
        let mut last = None;
        let keys = self.of_kind(kind::ENTRY_DOT).map(|dot| dot.key);
        keys.filter(move |&key| last.replace(key) != Some(key))
    }

    /// Whether a key has an entry.
    pub fn contains_key(&self, key: u32) -> bool {
        self.keys().any(|present| present == key)
    }

    /// The entries, by key.
    ///
    /// ```
    /// use castribba::Map;
    ///
    /// let mut map = Map::new();
    /// map.apply(&map.update(1, 6, 60, 0)?)?;
    /// map.apply(&map.update(1, 5, 40, 0)?)?;
    /// assert!(map.contains_key(5) && !map.contains_key(7));
    /// assert_eq!(map.keys().collect::<Vec<_>>(), [5, 6]);
    /// let values = map.entries().flat_map(|entry| entry.values).map(|value| value.value);
    /// assert_eq!(values.collect::<Vec<_>>(), [40, 60]);
    /// # Ok::<(), castribba::Refusal>(())
    /// ```
    pub fn entries(&self) -> impl Iterator<Item = Entry> + '_ {
        self.keys().map(|key| Entry {
            key,
            clock: Clock::of(self.of_kind(kind::ENTRY_DOT).filter(|dot| dot.key == key)),
            values: self.values_with_clocks(key),
        })
    }

    /// The entry of a key.
    pub fn entry(&self, key: u32) -> Option<Entry> {
        self.entries().find(|entry| entry.key == key)
    }

    fn values_with_clocks(&self, key: u32) -> Vec<Value> {
        let values = self.of_kind(kind::VALUE).filter(|value| value.key == key);
        let with_clock = |value: Record| {
            let dots = self.of_kind(kind::VALUE_DOT);
            let own = dots.filter(|dot| dot.key == key && dot.index == value.index);
            Value { value: value.number, origin: value.actor, clock: Clock::of(own) }
        };
        values.map(with_clock).collect()
    }

    /// The removals that wait, in ascending order of their clocks.
    ///
    /// ```
    /// use castribba::Map;
    ///
    /// // a removal that arrives before the update that it removes
    /// let (mut ours, mut theirs) = (Map::new(), Map::new());
    /// ours.apply(&ours.update(1, 5, 40, 0)?)?;
    /// theirs.apply(&ours.withdraw(5)?)?;
    /// let waiting = theirs.waiting().next().expect("it waits");
    /// assert_eq!((waiting.keys, waiting.clock), (vec![5], ours.clock()));
    /// # Ok::<(), castribba::Refusal>(())
    /// ```
    pub fn waiting(&self) -> impl Iterator<Item = Removal> + '_ {
        let dots_of = |index| self.of_kind(kind::WAITING_DOT).filter(move |dot| dot.index == index);
        // indexes have no gap
        let present = (0..=u8::MAX).take_while(move |&index| dots_of(index).next().is_some());
        present.map(move |index| Removal {
            clock: Clock::of(dots_of(index)),
            keys: self
                .of_kind(kind::WAITING_KEY)
                .filter(|listed| listed.index == index)
                .map(|listed| listed.key)
                .collect(),
        })
    }
}

impl IntoIterator for &Map {
    type Item = Entry;
    type IntoIter = vec::IntoIter<Entry>;

    /// The entries, by key.
    fn into_iter(self) -> Self::IntoIter {
        self.entries().collect::<Vec<_>>().into_iter()
    }
}

impl Entry {
    /// The actors that can have written a value of this entry: those whose last update of the key the
    /// value's clock has at the same counter. An image does not say which of several it was; there is
    /// none where a removal has taken the writer's dot.
    pub fn writers(&self, value: &Value) -> impl Iterator<Item = u16> + '_ {
        let clock = value.clock.clone();
        let last = self.clock.dots().filter(move |&(actor, counter)| clock.get(actor) == counter);
        last.map(|(actor, _)| actor)
    }

    /// How the value at a place stands to the others of this entry.
    ///
    /// ```
    /// use castribba::{Map, Standing};
    ///
    /// let mut map = Map::new();
    /// map.apply(&Map::new().update(1, 5, 41, 0)?)?;
    /// assert_eq!(map.entry(5).unwrap().standing(0), Standing::Alone);
    /// map.apply(&Map::new().update(2, 5, 42, 0)?)?;
    /// assert_eq!(map.entry(5).unwrap().standing(0), Standing::Concurrent);
    /// # Ok::<(), castribba::Refusal>(())
    /// ```
    pub fn standing(&self, place: usize) -> Standing {
        let clock = &self.values[place].clock;
        let others = || self.values.iter().enumerate().filter(|other| other.0 != place);
        if others().any(|(_, other)| other.clock.covers(clock) && other.clock != *clock) {
            Standing::Outdone
        } else if others().any(|(_, other)| !clock.covers(&other.clock)) {
            Standing::Concurrent
        } else if others().any(|(_, other)| other.clock == *clock) {
            Standing::Repeated
        } else {
            Standing::Alone
        }
    }
}

/// Things with words between them: "1", "1 or 2", "1, 2 or 3".
struct Listed<T>(Vec<T>, &'static str);

impl<T: fmt::Display> fmt::Display for Listed<T> {
    fn fmt(&self, f: &mut fmt::Formatter<'_>) -> fmt::Result {
        for (place, thing) in self.0.iter().enumerate() {
            match self.0.len() - place {
                _ if place == 0 => write!(f, "{thing}")?,
                1 => write!(f, " {} {thing}", self.1)?,
                _ => write!(f, ", {thing}")?,
            }
        }
        Ok(())
    }
}

/// An origin in words behind a value: ", origin 7", or nothing for 0.
struct Origin(u16);

impl fmt::Display for Origin {
    fn fmt(&self, f: &mut fmt::Formatter<'_>) -> fmt::Result {
        match self.0 {
            0 => Ok(()),
            code => write!(f, ", origin {code}"),
        }
    }
}

/// Keys in words: "no key", "key 5", "keys 5 and 6".
struct Keys(Vec<u32>);

impl fmt::Display for Keys {
    fn fmt(&self, f: &mut fmt::Formatter<'_>) -> fmt::Result {
        match self.0.len() {
            0 => write!(f, "no key"),
            1 => write!(f, "key {}", self.0[0]),
            _ => write!(f, "keys {}", Listed(self.0.clone(), "and")),
        }
    }
}

impl fmt::Display for Clock {
    /// Each actor with its counter: `{1:2 3:1}`.
    fn fmt(&self, f: &mut fmt::Formatter<'_>) -> fmt::Result {
        let mut between = "{";
        for (actor, counter) in self.dots() {
            write!(f, "{between}{actor}:{counter}")?;
            between = " ";
        }
        write!(f, "{}", if between == "{" { "{}" } else { "}" })
    }
}

impl Entry {
    fn write_value(&self, f: &mut fmt::Formatter<'_>, place: usize) -> fmt::Result {
        let value = &self.values[place];
        let writers: Vec<u16> = self.writers(value).collect();
        write!(f, "{}", value.value)?;
        match writers.len() {
            0 => write!(f, " by an actor whose update was removed")?,
            _ => write!(f, " by actor {}", Listed(writers, "or"))?,
        }
        write!(f, "{}", Origin(value.origin))?;
        match self.standing(place) {
            Standing::Alone => Ok(()),
            Standing::Concurrent => write!(f, ", concurrent"),
            Standing::Outdone => write!(f, ", outdone by another"),
            Standing::Repeated => write!(f, ", with the clock of another"),
        }
    }
}

impl fmt::Display for Entry {
    /// One line for one value or none, and one more for each of several.
    fn fmt(&self, f: &mut fmt::Formatter<'_>) -> fmt::Result {
        write!(f, "key {}: ", self.key)?;
        match self.values.len() {
            0 => write!(f, "no value"),
            1 => self.write_value(f, 0),
            several => {
                write!(f, "{several} values")?;
                (0..several).try_for_each(|place| {
                    write!(f, "\n  ")?;
                    self.write_value(f, place)
                })
            }
        }
    }
}

impl fmt::Display for Removal {
    fn fmt(&self, f: &mut fmt::Formatter<'_>) -> fmt::Result {
        write!(f, "removal of {}, until {} is seen", Keys(self.keys.clone()), self.clock)
    }
}

impl fmt::Display for Map {
    /// What was seen, then the entries, then the removals that wait, a line each.
    ///
    /// ```
    /// use castribba::Map;
    ///
    /// let mut map = Map::new();
    /// map.apply(&Map::new().update(1, 5, 41, 0)?)?;
    /// map.apply(&Map::new().update(2, 5, 42, 0)?)?;
    /// map.apply(&map.update(2, 6, 60, 7)?)?;
    /// let shown = "\
    /// seen: {1:1 2:2}
    /// key 5: 2 values
    ///   41 by actor 1, concurrent
    ///   42 by actor 2, concurrent
    /// key 6: 60 by actor 2, origin 7";
    /// assert_eq!(map.to_string(), shown);
    /// # Ok::<(), castribba::Refusal>(())
    /// ```
    fn fmt(&self, f: &mut fmt::Formatter<'_>) -> fmt::Result {
        match self.clock() {
            nothing if nothing == Clock::new() => write!(f, "seen: nothing")?,
            clock => write!(f, "seen: {clock}")?,
        }
        if self.is_empty() {
            write!(f, "\nno entries")?;
        }
        self.entries().try_for_each(|entry| write!(f, "\n{entry}"))?;
        self.waiting().try_for_each(|removal| write!(f, "\nwaiting: {removal}"))
    }
}

impl fmt::Display for Operation {
    /// An update or a removal, in a line.
    ///
    /// ```
    /// use castribba::Map;
    ///
    /// let mut map = Map::new();
    /// let update = map.update(1, 5, 40, 0)?;
    /// map.apply(&update)?;
    /// assert_eq!(update.to_string(), "update 1 of actor 1: key 5 is 40, having seen {1:1}");
    /// assert_eq!(map.withdraw(5)?.to_string(), "removal of key 5 under {1:1}");
    /// # Ok::<(), castribba::Refusal>(())
    /// ```
    fn fmt(&self, f: &mut fmt::Formatter<'_>) -> fmt::Result {
        let clock_of = |kind| Clock::of(self.of_kind(kind));
        if let Some(head) = self.of_kind(kind::UPDATE).next() {
            let (counter, actor, key) = (head.number, head.actor, head.key);
            write!(f, "update {counter} of actor {actor}: key {key} is ")?;
            for put in self.of_kind(kind::PUT_VALUE) {
                write!(f, "{}{}", put.number, Origin(put.actor))?;
            }
            write!(f, ", having seen {}", clock_of(kind::PUT_DOT))
        } else {
            let keys = self.of_kind(kind::REMOVAL_KEY).map(|listed| listed.key).collect();
            write!(f, "removal of {} under {}", Keys(keys), clock_of(kind::REMOVAL_DOT))
        }
    }
}
