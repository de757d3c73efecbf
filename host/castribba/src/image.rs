//! Maps, operations and clocks that own their image.

use alloc::vec;
use alloc::vec::Vec;
use core::fmt;

use crate::slices::{self, LentClock, LentDot};
use crate::{kind, Difference, Differences, Ready, Record, Refusal, Rejected};
use crate::{LONGEST_DIFFERENCES, LONGEST_MAP, LONGEST_OPERATION};

/// What a call writes, given a buffer in which its longest answer fits.
fn written(
    longest: usize,
    call: impl FnOnce(&mut [u8]) -> Result<usize, Refusal>,
) -> Result<Vec<u8>, Refusal> {
    let mut out = vec![0; longest];
    let len = call(&mut out)?;
    out.truncate(len);
    Ok(out)
}

/// The parts that the three have in common.
macro_rules! image {
    ($name:ident) => {
        impl $name {
            /// Its bytes, to be stored or sent.
            pub fn as_image(&self) -> &[u8] {
                &self.0
            }

            /// Its records, in order.
            pub fn records(&self) -> impl Iterator<Item = Record> + '_ {
                Record::all_of(&self.0)
            }

            /// Its records of one kind, in order.
            pub fn of_kind(&self, kind: u8) -> impl Iterator<Item = Record> + '_ {
                self.records().filter(move |record| record.kind == kind)
            }
        }

        impl fmt::Debug for $name {
            /// A line a record: kind, index, actor, key and number.
            fn fmt(&self, f: &mut fmt::Formatter<'_>) -> fmt::Result {
                writeln!(f, stringify!($name))?;
                self.records().try_for_each(|record| writeln!(f, "{record}"))
            }
        }
    };
}

/// A settings map.
///
/// Two maps are equal when their images are: with the same values side by side in another order,
/// or with other clocks of values, they differ. [`Map::agrees_with`] tells whether two drives have the
/// same settings.
#[derive(Clone, PartialEq, Eq, Hash, Default)]
pub struct Map(Vec<u8>);

/// Which map [`Map::merge_and_choose`] has kept.
#[derive(Clone, Copy, Debug, PartialEq, Eq, Hash)]
pub enum Kept {
    /// Theirs has all that ours has.
    Theirs,
    /// Ours has all that theirs has.
    Ours,
    /// The two maps merged.
    Merged,
    /// Ours, since nothing tells whether the merged one is right: ask for the operations that it lacks.
    OursAndAsk,
}

/// An edit that can be sent to other maps: an update or a removal.
#[derive(Clone, PartialEq, Eq, Hash)]
#[must_use = "an operation changes nothing until it is applied"]
pub struct Operation(Vec<u8>);

/// How many operations of each actor were seen.
#[derive(Clone, PartialEq, Eq, Hash, Default)]
pub struct Clock(Vec<u8>);

image!(Map);
image!(Operation);
image!(Clock);

impl Map {
    /// The empty map.
    pub fn new() -> Map {
        Map::default()
    }

    /// The map that an image holds, refused with 1, 2 or 3 where it holds none.
    ///
    /// ```
    /// use castribba::{Map, Refusal};
    ///
    /// assert_eq!(Map::from_image(&[]), Ok(Map::new()));
    /// assert_eq!(Map::from_image(&[1; 15]), Err(Refusal::Malformed));
    /// ```
    pub fn from_image(image: &[u8]) -> Result<Map, Refusal> {
        slices::len(image)?;
        Ok(Map(image.to_vec()))
    }

    /// The map that a call writes.
    pub(crate) fn written(
        call: impl FnOnce(&mut [u8]) -> Result<usize, Refusal>,
    ) -> Result<Map, Refusal> {
        written(LONGEST_MAP, call).map(Map)
    }

    /// Applies an operation. One that was seen before changes nothing.
    ///
    /// It does not ask whether the operation is the next, and an update that is not may lose settings or
    /// part the drives for good ([why](crate#1-ask-before-an-update-is-applied)): [`Map::ready`] tells, and
    /// [`Map::feed`] does both.
    pub fn apply(&mut self, op: &Operation) -> Result<(), Refusal> {
        self.0 = written(LONGEST_MAP, |out| slices::apply(&self.0, &op.0, out))?;
        Ok(())
    }

    /// Whether an operation may be applied: the guard, to be asked before every update. A removal may
    /// always. It judges no limit, so that [`Map::apply`] may still be refused.
    ///
    /// ```
    /// use castribba::{Map, Ready};
    ///
    /// let (mut ours, mut theirs) = (Map::new(), Map::new());
    /// let first = ours.update(1, 5, 40, 0)?;
    /// ours.apply(&first)?;
    /// theirs.apply(&first)?;
    /// // made by one who had seen the first
    /// let second = theirs.update(2, 6, 60, 0)?;
    /// let mut reader = Map::new();
    /// assert_eq!(reader.ready(&second), Ready::Hold { actor: 1, counter: 1 });
    /// reader.apply(&first)?;
    /// assert_eq!(reader.ready(&second), Ready::Next);
    /// assert_eq!(reader.ready(&first), Ready::Seen);
    /// assert_eq!(reader.ready(&ours.withdraw(5)?), Ready::Next);
    /// # Ok::<(), castribba::Refusal>(())
    /// ```
    pub fn ready(&self, op: &Operation) -> Ready {
        slices::ready(&self.0, &op.0).expect("the images were judged when they were made")
    }

    /// Applies an operation where the guard says that it is the next, and answers what the guard said:
    /// after anything but [`Ready::Next`] the map is as it was.
    ///
    /// ```
    /// use castribba::{Map, Operation, Ready};
    ///
    /// // operations as they come, in any order and twice: what is held is asked about again
    /// fn feed_all(map: &mut Map, mut held: Vec<Operation>) -> Result<Vec<Operation>, castribba::Refusal> {
    ///     loop {
    ///         let before = held.len();
    ///         let mut left = Vec::new();
    ///         for op in held {
    ///             if let Ready::Hold { .. } = map.feed(&op)? {
    ///                 left.push(op);
    ///             }
    ///         }
    ///         if left.len() == before {
    ///             return Ok(left);
    ///         }
    ///         held = left;
    ///     }
    /// }
    ///
    /// let (mut ours, mut theirs) = (Map::new(), Map::new());
    /// let first = ours.update(1, 5, 40, 0)?;
    /// let _ = ours.feed(&first)?;
    /// let second = ours.update(1, 6, 60, 0)?;
    /// let _ = ours.feed(&second)?;
    /// let left = feed_all(&mut theirs, vec![second.clone(), first, second])?;
    /// assert!(left.is_empty() && theirs.agrees_with(&ours));
    /// # Ok::<(), castribba::Refusal>(())
    /// ```
    pub fn feed(&mut self, op: &Operation) -> Result<Ready, Refusal> {
        let ready = self.ready(op);
        if ready == Ready::Next {
            self.apply(op)?;
        }
        Ok(ready)
    }

    /// Whether two maps have the same settings: the same clock, entry clocks and waiting removals, and under
    /// each key the same values with their origins, each as often. Drives that were given the same
    /// operations by the rules agree in this; the clocks of values and their order may differ.
    ///
    /// ```
    /// use castribba::Map;
    ///
    /// // ours withdraws bay 5, while theirs sets it again
    /// let (mut ours, mut theirs) = (Map::new(), Map::new());
    /// let first = ours.update(1, 5, 10, 0)?;
    /// let _ = (ours.feed(&first)?, theirs.feed(&first)?);
    /// let removal = ours.withdraw(5)?;
    /// let again = theirs.update(2, 5, 40, 0)?;
    /// for op in [&removal, &again] {
    ///     let _ = ours.feed(op)?;
    /// }
    /// for op in [&again, &removal] {
    ///     let _ = theirs.feed(op)?;
    /// }
    /// assert!(ours.agrees_with(&theirs) && ours != theirs);
    /// # Ok::<(), castribba::Refusal>(())
    /// ```
    pub fn agrees_with(&self, other: &Map) -> bool {
        fn values(map: &Map) -> Vec<(u32, u64, u16)> {
            let values = map.of_kind(kind::VALUE);
            let mut values: Vec<_> = values.map(|v| (v.key, v.number, v.actor)).collect();
            values.sort_unstable();
            values
        }
        self.frame().eq(other.frame()) && values(self) == values(other)
    }

    /// Merges another map into this one where the result is right, else keeps the one of the two maps that is,
    /// as rule 4 has it. Both must have been fed by [rule 1](crate#1-ask-before-an-update-is-applied), and
    /// merged by this alone. A search found no exception to it; it is not proved.
    ///
    /// ```
    /// use castribba::{Kept, Map};
    ///
    /// let (mut ours, mut theirs) = (Map::new(), Map::new());
    /// ours.apply(&ours.update(1, 5, 40, 0)?)?;
    /// theirs.apply(&theirs.update(2, 6, 60, 0)?)?;
    /// assert_eq!(ours.merge_and_choose(&theirs)?, Kept::Merged);
    /// assert_eq!(theirs.merge_and_choose(&ours)?, Kept::Theirs);
    /// // apart, both set one bay: nothing tells whether both values are right
    /// ours.apply(&ours.update(1, 5, 41, 0)?)?;
    /// theirs.apply(&theirs.update(2, 5, 42, 0)?)?;
    /// assert_eq!(ours.merge_and_choose(&theirs)?, Kept::OursAndAsk);
    /// assert_eq!(ours.values(5), [41]);
    /// # Ok::<(), castribba::Refusal>(())
    /// ```
    pub fn merge_and_choose(&mut self, theirs: &Map) -> Result<Kept, Refusal> {
        let mut merged = self.clone();
        merged.merge(theirs)?;
        if merged.frame().eq(theirs.frame()) {
            *self = theirs.clone();
            return Ok(Kept::Theirs);
        }
        if merged.frame().eq(self.frame()) {
            return Ok(Kept::Ours);
        }
        if merged.of_kind(kind::VALUE).any(|value| value.index > 0) {
            return Ok(Kept::OursAndAsk);
        }
        *self = merged;
        Ok(Kept::Merged)
    }

    /// The records of the clock, the entry clocks and the waiting removals: all but those of values.
    fn frame(&self) -> impl Iterator<Item = Record> + '_ {
        self.records().filter(|record| !matches!(record.kind, kind::VALUE | kind::VALUE_DOT))
    }

    /// Merges another map into this one. [`Map::validate_merge`] tells beforehand of an actor number
    /// that was used twice, which would lose settings here.
    ///
    /// Old values may come back by it, overwritten ones and withdrawn ones
    /// ([why](crate#4-catch-up-by-operations)): drives catch up by operations, or by
    /// [`Map::merge_and_choose`].
    pub fn merge(&mut self, other: &Map) -> Result<(), Refusal> {
        self.0 = written(LONGEST_MAP, |out| slices::merge(&self.0, &other.0, out))?;
        Ok(())
    }

    /// Forgets all that the clock has seen, counters too: reset all maps at once, by the whole clock of a
    /// map or the floor of some, or none ([why](crate#5-reset-all-maps-at-once)).
    ///
    /// ```
    /// use castribba::Map;
    ///
    /// let mut map = Map::new();
    /// map.apply(&map.update(1, 5, 40, 0)?)?;
    /// map.reset_remove(&map.clock())?;
    /// assert_eq!(map, Map::new());
    /// # Ok::<(), castribba::Refusal>(())
    /// ```
    pub fn reset_remove(&mut self, clock: &Clock) -> Result<(), Refusal> {
        self.0 = written(LONGEST_MAP, |out| slices::reset_remove(&self.0, &clock.0, out))?;
        Ok(())
    }

    /// How many dots [`Map::apply`] would delete from entry clocks: 0 for an update, also where it sets off
    /// a waiting removal, for a removal that only waits, and for an operation that is refused.
    ///
    /// ```
    /// use castribba::Map;
    ///
    /// let mut map = Map::new();
    /// map.apply(&map.update(1, 5, 40, 0)?)?;
    /// let removal = map.withdraw(5)?;
    /// assert_eq!(map.apply_deleted(&removal), 1);
    /// map.apply(&removal)?;
    /// assert_eq!(map.apply_deleted(&removal), 0);
    /// # Ok::<(), castribba::Refusal>(())
    /// ```
    pub fn apply_deleted(&self, op: &Operation) -> usize {
        slices::apply_deleted(&self.0, &op.0, LONGEST_MAP) as usize
    }

    /// How many dots [`Map::reset_remove`] would delete from entry clocks: 0 where it is refused.
    ///
    /// ```
    /// use castribba::Map;
    ///
    /// let mut map = Map::new();
    /// map.apply(&map.update(1, 5, 40, 0)?)?;
    /// map.apply(&map.update(1, 6, 60, 0)?)?;
    /// assert_eq!(map.reset_remove_deleted(&map.clock()), 2);
    /// # Ok::<(), castribba::Refusal>(())
    /// ```
    pub fn reset_remove_deleted(&self, clock: &Clock) -> usize {
        slices::reset_remove_deleted(&self.0, &clock.0, LONGEST_MAP) as usize
    }

    /// Makes the operation by which an actor puts a value under a key; the map stays as it is.
    ///
    /// The origin says who set the value: a code of the caller's, 0 for none. It moves with its value and
    /// decides nothing.
    ///
    /// ```
    /// use castribba::Map;
    ///
    /// let mut map = Map::new();
    /// map.apply(&map.update(1, 5, 40, 7)?)?;
    /// let entry = map.entry(5).expect("it was set");
    /// assert_eq!((entry.values[0].value, entry.values[0].origin), (40, 7));
    /// # Ok::<(), castribba::Refusal>(())
    /// ```
    pub fn update(
        &self,
        actor: u16,
        key: u32,
        value: u64,
        origin: u16,
    ) -> Result<Operation, Refusal> {
        let call = |out: &mut [u8]| slices::update(&self.0, actor, key, value, origin, out);
        written(LONGEST_OPERATION, call).map(Operation)
    }

    /// Makes the operation that withdraws a key: it removes there all that this map has seen, and nothing
    /// that it has not seen. It may be applied at any time, and again. (`castribba_rm_read_ctx`.)
    ///
    /// ```
    /// use castribba::Map;
    ///
    /// // the removal arrives first, and waits for the update that it removes
    /// let (mut ours, mut theirs) = (Map::new(), Map::new());
    /// let pick = ours.update(1, 5, 40, 0)?;
    /// ours.apply(&pick)?;
    /// theirs.apply(&ours.withdraw(5)?)?;
    /// theirs.apply(&pick)?;
    /// assert!(theirs.is_empty());
    /// # Ok::<(), castribba::Refusal>(())
    /// ```
    #[doc(alias = "rm_read_ctx")]
    #[doc(alias = "remove")]
    pub fn withdraw(&self, key: u32) -> Result<Operation, Refusal> {
        written(LONGEST_OPERATION, |out| slices::rm_read_ctx(&self.0, key, out)).map(Operation)
    }

    /// Makes the operation that removes the dots of a key's entry, and no others. (`castribba_rm_get`.)
    ///
    /// **It does not withdraw a value** where more than one actor writes the map: one whose writer had seen
    /// another update keeps that dot, and stands on some drives ([why](crate#2-withdraw-by-withdraw)).
    #[doc(alias = "rm_get")]
    pub fn remove_entry(&self, key: u32) -> Result<Operation, Refusal> {
        written(LONGEST_OPERATION, |out| slices::rm_get(&self.0, key, out)).map(Operation)
    }

    /// The map clock and one entry alone.
    pub fn get(&self, key: u32) -> Map {
        let entry = written(LONGEST_MAP, |out| slices::get(&self.0, key, out));
        Map(entry.expect("a part of a map is within every limit"))
    }

    /// The values under a key, those that did not know of each other side by side.
    pub fn values(&self, key: u32) -> Vec<u64> {
        self.get(key).of_kind(kind::VALUE).map(|record| record.number).collect()
    }

    /// The map clock: what this map has seen.
    pub fn clock(&self) -> Clock {
        Clock::of(self.of_kind(kind::CLOCK_DOT))
    }

    /// What differs from another map, ascending by key: entries alone, whose values may stand in any order.
    ///
    /// ```
    /// use castribba::{Class, Difference, Map};
    ///
    /// let mut map = Map::new();
    /// map.apply(&map.update(1, 5, 40, 0)?)?;
    /// assert!(map.differences(&Map::new()).eq([Difference { class: Class::OnlyFirst, key: 5 }]));
    /// assert_eq!(map.differences(&map).next(), None);
    /// # Ok::<(), castribba::Refusal>(())
    /// ```
    pub fn differences(&self, other: &Map) -> impl Iterator<Item = Difference> {
        let report =
            written(LONGEST_DIFFERENCES, |out| slices::differences(&self.0, &other.0, out))
                .expect("both images were judged when the maps were made");
        Differences::of(&report).collect::<Vec<Difference>>().into_iter()
    }

    /// The number of entries.
    pub fn len(&self) -> usize {
        slices::len(&self.0).expect("the image was judged when the map was made")
    }

    /// Whether there is no entry.
    pub fn is_empty(&self) -> bool {
        self.len() == 0
    }

    /// Whether neither the map clock nor the entry of the update's key misses updates of its actor:
    /// each must be at most one behind, and [`Refusal::Gap`] says what the first that is not has missed.
    /// A removal passes.
    ///
    /// It is not the guard: an actor's next update is refused too, when it is on a key that the actor did
    /// not write last, and what the writer had seen of others is not asked. [`Map::ready`] is.
    ///
    /// ```
    /// use castribba::{Map, Refusal};
    ///
    /// let (mut ours, mut theirs) = (Map::new(), Map::new());
    /// let first = ours.update(1, 5, 40, 0)?;
    /// ours.apply(&first)?;
    /// let second = ours.update(1, 6, 60, 0)?;
    /// assert_eq!(theirs.validate_op(&second), Err(Refusal::Gap { start: 1, end: 2 }));
    /// // the first one comes, but not on key 6
    /// theirs.apply(&first)?;
    /// assert_eq!(theirs.validate_op(&second), Err(Refusal::Gap { start: 1, end: 2 }));
    /// # Ok::<(), Refusal>(())
    /// ```
    pub fn validate_op(&self, op: &Operation) -> Result<(), Refusal> {
        slices::validate_op(&self.0, &op.0)
    }

    /// Whether no dot stands under different keys in the two maps, as [`Refusal::DoubleSpent`] says:
    /// then an actor number was used twice, or one map alone was reset, and a merge would drop both.
    /// Under the same key it is not seen.
    pub fn validate_merge(&self, other: &Map) -> Result<(), Refusal> {
        slices::validate_merge(&self.0, &other.0)
    }

    /// Whether these operations, one after another, bring this map to the other, byte for byte.
    /// [`slices::catch_up`] takes images of every content.
    pub fn catch_up(&self, other: &Map, operations: &[Operation]) -> Result<(), Rejected> {
        let images: Vec<&[u8]> = operations.iter().map(Operation::as_image).collect();
        slices::catch_up(&self.0, &other.0, &images.concat())
    }
}

impl Operation {
    /// The operation that an image holds, refused with 1, 2 or 3 where it holds none.
    pub fn from_image(image: &[u8]) -> Result<Operation, Refusal> {
        // the image is judged before its place in an order is, and here there is none
        match slices::validate_op(&[], image) {
            Ok(()) | Err(Refusal::Gap { .. }) => Ok(Operation(image.to_vec())),
            Err(refusal) => Err(refusal),
        }
    }

    /// An update's own dot, its actor and counter; a removal has none. [`Map::ready`] tells whether it may be
    /// applied.
    ///
    /// ```
    /// use castribba::Map;
    ///
    /// let map = Map::new();
    /// assert_eq!(map.update(1, 5, 40, 0)?.dot(), Some((1, 1)));
    /// assert_eq!(map.withdraw(5)?.dot(), None);
    /// # Ok::<(), castribba::Refusal>(())
    /// ```
    pub fn dot(&self) -> Option<(u16, u64)> {
        self.of_kind(kind::UPDATE).next().map(|head| (head.actor, head.number))
    }
}

impl Clock {
    /// The empty clock.
    pub fn new() -> Clock {
        Clock::default()
    }

    /// The clock that an image holds, refused with 1, 2 or 3 where it holds none.
    pub fn from_image(image: &[u8]) -> Result<Clock, Refusal> {
        // the empty map stays empty under every clock: the answer needs no room
        slices::reset_remove(&[], image, &mut [])?;
        Ok(Clock(image.to_vec()))
    }

    /// The clock of some dots, whatever they belong to in an image that was judged: there they are no
    /// more than a clock may have, in order.
    pub(crate) fn of(dots: impl Iterator<Item = Record>) -> Clock {
        let records = dots.map(|dot| Record { kind: kind::CLOCK_DOT, index: 0, key: 0, ..dot });
        Clock(records.flat_map(Record::to_bytes).collect())
    }

    /// The counter of an actor: 0 where the clock has none.
    ///
    /// ```
    /// let mut clock = castribba::Clock::new();
    /// clock.advance(1, 7)?;
    /// assert_eq!((clock.get(1), clock.get(2)), (7, 0));
    /// # Ok::<(), castribba::Refusal>(())
    /// ```
    pub fn get(&self, actor: u16) -> u64 {
        self.dots().find(|dot| dot.0 == actor).map_or(0, |dot| dot.1)
    }

    /// Whether this clock has seen all that the other has.
    pub fn covers(&self, other: &Clock) -> bool {
        other.dots().all(|(actor, counter)| counter <= self.get(actor))
    }

    /// The dots, as actor and counter.
    pub fn dots(&self) -> impl Iterator<Item = (u16, u64)> + '_ {
        self.records().map(|record| (record.actor, record.number))
    }

    /// Advances the clock by one dot, which takes effect only if its counter is larger.
    ///
    /// ```
    /// use castribba::Clock;
    ///
    /// let mut clock = Clock::new();
    /// clock.advance(2, 1)?;
    /// clock.advance(1, 7)?;
    /// clock.advance(1, 6)?;
    /// assert_eq!(clock.dots().collect::<Vec<_>>(), [(1, 7), (2, 1)]);
    /// # Ok::<(), castribba::Refusal>(())
    /// ```
    pub fn advance(&mut self, actor: u16, counter: u64) -> Result<(), Refusal> {
        let mut lent = self.lent();
        slices::clock_advance(&mut lent, actor, counter)?;
        *self = Clock::of_lent(&lent);
        Ok(())
    }

    /// What all of some clocks have seen: for each actor the smallest counter. No clock gives the empty one;
    /// more than 64 are refused with 18.
    ///
    /// ```
    /// use castribba::Clock;
    ///
    /// let (mut one, mut two) = (Clock::new(), Clock::new());
    /// one.advance(1, 3)?;
    /// two.advance(1, 2)?;
    /// two.advance(2, 7)?;
    /// assert!(Clock::floor(&[one, two])?.dots().eq([(1, 2)]));
    /// # Ok::<(), castribba::Refusal>(())
    /// ```
    pub fn floor(peers: &[Clock]) -> Result<Clock, Refusal> {
        let lent: Vec<LentClock> = peers.iter().map(Clock::lent).collect();
        slices::floor(&lent).map(|floor| Clock::of_lent(&floor))
    }

    fn lent(&self) -> LentClock {
        let mut lent = LentClock::default();
        for (actor, counter) in self.dots() {
            lent.dots[lent.len] = LentDot { actor, counter };
            lent.len += 1;
        }
        lent
    }

    fn of_lent(lent: &LentClock) -> Clock {
        let dots = lent.dots[..lent.len].iter();
        Clock::of(dots.map(|&LentDot { actor, counter }| Record {
            kind: kind::CLOCK_DOT,
            index: 0,
            actor,
            key: 0,
            number: counter,
        }))
    }
}
