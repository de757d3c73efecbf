//! Registers: values in order, each with a non-empty clock.

use crate::{Clock, MOST_VALUES};

#[derive(Clone, Copy, Debug, PartialEq, Eq)]
pub struct Value {
    pub clock: Clock,
    pub value: u64,
    /// Who set it: it moves with the value and decides nothing.
    pub origin: u16,
}

impl Value {
    pub const NONE: Value = Value { clock: Clock::EMPTY, value: 0, origin: 0 };
}

/// A stored register has room for 4 values; one in work has room for 8 (4 and 4 merged, or 4 and
/// a put), since the limit is judged on the finished register only.
#[derive(Clone, Copy, Debug)]
pub struct Register<const ROOM: usize = MOST_VALUES> {
    pub values: [Value; ROOM],
    pub len: usize,
}

pub(crate) type WorkRegister = Register<{ 2 * MOST_VALUES }>;

impl<const ROOM: usize> Register<ROOM> {
    pub const EMPTY: Self = Register { values: [Value::NONE; ROOM], len: 0 };

    pub fn values(&self) -> &[Value] {
        &self.values[..self.len]
    }

    pub(crate) fn push(&mut self, value: &Value) {
        self.values[self.len] = *value;
        self.len += 1;
    }

    /// Takes over another register's values; None when they do not fit.
    pub(crate) fn load<const OTHER: usize>(&mut self, from: &Register<OTHER>) -> Option<()> {
        self.values.get_mut(..from.len)?.copy_from_slice(from.values());
        self.len = from.len;
        Some(())
    }

    pub fn put(&mut self, put: &Value) {
        if put.clock.is_empty() {
            return;
        }
        retain(&mut self.values, &mut self.len, |value| !put.clock.covers(&value.clock));
        if !self.values().iter().any(|value| put.clock.is_below(&value.clock)) {
            self.push(put);
        }
    }

    pub fn cut(&mut self, by: &Clock) {
        retain(&mut self.values, &mut self.len, |value| {
            value.clock.cut(by);
            !value.clock.is_empty()
        });
    }

    pub fn merge<const OTHER: usize>(&mut self, other: &Register<OTHER>) {
        retain(&mut self.values, &mut self.len, |ours| {
            !other.values().iter().any(|their| ours.clock.is_below(&their.clock))
        });
        let ours = self.len;
        for their in other.values() {
            // below or equal is covered
            if !self.values[..ours].iter().any(|own| own.clock.covers(&their.clock)) {
                self.push(their);
            }
        }
    }

    /// Equality ignores order: every value with its origin and clock occurs as often in the other.
    pub fn equals<const OTHER: usize>(&self, other: &Register<OTHER>) -> bool {
        let times = |values: &[Value], pair: &Value| values.iter().filter(|v| *v == pair).count();
        let mut pairs = self.values().iter().chain(other.values());
        pairs.all(|pair| times(self.values(), pair) == times(other.values(), pair))
    }
}

/// Keeps those of the first `len` items that pass, in order; each may be changed on the way.
pub(crate) fn retain<T: Copy>(
    items: &mut [T],
    len: &mut usize,
    mut stays: impl FnMut(&mut T) -> bool,
) {
    let mut kept = 0;
    for place in 0..*len {
        if stays(&mut items[place]) {
            if kept < place {
                items[kept] = items[place];
            }
            kept += 1;
        }
    }
    *len = kept;
}
