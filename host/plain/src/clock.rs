//! Clocks: up to eight dots, ascending by actor, no counter zero.

use crate::{number, MOST_DOTS};
use core::cmp::Ordering;

#[derive(Clone, Copy, Debug, PartialEq, Eq)]
#[repr(C)]
pub struct Dot {
    pub actor: u16,
    pub counter: u64,
}

/// Laid out as castribba.h's castribba_clock.
#[derive(Clone, Copy, Debug)]
#[repr(C)]
pub struct Clock {
    pub dots: [Dot; MOST_DOTS],
    pub len: usize,
}

impl PartialEq for Clock {
    fn eq(&self, other: &Clock) -> bool {
        self.dots() == other.dots()
    }
}

impl Eq for Clock {}

impl Clock {
    pub const EMPTY: Clock = Clock { dots: [Dot { actor: 0, counter: 0 }; MOST_DOTS], len: 0 };

    pub fn dots(&self) -> &[Dot] {
        &self.dots[..self.len]
    }

    pub fn is_empty(&self) -> bool {
        self.len == 0
    }

    /// An absent actor has 0.
    pub fn counter(&self, actor: u16) -> u64 {
        match self.dots().iter().find(|dot| dot.actor == actor) {
            Some(dot) => dot.counter,
            None => 0,
        }
    }

    /// Every counter of `other` is at most ours.
    pub fn covers(&self, other: &Clock) -> bool {
        let mut ours = self.dots().iter().peekable();
        other.dots().iter().all(|dot| {
            while ours.next_if(|own| own.actor < dot.actor).is_some() {}
            match ours.peek() {
                Some(own) => own.actor == dot.actor && own.counter >= dot.counter,
                None => false,
            }
        })
    }

    /// None when neither covers the other.
    pub fn compare(&self, other: &Clock) -> Option<Ordering> {
        match (self.covers(other), other.covers(self)) {
            (true, true) => Some(Ordering::Equal),
            (true, false) => Some(Ordering::Greater),
            (false, true) => Some(Ordering::Less),
            (false, false) => None,
        }
    }

    /// Strictly below: covered, and not equal.
    pub fn is_below(&self, other: &Clock) -> bool {
        other.covers(self) && self != other
    }

    /// The order of waiting clocks: dot by dot, actor before counter, a prefix first.
    pub fn list_order(&self, other: &Clock) -> Ordering {
        self.dots()
            .iter()
            .map(|dot| (dot.actor, dot.counter))
            .cmp(other.dots().iter().map(|dot| (dot.actor, dot.counter)))
    }

    /// Deletes each dot whose counter is at most `by`'s.
    pub fn cut(&mut self, by: &Clock) {
        let mut cutters = by.dots().iter().peekable();
        let mut kept = 0;
        for place in 0..self.len {
            let dot = self.dots[place];
            while cutters.next_if(|cutter| cutter.actor < dot.actor).is_some() {}
            let goes = match cutters.peek() {
                Some(cutter) => cutter.actor == dot.actor && cutter.counter >= dot.counter,
                None => false,
            };
            if !goes {
                self.dots[kept] = dot;
                kept += 1;
            }
        }
        self.len = kept;
    }

    /// The larger counter per actor; None when more than eight actors are left.
    pub fn join(&self, other: &Clock) -> Option<Clock> {
        let mut joined = Clock::EMPTY;
        let (mut left, mut right) = (self.dots(), other.dots());
        while let (Some(a), Some(b)) = (left.first(), right.first()) {
            let dot = match a.actor.cmp(&b.actor) {
                Ordering::Less => *a,
                Ordering::Greater => *b,
                Ordering::Equal => Dot { actor: a.actor, counter: a.counter.max(b.counter) },
            };
            if a.actor <= dot.actor {
                left = &left[1..];
            }
            if b.actor <= dot.actor {
                right = &right[1..];
            }
            joined.push(dot)?;
        }
        for dot in left.iter().chain(right) {
            joined.push(*dot)?;
        }
        Some(joined)
    }

    /// The dots with equal counters in both.
    pub fn common(&self, other: &Clock) -> Clock {
        let mut common = Clock::EMPTY;
        let mut theirs = other.dots().iter().peekable();
        for dot in self.dots() {
            while theirs.next_if(|their| their.actor < dot.actor).is_some() {}
            if theirs.peek() == Some(&dot) {
                common.dots[common.len] = *dot;
                common.len += 1;
            }
        }
        common
    }

    /// Takes effect only if the counter is larger; None, and nothing changed, for a ninth dot.
    pub fn add(&mut self, dot: Dot) -> Option<()> {
        let place = self.dots().iter().take_while(|own| own.actor < dot.actor).count();
        if place < self.len && self.dots[place].actor == dot.actor {
            self.dots[place].counter = self.dots[place].counter.max(dot.counter);
        } else if dot.counter > 0 {
            if self.len == MOST_DOTS {
                return None;
            }
            self.dots.copy_within(place..self.len, place + 1);
            self.dots[place] = dot;
            self.len += 1;
        }
        Some(())
    }

    /// Adds a dot of the highest actor; None when there is no room.
    pub(crate) fn push(&mut self, dot: Dot) -> Option<()> {
        *self.dots.get_mut(self.len)? = dot;
        self.len += 1;
        Some(())
    }

    /// Deletes each dot whose actor `by` lacks, and lowers the others to its counters.
    pub(crate) fn lower(&mut self, by: &Clock) {
        let mut kept = 0;
        for place in 0..self.len {
            let Dot { actor, counter } = self.dots[place];
            let counter = counter.min(by.counter(actor));
            if counter > 0 {
                self.dots[kept] = Dot { actor, counter };
                kept += 1;
            }
        }
        self.len = kept;
    }

    /// What is wrong with a clock that is lent with any content.
    pub(crate) fn judge(&self) -> Result<(), u32> {
        if self.len > MOST_DOTS {
            return Err(number::IMAGE_OVER_LIMIT);
        }
        let ascends = self.dots().windows(2).all(|pair| pair[0].actor < pair[1].actor);
        if !ascends || self.dots().iter().any(|dot| dot.counter == 0) {
            return Err(number::BAD_FORM);
        }
        Ok(())
    }

    /// The controller's own clock, lent with any content, advanced by one dot; with effect, the
    /// places behind `len` become zero.
    pub fn advance(&mut self, dot: Dot) -> Result<(), u32> {
        self.judge()?;
        let before = *self;
        self.add(dot).ok_or(number::OVER_DOTS)?;
        if *self != before {
            self.dots[self.len..].fill(Dot { actor: 0, counter: 0 });
        }
        Ok(())
    }
}
