//! Runs calls of the implementation under test and compares everything that they did.

use crate::asks::Asks;
use crate::generate::{any_origin, near_next};
use crate::panics::caught;
use crate::pieces::Feeder;
use crate::question::{dump, Call, Question};
use crate::random::Random;
use calls::{length_of, number_of, Calls, LentClock, LentDot, LONGEST_MAP};
use oracle::expected::{self, Answer};
use oracle::image::{operation_image, read_map};
use std::collections::BTreeMap;

/// Bytes on each side of a buffer that no call may touch.
pub(crate) const GUARD: usize = 48;
/// Differences printed in full, made small; the others are only counted.
pub(crate) const PRINTED: u64 = 5;
/// Cases between two lines of progress.
const PROGRESS: u64 = 100_000;

pub struct Checker<'a> {
    calls: &'a dyn Calls,
    random: Random,
    met: BTreeMap<(Call, u32), u64>,
    feeder: Feeder<'a>,
    pub cases: u64,
    pub differences: u64,
}

/// What the bytes around an answer look like before a call.
pub(crate) fn pattern(place: usize) -> u8 {
    (place as u8).wrapping_mul(37) ^ 0xA5
}

/// The oracle's answer; a panic inside the published crate is a disagreement too.
pub fn oracle_answer(question: &Question) -> Result<Answer, String> {
    caught(|| question.expected()).unwrap_or_else(|| Err("the published crate panics".to_string()))
}

impl<'a> Checker<'a> {
    pub fn new(calls: &'a dyn Calls, seed: u64) -> Checker<'a> {
        Checker {
            calls,
            // other numbers than the inputs are made from
            random: Random::new(!seed),
            met: BTreeMap::new(),
            feeder: Feeder::new(calls, seed),
            cases: 0,
            differences: 0,
        }
    }

    fn count(&mut self, call: Call, number: u32) {
        self.cases += 1;
        *self.met.entry((call, number)).or_default() += 1;
        if self.cases % PROGRESS == 0 {
            println!("{} cases so far, {} differences", self.cases, self.differences);
        }
    }

    /// Buffer lengths around the answer's, and others.
    fn rooms(&mut self, answer: &Answer) -> Vec<usize> {
        let length = answer.bytes.len();
        let any = match self.random.below(5) {
            0 => 0,
            1 => LONGEST_MAP,
            2 => self.random.below(64),
            3 => length + self.random.between(1, 40),
            _ => self.random.below(length + 1),
        };
        if answer.number != 0 {
            return vec![any];
        }
        let around = vec![length, length.saturating_sub(1), length + 1, any];
        if self.random.one_in(8) {
            around
        } else if self.random.one_in(2) {
            vec![length]
        } else {
            vec![*self.random.pick(&around)]
        }
    }

    /// What is wrong with the implementation's answer, if anything: number, length, carried
    /// numbers, every byte written, every byte left alone.
    fn fault(&mut self, question: &Question, expected: &Answer, room: usize) -> Option<String> {
        // at odd addresses: a call must not lean on alignment
        let shifts: Vec<usize> = question.images.iter().map(|_| self.random.below(16)).collect();
        let copies: Vec<Vec<u8>> = question
            .images
            .iter()
            .zip(&shifts)
            .map(|(image, shift)| {
                let mut copy: Vec<u8> = (0..*shift).map(pattern).collect();
                copy.extend_from_slice(image);
                copy
            })
            .collect();
        let lent: Vec<&[u8]> = copies.iter().zip(&shifts).map(|(c, shift)| &c[*shift..]).collect();
        let start = GUARD + self.random.below(16);
        let mut buffer: Vec<u8> = (0..start + room + GUARD).map(pattern).collect();

        let calls = self.calls;
        let asked = caught(|| question.ask(calls, &lent, &mut buffer[start..start + room]));
        let Some((word, carried)) = asked else {
            return Some(format!("panics, for {}", expected.number));
        };
        let (number, length) = (number_of(word), length_of(word));
        if (number, length) != (expected.number, expected.bytes.len()) {
            return Some(format!(
                "answers {number} with length {length}, for {} with length {}, in a buffer of {room}",
                expected.number,
                expected.bytes.len()
            ));
        }
        if carried != expected.carried {
            return Some(format!("carries {carried:?}, for {:?}", expected.carried));
        }
        let written = start..start + length;
        if buffer[written.clone()] != expected.bytes[..] {
            let (got, wanted) = (dump(&buffer[written]), dump(&expected.bytes));
            return Some(format!("writes\n{got}\n  for\n{wanted}"));
        }
        let touched = (0..buffer.len())
            .find(|place| !written.contains(place) && buffer[*place] != pattern(*place));
        if let Some(place) = touched {
            let place = place as i64 - start as i64;
            return Some(format!("touches byte {place} of a buffer of {room}, length {length}"));
        }
        if lent.iter().zip(&question.images).any(|(lent, image)| *lent != &image[..]) {
            return Some("changes an input".to_string());
        }
        None
    }

    /// A fault in any of the buffers around the answer.
    fn fault_in_any_room(&mut self, question: &Question) -> Option<String> {
        let full = match oracle_answer(question) {
            Ok(full) => full,
            Err(disagreement) => return Some(disagreement),
        };
        let length = full.bytes.len();
        [length, length.saturating_sub(1), length + 40]
            .into_iter()
            .find_map(|room| self.fault(question, &full.in_room(room), room))
    }

    fn differs(&mut self, question: &Question, fault: String) {
        self.differences += 1;
        if self.differences > PRINTED {
            return;
        }
        // leave records out for as long as something is still wrong
        let (mut smallest, mut fault) = (question.clone(), fault);
        loop {
            let smaller = (0..smallest.images.len()).find_map(|image| {
                (0..smallest.images[image].len() / 16).find_map(|record| {
                    let mut smaller = smallest.clone();
                    smaller.images[image].drain(record * 16..record * 16 + 16);
                    self.fault_in_any_room(&smaller).map(|fault| (smaller, fault))
                })
            });
            match smaller {
                Some((smaller, its_fault)) => (smallest, fault) = (smaller, its_fault),
                None => break,
            }
        }
        println!("DIFFERENCE in {smallest}\n  {fault}\n");
    }

    /// The question's map images, in pieces.
    fn feed(&mut self, question: &Question) {
        let maps = if question.call.takes_two_maps() { 2 } else { 1 };
        for (place, image) in question.images.iter().take(maps).enumerate() {
            self.feeder.feed(place, image, &mut self.met);
        }
    }

    /// The longest images, in pieces.
    pub fn feed_longest(&mut self) {
        self.feeder.feed_longest(&mut self.met);
    }

    /// From here on a larger share of the images is fed in pieces.
    pub fn feed_more(&mut self) {
        self.feeder.feed_more();
    }

    /// How many images came in pieces, and how many of them made a difference.
    pub fn fed(&self) -> (u64, u64) {
        (self.feeder.images, self.feeder.differences)
    }

    /// How often each number was met per call.
    pub fn print_table(&self) {
        let cell = |call: Call, number: u32| match self.met.get(&(call, number)) {
            Some(times) => times.to_string(),
            None if call.possible().contains(&number) => "NEVER".to_string(),
            None => "-".to_string(),
        };
        // numbers of calls that are not compared here have no column
        let answered = |number: &u32| Call::ALL.iter().any(|call| call.possible().contains(number));
        let numbers: Vec<u32> = (0..=Call::MOST).filter(answered).collect();
        print!("{:<15}", "call");
        numbers.iter().for_each(|number| print!("{number:>9}"));
        println!();
        for call in Call::ALL {
            print!("{:<15}", call.name());
            numbers.iter().for_each(|number| print!("{:>9}", cell(call, *number)));
            println!();
        }
    }

    /// Whether each call met every number that it can answer, and no other.
    pub fn met_every_number(&self) -> bool {
        Call::ALL.iter().all(|call| {
            (0..=Call::MOST).all(|number| {
                self.met.contains_key(&(*call, number)) == call.possible().contains(&number)
            })
        })
    }
}

impl Checker<'_> {
    /// Compares one call with the oracle, in one buffer or several.
    fn compare(&mut self, question: &Question) -> Option<Answer> {
        let full = match oracle_answer(question) {
            Ok(full) => full,
            Err(disagreement) => {
                self.differs(question, disagreement);
                return None;
            }
        };
        let rooms = if question.writes() { self.rooms(&full) } else { vec![0] };
        for room in rooms {
            let expected = full.in_room(room);
            self.count(question.call, expected.number);
            if let Some(fault) = self.fault(question, &expected, room) {
                self.differs(question, fault);
            }
            if question.is_blind_to_origins() && self.random.one_in(4) {
                self.compare_blindness(question, &expected, room);
            }
        }
        Some(full)
    }

    /// With other origins in its images the answer stays: the loader's reports do not move.
    fn compare_blindness(&mut self, question: &Question, expected: &Answer, room: usize) {
        let random = &mut self.random;
        let other = question.with_other_origins(|| any_origin(random));
        if let Some(fault) = self.fault(&other, expected, room) {
            self.differs(&other, format!("with other origins: {fault}"));
        }
    }

    /// The guard on the question's map, and on its operation or one that is near the next. It is asked here
    /// and not by the rounds, whose inputs stay what they are.
    fn guard(&mut self, question: &Question) {
        let map = &question.images[0];
        match question.call {
            Call::ValidateOp => {
                self.compare(&Question { call: Call::Ready, ..question.clone() });
            }
            Call::Apply if self.random.one_in(4) => {
                self.compare(&Question { call: Call::Ready, ..question.clone() });
            }
            Call::Apply if self.random.one_in(4) => {
                if let Ok(read) = read_map(map) {
                    let op = operation_image(&near_next(&mut self.random, &read.clock));
                    self.compare(&Question::of_two(Call::Ready, map, &op));
                }
            }
            _ => {}
        }
    }

    /// The boot loader on the question's map image, now and then: a bay, one that is none, or all.
    fn boot(&mut self, question: &Question) {
        let image = &question.images[0];
        match self.random.below(8) {
            0 => {
                let none = *self.random.pick(&[0, 25, 26, 256, 0x0100_0001, u32::MAX]);
                let any = self.random.between(1, 24) as u32;
                let key = if self.random.one_in(6) { none } else { any };
                self.compare(&Question { key, ..Question::of_one(Call::Bay, image) });
            }
            1 => {
                self.compare(&Question::of_one(Call::Bays, image));
            }
            _ => {}
        }
    }
}

impl Asks for Checker<'_> {
    /// Compares before it answers.
    fn ask(&mut self, question: Question) -> Option<Answer> {
        let full = self.compare(&question)?;
        self.feed(&question);
        self.boot(&question);
        self.guard(&question);
        Some(full)
    }

    fn floor(&mut self, peers: &[([(u16, u64); 8], usize)]) {
        let lent = |(dots, len): &([(u16, u64); 8], usize)| {
            let dots = dots.map(|(actor, counter)| LentDot { actor, counter });
            LentClock { dots, len: *len }
        };
        let clocks: Vec<LentClock> = peers.iter().map(lent).collect();
        // a place with any content, which a refusal leaves
        let before = LentClock { dots: [LentDot { actor: 7, counter: 9 }; 8], len: 77 };
        let (number, expected) = match expected::floor(peers) {
            Err(number) => (number, before),
            Ok(dots) => {
                let mut floor = LentClock { len: dots.len(), ..LentClock::default() };
                for (place, (actor, counter)) in floor.dots.iter_mut().zip(dots) {
                    *place = LentDot { actor, counter };
                }
                (0, floor)
            }
        };
        let (given, mut floor) = (clocks.clone(), before);
        let calls = self.calls;
        let word = caught(|| calls.floor(&clocks, &mut floor));
        self.count(Call::Floor, number);
        if word != Some(u64::from(number) << 32) || floor != expected || clocks != given {
            self.differences += 1;
            if self.differences <= PRINTED {
                println!(
                    "DIFFERENCE in floor of {peers:?}\n  answers {word:?} and leaves {floor:?}, \
                     for {number} and {expected:?}\n"
                );
            }
        }
    }

    fn clock_advance(&mut self, dots: &[(u16, u64); 8], len: usize, actor: u16, counter: u64) {
        let (number, after, after_len) = expected::clock_advance(dots, len, actor, counter);
        let lent_dots =
            |dots: &[(u16, u64); 8]| dots.map(|(actor, counter)| LentDot { actor, counter });
        let mut lent = LentClock { dots: lent_dots(dots), len };
        let calls = self.calls;
        let word = caught(|| calls.clock_advance(&mut lent, actor, counter));
        self.count(Call::ClockAdvance, number);
        let expected = LentClock { dots: lent_dots(&after), len: after_len };
        if word != Some(u64::from(number) << 32) || lent != expected {
            self.differences += 1;
            if self.differences <= PRINTED {
                println!(
                    "DIFFERENCE in clock_advance of {dots:?}, length {len}, by {actor}:{counter}\n  \
                     answers {word:?} and leaves {lent:?}, for {number} and {expected:?}\n"
                );
            }
        }
    }
}
