//! Takes some of the questions that come by, with the oracle's answers: each call, each number.

use crate::case::Case;
use calls::LONGEST_MAP;
use compare::asks::Asks;
use compare::checker::oracle_answer;
use compare::question::{Call, Question};
use compare::random::Random;
use oracle::expected::{self, Answer};
use oracle::image::{bytes_of, Record};
use std::collections::BTreeMap;

/// How long the images of a question and of its answer are together, in records.
#[derive(Clone, Copy, PartialEq, Eq, PartialOrd, Ord)]
enum Size {
    Short,
    Middle,
    Long,
}

fn size_of(bytes: usize) -> Size {
    match bytes / 16 {
        0..=20 => Size::Short,
        21..=64 => Size::Middle,
        _ => Size::Long,
    }
}

pub struct Sampler {
    random: Random,
    taken: BTreeMap<(Call, u32, Size), usize>,
    long_too: bool,
    pub cases: Vec<Case>,
}

/// The number in the file of the first call that answers what a question's call carries.
fn carries_at(call: Call) -> usize {
    match call {
        Call::Apply => 19,
        Call::ResetRemove => 20,
        call => place_of(call) + 1,
    }
}

/// The number in the file of a question's call.
fn place_of(call: Call) -> usize {
    match call {
        Call::Apply => 1,
        Call::Merge => 2,
        Call::ResetRemove => 3,
        Call::Update => 4,
        Call::RmGet => 5,
        Call::RmReadCtx => 6,
        Call::Get => 7,
        Call::Len => 8,
        Call::ValidateOp => 10,
        Call::ValidateMerge => 13,
        Call::ClockAdvance => 18,
        Call::Bay | Call::Bays => unreachable!("nothing asks the loader here"),
        Call::Ready => unreachable!("nothing asks the guard here"),
        Call::CatchUp => unreachable!("nothing asks for lists here"),
        Call::Differences | Call::Floor => unreachable!("the file has no such call"),
        Call::PiecesTake | Call::PiecesEnd => unreachable!("nothing asks for pieces here"),
    }
}

impl Sampler {
    pub fn new(seed: u64) -> Sampler {
        // other numbers than the inputs are made from
        let random = Random::new(!seed);
        Sampler { random, taken: BTreeMap::new(), long_too: true, cases: Vec::new() }
    }

    /// From here on nothing long is taken.
    pub fn only_short(&mut self) {
        self.long_too = false;
    }

    /// Whether there is still a place for such a case; if so it is used.
    fn takes(&mut self, call: Call, number: u32, bytes: usize) -> bool {
        let size = size_of(bytes);
        let places = match size {
            Size::Long if self.long_too => usize::MAX,
            Size::Long => 0,
            Size::Middle if number >= 5 => 6,
            Size::Middle => 2,
            Size::Short if number == 0 => 56,
            Size::Short => 14,
        };
        let taken = self.taken.entry((call, number, size)).or_default();
        let takes = *taken < places;
        *taken += usize::from(takes);
        takes
    }

    /// The two images of a case. Beside a first one that stays as it was, a second that is not
    /// asked for stays too, so that the file need not repeat them.
    fn both(&self, mut images: Vec<Vec<u8>>) -> [Vec<u8>; 2] {
        if images.len() == 1 {
            let before = self.cases.last().filter(|before| before.images[0] == images[0]);
            images.push(before.map_or(vec![], |before| before.images[1].clone()));
        }
        images.try_into().expect("a call takes one image or two")
    }

    /// A buffer that fits, is too long or, now and then, too short.
    fn room(&mut self, answer: &Answer) -> usize {
        let length = answer.bytes.len();
        match self.random.below(6) {
            0 => length.saturating_sub(1),
            1 => self.random.below(length + 1),
            2 => (length + self.random.below(40)).min(LONGEST_MAP),
            _ => length,
        }
    }
}

impl Asks for Sampler {
    fn ask(&mut self, question: Question) -> Option<Answer> {
        let full = oracle_answer(&question).expect("the oracle answers");
        if question.call == Call::Differences {
            return Some(full);
        }
        let room = if question.writes() { self.room(&full) } else { 0 };
        let answer = full.in_room(room);
        let bytes = question.images.iter().map(Vec::len).sum::<usize>() + answer.bytes.len();
        if self.takes(question.call, answer.number, bytes) {
            let images = self.both(question.images);
            let (value, origin) = question.value;
            let place = place_of(question.call);
            let case = |call, number, length, out| Case {
                call,
                images: images.clone(),
                actor: question.actor,
                key: question.key,
                value,
                origin,
                room,
                number,
                length,
                out,
            };
            let length = answer.bytes.len() as u64;
            self.cases.push(case(place, answer.number, length, answer.bytes));
            for (beside, carried) in answer.carried.iter().enumerate() {
                let call = carries_at(question.call) + beside;
                self.cases.push(case(call, 0, *carried, vec![]));
            }
        }
        Some(full)
    }

    fn floor(&mut self, _peers: &[([(u16, u64); 8], usize)]) {}

    fn clock_advance(&mut self, dots: &[(u16, u64); 8], len: usize, actor: u16, counter: u64) {
        let (number, after, after_len) = expected::clock_advance(dots, len, actor, counter);
        let image = |dots: &[(u16, u64); 8], len: usize| {
            let dot = |(actor, number)| Record { kind: 1, actor, number, ..Record::default() };
            let mut records: Vec<Record> = dots.iter().copied().map(dot).collect();
            records.push(dot((0, len as u64)));
            bytes_of(&records)
        };
        let out = image(&after, after_len);
        if self.takes(Call::ClockAdvance, number, out.len()) {
            self.cases.push(Case {
                call: place_of(Call::ClockAdvance),
                images: [image(dots, len), vec![]],
                actor,
                key: 0,
                value: counter,
                origin: 0,
                room: out.len(),
                number,
                length: 0,
                out,
            });
        }
    }
}
