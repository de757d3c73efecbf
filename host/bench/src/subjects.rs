//! What is timed: byte calls, the plain program on decoded arrays, the published crate.

use crate::inputs::{Question, Task, Work, ACTOR, KEY};
use calls::{length_of, number_of, Calls, LONGEST_MAP};
use crdts::{CmRDT, CvRDT, ResetRemove, VClock};
use oracle::expected;
use oracle::image::{map_image, read_clock, read_map, read_operation};
use oracle::model::MOST_ENTRIES;
use oracle::published::{self, PublishedMap, PublishedOperation};
use std::hint::black_box;

/// Inputs made ready outside the time that is taken; results are dropped outside it too.
pub trait Prepared {
    fn run(&mut self);
}

pub trait Subject {
    fn name(&self) -> String;
    fn prepare<'a>(&'a self, task: &'a Task, batch: usize) -> Box<dyn Prepared + 'a>;
    /// Whether it starts from the image, and not from what was read before.
    fn reads_image(&self) -> bool {
        false
    }
    /// Whether it has the task's call.
    fn takes(&self, task: &Task) -> bool {
        !matches!(task.work, Work::Ask(_))
    }
    /// Stops the program if the subject's answer is wrong.
    fn check(&self, task: &Task);
}

pub fn all() -> Vec<Box<dyn Subject>> {
    vec![
        #[cfg(feature = "archive")]
        Box::new(ByByte(calls::Archive)),
        Box::new(ByByte(calls::Plain)),
        Box::new(OnArrays),
        Box::new(Published),
    ]
}

fn expected_answer(task: &Task) -> expected::Answer {
    match &task.work {
        Work::Apply { op } => expected::apply(&task.map, op),
        Work::Merge { other } => expected::merge(&task.map, other),
        Work::ResetRemove { clock } => expected::reset_remove(&task.map, clock).unwrap(),
        Work::Len => expected::len(&task.map),
        Work::Ask(Question::Update) => expected::update(&task.map, ACTOR, KEY, (7, 1)),
        Work::Ask(Question::RmGet) => expected::rm_get(&task.map, KEY),
        Work::Ask(Question::RmReadCtx) => expected::rm_read_ctx(&task.map, KEY),
        Work::Ask(Question::Get) => expected::get(&task.map, KEY),
        Work::Ask(Question::ValidateOp { op }) => expected::validate_op(&task.map, op),
        Work::Ask(Question::ValidateMerge { other }) => expected::validate_merge(&task.map, other),
        Work::Ask(Question::Ready { op }) => expected::ready(&task.map, op),
        Work::Ask(Question::Differences { other }) => expected::differences(&task.map, other),
        // the floor is stored in a place lent for it: as of `len`, 0 and no bytes
        Work::Ask(Question::Floor { .. }) => expected::len(&task.map),
        Work::Ask(Question::CatchUp { other, list }) => expected::catch_up(&task.map, other, list),
        Work::Ask(Question::Bay) => expected::bay(&task.map, KEY),
        Work::Ask(Question::Bays) => expected::bays(&task.map),
        Work::Ask(Question::Pieces { .. }) => expected::delivered(&task.map),
    }
}

/// The image that must come out; empty for `len`.
fn expected_image(task: &Task) -> Vec<u8> {
    let answer = expected_answer(task);
    assert_eq!(answer.number, 0, "{} is refused", task.name);
    answer.bytes
}

struct ByByte<C: Calls>(C);

struct ByteRuns<'a, C: Calls> {
    subject: &'a ByByte<C>,
    task: &'a Task,
    out: Vec<u8>,
    reader: Vec<u8>,
    batch: usize,
}

impl<C: Calls> ByByte<C> {
    fn once(&self, task: &Task, out: &mut [u8], reader: &mut [u8]) -> u64 {
        match &task.work {
            Work::Apply { op } => self.0.apply(&task.map, op, out),
            Work::Merge { other } => self.0.merge(&task.map, other, out),
            Work::ResetRemove { clock } => self.0.reset_remove(&task.map, clock, out),
            Work::Len => self.0.len(&task.map),
            Work::Ask(Question::Update) => self.0.update(&task.map, ACTOR, KEY, 7, 1, out),
            Work::Ask(Question::RmGet) => self.0.rm_get(&task.map, KEY, out),
            Work::Ask(Question::RmReadCtx) => self.0.rm_read_ctx(&task.map, KEY, out),
            Work::Ask(Question::Get) => self.0.get(&task.map, KEY, out),
            Work::Ask(Question::ValidateOp { op }) => self.0.validate_op(&task.map, op),
            Work::Ask(Question::ValidateMerge { other }) => self.0.validate_merge(&task.map, other),
            Work::Ask(Question::Ready { op }) => self.0.ready(&task.map, op),
            Work::Ask(Question::Differences { other }) => self.0.differences(&task.map, other, out),
            Work::Ask(Question::Floor { peers }) => {
                let mut floor = peers[0];
                let word = self.0.floor(peers, &mut floor);
                black_box(floor);
                word
            }
            Work::Ask(Question::CatchUp { other, list }) => self.0.catch_up(&task.map, other, list),
            Work::Ask(Question::Bay) => self.0.bay(&task.map, KEY, out),
            Work::Ask(Question::Bays) => self.0.bays(&task.map, out),
            Work::Ask(Question::Pieces { length }) => {
                self.0.pieces_begin(reader);
                for piece in task.map.chunks(*length) {
                    self.0.pieces_take(reader, piece);
                }
                self.0.pieces_end(reader, out)
            }
        }
    }
}

impl<C: Calls> Prepared for ByteRuns<'_, C> {
    fn run(&mut self) {
        for _ in 0..self.batch {
            black_box(self.subject.once(black_box(self.task), &mut self.out, &mut self.reader));
        }
    }
}

impl<C: Calls> Subject for ByByte<C> {
    fn name(&self) -> String {
        format!("{}, byte call", self.0.name())
    }
    fn reads_image(&self) -> bool {
        true
    }
    fn takes(&self, _: &Task) -> bool {
        true
    }
    fn prepare<'a>(&'a self, task: &'a Task, batch: usize) -> Box<dyn Prepared + 'a> {
        let reader = vec![0; self.0.pieces_len()];
        Box::new(ByteRuns { subject: self, task, out: vec![0; LONGEST_MAP], reader, batch })
    }
    fn check(&self, task: &Task) {
        let mut out = vec![0; LONGEST_MAP];
        let word = self.once(task, &mut out, &mut vec![0; self.0.pieces_len()]);
        let answer = expected_answer(task);
        assert_eq!((number_of(word), &out[..length_of(word)]), (answer.number, &answer.bytes[..]));
        if let Work::Len = task.work {
            assert_eq!(self.0.len_count(&task.map), MOST_ENTRIES as u64);
        }
    }
}

struct OnArrays;

enum ArrayWork {
    Apply(plain::Operation),
    Merge(Box<plain::Map>),
    ResetRemove(plain::Clock),
    Len,
}

struct ArrayRuns {
    maps: Vec<plain::Map>,
    work: ArrayWork,
}

impl Prepared for ArrayRuns {
    fn run(&mut self) {
        for map in &mut self.maps {
            match &self.work {
                ArrayWork::Apply(operation) => map.apply(operation).unwrap(),
                ArrayWork::Merge(other) => *map = map.merge(other).unwrap(),
                ArrayWork::ResetRemove(clock) => map.reset_remove(clock).unwrap(),
                ArrayWork::Len => {
                    black_box(black_box(&*map).len());
                }
            }
        }
    }
}

impl OnArrays {
    fn runs(task: &Task, batch: usize) -> ArrayRuns {
        let work = match &task.work {
            Work::Apply { op } => ArrayWork::Apply(plain::read_op(op).unwrap()),
            Work::Merge { other } => ArrayWork::Merge(Box::new(plain::read_map(other).unwrap())),
            Work::ResetRemove { clock } => {
                ArrayWork::ResetRemove(plain::read_clock(clock).unwrap())
            }
            Work::Len => ArrayWork::Len,
            Work::Ask(_) => unreachable!("only byte calls are asked"),
        };
        ArrayRuns { maps: vec![plain::read_map(&task.map).unwrap(); batch], work }
    }
}

impl Subject for OnArrays {
    fn name(&self) -> String {
        "plain, on decoded arrays".to_string()
    }
    fn prepare<'a>(&'a self, task: &'a Task, batch: usize) -> Box<dyn Prepared + 'a> {
        Box::new(OnArrays::runs(task, batch))
    }
    fn check(&self, task: &Task) {
        let mut runs = OnArrays::runs(task, 1);
        runs.run();
        let mut out = vec![0; LONGEST_MAP];
        let length = plain::write_map(&runs.maps[0], &mut out).unwrap();
        match task.work {
            Work::Len => assert_eq!(runs.maps[0].len(), MOST_ENTRIES),
            _ => assert_eq!(out[..length], expected_image(task)),
        }
    }
}

struct Published;

enum PublishedWork {
    Apply(Vec<PublishedOperation>),
    Merge(Vec<PublishedMap>),
    ResetRemove(VClock<u16>),
    Len,
}

struct PublishedRuns {
    maps: Vec<PublishedMap>,
    work: PublishedWork,
}

impl Prepared for PublishedRuns {
    fn run(&mut self) {
        match &mut self.work {
            PublishedWork::Apply(operations) => {
                for (map, operation) in self.maps.iter_mut().zip(operations.drain(..)) {
                    map.apply(operation);
                }
            }
            PublishedWork::Merge(others) => {
                for (map, other) in self.maps.iter_mut().zip(others.drain(..)) {
                    map.merge(other);
                }
            }
            PublishedWork::ResetRemove(clock) => {
                self.maps.iter_mut().for_each(|map| map.reset_remove(clock));
            }
            PublishedWork::Len => {
                for map in &self.maps {
                    black_box(black_box(map).len().val);
                }
            }
        }
    }
}

impl Published {
    fn runs(task: &Task, batch: usize) -> PublishedRuns {
        // the published calls change the map in place and take their argument over: one for each
        let map = published::map_in(&read_map(&task.map).unwrap());
        let work = match &task.work {
            Work::Apply { op } => {
                let operation = published::operation_in(&read_operation(op).unwrap());
                PublishedWork::Apply(vec![operation; batch])
            }
            Work::Merge { other } => {
                let other = published::map_in(&read_map(other).unwrap());
                PublishedWork::Merge(vec![other; batch])
            }
            Work::ResetRemove { clock } => {
                PublishedWork::ResetRemove(published::clock_in(&read_clock(clock).unwrap()))
            }
            Work::Len => PublishedWork::Len,
            Work::Ask(_) => unreachable!("only byte calls are asked"),
        };
        PublishedRuns { maps: vec![map; batch], work }
    }
}

impl Subject for Published {
    fn name(&self) -> String {
        "published crate, on decoded maps".to_string()
    }
    fn prepare<'a>(&'a self, task: &'a Task, batch: usize) -> Box<dyn Prepared + 'a> {
        Box::new(Published::runs(task, batch))
    }
    fn check(&self, task: &Task) {
        let mut runs = Published::runs(task, 1);
        runs.run();
        match task.work {
            Work::Len => assert_eq!(runs.maps[0].len().val, MOST_ENTRIES),
            _ => assert_eq!(map_image(&published::map_out(&runs.maps[0])), expected_image(task)),
        }
    }
}
