//! Whoever is asked questions: a checker of an implementation, or one who writes the answers down.

use crate::question::{Call, Question};
use oracle::expected::Answer;
use oracle::model::ValueAndOrigin;

/// Generators of inputs hand their questions over by these methods.
pub trait Asks {
    /// The answer that the oracle gives, room enough; None when the oracle itself failed.
    fn ask(&mut self, question: Question) -> Option<Answer>;

    fn clock_advance(&mut self, dots: &[(u16, u64); 8], len: usize, actor: u16, counter: u64);

    /// The floor of lent clocks, each as all eight places and a length.
    fn floor(&mut self, peers: &[([(u16, u64); 8], usize)]);

    fn apply(&mut self, map: &[u8], op: &[u8]) -> Option<Answer> {
        self.ask(Question::of_two(Call::Apply, map, op))
    }

    fn merge(&mut self, map: &[u8], other: &[u8]) -> Option<Answer> {
        self.ask(Question::of_two(Call::Merge, map, other))
    }

    fn reset_remove(&mut self, map: &[u8], clock: &[u8]) -> Option<Answer> {
        self.ask(Question::of_two(Call::ResetRemove, map, clock))
    }

    fn update(
        &mut self,
        map: &[u8],
        actor: u16,
        key: u32,
        value: ValueAndOrigin,
    ) -> Option<Answer> {
        self.ask(Question { actor, key, value, ..Question::of_one(Call::Update, map) })
    }

    fn rm_get(&mut self, map: &[u8], key: u32) -> Option<Answer> {
        self.ask(Question { key, ..Question::of_one(Call::RmGet, map) })
    }

    fn rm_read_ctx(&mut self, map: &[u8], key: u32) -> Option<Answer> {
        self.ask(Question { key, ..Question::of_one(Call::RmReadCtx, map) })
    }

    fn get(&mut self, map: &[u8], key: u32) -> Option<Answer> {
        self.ask(Question { key, ..Question::of_one(Call::Get, map) })
    }

    fn len(&mut self, map: &[u8]) -> Option<Answer> {
        self.ask(Question::of_one(Call::Len, map))
    }

    fn validate_op(&mut self, map: &[u8], op: &[u8]) -> Option<Answer> {
        self.ask(Question::of_two(Call::ValidateOp, map, op))
    }

    fn validate_merge(&mut self, map: &[u8], other: &[u8]) -> Option<Answer> {
        self.ask(Question::of_two(Call::ValidateMerge, map, other))
    }

    fn catch_up(&mut self, map: &[u8], other: &[u8], list: &[u8]) -> Option<Answer> {
        self.ask(Question::of_three(Call::CatchUp, map, other, list))
    }

    fn differences(&mut self, map: &[u8], other: &[u8]) -> Option<Answer> {
        self.ask(Question::of_two(Call::Differences, map, other))
    }

    /// Every call that takes a map, the second image as whatever the call takes.
    fn every_call(
        &mut self,
        map: &[u8],
        second: &[u8],
        actor: u16,
        key: u32,
        value: ValueAndOrigin,
    ) {
        self.apply(map, second);
        self.merge(map, second);
        self.reset_remove(map, second);
        self.validate_op(map, second);
        self.validate_merge(map, second);
        self.differences(map, second);
        self.update(map, actor, key, value);
        self.rm_get(map, key);
        self.rm_read_ctx(map, key);
        self.get(map, key);
        self.len(map);
    }
}
