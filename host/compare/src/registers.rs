//! Register equality, which no call reaches: the plain program against 02's rule (CR 5) and the crate.

use crate::panics::caught;
use crate::random::Random;
use oracle::model::{Clock, ValueAndOrigin};
use oracle::published::register_in;

fn random_register(random: &mut Random) -> Vec<(Clock, ValueAndOrigin)> {
    let amount = random.below(5);
    (0..amount)
        .map(|_| {
            let clock = Clock::from([(random.below(2) as u16, random.between(1, 2) as u64)]);
            (clock, (random.below(2) as u64, random.below(2) as u16))
        })
        .collect()
}

/// A register that holds one of another's pairs once more or once less, as a cut can leave it.
fn with_another_count(
    random: &mut Random,
    values: &[(Clock, ValueAndOrigin)],
) -> Vec<(Clock, ValueAndOrigin)> {
    let mut changed = values.to_vec();
    if !changed.is_empty() {
        let place = random.below(changed.len());
        if changed.len() < 4 && random.one_in(2) {
            changed.push(changed[place].clone());
        } else {
            changed.remove(place);
        }
    }
    changed
}

/// A register that differs in one origin alone.
fn with_another_origin(
    random: &mut Random,
    values: &[(Clock, ValueAndOrigin)],
) -> Vec<(Clock, ValueAndOrigin)> {
    let mut changed = values.to_vec();
    if !changed.is_empty() {
        let place = random.below(changed.len());
        changed[place].1 .1 ^= 1 << random.below(16);
    }
    changed
}

/// How many times a pair occurs.
fn times(values: &[(Clock, ValueAndOrigin)], pair: &(Clock, ValueAndOrigin)) -> usize {
    values.iter().filter(|other| *other == pair).count()
}

fn plain_register(values: &[(Clock, ValueAndOrigin)]) -> plain::Register {
    let mut register = plain::Register::EMPTY;
    for (clock, (value, origin)) in values {
        let mut held = plain::Value { clock: plain::Clock::EMPTY, value: *value, origin: *origin };
        for (actor, counter) in clock {
            held.clock.add(plain::Dot { actor: *actor, counter: *counter });
        }
        register.values[register.len] = held;
        register.len += 1;
    }
    register
}

/// The number of differences over so many random pairs. The published comparison panics when it
/// meets a pair that the other register repeats before one that is missing there; where it
/// answers, its answer must be the rule's, and it may panic on repeated pairs only.
pub fn compare_equality(random: &mut Random, pairs: u64) -> u64 {
    let (mut differences, mut panics, mut repeated) = (0, 0, 0);
    for _ in 0..pairs {
        let ours = random_register(random);
        let mut theirs = match random.below(4) {
            0 => ours.clone(),
            1 => with_another_count(random, &ours),
            2 => with_another_origin(random, &ours),
            _ => random_register(random),
        };
        let turn = random.below(theirs.len() + 1);
        theirs.rotate_left(turn);
        let rule =
            ours.iter().chain(&theirs).all(|pair| times(&ours, pair) == times(&theirs, pair));
        let repeats =
            |values: &[(Clock, ValueAndOrigin)]| values.iter().any(|pair| times(values, pair) > 1);
        repeated += u64::from(repeats(&ours) || repeats(&theirs));
        let (one, another) = (register_in(&ours), register_in(&theirs));
        let published = caught(|| one == another);
        let agrees = match published {
            Some(equal) => equal == rule,
            None => {
                panics += 1;
                repeats(&ours) || repeats(&theirs)
            }
        };
        if !agrees || plain_register(&ours).equals(&plain_register(&theirs)) != rule {
            println!("DIFFERENCE in register equality: {ours:?} and {theirs:?}");
            differences += 1;
        }
    }
    println!(
        "register equality: {pairs} pairs, {repeated} with a repeated pair, {differences} differences, {panics} panics of the crate"
    );
    differences
}
