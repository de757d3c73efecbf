//! Writes a sample of the oracle's answers, and what its replay must print: replay FOLDER.

mod case;
mod sampler;

use calls::LONGEST_MAP;
use case::{Case, CALLS, PLAIN_FORMS};
use compare::asks::Asks;
use compare::random::Random;
use compare::{panics, rounds};
use oracle::full::full_map;
use oracle::image::{map_image, operation_image};
use oracle::model::Operation;
use sampler::Sampler;
use std::fmt::Write as _;
use std::path::Path;

/// Any seed would do; this one stays, so that the files do.
const SEED: u64 = 1;
/// More rounds than the sample needs: the last places are for answers that are seldom met.
const ROUNDS: usize = 20_000;

/// No digit may stand here: the program reads all digits, and nothing else.
const PREFACE: &str = "\
The oracle's answers to calls of castribba, made by the host's replay/make. Only numbers are read.
A case is: call, whether images follow (or stay as they were), actor, key, value, origin, the output
buffer's length, the number answered, the length answered (or the word of a call that carries).
Then come its two images, if any follow, and what it writes. An image is its length in bytes and
its records as mapdump prints them: kind, index, actor, key, number. A lent clock is its places
and, in one record more, its length.
";

/// The longest map, one that is too long by a byte, and what they need of time and room.
fn ask_longest(sampler: &mut Sampler) {
    let (map, newer) = (full_map(|_| false), map_image(&full_map(|key| key % 2 == 1)));
    let image = map_image(&map);
    assert_eq!(image.len(), LONGEST_MAP);
    let removal = Operation::Removal { clock: map.clock, keys: [8].into() };
    sampler.apply(&image, &operation_image(&removal));
    let put_clock = [(1, u64::MAX)].into_iter().collect();
    let another =
        Operation::Update { actor: 1, counter: u64::MAX, key: 1000, put_clock, put_value: (1, 1) };
    sampler.apply(&image, &operation_image(&another));
    sampler.get(&image, 8);
    sampler.len(&image);
    sampler.merge(&image, &newer);
    sampler.validate_merge(&image, &newer);
    sampler.len(&[&image[..], &[0]].concat());
}

fn adler32(bytes: &[u8]) -> u32 {
    let (mut low, mut high) = (1, 0);
    for byte in bytes {
        low = (low + u32::from(*byte)) % 65521;
        high = (high + low) % 65521;
    }
    high << 16 | low
}

/// What crates/replay prints of the file, where nothing differs.
fn printed(cases: &[Case], file: &str) -> String {
    let mut text = String::new();
    for (place, (name, _)) in CALLS.iter().enumerate() {
        let amount = cases.iter().filter(|case| case.call == place + 1).count();
        assert_ne!(amount, 0, "{name} is never called");
        writeln!(text, "{name} {amount} cases, 0 differences").unwrap();
    }
    for (name, call) in PLAIN_FORMS {
        let amount = cases.iter().filter(|case| case.call == call).count();
        writeln!(text, "{name} {amount} cases, 0 differences").unwrap();
    }
    for number in 0..=12 {
        let answers_it = |case: &&Case| CALLS[case.call - 1].1 && case.number == number;
        let amount = cases.iter().filter(answers_it).count();
        assert_ne!(amount, 0, "{number} is never answered");
        writeln!(text, "number {number} {amount} times").unwrap();
    }
    let sum = adler32(file.as_bytes());
    writeln!(text, "file of {} bytes, adler-32 {sum}", file.len()).unwrap();
    text
}

fn main() {
    let folder = std::env::args().nth(1).expect("usage: replay FOLDER");
    panics::print_others_only();

    let mut sampler = Sampler::new(SEED);
    let mut random = Random::new(SEED);
    ask_longest(&mut sampler);
    sampler.only_short();
    for _ in 0..ROUNDS {
        rounds::any_round(&mut random, &mut sampler);
    }

    let cases = sampler.cases;
    let mut file = PREFACE.to_string();
    writeln!(file, "\ncases {}", cases.len()).unwrap();
    let mut before = None;
    for case in &cases {
        case.write(before, &mut file);
        before = Some(case);
    }
    for (name, text) in [("stdout", printed(&cases, &file)), ("stdin", file)] {
        std::fs::write(Path::new(&folder).join(name), text).expect("the folder can be written");
    }
}
