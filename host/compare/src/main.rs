//! Compares an implementation of castribba.h's calls with the oracle: compare CASES SEED [NAME].

use calls::Calls;
use compare::checker::Checker;
use compare::random::Random;
use compare::{lists, panics, registers, rounds, settled};
use std::process::ExitCode;

fn implementation(name: &str) -> Option<Box<dyn Calls>> {
    match name {
        "plain" => Some(Box::new(calls::Plain)),
        #[cfg(feature = "archive")]
        "archive" => Some(Box::new(calls::Archive)),
        _ => None,
    }
}

fn main() -> ExitCode {
    let arguments: Vec<String> = std::env::args().skip(1).collect();
    let numbers: Vec<u64> = arguments.iter().take(2).filter_map(|text| text.parse().ok()).collect();
    let name = arguments.get(2).map_or("plain", String::as_str);
    let (&[cases, seed], Some(calls)) = (&numbers[..], implementation(name)) else {
        eprintln!("usage: compare CASES SEED [plain|archive]   (archive: build with its feature)");
        return ExitCode::from(2);
    };

    println!("{} against crdts 7.2.0, seed {seed}", calls.name());
    panics::print_others_only();
    let failed = settled::failed_examples(&*calls);
    println!("settled examples: {failed} differences");

    let (mut random, mut reports) = (Random::new(seed), Random::new(seed ^ 14));
    let mut checker = Checker::new(&*calls, seed);
    checker.feed_longest();
    rounds::every_short_input(&mut checker);
    let short = checker.cases;
    println!("every short input: {short} cases, {} differences", checker.differences);

    checker.feed_more();
    while checker.cases < short + cases {
        rounds::any_round(&mut random, &mut checker);
        if random.one_in(3) {
            lists::list_round(&mut random, &mut checker);
        }
        rounds::report_round(&mut reports, &mut checker);
    }
    let in_registers = registers::compare_equality(&mut random, 20_000);

    checker.print_table();
    let (fed, in_pieces) = checker.fed();
    println!("{fed} images in pieces, {in_pieces} differences");
    let differences = checker.differences + in_pieces + in_registers + u64::from(failed);
    println!("{} cases, {differences} differences", checker.cases);
    if !checker.met_every_number() {
        println!("a number that a call can answer was never met, or one that it cannot was");
        return ExitCode::FAILURE;
    }
    if differences == 0 {
        ExitCode::SUCCESS
    } else {
        ExitCode::FAILURE
    }
}
