//! Compares salvage.h's calls with document 02's steps, or times them: salvage INPUTS SEED [NAME], salvage times [NAME].

mod checker;
mod laws;
mod short;
mod subject;
mod times;
mod worn;

use checker::Checker;
use compare::panics;
use compare::random::Random;
use std::process::ExitCode;
use subject::Subject;
use worn::Damage;

fn subject(name: &str) -> Option<Box<dyn Subject>> {
    match name {
        "statement" => Some(Box::new(subject::Statement)),
        "plain" => Some(Box::new(subject::Plain)),
        #[cfg(feature = "archive")]
        "archive" => Some(Box::new(subject::Archive)),
        _ => None,
    }
}

fn usage() -> ExitCode {
    eprintln!("usage: salvage INPUTS SEED [NAME], or salvage times [NAME]");
    eprintln!("NAME: plain, statement or archive (build with the feature of that name)");
    ExitCode::from(2)
}

fn main() -> ExitCode {
    let arguments: Vec<String> = std::env::args().skip(1).collect();
    if arguments.first().is_some_and(|first| first == "times") {
        return match subject(arguments.get(1).map_or("plain", String::as_str)) {
            None => usage(),
            Some(subject) => {
                times::print(&*subject, bench::timing::DEFAULT_ROUNDS);
                ExitCode::SUCCESS
            }
        };
    }
    let numbers: Vec<u64> = arguments.iter().take(2).filter_map(|text| text.parse().ok()).collect();
    let name = arguments.get(2).map_or("plain", String::as_str);
    let (&[inputs, seed], Some(subject)) = (&numbers[..], subject(name)) else {
        return usage();
    };

    println!("{} against document 02's steps, seed {seed}", subject.name());
    panics::print_others_only();
    let mut random = Random::new(seed);
    let mut checker = Checker::new(&*subject, seed);
    short::every_short_input(&mut checker, inputs > 1_000_000);
    println!("every short input: {} inputs, {} differences", checker.inputs, checker.differences);

    let most = checker.inputs + inputs;
    while checker.inputs < most {
        if random.one_in(12) {
            let before = worn::image(&mut random);
            if before.len() <= oracle::image::LONGEST_MAP {
                let left = worn::harmed(&mut random, Damage::Lost, &before);
                if !before.is_empty() {
                    checker.compare_loss(&before, &left);
                }
            }
        } else {
            let (damage, input) = worn::input(&mut random);
            checker.compare(damage, &input);
        }
    }

    checker.print_table();
    println!(
        "{} inputs, {} calls, {} differences",
        checker.inputs, checker.cases, checker.differences
    );
    if !checker.met_all() {
        println!("a step told nothing, or a number was never met");
        return ExitCode::FAILURE;
    }
    if checker.differences == 0 {
        ExitCode::SUCCESS
    } else {
        ExitCode::FAILURE
    }
}
