//! Drives that are given the same operations, on libcastribba.a: alike [RUNS [OPERATIONS [SEED]]].
//!
//! All orders of all small histories, and random histories of three drives. By the rules of castribba.h the
//! drives agree in settings and reports, every map is what its operations say, and nothing stands that was
//! withdrawn. With a rule broken differences must be found: else the search would show nothing.

mod history;
mod picture;
mod random;
mod rules;
mod small;

use rules::{Found, Guard, Merges, Rules};
use std::process::ExitCode;

/// What a search must have found, by its rules; the first line of what it did not is printed.
fn judged(found: &Found, rules: Rules) -> bool {
    println!("{found}");
    let as_it_should = if rules.kept() {
        // bytes may differ, and do: a search that never met that would be too small
        let nothing = [found.settings, found.reports, found.withdrawn, found.pictures] == [0; 4];
        nothing && found.bytes > 0
    } else if rules.guard == Guard::OwnActor || rules.merges == Merges::AtWill {
        // seldom in long histories, whose later operations overwrite the difference
        found.settings > 0 || found.withdrawn > 0
    } else {
        found.settings > 0 && found.reports > 0
    };
    if !as_it_should {
        println!("  NOT as it should be{}", found.first.as_deref().unwrap_or(""));
    }
    as_it_should
}

fn main() -> ExitCode {
    let numbers: Option<Vec<u64>> =
        std::env::args().skip(1).map(|word| word.parse().ok()).collect();
    let (runs, operations, seed) = match numbers.as_deref() {
        Some([]) => (1000, 4, 1),
        Some(&[runs]) => (runs, 4, 1),
        Some(&[runs, operations]) => (runs, operations, 1),
        Some(&[runs, operations, seed]) => (runs, operations, seed),
        _ => {
            eprintln!("usage: alike [RUNS [OPERATIONS [SEED]]]");
            return ExitCode::from(2);
        }
    };
    let mut good = true;
    println!("all orders of small histories, 3 actors, 2 keys");
    for rules in Rules::ALL {
        // a broken rule shows itself early
        let most = if rules.kept() { operations } else { operations.min(4) };
        good &= judged(&small::search(rules, most as usize), rules);
    }
    println!("random histories of three drives, seed {seed}");
    for rules in Rules::ALL.into_iter().chain(Rules::MERGING) {
        good &= judged(&random::search(rules, runs, seed), rules);
    }
    if good {
        println!("alike: by the rules nothing differs, without them differences are found");
        ExitCode::SUCCESS
    } else {
        ExitCode::FAILURE
    }
}
