//! What the C headers and this crate both say: the same.

use castribba::slices::LentPieces;
use castribba::{kind, Ready, Refusal, LONGEST_CLOCK, LONGEST_MAP, LONGEST_OPERATION, PIECES};

const COMMON: &str = include_str!("../../../include/castribba_common.h");
const CALLS: &str = include_str!("../../../include/castribba.h");
#[cfg(feature = "salvage")]
const SALVAGE: &str = include_str!("../../../include/salvage.h");
const TEXTS: &str = include_str!("../../../include/castribba_text.c");

/// The number that a header gives to a name, by `#define` or in an enum.
fn said(name: &str) -> u64 {
    let line = COMMON.lines().chain(CALLS.lines()).map(str::trim).find(|line| {
        let words: Vec<_> = line.split_whitespace().collect();
        words.starts_with(&["#define", name]) || words.starts_with(&[name, "="])
    });
    let line = line.unwrap_or_else(|| panic!("the headers have no {name}"));
    let mut words = line.split(|c: char| c.is_whitespace() || c == ',');
    words.find_map(|word| word.parse().ok()).expect("a number behind the name")
}

#[test]
fn the_longest_images_and_the_kinds() {
    let lengths = [
        ("CASTRIBBA_LONGEST_MAP", LONGEST_MAP),
        ("CASTRIBBA_LONGEST_OPERATION", LONGEST_OPERATION),
        ("CASTRIBBA_LONGEST_CLOCK", LONGEST_CLOCK),
        ("CASTRIBBA_PIECES", PIECES),
    ];
    for (name, length) in lengths {
        assert_eq!(said(name), length as u64, "{name}");
    }
    let kinds = [
        ("CASTRIBBA_CLOCK_DOT", kind::CLOCK_DOT),
        ("CASTRIBBA_ENTRY_DOT", kind::ENTRY_DOT),
        ("CASTRIBBA_VALUE", kind::VALUE),
        ("CASTRIBBA_VALUE_DOT", kind::VALUE_DOT),
        ("CASTRIBBA_WAITING_DOT", kind::WAITING_DOT),
        ("CASTRIBBA_WAITING_KEY", kind::WAITING_KEY),
        ("CASTRIBBA_REMOVAL", kind::REMOVAL),
        ("CASTRIBBA_REMOVAL_DOT", kind::REMOVAL_DOT),
        ("CASTRIBBA_REMOVAL_KEY", kind::REMOVAL_KEY),
        ("CASTRIBBA_UPDATE", kind::UPDATE),
        ("CASTRIBBA_PUT_VALUE", kind::PUT_VALUE),
        ("CASTRIBBA_PUT_DOT", kind::PUT_DOT),
    ];
    for (name, kind) in kinds {
        assert_eq!(said(name), u64::from(kind), "{name}");
    }
}

#[cfg(feature = "salvage")]
#[test]
fn the_longest_report() {
    let longest = castribba::salvage::LONGEST_REPORT;
    assert!(SALVAGE.contains(&format!("#define CASTRIBBA_LONGEST_REPORT {longest}\n")));
}

#[test]
fn a_reader_has_the_layout_of_the_header() {
    assert_eq!((size_of::<LentPieces>(), align_of::<LentPieces>()), (PIECES, 1));
}

#[test]
fn the_version() {
    let parts = ["MAJOR", "MINOR", "PATCH"].map(|part| said(&format!("CASTRIBBA_VERSION_{part}")));
    assert_eq!(parts.map(|part| part.to_string()).join("."), env!("CARGO_PKG_VERSION"));
}

#[test]
fn the_numbers_and_their_texts() {
    let refusals = [
        ("CASTRIBBA_MALFORMED", Refusal::Malformed),
        ("CASTRIBBA_OVER_LIMIT", Refusal::OverLimit),
        ("CASTRIBBA_UNRELATED", Refusal::Unrelated),
        ("CASTRIBBA_TOO_MANY_DOTS", Refusal::TooManyDots),
        ("CASTRIBBA_TOO_MANY_ENTRIES", Refusal::TooManyEntries),
        ("CASTRIBBA_TOO_MANY_VALUES", Refusal::TooManyValues),
        ("CASTRIBBA_TOO_MANY_WAITING", Refusal::TooManyWaiting),
        ("CASTRIBBA_TOO_MANY_KEYS", Refusal::TooManyKeys),
        ("CASTRIBBA_COUNTER_SPENT", Refusal::CounterSpent),
        ("CASTRIBBA_SHORT_BUFFER", Refusal::ShortBuffer),
        ("CASTRIBBA_ENDED", Refusal::Ended),
        ("CASTRIBBA_NO_BAY", Refusal::NoBay),
        ("CASTRIBBA_ENDS_ELSEWHERE", Refusal::EndsElsewhere),
        ("CASTRIBBA_TOO_MANY_OPERATIONS", Refusal::TooManyOperations),
        ("CASTRIBBA_TOO_MANY_PEERS", Refusal::TooManyPeers),
    ];
    for (name, refusal) in refusals {
        assert_eq!(said(name), u64::from(refusal.number()), "{name}");
        let text = format!("case {name}:\n        return \"{refusal}\";");
        assert!(TEXTS.contains(&text), "castribba_text.c has no {text}");
    }
    // these two carry numbers, and so have more to say here
    let gap = Refusal::Gap { start: 1, end: 2 };
    let spent = Refusal::DoubleSpent { actor: 1, counter: 1, our_key: 5, their_key: 6 };
    assert_eq!(said("CASTRIBBA_GAP"), u64::from(gap.number()));
    assert_eq!(said("CASTRIBBA_DOUBLE_SPENT"), u64::from(spent.number()));
    assert!(TEXTS.contains(&format!("return \"{}\";", Refusal::Unknown(99))));

    for (name, ready) in [("CASTRIBBA_FOREIGN", Ready::Foreign), ("CASTRIBBA_SEEN", Ready::Seen)] {
        assert_eq!(said(name), u64::from(ready.number()), "{name}");
        let text = format!("case {name}:\n        return \"{ready}\";");
        assert!(TEXTS.contains(&text), "castribba_text.c has no {text}");
    }
    let hold = Ready::Hold { actor: 1, counter: 1 };
    assert_eq!(said("CASTRIBBA_HOLD"), u64::from(hold.number()));
    assert_eq!(Ready::Next.number(), 0);
}
