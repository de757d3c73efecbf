//! The loader's calls beside the others, in one program.
#![cfg(feature = "loader")]

mod common;

use castribba::{loader, Map, Refusal};
use common::{image, map, M};
use loader::Report;

#[test]
fn one_bay_and_all() {
    let mut two = map(&M);
    two.apply(&Map::new().update(2, 5, 30, 0).expect("an update")).expect("an update that fits");
    let five = Report { remaining: 2, differ: true, value: Some(30) };
    let all = loader::bays(two.as_image()).expect("reports of a good image");
    assert_eq!(loader::bay(two.as_image(), 5), Ok(five));
    for (bay, report) in (1..).zip(all) {
        assert_eq!(report, if bay == 5 { five } else { Report::default() });
        assert_eq!(loader::bay(two.as_image(), bay), Ok(report));
    }
}

#[test]
fn refusals() {
    assert_eq!(loader::bay(&[], 0), Err(Refusal::NoBay));
    assert_eq!(loader::bay(&[], 25), Err(Refusal::NoBay));
    assert_eq!(loader::bay(&[1; 15], 25), Err(Refusal::Malformed));
    assert_eq!(loader::bays(&[0; castribba::LONGEST_MAP + 1]), Err(Refusal::OverLimit));
    assert_eq!(loader::bays(&image(&M[1..])), Err(Refusal::Unrelated));
}
