//! Salvage beside the other calls, in one program.
#![cfg(feature = "salvage")]

mod common;

use castribba::salvage::{self, Step, Told};
use castribba::{Map, Refusal, LONGEST_MAP};
use common::{image, map, most_entries, Line, M};
use salvage::{into, report_into, LONGEST_REPORT};

/// What comes back of some records, and the places and steps that are told.
fn mends(lines: &[Line], back: &[Line], told: &[(u32, u8)]) {
    let (found, report) = salvage::salvage(&image(lines)).expect("it is not too long");
    assert_eq!(found, map(back));
    let report: Vec<_> = report.iter().map(|one| (one.place, one.step.number())).collect();
    assert_eq!(report, told);
}

#[test]
fn step_by_step() {
    let [clock, dot, value, value_dot] = M;
    mends(&M, &M, &[]);
    mends(&[(7, 0, 0, 0, 0), clock], &[clock], &[(0, 2)]);
    mends(&[clock, clock, dot, value, value_dot], &M, &[(1, 3)]);
    mends(&[clock, dot, value], &[clock, dot], &[(2, 4)]);
    mends(&[dot, value, value_dot], &[], &[(0, 4), (1, 4), (2, 4)]);
    let (high, high_dot) = ((3, 9, 0, 5, 40), (4, 9, 1, 5, 1));
    mends(&[clock, dot, high, high_dot], &M, &[(2, 5), (3, 5)]);
    let mut most = most_entries();
    most.push((2, 0, 1, 33, 1));
    mends(&most, &most_entries(), &[(33, 4)]);
}

#[test]
fn a_part_of_a_record_is_told() {
    let whole = image(&M);
    for cut in (0..whole.len()).filter(|cut| cut % 16 != 0) {
        let (_, told) = salvage::salvage(&whole[..cut]).expect("it is not too long");
        let part = Told { place: cut as u32 / 16, step: Step::Part };
        assert_eq!(told.last(), Some(&part));
    }
}

#[test]
fn every_bit_of_a_map() {
    let good = image(&M);
    for bit in 0..good.len() * 8 {
        let mut worn = good.clone();
        worn[bit / 8] ^= 1 << (bit % 8);
        let (back, told) = salvage::salvage(&worn).expect("it is not too long");
        // what came back is a map, and the report is empty exactly where the worn image is one
        assert_eq!(Map::from_image(&worn).is_ok(), told.is_empty());
        assert_eq!(salvage::salvage(back.as_image()), Ok((back, vec![])));
    }
}

#[test]
fn buffers_and_refusals() {
    const PAINT: u8 = 0xEE;
    let worn = image(&[M[0], M[0], M[1], M[2], M[3]]);
    let (good, report) = (image(&M), [1, 0, 0, 0, 3]);
    for room in 0..good.len() + 20 {
        let mut out = vec![PAINT; room];
        let fits = room >= good.len();
        let answer = if fits { Ok(good.len()) } else { Err(Refusal::ShortBuffer) };
        assert_eq!(into(&worn, &mut out), answer);
        assert!(out.iter().skip(if fits { good.len() } else { 0 }).all(|&byte| byte == PAINT));
    }
    for room in 0..20 {
        let mut out = vec![PAINT; room];
        let fits = room >= report.len();
        let answer = if fits { Ok(report.len()) } else { Err(Refusal::ShortBuffer) };
        assert_eq!(report_into(&worn, &mut out), answer);
        assert!(!fits || out[..report.len()] == report);
        assert!(out.iter().skip(if fits { report.len() } else { 0 }).all(|&byte| byte == PAINT));
    }
    let long = vec![0; LONGEST_MAP + 1];
    assert_eq!(into(&long, &mut []), Err(Refusal::OverLimit));
    assert_eq!(report_into(&long, &mut []), Err(Refusal::OverLimit));
    assert_eq!(salvage::salvage(&long), Err(Refusal::OverLimit));
    let (back, told) = salvage::salvage(&long[1..]).expect("it is not too long");
    assert_eq!((back, told.len()), (Map::new(), LONGEST_MAP / 16));
    assert!(told.len() * 5 <= LONGEST_REPORT);
}
