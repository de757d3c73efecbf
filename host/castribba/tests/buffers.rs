//! The calls on slices: exact buffers, short ones, long ones, and inputs of every content.

mod common;

use castribba::slices::{self, LentClock, LentDot};
use castribba::{Refusal, LONGEST_MAP};
use common::{image, M};

const PAINT: u8 = 0xEE;

/// A call writes exactly its answer, into every buffer in which that fits, and else nothing.
fn writes(expected: &[u8], call: impl Fn(&mut [u8]) -> Result<usize, Refusal>) {
    for room in 0..expected.len() + 20 {
        let mut out = vec![PAINT; room];
        let answer = call(&mut out);
        if room < expected.len() {
            assert_eq!(answer, Err(Refusal::ShortBuffer));
            assert!(out.iter().all(|&byte| byte == PAINT));
        } else {
            assert_eq!(answer, Ok(expected.len()));
            assert_eq!(out[..expected.len()], *expected);
            assert!(out[expected.len()..].iter().all(|&byte| byte == PAINT));
        }
    }
}

#[test]
fn every_room_for_every_call() {
    let (m, clock) = (image(&M), image(&M[..1]));
    let removal = image(&[(7, 0, 0, 0, 0), (8, 0, 1, 0, 1), (9, 0, 0, 5, 0)]);
    let update = image(&[(10, 0, 1, 5, 2), (11, 0, 0, 0, 41), (12, 0, 1, 0, 2)]);
    writes(&clock, |out| slices::apply(&m, &removal, out));
    writes(&m, |out| slices::merge(&m, &m, out));
    writes(&clock, |out| slices::merge(&clock, &m, out));
    writes(&[], |out| slices::reset_remove(&m, &clock, out));
    writes(&update, |out| slices::update(&m, 1, 5, 41, 0, out));
    writes(&removal, |out| slices::rm_get(&m, 5, out));
    writes(&removal, |out| slices::rm_read_ctx(&m, 5, out));
    writes(&m, |out| slices::get(&m, 5, out));
    writes(&clock, |out| slices::get(&m, 6, out));
    assert_eq!(slices::len(&m), Ok(1));
}

#[test]
fn a_refused_image_leaves_the_buffer() {
    let m = image(&M);
    let mut out = vec![PAINT; LONGEST_MAP];
    for cut in (0..m.len()).filter(|cut| cut % 16 != 0) {
        let part = &m[..cut];
        assert_eq!(slices::apply(part, &[], &mut out), Err(Refusal::Malformed));
        assert_eq!(slices::merge(&m, part, &mut out), Err(Refusal::Malformed));
        assert_eq!(slices::reset_remove(&m, part, &mut out), Err(Refusal::Malformed));
        assert_eq!(slices::update(part, 1, 5, 41, 0, &mut out), Err(Refusal::Malformed));
        assert_eq!(slices::rm_get(part, 5, &mut out), Err(Refusal::Malformed));
        assert_eq!(slices::rm_read_ctx(part, 5, &mut out), Err(Refusal::Malformed));
        assert_eq!(slices::get(part, 5, &mut out), Err(Refusal::Malformed));
        assert_eq!(slices::len(part), Err(Refusal::Malformed));
        assert_eq!(slices::validate_op(part, &[]), Err(Refusal::Malformed));
        assert_eq!(slices::ready(part, &[]), Err(Refusal::Malformed));
        assert_eq!(slices::validate_merge(&m, part), Err(Refusal::Malformed));
    }
    assert!(out.iter().all(|&byte| byte == PAINT));
}

#[test]
fn a_lent_clock_of_every_kind() {
    let dots = |dots: &[(u16, u64)], len| {
        let mut clock = LentClock { len, ..LentClock::default() };
        for (place, &(actor, counter)) in clock.dots.iter_mut().zip(dots) {
            *place = LentDot { actor, counter };
        }
        clock
    };
    let eight: Vec<_> = (0..8).map(|actor| (actor, 1)).collect();
    let refusals = [
        (dots(&[(1, 1)], 9), Refusal::OverLimit),
        (dots(&[(1, 1)], usize::MAX), Refusal::OverLimit),
        (dots(&[(2, 1), (1, 1)], 2), Refusal::Malformed),
        (dots(&[(1, 1), (1, 1)], 2), Refusal::Malformed),
        (dots(&[(1, 0)], 1), Refusal::Malformed),
        (dots(&eight, 8), Refusal::TooManyDots),
    ];
    for (before, refusal) in refusals {
        let mut clock = before;
        assert_eq!(slices::clock_advance(&mut clock, 8, 1), Err(refusal));
        assert_eq!(clock, before);
    }

    // what stands behind len is not read
    let mut clock = dots(&[(1, 1), (3, 1), (0, 0)], 2);
    assert_eq!(slices::clock_advance(&mut clock, 2, 5), Ok(()));
    assert_eq!(clock, dots(&[(1, 1), (2, 5), (3, 1)], 3));
}
