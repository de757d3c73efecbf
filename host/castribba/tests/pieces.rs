//! A map in pieces: cut in every way, too long, refused, after the end, and the reader's own bytes.

mod common;

use castribba::slices::{self, LentPieces};
use castribba::{Map, Pieces, Refusal, LONGEST_MAP, PIECES};
use common::{image, map, most_entries, Line, M};

const PAINT: u8 = 0xEE;

fn joined<'a>(pieces: impl IntoIterator<Item = &'a [u8]>) -> Result<Map, Refusal> {
    let mut reader = Pieces::new();
    pieces.into_iter().for_each(|piece| reader.take(piece));
    reader.end()
}

fn begun() -> LentPieces {
    let mut reader = LentPieces { bytes: [PAINT; PIECES] };
    slices::pieces_begin(&mut reader).expect("a reader can always begin");
    reader
}

#[test]
fn every_cut_in_two_and_in_three() {
    let whole = image(&M);
    for first in 0..=whole.len() {
        for second in first..=whole.len() {
            let pieces = [&whole[..first], &whole[first..second], &whole[second..]];
            assert_eq!(joined(pieces), Ok(map(&M)));
        }
    }
}

#[test]
fn pieces_of_every_length() {
    let entries = image(&most_entries());
    let waiting: Vec<Line> = (0..16).map(|index| (5, index, u16::from(index), 0, 1)).collect();
    for whole in [entries, image(&waiting)] {
        for length in 1..=whole.len() + 1 {
            assert_eq!(joined(whole.chunks(length)), Map::from_image(&whole));
        }
    }
}

#[test]
fn nothing_is_the_empty_map() {
    assert_eq!(Pieces::new().end(), Ok(Map::new()));
    assert_eq!(joined([&[][..], &[]]), Ok(Map::new()));
    assert_eq!(Pieces::default().end_into(&mut []).ok(), Some(0));
}

#[test]
fn a_prefix_is_answered_as_it_is_at_once() {
    let whole = image(&M);
    for len in 0..=whole.len() {
        assert_eq!(joined(whole[..len].chunks(5)), Map::from_image(&whole[..len]), "{len} bytes");
    }
}

#[test]
fn too_long_is_said_at_the_end() {
    let zeros = [0; LONGEST_MAP + 1];
    assert_eq!(joined(zeros[1..].chunks(64)), Err(Refusal::Malformed));
    assert_eq!(joined(zeros.chunks(64)), Err(Refusal::OverLimit));
    assert_eq!(joined(std::iter::repeat_n(&zeros[..], 50)), Err(Refusal::OverLimit));
    assert_eq!(joined([&image(&M)[..], &zeros]), Err(Refusal::OverLimit));
}

#[test]
fn a_short_buffer_leaves_the_reader() {
    let whole = image(&M);
    let mut reader = Pieces::new();
    reader.take(&whole[..16]);
    let (refusal, back) = reader.end_into(&mut []).expect_err("no room");
    assert_eq!(refusal, Refusal::ShortBuffer);
    let mut reader = back.expect("the reader comes back");
    reader.take(&whole[16..]);
    let mut out = [PAINT; 80];
    let (refusal, back) = reader.end_into(&mut out[..63]).expect_err("a byte short");
    assert_eq!((refusal, out), (Refusal::ShortBuffer, [PAINT; 80]));
    let length = back.expect("the reader comes back").end_into(&mut out);
    assert_eq!(length.ok(), Some(64));
    assert_eq!((&out[..64], &out[64..]), (&whole[..], &[PAINT; 16][..]));
}

#[test]
fn another_refusal_ends_the_reader() {
    let mut reader = Pieces::new();
    reader.take(&[0; 15]);
    let (refusal, back) = reader.end_into(&mut []).expect_err("no image");
    assert_eq!(refusal, Refusal::Malformed);
    assert!(back.is_none());
}

#[test]
fn after_the_end_nothing_changes() {
    for (bytes, answer) in [(image(&M), Ok(64)), (vec![0; 15], Err(Refusal::Malformed))] {
        let (mut reader, mut out) = (begun(), [PAINT; 64]);
        slices::pieces_take(&mut reader, &bytes).expect("an open reader");
        let before = reader;
        assert_eq!(slices::pieces_end(&mut reader, &mut out), answer);
        assert_eq!(reader.bytes[1..], before.bytes[1..]);

        let (ended, written) = (reader, out);
        assert_eq!(slices::pieces_take(&mut reader, &bytes), Err(Refusal::Ended));
        assert_eq!(slices::pieces_take(&mut reader, &[]), Err(Refusal::Ended));
        assert_eq!(slices::pieces_end(&mut reader, &mut out), Err(Refusal::Ended));
        assert_eq!((reader, out), (ended, written));

        // and begins again
        slices::pieces_begin(&mut reader).expect("a reader can always begin");
        slices::pieces_take(&mut reader, &image(&M)).expect("an open reader");
        assert_eq!(slices::pieces_end(&mut reader, &mut out), Ok(64));
    }
}

/// Memory that no begin has touched: 13, or where its mark says open, some answer.
#[test]
fn memory_of_any_content() {
    let mut state = 1u64;
    let mut random = || {
        state = state.wrapping_mul(6364136223846793005).wrapping_add(1442695040888963407);
        (state >> 33) as u8
    };
    let mut out = vec![PAINT; LONGEST_MAP];
    for mark in 0..=255 {
        for fill in 0..8 {
            let mut reader = LentPieces { bytes: [fill; PIECES] };
            if fill > 1 {
                reader.bytes.iter_mut().for_each(|byte| *byte = random() >> fill);
            }
            reader.bytes[0] = mark;
            let before = reader;
            let taken = slices::pieces_take(&mut reader, &image(&M));
            let end = slices::pieces_end(&mut reader, &mut out);
            if mark == 1 {
                assert_eq!(taken, Ok(()));
                assert_ne!(end, Err(Refusal::Ended));
            } else {
                assert_eq!((taken, end), (Err(Refusal::Ended), Err(Refusal::Ended)));
                assert_eq!(reader, before);
            }
        }
    }
}
