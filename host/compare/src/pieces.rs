//! Images that come in pieces: the end must answer what the whole image is answered with, and the reader's
//! memory must be as the calls promise.

use crate::checker::{pattern, GUARD, PRINTED};
use crate::panics::caught;
use crate::question::{dump, Call};
use crate::random::Random;
use calls::{Calls, LONGEST_MAP};
use oracle::expected::{self, Answer};
use oracle::full::full_map;
use oracle::image::map_image;
use std::collections::BTreeMap;

pub struct Feeder<'a> {
    calls: &'a dyn Calls,
    random: Random,
    /// The images that came last, by their place in a question: one that stays is not fed again.
    last: [Option<Vec<u8>>; 2],
    /// One in so many of the others is fed.
    share: usize,
    pub images: u64,
    pub differences: u64,
}

type Met = BTreeMap<(Call, u32), u64>;

/// One image in so many is fed: every one of the random rounds, and of the short inputs, which are many and
/// alike, so many that they take little time.
const SHARE_OF_SHORT: usize = 8;
const SHARE_OF_RANDOM: usize = 1;
/// Ways of cutting each of the longest images.
const TIMES_OF_LONGEST: usize = 48;

const ENDED: u32 = 13;
const SHORT: u32 = 10;

/// Bytes lent to a call, with others around them that it must not touch.
struct Lent {
    bytes: Vec<u8>,
    start: usize,
    len: usize,
}

impl Lent {
    fn new(random: &mut Random, len: usize) -> Lent {
        let start = GUARD + random.below(16);
        Lent { bytes: (0..start + len + GUARD).map(pattern).collect(), start, len }
    }

    fn lend(&mut self) -> &mut [u8] {
        &mut self.bytes[self.start..self.start + self.len]
    }

    /// Whether all is as before a call, but for bytes in its place from its start on.
    fn is(&self, before: &[u8], then: &[u8]) -> bool {
        let changed = self.start + then.len();
        self.bytes[..self.start] == before[..self.start]
            && self.bytes[self.start..changed] == *then
            && self.bytes[changed..] == before[changed..]
    }
}

/// Any way of cutting, empty pieces and pieces longer than a mailbox's among them.
fn cut<'a>(random: &mut Random, image: &'a [u8]) -> Vec<&'a [u8]> {
    let most = *random.pick(&[1, 15, 16, 17, 64, 64, 64, 64, 100, 200, 1000, LONGEST_MAP]);
    let (all_alike, with_empty) = (random.one_in(3), random.one_in(3));
    let mut pieces: Vec<&[u8]> = Vec::new();
    let mut rest = image;
    while !rest.is_empty() {
        if with_empty && random.one_in(4) {
            pieces.push(&[]);
        }
        let length = if all_alike { most } else { random.between(1, most) };
        let (piece, behind) = rest.split_at(length.min(rest.len()));
        pieces.push(piece);
        rest = behind;
    }
    if with_empty {
        pieces.push(&[]);
    }
    pieces
}

impl<'a> Feeder<'a> {
    pub fn new(calls: &'a dyn Calls, seed: u64) -> Feeder<'a> {
        // other numbers than the inputs and the checker's buffers are made from
        let random = Random::new(seed.rotate_left(32) ^ 0x5151);
        Feeder {
            calls,
            random,
            last: [None, None],
            share: SHARE_OF_SHORT,
            images: 0,
            differences: 0,
        }
    }

    /// From here on images are long, and fewer.
    pub fn feed_more(&mut self) {
        self.share = SHARE_OF_RANDOM;
    }

    /// Feeds an image, where another came last from this place.
    pub fn feed(&mut self, place: usize, image: &[u8], met: &mut Met) {
        if self.last[place].as_deref() == Some(image) {
            return;
        }
        self.last[place] = Some(image.to_vec());
        if self.random.one_in(self.share) {
            self.compare(image, met);
        }
    }

    /// The longest map, and images a little shorter and longer, cut in many ways: rounds seldom have them.
    pub fn feed_longest(&mut self, met: &mut Met) {
        let longest = map_image(&full_map(|_| false));
        for _ in 0..TIMES_OF_LONGEST {
            for length in
                [LONGEST_MAP - 16, LONGEST_MAP - 1, LONGEST_MAP, LONGEST_MAP + 1, LONGEST_MAP + 64]
            {
                let mut image = longest.clone();
                image.resize(length, 0);
                self.compare(&image, met);
            }
        }
    }

    fn compare(&mut self, image: &[u8], met: &mut Met) {
        self.images += 1;
        if let Some(fault) = self.fault(image, met) {
            self.differs(image, fault);
        }
    }

    fn differs(&mut self, image: &[u8], mut fault: String) {
        self.differences += 1;
        if self.differences > PRINTED {
            return;
        }
        // leave records out for as long as something is still wrong, however they are cut
        let mut smallest = image.to_vec();
        while let Some((smaller, its_fault)) = (0..smallest.len() / 16).find_map(|record| {
            let mut smaller = smallest.clone();
            smaller.drain(record * 16..record * 16 + 16);
            self.fault(&smaller, &mut Met::new()).map(|fault| (smaller, fault))
        }) {
            (smallest, fault) = (smaller, its_fault);
        }
        println!(
            "DIFFERENCE in pieces of an image of {} bytes:\n{}",
            smallest.len(),
            dump(&smallest)
        );
        println!("  {fault}\n");
    }

    /// What is wrong, if anything, from before the begin to after the end, and begun again.
    fn fault(&mut self, image: &[u8], met: &mut Met) -> Option<String> {
        let answer = expected::delivered(image);
        let mut reader = Lent::new(&mut self.random, self.calls.pieces_len());
        if self.random.one_in(8) {
            // any mark but the open one
            reader.lend()[0] = self.random.between(2, 256) as u8;
            if let Some(fault) = self.refused_after_end(&mut reader, image, met) {
                return Some(format!("not begun: {fault}"));
            }
        }
        let again = 1 + usize::from(self.random.one_in(4));
        (0..again).find_map(|_| {
            let pieces = cut(&mut self.random, image);
            let fault = self.fault_of(&mut reader, &pieces, image, &answer, met)?;
            let lengths: Vec<usize> = pieces.iter().map(|piece| piece.len()).collect();
            Some(format!("cut {lengths:?}: {fault}"))
        })
    }

    fn fault_of(
        &mut self,
        reader: &mut Lent,
        pieces: &[&[u8]],
        image: &[u8],
        answer: &Answer,
        met: &mut Met,
    ) -> Option<String> {
        let calls = self.calls;
        if self.random.one_in(8) {
            // begun for another image, and given up
            let _ = caught(|| calls.pieces_begin(reader.lend()));
            let _ = caught(|| calls.pieces_take(reader.lend(), &image[image.len() / 3..]));
        }
        if caught(|| calls.pieces_begin(reader.lend())) != Some(0) {
            return Some("begin does not answer 0".to_string());
        }
        // the end is told too early once, if at all
        let early = self.random.one_in(8).then(|| self.random.below(pieces.len() + 1));
        let mut taken = 0;
        for (place, piece) in pieces.iter().enumerate() {
            if early == Some(place) && expected::delivered(&image[..taken]).number == 0 && taken > 0
            {
                let room = self.random.below(taken);
                if let Some(fault) = self.fault_of_end(reader, &expected::refused(SHORT), room, met)
                {
                    return Some(format!("after {taken} bytes: {fault}"));
                }
            }
            *met.entry((Call::PiecesTake, 0)).or_default() += 1;
            if caught(|| calls.pieces_take(reader.lend(), piece)) != Some(0) {
                return Some(format!("a piece after {taken} bytes is not answered with 0"));
            }
            taken += piece.len();
        }
        let length = answer.bytes.len();
        let room = match self.random.below(4) {
            0 => length.saturating_sub(1),
            1 => self.random.below(length + 1),
            2 => length + self.random.below(40),
            _ => length,
        };
        let first = answer.in_room(room);
        if let Some(fault) = self.fault_of_end(reader, &first, room, met) {
            return Some(fault);
        }
        if first.number == SHORT {
            if let Some(fault) = self.fault_of_end(reader, answer, length, met) {
                return Some(format!("told again: {fault}"));
            }
        }
        self.refused_after_end(reader, image, met).map(|fault| format!("after the end: {fault}"))
    }

    /// Number, length, every byte written, every byte left alone, of the output and of the reader.
    fn fault_of_end(
        &mut self,
        reader: &mut Lent,
        expected: &Answer,
        room: usize,
        met: &mut Met,
    ) -> Option<String> {
        let calls = self.calls;
        let mut out = Lent::new(&mut self.random, room);
        let (held, painted) = (reader.bytes.clone(), out.bytes.clone());
        *met.entry((Call::PiecesEnd, expected.number)).or_default() += 1;
        let word = caught(|| calls.pieces_end(reader.lend(), out.lend()));
        let wanted = u64::from(expected.number) << 32 | expected.bytes.len() as u64;
        if word != Some(wanted) {
            return Some(format!(
                "the end answers {word:x?} for {wanted:x}, in a buffer of {room}"
            ));
        }
        if !out.is(&painted, &expected.bytes) {
            return Some(format!("the end writes something else, in a buffer of {room}"));
        }
        let mark: &[u8] = if [SHORT, ENDED].contains(&expected.number) { &[] } else { &[0] };
        if !reader.is(&held, mark) {
            return Some("the end leaves another reader".to_string());
        }
        None
    }

    /// A piece, no piece and a second end are refused with 13, and change nothing.
    fn refused_after_end(
        &mut self,
        reader: &mut Lent,
        image: &[u8],
        met: &mut Met,
    ) -> Option<String> {
        let calls = self.calls;
        let held = reader.bytes.clone();
        for piece in [image, &[]] {
            *met.entry((Call::PiecesTake, ENDED)).or_default() += 1;
            let word = caught(|| calls.pieces_take(reader.lend(), piece));
            if word != Some(u64::from(ENDED) << 32) || reader.bytes != held {
                return Some(format!("a piece is answered with {word:x?}, or changes the reader"));
            }
        }
        let room = self.random.below(64);
        self.fault_of_end(reader, &expected::refused(ENDED), room, met)
    }
}
