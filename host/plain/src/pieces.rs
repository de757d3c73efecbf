//! A map's image that comes in pieces, the plain way: they are joined in the lent memory, and read at the end.

use crate::image::read_map_into;
use crate::{number, write_map, Map, LONGEST_MAP};

/// The bytes of a reader: a mark, the length so far, the image.
pub const PIECES: usize = IMAGE + LONGEST_MAP;

const OPEN: usize = 0;
const LENGTH: usize = 1;
const IMAGE: usize = 5;

fn refused(number: u32) -> u64 {
    u64::from(number) << 32
}

fn length_of(reader: &[u8; PIECES]) -> usize {
    let bytes = reader[LENGTH..IMAGE].try_into().expect("a length has four bytes");
    u32::from_le_bytes(bytes) as usize
}

fn set_length(reader: &mut [u8; PIECES], length: usize) {
    reader[LENGTH..IMAGE].copy_from_slice(&(length as u32).to_le_bytes());
}

pub fn castribba_pieces_begin(reader: &mut [u8; PIECES]) -> u64 {
    reader[OPEN] = 1;
    set_length(reader, 0);
    0
}

pub fn castribba_pieces_take(reader: &mut [u8; PIECES], piece: &[u8]) -> u64 {
    if reader[OPEN] != 1 {
        return refused(number::ENDED);
    }
    // one more than the longest stands for all that is longer
    let length = length_of(reader).min(LONGEST_MAP + 1);
    let joined = length.saturating_add(piece.len());
    if joined <= LONGEST_MAP {
        reader[IMAGE + length..IMAGE + joined].copy_from_slice(piece);
    }
    set_length(reader, joined.min(LONGEST_MAP + 1));
    0
}

fn delivered(reader: &[u8; PIECES], out: &mut [u8]) -> Result<usize, u32> {
    let image = reader[IMAGE..].get(..length_of(reader)).ok_or(number::IMAGE_OVER_LIMIT)?;
    let mut map = Map::EMPTY;
    read_map_into(image, &mut map)?;
    write_map(&map, out)
}

pub fn castribba_pieces_end(reader: &mut [u8; PIECES], out: &mut [u8]) -> u64 {
    if reader[OPEN] != 1 {
        return refused(number::ENDED);
    }
    let answer = delivered(reader, out);
    if answer != Err(number::SHORT_BUFFER) {
        reader[OPEN] = 0;
    }
    answer.map_or_else(refused, |length| length as u64)
}
