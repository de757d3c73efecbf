//! What comes back of a damaged image of a map.
//!
//! A drive with a worn page gives an image with bad records. [`into`] writes an image that every other call
//! accepts, and [`report_into`] says what was removed or changed on the way, record by record, by the step
//! that did it. They take input of every content: only one of more than [`LONGEST_MAP`](crate::LONGEST_MAP)
//! bytes is refused, and too short a buffer.
//!
//! What comes back is a good image, and not what was there. A setting that was lost counts as removed in a
//! merge, wherever the map clock's dot came back: where another party is well, take its map, and do not merge
//! this one into it. An actor whose map clock dot was lost would count from 1 again. Damage that leaves a
//! record good and in order is not seen: a changed value is a value.

use core::fmt;

use crate::slices::{judged, with_one};
use crate::Refusal;

/// The longest report, in bytes.
pub const LONGEST_REPORT: usize = 9_005;
/// The bytes of a record of the report.
const TOLD: usize = 5;

/// Why a record was removed or changed.
#[derive(Clone, Copy, Debug, PartialEq, Eq, PartialOrd, Ord, Hash)]
#[non_exhaustive]
pub enum Step {
    /// 1: it is a part of a record, at the end.
    Part,
    /// 2: it is bad by itself: its kind, an unused field or a zero counter.
    Bad,
    /// 3: it is not above the last one kept.
    Order,
    /// 4: what it needs is not there, or its limit was full.
    Need,
    /// 5: its index is another, or it went where removals that wait for the same clock were united.
    Mended,
    /// A step that this version does not know.
    Unknown(u8),
}

impl Step {
    fn with_number(number: u8) -> Step {
        match number {
            1 => Step::Part,
            2 => Step::Bad,
            3 => Step::Order,
            4 => Step::Need,
            5 => Step::Mended,
            _ => Step::Unknown(number),
        }
    }

    /// Document 02's number.
    pub fn number(self) -> u8 {
        match self {
            Step::Part => 1,
            Step::Bad => 2,
            Step::Order => 3,
            Step::Need => 4,
            Step::Mended => 5,
            Step::Unknown(number) => number,
        }
    }
}

impl fmt::Display for Step {
    fn fmt(&self, f: &mut fmt::Formatter<'_>) -> fmt::Result {
        match self {
            Step::Part => write!(f, "a part of a record"),
            Step::Bad => write!(f, "bad by itself"),
            Step::Order => write!(f, "not above the last one kept"),
            Step::Need => write!(f, "what it needs is not there, or its limit is full"),
            Step::Mended => write!(f, "another index, or united with another removal"),
            Step::Unknown(_) => write!(f, "a step that this version does not know"),
        }
    }
}

/// A record that was removed or changed.
#[derive(Clone, Copy, Debug, PartialEq, Eq, Hash)]
pub struct Told {
    /// Its place in the input, from 0: byte `16 * place` is its first.
    pub place: u32,
    pub step: Step,
}

/// Writes the image that came back, and answers its length.
///
/// ```
/// use castribba::{salvage, Map, Refusal, LONGEST_MAP};
///
/// // the record of the value is worn: its entry comes back without it
/// let mut map = Map::new();
/// map.apply(&map.update(1, 5, 40, 0)?)?;
/// let mut worn = map.as_image().to_vec();
/// worn[32] = 0xFF;
/// assert_eq!(Map::from_image(&worn), Err(Refusal::Malformed));
/// let mut out = [0; LONGEST_MAP];
/// let len = salvage::into(&worn, &mut out)?;
/// let back = Map::from_image(&out[..len])?;
/// assert!(back.contains_key(5) && back.values(5).is_empty());
/// # Ok::<(), Refusal>(())
/// ```
pub fn into(image: &[u8], out: &mut [u8]) -> Result<usize, Refusal> {
    judged(with_one!(castribba_salvage, image; out))
}

/// Writes the report, and answers its length; [`told`] reads it.
///
/// ```
/// use castribba::salvage::{self, Step};
/// use castribba::Refusal;
///
/// // a dot of no entry that the map clock has seen, and half a record
/// let mut worn = [2, 0, 1, 0, 5, 0, 0, 0, 1, 0, 0, 0, 0, 0, 0, 0].to_vec();
/// worn.extend([2; 8]);
/// let mut out = [0; salvage::LONGEST_REPORT];
/// let len = salvage::report_into(&worn, &mut out)?;
/// let told: Vec<_> = salvage::told(&out[..len]).map(|one| (one.place, one.step)).collect();
/// assert_eq!(told, [(0, Step::Need), (1, Step::Part)]);
/// # Ok::<(), Refusal>(())
/// ```
pub fn report_into(image: &[u8], out: &mut [u8]) -> Result<usize, Refusal> {
    judged(with_one!(castribba_salvage_report, image; out))
}

/// The records of a report, ascending by place.
pub fn told(report: &[u8]) -> impl Iterator<Item = Told> + '_ {
    report.chunks_exact(TOLD).map(|chunk| {
        let [place @ .., step] = chunk else { unreachable!("a chunk has the length of a record") };
        let place = place.try_into().expect("four bytes are before the step");
        Told { place: u32::from_le_bytes(place), step: Step::with_number(*step) }
    })
}

#[cfg(feature = "alloc")]
mod owned {
    use alloc::vec::Vec;

    use super::{report_into, told, Told, LONGEST_REPORT};
    use crate::{Map, Refusal};

    /// The map that came back, and each record of the input that was removed or changed.
    ///
    /// ```
    /// use castribba::{salvage, Map};
    ///
    /// let mut map = Map::new();
    /// map.apply(&map.update(1, 5, 40, 0)?)?;
    /// assert_eq!(salvage::salvage(map.as_image())?, (map, vec![]));
    /// # Ok::<(), castribba::Refusal>(())
    /// ```
    pub fn salvage(image: &[u8]) -> Result<(Map, Vec<Told>), Refusal> {
        let map = Map::written(|out| super::into(image, out))?;
        let mut report = alloc::vec![0; LONGEST_REPORT];
        let len = report_into(image, &mut report)?;
        Ok((map, told(&report[..len]).collect()))
    }
}
#[cfg(feature = "alloc")]
pub use owned::salvage;
