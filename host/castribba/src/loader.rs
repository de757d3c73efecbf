//! The boot loader's choice: what each bay boots.
//!
//! Keys 1 to 24 are bays. Of a bay's values, those whose clock is strictly below another's are dropped,
//! and the smallest of the rest is taken. The calls take images of every content.

use crate::slices::{judged, with_one};
use crate::Refusal;

/// How many bays there are: they are numbered from 1.
pub const BAYS: usize = 24;
/// The bytes of a report.
const REPORT: usize = 11;

/// What a bay boots.
#[derive(Clone, Copy, Debug, Default, PartialEq, Eq, Hash)]
pub struct Report {
    /// How many values remained.
    pub remaining: u8,
    /// Whether they differ.
    pub differ: bool,
    /// The value taken; none where the bay has no entry, or no value.
    pub value: Option<u64>,
}

impl Report {
    fn from_bytes(bytes: &[u8; REPORT]) -> Report {
        let [remaining, differ, found, value @ ..] = *bytes;
        let value = (found == 1).then_some(u64::from_le_bytes(value));
        Report { remaining, differ: differ == 1, value }
    }
}

/// What a bay boots; [`Refusal::NoBay`] for a bay outside 1 to 24.
///
/// ```
/// use castribba::{loader, Map, Refusal};
///
/// let mut map = Map::new();
/// map.apply(&Map::new().update(1, 5, 41, 0)?)?;
/// map.apply(&Map::new().update(2, 5, 40, 0)?)?;
/// let report = loader::Report { remaining: 2, differ: true, value: Some(40) };
/// assert_eq!(loader::bay(map.as_image(), 5), Ok(report));
/// assert_eq!(loader::bay(map.as_image(), 6), Ok(loader::Report::default()));
/// assert_eq!(loader::bay(map.as_image(), 25), Err(Refusal::NoBay));
/// # Ok::<(), Refusal>(())
/// ```
pub fn bay(map: &[u8], bay: u32) -> Result<Report, Refusal> {
    let mut out = [0; REPORT];
    judged(with_one!(castribba_bay, map, bay; out))?;
    Ok(Report::from_bytes(&out))
}

/// What each bay boots, bay 1 first.
pub fn bays(map: &[u8]) -> Result<[Report; BAYS], Refusal> {
    let mut out = [0; BAYS * REPORT];
    judged(with_one!(castribba_bays, map; out))?;
    let mut reports = [Report::default(); BAYS];
    for (report, bytes) in reports.iter_mut().zip(out.chunks_exact(REPORT)) {
        *report = Report::from_bytes(bytes.try_into().expect("a chunk has the length of a report"));
    }
    Ok(reports)
}
