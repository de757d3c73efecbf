//! What differs between two maps, as `castribba_differences` tells it.

use core::slice::ChunksExact;

/// How a key differs.
#[derive(Clone, Copy, Debug, PartialEq, Eq, Hash)]
pub enum Class {
    /// 1: it is in the first map alone.
    OnlyFirst,
    /// 2: it is in the second map alone.
    OnlySecond,
    /// 3: it is in both, with another clock or register.
    Other,
}

/// A key that differs.
#[derive(Clone, Copy, Debug, PartialEq, Eq, Hash)]
pub struct Difference {
    pub class: Class,
    pub key: u32,
}

/// The records of a report, ascending by key.
#[derive(Clone, Debug)]
pub struct Differences<'a>(ChunksExact<'a, u8>);

impl<'a> Differences<'a> {
    /// Those of a report that [`slices::differences`](crate::slices::differences) wrote.
    pub fn of(report: &'a [u8]) -> Differences<'a> {
        Differences(report.chunks_exact(5))
    }
}

impl Iterator for Differences<'_> {
    type Item = Difference;

    fn next(&mut self) -> Option<Difference> {
        let record = self.0.next()?;
        let class = match record[0] {
            1 => Class::OnlyFirst,
            2 => Class::OnlySecond,
            _ => Class::Other,
        };
        let key = u32::from_le_bytes([record[1], record[2], record[3], record[4]]);
        Some(Difference { class, key })
    }
}
