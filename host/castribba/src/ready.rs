//! What the guard says of an operation: castribba_ready's numbers, and what one of them carries.

use core::fmt;

/// Whether an operation may be applied to a map, as [`Map::ready`](crate::Map::ready) tells.
#[derive(Clone, Copy, Debug, PartialEq, Eq, Hash)]
#[must_use = "an update that is not the next must not be applied"]
pub enum Ready {
    /// 0: it is the next, or a removal: apply it.
    Next,
    /// 19: its put clock lacks its own dot, so that no `update` made it: do not apply it.
    Foreign,
    /// 20: the map has seen it: drop it.
    Seen,
    /// 21: something that its writer had seen is missing, first this update of this actor: hold it, and ask
    /// again when more has come.
    Hold { actor: u16, counter: u64 },
}

impl Ready {
    /// The number that the archive answers.
    ///
    /// ```
    /// assert_eq!(castribba::Ready::Hold { actor: 1, counter: 2 }.number(), 21);
    /// ```
    pub fn number(&self) -> u32 {
        match self {
            Ready::Next => 0,
            Ready::Foreign => 19,
            Ready::Seen => 20,
            Ready::Hold { .. } => 21,
        }
    }
}

impl fmt::Display for Ready {
    fn fmt(&self, f: &mut fmt::Formatter<'_>) -> fmt::Result {
        match self {
            Ready::Next => write!(f, "it is the next"),
            Ready::Foreign => write!(f, "the update was not made by castribba_update"),
            Ready::Seen => write!(f, "the update was seen"),
            Ready::Hold { actor, counter } => {
                write!(f, "update {counter} of actor {actor} is missing, which its writer had seen")
            }
        }
    }
}
