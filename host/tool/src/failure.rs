//! Why the tool stops: what it says, and its exit status.

use castribba::{Ready, Refusal};
use std::fmt;

/// A reason to stop. Nothing was written.
pub enum Failure {
    /// What was asked for is refused: by whom or of what, the number and its text, and more for a reader.
    Refused { what: String, refusal: Refusal, more: String },
    /// The guard says that an update must not be applied yet, or not at all.
    NotNext(Ready),
    /// The command's words or a file are at fault.
    Trouble(String),
}

impl Failure {
    pub fn status(&self) -> u8 {
        match self {
            Failure::Refused { .. } | Failure::NotNext(_) => 1,
            Failure::Trouble(_) => 2,
        }
    }
}

impl fmt::Display for Failure {
    fn fmt(&self, f: &mut fmt::Formatter<'_>) -> fmt::Result {
        match self {
            Failure::Refused { what, refusal, more } => {
                write!(f, "{what}: refused, number {}: {refusal}{more}", refusal.number())
            }
            Failure::NotNext(ready) => {
                write!(f, "apply: refused, number {}: {ready}", ready.number())
            }
            Failure::Trouble(what) => write!(f, "{what}"),
        }
    }
}

pub fn trouble<T>(what: impl Into<String>) -> Result<T, Failure> {
    Err(Failure::Trouble(what.into()))
}
