//! The guard before an update is applied, from the rule's own words, on the published crate's clocks.

use crate::model::{Map, Operation};
use crate::published::clock_in;
use crdts::{CmRDT, Dot, VClock};

/// What the guard says of an operation.
#[derive(Clone, Copy, Debug, PartialEq, Eq)]
pub enum Place {
    Next,
    Foreign,
    Seen,
    /// The first actor of which updates are missing, and the first of these.
    Hold(u16, u64),
}

/// "Causal: an update is applied only when the map clock covers its put clock but for its own dot, which is the
/// actor's next."
pub fn place(map: &Map, operation: &Operation) -> Place {
    let Operation::Update { actor, counter, put_clock, .. } = operation else {
        return Place::Next;
    };
    let (seen, put) = (clock_in(&map.clock), clock_in(put_clock));
    if put.get(actor) != *counter {
        return Place::Foreign;
    }
    if seen.get(actor) >= *counter {
        return Place::Seen;
    }
    // what must have come: the put clock with the update before this one in place of this one
    let mut before: VClock<u16> =
        put.clone().into_iter().filter(|dot| dot.actor != *actor).collect();
    if *counter > 1 {
        before.apply(Dot::new(*actor, *counter - 1));
    }
    // what stands in `before` and not in `seen`, whose actors ascend
    let missing = before.clone_without(&seen);
    match missing.into_iter().next() {
        None => Place::Next,
        Some(first) => Place::Hold(first.actor, seen.get(&first.actor) + 1),
    }
}
