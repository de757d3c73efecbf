//! The settings map of boot drives, for Rust programs: a safe crate over `libcastribba.a`.
//!
//! A [`Map`] gives each key (a bay) the values (numbers of boot images) that were last put there.
//! Parties edit their own copies while apart. An edit is an [`Operation`]: it may arrive late, and
//! twice, and [a guard](Map::ready) says whether it may be applied yet. A value is overwritten only by one
//! who had seen it; values that did not know of each other stand side by side. Each carries a code of who
//! set it, its origin, which decides nothing.
//!
//! ```
//! use castribba::{Map, Ready};
//!
//! // at actor 1 operator 7 picks image 40 for bay 5, and actor 2 hears of it, twice
//! let (mut ours, mut theirs) = (Map::new(), Map::new());
//! let pick = ours.update(1, 5, 40, 7)?;
//! ours.apply(&pick)?;
//! assert_eq!(theirs.feed(&pick)?, Ready::Next);
//! assert_eq!(theirs.feed(&pick)?, Ready::Seen);
//! assert_eq!(theirs, ours);
//!
//! // apart, both pick another: the two values stand side by side
//! let (by_us, by_them) = (ours.update(1, 5, 41, 0)?, theirs.update(2, 5, 42, 0)?);
//! for op in [&by_us, &by_them] {
//!     let _ = (ours.feed(op)?, theirs.feed(op)?);
//! }
//! assert_eq!(ours.values(5), [41, 42]);
//!
//! // whoever has seen both overwrites both
//! let both = ours.update(1, 5, 43, 0)?;
//! let _ = (ours.feed(&both)?, theirs.feed(&both)?);
//! assert_eq!(ours.values(5), [43]);
//! assert!(ours.agrees_with(&theirs));
//! # Ok::<(), castribba::Refusal>(())
//! ```
//!
//! [`Map`], [`Operation`] and [`Clock`] own their image, the bytes that travel between parties, and
//! it was judged when they were made. [`Pieces`] reads a map whose image comes in pieces. [`slices`] has the
//! same calls on byte slices, for callers who have no heap. A refused call answers a [`Refusal`] and changes nothing. docs/FORMAT.md lays out an
//! image's records; [`Record`] is one of them.
//!
//! # Five rules
//!
//! Under them a withdrawn value stays away, and drives that were given the same operations agree. Where one
//! is broken withdrawn values boot, drives differ for good or settings are lost, though every call answers
//! `Ok`. docs/REMOVALS.md has what is proved, with every premise; rules 4 and 5 were found by a search and are
//! not proved.
//!
//! ## 1. Ask before an update is applied
//!
//! On every drive, also on one that only reads: [`Map::ready`], or [`Map::feed`], which applies what is next.
//! What was seen is dropped, and what must be held is asked about again when more has come. [`Map::apply`]
//! takes an update over a gap.
//!
//! ```
//! use castribba::{Map, Ready};
//!
//! let (mut ours, mut theirs) = (Map::new(), Map::new());
//! let bay_5 = ours.update(1, 5, 40, 0)?;
//! ours.apply(&bay_5)?;
//! let bay_6 = ours.update(1, 6, 60, 0)?;
//! ours.apply(&bay_6)?;
//!
//! assert_eq!(theirs.ready(&bay_6), Ready::Hold { actor: 1, counter: 1 });
//! theirs.apply(&bay_6)?;
//! theirs.apply(&bay_5)?;
//! assert_eq!((theirs.values(5), theirs.values(6)), (vec![], vec![60]));
//! // a merge takes the loss for a removal
//! ours.merge(&theirs)?;
//! assert_eq!(ours.values(5), []);
//! # Ok::<(), castribba::Refusal>(())
//! ```
//!
//! [`Map::validate_op`] is not that guard: it asks the entry of the update's key, and so refuses an actor's
//! next update on another key; and it does not ask what the writer had seen of others.
//!
//! ## 2. Withdraw by `withdraw`
//!
//! [`Map::withdraw`], on a map that was fed by rule 1, removes under a key all that the map has seen.
//! [`Map::remove_entry`] removes the entry's own dots alone, and is for a map that a single actor writes.
//! A removal may be applied at any time, also before what it removes, and again.
//!
//! ```
//! use castribba::Map;
//!
//! // B's value has seen A's, which A has removed
//! let (mut a, mut b) = (Map::new(), Map::new());
//! let first = a.update(1, 5, 10, 0)?;
//! let _ = (a.feed(&first)?, b.feed(&first)?);
//! a.apply(&a.withdraw(5)?)?;
//! let second = b.update(2, 5, 40, 0)?;
//! let _ = (a.feed(&second)?, b.feed(&second)?);
//!
//! let (by_entry, withdrawal) = (a.remove_entry(5)?, a.withdraw(5)?);
//! let mut without_the_rule = b.clone();
//! let _ = (without_the_rule.feed(&by_entry)?, b.feed(&withdrawal)?);
//! assert_eq!((without_the_rule.values(5), b.values(5)), (vec![40], vec![]));
//! # Ok::<(), castribba::Refusal>(())
//! ```
//!
//! ## 3. An actor number belongs to one party
//!
//! Its counters never start again, and it makes its updates on its newest map. Where two count as one,
//! or one map alone is reset, a dot stands for two updates: each side takes the other's for seen, and a
//! merge drops both. [`Map::validate_merge`] shows it, unless both wrote the same key.
//!
//! ```
//! use castribba::{Map, Refusal};
//!
//! let (mut ours, mut theirs) = (Map::new(), Map::new());
//! ours.apply(&ours.update(1, 5, 40, 0)?)?;
//! theirs.apply(&theirs.update(1, 6, 60, 0)?)?;
//! let spent = Refusal::DoubleSpent { actor: 1, counter: 1, our_key: 5, their_key: 6 };
//! assert_eq!(ours.validate_merge(&theirs), Err(spent));
//! ours.merge(&theirs)?;
//! assert!(ours.is_empty());
//!
//! // the same by a reset of one side: its owner counts from 1 again
//! let (mut ours, mut theirs) = (Map::new(), Map::new());
//! let bay_5 = ours.update(1, 5, 40, 0)?;
//! ours.apply(&bay_5)?;
//! theirs.apply(&bay_5)?;
//! ours.reset_remove(&ours.clock())?;
//! ours.apply(&ours.update(1, 6, 60, 0)?)?;
//! assert_eq!(theirs.validate_merge(&ours), Err(spent));
//! # Ok::<(), Refusal>(())
//! ```
//!
//! ## 4. Catch up by operations
//!
//! A merge of two maps in use brings old values back, overwritten ones though nothing was ever removed, and
//! withdrawn ones. [`Map::merge_and_choose`] keeps the map that is right; where that is not done, apply
//! again after every merge each removal that must hold.
//!
//! ```
//! use castribba::Map;
//!
//! let (mut a, mut b) = (Map::new(), Map::new());
//! let on_6 = a.update(1, 6, 60, 0)?;
//! let _ = (a.feed(&on_6)?, b.feed(&on_6)?);
//! let first = b.update(2, 5, 40, 0)?;
//! let _ = (b.feed(&first)?, a.feed(&first)?);
//! let second = b.update(2, 5, 41, 0)?;
//! let _ = b.feed(&second)?;
//! // an older map, all of which B knows, changes B's all the same
//! let mut older = Map::new();
//! let _ = older.feed(&on_6)?;
//! b.merge(&older)?;
//! a.merge(&b)?;
//! assert_eq!(a.values(5), [40, 41]);
//! # Ok::<(), castribba::Refusal>(())
//! ```
//!
//! ## 5. Reset all maps at once
//!
//! By the whole clock of a map, or the floor of some, with nothing on its way, no removal and no second copy
//! either; and nothing new is made before all are reset ([`Map::reset_remove`]).
//!
//! A call that was refused was not made: keep the operation and try again, a removal after each update.
//!
//! # What it needs
//!
//! `CASTRIBBA_LIB_DIR` names the folder of `libcastribba.a` when the crate is built. The crate is
//! `no_std`: [`Map`], [`Operation`] and [`Clock`] need `alloc` (the feature `alloc`, on by default),
//! [`Pieces`], [`slices`], `loader` and `salvage` need `core` alone. The feature `loader` links `libloader.a` too, from the
//! same folder or from `CASTRIBBA_LOADER_DIR`; the feature `salvage` links `libsalvage.a`, from the same folder or from
//! `CASTRIBBA_SALVAGE_DIR`. A program has all archives in it without a clash.

#![no_std]

#[cfg(feature = "alloc")]
extern crate alloc;

pub mod declared;
mod differences;
#[cfg(feature = "alloc")]
mod image;
#[cfg(feature = "loader")]
pub mod loader;
#[cfg(feature = "alloc")]
mod parts;
mod pieces;
mod ready;
mod record;
mod refusal;
#[cfg(feature = "salvage")]
pub mod salvage;
pub mod slices;

pub use differences::{Class, Difference, Differences};
#[cfg(feature = "alloc")]
pub use image::{Clock, Kept, Map, Operation};
#[cfg(feature = "alloc")]
pub use parts::{Entry, Removal, Standing, Value};
pub use pieces::Pieces;
pub use ready::Ready;
pub use record::{kind, Record};
pub use refusal::{Refusal, Rejected};

/// The longest image of a map, in bytes.
pub const LONGEST_MAP: usize = 28_800;
/// The longest image of an operation, in bytes.
pub const LONGEST_OPERATION: usize = 400;
/// The longest image of a clock, in bytes.
pub const LONGEST_CLOCK: usize = 128;
/// The longest report of what differs between two maps, in bytes.
pub const LONGEST_DIFFERENCES: usize = 320;
/// The bytes of a reader of pieces.
pub const PIECES: usize = 17_121;
