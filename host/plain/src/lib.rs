//! The settings map as a plain Rust program on fixed arrays: no allocation, nothing proved.
#![no_std]

mod calls;
mod catch_up;
mod clock;
mod image;
mod loader;
mod map;
pub mod number;
mod pieces;
mod register;
mod salvage;

pub use calls::*;
pub use catch_up::*;
pub use clock::{Clock, Dot};
pub use image::{read_clock, read_map, read_op, write_map, write_op};
pub use loader::*;
pub use map::{DoubleSpent, Entry, Gap, Map, NotNext, Operation, Removal, Waiting};
pub use pieces::*;
pub use register::{Register, Value};
pub use salvage::*;

pub const MOST_DOTS: usize = 8;
pub const MOST_ENTRIES: usize = 32;
pub const MOST_VALUES: usize = 4;
pub const MOST_WAITING: usize = 16;
pub const MOST_KEYS: usize = 16;
pub const MOST_PEERS: usize = 64;

pub const LONGEST_MAP: usize = 28_800;
pub const LONGEST_OPERATION: usize = 400;
pub const LONGEST_CLOCK: usize = 128;
