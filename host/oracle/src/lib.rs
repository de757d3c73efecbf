//! The oracle: what every call must answer, from document 01's image rules and the published crate.

pub mod bays;
pub mod expected;
pub mod full;
pub mod guard;
pub mod image;
pub mod model;
pub mod nested;
pub mod published;
pub mod salvage;
mod tree;
