//! What times are taken by: for the benchmark, and for salvage's own.

pub mod timing;
