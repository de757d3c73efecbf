//! Inputs for the calls of castribba.h, and what compares an implementation with the oracle on them.

pub mod asks;
pub mod checker;
mod damage;
pub mod generate;
mod history;
pub mod lists;
pub mod panics;
mod pieces;
pub mod question;
pub mod random;
pub mod registers;
pub mod rounds;
pub mod settled;
mod small;
