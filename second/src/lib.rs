//! The independent second implementation of the wait room.
//!
//! It is written from document 01 alone, by brute force: no index, no heaps, every search looks
//! at every pair of a waiting job and an alternative. Comments name the heading of document 01
//! that a piece of code follows.

pub mod closure;
pub mod condition;
pub mod figures;
pub mod limits;
pub mod listing;
pub mod measure;
pub mod number;
pub mod random;
pub mod rank;
pub mod reader;
pub mod record;
pub mod refusal;
pub mod report;
pub mod room;
pub mod search;
pub mod spoil;
pub mod streams;
pub mod tag;
pub mod tally;
pub mod theorems;
pub mod write;
