//! What the tests share: the library's room and the second implementation's side by side, and
//! events to give them.

// No test file uses all of these.
#![allow(dead_code)]

pub mod author;
pub mod board;
pub mod broken;
pub mod compare;
pub mod kept;
pub mod pair;
pub mod run;
pub mod seen;
pub mod shrink;
pub mod standings;
pub mod stock;
pub mod writing;
