//! A wait room: a monitor with automatic signals, written as a step machine. One event in, one
//! report out. What it does is document 01, "Description of the wait room and its rules"; the code
//! behind it is written in Rattle and proved to do that.
//!
//! A [`Room`] is opened from bytes and then given events, one string of bytes each. Each event is
//! answered by a [`Report`] and adds to a [`Tally`] that the host lends it. The proofs assume one
//! thing of a room, that it came from an accepted opening and events; as there is no other way to
//! come by a [`Room`] here, they hold of every one.
//!
//! Real threads, locks and sleeping belong to the host. `examples/buffer` is a small one.
//!
//! The archive is for x86-64. `tools/test-host` builds it and shows how to link it.

#![warn(missing_docs)]

pub mod c;
mod limits;
mod listing;
mod refusal;
mod report;
mod room;
mod standing;
mod tally;

pub use limits::{JOBS, MEASURES_MOST, TALLY_MOST, TICKETS, VARIABLES};
pub use listing::{listing, LISTING_MOST};
pub use refusal::Refusal;
pub use report::{Outcome, Report};
pub use room::Room;
pub use standing::Standing;
pub use tally::Tally;
