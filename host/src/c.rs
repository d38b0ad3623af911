//! The library's C interface, as `include/harbour.h` has it and explains it. Calls are unsafe;
//! [`crate::Room`] is the safe way.

use crate::limits::{JOBS, MEASURES_MOST, VARIABLES};
use crate::tally::Tally;

/// An alternative has a node: alternative i of job j is node 4 * j + i.
pub const NODES: usize = 128;

/// An atom has a slot: atom k of node n stands in slot 4 * n + k.
pub const SLOTS: usize = 512;

/// The nodes of the index stand in so many homes, of so many places each.
pub const HOMES: usize = 34;
/// See [`HOMES`].
pub const HOME_PLACES: usize = 128;

// Cargo does not look at the archives that it links. Named here, the archive is one of the
// sources, so all is built anew when it changes.
const _: &[u8] = include_bytes!("../../target/staticlib/libharbour.a");

/// A room as the library keeps it. It may be read; only the library may write it.
#[repr(C)]
#[derive(Clone, Debug, PartialEq, Eq)]
pub struct Room {
    /// A row for each measure; rows past the measure count are 0.
    pub coefficients: [[i64; VARIABLES]; MEASURES_MOST],
    /// The shared values.
    pub values: [i64; VARIABLES],
    /// Of each job: 0 outside, 1 at the door, 2 inside, 3 waiting, 4 called.
    pub standing: [u8; JOBS],
    /// Of each waiting or called job its ticket; of others without meaning.
    pub ticket: [u32; JOBS],
    /// Of each waiting or called job how many alternatives its condition has.
    pub alternatives: [u8; JOBS],
    /// Of each such alternative how many atoms.
    pub atoms: [u8; NODES],
    /// Of each such atom its measure,
    pub measure: [u8; SLOTS],
    /// its operator, 1 to 6,
    pub operator: [u8; SLOTS],
    /// and its key.
    pub key: [i64; SLOTS],
    /// Of each waiting job 1 + the lead of its entry, of others 0. From here to `lengths` is the
    /// index, whose arrangement is the library's own business.
    pub entry: [u8; JOBS],
    /// A node's rank: the first word,
    pub high: [u64; NODES],
    /// and the second.
    pub low: [u64; NODES],
    /// The homes, one after the other.
    pub places: [u8; HOMES * HOME_PLACES],
    /// How many nodes each home has.
    pub lengths: [u8; HOMES],
    /// The measure count.
    pub measures: usize,
    /// The ticket that the next job to wait gets; 1,000,000 once all are given.
    pub next_ticket: u32,
}

impl Room {
    /// Every number 0, as a refused opening leaves it. It is no room yet.
    pub const CLEAR: Room = Room {
        coefficients: [[0; VARIABLES]; MEASURES_MOST],
        values: [0; VARIABLES],
        standing: [0; JOBS],
        ticket: [0; JOBS],
        alternatives: [0; JOBS],
        atoms: [0; NODES],
        measure: [0; SLOTS],
        operator: [0; SLOTS],
        key: [0; SLOTS],
        entry: [0; JOBS],
        high: [0; NODES],
        low: [0; NODES],
        places: [0; HOMES * HOME_PLACES],
        lengths: [0; HOMES],
        measures: 0,
        next_ticket: 0,
    };
}

/// The answer to an opening.
#[repr(C)]
#[derive(Clone, Copy, Debug, PartialEq, Eq)]
pub struct Opened {
    /// 0 for a room; else 1, 2 or 4.
    pub refusal: u8,
    /// The measure count; 0 if refused.
    pub measures: u64,
    /// The bytes taken; 0 if refused.
    pub taken: u64,
}

/// The answer to an event.
#[repr(C)]
#[derive(Clone, Copy, Debug, PartialEq, Eq)]
pub struct Report {
    /// 0 done, 1 in, 2 waits, 3 on, 4 back, 5 refused, 6 none left.
    pub outcome: u8,
    /// The called job, or 32 for nobody.
    pub job: u8,
    /// 1 to 7 where the outcome is 5, else 0.
    pub refusal: u8,
    /// The alternatives evaluated.
    pub count: u64,
    /// The bytes taken.
    pub taken: u64,
}

// A slice of Rattle's arrives as its pointer and its length.
#[link(name = "harbour", kind = "static")]
extern "C" {
    /// Opens a room from bytes.
    ///
    /// # Safety
    /// `room` may be written, `length` bytes may be read, and they do not overlap. What stood in
    /// the room before does not matter.
    pub fn harbour_open(room: *mut Room, bytes: *const u8, length: usize) -> Opened;

    /// Gives a room one event.
    ///
    /// # Safety
    /// `tally` and `room` may be written, `length` bytes may be read, and no two of the three
    /// overlap. The room came from an accepted `harbour_open` and calls of this function alone.
    pub fn harbour_event(
        tally: *mut Tally,
        room: *mut Room,
        bytes: *const u8,
        length: usize,
    ) -> Report;

    /// The standing of a job; 0 for a number that names none.
    ///
    /// # Safety
    /// It requires nothing that the reference does not say.
    pub fn harbour_standing(standing: &[u8; JOBS], job: u8) -> u8;

    /// The job inside, or 32 for nobody.
    ///
    /// # Safety
    /// It requires nothing that the reference does not say.
    pub fn harbour_inside(standing: &[u8; JOBS]) -> u8;

    /// The value of a shared variable; 0 for a number that names none.
    ///
    /// # Safety
    /// It requires nothing that the reference does not say.
    pub fn harbour_value(values: &[i64; VARIABLES], variable: u8) -> i64;

    /// Writes the listing of a whole stream into a buffer, and answers how much of it is filled. A
    /// listing longer than the buffer is cut at its end.
    ///
    /// # Safety
    /// `room` bytes may be written at `out`, `length` bytes may be read at `bytes`, and they do not
    /// overlap.
    pub fn harbour_listing(out: *mut u8, room: usize, bytes: *const u8, length: usize) -> usize;
}
