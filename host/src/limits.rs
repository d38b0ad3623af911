//! "Numbers that bound it", where a host meets them.

/// Jobs are numbered from 0 to one below this.
pub const JOBS: usize = 32;

/// Shared variables are numbered from 0 to one below this.
pub const VARIABLES: usize = 8;

/// A room has 1 to so many measures.
pub const MEASURES_MOST: usize = 16;

/// Tickets are numbered from 0 to one below this. A room whose next ticket is this has given all.
pub const TICKETS: u32 = 1_000_000;

/// No event raises a count of a tally above this.
pub const TALLY_MOST: u64 = 1_000_000_000;
