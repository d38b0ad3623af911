//! "Numbers that bound it".

pub const JOBS: usize = 32;
pub const VARIABLES: usize = 8;
pub const MEASURES_MOST: usize = 16;
pub const LOCALS: usize = 4;
pub const ALTERNATIVES_MOST: usize = 4;
pub const ATOMS_MOST: usize = 4;

/// Shared values, local values and constants lie between minus this and this.
pub const VALUE_MOST: i64 = 1_000_000;
/// Coefficients lie between minus this and this.
pub const COEFFICIENT_MOST: i64 = 100;

/// Tickets are numbered from 0 to one below this.
pub const TICKETS: u32 = 1_000_000;
pub const STREAM_BYTES_MOST: usize = 65_536;
pub const TALLY_MOST: u64 = 1_000_000_000;
