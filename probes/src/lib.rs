//! The proved readers, conditions and index, called from Rust: what crates/probes_c exports, each
//! function declared once and wrapped in a safe one. `tools/test-probes` builds the archive and runs
//! the tests.

pub mod conditions;
pub mod draw;
pub mod events;
pub mod expected;
pub mod extremes;
pub mod farthest;
pub mod index;
pub mod stock;
pub mod strings;
pub mod trial;
pub mod waiting;
pub mod written;

/// Measures times variables, and variables: the slots lent to an opening.
pub const COEFFICIENTS: usize = 128;
pub const VALUES: usize = 8;

// Cargo does not look at the archives that it links. Named here, the archive is one of the
// sources, so the tests are built anew when it changes.
const _: &[u8] = include_bytes!("../../target/staticlib/libprobes.a");

/// A number and the place after it, with refusal 0; or a refusal, with the rest 0.
#[repr(C)]
#[derive(Clone, Copy, Debug, PartialEq, Eq)]
pub struct Answer {
    pub refusal: u8,
    pub value: u64,
    pub next: usize,
}

/// The same of a signed number.
#[repr(C)]
#[derive(Clone, Copy, Debug, PartialEq, Eq)]
pub struct SignedAnswer {
    pub refusal: u8,
    pub value: i64,
    pub next: usize,
}

// A slice of Rattle's arrives as its pointer and its length.
#[link(name = "probes", kind = "static")]
extern "C" {
    fn probe_number(bytes: *const u8, length: usize, at: usize) -> Answer;
    fn probe_field(
        bytes: *const u8,
        length: usize,
        at: usize,
        refusal: u8,
        low: u64,
        high: u64,
    ) -> Answer;
    fn probe_below(bytes: *const u8, length: usize, at: usize, bound: u64) -> Answer;
    fn probe_signed(bytes: *const u8, length: usize, at: usize, most: u64) -> SignedAnswer;
    fn probe_signed_of(n: u64) -> i64;
    fn probe_opening(
        bytes: *const u8,
        length: usize,
        at: usize,
        coefficients: &mut [i64; COEFFICIENTS],
        values: &mut [i64; VALUES],
    ) -> Answer;
}

// None of them requires anything of its arguments, so every call is sound: the pointers and
// lengths are those of slices, and Rust lends the slots to one at a time.

pub fn number(bytes: &[u8], at: usize) -> Answer {
    unsafe { probe_number(bytes.as_ptr(), bytes.len(), at) }
}

/// A number from `low` to `high`; else the refusal given.
pub fn field(bytes: &[u8], at: usize, refusal: u8, low: u64, high: u64) -> Answer {
    unsafe { probe_field(bytes.as_ptr(), bytes.len(), at, refusal, low, high) }
}

/// The number of one of `bound` things, counted from 0.
pub fn below(bytes: &[u8], at: usize, bound: u64) -> Answer {
    unsafe { probe_below(bytes.as_ptr(), bytes.len(), at, bound) }
}

/// A signed number at most `most` from 0.
pub fn signed(bytes: &[u8], at: usize, most: u64) -> SignedAnswer {
    unsafe { probe_signed(bytes.as_ptr(), bytes.len(), at, most) }
}

pub fn signed_of(n: u64) -> i64 {
    unsafe { probe_signed_of(n) }
}

/// The measure count; the coefficients and values go into the lent slots.
pub fn opening(
    bytes: &[u8],
    at: usize,
    coefficients: &mut [i64; COEFFICIENTS],
    values: &mut [i64; VALUES],
) -> Answer {
    unsafe { probe_opening(bytes.as_ptr(), bytes.len(), at, coefficients, values) }
}
