//! The index: a job's rank words, joining, parting and the search.

use crate::conditions::{self, ClosedSlots, Shared, KEY_MOST, NODES, SLOTS};
use crate::expected::conditions::shared;
use crate::expected::events::slots_of;
use crate::{COEFFICIENTS, VALUES};
use second::closure::WrittenCondition;
use second::limits::{JOBS, MEASURES_MOST, VALUE_MOST};
use second::record::Opening;

/// Heaps 0 to 31, measure * 2 for > and ≥ and one more for < and ≤; then the row of equality tags,
/// and the row of alternatives without a tag.
pub const HOMES: usize = 34;
pub const EQUALITIES: usize = 32;
pub const UNTAGGED: usize = 33;

/// The places of a home, and of all.
pub const HOME_PLACES: usize = 128;
pub const PLACES: usize = HOMES * HOME_PLACES;

/// Calls 1 and the job that is called, or calls 0 and job 0; and how many alternatives were
/// evaluated.
#[repr(C)]
#[derive(Clone, Copy, Debug, PartialEq, Eq)]
pub struct Searched {
    pub calls: u8,
    pub job: usize,
    pub evaluated: usize,
}

/// All that the index reads or writes.
#[derive(Clone, Debug, PartialEq, Eq)]
pub struct Arrays {
    pub places: [u8; PLACES],
    pub lengths: [u8; HOMES],
    pub entry: [u8; JOBS],
    pub high: [u64; NODES],
    pub low: [u64; NODES],
    pub slots: ClosedSlots,
    pub ticket: [u32; JOBS],
    pub shared: Shared,
    pub measures: usize,
}

/// Arrays that nothing but the proved functions writes, each when it may: so they are an index of
/// the jobs that joined and did not part.
#[derive(Clone, Debug)]
pub struct Index {
    arrays: Arrays,
}

// All as plain pointers, also to what is only read: that it stays as it was is for a test to find
// out, and not for Rust to take for granted. A probe works on copies, and puts back places, lengths
// and entries; what joining, parting and a search leave alone in a room's own memory, the host's
// tests look at after each event that they give through `Pair` (host/tests/common/kept.rs).
extern "C" {
    fn probe_words(
        high: *mut [u64; NODES],
        low: *mut [u64; NODES],
        atoms: *const [u8; NODES],
        measure: *const [u8; SLOTS],
        operator: *const [u8; SLOTS],
        key: *const [i64; SLOTS],
        ticket: u32,
        job: usize,
    );
    fn probe_join(
        places: *mut u8,
        places_length: usize,
        lengths: *mut u8,
        lengths_length: usize,
        entry: *mut [u8; JOBS],
        high: *const [u64; NODES],
        low: *const [u64; NODES],
        alternatives: *const [u8; JOBS],
        atoms: *const [u8; NODES],
        measure: *const [u8; SLOTS],
        operator: *const [u8; SLOTS],
        key: *const [i64; SLOTS],
        ticket: *const [u32; JOBS],
        job: usize,
    );
    fn probe_part(
        places: *mut u8,
        places_length: usize,
        lengths: *mut u8,
        lengths_length: usize,
        entry: *mut [u8; JOBS],
        high: *const [u64; NODES],
        low: *const [u64; NODES],
        alternatives: *const [u8; JOBS],
        atoms: *const [u8; NODES],
        measure: *const [u8; SLOTS],
        operator: *const [u8; SLOTS],
        key: *const [i64; SLOTS],
        ticket: *const [u32; JOBS],
        job: usize,
    );
    fn probe_search(
        places: *const u8,
        places_length: usize,
        lengths: *const u8,
        lengths_length: usize,
        high: *const [u64; NODES],
        low: *const [u64; NODES],
        measures: usize,
        coefficients: *const [i64; COEFFICIENTS],
        values: *const [i64; VALUES],
        atoms: *const [u8; NODES],
        measure: *const [u8; SLOTS],
        operator: *const [u8; SLOTS],
        key: *const [i64; SLOTS],
    ) -> Searched;
}

// What each requires is asserted before the call, but for the invariant of the index, which the
// arrays have kept since they were empty. So every call is sound.

impl Index {
    /// Nobody waits.
    pub fn new(opening: &Opening) -> Index {
        let measures = opening.measures.len();
        assert!((1..=MEASURES_MOST).contains(&measures));
        Index {
            arrays: Arrays {
                places: [0; PLACES],
                lengths: [0; HOMES],
                entry: [0; JOBS],
                high: [0; NODES],
                low: [0; NODES],
                slots: ClosedSlots {
                    alternatives: [0; JOBS],
                    atoms: [0; NODES],
                    measure: [0; SLOTS],
                    operator: [0; SLOTS],
                    key: [0; SLOTS],
                },
                ticket: [0; JOBS],
                shared: shared(opening),
                measures,
            },
        }
    }

    pub fn arrays(&self) -> &Arrays {
        &self.arrays
    }

    pub fn waits(&self, job: usize) -> bool {
        self.arrays.entry[job] > 0
    }

    pub fn set(&mut self, variable: usize, value: i64) {
        assert!((-VALUE_MOST..=VALUE_MOST).contains(&value));
        self.arrays.shared.values[variable] = value;
    }

    /// A job that does not wait gets a condition and a ticket, and the rank words of both.
    pub fn prepare(&mut self, job: usize, written: &WrittenCondition, ticket: u32) {
        assert!(!self.waits(job));
        let arrays = &mut self.arrays;
        let mut measures = written.alternatives.iter().flatten();
        assert!(measures.all(|atom| atom.measure < arrays.measures));
        let count = written.alternatives.len() as u8;
        conditions::close(&mut arrays.slots, &slots_of(written), count, job);
        arrays.ticket[job] = ticket;
        let slots = &arrays.slots;
        let within = |key: &i64| (-KEY_MOST..=KEY_MOST).contains(key);
        assert!(slots.key.iter().all(within));
        unsafe {
            probe_words(
                &mut arrays.high,
                &mut arrays.low,
                &slots.atoms,
                &slots.measure,
                &slots.operator,
                &slots.key,
                ticket,
                job,
            )
        }
    }

    /// A job that was prepared, with a ticket that no waiting one has, waits.
    pub fn join(&mut self, job: usize) {
        assert!(!self.waits(job));
        assert!(self.arrays.slots.alternatives[job] > 0);
        let ticket = self.arrays.ticket[job];
        let same = |other: usize| self.waits(other) && self.arrays.ticket[other] == ticket;
        assert!(!(0..JOBS).any(same));
        let arrays = &mut self.arrays;
        let slots = &mut arrays.slots;
        unsafe {
            probe_join(
                arrays.places.as_mut_ptr(),
                PLACES,
                arrays.lengths.as_mut_ptr(),
                HOMES,
                &mut arrays.entry,
                &mut arrays.high,
                &mut arrays.low,
                &mut slots.alternatives,
                &mut slots.atoms,
                &mut slots.measure,
                &mut slots.operator,
                &mut slots.key,
                &mut arrays.ticket,
                job,
            )
        }
    }

    /// A waiting job waits no longer. It is still prepared.
    pub fn part(&mut self, job: usize) {
        assert!(self.waits(job));
        let arrays = &mut self.arrays;
        let slots = &mut arrays.slots;
        unsafe {
            probe_part(
                arrays.places.as_mut_ptr(),
                PLACES,
                arrays.lengths.as_mut_ptr(),
                HOMES,
                &mut arrays.entry,
                &mut arrays.high,
                &mut arrays.low,
                &mut slots.alternatives,
                &mut slots.atoms,
                &mut slots.measure,
                &mut slots.operator,
                &mut slots.key,
                &mut arrays.ticket,
                job,
            )
        }
    }

    pub fn search(&mut self) -> Searched {
        let arrays = &mut self.arrays;
        let slots = &mut arrays.slots;
        unsafe {
            probe_search(
                arrays.places.as_mut_ptr(),
                PLACES,
                arrays.lengths.as_mut_ptr(),
                HOMES,
                &mut arrays.high,
                &mut arrays.low,
                arrays.measures,
                &mut arrays.shared.coefficients,
                &mut arrays.shared.values,
                &mut slots.atoms,
                &mut slots.measure,
                &mut slots.operator,
                &mut slots.key,
            )
        }
    }
}
