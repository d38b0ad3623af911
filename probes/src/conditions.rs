//! Conditions: an operator, a measure's value, truth, tags, identity and closure.

use crate::events::WaitSlots;
use crate::{COEFFICIENTS, VALUES};
use second::limits::{COEFFICIENT_MOST, JOBS, VALUE_MOST};

/// An alternative has a node, and an atom a slot.
pub const NODES: usize = 128;
pub const SLOTS: usize = 512;

/// Keys lie between minus this and this.
pub const KEY_MOST: i64 = 401_000_000;

/// What stands for a tag's slot where there is no tag.
pub const NO_TAG: usize = SLOTS;

/// What measures are sums of: the coefficients of measure m from slot 8 * m on, and the values.
#[derive(Clone, Debug, PartialEq, Eq)]
pub struct Shared {
    pub coefficients: [i64; COEFFICIENTS],
    pub values: [i64; VALUES],
}

/// The slots of the closed conditions of all jobs. Alternative i of job j is node 4 * j + i, and
/// atom k of a node n stands in slot 4 * n + k.
#[derive(Clone, Debug, PartialEq, Eq)]
pub struct ClosedSlots {
    pub alternatives: [u8; JOBS],
    pub atoms: [u8; NODES],
    pub measure: [u8; SLOTS],
    pub operator: [u8; SLOTS],
    pub key: [i64; SLOTS],
}

extern "C" {
    fn probe_compare(operator: u8, value: i64, key: i64) -> bool;
    fn probe_measure(
        coefficients: &[i64; COEFFICIENTS],
        values: &[i64; VALUES],
        measure: usize,
    ) -> i64;
    fn probe_alternative_true(
        coefficients: &[i64; COEFFICIENTS],
        values: &[i64; VALUES],
        atoms: &[u8; NODES],
        measure: &[u8; SLOTS],
        operator: &[u8; SLOTS],
        key: &[i64; SLOTS],
        node: usize,
    ) -> bool;
    fn probe_condition_true(
        coefficients: &[i64; COEFFICIENTS],
        values: &[i64; VALUES],
        alternatives: &[u8; JOBS],
        atoms: &[u8; NODES],
        measure: &[u8; SLOTS],
        operator: &[u8; SLOTS],
        key: &[i64; SLOTS],
        job: usize,
    ) -> bool;
    fn probe_tag(atoms: &[u8; NODES], operator: &[u8; SLOTS], node: usize) -> usize;
    fn probe_tag_holds(
        coefficients: &[i64; COEFFICIENTS],
        values: &[i64; VALUES],
        atoms: &[u8; NODES],
        measure: &[u8; SLOTS],
        operator: &[u8; SLOTS],
        key: &[i64; SLOTS],
        node: usize,
    ) -> bool;
    fn probe_same_condition(
        alternatives: &[u8; JOBS],
        atoms: &[u8; NODES],
        measure: &[u8; SLOTS],
        operator: &[u8; SLOTS],
        key: &[i64; SLOTS],
        one: usize,
        other: usize,
    ) -> bool;
    fn probe_close(
        alternatives: &mut [u8; JOBS],
        atoms: &mut [u8; NODES],
        measure: &mut [u8; SLOTS],
        operator: &mut [u8; SLOTS],
        key: &mut [i64; SLOTS],
        counts: &[u8; 4],
        given_measure: &[u8; 16],
        given_operator: &[u8; 16],
        coefficients: &[i64; 64],
        constant: &[i64; 16],
        locals: &[i64; 4],
        count: u8,
        job: usize,
    );
}

// What each requires of its arguments is asserted before the call, so every call is sound: the
// arrays are Rust's own, and it lends those that change to one at a time.

fn assert_within(most: i64, numbers: &[i64]) {
    let within = |number: &i64| (-most..=most).contains(number);
    assert!(numbers.iter().all(within), "a number past {most}");
}

impl Shared {
    fn assert_ranges(&self) {
        assert_within(COEFFICIENT_MOST, &self.coefficients);
        assert_within(VALUE_MOST, &self.values);
    }
}

/// No operator other than 1 to 6 holds.
pub fn compare(operator: u8, value: i64, key: i64) -> bool {
    unsafe { probe_compare(operator, value, key) }
}

/// There is no measure past 15; such a one is 0.
pub fn measure(shared: &Shared, measure: usize) -> i64 {
    shared.assert_ranges();
    unsafe { probe_measure(&shared.coefficients, &shared.values, measure) }
}

pub fn alternative_is_true(shared: &Shared, slots: &ClosedSlots, node: usize) -> bool {
    shared.assert_ranges();
    assert_within(KEY_MOST, &slots.key);
    assert!(node < NODES);
    unsafe {
        probe_alternative_true(
            &shared.coefficients,
            &shared.values,
            &slots.atoms,
            &slots.measure,
            &slots.operator,
            &slots.key,
            node,
        )
    }
}

pub fn condition_is_true(shared: &Shared, slots: &ClosedSlots, job: usize) -> bool {
    shared.assert_ranges();
    assert_within(KEY_MOST, &slots.key);
    assert!(job < JOBS);
    unsafe {
        probe_condition_true(
            &shared.coefficients,
            &shared.values,
            &slots.alternatives,
            &slots.atoms,
            &slots.measure,
            &slots.operator,
            &slots.key,
            job,
        )
    }
}

/// The slot of the atom that is the tag, or `NO_TAG`.
pub fn tag(slots: &ClosedSlots, node: usize) -> usize {
    assert!(node < NODES);
    unsafe { probe_tag(&slots.atoms, &slots.operator, node) }
}

/// Whether the tag holds, as that of an alternative without one does.
pub fn tag_holds(shared: &Shared, slots: &ClosedSlots, node: usize) -> bool {
    shared.assert_ranges();
    assert_within(KEY_MOST, &slots.key);
    assert!(node < NODES);
    unsafe {
        probe_tag_holds(
            &shared.coefficients,
            &shared.values,
            &slots.atoms,
            &slots.measure,
            &slots.operator,
            &slots.key,
            node,
        )
    }
}

/// Whether the conditions of two jobs are identical.
pub fn are_identical(slots: &ClosedSlots, one: usize, other: usize) -> bool {
    assert_within(KEY_MOST, &slots.key);
    assert!(one < JOBS && other < JOBS);
    unsafe {
        probe_same_condition(
            &slots.alternatives,
            &slots.atoms,
            &slots.measure,
            &slots.operator,
            &slots.key,
            one,
            other,
        )
    }
}

/// A Wait's condition, of so many alternatives, closed into the slots of a job.
pub fn close(slots: &mut ClosedSlots, given: &WaitSlots, count: u8, job: usize) {
    assert_within(COEFFICIENT_MOST, &given.coefficients);
    assert_within(VALUE_MOST, &given.constant);
    assert_within(VALUE_MOST, &given.locals);
    assert!(job < JOBS);
    unsafe {
        probe_close(
            &mut slots.alternatives,
            &mut slots.atoms,
            &mut slots.measure,
            &mut slots.operator,
            &mut slots.key,
            &given.counts,
            &given.measure,
            &given.operator,
            &given.coefficients,
            &given.constant,
            &given.locals,
            count,
            job,
        )
    }
}
