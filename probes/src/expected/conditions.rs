//! Closed conditions, and what they are about, in the slots of the proved functions.

use crate::conditions::{ClosedSlots, Shared, NO_TAG};
use crate::{COEFFICIENTS, VALUES};
use second::condition::{Alternative, Condition};
use second::limits::{ALTERNATIVES_MOST, ATOMS_MOST, MEASURES_MOST, VARIABLES};
use second::measure::measure;
use second::record::Opening;
use second::tag::Tag;

/// The node of a job's first alternative, and the slot of a node's first atom.
pub fn first_node(job: usize) -> usize {
    job * ALTERNATIVES_MOST
}

pub fn first_slot(node: usize) -> usize {
    node * ATOMS_MOST
}

pub fn shared(opening: &Opening) -> Shared {
    let mut shared = Shared {
        coefficients: [0; COEFFICIENTS],
        values: [0; VALUES],
    };
    let rows = shared.coefficients.chunks_exact_mut(VARIABLES);
    for (slots, row) in rows.zip(&opening.measures) {
        slots.copy_from_slice(row);
    }
    shared.values = opening.values;
    shared
}

/// What the measures come to; one that the room lacks is 0.
pub fn present(opening: &Opening) -> [i64; MEASURES_MOST] {
    let mut present = [0; MEASURES_MOST];
    for (value, coefficients) in present.iter_mut().zip(&opening.measures) {
        *value = measure(coefficients, &opening.values);
    }
    present
}

/// Puts a condition into the slots of a job. Those past a count stay as they are.
pub fn put(slots: &mut ClosedSlots, job: usize, condition: &Condition) {
    slots.alternatives[job] = condition.alternatives.len() as u8;
    for (node, alternative) in (first_node(job)..).zip(&condition.alternatives) {
        slots.atoms[node] = alternative.atoms.len() as u8;
        for (slot, atom) in (first_slot(node)..).zip(&alternative.atoms) {
            slots.measure[slot] = atom.measure as u8;
            slots.operator[slot] = atom.operator.number() as u8;
            slots.key[slot] = atom.key;
        }
    }
}

/// The same, and those past a count become 0, as closure has it.
pub fn put_clear(slots: &mut ClosedSlots, job: usize, condition: &Condition) {
    let nodes = first_node(job)..first_node(job + 1);
    let atoms = first_slot(nodes.start)..first_slot(nodes.end);
    slots.atoms[nodes].fill(0);
    slots.measure[atoms.clone()].fill(0);
    slots.operator[atoms.clone()].fill(0);
    slots.key[atoms].fill(0);
    put(slots, job, condition);
}

/// The slot of the tag of a node's alternative. The second implementation hands out the atom; the
/// first like it is the one.
pub fn tag(node: usize, alternative: &Alternative) -> usize {
    let tag = match Tag::of(alternative) {
        Tag::Equality(atom) | Tag::Threshold(atom) => atom,
        Tag::NoTag => return NO_TAG,
    };
    let place = alternative.atoms.iter().position(|atom| *atom == tag);
    first_slot(node) + place.expect("a tag is one of the atoms")
}
