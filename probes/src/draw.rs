//! Closed conditions to try, and slots with anything in them.

use crate::conditions::{ClosedSlots, KEY_MOST, NODES, SLOTS};
use crate::extremes::{one_below, one_of, shape};
use second::condition::{Atom, Condition, Operator};
use second::limits::{JOBS, MEASURES_MOST};
use second::random::Random;

/// Slots of any bytes and any numbers.
pub fn slots(random: &mut Random) -> ClosedSlots {
    let mut slots = ClosedSlots {
        alternatives: [0; JOBS],
        atoms: [0; NODES],
        measure: [0; SLOTS],
        operator: [0; SLOTS],
        key: [0; SLOTS],
    };
    fill(random, &mut slots.alternatives);
    fill(random, &mut slots.atoms);
    fill(random, &mut slots.measure);
    fill(random, &mut slots.operator);
    for key in &mut slots.key {
        *key = random.bits() as i64;
    }
    slots
}

fn fill(random: &mut Random, bytes: &mut [u8]) {
    for eight in bytes.chunks_exact_mut(8) {
        eight.copy_from_slice(&random.bits().to_le_bytes());
    }
}

/// The same, with keys that are in their range.
pub fn slots_in_range(random: &mut Random) -> ClosedSlots {
    let mut slots = slots(random);
    for key in &mut slots.key {
        *key %= KEY_MOST + 1;
    }
    slots
}

/// A condition whose keys are at and near the ends of their range.
pub fn condition(random: &mut Random) -> Condition {
    Condition::new(shape(random, atom))
}

pub fn atom(random: &mut Random) -> Atom {
    Atom::new(
        one_below(random, MEASURES_MOST),
        random.pick(&Operator::ALL),
        one_of(random, KEY_MOST),
    )
}

/// A condition whose keys are mostly near what its measures come to, so that one less or one more
/// decides.
pub fn deciding(random: &mut Random, present: &[i64]) -> Condition {
    Condition::new(shape(random, |random| {
        let operator = random.pick(&Operator::ALL);
        deciding_atom(random, present, operator)
    }))
}

pub fn deciding_atom(random: &mut Random, present: &[i64], operator: Operator) -> Atom {
    let measure = random.below(present.len());
    let key = match random.below(8) {
        0 => one_of(random, KEY_MOST),
        _ => (present[measure] + random.between(-1, 1)).clamp(-KEY_MOST, KEY_MOST),
    };
    Atom::new(measure, operator, key)
}
