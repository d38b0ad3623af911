//! Conditions with small keys, and ways to write them.

use crate::closure::{WrittenAtom, WrittenCondition};
use crate::condition::{Atom, Condition, Operator};
use crate::limits::{ALTERNATIVES_MOST, ATOMS_MOST, LOCALS};
use crate::random::Random;

/// A number of alternatives or atoms: mostly small, sometimes all four.
pub fn few(random: &mut Random) -> usize {
    random.pick(&[1, 1, 1, 1, 1, 2, 2, 3, 4])
}

/// A condition that is mostly true when the measures come to `measures`.
pub fn fresh(random: &mut Random, measures: &[i64]) -> Condition {
    let mut alternatives = Vec::new();
    for _ in 0..few(random) {
        let count = few(random);
        alternatives.push((0..count).map(|_| some_atom(random, measures)).collect());
    }
    Condition::new(alternatives)
}

fn some_atom(random: &mut Random, measures: &[i64]) -> Atom {
    let measure = random.below(measures.len());
    let operator = random.pick(&Operator::ALL);
    let mut atom = true_atom(random, measure, operator, measures[measure]);
    if random.once_in(8) {
        atom.key += random.between(-3, 3);
    }
    atom
}

/// An atom that is true when its measure comes to `value`. There are few different keys, so that
/// different operators meet at one key.
pub fn true_atom(random: &mut Random, measure: usize, operator: Operator, value: i64) -> Atom {
    let step = random.between(0, 2);
    let key = match operator {
        Operator::Equal => value,
        Operator::NotEqual => value + random.pick(&[-1, 1]),
        Operator::Less => value + 1 + step,
        Operator::LessOrEqual => value + step,
        Operator::Greater => value - 1 - step,
        Operator::GreaterOrEqual => value - step,
    };
    Atom::new(measure, operator, key)
}

/// The condition with one thing changed: what a careless entry key would leave out.
pub fn near_twin(random: &mut Random, condition: &Condition) -> Condition {
    let mut twin = condition.clone();
    let alternatives = &mut twin.alternatives;
    let alternative_count = alternatives.len();
    let alternative = random.below(alternative_count);
    let atoms = &mut alternatives[alternative].atoms;
    let atom = random.below(atoms.len());
    match random.below(7) {
        0 => atoms[atom].key += random.pick(&[-1, 1]),
        1 => atoms[atom].operator = random.pick(&Operator::ALL),
        2 => atoms.rotate_left(1),
        3 if atoms.len() < ATOMS_MOST => {
            let again = atoms[atom];
            atoms.push(again);
        }
        4 if atoms.len() > 1 => {
            atoms.pop();
        }
        5 if alternative_count < ALTERNATIVES_MOST => {
            let again = alternatives[alternative].clone();
            alternatives.push(again);
        }
        _ => alternatives.rotate_left(1),
    }
    twin
}

/// A writing that closes to the condition, with local values and coefficients or without.
pub fn in_writing(random: &mut Random, condition: &Condition) -> WrittenCondition {
    let mut written = WrittenCondition::plain(condition);
    if random.once_in(2) {
        return written;
    }
    for local in &mut written.locals {
        *local = random.between(-5, 5);
    }
    for atom in written.alternatives.iter_mut().flatten() {
        give_local_part(random, atom, &written.locals);
    }
    written
}

fn give_local_part(random: &mut Random, atom: &mut WrittenAtom, locals: &[i64; LOCALS]) {
    for (coefficient, local) in atom.coefficients.iter_mut().zip(locals) {
        *coefficient = random.pick(&[0, 0, 1, -1, 2, -3]);
        atom.constant -= *coefficient * local;
    }
}
