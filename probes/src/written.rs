//! A closed condition as a job may have written it.

use second::closure::{WrittenAtom, WrittenCondition};
use second::condition::{Atom, Condition};
use second::limits::{COEFFICIENT_MOST, LOCALS, VALUE_MOST};

/// The local values are 1,000,000, so that coefficients and constant make any key up to
/// 401,000,000.
pub fn written(condition: &Condition) -> WrittenCondition {
    let alternatives = condition.alternatives.iter();
    WrittenCondition {
        locals: [VALUE_MOST; LOCALS],
        alternatives: alternatives
            .map(|alternative| alternative.atoms.iter().map(written_atom).collect())
            .collect(),
    }
}

fn written_atom(atom: &Atom) -> WrittenAtom {
    let most = COEFFICIENT_MOST * LOCALS as i64;
    let mut left = (atom.key / VALUE_MOST).clamp(-most, most);
    let constant = atom.key - left * VALUE_MOST;
    let coefficients = [(); LOCALS].map(|()| {
        let coefficient = left.clamp(-COEFFICIENT_MOST, COEFFICIENT_MOST);
        left -= coefficient;
        coefficient
    });
    WrittenAtom {
        measure: atom.measure,
        operator: atom.operator,
        coefficients,
        constant,
    }
}
