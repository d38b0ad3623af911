//! A closed condition as a job may have written it.

use second::closure::{WrittenAtom, WrittenCondition};
use second::condition::Condition;
use second::limits::{COEFFICIENT_MOST, LOCALS, VALUE_MOST};
use second::random::Random;

/// With local values, or without where every key can be a constant. What they add to a key is
/// taken off its constant.
pub fn written(random: &mut Random, condition: &Condition) -> WrittenCondition {
    let mut written = WrittenCondition::plain(condition);
    let atoms = written.alternatives.iter().flatten();
    let far = atoms
        .clone()
        .any(|atom| atom.constant.abs() > VALUE_MOST / 2);
    if !far && random.once_in(2) {
        return written;
    }
    for local in &mut written.locals {
        *local = match far {
            true => VALUE_MOST,
            false => random.between(-5, 5),
        };
    }
    let locals = written.locals;
    for atom in written.alternatives.iter_mut().flatten() {
        match far {
            true => give_far_part(atom),
            false => give_near_part(random, atom, &locals),
        }
    }
    written
}

fn give_near_part(random: &mut Random, atom: &mut WrittenAtom, locals: &[i64; LOCALS]) {
    for (coefficient, local) in atom.coefficients.iter_mut().zip(locals) {
        *coefficient = random.pick(&[0, 0, 1, -1, 2, -3, 100, -100]);
        atom.constant -= *coefficient * local;
    }
}

/// The local values are 1,000,000, so that coefficients and constant make any key up to
/// 401,000,000.
fn give_far_part(atom: &mut WrittenAtom) {
    let most = COEFFICIENT_MOST * LOCALS as i64;
    let mut left = (atom.constant / VALUE_MOST).clamp(-most, most);
    atom.constant -= left * VALUE_MOST;
    for coefficient in &mut atom.coefficients {
        *coefficient = left.clamp(-COEFFICIENT_MOST, COEFFICIENT_MOST);
        left -= *coefficient;
    }
}
