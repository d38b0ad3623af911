//! "Conditions": a condition as a job writes it, and its closure.

use crate::condition::{Alternative, Atom, Condition, Operator};
use crate::limits::LOCALS;

#[derive(Clone, Debug, PartialEq, Eq)]
pub struct WrittenAtom {
    pub measure: usize,
    pub operator: Operator,
    pub coefficients: [i64; LOCALS],
    pub constant: i64,
}

#[derive(Clone, Debug, PartialEq, Eq)]
pub struct WrittenCondition {
    pub locals: [i64; LOCALS],
    pub alternatives: Vec<Vec<WrittenAtom>>,
}

impl WrittenAtom {
    pub fn close(&self, locals: &[i64; LOCALS]) -> Atom {
        let mut key = self.constant;
        for (coefficient, local) in self.coefficients.iter().zip(locals) {
            key += coefficient * local;
        }
        Atom::new(self.measure, self.operator, key)
    }
}

impl WrittenCondition {
    pub fn close(&self) -> Condition {
        let mut alternatives = Vec::new();
        for written in &self.alternatives {
            let atoms = written.iter().map(|atom| atom.close(&self.locals));
            alternatives.push(Alternative {
                atoms: atoms.collect(),
            });
        }
        Condition { alternatives }
    }

    /// The writing without a local part: every key as its atom's constant.
    pub fn plain(condition: &Condition) -> WrittenCondition {
        let mut alternatives = Vec::new();
        for alternative in &condition.alternatives {
            let written = alternative.atoms.iter().map(|atom| WrittenAtom {
                measure: atom.measure,
                operator: atom.operator,
                coefficients: [0; LOCALS],
                constant: atom.key,
            });
            alternatives.push(written.collect());
        }
        WrittenCondition {
            locals: [0; LOCALS],
            alternatives,
        }
    }
}
