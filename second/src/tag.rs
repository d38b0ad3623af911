//! "Conditions": the tag of an alternative.

use crate::condition::{Alternative, Atom, Operator};

#[derive(Clone, Copy, Debug, PartialEq, Eq)]
pub enum Tag {
    Equality(Atom),
    Threshold(Atom),
    NoTag,
}

impl Tag {
    pub fn of(alternative: &Alternative) -> Tag {
        for atom in &alternative.atoms {
            if atom.operator == Operator::Equal {
                return Tag::Equality(*atom);
            }
        }
        for atom in &alternative.atoms {
            if atom.operator != Operator::NotEqual {
                return Tag::Threshold(*atom);
            }
        }
        Tag::NoTag
    }

    pub fn holds(&self, measures: &[i64]) -> bool {
        match self {
            Tag::Equality(atom) | Tag::Threshold(atom) => atom.is_true(measures),
            Tag::NoTag => true,
        }
    }
}
