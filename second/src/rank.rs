//! "Which job a search calls": the order of the pairs of a waiting job and an alternative.
//!
//! The derived order is the document's: first the variants as they stand here, then within a
//! variant the fields as they stand here. The least rank comes first.

use crate::condition::{Atom, Operator};
use crate::tag::Tag;

#[derive(Clone, Copy, Debug, PartialEq, Eq, PartialOrd, Ord)]
pub enum Rank {
    Equality {
        measure: usize,
        ticket: u32,
        alternative: usize,
    },
    Threshold {
        measure: usize,
        direction: Direction,
        /// The key itself for > and ≥, the key negated for < and ≤, of which the larger leads.
        key_place: i64,
        strictness: Strictness,
        ticket: u32,
        alternative: usize,
    },
    NoTag {
        ticket: u32,
        alternative: usize,
    },
}

#[derive(Clone, Copy, Debug, PartialEq, Eq, PartialOrd, Ord)]
pub enum Direction {
    Above,
    Below,
}

#[derive(Clone, Copy, Debug, PartialEq, Eq, PartialOrd, Ord)]
pub enum Strictness {
    OrEqual,
    Strict,
}

impl Rank {
    pub fn of(tag: &Tag, ticket: u32, alternative: usize) -> Rank {
        match tag {
            Tag::Equality(atom) => Rank::Equality {
                measure: atom.measure,
                ticket,
                alternative,
            },
            Tag::Threshold(atom) => {
                let (direction, key_place, strictness) = threshold_place(atom);
                Rank::Threshold {
                    measure: atom.measure,
                    direction,
                    key_place,
                    strictness,
                    ticket,
                    alternative,
                }
            }
            Tag::NoTag => Rank::NoTag {
                ticket,
                alternative,
            },
        }
    }
}

fn threshold_place(atom: &Atom) -> (Direction, i64, Strictness) {
    match atom.operator {
        Operator::GreaterOrEqual => (Direction::Above, atom.key, Strictness::OrEqual),
        Operator::Greater => (Direction::Above, atom.key, Strictness::Strict),
        Operator::LessOrEqual => (Direction::Below, -atom.key, Strictness::OrEqual),
        Operator::Less => (Direction::Below, -atom.key, Strictness::Strict),
        Operator::Equal | Operator::NotEqual => unreachable!("no threshold"),
    }
}
