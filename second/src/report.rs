//! "Standings and events": one event in, one report out.

use crate::refusal::Refusal;

#[derive(Clone, Copy, Debug, PartialEq, Eq)]
pub enum Outcome {
    Done,
    In,
    Waits,
    On,
    Back,
    Refused(Refusal),
    NoneLeft,
}

#[derive(Clone, Copy, Debug, PartialEq, Eq)]
pub struct Report {
    pub outcome: Outcome,
    pub called: Option<usize>,
    pub evaluated: usize,
    pub taken: usize,
}

impl Report {
    pub fn none_left() -> Report {
        Report {
            outcome: Outcome::NoneLeft,
            called: None,
            evaluated: 0,
            taken: 0,
        }
    }

    pub fn refused(refusal: Refusal, taken: usize) -> Report {
        Report {
            outcome: Outcome::Refused(refusal),
            called: None,
            evaluated: 0,
            taken,
        }
    }
}
