//! "Standings and events": what an event is answered.

use crate::c;
use crate::limits::JOBS;
use crate::refusal::Refusal;

/// What came of an event.
#[derive(Clone, Copy, Debug, PartialEq, Eq)]
pub enum Outcome {
    /// An Arrive, a Set or a Leave was accepted.
    Done,
    /// The admitted job is inside.
    In,
    /// The job's condition is false: it took a ticket and waits.
    Waits,
    /// The job's condition is true: it stays inside.
    On,
    /// The called job's condition is false again: it was sent back to waiting with its old ticket.
    Back,
    /// The event was refused. Nothing changed.
    Refused(Refusal),
    /// There were no bytes. Nothing changed, and it is no refusal.
    NoneLeft,
}

/// The answer to an event. Outcome, call, count and bytes taken are those of document 01's rules,
/// whatever the bytes and whatever happened in the room before.
#[derive(Clone, Copy, Debug, PartialEq, Eq)]
pub struct Report {
    /// What came of it.
    pub outcome: Outcome,
    /// The job that the event's search moved from waiting to called. Its condition was true at
    /// that moment. Nobody is called exactly if the event made no search, or no waiting job's
    /// condition was true.
    pub called: Option<u8>,
    /// How many alternatives the event's search evaluated; 0 without a search.
    pub evaluated: u64,
    /// How many bytes the record took, from the first on. 0 for refusals 1 to 4 and for none left;
    /// refusals 5 to 7 take the record.
    pub taken: usize,
}

impl Report {
    /// The refusal, if the event was refused.
    pub fn refusal(&self) -> Option<Refusal> {
        match self.outcome {
            Outcome::Refused(refusal) => Some(refusal),
            _ => None,
        }
    }

    pub(crate) fn of(report: &c::Report) -> Report {
        Report {
            outcome: outcome_of(report),
            called: (usize::from(report.job) < JOBS).then_some(report.job),
            evaluated: report.count,
            taken: report.taken as usize,
        }
    }
}

fn outcome_of(report: &c::Report) -> Outcome {
    match (report.outcome, Refusal::of(report.refusal)) {
        (0, None) => Outcome::Done,
        (1, None) => Outcome::In,
        (2, None) => Outcome::Waits,
        (3, None) => Outcome::On,
        (4, None) => Outcome::Back,
        (5, Some(refusal)) => Outcome::Refused(refusal),
        (6, None) => Outcome::NoneLeft,
        _ => unreachable!("{:?} is no report", report),
    }
}
