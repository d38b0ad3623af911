//! "Which job a search calls": the search and its evaluated count.

use crate::condition::Condition;
use crate::rank::Rank;
use crate::tag::Tag;

/// A waiting job, as a search sees it.
#[derive(Clone, Copy, Debug)]
pub struct Waiting<'a> {
    pub job: usize,
    pub ticket: u32,
    pub condition: &'a Condition,
}

#[derive(Clone, Copy, Debug, PartialEq, Eq)]
pub struct Found {
    pub job: usize,
    pub alternative: usize,
    pub rank: Rank,
}

#[derive(Clone, Copy, Debug, PartialEq, Eq)]
pub struct Search {
    pub found: Option<Found>,
    pub evaluated: usize,
}

/// `measures` holds what each measure of the room comes to at present.
pub fn search(waiting: &[Waiting], measures: &[i64]) -> Search {
    let found = least_true_pair(waiting, measures);
    let limit = found.map(|found| found.rank);
    Search {
        found,
        evaluated: evaluated(waiting, measures, limit),
    }
}

fn least_true_pair(waiting: &[Waiting], measures: &[i64]) -> Option<Found> {
    let mut least: Option<Found> = None;
    for one in waiting {
        for (number, alternative) in one.condition.alternatives.iter().enumerate() {
            if !alternative.is_true(measures) {
                continue;
            }
            let rank = Rank::of(&Tag::of(alternative), one.ticket, number);
            let is_less = match least {
                Some(found) => rank < found.rank,
                None => true,
            };
            if is_less {
                least = Some(Found {
                    job: one.job,
                    alternative: number,
                    rank,
                });
            }
        }
    }
    least
}

/// How many alternatives of the distinct conditions hold their tag and rank no later than
/// `limit`; without a limit all that hold their tag.
fn evaluated(waiting: &[Waiting], measures: &[i64], limit: Option<Rank>) -> usize {
    let mut count = 0;
    for oldest in oldest_of_each_condition(waiting) {
        for (number, alternative) in oldest.condition.alternatives.iter().enumerate() {
            let tag = Tag::of(alternative);
            let rank = Rank::of(&tag, oldest.ticket, number);
            let in_reach = match limit {
                Some(limit) => rank <= limit,
                None => true,
            };
            if tag.holds(measures) && in_reach {
                count += 1;
            }
        }
    }
    count
}

/// For each distinct condition the waiting job with the least ticket.
pub fn oldest_of_each_condition<'a>(waiting: &[Waiting<'a>]) -> Vec<Waiting<'a>> {
    let is_oldest = |one: &Waiting| {
        waiting
            .iter()
            .all(|other| other.condition != one.condition || one.ticket <= other.ticket)
    };
    waiting
        .iter()
        .filter(|one| is_oldest(one))
        .copied()
        .collect()
}
