//! What an accepted event leaves as it was, in the very memory that the library is lent. A search
//! only reads; a job that joins the index or parts from it changes entries, places and lengths and
//! nothing else; a condition goes into its own job's slots.

use harbour::c;
use second::limits::{ALTERNATIVES_MOST, ATOMS_MOST};
use second::report::{Outcome, Report};
use std::ops::Range;

const ATOMS_OF_A_JOB: usize = ALTERNATIVES_MOST * ATOMS_MOST;

/// So many numbers for each job, one job after the other.
fn of(job: usize, many: usize) -> Range<usize> {
    many * job..many * job + many
}

/// Standings, values and the next ticket are compared with the second implementation's elsewhere.
pub fn all_else(before: &c::Room, after: &c::Room, report: &Report) -> Result<(), String> {
    let mut expected = before.clone();
    expected.standing = after.standing;
    expected.values = after.values;
    expected.next_ticket = after.next_ticket;
    let joined = matches!(report.outcome, Outcome::Waits | Outcome::Back);
    if joined || report.called.is_some() {
        expected.entry = after.entry;
        expected.places = after.places;
        expected.lengths = after.lengths;
    }
    if report.outcome == Outcome::Waits {
        let inside = before.standing.iter().position(|code| *code == 2);
        let job = inside.ok_or("a job that waits was not inside")?;
        let (nodes, slots) = (of(job, ALTERNATIVES_MOST), of(job, ATOMS_OF_A_JOB));
        expected.ticket[job] = after.ticket[job];
        expected.alternatives[job] = after.alternatives[job];
        expected.atoms[nodes.clone()].copy_from_slice(&after.atoms[nodes.clone()]);
        expected.high[nodes.clone()].copy_from_slice(&after.high[nodes.clone()]);
        expected.low[nodes.clone()].copy_from_slice(&after.low[nodes]);
        expected.measure[slots.clone()].copy_from_slice(&after.measure[slots.clone()]);
        expected.operator[slots.clone()].copy_from_slice(&after.operator[slots.clone()]);
        expected.key[slots.clone()].copy_from_slice(&after.key[slots]);
    }
    match expected == *after {
        true => Ok(()),
        false => Err(format!(
            "{:?} changed what it had to leave as it was",
            report.outcome
        )),
    }
}
