//! What can be seen of the library's room, held against the second implementation's.

use harbour::{c, Tally};
use second::condition::Condition;
use second::limits::{ALTERNATIVES_MOST, ATOMS_MOST};
use second::report::{Outcome, Report};
use second::room::{Job, Room, Standing};

/// Fails with the name of what differs, and both.
macro_rules! same {
    ($name:expr, $library:expr, $second:expr) => {
        if $library != $second {
            return Err(format!(
                "{}: {:?}, and by the second implementation {:?}",
                $name, $library, $second
            ));
        }
    };
}

pub fn reports(report: &c::Report, right: &Report) -> Result<(), String> {
    let right = c::Report {
        outcome: outcome_number(&right.outcome),
        job: right.called.unwrap_or(32) as u8,
        refusal: match right.outcome {
            Outcome::Refused(refusal) => refusal.number(),
            _ => 0,
        },
        count: right.evaluated as u64,
        taken: right.taken as u64,
    };
    same!("report", *report, right);
    Ok(())
}

fn outcome_number(outcome: &Outcome) -> u8 {
    match outcome {
        Outcome::Done => 0,
        Outcome::In => 1,
        Outcome::Waits => 2,
        Outcome::On => 3,
        Outcome::Back => 4,
        Outcome::Refused(_) => 5,
        Outcome::NoneLeft => 6,
    }
}

pub fn tallies(tally: &Tally, right: &second::tally::Tally) -> Result<(), String> {
    same!("accepted events", tally.events, right.accepted);
    same!("calls", tally.calls, right.calls);
    same!("evaluated", tally.evaluated, right.evaluated);
    same!("sent back", tally.sent_back, right.sent_back);
    Ok(())
}

/// Every number of the room that has a meaning, but for the index.
pub fn rooms(room: &c::Room, right: &Room) -> Result<(), String> {
    same!("measures", room.measures, right.measures.len());
    let coefficients = &room.coefficients[..room.measures];
    same!("coefficients", coefficients, &right.measures[..]);
    same!("values", room.values, right.values);
    same!("next ticket", room.next_ticket, right.next_ticket);
    for (number, job) in right.jobs.iter().enumerate() {
        if let Err(difference) = jobs(room, number, job) {
            return Err(format!("job {number}, {difference}"));
        }
    }
    Ok(())
}

fn jobs(room: &c::Room, number: usize, right: &Job) -> Result<(), String> {
    same!(
        "standing",
        room.standing[number],
        standing_number(right.standing)
    );
    if let Some(ticket) = right.ticket {
        same!("ticket", room.ticket[number], ticket);
    }
    match &right.condition {
        Some(condition) => conditions(room, number, condition),
        None => Ok(()),
    }
}

pub fn standing_number(standing: Standing) -> u8 {
    match standing {
        Standing::Outside => 0,
        Standing::Door => 1,
        Standing::Inside => 2,
        Standing::Waiting => 3,
        Standing::Called => 4,
    }
}

fn conditions(room: &c::Room, job: usize, right: &Condition) -> Result<(), String> {
    same!(
        "alternatives",
        usize::from(room.alternatives[job]),
        right.alternatives.len()
    );
    for (place, alternative) in right.alternatives.iter().enumerate() {
        let node = ALTERNATIVES_MOST * job + place;
        same!(
            "atoms",
            usize::from(room.atoms[node]),
            alternative.atoms.len()
        );
        for (place, atom) in alternative.atoms.iter().enumerate() {
            let slot = ATOMS_MOST * node + place;
            same!("measure", usize::from(room.measure[slot]), atom.measure);
            same!(
                "operator",
                u32::from(room.operator[slot]),
                atom.operator.number()
            );
            same!("key", room.key[slot], atom.key);
        }
    }
    Ok(())
}
