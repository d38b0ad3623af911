//! Streams with numbers at the ends of their ranges.

use crate::closure::{WrittenAtom, WrittenCondition};
use crate::condition::Operator;
use crate::limits::{COEFFICIENT_MOST, JOBS, LOCALS, MEASURES_MOST, VALUE_MOST, VARIABLES};
use crate::random::Random;
use crate::record::{Event, Opening};
use crate::room::Standing;
use crate::streams::author::Author;

pub fn extreme(mut random: Random, size: usize) -> Vec<u8> {
    let opening = extreme_opening(&mut random, size);
    let mut author = Author::open(random, &opening, size);
    while add_event(&mut author) {}
    author.bytes
}

/// False once nothing fits.
fn add_event(author: &mut Author) -> bool {
    for _ in 0..8 {
        if let Some(event) = next_event(author) {
            if author.add(&event).is_some() {
                return true;
            }
        }
    }
    false
}

fn extreme_opening(random: &mut Random, size: usize) -> Opening {
    let most = (size / 64).clamp(1, MEASURES_MOST);
    let mut measures = Vec::new();
    for _ in 0..1 + random.below(most) {
        measures.push(extreme_measure(random));
    }
    let mut values = [0; VARIABLES];
    for value in &mut values {
        *value = extreme_value(random);
    }
    if random.once_in(3) {
        values = [random.pick(&[-VALUE_MOST, VALUE_MOST]); VARIABLES];
    }
    Opening { measures, values }
}

fn extreme_measure(random: &mut Random) -> [i64; VARIABLES] {
    let end = random.pick(&[-COEFFICIENT_MOST, COEFFICIENT_MOST]);
    match random.below(5) {
        0 => [end; VARIABLES],
        // At values ±1,000,000 this comes to ±401,000,000, the ends of the keys.
        1 => [end, end, end, end, end / COEFFICIENT_MOST, 0, 0, 0],
        2 => single_variable_measure(random),
        3 => [0; VARIABLES],
        _ => {
            let mut coefficients = [0; VARIABLES];
            for coefficient in &mut coefficients {
                *coefficient = extreme_coefficient(random);
            }
            coefficients
        }
    }
}

/// Its value can be met by a constant alone.
fn single_variable_measure(random: &mut Random) -> [i64; VARIABLES] {
    let mut coefficients = [0; VARIABLES];
    coefficients[random.below(VARIABLES)] = random.pick(&[-1, 1]);
    coefficients
}

fn extreme_value(random: &mut Random) -> i64 {
    let end = VALUE_MOST;
    random.pick(&[end, end, -end, -end, end - 1, 1 - end, 0, 1, -1])
}

fn extreme_coefficient(random: &mut Random) -> i64 {
    let end = COEFFICIENT_MOST;
    random.pick(&[end, -end, end - 1, 1 - end, 0, 0, 1, -1])
}

fn next_event(author: &mut Author) -> Option<Event> {
    if author.random.once_in(8) {
        if let Some(job) = author.pick_standing(Standing::Outside) {
            return Some(Event::Arrive { job });
        }
    }
    if let Some(job) = author.room.inside() {
        return Some(match author.random.below(6) {
            0 | 1 => Event::Set {
                job,
                variable: author.random.below(VARIABLES),
                value: extreme_value(&mut author.random),
            },
            2..=4 if author.jobs_with_condition() < JOBS - 1 => wait(author, job),
            _ => Event::Leave { job },
        });
    }
    author.admit_or_arrive()
}

/// Mostly with a condition that is false.
fn wait(author: &mut Author, job: usize) -> Event {
    let measures = author.room.measure_values();
    let mut condition = extreme_condition(&mut author.random, measures.len());
    for _ in 0..5 {
        if condition.close().is_true(&measures) {
            condition = extreme_condition(&mut author.random, measures.len());
        }
    }
    Event::Wait { job, condition }
}

fn extreme_condition(random: &mut Random, measure_count: usize) -> WrittenCondition {
    let mut locals = [0; LOCALS];
    for local in &mut locals {
        *local = extreme_value(random);
    }
    let all_at_one_end = random.once_in(3);
    if all_at_one_end {
        locals = [VALUE_MOST; LOCALS];
    }
    let mut alternatives = Vec::new();
    for _ in 0..random.pick(&[1, 1, 1, 2, 4]) {
        let mut atoms = Vec::new();
        for _ in 0..random.pick(&[1, 1, 1, 2, 4]) {
            atoms.push(if all_at_one_end {
                end_atom(random, measure_count)
            } else {
                extreme_atom(random, measure_count)
            });
        }
        alternatives.push(atoms);
    }
    WrittenCondition {
        locals,
        alternatives,
    }
}

fn extreme_atom(random: &mut Random, measure_count: usize) -> WrittenAtom {
    let mut coefficients = [0; LOCALS];
    if random.once_in(2) {
        for coefficient in &mut coefficients {
            *coefficient = extreme_coefficient(random);
        }
    }
    WrittenAtom {
        measure: random.below(measure_count),
        operator: random.pick(&Operator::ALL),
        coefficients,
        constant: extreme_value(random),
    }
}

/// Its key is 401,000,000 or −401,000,000 when all locals are 1,000,000.
fn end_atom(random: &mut Random, measure_count: usize) -> WrittenAtom {
    let sign = random.pick(&[-1, 1]);
    WrittenAtom {
        measure: random.below(measure_count),
        operator: random.pick(&Operator::ALL),
        coefficients: [sign * COEFFICIENT_MOST; LOCALS],
        constant: sign * VALUE_MOST,
    }
}
