//! Events, from the second implementation's whole record or its refusal.

use super::{from, got, refused};
use crate::events::{HeadAnswer, WaitSlots};
use crate::Answer;
use second::closure::WrittenCondition;
use second::limits::{ATOMS_MOST, JOBS, LOCALS};
use second::record::{read_event, Event};

pub const WAIT: u8 = 4;

/// A kind and a job take one byte each, since a number below 128 has no other form.
const HEAD_LENGTH: usize = 2;

/// The answers of both readers: the head and, of a Wait, its numbers.
#[derive(Clone, Debug, PartialEq, Eq)]
pub struct EventAnswer {
    pub head: HeadAnswer,
    pub numbers: Option<Numbers>,
}

/// The answer of a Wait's numbers, and what the lent slots hold after it.
#[derive(Clone, Debug, PartialEq, Eq)]
pub struct Numbers {
    pub answer: Answer,
    pub slots: WaitSlots,
}

impl EventAnswer {
    /// The refusal of the whole record; 0 if it was read, and if none is left.
    pub fn refusal(&self) -> u8 {
        match &self.numbers {
            Some(numbers) => numbers.answer.refusal,
            None => self.head.refusal,
        }
    }

    /// The place after the whole record.
    pub fn next(&self) -> usize {
        match &self.numbers {
            Some(numbers) => numbers.answer.next,
            None => self.head.next,
        }
    }
}

pub fn none_left() -> EventAnswer {
    refused_head(0)
}

pub fn refused_head(refusal: u8) -> EventAnswer {
    let mut answer = job_alone(0, 0, 0);
    answer.head.refusal = refusal;
    answer
}

/// An event that is its kind and its job.
pub fn job_alone(kind: u8, job: usize, next: usize) -> EventAnswer {
    EventAnswer {
        head: HeadAnswer {
            kind,
            refusal: 0,
            job: job as u64,
            variable: 0,
            value: 0,
            next,
        },
        numbers: None,
    }
}

pub fn refused_numbers(refusal: u8) -> Numbers {
    Numbers {
        answer: refused(refusal),
        slots: WaitSlots::CLEAR,
    }
}

/// The Wait of a job, whose record begins at a place.
pub fn wait(job: usize, at: usize, numbers: Numbers) -> EventAnswer {
    let mut answer = job_alone(WAIT, job, at + HEAD_LENGTH);
    answer.numbers = Some(numbers);
    answer
}

/// For a room with 1 to 16 measures.
pub fn event(bytes: &[u8], at: usize, measure_count: usize) -> EventAnswer {
    let left = from(bytes, at);
    if left.is_empty() {
        return none_left();
    }
    match read_event(left, measure_count) {
        Ok((event, taken)) => whole(&event, at, at + taken),
        Err(refusal) => match left {
            [WAIT, job, ..] if usize::from(*job) < JOBS => {
                wait(usize::from(*job), at, refused_numbers(refusal.number()))
            }
            _ => refused_head(refusal.number()),
        },
    }
}

/// An event whose record begins at a place and ends before another.
pub fn whole(event: &Event, at: usize, next: usize) -> EventAnswer {
    match event {
        Event::Arrive { job } => job_alone(1, *job, next),
        Event::Admit { job } => job_alone(2, *job, next),
        Event::Set {
            job,
            variable,
            value,
        } => {
            let mut answer = job_alone(3, *job, next);
            answer.head.variable = *variable as u64;
            answer.head.value = *value;
            answer
        }
        Event::Wait { job, condition } => {
            let numbers = Numbers {
                answer: got(condition.alternatives.len() as u64, next),
                slots: slots_of(condition),
            };
            wait(*job, at, numbers)
        }
        Event::Leave { job } => job_alone(5, *job, next),
    }
}

pub fn slots_of(condition: &WrittenCondition) -> WaitSlots {
    let mut slots = WaitSlots::CLEAR;
    slots.locals = condition.locals;
    for (alternative, atoms) in condition.alternatives.iter().enumerate() {
        slots.counts[alternative] = atoms.len() as u8;
        for (place, atom) in atoms.iter().enumerate() {
            let slot = alternative * ATOMS_MOST + place;
            slots.measure[slot] = atom.measure as u8;
            slots.operator[slot] = atom.operator.number() as u8;
            slots.coefficients[slot * LOCALS..][..LOCALS].copy_from_slice(&atom.coefficients);
            slots.constant[slot] = atom.constant;
        }
    }
    slots
}
