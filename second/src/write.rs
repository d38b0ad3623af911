//! "Bytes", the other way round: openings and events as fields, and fields as bytes.

use crate::closure::WrittenCondition;
use crate::limits::{
    ALTERNATIVES_MOST, ATOMS_MOST, COEFFICIENT_MOST, JOBS, MEASURES_MOST, VALUE_MOST, VARIABLES,
};
use crate::number;
use crate::record::{Event, Opening};
use crate::refusal::Refusal;

/// One number of a record as it stands in the bytes (signed ones already mapped), the numbers
/// allowed there, and the refusal of all others.
#[derive(Clone, Copy, Debug, PartialEq, Eq)]
pub struct Field {
    pub name: &'static str,
    pub number: u32,
    pub least: u32,
    pub most: u32,
    pub refusal: Refusal,
}

fn unsigned(name: &'static str, number: usize, least: usize, most: usize) -> Field {
    Field {
        name,
        number: number as u32,
        least: least as u32,
        most: most as u32,
        refusal: Refusal::OutOfRange,
    }
}

fn choice(name: &'static str, number: u32, most: u32) -> Field {
    Field {
        name,
        number,
        least: 1,
        most,
        refusal: Refusal::UnknownKindOrOperator,
    }
}

/// The values from minus `most` to `most` are written as the numbers from 0 to twice `most`.
fn signed(name: &'static str, value: i64, most: i64) -> Field {
    Field {
        name,
        number: number::from_signed(value),
        least: 0,
        most: number::from_signed(most),
        refusal: Refusal::OutOfRange,
    }
}

pub fn bytes_of(fields: &[Field]) -> Vec<u8> {
    let mut bytes = Vec::new();
    for field in fields {
        number::write(field.number, &mut bytes);
    }
    bytes
}

pub fn opening(opening: &Opening) -> Vec<u8> {
    bytes_of(&opening_fields(opening))
}

pub fn event(event: &Event, measure_count: usize) -> Vec<u8> {
    bytes_of(&event_fields(event, measure_count))
}

pub fn opening_fields(opening: &Opening) -> Vec<Field> {
    let count = opening.measures.len();
    let mut fields = vec![unsigned("measure count", count, 1, MEASURES_MOST)];
    for coefficients in &opening.measures {
        for coefficient in coefficients {
            fields.push(signed("coefficient", *coefficient, COEFFICIENT_MOST));
        }
    }
    for value in &opening.values {
        fields.push(signed("value", *value, VALUE_MOST));
    }
    fields
}

pub fn event_fields(event: &Event, measure_count: usize) -> Vec<Field> {
    let (kind, job) = match event {
        Event::Arrive { job } => (1, *job),
        Event::Admit { job } => (2, *job),
        Event::Set { job, .. } => (3, *job),
        Event::Wait { job, .. } => (4, *job),
        Event::Leave { job } => (5, *job),
    };
    let mut fields = vec![choice("kind", kind, 5), unsigned("job", job, 0, JOBS - 1)];
    match event {
        Event::Set {
            variable, value, ..
        } => {
            fields.push(unsigned("variable", *variable, 0, VARIABLES - 1));
            fields.push(signed("value", *value, VALUE_MOST));
        }
        Event::Wait { condition, .. } => condition_fields(condition, measure_count, &mut fields),
        Event::Arrive { .. } | Event::Admit { .. } | Event::Leave { .. } => {}
    }
    fields
}

fn condition_fields(condition: &WrittenCondition, measure_count: usize, fields: &mut Vec<Field>) {
    for local in &condition.locals {
        fields.push(signed("local value", *local, VALUE_MOST));
    }
    let count = condition.alternatives.len();
    fields.push(unsigned("alternative count", count, 1, ALTERNATIVES_MOST));
    for atoms in &condition.alternatives {
        fields.push(unsigned("atom count", atoms.len(), 1, ATOMS_MOST));
        for atom in atoms {
            fields.push(unsigned("measure", atom.measure, 0, measure_count - 1));
            fields.push(choice("operator", atom.operator.number(), 6));
            for coefficient in &atom.coefficients {
                fields.push(signed("coefficient", *coefficient, COEFFICIENT_MOST));
            }
            fields.push(signed("constant", atom.constant, VALUE_MOST));
        }
    }
}
