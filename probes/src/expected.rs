//! What the second implementation answers, in the form of the proved readers' answers.

pub mod conditions;
pub mod events;

use crate::{Answer, SignedAnswer, COEFFICIENTS, VALUES};
use second::limits::VARIABLES;
use second::number;
use second::reader::Reader;
use second::record;
use second::refusal::Refusal;

/// From a place past the end there are no bytes.
fn from(bytes: &[u8], at: usize) -> &[u8] {
    bytes.get(at..).unwrap_or(&[])
}

pub fn got(value: u64, next: usize) -> Answer {
    Answer {
        refusal: 0,
        value,
        next,
    }
}

pub fn refused(refusal: u8) -> Answer {
    Answer {
        refusal,
        value: 0,
        next: 0,
    }
}

pub fn signed_got(value: i64, next: usize) -> SignedAnswer {
    SignedAnswer {
        refusal: 0,
        value,
        next,
    }
}

pub fn signed_refused(refusal: u8) -> SignedAnswer {
    SignedAnswer {
        refusal,
        value: 0,
        next: 0,
    }
}

pub fn number(bytes: &[u8], at: usize) -> Answer {
    match number::read(from(bytes, at)) {
        Ok((number, length)) => got(u64::from(number), at + length),
        Err(refusal) => refused(refusal.number()),
    }
}

pub fn field(bytes: &[u8], at: usize, refusal: u8, low: u64, high: u64) -> Answer {
    let mut reader = Reader::new(from(bytes, at));
    match reader.unsigned(low as usize, high as usize) {
        Ok(number) => got(number as u64, at + reader.taken),
        Err(Refusal::OutOfRange) => refused(refusal),
        Err(other) => refused(other.number()),
    }
}

pub fn below(bytes: &[u8], at: usize, bound: u64) -> Answer {
    let out_of_range = Refusal::OutOfRange.number();
    match bound.checked_sub(1) {
        Some(high) => field(bytes, at, out_of_range, 0, high),
        // No number is from 1 to 0.
        None => field(bytes, at, out_of_range, 1, 0),
    }
}

pub fn signed(bytes: &[u8], at: usize, most: u64) -> SignedAnswer {
    let mut reader = Reader::new(from(bytes, at));
    match reader.signed(most.min(i64::MAX as u64) as i64) {
        Ok(value) => signed_got(value, at + reader.taken),
        Err(refusal) => signed_refused(refusal.number()),
    }
}

/// An opening's answer, and what the lent slots hold after it.
#[derive(Clone, Debug, PartialEq, Eq)]
pub struct Opened {
    pub answer: Answer,
    pub coefficients: [i64; COEFFICIENTS],
    pub values: [i64; VALUES],
}

pub fn opening(bytes: &[u8], at: usize) -> Opened {
    let mut opened = Opened {
        answer: refused(0),
        coefficients: [0; COEFFICIENTS],
        values: [0; VALUES],
    };
    match record::read_opening(from(bytes, at)) {
        Ok((opening, length)) => {
            opened.answer = got(opening.measures.len() as u64, at + length);
            for (measure, coefficients) in opening.measures.iter().enumerate() {
                let first = measure * VARIABLES;
                opened.coefficients[first..first + VARIABLES].copy_from_slice(coefficients);
            }
            opened.values = opening.values;
        }
        Err(refusal) => opened.answer = refused(refusal.number()),
    }
    opened
}
