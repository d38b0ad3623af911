//! Openings and events as bytes: numbers in groups of seven bits, lowest group first.

use harbour::VARIABLES;

/// A condition: its bytes from the local values on.
pub type Condition = Vec<u8>;

const ARRIVE: u8 = 1;
const ADMIT: u8 = 2;
const SET: u8 = 3;
const WAIT: u8 = 4;
const LEAVE: u8 = 5;

const AT_LEAST: u8 = 6;

pub fn opening(measures: &[[i64; VARIABLES]], values: &[i64; VARIABLES]) -> Vec<u8> {
    let mut bytes = vec![measures.len() as u8];
    for number in measures.iter().flatten().chain(values) {
        push_signed(&mut bytes, *number);
    }
    bytes
}

pub fn arrive(job: u8) -> Vec<u8> {
    vec![ARRIVE, job]
}

pub fn admit(job: u8) -> Vec<u8> {
    vec![ADMIT, job]
}

pub fn set(job: u8, variable: u8, value: i64) -> Vec<u8> {
    let mut bytes = vec![SET, job, variable];
    push_signed(&mut bytes, value);
    bytes
}

pub fn wait(job: u8, condition: &[u8]) -> Vec<u8> {
    [&[WAIT, job], condition].concat()
}

pub fn leave(job: u8) -> Vec<u8> {
    vec![LEAVE, job]
}

/// The measure is at least the job's number, its first local value: `count ≥ num` of the paper.
pub fn at_least(measure: u8, number: i64) -> Condition {
    let mut bytes = Vec::new();
    for local in [number, 0, 0, 0] {
        push_signed(&mut bytes, local);
    }
    // one alternative, of one atom
    bytes.extend([1, 1, measure, AT_LEAST]);
    // once the first local value, and the constant 0
    for number in [1, 0, 0, 0, 0] {
        push_signed(&mut bytes, number);
    }
    bytes
}

/// 0 and above as twice the number, below zero as minus twice the number, minus 1.
fn push_signed(bytes: &mut Vec<u8>, number: i64) {
    let mut left = match number {
        0.. => 2 * number,
        _ => -2 * number - 1,
    };
    while left >= 128 {
        bytes.push((left % 128) as u8 + 128);
        left /= 128;
    }
    bytes.push(left as u8);
}
