//! "Numbers that bound it": a measure is a sum over the shared variables.

use crate::limits::VARIABLES;

pub fn measure(coefficients: &[i64; VARIABLES], values: &[i64; VARIABLES]) -> i64 {
    let mut sum = 0;
    for variable in 0..VARIABLES {
        sum += coefficients[variable] * values[variable];
    }
    sum
}
