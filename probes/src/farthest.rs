//! Sums as far from 0 as they go: every measure at ±800,000,000, every key at ±401,000,000.

use crate::extremes::shape;
use second::closure::{WrittenAtom, WrittenCondition};
use second::condition::Operator;
use second::limits::{COEFFICIENT_MOST, VALUE_MOST};
use second::random::Random;
use second::record::Opening;

pub fn opening(random: &mut Random, measure_count: usize) -> Opening {
    let signs = signs(random);
    Opening {
        measures: (0..measure_count)
            .map(|_| along(signs, sign(random) * COEFFICIENT_MOST))
            .collect(),
        values: along(signs, VALUE_MOST),
    }
}

pub fn condition(random: &mut Random, measure_count: usize) -> WrittenCondition {
    let signs = signs(random);
    WrittenCondition {
        locals: along(signs, VALUE_MOST),
        alternatives: shape(random, |random| {
            let side = sign(random);
            WrittenAtom {
                measure: random.below(measure_count),
                operator: random.pick(&Operator::ALL),
                coefficients: along(signs, side * COEFFICIENT_MOST),
                constant: side * VALUE_MOST,
            }
        }),
    }
}

fn sign(random: &mut Random) -> i64 {
    random.pick(&[1, -1])
}

fn signs<const COUNT: usize>(random: &mut Random) -> [i64; COUNT] {
    [0; COUNT].map(|_| sign(random))
}

/// Products with numbers of these signs are all of one.
fn along<const COUNT: usize>(signs: [i64; COUNT], number: i64) -> [i64; COUNT] {
    signs.map(|sign| sign * number)
}
