//! Records with numbers at and near the ends of their ranges.

use second::closure::{WrittenAtom, WrittenCondition};
use second::condition::Operator;
use second::limits::{
    ALTERNATIVES_MOST, ATOMS_MOST, COEFFICIENT_MOST, JOBS, LOCALS, VALUE_MOST, VARIABLES,
};
use second::random::Random;
use second::record::{Event, Opening};

pub fn opening(random: &mut Random, measure_count: usize) -> Opening {
    Opening {
        measures: (0..measure_count)
            .map(|_| row(random, COEFFICIENT_MOST))
            .collect(),
        values: row(random, VALUE_MOST),
    }
}

/// An event of a kind from 1 to 5.
pub fn event(random: &mut Random, kind: u8, measure_count: usize) -> Event {
    let job = one_below(random, JOBS);
    match kind {
        1 => Event::Arrive { job },
        2 => Event::Admit { job },
        3 => Event::Set {
            job,
            variable: one_below(random, VARIABLES),
            value: one_of(random, VALUE_MOST),
        },
        4 => Event::Wait {
            job,
            condition: condition(random, measure_count),
        },
        _ => Event::Leave { job },
    }
}

pub fn condition(random: &mut Random, measure_count: usize) -> WrittenCondition {
    WrittenCondition {
        locals: row(random, VALUE_MOST),
        alternatives: shape(random, |random| atom(random, measure_count)),
    }
}

/// 1 to 4 alternatives, and in each 1 to 4 atoms.
pub fn shape<T>(random: &mut Random, mut atom: impl FnMut(&mut Random) -> T) -> Vec<Vec<T>> {
    let mut alternatives = Vec::new();
    for _ in 0..1 + random.below(ALTERNATIVES_MOST) {
        let count = 1 + random.below(ATOMS_MOST);
        alternatives.push((0..count).map(|_| atom(random)).collect());
    }
    alternatives
}

fn atom(random: &mut Random, measure_count: usize) -> WrittenAtom {
    WrittenAtom {
        measure: one_below(random, measure_count),
        operator: random.pick(&Operator::ALL),
        coefficients: row::<LOCALS>(random, COEFFICIENT_MOST),
        constant: one_of(random, VALUE_MOST),
    }
}

fn row<const COUNT: usize>(random: &mut Random, most: i64) -> [i64; COUNT] {
    let mut row = [0; COUNT];
    row.iter_mut().for_each(|slot| *slot = one_of(random, most));
    row
}

pub fn one_of(random: &mut Random, most: i64) -> i64 {
    let any = random.between(-most, most);
    random.pick(&[
        most,
        -most,
        most - 1,
        1 - most,
        0,
        1,
        -1,
        63,
        64,
        -64,
        -65,
        any,
    ])
}

pub fn one_below(random: &mut Random, bound: usize) -> usize {
    let any = random.below(bound);
    random.pick(&[0, bound - 1, any])
}
