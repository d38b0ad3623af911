//! What a run over the index draws from: measures, few values for each variable, so that measures
//! come back to what they were, and conditions whose keys are what the measures come to, or one off.

use crate::conditions::KEY_MOST;
use crate::extremes::shape;
use second::condition::{Atom, Condition, Operator};
use second::limits::{
    ALTERNATIVES_MOST, ATOMS_MOST, COEFFICIENT_MOST, MEASURES_MOST, VALUE_MOST, VARIABLES,
};
use second::measure::measure;
use second::random::Random;
use second::record::Opening;

/// With a guard, the last measure is this variable, and alternatives have an atom that it is not 0.
/// While it is 0 hardly anybody is called, whatever tags hold.
pub const GUARD: usize = VARIABLES - 1;

#[derive(Clone, Copy, Debug, PartialEq, Eq)]
pub enum Keys {
    /// Small values and keys.
    Near,
    /// Measures and keys at and near ±401,000,000 as well.
    Far,
}

#[derive(Debug)]
pub struct Stock {
    pub opening: Opening,
    /// Those that a Set may change, each with its values.
    values: Vec<Vec<i64>>,
    guarded: bool,
    /// Where conditions are of four alternatives in one home, the operators of their tags.
    narrow: Option<&'static [Operator]>,
}

/// Of each home's tags the operators; without a tag there is ≠ alone.
const NARROW: [&[Operator]; 4] = [
    &[Operator::Equal],
    &[Operator::GreaterOrEqual, Operator::Greater],
    &[Operator::LessOrEqual, Operator::Less],
    &[Operator::NotEqual],
];

impl Stock {
    pub fn new(random: &mut Random, keys: Keys, guarded: bool) -> Stock {
        let count = random.pick(&[1, 2, 2, 3, 3, 5, MEASURES_MOST - usize::from(guarded)]);
        let mut measures: Vec<_> = (0..count).map(|_| row(random, keys)).collect();
        let mut values: Vec<_> = (0..VARIABLES)
            .map(|variable| few_values(random, keys, variable))
            .collect();
        if guarded {
            measures.push(unit(GUARD, 1));
            measures[..count].iter_mut().for_each(|row| row[GUARD] = 0);
            values.truncate(GUARD);
        }
        Stock {
            opening: Opening {
                measures,
                values: some(random, &values),
            },
            values,
            guarded,
            narrow: None,
        }
    }

    /// Nearly all alternatives in one home, which 32 jobs fill.
    pub fn narrow(random: &mut Random) -> Stock {
        Stock {
            opening: Opening {
                measures: vec![unit(0, random.pick(&[1, -1])), unit(1, 1)],
                values: [0; VARIABLES],
            },
            values: vec![(-4..5).collect(), vec![0, 0, 0, 1]],
            guarded: false,
            narrow: Some(random.pick(&NARROW)),
        }
    }

    /// A variable other than the guard, and one of its values.
    pub fn set(&self, random: &mut Random) -> (usize, i64) {
        let variable = random.below(self.values.len());
        (variable, random.pick(&self.values[variable]))
    }

    pub fn condition(&self, random: &mut Random) -> Condition {
        if let Some(operators) = self.narrow {
            return self.narrow_condition(random, operators);
        }
        let mut alternatives = match random.below(6) {
            0 => vec![vec![self.atom(random, &Operator::ALL)]],
            1 => self.all_classes(random),
            2 => self.many(random, &[Operator::Equal, Operator::NotEqual]),
            3 => self.many(random, &Operator::ALL[2..]),
            4 => self.many(random, &[Operator::NotEqual]),
            _ => shape(random, |random| self.atom(random, &Operator::ALL)),
        };
        if self.guarded {
            for atoms in &mut alternatives {
                atoms.truncate(ATOMS_MOST - 1);
                let place = random.below(atoms.len() + 1);
                let guard = self.opening.measures.len() - 1;
                atoms.insert(place, Atom::new(guard, Operator::NotEqual, 0));
            }
        }
        Condition::new(alternatives)
    }

    /// One like another, but for an operator, a key by one, a measure, or the order of alternatives.
    pub fn like(&self, random: &mut Random, condition: &Condition) -> Condition {
        let mut like = condition.clone();
        let count = like.alternatives.len();
        let atoms = &mut like.alternatives[random.below(count)].atoms;
        let place = random.below(atoms.len());
        let atom = &mut atoms[place];
        match random.below(8) {
            0 => atom.key = in_range(atom.key + random.pick(&[1, -1])),
            1 => atom.measure = self.measure(random),
            2 => like.alternatives.rotate_left(1),
            _ => atom.operator = random.pick(&Operator::ALL),
        }
        like
    }

    /// Nearly all tags are of measure 0, and most alternatives are true only if measure 1 is not 0.
    fn narrow_condition(&self, random: &mut Random, operators: &[Operator]) -> Condition {
        let mut alternatives = vec![Vec::new(); ALTERNATIVES_MOST];
        for atoms in &mut alternatives {
            let mut tag = self.atom(random, operators);
            tag.measure = usize::from(random.once_in(64));
            atoms.push(tag);
            if !random.once_in(16) {
                atoms.push(Atom::new(1, Operator::NotEqual, 0));
            }
        }
        Condition::new(alternatives)
    }

    /// An equality tag, a threshold and no tag, and a fourth, in any order.
    fn all_classes(&self, random: &mut Random) -> Vec<Vec<Atom>> {
        let mut alternatives = vec![
            vec![self.atom(random, &[Operator::Equal])],
            vec![self.atom(random, &Operator::ALL[2..])],
            vec![self.atom(random, &[Operator::NotEqual])],
            vec![self.atom(random, &Operator::ALL)],
        ];
        for atoms in &mut alternatives {
            if random.once_in(2) {
                atoms.insert(0, self.atom(random, &[Operator::NotEqual]));
            }
        }
        alternatives.rotate_left(random.below(ALTERNATIVES_MOST));
        alternatives
    }

    fn many(&self, random: &mut Random, operators: &[Operator]) -> Vec<Vec<Atom>> {
        let count = 1 + random.below(ALTERNATIVES_MOST);
        let mut one = || {
            let mut atoms = vec![self.atom(random, operators)];
            if random.once_in(2) {
                atoms.push(self.atom(random, &Operator::ALL));
            }
            atoms
        };
        (0..count).map(|_| one()).collect()
    }

    fn measure(&self, random: &mut Random) -> usize {
        random.below(self.opening.measures.len() - usize::from(self.guarded))
    }

    /// Its key is what the measure may come to, or one off.
    fn atom(&self, random: &mut Random, operators: &[Operator]) -> Atom {
        let of = self.measure(random);
        let values = some(random, &self.values);
        let key = measure(&self.opening.measures[of], &values) + random.pick(&[-1, 0, 0, 1]);
        Atom::new(of, random.pick(operators), in_range(key))
    }
}

/// One of the values of each variable; 0 where it has none.
fn some(random: &mut Random, few: &[Vec<i64>]) -> [i64; VARIABLES] {
    let mut values = [0; VARIABLES];
    for (value, few) in values.iter_mut().zip(few) {
        *value = random.pick(few);
    }
    values
}

fn in_range(key: i64) -> i64 {
    key.clamp(-KEY_MOST, KEY_MOST)
}

fn unit(variable: usize, coefficient: i64) -> [i64; VARIABLES] {
    let mut row = [0; VARIABLES];
    row[variable] = coefficient;
    row
}

/// A variable, a difference such as x − 2y, nothing at all, or four variables times 100 and a fifth:
/// with values of 1,000,000 that is 401,000,000.
fn row(random: &mut Random, keys: Keys) -> [i64; VARIABLES] {
    let sign = random.pick(&[1, -1]);
    match random.below(8) {
        0 => [0; VARIABLES],
        1 | 2 => {
            let mut row = unit(random.below(VARIABLES), sign);
            row[random.below(VARIABLES)] = -2 * sign;
            row
        }
        3 | 4 | 5 if keys == Keys::Far => {
            let mut row = [0; VARIABLES];
            row[..4].fill(sign * COEFFICIENT_MOST);
            row[4] = sign;
            row
        }
        _ => unit(random.below(VARIABLES), sign),
    }
}

fn few_values(random: &mut Random, keys: Keys, variable: usize) -> Vec<i64> {
    let (most, small) = (VALUE_MOST, random.between(-3, 9));
    match keys {
        Keys::Far if variable < 3 => vec![most],
        Keys::Far if variable == 3 => vec![most, most - 1],
        Keys::Far if variable == 4 => vec![most, most - 1, -most],
        _ => vec![small, small + 1, 0],
    }
}
