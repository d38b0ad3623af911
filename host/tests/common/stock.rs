//! What a run draws from: measures, a few scenes, which are values that it comes back to again and
//! again, and conditions that are true at one of them.

use second::condition::{Atom, Condition, Operator};
use second::limits::{
    ALTERNATIVES_MOST, ATOMS_MOST, COEFFICIENT_MOST, MEASURES_MOST, VALUE_MOST, VARIABLES,
};
use second::measure::measure;
use second::random::Random;
use second::record::Opening;

/// With a guard, the last measure is this variable alone, and alternatives have an atom that it is
/// not 0, which is never a tag. While it is 0 nobody with such a condition is called, whatever tags
/// hold.
pub const GUARD: usize = VARIABLES - 1;

/// Keys lie between minus this and this.
pub const KEY_MOST: i64 = 401_000_000;

#[derive(Clone, Copy, Debug, PartialEq, Eq)]
pub enum Keys {
    /// Small values and keys.
    Near,
    /// Measures and keys at and near ±401,000,000 as well, and measures past every key.
    Far,
}

pub struct Stock {
    pub opening: Opening,
    pub guarded: bool,
    /// At each of them the guard is open.
    pub scenes: Vec<[i64; VARIABLES]>,
    /// What the measures come to at each scene.
    levels: Vec<Vec<i64>>,
    /// What jobs wait for; if there are none, for a new condition each time.
    conditions: Vec<Condition>,
}

impl Stock {
    pub fn new(random: &mut Random, keys: Keys, guarded: bool, few: bool) -> Stock {
        let count = random.pick(&[1, 2, 2, 3, 3, 5, MEASURES_MOST - usize::from(guarded)]);
        let variables = random.pick(&[1, 2, 3, 3, 4, VARIABLES - 1]);
        let mut row = || row(random, keys, variables);
        let mut measures: Vec<_> = (0..count).map(|_| row()).collect();
        if guarded {
            measures.iter_mut().for_each(|row| row[GUARD] = 0);
            measures.push(unit(GUARD, 1));
        }
        let scenes = scenes(random, keys, variables);
        let levels = scenes.iter().map(|scene| {
            let level = |row: &[i64; VARIABLES]| measure(row, scene);
            measures.iter().map(level).collect()
        });
        let mut stock = Stock {
            levels: levels.collect(),
            opening: Opening {
                measures,
                values: scenes[0],
            },
            guarded,
            scenes,
            conditions: Vec::new(),
        };
        if few {
            stock.conditions = few_conditions(random, &stock);
        }
        stock
    }

    pub fn condition(&self, random: &mut Random) -> Condition {
        match self.conditions.as_slice() {
            [] => self.new_condition(random),
            conditions => random.pick(conditions),
        }
    }

    /// Hardly ever one that is true at no scene: those who wait for such stay for good.
    fn new_condition(&self, random: &mut Random) -> Condition {
        let hopeless_is_well = random.once_in(64);
        loop {
            let condition = self.any_condition(random);
            let mut levels = self.levels.iter();
            if hopeless_is_well || levels.any(|levels| condition.is_true(levels)) {
                return condition;
            }
        }
    }

    fn any_condition(&self, random: &mut Random) -> Condition {
        let operators: &[Operator] = match random.below(6) {
            0 => &[Operator::Equal],
            1 => &[Operator::NotEqual],
            2 => &Operator::ALL[2..],
            _ => &Operator::ALL,
        };
        let levels = &self.levels[random.below(self.levels.len())];
        let mut alternatives = Vec::new();
        for _ in 0..one_to(random, ALTERNATIVES_MOST) {
            let mut atoms = Vec::new();
            for _ in 0..one_to(random, ATOMS_MOST) {
                atoms.push(self.atom(random, levels, operators));
            }
            if self.guarded && !random.once_in(16) {
                atoms.truncate(ATOMS_MOST - 1);
                let place = random.below(atoms.len() + 1);
                let guard = Atom::new(levels.len() - 1, Operator::NotEqual, 0);
                atoms.insert(place, guard);
            }
            alternatives.push(atoms);
        }
        Condition::new(alternatives)
    }

    /// Mostly one that is true at these levels. There are few different keys, so that different
    /// operators meet at one.
    fn atom(&self, random: &mut Random, levels: &[i64], operators: &[Operator]) -> Atom {
        let of = random.below(levels.len() - usize::from(self.guarded));
        let operator = random.pick(operators);
        let step = random.pick(&[0, 0, 1, 2]);
        let off = match operator {
            _ if random.once_in(8) => random.between(-2, 2),
            Operator::Equal => 0,
            Operator::NotEqual => random.pick(&[1, -1]),
            Operator::Less => 1 + step,
            Operator::LessOrEqual => step,
            Operator::Greater => -1 - step,
            Operator::GreaterOrEqual => -step,
        };
        Atom::new(of, operator, in_range(levels[of] + off))
    }

    /// One like another, but for an operator, a key by one, or the order of atoms or alternatives:
    /// what a careless entry would leave out.
    fn like(&self, random: &mut Random, condition: &Condition) -> Condition {
        let mut like = condition.clone();
        let count = like.alternatives.len();
        let atoms = &mut like.alternatives[random.below(count)].atoms;
        let place = random.below(atoms.len());
        match random.below(6) {
            0 => atoms[place].key = in_range(atoms[place].key + random.pick(&[1, -1])),
            1 => atoms.rotate_left(1),
            2 => like.alternatives.rotate_left(1),
            _ => atoms[place].operator = random.pick(&Operator::ALL),
        }
        like
    }
}

/// Four to twelve, many of them alike, so that entries are shared and keys are equal.
fn few_conditions(random: &mut Random, stock: &Stock) -> Vec<Condition> {
    let mut conditions: Vec<Condition> = Vec::new();
    for _ in 0..4 + random.below(9) {
        let condition = match random.below(conditions.len() + 2) {
            0 | 1 => stock.new_condition(random),
            place => stock.like(random, &conditions[place - 2]),
        };
        conditions.push(condition);
    }
    conditions
}

/// Mostly one or two.
fn one_to(random: &mut Random, most: usize) -> usize {
    random.pick(&[1, 1, 1, 1, 2, 2, 3, most])
}

/// Values, and others that differ from them in some of the variables that measures have.
fn scenes(random: &mut Random, keys: Keys, variables: usize) -> Vec<[i64; VARIABLES]> {
    let mut first = [0; VARIABLES];
    for (variable, value) in first.iter_mut().enumerate() {
        *value = some_value(random, keys, variable);
    }
    first[GUARD] = 1;
    let variables = match keys {
        Keys::Near => variables,
        Keys::Far => variables.max(5),
    };
    let mut scenes = vec![first];
    for _ in 0..2 + random.below(3) {
        let mut scene = first;
        for _ in 0..4 {
            let variable = random.below(variables);
            scene[variable] = some_value(random, keys, variable);
        }
        scenes.push(scene);
    }
    scenes
}

/// With four values of 1,000,000 and a fifth, a measure is at the end of what keys reach.
fn some_value(random: &mut Random, keys: Keys, variable: usize) -> i64 {
    let most = VALUE_MOST;
    match keys {
        Keys::Far if variable < 3 => random.pick(&[most, most, most, -most]),
        Keys::Far if variable == 3 => random.pick(&[most, most, most - 1]),
        Keys::Far if variable == 4 => random.pick(&[most, most - 1, -most]),
        _ => random.between(-3, 3),
    }
}

fn in_range(key: i64) -> i64 {
    key.clamp(-KEY_MOST, KEY_MOST)
}

fn unit(variable: usize, coefficient: i64) -> [i64; VARIABLES] {
    let mut row = [0; VARIABLES];
    row[variable] = coefficient;
    row
}

/// One of the first variables, a difference such as x − 2y, nothing at all, all variables times 100,
/// or four variables times 100 and a fifth: with values of 1,000,000 that is 401,000,000.
fn row(random: &mut Random, keys: Keys, variables: usize) -> [i64; VARIABLES] {
    let sign = random.pick(&[1, -1]);
    match random.below(12) {
        0 => [0; VARIABLES],
        1..=4 => {
            let mut row = unit(random.below(variables), sign);
            row[random.below(variables)] = -2 * sign;
            row
        }
        5 if keys == Keys::Far => [sign * COEFFICIENT_MOST; VARIABLES],
        6..=9 if keys == Keys::Far => {
            let mut row = [0; VARIABLES];
            row[..4].fill(sign * COEFFICIENT_MOST);
            row[4] = sign;
            row
        }
        _ => unit(random.below(variables), sign * random.pick(&[1, 1, 1, 7])),
    }
}
