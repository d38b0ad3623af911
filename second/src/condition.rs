//! "Conditions": closed conditions and their truth. Two conditions are identical exactly when
//! they are equal as values of these types.

#[derive(Clone, Copy, Debug, PartialEq, Eq)]
pub enum Operator {
    Equal = 1,
    NotEqual = 2,
    Less = 3,
    LessOrEqual = 4,
    Greater = 5,
    GreaterOrEqual = 6,
}

impl Operator {
    pub const ALL: [Operator; 6] = [
        Operator::Equal,
        Operator::NotEqual,
        Operator::Less,
        Operator::LessOrEqual,
        Operator::Greater,
        Operator::GreaterOrEqual,
    ];

    pub fn number(self) -> u32 {
        self as u32
    }

    pub fn holds(self, measure: i64, key: i64) -> bool {
        match self {
            Operator::Equal => measure == key,
            Operator::NotEqual => measure != key,
            Operator::Less => measure < key,
            Operator::LessOrEqual => measure <= key,
            Operator::Greater => measure > key,
            Operator::GreaterOrEqual => measure >= key,
        }
    }
}

#[derive(Clone, Copy, Debug, PartialEq, Eq)]
pub struct Atom {
    pub measure: usize,
    pub operator: Operator,
    pub key: i64,
}

#[derive(Clone, Debug, PartialEq, Eq)]
pub struct Alternative {
    pub atoms: Vec<Atom>,
}

#[derive(Clone, Debug, PartialEq, Eq)]
pub struct Condition {
    pub alternatives: Vec<Alternative>,
}

impl Atom {
    pub fn new(measure: usize, operator: Operator, key: i64) -> Atom {
        Atom {
            measure,
            operator,
            key,
        }
    }

    /// `measures` holds what each measure of the room comes to at present.
    pub fn is_true(&self, measures: &[i64]) -> bool {
        self.operator.holds(measures[self.measure], self.key)
    }
}

impl Alternative {
    pub fn is_true(&self, measures: &[i64]) -> bool {
        self.atoms.iter().all(|atom| atom.is_true(measures))
    }
}

impl Condition {
    pub fn new(alternatives: Vec<Vec<Atom>>) -> Condition {
        Condition {
            alternatives: alternatives
                .into_iter()
                .map(|atoms| Alternative { atoms })
                .collect(),
        }
    }

    pub fn is_true(&self, measures: &[i64]) -> bool {
        self.alternatives
            .iter()
            .any(|alternative| alternative.is_true(measures))
    }
}
