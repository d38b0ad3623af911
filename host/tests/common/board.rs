//! The measures of the board examples, and short ways to write conditions over them.

use second::condition::{Atom, Condition, Operator};
use second::record::Opening;

pub const X: usize = 0;
pub const Y: usize = 1;

/// Variables 0 and 1 are x and y; the measures are x, y and x − 2y.
pub fn board(x: i64, y: i64) -> Opening {
    Opening {
        measures: vec![
            [1, 0, 0, 0, 0, 0, 0, 0],
            [0, 1, 0, 0, 0, 0, 0, 0],
            [1, -2, 0, 0, 0, 0, 0, 0],
        ],
        values: [x, y, 0, 0, 0, 0, 0, 0],
    }
}

/// The condition with one alternative of one atom.
pub fn only(measure: usize, operator: Operator, key: i64) -> Condition {
    Condition::new(vec![vec![Atom::new(measure, operator, key)]])
}
