//! Measures, closure, truth, identity and tags.

mod common;

use common::*;
use second::closure::{WrittenAtom, WrittenCondition};
use second::condition::{Condition, Operator};
use second::measure::measure;
use second::tag::Tag;

fn closed(operator: Operator, coefficients: [i64; 4], constant: i64, locals: [i64; 4]) -> i64 {
    let atom = WrittenAtom {
        measure: X,
        operator,
        coefficients,
        constant,
    };
    atom.close(&locals).key
}

fn tag(atoms: Vec<second::condition::Atom>) -> Tag {
    Tag::of(&Condition::new(vec![atoms]).alternatives[0])
}

#[test]
fn board_eight_values_of_a_million_with_coefficients_100() {
    assert_eq!(measure(&[100; 8], &[1_000_000; 8]), 800_000_000);
    assert_eq!(measure(&[-100; 8], &[1_000_000; 8]), -800_000_000);
    assert_eq!(measure(&[100; 8], &[-1_000_000; 8]), -800_000_000);
    assert_eq!(measure(&[0; 8], &[1_000_000; 8]), 0);
    assert_eq!(
        measure(&[1, 2, 3, 4, 5, 6, 7, -8], &[1, 10, 100, 0, 0, 0, 0, 1000]),
        -7679
    );
}

#[test]
fn board_x_minus_2y_closes_to_key_9() {
    let key = closed(Operator::Greater, [1, -1, 0, 0], 0, [11, 2, 0, 0]);
    assert_eq!(key, 9);
}

#[test]
fn keys_reach_401_million_at_both_ends() {
    let locals = [1_000_000; 4];
    assert_eq!(
        closed(Operator::Less, [100; 4], 1_000_000, locals),
        401_000_000
    );
    assert_eq!(
        closed(Operator::Less, [-100; 4], -1_000_000, locals),
        -401_000_000
    );
    assert_eq!(
        closed(Operator::Less, [1, 2, 3, 4], 5, [10, 20, 30, -40]),
        -15
    );
}

#[test]
fn operators_compare_measure_and_key() {
    let table = [
        (Operator::Equal, [false, true, false]),
        (Operator::NotEqual, [true, false, true]),
        (Operator::Less, [true, false, false]),
        (Operator::LessOrEqual, [true, true, false]),
        (Operator::Greater, [false, false, true]),
        (Operator::GreaterOrEqual, [false, true, true]),
    ];
    for (number, (operator, answers)) in table.iter().enumerate() {
        assert_eq!(operator.number() as usize, number + 1);
        assert_eq!(Operator::ALL[number], *operator);
        for (place, measure) in [-6, -5, -4].iter().enumerate() {
            assert_eq!(operator.holds(*measure, -5), answers[place]);
        }
    }
}

#[test]
fn an_alternative_needs_all_its_atoms_and_a_condition_one_alternative() {
    let condition = Condition::new(vec![
        vec![greater(X, 3), not_equal(Y, 0)],
        vec![equal(X, 0), equal(Y, 0), less(X_MINUS_2Y, 1)],
    ]);
    assert!(condition.is_true(&[4, 1, 2]));
    assert!(!condition.is_true(&[4, 0, 4]));
    assert!(!condition.is_true(&[3, 1, 1]));
    assert!(condition.is_true(&[0, 0, 0]));
    assert!(!condition.is_true(&[0, 0, 1]));
}

#[test]
fn board_tags() {
    assert_eq!(
        tag(vec![less(X, 5), equal(Y, 3)]),
        Tag::Equality(equal(Y, 3))
    );
    assert_eq!(
        tag(vec![equal(X, 8), equal(Y, 9)]),
        Tag::Equality(equal(X, 8))
    );
    assert_eq!(tag(vec![not_equal(X, 8)]), Tag::NoTag);
}

#[test]
fn the_first_threshold_is_the_tag_where_no_equality_is() {
    for atom in [
        less(Y, 1),
        less_or_equal(Y, 1),
        greater(Y, 1),
        greater_or_equal(Y, 1),
    ] {
        let atoms = vec![not_equal(X, 8), atom, greater(X, 3), not_equal(Y, 2)];
        assert_eq!(tag(atoms), Tag::Threshold(atom));
    }
    let last = vec![less(X, 1), greater(X, 3), not_equal(X, 8), equal(Y, 2)];
    assert_eq!(tag(last), Tag::Equality(equal(Y, 2)));
    assert_eq!(tag(vec![not_equal(X, 8); 4]), Tag::NoTag);
}

#[test]
fn an_absent_tag_counts_as_holding() {
    assert!(Tag::NoTag.holds(&[0, 0, 0]));
    assert!(Tag::Equality(equal(Y, 3)).holds(&[0, 3, 0]));
    assert!(!Tag::Equality(equal(Y, 3)).holds(&[3, 0, 0]));
    assert!(Tag::Threshold(less(Y, 3)).holds(&[9, 2, 0]));
    assert!(!Tag::Threshold(less(Y, 3)).holds(&[0, 3, 0]));
}

#[test]
fn identity_is_what_closure_leaves_not_how_it_was_written() {
    let written = |locals, coefficients, constant| WrittenCondition {
        locals,
        alternatives: vec![vec![WrittenAtom {
            measure: X,
            operator: Operator::Greater,
            coefficients,
            constant,
        }]],
    };
    let plain = written([0; 4], [0; 4], 9);
    assert_eq!(plain.close(), only(greater(X, 9)));
    assert_eq!(
        written([11, 2, 0, 0], [1, -1, 0, 0], 0).close(),
        plain.close()
    );
    assert_eq!(written([5, 5, 5, 5], [0; 4], 9).close(), plain.close());
    assert_ne!(
        written([5, 5, 5, 5], [1, 0, 0, 0], 9).close(),
        plain.close()
    );
}

#[test]
fn identity_minds_measure_operator_key_order_and_number() {
    let model = Condition::new(vec![vec![greater(X, 5), less(Y, 2)], vec![equal(X, 1)]]);
    let others = [
        vec![vec![greater_or_equal(X, 6), less(Y, 2)], vec![equal(X, 1)]],
        vec![vec![greater(X, 6), less(Y, 2)], vec![equal(X, 1)]],
        vec![vec![greater(Y, 5), less(Y, 2)], vec![equal(X, 1)]],
        vec![vec![less(Y, 2), greater(X, 5)], vec![equal(X, 1)]],
        vec![vec![equal(X, 1)], vec![greater(X, 5), less(Y, 2)]],
        vec![vec![greater(X, 5), less(Y, 3)], vec![equal(X, 1)]],
        vec![vec![greater(X, 5)], vec![less(Y, 2), equal(X, 1)]],
        vec![vec![greater(X, 5), less(Y, 2)]],
        vec![
            vec![greater(X, 5), less(Y, 2)],
            vec![equal(X, 1)],
            vec![equal(X, 1)],
        ],
    ];
    for other in others {
        assert_ne!(Condition::new(other), model);
    }
    assert_eq!(model.clone(), model);
}

#[test]
fn plain_writing_closes_to_the_same_condition() {
    let condition = Condition::new(vec![vec![greater(X, -5), less(Y, 2)], vec![equal(X, 1)]]);
    assert_eq!(WrittenCondition::plain(&condition).close(), condition);
}
