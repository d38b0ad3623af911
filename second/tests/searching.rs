//! Which job a search calls, and how many alternatives it evaluates.

mod common;

use common::*;
use second::condition::{Atom, Condition};
use second::search::{search, Waiting};

/// Waiting jobs as (ticket, condition); the job numbers run against the tickets, so that nothing
/// is called for its number. The answer is the found ticket and the evaluated count.
fn found(measures: &[i64], waiting: &[(u32, Condition)]) -> (Option<u32>, usize) {
    let jobs: Vec<Waiting> = waiting
        .iter()
        .map(|(ticket, condition)| Waiting {
            job: 31 - *ticket as usize,
            ticket: *ticket,
            condition,
        })
        .collect();
    let answer = search(&jobs, measures);
    let ticket = answer.found.map(|found| 31 - found.job as u32);
    (ticket, answer.evaluated)
}

/// The alternatives of which the first must be called before the second, whichever is older.
fn expect_before(measures: &[i64], first: Vec<Atom>, second: Vec<Atom>) {
    let first = Condition::new(vec![first]);
    let second = Condition::new(vec![second]);
    let older_first = [(1, first.clone()), (2, second.clone())];
    let older_second = [(1, second), (2, first)];
    assert_eq!(found(measures, &older_first), (Some(1), 1));
    assert_eq!(found(measures, &older_second), (Some(2), 1));
}

#[test]
fn board_a_waits_for_x_and_y_and_b_for_x() {
    let a = Condition::new(vec![vec![greater_or_equal(X, 5), not_equal(Y, 1)]]);
    let b = only(greater(X, 7));
    let waiting = [(0, a), (1, b)];
    assert_eq!(found(&[9, 1, 7], &waiting), (Some(1), 2));
    assert_eq!(found(&[9, 2, 5], &waiting), (Some(0), 1));
    assert_eq!(found(&[6, 1, 4], &waiting), (None, 1));
}

#[test]
fn board_or_equal_goes_before_strict_at_one_key() {
    let waiting = [(0, only(greater(X, 3))), (1, only(greater_or_equal(X, 3)))];
    assert_eq!(found(&[4, 0, 4], &waiting), (Some(1), 1));
}

#[test]
fn board_the_older_of_two_equal_conditions() {
    let waiting = [(4, only(equal(X, 8))), (6, only(equal(X, 8)))];
    assert_eq!(found(&[8, 0, 8], &waiting), (Some(4), 1));
    let other_way = [(6, only(equal(X, 8))), (4, only(equal(X, 8)))];
    assert_eq!(found(&[8, 0, 8], &other_way), (Some(4), 1));
}

#[test]
fn board_two_wait_for_one_untagged_condition() {
    let waiting = [(0, only(not_equal(X, 0))), (1, only(not_equal(X, 0)))];
    assert_eq!(found(&[0, 0, 0], &waiting), (None, 1));
}

#[test]
fn nobody_waiting_finds_nobody() {
    assert_eq!(found(&[0, 0, 0], &[]), (None, 0));
}

#[test]
fn equality_then_threshold_then_no_tag() {
    let at = [5, 6, -7];
    expect_before(
        &at,
        vec![equal(X_MINUS_2Y, -7)],
        vec![greater_or_equal(X, 5)],
    );
    expect_before(&at, vec![equal(X_MINUS_2Y, -7)], vec![less(X, 100)]);
    expect_before(&at, vec![equal(X_MINUS_2Y, -7)], vec![not_equal(X, 0)]);
    expect_before(&at, vec![less(X_MINUS_2Y, 0)], vec![not_equal(X, 0)]);
    expect_before(&at, vec![greater(X_MINUS_2Y, -9)], vec![not_equal(X, 0)]);
}

#[test]
fn the_tag_counts_not_the_first_atom() {
    let at = [5, 6, -7];
    let late_equality = vec![not_equal(X, 0), less(X, 9), equal(Y, 6)];
    expect_before(&at, late_equality.clone(), vec![greater_or_equal(X, 5)]);
    expect_before(&at, vec![equal(X, 5)], late_equality);
    expect_before(&at, vec![not_equal(X, 0), less(X, 9)], vec![less(Y, 9)]);
}

#[test]
fn equality_tags_by_measure_number() {
    expect_before(&[5, 6, -7], vec![equal(X, 5)], vec![equal(Y, 6)]);
    expect_before(&[5, 6, -7], vec![equal(Y, 6)], vec![equal(X_MINUS_2Y, -7)]);
}

#[test]
fn threshold_tags_by_measure_number_before_all_else() {
    let at = [5, 6, -7];
    expect_before(&at, vec![less(X, 6)], vec![greater_or_equal(Y, -100)]);
    expect_before(
        &at,
        vec![less(Y, 7)],
        vec![greater_or_equal(X_MINUS_2Y, -7)],
    );
}

#[test]
fn above_before_below_whatever_the_keys() {
    let at = [5, 6, -7];
    for above in [greater(X, 4), greater_or_equal(X, 5), greater(X, -50)] {
        for below in [less(X, 6), less_or_equal(X, 5), less(X, 50)] {
            expect_before(&at, vec![above], vec![below]);
        }
    }
}

#[test]
fn above_by_the_smaller_key() {
    let at = [5, 6, -7];
    expect_before(&at, vec![greater(X, 2)], vec![greater(X, 3)]);
    expect_before(&at, vec![greater(X, 2)], vec![greater_or_equal(X, 3)]);
    expect_before(
        &at,
        vec![greater_or_equal(X, -3)],
        vec![greater_or_equal(X, 2)],
    );
    expect_before(&at, vec![greater_or_equal(X, -3)], vec![greater(X, -2)]);
}

#[test]
fn below_by_the_larger_key() {
    let at = [5, 6, -7];
    expect_before(&at, vec![less(X, 8)], vec![less(X, 7)]);
    expect_before(&at, vec![less(X, 8)], vec![less_or_equal(X, 7)]);
    expect_before(
        &at,
        vec![less_or_equal(X_MINUS_2Y, 3)],
        vec![less_or_equal(X_MINUS_2Y, -3)],
    );
    expect_before(&at, vec![less_or_equal(X, 8)], vec![less(X, 7)]);
}

#[test]
fn or_equal_before_strict_at_one_key() {
    let at = [5, 6, -7];
    expect_before(&at, vec![greater_or_equal(X, 4)], vec![greater(X, 4)]);
    expect_before(&at, vec![less_or_equal(X, 6)], vec![less(X, 6)]);
}

#[test]
fn the_older_ticket_at_one_tag() {
    let at = [5, 6, -7];
    for tag in [
        vec![equal(X, 5)],
        vec![greater(X, 4)],
        vec![less_or_equal(X, 5)],
        vec![not_equal(X, 0)],
    ] {
        let mut longer = tag.clone();
        longer.push(not_equal(Y, 0));
        let plain = Condition::new(vec![tag]);
        let longer = Condition::new(vec![longer]);
        assert_eq!(
            found(&at, &[(9, plain.clone()), (3, longer.clone())]),
            (Some(3), 1)
        );
        assert_eq!(found(&at, &[(3, plain), (9, longer)]), (Some(3), 1));
    }
}

#[test]
fn untagged_by_ticket_across_measures() {
    let waiting = [
        (2, only(not_equal(X, 0))),
        (1, only(not_equal(X_MINUS_2Y, 0))),
    ];
    assert_eq!(found(&[5, 6, -7], &waiting), (Some(1), 1));
}

#[test]
fn a_later_alternative_with_a_better_tag_decides() {
    let late = Condition::new(vec![
        vec![not_equal(X, 0)],
        vec![less(X, 9)],
        vec![equal(X, 5)],
    ]);
    let early = only(greater(X, 0));
    let waiting = [(1, early), (2, late)];
    assert_eq!(found(&[5, 6, -7], &waiting), (Some(2), 1));
}

#[test]
fn the_earlier_of_two_alternatives_with_one_tag() {
    let true_first = Condition::new(vec![vec![equal(X, 5)], vec![equal(X, 5), equal(Y, 0)]]);
    let true_last = Condition::new(vec![vec![equal(X, 5), equal(Y, 0)], vec![equal(X, 5)]]);
    assert_eq!(found(&[5, 6, -7], &[(0, true_first)]), (Some(0), 1));
    assert_eq!(found(&[5, 6, -7], &[(0, true_last)]), (Some(0), 2));
}

#[test]
fn count_takes_tags_that_hold_up_to_the_found_rank() {
    let false_there = |tag: Atom| Condition::new(vec![vec![tag, not_equal(Y, 6)]]);
    let waiting = [
        (0, false_there(equal(X, 5))),
        (1, false_there(equal(X, 4))),
        (2, false_there(greater(X, 1))),
        (3, only(greater_or_equal(X, 2))),
        (4, false_there(greater(X, 2))),
        (5, false_there(not_equal(X, 2))),
    ];
    assert_eq!(found(&[5, 6, -7], &waiting), (Some(3), 3));
    let nobody: Vec<(u32, Condition)> = waiting
        .iter()
        .filter(|(ticket, _)| *ticket != 3)
        .cloned()
        .collect();
    assert_eq!(found(&[5, 6, -7], &nobody), (None, 4));
}

#[test]
fn count_takes_shared_conditions_once_at_the_rank_of_the_oldest() {
    let false_there = Condition::new(vec![vec![greater(X, 1), not_equal(Y, 6)]]);
    let goal = Condition::new(vec![vec![greater(X, 1), not_equal(Y, 0)]]);
    let older = [
        (0, false_there.clone()),
        (5, goal.clone()),
        (9, false_there.clone()),
    ];
    assert_eq!(found(&[5, 6, -7], &older), (Some(5), 2));
    let younger = [(6, false_there.clone()), (5, goal), (9, false_there)];
    assert_eq!(found(&[5, 6, -7], &younger), (Some(5), 1));
}

#[test]
fn count_takes_every_alternative_on_its_own() {
    let many = Condition::new(vec![
        vec![not_equal(X, 5)],
        vec![greater(X, 1), not_equal(Y, 6)],
        vec![equal(X, 5), not_equal(Y, 6)],
        vec![equal(X, 4)],
    ]);
    assert_eq!(found(&[5, 6, -7], &[(0, many.clone())]), (None, 3));
    assert_eq!(
        found(&[5, 6, -7], &[(0, many), (1, only(less(X, 9)))]),
        (Some(1), 3)
    );
}
