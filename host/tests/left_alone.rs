//! That an accepted event leaves all else as it was is looked at after every event given through
//! `Pair` (`common/kept.rs`); here, that a change would be seen.

mod common;

use common::board::{board, only, X};
use common::kept::all_else;
use common::pair::Pair;
use harbour::c::Room;
use second::condition::Operator;
use second::report::Report;

/// Each changes one number that no search may change.
const CHANGES: [fn(&mut Room); 10] = [
    |room| room.coefficients[1][2] ^= 1,
    |room| room.measures ^= 1,
    |room| room.ticket[2] ^= 1,
    |room| room.alternatives[2] ^= 1,
    |room| room.atoms[8] ^= 1,
    |room| room.measure[32] ^= 1,
    |room| room.operator[32] ^= 1,
    |room| room.key[32] ^= 1,
    |room| room.high[8] ^= 1,
    |room| room.low[127] ^= 1,
];

/// Each changes one number of the index.
const INDEX_CHANGES: [fn(&mut Room); 3] = [
    |room| room.entry[2] ^= 1,
    |room| room.places[0] ^= 1,
    |room| room.lengths[0] ^= 1,
];

/// Job 2 waits for x to be more than 5, job 0 is inside, and x is this.
fn one_waits(x: i64) -> Pair {
    let mut pair = Pair::new(&board(0, 0));
    pair.enter_and_wait(2, &only(X, Operator::Greater, 5));
    pair.enter(0);
    pair.set(0, X, x);
    pair
}

fn is_seen(before: &Room, after: &Room, report: &Report, change: fn(&mut Room)) -> bool {
    let mut changed = after.clone();
    change(&mut changed);
    all_else(before, &changed, report).is_err()
}

#[test]
fn a_search_that_calls_nobody_changes_no_number_of_the_index() {
    let mut pair = one_waits(0);
    let before = pair.room().clone();
    let report = pair.leave(0);
    assert_eq!(report.called, None);
    let after = pair.room();
    assert_eq!(all_else(&before, after, &report), Ok(()));
    for change in CHANGES.into_iter().chain(INDEX_CHANGES) {
        assert!(is_seen(&before, after, &report, change));
    }
}

#[test]
fn a_search_that_calls_a_job_changes_no_condition() {
    let mut pair = one_waits(6);
    let before = pair.room().clone();
    let report = pair.leave(0);
    assert_eq!(report.called, Some(2));
    let after = pair.room();
    assert_eq!(all_else(&before, after, &report), Ok(()));
    for change in CHANGES {
        assert!(is_seen(&before, after, &report, change));
    }
}

#[test]
fn a_job_that_waits_changes_the_slots_of_no_other() {
    let mut pair = one_waits(0);
    let before = pair.room().clone();
    let report = pair.wait(0, &only(X, Operator::Less, -5));
    let after = pair.room();
    assert_eq!(all_else(&before, after, &report), Ok(()));
    for change in CHANGES {
        assert!(is_seen(&before, after, &report, change));
    }
}
