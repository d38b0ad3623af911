//! The tally's ceiling. Its fields are the host's: they may stand anywhere before an event.

mod common;

use common::board::{board, only, X};
use common::pair::Pair;
use harbour::{Tally, TALLY_MOST};
use second::condition::{Condition, Operator};
use second::report::Outcome;

const STARTS: [u64; 10] = [
    0,
    1,
    TALLY_MOST - 5,
    TALLY_MOST - 2,
    TALLY_MOST - 1,
    TALLY_MOST,
    TALLY_MOST + 1,
    TALLY_MOST + 2,
    u64::MAX - 1,
    u64::MAX,
];

/// Document 01: a count that would pass the ceiling becomes the ceiling, and one above it from the
/// host is left as it is.
fn raised(count: u64, by: u64) -> u64 {
    match count {
        0..=TALLY_MOST => TALLY_MOST.min(count + by),
        _ => count,
    }
}

fn all(count: u64) -> Tally {
    Tally {
        events: count,
        calls: count,
        evaluated: count,
        sent_back: count,
    }
}

/// What an event adds: one event, and this.
fn expect(pair: &Pair, before: Tally, calls: u64, evaluated: u64, sent_back: u64) {
    let right = Tally {
        events: raised(before.events, 1),
        calls: raised(before.calls, calls),
        evaluated: raised(before.evaluated, evaluated),
        sent_back: raised(before.sent_back, sent_back),
    };
    assert_eq!(pair.tally, right, "from {before:?}");
}

/// Three wait for x ≠ 0, x > 0 and x ≥ 1 and y = 1: at x = 1 their tags hold, and with y = 0 all but
/// the last are true.
fn crowd() -> Pair {
    let mut pair = Pair::new(&board(0, 0));
    let atom = second::condition::Atom::new;
    let last = vec![
        atom(X, Operator::GreaterOrEqual, 1),
        atom(1, Operator::NotEqual, 0),
    ];
    pair.enter_and_wait(1, &only(X, Operator::NotEqual, 0));
    pair.enter_and_wait(2, &only(X, Operator::Greater, 0));
    pair.enter_and_wait(3, &Condition::new(vec![last]));
    pair
}

#[test]
fn an_event_without_a_search_adds_one_event() {
    for start in STARTS {
        let mut pair = Pair::new(&board(0, 0));
        pair.lend(all(start));
        pair.arrive(5);
        expect(&pair, all(start), 0, 0, 0);
    }
}

#[test]
fn a_search_adds_its_call_and_its_count() {
    for start in STARTS {
        let mut pair = crowd();
        pair.enter(0);
        pair.set(0, X, 1);
        pair.lend(all(start));
        let report = pair.leave(0);
        assert_eq!((report.called, report.evaluated), (Some(2), 1));
        expect(&pair, all(start), 1, 1, 0);
        let before = pair.tally;
        pair.enter(0);
        let report = pair.leave(0);
        assert_eq!((report.called, report.evaluated), (Some(1), 2));
        assert_eq!(pair.tally.evaluated, raised(before.evaluated, 2));
    }
}

#[test]
fn a_job_sent_back_is_counted() {
    for start in STARTS {
        let mut pair = crowd();
        pair.enter(0);
        pair.set(0, X, 1);
        assert_eq!(pair.leave(0).called, Some(2));
        pair.enter(0);
        pair.set(0, X, 0);
        pair.leave(0);
        pair.lend(all(start));
        let report = pair.admit(2);
        assert_eq!((report.outcome, report.evaluated), (Outcome::Back, 1));
        expect(&pair, all(start), 0, 1, 1);
    }
}

/// Each count stands for itself.
#[test]
fn the_four_counts_do_not_meet() {
    for place in 0..4 {
        for start in STARTS {
            let mut counts = [3, 5, 7, 11];
            counts[place] = start;
            let tally = Tally {
                events: counts[0],
                calls: counts[1],
                evaluated: counts[2],
                sent_back: counts[3],
            };
            let mut pair = crowd();
            pair.enter(0);
            pair.set(0, X, 1);
            pair.lend(tally);
            pair.leave(0);
            expect(&pair, tally, 1, 1, 0);
        }
    }
}

/// Up to the ceiling, and no further.
#[test]
fn many_events_at_the_ceiling() {
    let mut pair = Pair::new(&board(0, 0));
    pair.lend(all(TALLY_MOST - 7));
    for round in 1..20 {
        pair.enter(0);
        pair.leave(0);
        assert_eq!(
            pair.tally.events,
            TALLY_MOST.min(TALLY_MOST - 7 + 3 * round)
        );
    }
    assert_eq!(pair.tally.calls, TALLY_MOST - 7);
}

/// A refused event adds nothing, wherever the counts stand.
#[test]
fn a_refused_event_adds_nothing() {
    for start in STARTS {
        let mut pair = crowd();
        pair.lend(all(start));
        for bytes in [&[5, 0][..], &[9], &[1], &[1, 32], &[129, 0], &[]] {
            pair.event(bytes).expect("both say the same");
            assert_eq!(pair.tally, all(start));
        }
    }
}
