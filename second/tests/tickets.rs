//! A million tickets, and refusal 7.

mod common;

use common::*;
use second::closure::WrittenCondition;
use second::limits::TICKETS;
use second::record::Event;
use second::refusal::Refusal;
use second::report::Outcome;
use second::room::Standing;

fn false_wait(job: usize) -> Event {
    Event::Wait {
        job,
        condition: WrittenCondition::plain(&only(equal(X, 1))),
    }
}

#[test]
fn the_last_ticket_is_999_999_and_then_refusal_7() {
    let mut host = Host::board(0, 0);
    host.room.next_ticket = TICKETS - 1;
    host.enter_and_wait(1, &only(equal(X, 1)));
    assert_eq!(host.room.jobs[1].ticket, Some(999_999));
    host.enter(2);
    host.expect_event_refusal(&false_wait(2), Refusal::NoTicketLeft);
    assert_eq!(host.standing(2), Standing::Inside);
}

#[test]
fn a_true_wait_needs_no_ticket() {
    let mut host = Host::board(1, 0);
    host.give_all_tickets();
    host.enter(2);
    assert_eq!(host.event(&false_wait(2)).outcome, Outcome::On);
    host.set(2, X, 0);
    host.expect_event_refusal(&false_wait(2), Refusal::NoTicketLeft);
}

#[test]
fn refusal_7_comes_after_5_and_after_the_fields() {
    let mut host = Host::board(0, 0);
    host.give_all_tickets();
    host.expect_event_refusal(&false_wait(2), Refusal::WrongStanding);
    host.enter(2);
    host.expect_refusal(&[4, 2, 0, 0, 0, 0, 5], Refusal::OutOfRange, 0);
    host.expect_event_refusal(&false_wait(2), Refusal::NoTicketLeft);
}

#[test]
fn a_job_sent_back_needs_no_ticket() {
    let mut host = Host::board(0, 0);
    host.enter_and_wait(1, &only(equal(X, 1)));
    host.give_all_tickets();
    host.enter_set_leave(2, 1, 0);
    host.enter_set_leave(2, 0, 0);
    assert_eq!(host.admit(1).outcome, Outcome::Back);
    assert_eq!(host.room.jobs[1].ticket, Some(0));
}

#[test]
fn refusal_7_makes_no_search() {
    let mut host = Host::board(0, 0);
    host.enter_and_wait(1, &only(equal(Y, 1)));
    host.give_all_tickets();
    host.enter(2);
    host.set(2, Y, 1);
    host.expect_event_refusal(&false_wait(2), Refusal::NoTicketLeft);
    assert_eq!(host.standing(1), Standing::Waiting);
    assert_eq!(host.leave(2).called, Some(1));
}

/// No stream of 65,536 bytes has a million Waits, but a host can go on with its room.
#[test]
fn a_million_waits_by_events_alone() {
    let mut host = Host::board(0, 0);
    host.enter(1);
    for ticket in 0..TICKETS {
        assert_eq!(host.event(&false_wait(1)).outcome, Outcome::Waits);
        assert_eq!(host.room.jobs[1].ticket, Some(ticket));
        host.enter(2);
        host.set(2, X, 1);
        assert_eq!(host.leave(2).called, Some(1));
        assert_eq!(host.admit(1).outcome, Outcome::In);
        host.set(1, X, 0);
    }
    host.expect_event_refusal(&false_wait(1), Refusal::NoTicketLeft);
    let rounds = u64::from(TICKETS);
    assert_eq!(host.tally.accepted, 2 + 7 * rounds);
    assert_eq!(host.tally.calls, rounds);
    assert_eq!(host.tally.evaluated, rounds);
    assert_eq!(host.tally.sent_back, 0);
}
