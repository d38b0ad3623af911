//! The host's tally.

mod common;

use common::*;
use second::limits::TALLY_MOST;
use second::record::Event;
use second::refusal::Refusal;
use second::tally::Tally;

fn tally(accepted: u64, calls: u64, evaluated: u64, sent_back: u64) -> Tally {
    Tally {
        accepted,
        calls,
        evaluated,
        sent_back,
    }
}

/// Job 1 waits for x = 1 and job 2 for y = 1; job 3 is inside and has set x to 1.
fn before_a_call() -> Host {
    let mut host = Host::board(0, 0);
    host.enter_and_wait(1, &only(equal(X, 1)));
    host.enter_and_wait(2, &only(equal(Y, 1)));
    host.enter(3);
    host.set(3, X, 1);
    host
}

#[test]
fn an_accepted_event_adds_to_each_count() {
    let mut host = before_a_call();
    assert_eq!(host.tally, tally(9, 0, 0, 0));
    host.leave(3);
    assert_eq!(host.tally, tally(10, 1, 1, 0));
    host.enter_set_leave(3, 0, 0);
    assert_eq!(host.tally, tally(15, 1, 1, 0));
    host.admit(1);
    assert_eq!(host.tally, tally(16, 1, 1, 1));
}

#[test]
fn counts_stop_at_a_thousand_million() {
    let most = TALLY_MOST;
    assert_eq!(most, 1_000_000_000);
    let mut full = tally(most - 1, most - 1, most - 3, most);
    full.add(1, 3, 1);
    assert_eq!(full, tally(most, most, most, most));
    full.add(1, 50, 1);
    assert_eq!(full, tally(most, most, most, most));
    let mut near = tally(most - 2, most - 2, most - 2, most - 2);
    near.add(0, 5, 0);
    assert_eq!(near, tally(most - 1, most - 2, most, most - 2));
}

#[test]
fn larger_fields_of_the_host_are_left_alone() {
    let most = TALLY_MOST;
    let mut large = tally(most + 1, u64::MAX, u64::MAX - 1, most + 7);
    let before = large;
    large.add(1, 64, 1);
    assert_eq!(large, before);
    let mut one_large = tally(5, most + 1, 6, 7);
    one_large.add(1, 1, 1);
    assert_eq!(one_large, tally(6, most + 1, 7, 8));
}

#[test]
fn ceiling_and_larger_fields_hold_through_events() {
    let most = TALLY_MOST;
    let mut host = before_a_call();
    host.tally = tally(most, most, most, most + 5);
    host.leave(3);
    assert_eq!(host.tally, tally(most, most, most, most + 5));
}

#[test]
fn the_tally_has_no_part_in_what_the_room_does() {
    let mut fresh = before_a_call();
    let mut full = before_a_call();
    full.tally = tally(TALLY_MOST, u64::MAX, 3, 0);
    assert_eq!(fresh.leave(3), full.leave(3));
    assert_eq!(fresh.room, full.room);
}

#[test]
fn refusals_of_every_number_leave_the_tally() {
    let mut host = before_a_call();
    host.arrive(4);
    host.give_all_tickets();
    host.expect_refusal(&[1], Refusal::BytesEnd, 0);
    host.expect_refusal(&[1, 129, 0], Refusal::NumberForm, 0);
    host.expect_refusal(&[6], Refusal::UnknownKindOrOperator, 0);
    host.expect_refusal(&[1, 32], Refusal::OutOfRange, 0);
    host.expect_event_refusal(&Event::Arrive { job: 4 }, Refusal::WrongStanding);
    host.expect_event_refusal(&Event::Admit { job: 4 }, Refusal::AnotherInside);
    let wait = [4, 3, 0, 0, 0, 0, 1, 1, 0, 1, 0, 0, 0, 0, 8];
    host.expect_refusal(&wait, Refusal::NoTicketLeft, wait.len());
}
