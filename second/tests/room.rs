//! Standings, outcomes and refusals 5 and 6, step by step.

mod common;

use common::*;
use second::closure::WrittenCondition;
use second::condition::Condition;
use second::record::Event;
use second::refusal::Refusal;
use second::report::{Outcome, Report};
use second::room::{Room, Standing};
use second::write;

fn report(outcome: Outcome, called: Option<usize>, evaluated: usize, taken: usize) -> Report {
    Report {
        outcome,
        called,
        evaluated,
        taken,
    }
}

fn waits_for(job: usize, condition: &Condition) -> Event {
    Event::Wait {
        job,
        condition: WrittenCondition::plain(condition),
    }
}

#[test]
fn an_opened_room_has_all_outside() {
    let opening = board_opening(7, -8);
    let bytes = write::opening(&opening);
    let (room, taken) = Room::open(&[bytes.as_slice(), &[1, 2, 3]].concat()).unwrap();
    assert_eq!(taken, bytes.len());
    assert_eq!(room.measures, opening.measures);
    assert_eq!(room.values, opening.values);
    assert_eq!(room.next_ticket, 0);
    for job in &room.jobs {
        assert_eq!(job.standing, Standing::Outside);
        assert_eq!((&job.condition, job.ticket), (&None, None));
    }
}

#[test]
fn outside_to_door_to_inside_to_outside() {
    let mut host = Host::board(0, 0);
    assert_eq!(host.arrive(31), report(Outcome::Done, None, 0, 2));
    assert_eq!(host.standing(31), Standing::Door);
    assert_eq!(host.admit(31), report(Outcome::In, None, 0, 2));
    assert_eq!(host.standing(31), Standing::Inside);
    assert_eq!(
        host.set(31, X, -1_000_000),
        report(Outcome::Done, None, 0, 6)
    );
    assert_eq!(host.room.values[X], -1_000_000);
    assert_eq!(host.leave(31), report(Outcome::Done, None, 0, 2));
    assert_eq!(host.standing(31), Standing::Outside);
}

/// Jobs 0 to 4 stand outside, at the door, inside, waiting and called.
fn one_in_each_standing() -> Host {
    let mut host = Host::board(0, 0);
    host.enter_and_wait(3, &only(equal(X, 50)));
    host.enter_and_wait(4, &only(equal(Y, 1)));
    assert_eq!(host.enter_set_leave(2, 0, 1).called, Some(4));
    host.arrive(1);
    host.enter(2);
    let standings = [
        Standing::Outside,
        Standing::Door,
        Standing::Inside,
        Standing::Waiting,
        Standing::Called,
    ];
    for (job, standing) in standings.iter().enumerate() {
        assert_eq!(host.standing(job), *standing);
    }
    host
}

#[test]
fn every_event_in_every_standing() {
    let mut host = one_in_each_standing();
    let wrong = Refusal::WrongStanding;
    for job in 0..5 {
        let arrive = Event::Arrive { job };
        let admit = Event::Admit { job };
        let set = Event::Set {
            job,
            variable: 0,
            value: 1,
        };
        let wait = waits_for(job, &only(equal(X, 50)));
        let leave = Event::Leave { job };
        if job != 0 {
            host.expect_event_refusal(&arrive, wrong);
        }
        if job == 1 || job == 4 {
            host.expect_event_refusal(&admit, Refusal::AnotherInside);
        } else {
            host.expect_event_refusal(&admit, wrong);
        }
        if job != 2 {
            for event in [set, wait, leave] {
                host.expect_event_refusal(&event, wrong);
            }
        }
    }
}

#[test]
fn a_job_not_inside_is_refused_even_when_nobody_is() {
    let mut host = one_in_each_standing();
    host.leave(2);
    for job in [0, 2, 3] {
        host.expect_event_refusal(&Event::Admit { job }, Refusal::WrongStanding);
    }
    for job in [0, 1, 2, 3, 4] {
        host.expect_event_refusal(&Event::Leave { job }, Refusal::WrongStanding);
        let wait = waits_for(job, &only(equal(X, 0)));
        host.expect_event_refusal(&wait, Refusal::WrongStanding);
    }
    assert_eq!(host.admit(1).outcome, Outcome::In);
}

#[test]
fn a_true_wait_goes_on_without_ticket_or_search() {
    let mut host = Host::board(0, 0);
    host.enter_and_wait(1, &only(equal(X, 1)));
    host.enter(2);
    host.set(2, X, 1);
    let room = host.room.clone();
    let condition = only(greater(X, 0));
    assert_eq!(host.wait(2, &condition), report(Outcome::On, None, 0, 15));
    assert_eq!(host.room, room);
    assert_eq!(host.leave(2), report(Outcome::Done, Some(1), 1, 2));
}

#[test]
fn a_false_wait_takes_the_next_ticket_and_keeps_the_closed_condition() {
    let mut host = Host::board(0, 0);
    for (ticket, job) in [9, 4, 7].iter().enumerate() {
        let condition = only(greater(X, *job as i64));
        host.enter_and_wait(*job, &condition);
        assert_eq!(host.standing(*job), Standing::Waiting);
        assert_eq!(host.room.jobs[*job].condition, Some(condition));
        assert_eq!(host.room.jobs[*job].ticket, Some(ticket as u32));
    }
    assert_eq!(host.room.next_ticket, 3);
}

#[test]
fn a_called_job_keeps_condition_and_ticket_until_it_is_inside() {
    let mut host = Host::board(0, 0);
    host.enter_and_wait(1, &only(equal(X, 1)));
    host.enter_set_leave(2, 1, 0);
    assert_eq!(host.standing(1), Standing::Called);
    assert_eq!(host.room.jobs[1].condition, Some(only(equal(X, 1))));
    assert_eq!(host.room.jobs[1].ticket, Some(0));
    assert_eq!(host.admit(1), report(Outcome::In, None, 0, 2));
    assert_eq!(host.standing(1), Standing::Inside);
    assert_eq!(host.room.jobs[1].condition, None);
    assert_eq!(host.room.jobs[1].ticket, None);
    assert_eq!(host.room.next_ticket, 1);
}

#[test]
fn a_called_job_whose_condition_turned_false_is_sent_back_with_its_ticket() {
    let mut host = Host::board(0, 0);
    host.enter_and_wait(1, &only(equal(X, 1)));
    assert_eq!(host.enter_set_leave(2, 1, 0).called, Some(1));
    assert_eq!(
        host.enter_set_leave(2, 0, 0),
        report(Outcome::Done, None, 0, 2)
    );
    assert_eq!(host.admit(1), report(Outcome::Back, None, 0, 2));
    assert_eq!(host.standing(1), Standing::Waiting);
    assert_eq!(host.room.jobs[1].ticket, Some(0));
    assert_eq!(host.room.jobs[1].condition, Some(only(equal(X, 1))));
    assert_eq!(host.room.next_ticket, 1);
    assert_eq!(host.tally.sent_back, 1);
    assert_eq!(host.enter_set_leave(2, 1, 0).called, Some(1));
}

#[test]
fn the_search_at_an_admit_sent_back_can_call_another() {
    let mut host = Host::board(0, 1);
    host.enter_and_wait(1, &only(equal(X, 1)));
    let fourth = Condition::new(vec![vec![greater_or_equal(X, 1), equal(Y, 0)]]);
    host.enter_and_wait(4, &fourth);
    let fifth = Condition::new(vec![vec![greater_or_equal(X, 1), not_equal(Y, 1)]]);
    host.enter_and_wait(5, &fifth);
    assert_eq!(host.enter_set_leave(2, 1, 1).called, Some(1));
    let leave = host.enter_set_leave(2, 2, 0);
    assert_eq!(leave, report(Outcome::Done, Some(4), 1, 2));
    // Job 1, called for x = 1, is false now; job 5 still waits and is true.
    assert_eq!(host.admit(1), report(Outcome::Back, Some(5), 1, 2));
    assert_eq!(host.standing(1), Standing::Waiting);
    assert_eq!(host.standing(4), Standing::Called);
    assert_eq!(host.standing(5), Standing::Called);
}

#[test]
fn the_search_at_an_admit_leaves_the_job_sent_back_out() {
    let mut host = Host::board(0, 0);
    let condition = Condition::new(vec![vec![equal(X, 1), not_equal(Y, 5)]]);
    host.enter_and_wait(1, &condition);
    assert_eq!(host.enter_set_leave(2, 1, 0).called, Some(1));
    host.enter_set_leave(2, 1, 5);
    // Its tag holds, but it is not among the waiting jobs yet.
    assert_eq!(host.admit(1), report(Outcome::Back, None, 0, 2));
    host.enter(2);
    assert_eq!(host.leave(2), report(Outcome::Done, None, 1, 2));
}

#[test]
fn a_job_sent_back_is_the_oldest_of_its_entry_again() {
    let mut host = Host::board(0, 0);
    let shared = Condition::new(vec![vec![equal(X, 1), not_equal(Y, 5)]]);
    host.enter_and_wait(1, &shared);
    host.enter_and_wait(3, &shared);
    assert_eq!(host.enter_set_leave(2, 1, 0).called, Some(1));
    assert_eq!(host.enter_set_leave(2, 1, 0).called, Some(3));
    assert_eq!(host.enter_set_leave(2, 1, 5).called, None);
    assert_eq!(host.admit(3), report(Outcome::Back, None, 0, 2));
    assert_eq!(host.admit(1), report(Outcome::Back, None, 1, 2));
    let leave = host.enter_set_leave(2, 1, 0);
    assert_eq!(leave, report(Outcome::Done, Some(1), 1, 2));
}

#[test]
fn the_search_at_a_wait_leaves_the_waiting_job_out() {
    let mut host = Host::board(0, 0);
    host.enter_and_wait(1, &only(not_equal(X, 0)));
    host.enter(2);
    // The new condition's tag holds, but the search runs before it joins.
    let condition = Condition::new(vec![vec![equal(X, 0), not_equal(Y, 0)]]);
    assert_eq!(
        host.wait(2, &condition),
        report(Outcome::Waits, None, 1, 22)
    );
    host.enter(3);
    assert_eq!(host.leave(3), report(Outcome::Done, None, 2, 2));
}

#[test]
fn a_called_job_is_no_longer_the_oldest_of_its_entry() {
    let mut host = Host::board(0, 0);
    let shared = Condition::new(vec![vec![greater(X, 0), not_equal(Y, 1)]]);
    let other = Condition::new(vec![vec![greater(X, 0), not_equal(Y, 2)]]);
    host.enter_and_wait(1, &shared);
    host.enter_and_wait(2, &other);
    host.enter_and_wait(3, &shared);
    assert_eq!(
        host.enter_set_leave(4, 1, 0),
        report(Outcome::Done, Some(1), 1, 2)
    );
    // The shared entry now ranks by ticket 2, after `other` with ticket 1.
    assert_eq!(
        host.enter_set_leave(4, 1, 1),
        report(Outcome::Done, Some(2), 1, 2)
    );
    assert_eq!(
        host.enter_set_leave(4, 1, 1),
        report(Outcome::Done, None, 1, 2)
    );
}

#[test]
fn at_most_one_job_is_called_by_each_search() {
    let mut host = Host::board(0, 0);
    for job in 1..6 {
        host.enter_and_wait(job, &only(equal(X, 1)));
    }
    assert_eq!(
        host.enter_set_leave(0, 1, 0),
        report(Outcome::Done, Some(1), 1, 2)
    );
    assert_eq!(host.room.standing(Standing::Called), [1]);
    for next in 2..6 {
        host.enter(0);
        assert_eq!(host.leave(0).called, Some(next));
    }
    host.enter(0);
    assert_eq!(host.leave(0), report(Outcome::Done, None, 0, 2));
    assert_eq!(host.room.standing(Standing::Called), [1, 2, 3, 4, 5]);
}

#[test]
fn a_set_makes_no_search_even_if_it_makes_jobs_true() {
    let mut host = Host::board(0, 0);
    host.enter_and_wait(1, &only(equal(X, 1)));
    host.enter(2);
    assert_eq!(host.set(2, X, 1), report(Outcome::Done, None, 0, 4));
    assert_eq!(host.standing(1), Standing::Waiting);
}

#[test]
fn all_32_jobs_can_wait() {
    let mut host = Host::board(0, 0);
    for job in 0..32 {
        host.enter_and_wait(job, &only(equal(X, 1 + job as i64)));
    }
    assert_eq!(host.room.waiting().len(), 32);
    assert_eq!(host.room.next_ticket, 32);
}

#[test]
fn board_examples_through_events() {
    let a = Condition::new(vec![vec![greater_or_equal(X, 5), not_equal(Y, 1)]]);
    let b = only(greater(X, 7));
    for (x, y, called, evaluated) in [(9, 1, Some(1), 2), (9, 2, Some(0), 1), (6, 1, None, 1)] {
        let mut host = Host::board(0, 0);
        host.enter_and_wait(0, &a);
        host.enter_and_wait(1, &b);
        let leave = host.enter_set_leave(2, x, y);
        assert_eq!(leave, report(Outcome::Done, called, evaluated, 2));
    }
    let mut host = Host::board(0, 0);
    host.enter_and_wait(0, &only(greater(X, 3)));
    host.enter_and_wait(1, &only(greater_or_equal(X, 3)));
    let leave = host.enter_set_leave(2, 4, 0);
    assert_eq!(leave, report(Outcome::Done, Some(1), 1, 2));

    let mut host = Host::board(0, 0);
    for job in 0..2 {
        host.enter_and_wait(job, &only(not_equal(X, 0)));
    }
    let leave = host.enter_set_leave(2, 0, 0);
    assert_eq!(leave, report(Outcome::Done, None, 1, 2));

    let mut host = Host::board(0, 0);
    for job in [20, 19, 18, 17, 16, 15, 14] {
        let key = if job == 16 || job == 14 { 8 } else { 100 };
        host.enter_and_wait(job, &only(equal(X, key)));
    }
    assert_eq!(host.room.jobs[16].ticket, Some(4));
    assert_eq!(host.room.jobs[14].ticket, Some(6));
    let leave = host.enter_set_leave(2, 8, 0);
    assert_eq!(leave, report(Outcome::Done, Some(16), 1, 2));
}
