//! Tickets at their end, and refusal 7.

mod common;

use common::board::{board, only, X};
use common::pair::Pair;
use harbour::{c, Tally, TICKETS};
use second::closure::WrittenCondition;
use second::condition::{Condition, Operator};
use second::limits::JOBS;
use second::record::Event;
use second::refusal::Refusal;
use second::report::Outcome;
use second::write;

fn is(x: i64) -> Condition {
    only(X, Operator::Equal, x)
}

/// All but ten tickets given, and then ten more jobs wait: for x = 0 to x = 9, at x = −1.
fn ten_more() -> Pair {
    let mut pair = Pair::new(&board(-1, 0));
    pair.give_tickets(TICKETS - 10);
    for job in 0..10 {
        pair.enter_and_wait(job, &is(job as i64));
        assert_eq!(pair.room().ticket[job], TICKETS - 10 + job as u32);
    }
    assert_eq!(pair.room().next_ticket, TICKETS);
    pair
}

/// The Wait of a job inside is refused with 7, and every number of room and tally stays.
fn expect_refusal_7(pair: &mut Pair, job: usize, condition: &Condition) {
    let (room, tally) = (pair.room().clone(), pair.tally);
    let report = pair.wait(job, condition);
    assert_eq!(report.outcome, Outcome::Refused(Refusal::NoTicketLeft));
    assert_eq!((report.called, report.evaluated), (None, 0));
    assert!(*pair.room() == room);
    assert_eq!(pair.tally, tally);
}

#[test]
fn ten_more_and_then_refusal_7() {
    let mut pair = ten_more();
    pair.enter(10);
    for key in [0, 3, 99] {
        expect_refusal_7(&mut pair, 10, &is(key));
    }
    assert_eq!(pair.wait(10, &is(-1)).outcome, Outcome::On);
    expect_refusal_7(&mut pair, 10, &is(7));
}

/// Refusal 7 takes the record, also where bytes follow.
#[test]
fn refusal_7_takes_the_record() {
    let mut pair = ten_more();
    pair.enter(10);
    let event = Event::Wait {
        job: 10,
        condition: WrittenCondition::plain(&is(3)),
    };
    let record = write::event(&event, 3);
    let more = [record.as_slice(), &[5, 10]].concat();
    let report = pair.event(&more).expect("both say the same");
    assert_eq!(report.outcome, Outcome::Refused(Refusal::NoTicketLeft));
    assert_eq!(report.taken, record.len());
}

/// It makes no search: who could be called is called at the next Leave.
#[test]
fn refusal_7_makes_no_search() {
    let mut pair = ten_more();
    pair.enter(10);
    pair.set(10, X, 4);
    expect_refusal_7(&mut pair, 10, &is(5));
    assert_eq!(pair.leave(10).called, Some(4));
}

/// A ticket that is given up is given to nobody else.
#[test]
fn tickets_do_not_come_back() {
    let mut pair = ten_more();
    pair.enter(10);
    pair.set(10, X, 4);
    assert_eq!(pair.leave(10).called, Some(4));
    assert_eq!(pair.admit(4).outcome, Outcome::In);
    expect_refusal_7(&mut pair, 4, &is(5));
    assert_eq!(pair.leave(4).called, None);
}

#[test]
fn a_job_sent_back_needs_no_ticket() {
    let mut pair = ten_more();
    pair.enter(10);
    pair.set(10, X, 9);
    assert_eq!(pair.leave(10).called, Some(9));
    pair.enter(10);
    pair.set(10, X, -1);
    pair.leave(10);
    assert_eq!(pair.admit(9).outcome, Outcome::Back);
    assert_eq!(pair.room().ticket[9], TICKETS - 1);
}

/// The last ticket is younger than the one before it.
#[test]
fn the_last_tickets_keep_their_order() {
    let mut pair = Pair::new(&board(0, 0));
    pair.give_tickets(TICKETS - 2);
    pair.enter_and_wait(20, &is(1));
    pair.enter_and_wait(10, &is(1));
    pair.enter(0);
    pair.set(0, X, 1);
    assert_eq!(pair.leave(0).called, Some(20));
    assert_eq!(pair.admit(20).outcome, Outcome::In);
    assert_eq!(pair.leave(20).called, Some(10));
}

/// The library alone.
struct Long {
    room: Box<c::Room>,
    tally: Tally,
}

const DONE: u8 = 0;
const IN: u8 = 1;
const WAITS: u8 = 2;
const REFUSED: u8 = 5;
const NOBODY: u8 = JOBS as u8;
const WAITING: u8 = 3;

impl Long {
    fn open(bytes: &[u8]) -> Long {
        let mut room = Box::new(c::Room::CLEAR);
        // SAFETY: the room is owned here alone, and the bytes are a slice.
        let opened = unsafe { c::harbour_open(&mut *room, bytes.as_ptr(), bytes.len()) };
        assert_eq!(opened.refusal, 0);
        Long {
            room,
            tally: Tally::default(),
        }
    }

    /// Outcome and called job.
    fn event(&mut self, bytes: &[u8]) -> (u8, u8) {
        let length = bytes.len();
        // SAFETY: all are borrowed here, and the room is as an opening and events leave it.
        let report =
            unsafe { c::harbour_event(&mut self.tally, &mut *self.room, bytes.as_ptr(), length) };
        (report.outcome, report.job)
    }

    fn enter(&mut self, job: usize) {
        assert_eq!(self.event(&[1, job as u8]), (DONE, NOBODY));
        assert_eq!(self.event(&[2, job as u8]), (IN, NOBODY));
    }
}

/// All tickets by events alone. Those who wait for the other value of x are called one after the
/// other, each by the Wait of the one before; the last of them changes x.
#[test]
fn a_million_waits() {
    let mut long = Long::open(&write::opening(&board(0, 0)));
    let wait = |job: usize, x: i64| {
        let condition = WrittenCondition::plain(&is(x));
        write::event(&Event::Wait { job, condition }, 3)
    };
    let waits: Vec<[Vec<u8>; 2]> = (0..JOBS).map(|job| [wait(job, 0), wait(job, 1)]).collect();
    // At x = 0 all but the last job wait for x = 1.
    let mut tickets = [0; JOBS];
    let mut given = 0;
    for (job, waits) in waits[..JOBS - 1].iter().enumerate() {
        long.enter(job);
        assert_eq!(long.event(&waits[1]), (WAITS, NOBODY));
        tickets[job] = given;
        given += 1;
    }
    let mut inside = JOBS - 1;
    long.enter(inside);
    let (mut x, mut left) = (0, 0);
    while given < TICKETS {
        if left == 0 {
            x = 1 - x;
            left = JOBS - 1;
            let set = [3, inside as u8, X as u8, 2 * x as u8];
            assert_eq!(long.event(&set), (DONE, NOBODY));
        }
        let next = (inside + 1) % JOBS;
        assert_eq!(long.event(&waits[inside][1 - x]), (WAITS, next as u8));
        tickets[inside] = given;
        given += 1;
        assert_eq!(long.event(&[2, next as u8]), (IN, NOBODY));
        inside = next;
        left -= 1;
    }
    let (room, tally) = (long.room.clone(), long.tally);
    assert_eq!(long.event(&waits[inside][1 - x]), (REFUSED, NOBODY));
    assert!(long.room == room);
    assert_eq!(long.tally, tally);
    assert_eq!(room.next_ticket, TICKETS);
    assert_eq!(tally.calls, u64::from(TICKETS) - (JOBS as u64 - 1));
    for job in (0..JOBS).filter(|job| *job != inside) {
        assert_eq!(
            (room.standing[job], room.ticket[job]),
            (WAITING, tickets[job])
        );
    }
}
