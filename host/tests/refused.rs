//! Refused events, and none left, leave every number of room and tally as it was.

mod common;

use common::board::{board, only, X};
use common::pair::Pair;
use harbour::{c, Tally, TALLY_MOST, TICKETS};
use second::closure::WrittenCondition;
use second::condition::{Atom, Condition, Operator};
use second::limits::JOBS;
use second::record::Event;
use second::refusal::Refusal;
use second::report::{Outcome, Report};
use second::room::Standing;
use second::spoil::every_spoiling;
use second::write;

/// Job 0 is inside, 1 at the door, 2 and 3 wait, 4 is called, 5 was called and sent back. The
/// others are outside, as at the opening or after they were inside.
fn room_with_all_standings() -> Pair {
    let mut pair = Pair::new(&board(0, 0));
    pair.lend(Tally {
        events: 7,
        calls: TALLY_MOST - 100,
        evaluated: TALLY_MOST,
        sent_back: u64::MAX,
    });
    let two = Condition::new(vec![
        vec![
            Atom::new(0, Operator::Greater, 8),
            Atom::new(1, Operator::NotEqual, 1),
        ],
        vec![Atom::new(2, Operator::Equal, -7)],
    ]);
    pair.enter_and_wait(2, &two);
    pair.enter_and_wait(3, &two);
    pair.enter_and_wait(5, &only(X, Operator::GreaterOrEqual, 5));
    pair.enter(6);
    pair.set(6, X, 5);
    assert_eq!(pair.leave(6).called, Some(5));
    pair.enter(7);
    pair.set(7, X, 1);
    assert_eq!(pair.leave(7).called, None);
    assert_eq!(pair.admit(5).outcome, Outcome::Back);
    pair.enter_and_wait(4, &only(X, Operator::Equal, 2));
    pair.arrive(1);
    pair.enter(0);
    pair.set(0, X, 2);
    assert_eq!(pair.leave(0).called, Some(4));
    pair.enter(0);
    pair
}

/// Fails if anything changes, or if the implementations differ.
fn unchanged(pair: &mut Pair, bytes: &[u8]) -> Report {
    let (room, tally): (c::Room, Tally) = (pair.room().clone(), pair.tally);
    let report = match pair.event(bytes) {
        Ok(report) => report,
        Err(difference) => panic!("{bytes:?}: {difference}"),
    };
    assert!(*pair.room() == room, "{bytes:?} changed the room");
    assert_eq!(pair.tally, tally, "{bytes:?}");
    assert_eq!((report.called, report.evaluated), (None, 0), "{bytes:?}");
    report
}

fn expect(pair: &mut Pair, event: &Event, refusal: Refusal) {
    let bytes = write::event(event, pair.second.measures.len());
    let report = unchanged(pair, &bytes);
    assert_eq!(report, Report::refused(refusal, bytes.len()), "{event:?}");
}

fn wait(job: usize, condition: &Condition) -> Event {
    Event::Wait {
        job,
        condition: WrittenCondition::plain(condition),
    }
}

/// One of each kind, of a job for which it would be accepted. The Wait has four alternatives of up
/// to four atoms.
fn one_of_each_kind() -> Vec<Event> {
    let atoms = |count: usize| {
        let atom = |place: usize| Atom::new(place % 3, Operator::ALL[place], 60 + place as i64);
        (0..count).map(atom).collect()
    };
    let condition = Condition::new(vec![atoms(1), atoms(4), atoms(2), atoms(3)]);
    vec![
        Event::Arrive { job: 9 },
        Event::Admit { job: 1 },
        Event::Set {
            job: 0,
            variable: 1,
            value: -1_000_000,
        },
        wait(0, &condition),
        Event::Leave { job: 0 },
    ]
}

/// Each record with each mistake in each of its fields: refusals 1 to 4.
#[test]
fn refusals_1_to_4() {
    let mut pair = room_with_all_standings();
    let mut seen = [0; 5];
    for event in one_of_each_kind() {
        let fields = write::event_fields(&event, pair.second.measures.len());
        for spoiled in every_spoiling(&fields) {
            let report = unchanged(&mut pair, &spoiled.bytes);
            assert_eq!(report, Report::refused(spoiled.refusal, 0), "{spoiled:?}");
            seen[usize::from(spoiled.refusal.number())] += 1;
        }
    }
    println!("refusals by number: {seen:?}");
    assert!(seen[1..].iter().all(|times| *times > 10), "{seen:?}");
}

/// Every event of every job that does not stand as the event needs.
#[test]
fn refusal_5() {
    let mut pair = room_with_all_standings();
    let condition = only(X, Operator::Equal, 99);
    let mut seen = 0;
    for job in 0..JOBS {
        let standing = pair.second.jobs[job].standing;
        let admits = matches!(standing, Standing::Door | Standing::Called);
        let inside = standing == Standing::Inside;
        let (variable, value) = (0, 1);
        let events = [
            (Event::Arrive { job }, standing == Standing::Outside),
            (Event::Admit { job }, admits),
            (
                Event::Set {
                    job,
                    variable,
                    value,
                },
                inside,
            ),
            (wait(job, &condition), inside),
            (Event::Leave { job }, inside),
        ];
        for (event, fits) in events {
            if !fits {
                expect(&mut pair, &event, Refusal::WrongStanding);
                seen += 1;
            }
        }
    }
    assert_eq!(seen, 5 * JOBS - (JOBS - 6) - 2 - 3);
}

#[test]
fn refusal_6() {
    let mut pair = room_with_all_standings();
    for job in [1, 4] {
        expect(&mut pair, &Event::Admit { job }, Refusal::AnotherInside);
    }
}

/// In a room with all standings and no ticket left.
#[test]
fn refusal_7() {
    let mut pair = Pair::new(&board(0, 0));
    pair.give_tickets(TICKETS - 3);
    pair.enter_and_wait(2, &only(X, Operator::Greater, 8));
    pair.enter_and_wait(3, &only(X, Operator::Greater, 8));
    pair.enter_and_wait(4, &only(X, Operator::Equal, 2));
    pair.arrive(1);
    pair.enter(0);
    pair.set(0, X, 2);
    assert_eq!(pair.leave(0).called, Some(4));
    pair.enter(0);
    for condition in [
        only(X, Operator::Greater, 8),
        only(X, Operator::NotEqual, 2),
        Condition::new(vec![vec![Atom::new(1, Operator::Less, 0); 4]; 4]),
    ] {
        expect(&mut pair, &wait(0, &condition), Refusal::NoTicketLeft);
    }
}

#[test]
fn none_left() {
    let mut pair = room_with_all_standings();
    assert_eq!(unchanged(&mut pair, &[]), Report::none_left());
    let mut pair = Pair::new(&board(0, 0));
    assert_eq!(unchanged(&mut pair, &[]), Report::none_left());
}

/// After all that, the room goes on as if nothing had been.
#[test]
fn the_room_goes_on() {
    let mut pair = room_with_all_standings();
    for event in one_of_each_kind() {
        let fields = write::event_fields(&event, pair.second.measures.len());
        for spoiled in every_spoiling(&fields).iter().step_by(7) {
            unchanged(&mut pair, &spoiled.bytes);
        }
    }
    pair.leave(0);
    assert_eq!(pair.admit(4).outcome, Outcome::In);
    pair.set(4, X, 9);
    assert_eq!(pair.leave(4).called, Some(5));
    assert_eq!(pair.admit(5).outcome, Outcome::In);
    assert_eq!(pair.leave(5).called, Some(2));
}
