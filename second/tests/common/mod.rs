//! A host with one room, and short ways to name events.

// No test file uses all of these.
#![allow(dead_code)]

use second::closure::WrittenCondition;
use second::condition::{Atom, Condition, Operator};
use second::limits::TICKETS;
use second::record::{Event, Opening};
use second::refusal::Refusal;
use second::report::{Outcome, Report};
use second::room::{Room, Standing};
use second::tally::Tally;
use second::write;

pub const X: usize = 0;
pub const Y: usize = 1;
pub const X_MINUS_2Y: usize = 2;

/// Variables 0 and 1 are x and y; the measures are x, y and x − 2y.
pub fn board_opening(x: i64, y: i64) -> Opening {
    Opening {
        measures: vec![
            [1, 0, 0, 0, 0, 0, 0, 0],
            [0, 1, 0, 0, 0, 0, 0, 0],
            [1, -2, 0, 0, 0, 0, 0, 0],
        ],
        values: [x, y, 0, 0, 0, 0, 0, 0],
    }
}

pub fn equal(measure: usize, key: i64) -> Atom {
    Atom::new(measure, Operator::Equal, key)
}

pub fn not_equal(measure: usize, key: i64) -> Atom {
    Atom::new(measure, Operator::NotEqual, key)
}

pub fn less(measure: usize, key: i64) -> Atom {
    Atom::new(measure, Operator::Less, key)
}

pub fn less_or_equal(measure: usize, key: i64) -> Atom {
    Atom::new(measure, Operator::LessOrEqual, key)
}

pub fn greater(measure: usize, key: i64) -> Atom {
    Atom::new(measure, Operator::Greater, key)
}

pub fn greater_or_equal(measure: usize, key: i64) -> Atom {
    Atom::new(measure, Operator::GreaterOrEqual, key)
}

/// The condition with one alternative of one atom.
pub fn only(atom: Atom) -> Condition {
    Condition::new(vec![vec![atom]])
}

pub fn join(parts: &[&[u8]]) -> Vec<u8> {
    parts.concat()
}

pub fn refused(refusal: Refusal, taken: usize) -> Report {
    Report::refused(refusal, taken)
}

pub struct Host {
    pub room: Room,
    pub tally: Tally,
}

impl Host {
    pub fn new(opening: &Opening) -> Host {
        Host {
            room: Room::new(opening),
            tally: Tally::default(),
        }
    }

    pub fn board(x: i64, y: i64) -> Host {
        Host::new(&board_opening(x, y))
    }

    pub fn bytes(&mut self, bytes: &[u8]) -> Report {
        self.room.event(&mut self.tally, bytes)
    }

    pub fn event(&mut self, event: &Event) -> Report {
        let bytes = write::event(event, self.room.measures.len());
        self.bytes(&bytes)
    }

    pub fn arrive(&mut self, job: usize) -> Report {
        self.event(&Event::Arrive { job })
    }

    pub fn admit(&mut self, job: usize) -> Report {
        self.event(&Event::Admit { job })
    }

    pub fn set(&mut self, job: usize, variable: usize, value: i64) -> Report {
        self.event(&Event::Set {
            job,
            variable,
            value,
        })
    }

    pub fn wait(&mut self, job: usize, condition: &Condition) -> Report {
        self.event(&Event::Wait {
            job,
            condition: WrittenCondition::plain(condition),
        })
    }

    pub fn leave(&mut self, job: usize) -> Report {
        self.event(&Event::Leave { job })
    }

    pub fn enter(&mut self, job: usize) {
        assert_eq!(self.arrive(job).outcome, Outcome::Done);
        assert_eq!(self.admit(job).outcome, Outcome::In);
    }

    /// The job comes in and waits; the search at its Wait must find nobody.
    pub fn enter_and_wait(&mut self, job: usize, condition: &Condition) {
        self.enter(job);
        let report = self.wait(job, condition);
        assert_eq!((report.outcome, report.called), (Outcome::Waits, None));
    }

    /// The job comes in, gives x and y these values and leaves; what its leaving reports.
    pub fn enter_set_leave(&mut self, job: usize, x: i64, y: i64) -> Report {
        self.enter(job);
        self.set(job, X, x);
        self.set(job, Y, y);
        self.leave(job)
    }

    pub fn standing(&self, job: usize) -> Standing {
        self.room.jobs[job].standing
    }

    /// As after a million Waits that were false.
    pub fn give_all_tickets(&mut self) {
        self.room.next_ticket = TICKETS;
    }

    /// The bytes must be refused with this number, take so many bytes and change nothing.
    pub fn expect_refusal(&mut self, bytes: &[u8], refusal: Refusal, taken: usize) {
        let (room, tally) = (self.room.clone(), self.tally);
        assert_eq!(self.bytes(bytes), refused(refusal, taken), "{:?}", bytes);
        assert_eq!(self.room, room, "{:?}", bytes);
        assert_eq!(self.tally, tally, "{:?}", bytes);
    }

    /// As above, for a whole record refused because of the room: 5, 6 or 7.
    pub fn expect_event_refusal(&mut self, event: &Event, refusal: Refusal) {
        let bytes = write::event(event, self.room.measures.len());
        self.expect_refusal(&bytes, refusal, bytes.len());
    }
}
