//! The library's room, through its C functions, and the second implementation's beside it. Both
//! are given the same bytes, and all that can be seen of them is compared after each.

use harbour::c::{self, harbour_event, harbour_open};
use harbour::Tally;
use second::closure::WrittenCondition;
use second::condition::Condition;
use second::record::{Event, Opening};
use second::report::{Outcome, Report};
use second::room::Room;
use second::write;

use super::{compare, kept};

pub struct Pair {
    /// Written by the library, but for the next ticket of a room in which nobody waits yet.
    room: Box<c::Room>,
    pub tally: Tally,
    pub second: Room,
    second_tally: second::tally::Tally,
    /// The room as it was before an event.
    kept: Box<c::Room>,
}

impl Pair {
    /// None if both refuse the opening alike; what differs if they don't.
    pub fn open(bytes: &[u8]) -> Result<Option<Pair>, String> {
        let mut room = Box::new(c::Room::CLEAR);
        // An opening does not look at what stood there.
        room.standing = [2; 32];
        room.places.fill(77);
        room.next_ticket = 5;
        // SAFETY: the room is owned here alone, and the bytes are a slice.
        let opened = unsafe { harbour_open(&mut *room, bytes.as_ptr(), bytes.len()) };
        let right = Room::open(bytes);
        let expected = match &right {
            Ok((room, taken)) => (0, room.measures.len() as u64, *taken as u64),
            Err(refusal) => (refusal.number(), 0, 0),
        };
        let answer = (opened.refusal, opened.measures, opened.taken);
        if answer != expected {
            return Err(format!(
                "the opening is answered {answer:?}, not {expected:?}"
            ));
        }
        let second = match right {
            Ok((room, _)) => room,
            Err(_) if *room == c::Room::CLEAR => return Ok(None),
            Err(_) => return Err("a refused opening left a room".to_string()),
        };
        compare::rooms(&room, &second)?;
        Ok(Some(Pair {
            kept: room.clone(),
            room,
            tally: Tally::default(),
            second,
            second_tally: second::tally::Tally::default(),
        }))
    }

    /// A room from a sound opening.
    pub fn new(opening: &Opening) -> Pair {
        let opened = Pair::open(&write::opening(opening)).expect("both open it alike");
        opened.expect("a sound opening")
    }

    pub fn room(&self) -> &c::Room {
        &self.room
    }

    /// As a run in which so many jobs waited and went leaves the room. Nobody waits yet.
    pub fn give_tickets(&mut self, given: u32) {
        assert!(self.second.jobs.iter().all(|job| job.ticket.is_none()));
        self.room.next_ticket = given;
        self.second.next_ticket = given;
    }

    /// The host's tally, from now on.
    pub fn lend(&mut self, tally: Tally) {
        self.tally = tally;
        self.second_tally = second::tally::Tally {
            accepted: tally.events,
            calls: tally.calls,
            evaluated: tally.evaluated,
            sent_back: tally.sent_back,
        };
    }

    /// What both report; what differs if they don't, or if rooms or tallies then do.
    pub fn event(&mut self, bytes: &[u8]) -> Result<Report, String> {
        let right = self.second.event(&mut self.second_tally, bytes);
        let accepted = !matches!(right.outcome, Outcome::Refused(_) | Outcome::NoneLeft);
        self.kept.clone_from(&self.room);
        // SAFETY: all are borrowed here, and the room is as an opening and events leave it.
        let report = unsafe {
            harbour_event(
                &mut self.tally,
                &mut *self.room,
                bytes.as_ptr(),
                bytes.len(),
            )
        };
        compare::reports(&report, &right)?;
        compare::rooms(&self.room, &self.second)?;
        compare::tallies(&self.tally, &self.second_tally)?;
        match accepted {
            true => kept::all_else(&self.kept, &self.room, &right)?,
            false if self.kept == self.room => {}
            false => return Err("an event that was not accepted changed the room".to_string()),
        }
        Ok(right)
    }

    // ---- Short ways to give sound events; a difference fails the test.

    pub fn give(&mut self, event: &Event) -> Report {
        let bytes = write::event(event, self.second.measures.len());
        match self.event(&bytes) {
            Ok(report) => report,
            Err(difference) => panic!("{event:?}: {difference}"),
        }
    }

    pub fn arrive(&mut self, job: usize) -> Report {
        self.give(&Event::Arrive { job })
    }

    pub fn admit(&mut self, job: usize) -> Report {
        self.give(&Event::Admit { job })
    }

    pub fn set(&mut self, job: usize, variable: usize, value: i64) -> Report {
        self.give(&Event::Set {
            job,
            variable,
            value,
        })
    }

    pub fn wait(&mut self, job: usize, condition: &Condition) -> Report {
        self.give(&Event::Wait {
            job,
            condition: WrittenCondition::plain(condition),
        })
    }

    pub fn leave(&mut self, job: usize) -> Report {
        self.give(&Event::Leave { job })
    }

    pub fn enter(&mut self, job: usize) {
        assert_eq!(self.arrive(job).outcome, Outcome::Done);
        assert_eq!(self.admit(job).outcome, Outcome::In);
    }

    /// The job comes in and waits; the search at its Wait finds nobody.
    pub fn enter_and_wait(&mut self, job: usize, condition: &Condition) {
        self.enter(job);
        let report = self.wait(job, condition);
        assert_eq!((report.outcome, report.called), (Outcome::Waits, None));
    }
}
