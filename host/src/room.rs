//! The room behind a safe interface.

use std::fmt;

use crate::c::{
    self, harbour_event, harbour_inside, harbour_open, harbour_standing, harbour_value,
};
use crate::limits::{JOBS, VARIABLES};
use crate::refusal::Refusal;
use crate::report::Report;
use crate::standing::Standing;
use crate::tally::Tally;

/// A monitor with automatic signals: 8 shared integers, 1 to 16 measures, 32 jobs, their
/// conditions and an index over the waiting ones.
///
/// Every `Room` came from an accepted opening and events, as nothing else makes one or changes one;
/// a clone does too, and goes its own way from then on. Calls on one room do not overlap, because
/// [`Room::event`] borrows it alone: a host with threads keeps it behind a lock.
#[derive(Clone)]
pub struct Room {
    room: Box<c::Room>,
}

impl Room {
    /// The room that the bytes open, and how many bytes the opening takes; more may follow. All
    /// jobs stand outside, and no ticket is given yet.
    ///
    /// Bytes that begin with no opening make no room and are refused, with 1, 2 or 4.
    pub fn open(bytes: &[u8]) -> Result<(Room, usize), Refusal> {
        let mut room = Box::new(c::Room::CLEAR);
        // SAFETY: the room is owned here alone, and the bytes are a slice.
        let opened = unsafe { harbour_open(&mut *room, bytes.as_ptr(), bytes.len()) };
        match Refusal::of(opened.refusal) {
            None => Ok((Room { room }, opened.taken as usize)),
            Some(refusal) => Err(refusal),
        }
    }

    /// Gives the room the event that the bytes begin with, and the tally what it counts.
    ///
    /// Every string of bytes is answered. An accepted event changes the room as document 01 says
    /// and adds to the tally; a refused one, and none left, change neither.
    pub fn event(&mut self, tally: &mut Tally, bytes: &[u8]) -> Report {
        // SAFETY: all are borrowed here, and a `Room` comes from an opening and events alone.
        let report = unsafe { harbour_event(tally, &mut *self.room, bytes.as_ptr(), bytes.len()) };
        Report::of(&report)
    }

    /// Where a job stands. A number that names no job stands outside, and will always.
    pub fn standing(&self, job: u8) -> Standing {
        // SAFETY: it is lent a reference, and requires nothing else.
        Standing::of(unsafe { harbour_standing(&self.room.standing, job) })
    }

    /// The job inside, if one is.
    pub fn inside(&self) -> Option<u8> {
        // SAFETY: it is lent a reference, and requires nothing else.
        let job = unsafe { harbour_inside(&self.room.standing) };
        (usize::from(job) < JOBS).then_some(job)
    }

    /// The ticket that the next job to wait gets; [`crate::TICKETS`] once all are given.
    pub fn next_ticket(&self) -> u32 {
        self.room.next_ticket
    }

    /// The value of a shared variable; 0 for a number that names none.
    pub fn value(&self, variable: u8) -> i64 {
        // SAFETY: it is lent a reference, and requires nothing else.
        unsafe { harbour_value(&self.room.values, variable) }
    }

    /// The shared values, by variable.
    pub fn values(&self) -> &[i64; VARIABLES] {
        &self.room.values
    }

    /// The coefficients of each measure, 1 to 16 rows. They are the opening's for ever.
    pub fn measures(&self) -> &[[i64; VARIABLES]] {
        &self.room.coefficients[..self.room.measures]
    }
}

impl fmt::Debug for Room {
    fn fmt(&self, out: &mut fmt::Formatter) -> fmt::Result {
        let standings: Vec<Standing> = (0..JOBS).map(|job| self.standing(job as u8)).collect();
        out.debug_struct("Room")
            .field("measures", &self.measures())
            .field("values", self.values())
            .field("standings", &standings)
            .field("next_ticket", &self.next_ticket())
            .finish_non_exhaustive()
    }
}
