//! "Refusal numbers", those that a library gives.

use std::error::Error;
use std::fmt;

/// Why an opening or an event was refused. A refused opening makes no room; a refused event changes
/// neither room nor tally.
#[derive(Clone, Copy, Debug, PartialEq, Eq, Hash)]
pub enum Refusal {
    /// 1: the bytes end inside the record. Of an opening also: there are no bytes at all.
    BytesEnd = 1,
    /// 2: a number's fifth byte is 16 or more, or the last of several groups is 0.
    NumberForm = 2,
    /// 3: the kind is not 1 to 5, or an operator not 1 to 6.
    UnknownKindOrOperator = 3,
    /// 4: a number is outside its range, or names a measure that the room lacks.
    OutOfRange = 4,
    /// 5: the job's standing is not the one that the event needs.
    WrongStanding = 5,
    /// 6: Admit of a job at the door or called while another is inside.
    AnotherInside = 6,
    /// 7: Wait with a false condition when all tickets are given.
    NoTicketLeft = 7,
}

impl Refusal {
    /// All of them, by number.
    pub const ALL: [Refusal; 7] = [
        Refusal::BytesEnd,
        Refusal::NumberForm,
        Refusal::UnknownKindOrOperator,
        Refusal::OutOfRange,
        Refusal::WrongStanding,
        Refusal::AnotherInside,
        Refusal::NoTicketLeft,
    ];

    /// Its number in document 01.
    pub fn number(self) -> u8 {
        self as u8
    }

    /// The refusal with this number: none for 0, which stands for no refusal.
    pub(crate) fn of(number: u8) -> Option<Refusal> {
        let place = usize::from(number).checked_sub(1)?;
        Some(Refusal::ALL[place])
    }
}

impl fmt::Display for Refusal {
    fn fmt(&self, out: &mut fmt::Formatter) -> fmt::Result {
        let reason = match self {
            Refusal::BytesEnd => "the bytes end inside a record",
            Refusal::NumberForm => "a number is not written as numbers are",
            Refusal::UnknownKindOrOperator => "no such kind of event, or no such operator",
            Refusal::OutOfRange => "a number is outside its range",
            Refusal::WrongStanding => "the job's standing is not the one that the event needs",
            Refusal::AnotherInside => "another job is inside",
            Refusal::NoTicketLeft => "all tickets are given",
        };
        write!(out, "refused {}: {}", self.number(), reason)
    }
}

impl Error for Refusal {}
