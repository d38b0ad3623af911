//! "Standings and events": where a job stands.

/// Where a job stands. At most one is inside.
#[derive(Clone, Copy, Debug, PartialEq, Eq, Hash)]
pub enum Standing {
    /// As all are at the opening.
    Outside = 0,
    /// It arrived and wants in.
    Door = 1,
    /// It alone may Set, Wait and Leave.
    Inside = 2,
    /// It has a condition and a ticket, and waits to be called.
    Waiting = 3,
    /// A search found its condition true. It keeps condition and ticket until it is admitted.
    Called = 4,
}

impl Standing {
    pub(crate) fn of(number: u8) -> Standing {
        match number {
            0 => Standing::Outside,
            1 => Standing::Door,
            2 => Standing::Inside,
            3 => Standing::Waiting,
            4 => Standing::Called,
            _ => unreachable!("{} is no standing", number),
        }
    }
}
