//! "Refusal numbers".

#[derive(Clone, Copy, Debug, PartialEq, Eq)]
pub enum Refusal {
    BytesEnd = 1,
    NumberForm = 2,
    UnknownKindOrOperator = 3,
    OutOfRange = 4,
    WrongStanding = 5,
    AnotherInside = 6,
    NoTicketLeft = 7,
    InputTooLong = 8,
}

impl Refusal {
    pub fn number(self) -> u8 {
        self as u8
    }
}
