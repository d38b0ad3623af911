//! "Refusal numbers": a field's bytes are judged (1 or 2) before its range (3 or 4).

use crate::number;
use crate::refusal::Refusal;

pub struct Reader<'a> {
    bytes: &'a [u8],
    pub taken: usize,
}

impl<'a> Reader<'a> {
    pub fn new(bytes: &'a [u8]) -> Reader<'a> {
        Reader { bytes, taken: 0 }
    }

    fn number(&mut self) -> Result<u32, Refusal> {
        let (number, length) = number::read(&self.bytes[self.taken..])?;
        self.taken += length;
        Ok(number)
    }

    /// A kind or an operator: 1 to `most`.
    pub fn choice(&mut self, most: u32) -> Result<u32, Refusal> {
        let number = self.number()?;
        if number < 1 || number > most {
            return Err(Refusal::UnknownKindOrOperator);
        }
        Ok(number)
    }

    /// A count or the number of a thing: `least` to `most`.
    pub fn unsigned(&mut self, least: usize, most: usize) -> Result<usize, Refusal> {
        let number = self.number()? as usize;
        if number < least || number > most {
            return Err(Refusal::OutOfRange);
        }
        Ok(number)
    }

    /// A value, constant or coefficient: minus `most` to `most`.
    pub fn signed(&mut self, most: i64) -> Result<i64, Refusal> {
        let value = number::to_signed(self.number()?);
        if value < -most || value > most {
            return Err(Refusal::OutOfRange);
        }
        Ok(value)
    }

    pub fn signed_array<const COUNT: usize>(&mut self, most: i64) -> Result<[i64; COUNT], Refusal> {
        let mut array = [0; COUNT];
        for place in &mut array {
            *place = self.signed(most)?;
        }
        Ok(array)
    }
}
