//! "Bytes": the opening and the five events, read in field order.

use crate::closure::{WrittenAtom, WrittenCondition};
use crate::condition::Operator;
use crate::limits::{
    ALTERNATIVES_MOST, ATOMS_MOST, COEFFICIENT_MOST, JOBS, MEASURES_MOST, VALUE_MOST, VARIABLES,
};
use crate::reader::Reader;
use crate::refusal::Refusal;

#[derive(Clone, Debug, PartialEq, Eq)]
pub struct Opening {
    pub measures: Vec<[i64; VARIABLES]>,
    pub values: [i64; VARIABLES],
}

#[derive(Clone, Debug, PartialEq, Eq)]
pub enum Event {
    Arrive {
        job: usize,
    },
    Admit {
        job: usize,
    },
    Set {
        job: usize,
        variable: usize,
        value: i64,
    },
    Wait {
        job: usize,
        condition: WrittenCondition,
    },
    Leave {
        job: usize,
    },
}

/// The opening the bytes begin with, and how many bytes it takes.
pub fn read_opening(bytes: &[u8]) -> Result<(Opening, usize), Refusal> {
    let mut reader = Reader::new(bytes);
    let measure_count = reader.unsigned(1, MEASURES_MOST)?;
    let mut measures = Vec::new();
    for _ in 0..measure_count {
        measures.push(reader.signed_array(COEFFICIENT_MOST)?);
    }
    let values = reader.signed_array(VALUE_MOST)?;
    Ok((Opening { measures, values }, reader.taken))
}

/// The event the bytes begin with, and how many bytes it takes.
pub fn read_event(bytes: &[u8], measure_count: usize) -> Result<(Event, usize), Refusal> {
    let mut reader = Reader::new(bytes);
    let kind = reader.choice(5)?;
    let job = reader.unsigned(0, JOBS - 1)?;
    let event = match kind {
        1 => Event::Arrive { job },
        2 => Event::Admit { job },
        3 => Event::Set {
            job,
            variable: reader.unsigned(0, VARIABLES - 1)?,
            value: reader.signed(VALUE_MOST)?,
        },
        4 => Event::Wait {
            job,
            condition: read_condition(&mut reader, measure_count)?,
        },
        _ => Event::Leave { job },
    };
    Ok((event, reader.taken))
}

fn read_condition(reader: &mut Reader, measure_count: usize) -> Result<WrittenCondition, Refusal> {
    let locals = reader.signed_array(VALUE_MOST)?;
    let alternative_count = reader.unsigned(1, ALTERNATIVES_MOST)?;
    let mut alternatives = Vec::new();
    for _ in 0..alternative_count {
        let atom_count = reader.unsigned(1, ATOMS_MOST)?;
        let mut atoms = Vec::new();
        for _ in 0..atom_count {
            atoms.push(read_atom(reader, measure_count)?);
        }
        alternatives.push(atoms);
    }
    Ok(WrittenCondition {
        locals,
        alternatives,
    })
}

fn read_atom(reader: &mut Reader, measure_count: usize) -> Result<WrittenAtom, Refusal> {
    let measure = reader.unsigned(0, measure_count - 1)?;
    let operator_number = reader.choice(6)?;
    let coefficients = reader.signed_array(COEFFICIENT_MOST)?;
    let constant = reader.signed(VALUE_MOST)?;
    Ok(WrittenAtom {
        measure,
        operator: Operator::ALL[operator_number as usize - 1],
        coefficients,
        constant,
    })
}
