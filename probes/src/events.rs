//! Events: the head, and the numbers of a Wait.

use crate::Answer;

/// The event's kind, its job, of a Set its variable and value, and the next place, with refusal 0;
/// or kind 0 and the refusal, which is 0 if no byte is left. What is not named is 0.
#[repr(C)]
#[derive(Clone, Copy, Debug, PartialEq, Eq)]
pub struct HeadAnswer {
    pub kind: u8,
    pub refusal: u8,
    pub job: u64,
    pub variable: u64,
    pub value: i64,
    pub next: usize,
}

/// The slots lent to a Wait. Alternative i has its atom count in slot i, and its atom j stands in
/// slot 4 * i + j, with its coefficients from 4 times that slot on.
#[derive(Clone, Debug, PartialEq, Eq)]
pub struct WaitSlots {
    pub locals: [i64; 4],
    pub counts: [u8; 4],
    pub measure: [u8; 16],
    pub operator: [u8; 16],
    pub coefficients: [i64; 64],
    pub constant: [i64; 16],
}

impl WaitSlots {
    /// Slots that nothing was put into.
    pub const CLEAR: WaitSlots = WaitSlots {
        locals: [0; 4],
        counts: [0; 4],
        measure: [0; 16],
        operator: [0; 16],
        coefficients: [0; 64],
        constant: [0; 16],
    };
}

extern "C" {
    fn probe_head(bytes: *const u8, length: usize, at: usize) -> HeadAnswer;
    fn probe_wait(
        locals: &mut [i64; 4],
        counts: &mut [u8; 4],
        measure: &mut [u8; 16],
        operator: &mut [u8; 16],
        coefficients: &mut [i64; 64],
        constant: &mut [i64; 16],
        bytes: *const u8,
        length: usize,
        at: usize,
        measures: u8,
    ) -> Answer;
}

// As in the root: neither requires anything of its arguments, so every call is sound.

pub fn head(bytes: &[u8], at: usize) -> HeadAnswer {
    unsafe { probe_head(bytes.as_ptr(), bytes.len(), at) }
}

/// The alternative count of the Wait whose numbers begin at this place, the next place of its head,
/// for a room with so many measures; the numbers go into the lent slots.
pub fn wait(slots: &mut WaitSlots, bytes: &[u8], at: usize, measures: u8) -> Answer {
    unsafe {
        probe_wait(
            &mut slots.locals,
            &mut slots.counts,
            &mut slots.measure,
            &mut slots.operator,
            &mut slots.coefficients,
            &mut slots.constant,
            bytes.as_ptr(),
            bytes.len(),
            at,
            measures,
        )
    }
}
