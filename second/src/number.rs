//! "Bytes": numbers as groups of seven bits, and the signed mapping.

use crate::refusal::Refusal;

const GROUPS_MOST: usize = 5;

/// The number the bytes begin with, and how many bytes it takes.
pub fn read(bytes: &[u8]) -> Result<(u32, usize), Refusal> {
    let mut number = 0;
    for place in 0..GROUPS_MOST {
        let byte = match bytes.get(place) {
            Some(byte) => *byte,
            None => return Err(Refusal::BytesEnd),
        };
        if place == GROUPS_MOST - 1 && byte >= 16 {
            return Err(Refusal::NumberForm);
        }
        number += u32::from(byte % 128) << (7 * place);
        if byte < 128 {
            if place > 0 && byte == 0 {
                return Err(Refusal::NumberForm);
            }
            return Ok((number, place + 1));
        }
    }
    unreachable!("a fifth byte below 16 ends its number")
}

pub fn write(number: u32, bytes: &mut Vec<u8>) {
    let mut rest = number;
    while rest >= 128 {
        bytes.push((rest % 128) as u8 + 128);
        rest /= 128;
    }
    bytes.push(rest as u8);
}

/// The value that an even or odd number stands for: 0, 1, 2, 3 are 0, -1, 1, -2.
pub fn to_signed(number: u32) -> i64 {
    let number = i64::from(number);
    if number % 2 == 0 {
        number / 2
    } else {
        -(number + 1) / 2
    }
}

pub fn from_signed(value: i64) -> u32 {
    let number = if value >= 0 {
        2 * value
    } else {
        -2 * value - 1
    };
    u32::try_from(number).expect("a signed number fits 32 bits")
}
