//! Sound streams with one byte wrong.

use crate::random::Random;
use crate::streams::{stream, Kind};

pub fn damaged(mut random: Random, size: usize) -> Vec<u8> {
    let kind = random.pick(&[Kind::Lively, Kind::Lively, Kind::Extreme, Kind::Drain]);
    // One byte less leaves room for one put in.
    let mut bytes = stream(kind, random.bits(), size.saturating_sub(1));
    if bytes.is_empty() {
        return bytes;
    }
    let place = random.below(bytes.len());
    match random.below(6) {
        0 | 1 => bytes[place] = other_byte(&mut random, bytes[place]),
        2 => bytes[place] = bytes[place].wrapping_add(1),
        3 => bytes[place] = bytes[place].wrapping_sub(1),
        4 => bytes.insert(place, random.byte()),
        _ => bytes.truncate(place),
    }
    bytes
}

fn other_byte(random: &mut Random, byte: u8) -> u8 {
    byte.wrapping_add(1 + random.below(255) as u8)
}
