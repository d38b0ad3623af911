//! Short byte strings to try the readers with.

use second::random::Random;

pub const LENGTH_MOST: usize = 40;
pub const EVENTFUL_MOST: usize = 60;

/// Bytes at which something changes: the last group or one more, 0 alone or after others, a fifth
/// byte that fits or not.
pub const TELLING: [u8; 10] = [0, 1, 15, 16, 17, 127, 128, 129, 254, 255];

/// A string of 0 to 40 bytes: of any bytes, of the telling ones, or mostly of small ones.
pub fn short(random: &mut Random) -> Vec<u8> {
    let length = random.below(LENGTH_MOST + 1);
    let kind = random.below(3);
    (0..length).map(|_| byte(random, kind)).collect()
}

/// A string of 0 to 60 bytes, mostly of small ones, which come through more fields before one is
/// refused, and often with the kind and job of a Wait somewhere.
pub fn eventful(random: &mut Random) -> Vec<u8> {
    let length = random.below(EVENTFUL_MOST + 1);
    let bound = random.pick(&[3, 6, 8, 32, 128, 256]);
    let mut bytes: Vec<u8> = (0..length)
        .map(|_| match random.below(32) {
            0 => random.byte(),
            1 => random.pick(&TELLING),
            _ => random.below(bound) as u8,
        })
        .collect();
    if random.once_in(4) {
        return bytes;
    }
    let at = random.pick(&[0, 1, 10]);
    if let Some([kind, job]) = bytes.get_mut(at..at + 2) {
        *kind = 4;
        *job = random.below(32) as u8;
    }
    bytes
}

fn byte(random: &mut Random, kind: usize) -> u8 {
    match kind {
        0 => random.byte(),
        1 => random.pick(&TELLING),
        _ if random.once_in(8) => random.byte(),
        _ => random.below(128) as u8,
    }
}

/// The places to read a string from: every one, the end, past it, and as far as there are places.
pub fn places(bytes: &[u8]) -> impl Iterator<Item = usize> {
    let end = bytes.len();
    (0..=end + 2).chain([usize::MAX / 2, usize::MAX - 1, usize::MAX])
}

/// Calls `try_one` with every string of `length` telling bytes.
pub fn every_telling(length: usize, try_one: &mut impl FnMut(&[u8])) {
    let mut bytes = Vec::with_capacity(length);
    extend(&mut bytes, length, try_one);
}

fn extend(bytes: &mut Vec<u8>, length: usize, try_one: &mut impl FnMut(&[u8])) {
    if bytes.len() == length {
        return try_one(bytes);
    }
    for byte in TELLING {
        bytes.push(byte);
        extend(bytes, length, try_one);
        bytes.pop();
    }
}
