//! Random bytes.

use crate::random::Random;
use crate::streams::openings;
use crate::write;

const LENGTH_MOST: usize = 80;

pub fn noise(mut random: Random, size: usize) -> Vec<u8> {
    let mut bytes = Vec::new();
    if random.once_in(2) {
        bytes = write::opening(&openings::small(&mut random, size));
    }
    // Small bytes come through more fields before one is refused.
    let small_most = random.pick(&[2, 6, 32, 256]);
    for _ in 0..random.below(LENGTH_MOST + 1) {
        if random.once_in(16) {
            bytes.push(random.byte());
        } else {
            bytes.push(random.below(small_most) as u8);
        }
    }
    bytes
}
