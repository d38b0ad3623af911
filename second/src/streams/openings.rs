//! Openings with small numbers.

use crate::limits::{MEASURES_MOST, VARIABLES};
use crate::random::Random;
use crate::record::Opening;

/// Fewer measures in short streams, so that events have room; now and then 16 all the same.
pub fn measure_count(random: &mut Random, size: usize) -> usize {
    if random.once_in(16) {
        return MEASURES_MOST;
    }
    let most = (size / 64).clamp(1, MEASURES_MOST);
    1 + random.below(most)
}

/// A few small coefficients on the variables below `variables`; none at all now and then.
pub fn small_measure(random: &mut Random, variables: usize) -> [i64; VARIABLES] {
    let mut coefficients = [0; VARIABLES];
    for _ in 0..random.pick(&[0, 1, 1, 1, 1, 2, 2, 3]) {
        coefficients[random.below(variables)] = random.between(-2, 2);
    }
    coefficients
}

pub fn small(random: &mut Random, size: usize) -> Opening {
    let variables = 1 + random.below(VARIABLES);
    let mut measures: Vec<[i64; VARIABLES]> = Vec::new();
    for number in 0..measure_count(random, size) {
        // Two measures alike make ties that only the measure number decides.
        if number > 0 && random.once_in(4) {
            measures.push(measures[number - 1]);
        } else {
            measures.push(small_measure(random, variables));
        }
    }
    let mut values = [0; VARIABLES];
    for value in &mut values {
        *value = random.between(-3, 3);
    }
    Opening { measures, values }
}
