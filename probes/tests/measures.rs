//! Measures: sums of coefficient times shared value.

use probes::conditions::{measure, Shared};
use probes::expected::conditions::{present, shared};
use probes::{extremes, farthest, COEFFICIENTS, VALUES};
use second::limits::MEASURES_MOST;
use second::random::Random;
use second::record::Opening;

const OPENINGS: u64 = 100_000;
const FIRST_SEED: u64 = 6_000_000;
const MEASURE_MOST: i64 = 800_000_000;

/// What every measure comes to. Fails unless both implementations say the same.
fn hold_together(seed: u64, opening: &Opening) -> [i64; MEASURES_MOST] {
    let shared = shared(opening);
    let right = present(opening);
    for (number, value) in right.iter().enumerate() {
        let answer = measure(&shared, number);
        assert_eq!(answer, *value, "seed {seed}, measure {number}, {opening:?}");
    }
    right
}

#[test]
fn eight_values_of_a_million_with_coefficients_100() {
    for (coefficient, value, sum) in [
        (100, 1_000_000, MEASURE_MOST),
        (-100, 1_000_000, -MEASURE_MOST),
        (100, -1_000_000, -MEASURE_MOST),
        (-100, -1_000_000, MEASURE_MOST),
        (0, 1_000_000, 0),
        (100, 0, 0),
    ] {
        let shared = Shared {
            coefficients: [coefficient; COEFFICIENTS],
            values: [value; VALUES],
        };
        for number in 0..MEASURES_MOST {
            assert_eq!(measure(&shared, number), sum);
        }
    }
}

#[test]
fn each_coefficient_is_of_its_measure_and_its_variable() {
    for slot in 0..COEFFICIENTS {
        let mut shared = Shared {
            coefficients: [0; COEFFICIENTS],
            values: [1, 10, 100, 1_000, 10_000, 100_000, 1_000_000, -7],
        };
        shared.coefficients[slot] = -100;
        for number in 0..MEASURES_MOST {
            let its_own = slot / VALUES == number;
            let right = if its_own {
                shared.values[slot % VALUES] * -100
            } else {
                0
            };
            assert_eq!(measure(&shared, number), right);
        }
    }
}

#[test]
fn a_measure_past_the_last_is_0() {
    let shared = shared(&farthest::opening(&mut Random::new(0), MEASURES_MOST));
    for number in (MEASURES_MOST..1_000).chain([usize::MAX / 8, usize::MAX - 1, usize::MAX]) {
        assert_eq!(measure(&shared, number), 0);
    }
}

#[test]
fn random_openings() {
    let mut zeros = 0;
    let mut negative = 0;
    let mut positive = 0;
    for seed in FIRST_SEED..FIRST_SEED + OPENINGS {
        let mut random = Random::new(seed);
        let measure_count = 1 + random.below(MEASURES_MOST);
        let opening = extremes::opening(&mut random, measure_count);
        for value in hold_together(seed, &opening) {
            match value.signum() {
                0 => zeros += 1,
                1 => positive += 1,
                _ => negative += 1,
            }
        }
    }
    let met = [zeros, negative, positive];
    assert!(met.iter().all(|times| *times > OPENINGS), "{met:?}");
}

#[test]
fn sums_as_far_from_0_as_they_go() {
    let mut met = [0; 2];
    for seed in FIRST_SEED..FIRST_SEED + OPENINGS / 10 {
        let mut random = Random::new(seed);
        let opening = farthest::opening(&mut random, MEASURES_MOST);
        for value in hold_together(seed, &opening) {
            assert_eq!(value.abs(), MEASURE_MOST);
            met[usize::from(value > 0)] += 1;
        }
    }
    assert!(met.iter().all(|times| *times > OPENINGS / 10), "{met:?}");
}
