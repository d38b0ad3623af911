//! Fields: a number's bytes are judged first (refusal 1 or 2), then its range.

use probes::expected::{self, got, refused};
use probes::strings::{places, short};
use probes::{below, field};
use second::random::Random;

const STRINGS: u64 = 200_000;
const FIRST_SEED: u64 = 1_000_000;

#[test]
fn a_range_has_both_its_ends() {
    for (low, high) in [(0, 0), (1, 5), (1, 6), (1, 16), (0, 31), (16, 16), (0, 127)] {
        for value in 0..128 {
            let answer = if value < low || value > high {
                refused(4)
            } else {
                got(value, 1)
            };
            assert_eq!(field(&[value as u8], 0, 4, low, high), answer);
        }
    }
}

#[test]
fn every_refusal_is_handed_out_as_given() {
    for refusal in 0..=255 {
        assert_eq!(field(&[6], 0, refusal, 1, 5), refused(refusal));
        assert_eq!(field(&[5], 0, refusal, 1, 5), got(5, 1));
    }
}

#[test]
fn bytes_are_judged_before_the_range() {
    for refusal in [3, 4] {
        assert_eq!(field(&[134], 0, refusal, 1, 5), refused(1));
        assert_eq!(field(&[134, 0], 0, refusal, 1, 5), refused(2));
        assert_eq!(field(&[134, 1], 0, refusal, 1, 5), refused(refusal));
    }
    assert_eq!(below(&[160], 0, 32), refused(1));
    assert_eq!(below(&[160, 0], 0, 32), refused(2));
    assert_eq!(below(&[160, 1], 0, 32), refused(4));
}

#[test]
fn nothing_is_from_more_to_less() {
    for value in 0..=127 {
        assert_eq!(field(&[value], 0, 4, 1, 0), refused(4));
        assert_eq!(field(&[value], 0, 4, u64::MAX, 0), refused(4));
    }
}

#[test]
fn a_bound_is_not_below_itself() {
    for bound in 0..=127 {
        for value in 0..=127 {
            let answer = if value < bound {
                got(value, 1)
            } else {
                refused(4)
            };
            assert_eq!(below(&[value as u8], 0, bound), answer);
        }
    }
    let most = [255, 255, 255, 255, 15];
    assert_eq!(below(&most, 0, 4_294_967_295), refused(4));
    assert_eq!(below(&most, 0, 4_294_967_296), got(4_294_967_295, 5));
    assert_eq!(below(&most, 0, u64::MAX), got(4_294_967_295, 5));
}

/// A bound near the number that stands there, or one of the ends.
fn bound(random: &mut Random, number: u64) -> u64 {
    match random.below(8) {
        0 => random.pick(&[0, 1, 127, 128, 4_294_967_295, 4_294_967_296, u64::MAX]),
        1 => random.bits() >> random.below(64),
        _ => (number + random.bits() % 4).saturating_sub(2),
    }
}

#[test]
fn random_strings_and_ranges_from_every_place() {
    let mut seen = [0; 5];
    for seed in FIRST_SEED..FIRST_SEED + STRINGS {
        let mut random = Random::new(seed);
        let bytes = short(&mut random);
        for at in places(&bytes) {
            let number = expected::number(&bytes, at).value;
            let (low, high) = (bound(&mut random, number), bound(&mut random, number));
            let refusal = random.pick(&[3, 4]);
            let answer = field(&bytes, at, refusal, low, high);
            let right = expected::field(&bytes, at, refusal, low, high);
            let told = || format!("seed {seed}, place {at}, {low} to {high}, bytes {bytes:?}");
            assert_eq!(answer, right, "{}", told());
            seen[usize::from(answer.refusal)] += 1;
            let answer = below(&bytes, at, high);
            assert_eq!(answer, expected::below(&bytes, at, high), "{}", told());
            seen[usize::from(answer.refusal)] += 1;
        }
    }
    assert!(seen.iter().all(|times| *times > STRINGS / 10), "{seen:?}");
}
