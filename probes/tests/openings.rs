//! Openings, and what the lent slots hold after them.

use probes::expected::{self, got, refused, Opened};
use probes::extremes;
use probes::strings::short;
use probes::{opening, COEFFICIENTS, VALUES};
use second::limits::{MEASURES_MOST, VARIABLES};
use second::random::Random;
use second::record::Opening;
use second::spoil::every_spoiling;
use second::write;

const STRINGS: u64 = 250_000;
const FIRST_SEED: u64 = 3_000_000;
/// Openings of each measure count.
const OPENINGS: u64 = 12;

/// The proved reader's answer and slots. The slots hold anything before the call.
fn opened(random: &mut Random, bytes: &[u8], at: usize) -> Opened {
    let mut coefficients = [0; COEFFICIENTS];
    let mut values = [0; VALUES];
    for slot in coefficients.iter_mut().chain(&mut values) {
        *slot = random.bits() as i64;
    }
    let answer = opening(bytes, at, &mut coefficients, &mut values);
    Opened {
        answer,
        coefficients,
        values,
    }
}

fn refused_opening(refusal: u8) -> Opened {
    Opened {
        answer: refused(refusal),
        coefficients: [0; COEFFICIENTS],
        values: [0; VALUES],
    }
}

/// Calls `try_one` with openings of every measure count.
fn for_openings(mut try_one: impl FnMut(u64, &mut Random, &Opening)) {
    for measure_count in 1..=MEASURES_MOST {
        for round in 0..OPENINGS {
            let seed = FIRST_SEED + measure_count as u64 * OPENINGS + round;
            let mut random = Random::new(seed);
            let opening = extremes::opening(&mut random, measure_count);
            try_one(seed, &mut random, &opening);
        }
    }
}

fn hold_together(seed: u64, random: &mut Random, bytes: &[u8], at: usize) -> Opened {
    let answer = opened(random, bytes, at);
    let right = expected::opening(bytes, at);
    assert_eq!(answer, right, "seed {seed}, place {at}, bytes {bytes:?}");
    answer
}

#[test]
fn the_opening_of_the_whole_run() {
    let bytes = [1, 2, 0, 0, 0, 0, 0, 0, 0, 0, 0, 0, 0, 0, 0, 0, 0];
    let mut right = refused_opening(0);
    right.answer = got(1, 17);
    right.coefficients[0] = 1;
    assert_eq!(opened(&mut Random::new(0), &bytes, 0), right);
}

#[test]
fn no_bytes_are_refusal_1() {
    let mut random = Random::new(0);
    assert_eq!(opened(&mut random, &[], 0), refused_opening(1));
    for at in [3, 4, 1000, usize::MAX] {
        assert_eq!(opened(&mut random, &[1, 0, 0], at), refused_opening(1));
    }
}

#[test]
fn measure_counts_other_than_1_to_16_are_refusal_4() {
    let mut bytes = [0; 1 + 17 * VARIABLES + VARIABLES];
    for count in (0..=0).chain(17..128) {
        bytes[0] = count;
        assert_eq!(opened(&mut Random::new(0), &bytes, 0), refused_opening(4));
    }
}

#[test]
fn what_was_written_is_read() {
    for_openings(|seed, random, opening| {
        let bytes = write::opening(opening);
        let answer = hold_together(seed, random, &bytes, 0);
        assert_eq!(
            answer.answer,
            got(opening.measures.len() as u64, bytes.len())
        );
        let (used, unused) = answer
            .coefficients
            .split_at(opening.measures.len() * VARIABLES);
        assert_eq!(used, opening.measures.concat(), "seed {seed}");
        assert!(unused.iter().all(|slot| *slot == 0), "seed {seed}");
        assert_eq!(answer.values, opening.values, "seed {seed}");
    });
}

#[test]
fn bytes_before_and_after_are_not_looked_at() {
    for_openings(|seed, random, opening| {
        for _ in 0..20 {
            let (before, after) = (short(random), short(random));
            let bytes = [before, write::opening(opening), after].concat();
            for at in 0..=bytes.len() {
                hold_together(seed, random, &bytes, at);
            }
        }
    });
}

#[test]
fn cut_anywhere_is_refusal_1() {
    for_openings(|seed, random, opening| {
        let bytes = write::opening(opening);
        for length in 0..bytes.len() {
            let answer = hold_together(seed, random, &bytes[..length], 0);
            assert_eq!(answer, refused_opening(1), "seed {seed}, {length} bytes");
        }
    });
}

#[test]
fn every_spoiling_of_every_field() {
    for_openings(|seed, random, opening| {
        for spoiled in every_spoiling(&write::opening_fields(opening)) {
            let answer = hold_together(seed, random, &spoiled.bytes, 0);
            let refusal = spoiled.refusal.number();
            assert_eq!(answer, refused_opening(refusal), "seed {seed}, {spoiled:?}");
            let before = short(random);
            let bytes = [before.as_slice(), &spoiled.bytes, &short(random)].concat();
            hold_together(seed, random, &bytes, before.len());
        }
    });
}

#[test]
fn random_strings_from_a_few_places() {
    let mut seen = [0; 5];
    for seed in FIRST_SEED..FIRST_SEED + STRINGS {
        let mut random = Random::new(seed);
        let mut bytes = short(&mut random);
        let at = random.below(4);
        if let Some(count) = bytes.get_mut(at) {
            *count = random.below(4) as u8;
        }
        for at in [at, at + 1, bytes.len(), bytes.len() + 1] {
            let answer = hold_together(seed, &mut random, &bytes, at);
            seen[usize::from(answer.answer.refusal)] += 1;
        }
    }
    let all = [seen[0], seen[1], seen[2], seen[4]];
    assert!(all.iter().all(|times| *times > STRINGS / 100), "{seen:?}");
}
