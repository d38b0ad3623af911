//! Openings: what they answer and what they leave in the host's room, for both implementations.

mod common;

use common::pair::Pair;
use common::stock::{Keys, Stock};
use second::limits::{COEFFICIENT_MOST, MEASURES_MOST, VALUE_MOST, VARIABLES};
use second::random::Random;
use second::record::Opening;
use second::spoil::every_spoiling;
use second::write;

const FIRST_SEED: u64 = 70_000_000;

fn at_the_ends(count: usize) -> Opening {
    Opening {
        measures: vec![[-COEFFICIENT_MOST; VARIABLES]; count],
        values: [VALUE_MOST; VARIABLES],
    }
}

/// True if both make a room of it, false if both refuse it alike; `Pair` compares the rest.
fn opens(bytes: &[u8]) -> bool {
    match Pair::open(bytes) {
        Ok(pair) => pair.is_some(),
        Err(difference) => panic!("{bytes:?}: {difference}"),
    }
}

#[test]
fn sound_openings() {
    for count in 1..=MEASURES_MOST {
        assert!(opens(&write::opening(&at_the_ends(count))));
    }
    for seed in FIRST_SEED..FIRST_SEED + 200 {
        let mut random = Random::new(seed);
        let keys = random.pick(&[Keys::Near, Keys::Far]);
        let stock = Stock::new(&mut random, keys, false, false);
        let mut bytes = write::opening(&stock.opening);
        assert!(opens(&bytes));
        // What follows is not the opening's.
        bytes.extend([255, 255, 0]);
        assert!(opens(&bytes));
    }
}

/// Each mistake in each field; every number of the host's room is 0 then.
#[test]
fn spoiled_openings() {
    for count in [1, 3, MEASURES_MOST] {
        let fields = write::opening_fields(&at_the_ends(count));
        for spoiled in every_spoiling(&fields) {
            assert!(!opens(&spoiled.bytes), "{spoiled:?}");
        }
    }
    assert!(!opens(&[]));
}

/// A sound opening cut short anywhere.
#[test]
fn openings_that_end_too_soon() {
    let bytes = write::opening(&at_the_ends(4));
    for length in 0..bytes.len() {
        assert!(!opens(&bytes[..length]));
    }
}
