//! Signed numbers: the mapping, and fields at most so far from 0.

use probes::expected::{self, signed_got, signed_refused};
use probes::strings::{every_telling, places, short};
use probes::{signed, signed_of};
use second::number::{from_signed, to_signed, write};
use second::random::Random;

const STRINGS: u64 = 200_000;
const FIRST_SEED: u64 = 2_000_000;

const RANGES: [u64; 9] = [
    0,
    1,
    63,
    64,
    100,
    1_000_000,
    2_147_483_647,
    2_147_483_648,
    u64::MAX,
];

fn written(value: i64) -> Vec<u8> {
    let mut bytes = Vec::new();
    write(from_signed(value), &mut bytes);
    bytes
}

#[test]
fn board_examples() {
    for (n, value) in [(95, -48), (96, 48), (1, -1), (0, 0)] {
        assert_eq!(signed_of(n), value);
        assert_eq!(signed(&[n as u8], 0, 1_000_000), signed_got(value, 1));
    }
}

#[test]
fn the_mapping_is_exact_at_both_ends() {
    for (n, value) in [
        (u64::MAX, i64::MIN),
        (u64::MAX - 1, i64::MAX),
        (u64::MAX - 2, i64::MIN + 1),
        (u64::MAX - 3, i64::MAX - 1),
        (1 << 63, 1 << 62),
        ((1 << 63) - 1, -(1 << 62)),
        ((1 << 63) + 1, -(1 << 62) - 1),
        (4_294_967_295, -2_147_483_648),
        (4_294_967_294, 2_147_483_647),
        (2_000_000, 1_000_000),
        (1_999_999, -1_000_000),
    ] {
        assert_eq!(signed_of(n), value, "{n}");
    }
}

/// As document 01 writes them: twice the number, or minus twice the number, minus 1.
fn number_of(value: i64) -> i128 {
    let value = i128::from(value);
    if value >= 0 {
        2 * value
    } else {
        -2 * value - 1
    }
}

#[test]
fn the_mapping_can_be_undone() {
    for seed in FIRST_SEED..FIRST_SEED + STRINGS {
        let mut random = Random::new(seed);
        let n = random.bits() >> random.below(64);
        assert_eq!(number_of(signed_of(n)), i128::from(n), "seed {seed}");
        let small = n as u32;
        assert_eq!(signed_of(u64::from(small)), to_signed(small), "seed {seed}");
    }
}

#[test]
fn a_range_has_both_its_ends() {
    for most in [1, 63, 64, 100, 1_000_000, 2_147_483_647] {
        let limit = most as u64;
        for value in [most, -most, most - 1, 1 - most] {
            let bytes = written(value);
            assert_eq!(signed(&bytes, 0, limit), signed_got(value, bytes.len()));
        }
        assert_eq!(signed(&written(-most - 1), 0, limit), signed_refused(4));
        if most < 2_147_483_647 {
            assert_eq!(signed(&written(most + 1), 0, limit), signed_refused(4));
        }
    }
}

#[test]
fn values_and_coefficients() {
    assert_eq!(
        signed(&[0x80, 0x89, 0x7A], 0, 1_000_000),
        signed_got(1_000_000, 3)
    );
    assert_eq!(
        signed(&[0xFF, 0x88, 0x7A], 0, 1_000_000),
        signed_got(-1_000_000, 3)
    );
    assert_eq!(signed(&[0x82, 0x89, 0x7A], 0, 1_000_000), signed_refused(4));
    assert_eq!(signed(&[0x81, 0x89, 0x7A], 0, 1_000_000), signed_refused(4));
    assert_eq!(signed(&[200, 1], 0, 100), signed_got(100, 2));
    assert_eq!(signed(&[199, 1], 0, 100), signed_got(-100, 2));
    assert_eq!(signed(&[202, 1], 0, 100), signed_refused(4));
    assert_eq!(signed(&[201, 1], 0, 100), signed_refused(4));
}

#[test]
fn bytes_are_judged_before_the_range() {
    assert_eq!(signed(&[202], 0, 100), signed_refused(1));
    assert_eq!(signed(&[202, 129, 0], 0, 100), signed_refused(2));
    assert_eq!(signed(&[128, 128, 128, 128, 16], 0, 100), signed_refused(2));
}

#[test]
fn every_string_of_up_to_five_telling_bytes() {
    for length in 0..=5 {
        every_telling(length, &mut |bytes| {
            for most in RANGES {
                let right = expected::signed(bytes, 0, most);
                assert_eq!(signed(bytes, 0, most), right, "most {most}, {bytes:?}");
            }
        });
    }
}

#[test]
fn random_strings_from_every_place() {
    let mut seen = [0; 5];
    for seed in FIRST_SEED..FIRST_SEED + STRINGS {
        let mut random = Random::new(seed);
        let bytes = short(&mut random);
        for at in places(&bytes) {
            let most = random.pick(&RANGES);
            let answer = signed(&bytes, at, most);
            let right = expected::signed(&bytes, at, most);
            assert_eq!(
                answer, right,
                "seed {seed}, place {at}, most {most}, bytes {bytes:?}"
            );
            seen[usize::from(answer.refusal)] += 1;
        }
    }
    let all = [seen[0], seen[1], seen[2], seen[4]];
    assert!(all.iter().all(|times| *times > STRINGS / 10), "{seen:?}");
}
