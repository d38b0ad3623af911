//! Numbers: groups of seven bits, lowest group first.

use probes::expected::{self, got, refused};
use probes::number;
use probes::strings::{every_telling, places, short};
use second::random::Random;

const STRINGS: u64 = 1_000_000;

fn written(number: u32) -> Vec<u8> {
    let mut bytes = Vec::new();
    second::number::write(number, &mut bytes);
    bytes
}

#[test]
fn board_examples() {
    assert_eq!(number(&[128, 1], 0), got(128, 2));
    assert_eq!(number(&[129, 0], 0), refused(2));
    assert_eq!(number(&[255, 255, 255, 255, 15], 0), got(4_294_967_295, 5));
    assert_eq!(number(&[255, 255, 255, 255, 16], 0), refused(2));
}

#[test]
fn edges_of_every_length() {
    for (value, length) in [
        (0, 1),
        (1, 1),
        (127, 1),
        (128, 2),
        (16_383, 2),
        (16_384, 3),
        (2_097_151, 3),
        (2_097_152, 4),
        (2_097_153, 4),
        (268_435_455, 4),
        (268_435_456, 5),
        (268_435_457, 5),
        (4_294_967_294, 5),
        (4_294_967_295, 5),
    ] {
        let bytes = written(value);
        assert_eq!(number(&bytes, 0), got(u64::from(value), length));
        let with_more = [&[255, 128], bytes.as_slice(), &[128, 0]].concat();
        assert_eq!(number(&with_more, 2), got(u64::from(value), 2 + length));
    }
}

#[test]
fn an_end_inside_is_refusal_1_wherever_it_is() {
    for length in 0..=4 {
        let bytes = &[255, 128, 129, 200][..length];
        for at in 0..=bytes.len() {
            assert_eq!(number(bytes, at), refused(1));
        }
    }
}

#[test]
fn a_place_past_the_end_is_refusal_1() {
    for bytes in [&[][..], &[5], &[128, 1], &[0; 40]] {
        for past in [0, 1, 2, 1000] {
            assert_eq!(number(bytes, bytes.len() + past), refused(1));
        }
        assert_eq!(number(bytes, usize::MAX), refused(1));
    }
}

#[test]
fn a_last_group_of_0_is_refusal_2_after_others() {
    assert_eq!(number(&[0], 0), got(0, 1));
    for groups in 2..=5 {
        for other in [128, 129, 255] {
            let mut bytes = vec![other; groups];
            bytes[groups - 1] = 0;
            assert_eq!(number(&bytes, 0), refused(2));
        }
    }
}

#[test]
fn a_fifth_byte_of_16_or_more_is_refusal_2_whatever_follows() {
    for fifth in 0..=255 {
        let answer = match fifth {
            0 => refused(2),
            1..=15 => got(u64::from(fifth) << 28, 5),
            _ => refused(2),
        };
        assert_eq!(number(&[128, 128, 128, 128, fifth], 0), answer);
        for sixth in [0, 1, 128, 255] {
            assert_eq!(number(&[128, 128, 128, 128, fifth, sixth], 0), answer);
        }
    }
}

#[test]
fn every_string_of_one_or_two_bytes() {
    for first in 0..=255 {
        assert_eq!(number(&[first], 0), expected::number(&[first], 0));
        for second in 0..=255 {
            let bytes = [first, second];
            assert_eq!(number(&bytes, 0), expected::number(&bytes, 0), "{bytes:?}");
        }
    }
}

#[test]
fn every_string_of_up_to_five_telling_bytes() {
    for length in 0..=5 {
        every_telling(length, &mut |bytes| {
            assert_eq!(number(bytes, 0), expected::number(bytes, 0), "{bytes:?}");
        });
    }
}

#[test]
fn random_strings_from_every_place() {
    let mut seen = [0; 3];
    for seed in 0..STRINGS {
        let bytes = short(&mut Random::new(seed));
        for at in places(&bytes) {
            let answer = number(&bytes, at);
            let right = expected::number(&bytes, at);
            assert_eq!(answer, right, "seed {seed}, place {at}, bytes {bytes:?}");
            seen[usize::from(answer.refusal)] += 1;
        }
    }
    assert!(seen.iter().all(|times| *times > STRINGS / 10), "{seen:?}");
}
