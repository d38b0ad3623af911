//! Numbers as groups of seven bits, and the signed mapping.

use second::number::{from_signed, read, to_signed, write};
use second::refusal::Refusal;

fn written(number: u32) -> Vec<u8> {
    let mut bytes = Vec::new();
    write(number, &mut bytes);
    bytes
}

#[test]
fn board_examples() {
    assert_eq!(read(&[128, 1]), Ok((128, 2)));
    assert_eq!(read(&[129, 0]), Err(Refusal::NumberForm));
    assert_eq!(read(&[255, 255, 255, 255, 15]), Ok((4_294_967_295, 5)));
    assert_eq!(read(&[255, 255, 255, 255, 16]), Err(Refusal::NumberForm));
    assert_eq!(to_signed(95), -48);
    assert_eq!(to_signed(96), 48);
    assert_eq!(to_signed(1), -1);
    assert_eq!(to_signed(0), 0);
}

#[test]
fn single_bytes_are_themselves() {
    for byte in 0..128 {
        assert_eq!(read(&[byte]), Ok((u32::from(byte), 1)));
    }
}

#[test]
fn lengths_change_at_the_powers_of_128() {
    for (number, length) in [
        (127, 1),
        (128, 2),
        (16_383, 2),
        (16_384, 3),
        (2_097_151, 3),
        (2_097_152, 4),
        (268_435_455, 4),
        (268_435_456, 5),
        (u32::MAX, 5),
    ] {
        assert_eq!(written(number).len(), length);
        assert_eq!(read(&written(number)), Ok((number, length)));
    }
}

#[test]
fn written_numbers_read_back() {
    for number in (0..70_000).chain((0..u32::MAX - 40_000).step_by(39_989)) {
        let bytes = written(number);
        assert_eq!(read(&bytes), Ok((number, bytes.len())));
    }
}

#[test]
fn bytes_after_the_number_are_not_looked_at() {
    assert_eq!(read(&[5, 255, 255]), Ok((5, 1)));
    assert_eq!(read(&[128, 1, 0, 128]), Ok((128, 2)));
    assert_eq!(read(&[255, 255, 255, 255, 15, 128]), Ok((u32::MAX, 5)));
}

#[test]
fn an_end_inside_the_number_is_refusal_1() {
    for length in 0..=4 {
        let bytes = &[200, 129, 128, 255][..length];
        assert_eq!(read(bytes), Err(Refusal::BytesEnd));
    }
}

#[test]
fn a_last_group_of_0_is_refusal_2_at_every_length() {
    assert_eq!(read(&[0]), Ok((0, 1)));
    for groups in 2..=5 {
        let mut bytes = vec![129; groups];
        bytes[groups - 1] = 0;
        assert_eq!(read(&bytes), Err(Refusal::NumberForm));
    }
}

#[test]
fn a_group_of_0_before_the_last_is_allowed() {
    assert_eq!(read(&[128, 128, 1]), Ok((16_384, 3)));
    assert_eq!(read(&[128, 128, 128, 128, 1]), Ok((268_435_456, 5)));
}

#[test]
fn a_fifth_byte_of_16_or_more_is_refusal_2_whatever_follows() {
    for fifth in 1..=255 {
        let answer = read(&[128, 128, 128, 128, fifth]);
        if fifth < 16 {
            assert_eq!(answer, Ok((u32::from(fifth) << 28, 5)));
        } else {
            assert_eq!(answer, Err(Refusal::NumberForm));
            assert_eq!(read(&[128, 128, 128, 128, fifth, 1]), answer);
        }
    }
}

#[test]
fn signed_mapping_is_exact_at_both_ends() {
    assert_eq!(to_signed(u32::MAX), -2_147_483_648);
    assert_eq!(to_signed(u32::MAX - 1), 2_147_483_647);
    assert_eq!(from_signed(-2_147_483_648), u32::MAX);
    assert_eq!(from_signed(2_147_483_647), u32::MAX - 1);
    assert_eq!(from_signed(1_000_000), 2_000_000);
    assert_eq!(from_signed(-1_000_000), 1_999_999);
}

#[test]
fn signed_mapping_is_one_to_one() {
    for value in (-3_000..3_000).chain([-1_000_000, 1_000_000, -100, 100]) {
        assert_eq!(to_signed(from_signed(value)), value);
    }
    for number in 0..6_000 {
        assert_eq!(from_signed(to_signed(number)), number);
    }
}
