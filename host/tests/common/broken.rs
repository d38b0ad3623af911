//! Records with one thing wrong.

use second::number;
use second::random::Random;
use second::write::{bytes_of, Field};

/// A record cut short, with a number badly written or out of its range, or with any one byte
/// changed. It may be a sound record all the same.
pub fn broken(random: &mut Random, fields: &[Field]) -> Vec<u8> {
    let place = random.below(fields.len());
    let field = &fields[place];
    let form = match random.below(6) {
        0 => return cut(random, bytes_of(fields)),
        1 => return one_byte_changed(random, bytes_of(fields)),
        2 => with_zero_group(field.number),
        3 => {
            let fifth = random.pick(&[16, 17, 127, 128, 255]);
            vec![128 + random.below(128) as u8, 128, 255, 128, fifth]
        }
        _ => written(outside(random, field)),
    };
    let before = bytes_of(&fields[..place]);
    let after = bytes_of(&fields[place + 1..]);
    [before, form, after].concat()
}

fn cut(random: &mut Random, mut bytes: Vec<u8>) -> Vec<u8> {
    bytes.truncate(1 + random.below(bytes.len() - 1));
    bytes
}

fn one_byte_changed(random: &mut Random, mut bytes: Vec<u8>) -> Vec<u8> {
    let place = random.below(bytes.len());
    bytes[place] = match random.below(3) {
        0 => bytes[place].wrapping_add(1),
        1 => bytes[place].wrapping_sub(1),
        _ => random.byte(),
    };
    bytes
}

fn outside(random: &mut Random, field: &Field) -> u32 {
    match field.least > 0 && random.once_in(3) {
        true => field.least - 1,
        false => random.pick(&[field.most + 1, field.most + 2, u32::MAX]),
    }
}

fn written(number: u32) -> Vec<u8> {
    let mut bytes = Vec::new();
    number::write(number, &mut bytes);
    bytes
}

/// The number with one more group, which is 0.
fn with_zero_group(number: u32) -> Vec<u8> {
    let mut bytes = written(number);
    if let Some(last) = bytes.last_mut() {
        *last += 128;
    }
    bytes.push(0);
    bytes
}
