//! Records with one mistake, of every kind that refusals 1 to 4 name, in every field.

use crate::number;
use crate::refusal::Refusal;
use crate::write::{bytes_of, Field};

#[derive(Clone, Debug, PartialEq, Eq)]
pub struct Spoiled {
    pub bytes: Vec<u8>,
    pub refusal: Refusal,
    pub field: &'static str,
}

/// Every spoiling of the record with these fields; the other fields are kept, so that the
/// refusal is the one of the spoiled field.
pub fn every_spoiling(fields: &[Field]) -> Vec<Spoiled> {
    let mut all = Vec::new();
    for (place, field) in fields.iter().enumerate() {
        let before = bytes_of(&fields[..place]);
        let after = bytes_of(&fields[place + 1..]);
        for (form, refusal) in wrong_forms(field) {
            all.push(Spoiled {
                bytes: [before.as_slice(), &form, &after].concat(),
                refusal,
                field: field.name,
            });
        }
        for cut in cuts(field) {
            all.push(Spoiled {
                bytes: [before.as_slice(), &cut].concat(),
                refusal: Refusal::BytesEnd,
                field: field.name,
            });
        }
    }
    // A record cut to nothing is not a record with a mistake.
    all.retain(|spoiled| !spoiled.bytes.is_empty());
    all
}

fn wrong_forms(field: &Field) -> Vec<(Vec<u8>, Refusal)> {
    let mut forms = Vec::new();
    let mut outside = vec![field.most + 1, field.most + 2, u32::MAX];
    if field.least > 0 {
        outside.push(field.least - 1);
    }
    for number in outside {
        forms.push((written(number), field.refusal));
        forms.push((with_zero_group(number), Refusal::NumberForm));
    }
    forms.push((with_zero_group(field.number), Refusal::NumberForm));
    for fifth in [16, 17, 127, 128, 255] {
        forms.push((vec![128, 128, 128, 128, fifth], Refusal::NumberForm));
    }
    forms
}

fn written(number: u32) -> Vec<u8> {
    let mut bytes = Vec::new();
    number::write(number, &mut bytes);
    bytes
}

/// The number with one more group, which is 0; at five groups the last is made 0 instead.
fn with_zero_group(number: u32) -> Vec<u8> {
    let mut bytes = written(number);
    if bytes.len() == 5 {
        bytes.pop();
    } else {
        let last = bytes.len() - 1;
        bytes[last] += 128;
    }
    bytes.push(0);
    bytes
}

fn cuts(field: &Field) -> Vec<Vec<u8>> {
    let whole = written(field.number);
    let mut cuts: Vec<Vec<u8>> = (0..whole.len())
        .map(|length| whole[..length].to_vec())
        .collect();
    cuts.push(vec![128, 128, 128, 128]);
    cuts
}
