//! Openings and events: what is read, and refusals 1 to 4 in field order.

mod common;

use common::{board_opening, join, Host};
use second::closure::{WrittenAtom, WrittenCondition};
use second::condition::Operator;
use second::record::{read_event, read_opening, Event, Opening};
use second::refusal::Refusal;
use second::report::Report;
use second::room::Room;
use second::spoil::every_spoiling;
use second::write;

fn extreme_opening(measure_count: usize) -> Opening {
    Opening {
        measures: vec![[100, -100, 0, 99, -99, 1, -1, 100]; measure_count],
        values: [1_000_000, -1_000_000, 0, 999_999, -999_999, 1, -1, 64],
    }
}

fn every_field_wait() -> Event {
    let atom = |measure, operator, constant| WrittenAtom {
        measure,
        operator,
        coefficients: [100, -100, 0, 1],
        constant,
    };
    Event::Wait {
        job: 31,
        condition: WrittenCondition {
            locals: [1_000_000, -1_000_000, 0, -1],
            alternatives: vec![
                vec![atom(0, Operator::Equal, 1_000_000)],
                vec![
                    atom(2, Operator::NotEqual, -1_000_000),
                    atom(1, Operator::Less, 0),
                    atom(1, Operator::LessOrEqual, 5),
                    atom(0, Operator::Greater, -5),
                ],
                vec![atom(2, Operator::GreaterOrEqual, 63)],
                vec![atom(2, Operator::Equal, 64)],
            ],
        },
    }
}

fn one_of_each_event() -> Vec<Event> {
    vec![
        Event::Arrive { job: 0 },
        Event::Admit { job: 31 },
        Event::Set {
            job: 7,
            variable: 7,
            value: -1_000_000,
        },
        Event::Set {
            job: 7,
            variable: 0,
            value: 1_000_000,
        },
        every_field_wait(),
        Event::Leave { job: 16 },
    ]
}

#[test]
fn written_openings_read_back() {
    for measure_count in 1..=16 {
        let opening = extreme_opening(measure_count);
        let mut bytes = write::opening(&opening);
        let length = bytes.len();
        assert_eq!(read_opening(&bytes), Ok((opening.clone(), length)));
        bytes.extend([255, 255, 255]);
        assert_eq!(read_opening(&bytes), Ok((opening, length)));
    }
}

#[test]
fn written_events_read_back() {
    for event in one_of_each_event() {
        let mut bytes = write::event(&event, 3);
        let length = bytes.len();
        assert_eq!(read_event(&bytes, 3), Ok((event.clone(), length)));
        bytes.extend([255, 255, 255]);
        assert_eq!(read_event(&bytes, 3), Ok((event, length)));
    }
}

#[test]
fn every_spoiled_opening_has_its_refusal() {
    for measure_count in [1, 3, 16] {
        for spoiled in every_spoiling(&write::opening_fields(&extreme_opening(measure_count))) {
            assert_eq!(
                read_opening(&spoiled.bytes),
                Err(spoiled.refusal),
                "{:?}",
                spoiled
            );
            assert_eq!(Room::open(&spoiled.bytes), Err(spoiled.refusal));
        }
    }
}

#[test]
fn every_spoiled_event_has_its_refusal_and_changes_nothing() {
    let mut host = Host::board(1, 2);
    host.enter(31);
    for event in one_of_each_event() {
        for spoiled in every_spoiling(&write::event_fields(&event, 3)) {
            host.expect_refusal(&spoiled.bytes, spoiled.refusal, 0);
        }
    }
}

#[test]
fn spoilings_reach_every_kind_of_field() {
    let mut seen: Vec<(&str, u8)> = Vec::new();
    for event in one_of_each_event() {
        for spoiled in every_spoiling(&write::event_fields(&event, 3)) {
            seen.push((spoiled.field, spoiled.refusal.number()));
        }
    }
    for field in [
        "job",
        "variable",
        "value",
        "local value",
        "alternative count",
        "atom count",
        "measure",
        "coefficient",
        "constant",
    ] {
        for refusal in [1, 2, 4] {
            assert!(seen.contains(&(field, refusal)), "{} {}", field, refusal);
        }
    }
    for field in ["kind", "operator"] {
        for refusal in [1, 2, 3] {
            assert!(seen.contains(&(field, refusal)), "{} {}", field, refusal);
        }
    }
}

#[test]
fn no_bytes_for_an_opening_is_refusal_1() {
    assert_eq!(Room::open(&[]), Err(Refusal::BytesEnd));
}

#[test]
fn no_bytes_for_an_event_means_that_none_is_left() {
    let mut host = Host::board(0, 0);
    host.enter(3);
    let (room, tally) = (host.room.clone(), host.tally);
    assert_eq!(host.bytes(&[]), Report::none_left());
    assert_eq!((host.room, host.tally), (room, tally));
}

#[test]
fn measure_counts_0_and_17_are_refusal_4() {
    assert_eq!(read_opening(&[0]), Err(Refusal::OutOfRange));
    assert_eq!(read_opening(&[17]), Err(Refusal::OutOfRange));
    let mut bytes = vec![0; 1 + 17 * 8 + 8];
    assert_eq!(read_opening(&bytes), Err(Refusal::OutOfRange));
    bytes[0] = 17;
    assert_eq!(read_opening(&bytes), Err(Refusal::OutOfRange));
    bytes[0] = 16;
    assert_eq!(
        read_opening(&bytes).map(|(_, taken)| taken),
        Ok(1 + 16 * 8 + 8)
    );
}

#[test]
fn board_values_and_coefficients_out_of_range_are_refusal_4() {
    let mut opening = extreme_opening(1);
    opening.values[7] = 1_000_001;
    let refusal = Err(Refusal::OutOfRange);
    assert_eq!(read_opening(&write::opening(&opening)), refusal);
    opening.values[7] = -1_000_001;
    assert_eq!(read_opening(&write::opening(&opening)), refusal);
    opening.values[7] = 0;
    for coefficient in [101, -101] {
        opening.measures[0][3] = coefficient;
        assert_eq!(read_opening(&write::opening(&opening)), refusal);
    }
}

/// Number 2,000,001 is −1,000,001 and 2,000,002 is 1,000,001.
const VALUE_TOO_LOW: [u8; 3] = [0x81, 0x89, 0x7A];
const VALUE_TOO_HIGH: [u8; 3] = [0x82, 0x89, 0x7A];

#[test]
fn the_bytes_of_values_just_out_of_range_are_as_said() {
    for (bytes, number) in [(VALUE_TOO_LOW, 2_000_001), (VALUE_TOO_HIGH, 2_000_002)] {
        assert_eq!(second::number::read(&bytes), Ok((number, 3)));
    }
}

fn expect(bytes: &[u8], refusal: Refusal) {
    let mut host = Host::new(&board_opening(0, 0));
    host.enter(1);
    host.expect_refusal(bytes, refusal, 0);
}

#[test]
fn kinds_0_and_6_are_refusal_3_even_without_a_job() {
    for kind in [0, 6, 7, 127] {
        expect(&[kind], Refusal::UnknownKindOrOperator);
        expect(&[kind, 1], Refusal::UnknownKindOrOperator);
        expect(&[kind, 32], Refusal::UnknownKindOrOperator);
        expect(&[kind, 128, 0], Refusal::UnknownKindOrOperator);
    }
}

#[test]
fn bytes_are_judged_before_the_range() {
    expect(&[134], Refusal::BytesEnd);
    expect(&[134, 0], Refusal::NumberForm);
    expect(&[134, 1], Refusal::UnknownKindOrOperator);
    expect(&[1, 160], Refusal::BytesEnd);
    expect(&[1, 160, 0], Refusal::NumberForm);
    expect(&[1, 160, 1], Refusal::OutOfRange);
    expect(&[1, 255, 255, 255, 255], Refusal::BytesEnd);
    expect(&[1, 255, 255, 255, 255, 16], Refusal::NumberForm);
    expect(&[1, 255, 255, 255, 255, 15], Refusal::OutOfRange);
}

#[test]
fn every_kind_needs_a_job_below_32() {
    for kind in 1..=5 {
        expect(&[kind], Refusal::BytesEnd);
        expect(&[kind, 128], Refusal::BytesEnd);
        expect(&[kind, 32], Refusal::OutOfRange);
        expect(&[kind, 159, 0], Refusal::NumberForm);
    }
}

#[test]
fn set_stops_at_its_first_bad_field() {
    expect(&[3, 1], Refusal::BytesEnd);
    expect(&[3, 1, 7], Refusal::BytesEnd);
    expect(&[3, 1, 8], Refusal::OutOfRange);
    expect(&[3, 1, 8, 128, 0], Refusal::OutOfRange);
    expect(&[3, 32, 128, 0], Refusal::OutOfRange);
    expect(&[3, 1, 135, 0, 0], Refusal::NumberForm);
    expect(&join(&[&[3, 1, 0], &VALUE_TOO_LOW]), Refusal::OutOfRange);
    expect(&join(&[&[3, 1, 0], &VALUE_TOO_HIGH]), Refusal::OutOfRange);
    expect(&[3, 1, 0, 130, 137, 250, 0], Refusal::NumberForm);
    expect(&[3, 1, 0, 130, 137], Refusal::BytesEnd);
}

#[test]
fn wait_stops_at_its_first_bad_field() {
    let start = |more: &[u8]| join(&[&[4, 1, 0, 0, 0, 0], more]);
    expect(&[4, 1, 0, 0, 0], Refusal::BytesEnd);
    expect(
        &join(&[&[4, 1, 0, 0, 0], &VALUE_TOO_HIGH, &[9]]),
        Refusal::OutOfRange,
    );
    expect(&[4, 1, 0, 128, 0, 0], Refusal::NumberForm);
    expect(&start(&[]), Refusal::BytesEnd);
    expect(&start(&[0]), Refusal::OutOfRange);
    expect(&start(&[5]), Refusal::OutOfRange);
    expect(&start(&[1]), Refusal::BytesEnd);
    expect(&start(&[1, 0]), Refusal::OutOfRange);
    expect(&start(&[1, 5]), Refusal::OutOfRange);
    expect(&start(&[1, 1, 3]), Refusal::OutOfRange);
    expect(&start(&[1, 1, 3, 7]), Refusal::OutOfRange);
    expect(&start(&[1, 1, 2]), Refusal::BytesEnd);
    expect(&start(&[1, 1, 2, 0]), Refusal::UnknownKindOrOperator);
    expect(&start(&[1, 1, 2, 7]), Refusal::UnknownKindOrOperator);
    expect(
        &start(&[1, 1, 2, 7, 128, 0]),
        Refusal::UnknownKindOrOperator,
    );
    // 201 is −101 and 202 is 101.
    expect(&start(&[1, 1, 2, 6, 0, 0, 0, 201, 1]), Refusal::OutOfRange);
    expect(&start(&[1, 1, 2, 6, 202, 1, 128, 0]), Refusal::OutOfRange);
    expect(
        &start(&[1, 1, 2, 6, 200, 1, 199, 1, 0, 0]),
        Refusal::BytesEnd,
    );
    let constant = join(&[&[1, 1, 2, 6, 200, 1, 199, 1, 0, 0], &VALUE_TOO_LOW]);
    expect(&start(&constant), Refusal::OutOfRange);
}

#[test]
fn later_alternatives_and_atoms_are_read_in_their_turn() {
    let atom = [0, 1, 0, 0, 0, 0, 0];
    let start = |more: &[u8]| join(&[&[4, 1, 0, 0, 0, 0, 2, 1], &atom, more]);
    expect(&start(&[]), Refusal::BytesEnd);
    expect(&start(&[0]), Refusal::OutOfRange);
    expect(&start(&[5]), Refusal::OutOfRange);
    let second = |more: &[u8]| start(&join(&[&[2], &atom, more]));
    expect(&second(&[]), Refusal::BytesEnd);
    expect(&second(&[3, 1, 0, 0, 0, 0, 0]), Refusal::OutOfRange);
    expect(
        &second(&[0, 7, 0, 0, 0, 0, 0]),
        Refusal::UnknownKindOrOperator,
    );
    expect(&second(&[0, 6, 0, 0, 0, 0, 128]), Refusal::BytesEnd);
    assert!(read_event(&second(&[0, 6, 0, 0, 0, 0, 0]), 3).is_ok());
}

#[test]
fn a_measure_must_be_one_the_room_has() {
    let wait = |measure| [4, 1, 0, 0, 0, 0, 1, 1, measure, 1, 0, 0, 0, 0, 0];
    for measure_count in 1..=16 {
        let measures = measure_count as usize;
        assert!(read_event(&wait(measure_count - 1), measures).is_ok());
        let refusal = Err(Refusal::OutOfRange);
        assert_eq!(read_event(&wait(measure_count), measures), refusal);
    }
}

#[test]
fn fields_are_judged_before_the_standing() {
    let mut host = Host::board(0, 0);
    let set = join(&[&[3, 5, 0], &VALUE_TOO_HIGH]);
    host.expect_refusal(&set, Refusal::OutOfRange, 0);
    host.expect_refusal(&[3, 5, 0, 2], Refusal::WrongStanding, 4);
    host.expect_refusal(&[5], Refusal::BytesEnd, 0);
    host.expect_refusal(&[5, 5], Refusal::WrongStanding, 2);
}
