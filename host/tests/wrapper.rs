//! The safe wrapper: what it lets a host do, and that it says what the rooms say.

mod common;

use common::author::Author;
use common::board::{board, only, X, Y};
use common::compare::standing_number;
use common::stock::{Keys, Stock};
use harbour::{Outcome, Refusal, Report, Room, Standing, Tally, JOBS};
use second::closure::WrittenCondition;
use second::condition::Operator;
use second::random::Random;
use second::record::Event;
use second::spoil::every_spoiling;
use second::write;

const FIRST_SEED: u64 = 80_000_000;

/// "The program and one whole run": the opening, and the events.
const OPENING: [u8; 17] = [1, 2, 0, 0, 0, 0, 0, 0, 0, 0, 0, 0, 0, 0, 0, 0, 0];
const EVENTS: [&[u8]; 9] = [
    &[1, 0],
    &[2, 0],
    &[4, 0, 96, 0, 0, 0, 1, 1, 0, 6, 2, 0, 0, 0, 0],
    &[1, 1],
    &[2, 1],
    &[3, 1, 0, 100],
    &[5, 1],
    &[2, 0],
    &[5, 0],
];

fn opened(bytes: &[u8]) -> Room {
    let (room, taken) = Room::open(bytes).expect("a sound opening");
    assert_eq!(taken, bytes.len());
    room
}

fn report(outcome: Outcome, called: Option<u8>, evaluated: u64, taken: usize) -> Report {
    Report {
        outcome,
        called,
        evaluated,
        taken,
    }
}

#[test]
fn one_whole_run() {
    use Outcome::{Done, In, Waits};
    let mut room = opened(&OPENING);
    let mut tally = Tally::default();
    let right = [
        (Done, None, 0),
        (In, None, 0),
        (Waits, None, 0),
        (Done, None, 0),
        (In, None, 0),
        (Done, None, 0),
        (Done, Some(0), 1),
        (In, None, 0),
        (Done, None, 0),
    ];
    for (bytes, (outcome, called, evaluated)) in EVENTS.iter().zip(right) {
        let told = room.event(&mut tally, bytes);
        assert_eq!(told, report(outcome, called, evaluated, bytes.len()));
        assert_eq!(told.refusal(), None);
    }
    let right = Tally {
        events: 9,
        calls: 1,
        evaluated: 1,
        sent_back: 0,
    };
    assert_eq!(tally, right);
    assert_eq!(room.values(), &[50, 0, 0, 0, 0, 0, 0, 0]);
    assert_eq!(room.next_ticket(), 1);
}

/// One string of bytes for the opening and all events, as a stream has them.
#[test]
fn a_stream_is_read_by_what_each_record_takes() {
    let stream = [&OPENING[..], &EVENTS.concat()].concat();
    let (mut room, mut at) = Room::open(&stream).expect("a sound opening");
    let mut tally = Tally::default();
    loop {
        let report = room.event(&mut tally, &stream[at..]);
        if report.outcome == Outcome::NoneLeft {
            break;
        }
        assert!(report.taken > 0);
        at += report.taken;
    }
    assert_eq!((at, tally.events), (stream.len(), 9));
}

#[test]
fn a_refused_opening_gives_no_room() {
    assert_eq!(Room::open(&[]).unwrap_err(), Refusal::BytesEnd);
    assert_eq!(Room::open(&OPENING[..16]).unwrap_err(), Refusal::BytesEnd);
    assert_eq!(Room::open(&[129, 0]).unwrap_err(), Refusal::NumberForm);
    assert_eq!(Room::open(&[0]).unwrap_err(), Refusal::OutOfRange);
    assert_eq!(Room::open(&[17]).unwrap_err(), Refusal::OutOfRange);
    for spoiled in every_spoiling(&write::opening_fields(&board(3, -4))) {
        let refusal = Room::open(&spoiled.bytes).unwrap_err();
        assert_eq!(refusal.number(), spoiled.refusal.number(), "{spoiled:?}");
    }
}

#[test]
fn a_room_as_it_opens() {
    let opening = board(3, -4);
    let mut bytes = write::opening(&opening);
    let length = bytes.len();
    bytes.extend([1, 0]);
    let (room, taken) = Room::open(&bytes).expect("a sound opening");
    assert_eq!(taken, length);
    assert_eq!(room.values(), &opening.values);
    assert_eq!(room.measures(), &opening.measures[..]);
    assert_eq!(room.inside(), None);
    assert_eq!(room.next_ticket(), 0);
    assert!((0..=255).all(|job| room.standing(job) == Standing::Outside));
    assert_eq!((room.value(0), room.value(1)), (3, -4));
    assert!((8..=255).all(|variable| room.value(variable) == 0));
}

/// A wrapper, and what a test gives it.
struct Host {
    room: Room,
    tally: Tally,
}

impl Host {
    fn board(x: i64, y: i64) -> Host {
        Host {
            room: opened(&write::opening(&board(x, y))),
            tally: Tally::default(),
        }
    }

    fn give(&mut self, bytes: &[u8]) -> Report {
        self.room.event(&mut self.tally, bytes)
    }

    fn wait(&mut self, job: usize, measure: usize, operator: Operator, key: i64) -> Report {
        let condition = WrittenCondition::plain(&only(measure, operator, key));
        self.give(&write::event(&Event::Wait { job, condition }, 3))
    }
}

/// Each outcome, each refusal that a host can meet in a few events, and each standing.
#[test]
fn every_answer_by_its_name() {
    let mut host = Host::board(0, 0);
    assert_eq!(host.give(&[]), report(Outcome::NoneLeft, None, 0, 0));
    assert_eq!(host.give(&[1, 7]).outcome, Outcome::Done);
    assert_eq!(host.room.standing(7), Standing::Door);
    assert_eq!(host.give(&[2, 7]).outcome, Outcome::In);
    assert_eq!(host.room.standing(7), Standing::Inside);
    assert_eq!(host.room.inside(), Some(7));
    let on = host.wait(7, Y, Operator::Equal, 0);
    assert_eq!((on.outcome, on.called), (Outcome::On, None));
    let waits = host.wait(7, X, Operator::Equal, 1);
    assert_eq!((waits.outcome, waits.evaluated), (Outcome::Waits, 0));
    assert_eq!(host.room.standing(7), Standing::Waiting);
    assert_eq!(host.room.inside(), None);
    assert_eq!(host.room.next_ticket(), 1);
    for bytes in [&[1, 8][..], &[2, 8], &[3, 8, 0, 2]] {
        host.give(bytes);
    }
    assert_eq!(host.room.values()[X], 1);
    assert_eq!(host.give(&[5, 8]), report(Outcome::Done, Some(7), 1, 2));
    assert_eq!(host.room.standing(7), Standing::Called);
    for bytes in [&[1, 8][..], &[2, 8], &[3, 8, 0, 0]] {
        host.give(bytes);
    }
    let before = host.tally;
    for (bytes, refusal, taken) in [
        (&[1][..], Refusal::BytesEnd, 0),
        (&[1, 128, 0], Refusal::NumberForm, 0),
        (&[6, 0], Refusal::UnknownKindOrOperator, 0),
        (&[1, 32], Refusal::OutOfRange, 0),
        (&[1, 8, 99], Refusal::WrongStanding, 2),
        (&[2, 7, 99], Refusal::AnotherInside, 2),
    ] {
        let told = host.give(bytes);
        assert_eq!(told, report(Outcome::Refused(refusal), None, 0, taken));
        assert_eq!(told.refusal(), Some(refusal));
        assert_eq!(host.tally, before);
    }
    host.give(&[5, 8]);
    assert_eq!(host.give(&[2, 7]).outcome, Outcome::Back);
    assert_eq!(host.room.standing(7), Standing::Waiting);
    assert_eq!(host.tally.sent_back, 1);
}

#[test]
fn refusals_have_document_01s_numbers() {
    for (place, refusal) in Refusal::ALL.iter().enumerate() {
        assert_eq!(usize::from(refusal.number()), place + 1);
        let told = refusal.to_string();
        assert!(told.starts_with(&format!("refused {}: ", place + 1)));
    }
}

/// A copy of a room is a room, and goes its own way.
#[test]
fn a_clone_goes_its_own_way() {
    let mut host = Host::board(0, 0);
    for bytes in [&[1, 0][..], &[2, 0]] {
        host.give(bytes);
    }
    host.wait(0, X, Operator::Greater, 4);
    let mut copy = host.room.clone();
    let mut tally = Tally::default();
    for bytes in [&[1, 1][..], &[2, 1], &[3, 1, 0, 10]] {
        copy.event(&mut tally, bytes);
    }
    assert_eq!(copy.event(&mut tally, &[5, 1]).called, Some(0));
    assert_eq!(copy.standing(0), Standing::Called);
    assert_eq!(host.room.standing(0), Standing::Waiting);
    assert_eq!(host.room.values()[X], 0);
    assert_eq!(tally.events, 4);
    assert_eq!(host.tally.events, 3);
}

/// A room may be given to another thread.
#[test]
fn rooms_go_from_thread_to_thread() {
    fn goes<T: Send + Sync>(_: &T) {}
    let host = Host::board(0, 0);
    goes(&host.room);
    let mut room = host.room;
    let thread = std::thread::spawn(move || {
        let mut tally = Tally::default();
        room.event(&mut tally, &[1, 3]);
        room
    });
    let room = thread.join().expect("it ends");
    assert_eq!(room.standing(3), Standing::Door);
}

/// The second implementation's report in the wrapper's words.
fn right(report: &second::report::Report) -> Report {
    use second::report::Outcome as Second;
    Report {
        outcome: match report.outcome {
            Second::Done => Outcome::Done,
            Second::In => Outcome::In,
            Second::Waits => Outcome::Waits,
            Second::On => Outcome::On,
            Second::Back => Outcome::Back,
            Second::Refused(refusal) => {
                Outcome::Refused(Refusal::ALL[usize::from(refusal.number()) - 1])
            }
            Second::NoneLeft => Outcome::NoneLeft,
        },
        called: report.called.map(|job| job as u8),
        evaluated: report.evaluated as u64,
        taken: report.taken,
    }
}

/// Runs of events: every answer of the wrapper is the second implementation's.
#[test]
fn runs_against_the_second_implementation() {
    for seed in FIRST_SEED..FIRST_SEED + 20 {
        let mut random = Random::new(seed);
        let guarded = random.once_in(2);
        let stock = Stock::new(&mut random, Keys::Near, guarded, false);
        let opening = write::opening(&stock.opening);
        let mut room = opened(&opening);
        let (mut second, _) = second::room::Room::open(&opening).expect("a sound opening");
        let (mut tally, mut second_tally) = (Tally::default(), Default::default());
        let mut author = Author::new(random, stock, 8);
        for number in 0..500 {
            let bytes = author.next(&second);
            let report = room.event(&mut tally, &bytes);
            let expected = second.event(&mut second_tally, &bytes);
            let place = format!("seed {seed}, event {number}, bytes {bytes:?}");
            assert_eq!(report, right(&expected), "{place}");
            assert_eq!(room.values(), &second.values, "{place}");
            for (variable, value) in (0..).zip(second.values) {
                assert_eq!(room.value(variable), value, "{place}");
            }
            assert_eq!(room.measures(), &second.measures[..], "{place}");
            assert_eq!(room.next_ticket(), second.next_ticket, "{place}");
            assert_eq!(room.inside().map(usize::from), second.inside(), "{place}");
            for job in 0..JOBS {
                let standing = standing_number(second.jobs[job].standing);
                assert_eq!(room.standing(job as u8) as u8, standing, "{place}");
            }
            assert_eq!(tally.events, second_tally.accepted, "{place}");
        }
    }
}
