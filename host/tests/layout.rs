//! The C structs have the layout that include/harbour.h promises, and the library writes nothing
//! beside them.

mod common;

use std::mem::size_of;

use common::board::{board, only, X};
use harbour::c::{self, harbour_event, harbour_open};
use harbour::Tally;
use second::closure::WrittenCondition;
use second::condition::Operator;
use second::record::Event;
use second::write;

/// Where each field begins, from the one before it.
#[test]
fn fields_stand_where_the_header_says() {
    let room = c::Room::CLEAR;
    let start = &room as *const c::Room as usize;
    macro_rules! begins {
        ($field:ident) => {
            &room.$field as *const _ as usize - start
        };
    }
    assert_eq!(begins!(coefficients), 0);
    assert_eq!(begins!(values), 1_024);
    assert_eq!(begins!(standing), 1_088);
    assert_eq!(begins!(ticket), 1_120);
    assert_eq!(begins!(alternatives), 1_248);
    assert_eq!(begins!(atoms), 1_280);
    assert_eq!(begins!(measure), 1_408);
    assert_eq!(begins!(operator), 1_920);
    assert_eq!(begins!(key), 2_432);
    assert_eq!(begins!(entry), 6_528);
    assert_eq!(begins!(high), 6_560);
    assert_eq!(begins!(low), 7_584);
    assert_eq!(begins!(places), 8_608);
    assert_eq!(begins!(lengths), 12_960);
    assert_eq!(begins!(measures), 13_000);
    assert_eq!(begins!(next_ticket), 13_008);
    assert_eq!(size_of::<c::Room>(), 13_016);
    assert_eq!(size_of::<Tally>(), 32);
    assert_eq!(size_of::<c::Opened>(), 24);
    assert_eq!(size_of::<c::Report>(), 24);
}

const EDGE: [u8; 256] = [0xA5; 256];

/// A room and a tally between edges that nobody may write.
#[repr(C)]
struct Edged {
    before: [u8; 256],
    room: c::Room,
    between: [u8; 256],
    tally: Tally,
    after: [u8; 256],
}

impl Edged {
    fn open(opening: &[u8]) -> Box<Edged> {
        let mut edged = Box::new(Edged {
            before: EDGE,
            room: c::Room::CLEAR,
            between: EDGE,
            tally: Tally::default(),
            after: EDGE,
        });
        // SAFETY: the room is owned here alone, and the bytes are a slice.
        let opened = unsafe { harbour_open(&mut edged.room, opening.as_ptr(), opening.len()) };
        assert_eq!(opened.refusal, 0);
        edged
    }

    fn event(&mut self, bytes: &[u8]) -> u8 {
        let (tally, room) = (&mut self.tally, &mut self.room);
        // SAFETY: all are borrowed here, and the room is as an opening and events leave it.
        let report = unsafe { harbour_event(tally, room, bytes.as_ptr(), bytes.len()) };
        assert!(self.before == EDGE && self.between == EDGE && self.after == EDGE);
        report.outcome
    }
}

/// All jobs but one wait, and go: every slot and many places are written.
#[test]
fn nothing_beside_room_and_tally_is_written() {
    let mut edged = Edged::open(&write::opening(&board(0, 0)));
    for job in 0..31 {
        let operator = Operator::ALL[usize::from(job) % 6];
        let condition = match operator {
            Operator::NotEqual => only(X, operator, 0),
            Operator::Less | Operator::LessOrEqual => only(X, operator, -1),
            _ => only(X, operator, i64::from(job) + 1),
        };
        let condition = WrittenCondition::plain(&condition);
        let wait = Event::Wait {
            job: usize::from(job),
            condition,
        };
        assert_eq!(edged.event(&[1, job]), 0);
        assert_eq!(edged.event(&[2, job]), 1);
        assert_eq!(edged.event(&write::event(&wait, 3)), 2);
    }
    for value in 0..100 {
        edged.event(&[1, 31]);
        edged.event(&[2, 31]);
        edged.event(&[3, 31, 0, value % 128]);
        edged.event(&[5, 31]);
        for job in 0..31 {
            edged.event(&[2, job]);
            edged.event(&[5, job]);
        }
    }
    assert!(edged.tally.calls > 20);
}
