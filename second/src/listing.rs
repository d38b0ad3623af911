//! "The program and one whole run": what the stream program prints.

use crate::limits::STREAM_BYTES_MOST;
use crate::refusal::Refusal;
use crate::report::{Outcome, Report};
use crate::room::Room;
use crate::tally::Tally;

pub fn listing(stream: &[u8]) -> String {
    if stream.len() > STREAM_BYTES_MOST {
        return format!("refused {}\n", Refusal::InputTooLong.number());
    }
    let (mut room, mut at) = match Room::open(stream) {
        Ok(opened) => opened,
        Err(refusal) => return format!("open refused {}\n", refusal.number()),
    };
    let mut tally = Tally::default();
    let mut text = format!("open {}\n", room.measures.len());
    let mut number = 1;
    loop {
        let report = room.event(&mut tally, &stream[at..]);
        if report.outcome == Outcome::NoneLeft {
            break;
        }
        text.push_str(&event_line(number, &report));
        // Refusals 1 to 4 take no bytes, and nothing more is read after them.
        if report.taken == 0 {
            break;
        }
        at += report.taken;
        number += 1;
    }
    text.push_str(&format!("end {}\n", tally.accepted));
    text
}

fn event_line(number: usize, report: &Report) -> String {
    let outcome = match report.outcome {
        Outcome::Done => "done",
        Outcome::In => "in",
        Outcome::Waits => "waits",
        Outcome::On => "on",
        Outcome::Back => "back",
        Outcome::Refused(refusal) => return format!("{} refused {}\n", number, refusal.number()),
        Outcome::NoneLeft => unreachable!("no line is printed for no event"),
    };
    let called = match report.called {
        Some(job) => job.to_string(),
        None => "-".to_string(),
    };
    format!("{} {} {} {}\n", number, outcome, called, report.evaluated)
}
