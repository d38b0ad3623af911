//! Streams of an exact length, with accepted events to the last byte.

use crate::limits::{JOBS, STREAM_BYTES_MOST, VARIABLES};
use crate::random::Random;
use crate::record::Event;
use crate::room::Standing;
use crate::streams::author::Author;
use crate::streams::lively::Lively;
use crate::streams::openings;
use crate::write;

pub fn long(mut random: Random) -> Vec<u8> {
    let most = STREAM_BYTES_MOST;
    let length = random.pick(&[most, most, most + 1, most + 1, most - 1, most - 2, most + 9]);
    filled(random, length)
}

/// Bytes to bring a job inside (4) and to add Sets (at least 8).
const RESERVE: usize = 12;

/// A lively stream of exactly `length` bytes; Sets take up what is left at the end.
/// A length too small for that gets the beginning of a longer stream.
pub fn filled(mut random: Random, length: usize) -> Vec<u8> {
    let opening = openings::small(&mut random, length);
    let least = write::opening(&opening).len() + RESERVE;
    let size = length.max(least) - RESERVE;
    let mut lively = Lively::open(random, &opening, size, JOBS - 1);
    while lively.add_event() {}
    let mut author = lively.author;
    author.size += RESERVE;
    bring_one_inside(&mut author);
    fill_with_sets(&mut author);
    author.bytes.truncate(length);
    author.bytes
}

fn bring_one_inside(author: &mut Author) {
    while author.room.inside().is_none() {
        let event = match author.pick_standing(Standing::Door) {
            Some(job) => Event::Admit { job },
            None => Event::Arrive {
                job: author
                    .pick_standing(Standing::Outside)
                    .expect("a crowd below 32 leaves a job without condition"),
            },
        };
        author.add(&event).expect("the reserve has room for it");
    }
}

/// A Set takes 4, 5 or 6 bytes, by its value; every length from 8 on is a sum of these.
fn fill_with_sets(author: &mut Author) {
    let job = author.room.inside().expect("a job was brought inside");
    while author.bytes_left() > 0 {
        let value = match author.bytes_left() {
            5 | 11 => author.random.between(64, 8_191),
            6 => author.random.between(8_192, 1_000_000),
            _ => author.random.between(-3, 3),
        };
        let set = Event::Set {
            job,
            variable: author.random.below(VARIABLES),
            value,
        };
        author.add(&set).expect("its length was chosen to fit");
    }
}
