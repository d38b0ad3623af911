//! Lively streams with refused events among the others.

use crate::closure::WrittenCondition;
use crate::limits::{JOBS, VARIABLES};
use crate::random::Random;
use crate::record::Event;
use crate::refusal::Refusal;
use crate::report::Outcome;
use crate::room::Standing;
use crate::spoil::every_spoiling;
use crate::streams::author::Author;
use crate::streams::conditions;
use crate::streams::lively::Lively;
use crate::streams::openings;
use crate::tally::Tally;
use crate::write::{self, Field};

/// Bytes kept for the spoiled record at the end.
const RESERVE: usize = 60;

pub fn strays(mut random: Random, size: usize) -> Vec<u8> {
    let opening = openings::small(&mut random, size);
    if random.once_in(8) {
        return spoiled_bytes(&mut random, &write::opening_fields(&opening));
    }
    let mut lively = Lively::open(random, &opening, size.saturating_sub(RESERVE), JOBS);
    while lively.add_event() {
        if lively.author.random.once_in(3) {
            add_stray(&mut lively.author);
        }
    }
    add_spoiled_record(&mut lively.author);
    lively.author.bytes
}

/// Each refusal number comes up as often as the others that the record can have.
fn spoiled_bytes(random: &mut Random, fields: &[Field]) -> Vec<u8> {
    let mut spoilings = every_spoiling(fields);
    let mut refusals: Vec<Refusal> = spoilings.iter().map(|spoiled| spoiled.refusal).collect();
    refusals.sort_by_key(|refusal| refusal.number());
    refusals.dedup();
    let refusal = random.pick(&refusals);
    spoilings.retain(|spoiled| spoiled.refusal == refusal);
    random.pick(&spoilings).bytes
}

fn add_stray(author: &mut Author) {
    for _ in 0..10 {
        let stray = any_event(author);
        if is_refused_for_standing(author, &stray) {
            author.add(&stray);
            return;
        }
    }
}

fn is_refused_for_standing(author: &Author, event: &Event) -> bool {
    let mut room = author.room.clone();
    let bytes = write::event(event, room.measures.len());
    let outcome = room.event(&mut Tally::default(), &bytes).outcome;
    outcome == Outcome::Refused(Refusal::WrongStanding)
        || outcome == Outcome::Refused(Refusal::AnotherInside)
}

fn any_event(author: &mut Author) -> Event {
    let job = author.random.below(JOBS);
    match author.random.below(8) {
        0 => Event::Arrive { job },
        1 => Event::Admit { job },
        2..=4 => Event::Admit {
            job: job_that_could_be_admitted(author).unwrap_or(job),
        },
        5 => Event::Set {
            job,
            variable: author.random.below(VARIABLES),
            value: author.random.between(-3, 3),
        },
        6 => Event::Wait {
            job,
            condition: any_condition(author),
        },
        _ => Event::Leave { job },
    }
}

fn job_that_could_be_admitted(author: &mut Author) -> Option<usize> {
    let standing = author.random.pick(&[Standing::Door, Standing::Called]);
    author.pick_standing(standing)
}

fn any_condition(author: &mut Author) -> WrittenCondition {
    let measures = author.room.measure_values();
    let condition = conditions::fresh(&mut author.random, &measures);
    conditions::in_writing(&mut author.random, &condition)
}

/// Sometimes with more bytes after it, which nobody may read.
fn add_spoiled_record(author: &mut Author) {
    let event = any_event(author);
    let fields = write::event_fields(&event, author.room.measures.len());
    let spoiled = spoiled_bytes(&mut author.random, &fields);
    author.bytes.extend(spoiled);
    if author.random.once_in(2) {
        let more = any_event(author);
        let bytes = write::event(&more, author.room.measures.len());
        author.bytes.extend(bytes);
    }
}
