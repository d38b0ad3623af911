//! What holds between any two events of any stream.

use second::limits::TICKETS;
use second::record::{read_event, read_opening};
use second::report::{Outcome, Report};
use second::room::{Room, Standing};
use second::streams::{stream, Kind};
use second::tally::Tally;
use second::write;

const STREAMS: u64 = 3_000;

/// Calls `visit` with the room before and after each event, its bytes and its report.
fn walk(stream: &[u8], visit: impl Fn(&Room, &Room, &[u8], &Report)) {
    let (mut room, mut at) = match Room::open(stream) {
        Ok(opened) => opened,
        Err(_) => return,
    };
    loop {
        let before = room.clone();
        let rest = &stream[at..];
        let report = room.event(&mut Tally::default(), rest);
        visit(&before, &room, rest, &report);
        if report.taken == 0 {
            return;
        }
        at += report.taken;
    }
}

/// Streams of all kinds but Long, in turn, of many sizes.
fn streams() -> impl Iterator<Item = Vec<u8>> {
    (0..STREAMS).map(|seed| {
        let kind = Kind::ALL[seed as usize % 6];
        stream(kind, seed, 100 + (seed as usize % 10) * 150)
    })
}

fn check_all(check: impl Fn(&Room, &Room, &[u8], &Report)) {
    for stream in streams() {
        walk(&stream, &check);
    }
}

fn has_true_job(room: &Room, standing: Standing) -> bool {
    let measures = room.measure_values();
    room.standing(standing).iter().any(|job| {
        let condition = room.jobs[*job].condition.as_ref();
        condition.map_or(false, |condition| condition.is_true(&measures))
    })
}

#[test]
fn with_nobody_inside_a_true_waiting_job_means_a_true_called_job() {
    check_all(|_, after, _, _| {
        if after.inside().is_none() && has_true_job(after, Standing::Waiting) {
            assert!(has_true_job(after, Standing::Called));
        }
    });
}

#[test]
fn standings_conditions_and_tickets_go_together() {
    check_all(|_, after, _, _| {
        assert!(after.standing(Standing::Inside).len() <= 1);
        let mut tickets = Vec::new();
        for job in &after.jobs {
            let has = job.standing == Standing::Waiting || job.standing == Standing::Called;
            assert_eq!(job.condition.is_some(), has);
            assert_eq!(job.ticket.is_some(), has);
            tickets.extend(job.ticket);
        }
        tickets.sort_unstable();
        let given = tickets.len();
        tickets.dedup();
        assert_eq!(tickets.len(), given);
        assert!(tickets.iter().all(|ticket| *ticket < after.next_ticket));
        assert!(after.next_ticket <= TICKETS);
    });
}

#[test]
fn refused_events_and_no_events_change_nothing_and_report_nothing() {
    check_all(|before, after, _, report| match report.outcome {
        Outcome::Refused(refusal) => {
            assert_eq!(before, after);
            assert_eq!((report.called, report.evaluated), (None, 0));
            assert_eq!(report.taken > 0, refusal.number() >= 5);
        }
        Outcome::NoneLeft => {
            assert_eq!(before, after);
            assert_eq!(*report, Report::none_left());
        }
        _ => assert!(report.taken > 0),
    });
}

#[test]
fn a_call_moves_one_waiting_true_job_and_no_call_leaves_none_true() {
    check_all(|before, after, _, report| {
        if let Some(job) = report.called {
            let measures = after.measure_values();
            assert_eq!(before.jobs[job].standing, Standing::Waiting);
            assert_eq!(after.jobs[job].standing, Standing::Called);
            let condition = after.jobs[job].condition.as_ref().unwrap();
            assert!(condition.is_true(&measures));
            assert!(report.evaluated > 0);
        } else if after.inside().is_none()
            && matches!(report.outcome, Outcome::Waits | Outcome::Back)
        {
            assert!(!has_true_job(after, Standing::Waiting));
        }
    });
}

#[test]
fn what_was_read_writes_back_to_the_same_bytes() {
    for bytes in streams() {
        if let Ok((opening, taken)) = read_opening(&bytes) {
            assert_eq!(write::opening(&opening), bytes[..taken]);
        }
    }
    check_all(|before, _, rest, report| {
        if let Ok((event, taken)) = read_event(rest, before.measures.len()) {
            assert_eq!(taken, report.taken);
            assert_eq!(write::event(&event, before.measures.len()), rest[..taken]);
        } else {
            assert_eq!(report.taken, 0);
        }
    });
}

#[test]
fn bytes_after_a_record_have_no_part_in_it() {
    for kind in [Kind::Lively, Kind::Strays] {
        for seed in 0..200 {
            walk(&stream(kind, seed, 600), |before, after, rest, report| {
                if report.taken > 0 {
                    let mut room = before.clone();
                    let alone = room.event(&mut Tally::default(), &rest[..report.taken]);
                    assert_eq!((&alone, &room), (report, after));
                }
            });
        }
    }
}
