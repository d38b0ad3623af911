//! Rooms with a wrong order or a wrong count give themselves away in the generator's streams.

use second::condition::Operator;
use second::report::Outcome;
use second::room::Room;
use second::search::{oldest_of_each_condition, Waiting};
use second::streams::{stream, Kind};
use second::tag::Tag;
use second::tally::Tally;

/// The numbers of a rank in the order that decides; those a class has no use for are 0.
type Rank = [i64; 7];
const CLASS: usize = 0;
const MEASURE: usize = 1;
const DIRECTION: usize = 2;
const KEY: usize = 3;
const STRICT: usize = 4;
const TICKET: usize = 5;
const ALTERNATIVE: usize = 6;

const EQUALITY: i64 = 0;
const THRESHOLD: i64 = 1;
const UNTAGGED: i64 = 2;
const ABOVE: i64 = 0;
const BELOW: i64 = 1;

/// A pair of a waiting job and an alternative.
#[derive(Clone, Copy)]
struct Pair {
    job: i64,
    rank: Rank,
    tag_holds: bool,
    is_true: bool,
}

fn pairs(waiting: &[Waiting], measures: &[i64]) -> Vec<Pair> {
    let mut pairs = Vec::new();
    for one in waiting {
        for (number, alternative) in one.condition.alternatives.iter().enumerate() {
            let tag = Tag::of(alternative);
            let mut rank = [0; 7];
            rank[TICKET] = i64::from(one.ticket);
            rank[ALTERNATIVE] = number as i64;
            put_tag(&mut rank, &tag);
            pairs.push(Pair {
                job: one.job as i64,
                rank,
                tag_holds: tag.holds(measures),
                is_true: alternative.is_true(measures),
            });
        }
    }
    pairs
}

fn put_tag(rank: &mut Rank, tag: &Tag) {
    match tag {
        Tag::Equality(atom) => {
            rank[CLASS] = EQUALITY;
            rank[MEASURE] = atom.measure as i64;
        }
        Tag::Threshold(atom) => {
            let (direction, strict, key) = match atom.operator {
                Operator::Greater => (ABOVE, 1, atom.key),
                Operator::GreaterOrEqual => (ABOVE, 0, atom.key),
                Operator::Less => (BELOW, 1, -atom.key),
                _ => (BELOW, 0, -atom.key),
            };
            rank[CLASS] = THRESHOLD;
            rank[MEASURE] = atom.measure as i64;
            rank[DIRECTION] = direction;
            rank[KEY] = key;
            rank[STRICT] = strict;
        }
        Tag::NoTag => rank[CLASS] = UNTAGGED,
    }
}

/// Turns the rank of the pair into another.
type Change = fn(&mut Rank, &Pair);

const RIGHT_ORDER: Change = |_, _| {};

const WRONG_ORDERS: [(&str, Change); 23] = [
    ("younger ticket", |rank, _| rank[TICKET] *= -1),
    ("job number for ticket", |rank, pair| {
        rank[TICKET] = pair.job
    }),
    ("later alternative", |rank, _| rank[ALTERNATIVE] *= -1),
    ("strictness ignored", |rank, _| rank[STRICT] = 0),
    ("strict above first", |rank, _| {
        if rank[DIRECTION] == ABOVE {
            rank[STRICT] *= -1;
        }
    }),
    ("strict below first", |rank, _| {
        if rank[DIRECTION] == BELOW {
            rank[STRICT] *= -1;
        }
    }),
    ("strictness before key", |rank, _| rank.swap(KEY, STRICT)),
    ("larger key above", |rank, _| {
        if rank[DIRECTION] == ABOVE {
            rank[KEY] *= -1;
        }
    }),
    ("smaller key below", |rank, _| {
        if rank[DIRECTION] == BELOW {
            rank[KEY] *= -1;
        }
    }),
    ("keys ignored", |rank, _| rank[KEY] = 0),
    ("ticket before key", |rank, _| {
        rank[KEY..=TICKET].rotate_right(1)
    }),
    ("below before above", |rank, _| rank[DIRECTION] *= -1),
    ("direction ignored", |rank, _| rank[DIRECTION] = 0),
    ("direction before measure", |rank, _| {
        rank.swap(MEASURE, DIRECTION)
    }),
    ("higher measure of equalities", |rank, _| {
        if rank[CLASS] == EQUALITY {
            rank[MEASURE] *= -1;
        }
    }),
    ("higher measure of thresholds", |rank, _| {
        if rank[CLASS] == THRESHOLD {
            rank[MEASURE] *= -1;
        }
    }),
    ("measure of equalities ignored", |rank, _| {
        if rank[CLASS] == EQUALITY {
            rank[MEASURE] = 0;
        }
    }),
    ("measure of thresholds ignored", |rank, _| {
        if rank[CLASS] == THRESHOLD {
            rank[MEASURE] = 0;
        }
    }),
    ("measure before class", |rank, _| rank.swap(CLASS, MEASURE)),
    ("threshold before equality", |rank, _| {
        rank[CLASS] = [1, 0, 2][rank[CLASS] as usize]
    }),
    ("untagged before threshold", |rank, _| {
        rank[CLASS] = [0, 2, 1][rank[CLASS] as usize]
    }),
    ("untagged first", |rank, _| {
        rank[CLASS] = [1, 2, 0][rank[CLASS] as usize]
    }),
    ("ticket only", |rank, _| rank[..TICKET].fill(0)),
];

fn changed(pair: &Pair, change: Change) -> Rank {
    let mut rank = pair.rank;
    change(&mut rank, pair);
    rank
}

/// The called job and the evaluated count in a room with the changed order.
fn answer(room: &Room, change: Change) -> (Option<i64>, usize) {
    let measures = room.measure_values();
    let waiting = room.waiting();
    let found = pairs(&waiting, &measures)
        .into_iter()
        .filter(|pair| pair.is_true)
        .min_by_key(|pair| changed(pair, change));
    let oldest = pairs(&oldest_of_each_condition(&waiting), &measures);
    let evaluated = oldest.iter().filter(|pair| {
        let in_reach = found.map_or(true, |found| {
            changed(pair, change) <= changed(&found, change)
        });
        pair.tag_holds && in_reach
    });
    (found.map(|found| found.job), evaluated.count())
}

/// Calls `visit` with the room before each event that makes a search.
fn at_each_search(
    kind: Kind,
    streams: u64,
    size: usize,
    mut visit: impl FnMut(&Room, (Option<i64>, usize)),
) {
    for seed in 0..streams {
        let bytes = stream(kind, seed, size);
        let (mut room, mut at) = Room::open(&bytes).unwrap();
        while at < bytes.len() {
            let before = room.clone();
            let report = room.event(&mut Tally::default(), &bytes[at..]);
            let is_leave = bytes[at] == 5;
            if is_leave || matches!(report.outcome, Outcome::Waits | Outcome::Back) {
                visit(
                    &before,
                    (report.called.map(|job| job as i64), report.evaluated),
                );
            }
            at += report.taken;
        }
    }
}

#[test]
fn the_right_order_gives_the_reported_answers() {
    for kind in [Kind::Drain, Kind::Lively, Kind::Extreme] {
        at_each_search(kind, 100, 1_000, |room, reported| {
            assert_eq!(answer(room, RIGHT_ORDER), reported);
        });
    }
}

fn expect_every_wrong_order_seen(kind: Kind, streams: u64, size: usize) {
    let mut seen = [0; WRONG_ORDERS.len()];
    at_each_search(kind, streams, size, |room, reported| {
        for (number, (_, change)) in WRONG_ORDERS.iter().enumerate() {
            if answer(room, *change) != reported {
                seen[number] += 1;
            }
        }
    });
    for (number, (name, _)) in WRONG_ORDERS.iter().enumerate() {
        assert!(seen[number] > 0, "{} {}", kind.name(), name);
    }
}

#[test]
fn drains_give_every_wrong_order_away() {
    expect_every_wrong_order_seen(Kind::Drain, 60, 1_200);
}

#[test]
fn short_drains_give_every_wrong_order_away() {
    expect_every_wrong_order_seen(Kind::Drain, 200, 300);
}

/// Wrong ways to come to the evaluated count, at the right called job.
fn wrong_counts(room: &Room) -> Vec<(&'static str, usize)> {
    let measures = room.measure_values();
    let waiting = room.waiting();
    let all = pairs(&waiting, &measures);
    let found = all
        .iter()
        .filter(|pair| pair.is_true)
        .min_by_key(|pair| pair.rank);
    let in_reach = |pair: &&Pair| found.map_or(true, |found| pair.rank <= found.rank);
    let holds = |pair: &&Pair| pair.tag_holds;
    let distinct = pairs(&oldest_of_each_condition(&waiting), &measures);
    let youngest = pairs(&youngest_of_each_condition(&waiting), &measures);
    let right_ones = || distinct.iter().filter(in_reach).filter(holds);
    vec![
        (
            "every job",
            all.iter().filter(in_reach).filter(holds).count(),
        ),
        (
            "youngest job",
            youngest.iter().filter(in_reach).filter(holds).count(),
        ),
        ("every tag", distinct.iter().filter(in_reach).count()),
        ("every rank", distinct.iter().filter(holds).count()),
        (
            "only untrue ones",
            right_ones().filter(|pair| !pair.is_true).count(),
        ),
        (
            "tagged ones only",
            right_ones()
                .filter(|pair| pair.rank[CLASS] != UNTAGGED)
                .count(),
        ),
        ("one at most", right_ones().count().min(1)),
    ]
}

fn youngest_of_each_condition<'a>(waiting: &[Waiting<'a>]) -> Vec<Waiting<'a>> {
    let is_youngest = |one: &&Waiting| {
        waiting
            .iter()
            .all(|other| other.condition != one.condition || one.ticket >= other.ticket)
    };
    waiting.iter().filter(is_youngest).copied().collect()
}

#[test]
fn drains_and_lively_streams_give_every_wrong_count_away() {
    for (kind, size) in [
        (Kind::Drain, 300),
        (Kind::Drain, 1_200),
        (Kind::Lively, 1_200),
    ] {
        let mut seen: Vec<&str> = Vec::new();
        at_each_search(kind, 100, size, |room, reported| {
            for (name, count) in wrong_counts(room) {
                if count != reported.1 && !seen.contains(&name) {
                    seen.push(name);
                }
            }
        });
        assert_eq!(seen.len(), 7, "{} {} {:?}", kind.name(), size, seen);
    }
}
