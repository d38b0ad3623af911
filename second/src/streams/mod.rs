//! Streams of bytes to try rooms with. The same kind, seed and size always give the same stream.

mod author;
mod conditions;
mod damaged;
mod drain;
mod extreme;
mod lively;
mod long;
mod noise;
mod openings;
mod strays;

use crate::random::Random;

pub use long::filled;

#[derive(Clone, Copy, Debug, PartialEq, Eq)]
pub enum Kind {
    /// Calls, jobs sent back, identical and almost identical conditions, small values.
    Lively,
    /// Every number at or near the ends of its range.
    Extreme,
    /// Many jobs wait behind a guard; one Set opens it, and all leave in rank order.
    Drain,
    /// Lively, with events of the wrong standing mixed in and a spoiled record at the end.
    Strays,
    /// A stream of another kind with one byte changed, put in or everything after it cut off.
    Damaged,
    /// Random bytes, from the first or after an opening.
    Random,
    /// Events to the last byte, at and around 65,536 bytes; the size asked for is ignored.
    Long,
}

impl Kind {
    pub const ALL: [Kind; 7] = [
        Kind::Lively,
        Kind::Extreme,
        Kind::Drain,
        Kind::Strays,
        Kind::Damaged,
        Kind::Random,
        Kind::Long,
    ];

    pub fn name(self) -> &'static str {
        match self {
            Kind::Lively => "lively",
            Kind::Extreme => "extreme",
            Kind::Drain => "drain",
            Kind::Strays => "strays",
            Kind::Damaged => "damaged",
            Kind::Random => "random",
            Kind::Long => "long",
        }
    }

    pub fn named(name: &str) -> Option<Kind> {
        Kind::ALL.iter().copied().find(|kind| kind.name() == name)
    }
}

/// A stream of at most `size` bytes (of kind Long: of the lengths named there).
pub fn stream(kind: Kind, seed: u64, size: usize) -> Vec<u8> {
    let random = Random::new(seed);
    let mut bytes = match kind {
        Kind::Lively => lively::lively(random, size),
        Kind::Extreme => extreme::extreme(random, size),
        Kind::Drain => drain::drain(random, size),
        Kind::Strays => strays::strays(random, size),
        Kind::Damaged => damaged::damaged(random, size),
        Kind::Random => noise::noise(random, size),
        Kind::Long => return long::long(random),
    };
    bytes.truncate(size);
    bytes
}

/// A stream of a kind picked by the seed; kind Long comes up once in 64 times.
pub fn mixed(seed: u64, size: usize) -> Vec<u8> {
    let mut random = Random::new(!seed);
    let kind = if random.once_in(64) {
        Kind::Long
    } else {
        random.pick(&Kind::ALL[..6])
    };
    stream(kind, random.bits(), size)
}
