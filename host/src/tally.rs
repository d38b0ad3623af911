//! "Refusal numbers", last paragraph: the tally that a host lends to events.

/// Four counts, which each accepted event adds to. A refused event, and none left, change none.
///
/// A count that would pass 1,000,000,000 ([`crate::TALLY_MOST`]) becomes 1,000,000,000. The fields
/// are the host's: it may start them anywhere, and one that is above that already stays as it is.
#[repr(C)]
#[derive(Clone, Copy, Debug, Default, PartialEq, Eq)]
pub struct Tally {
    /// Accepted events.
    pub events: u64,
    /// Calls: jobs that a search moved from waiting to called.
    pub calls: u64,
    /// Alternatives evaluated by searches.
    pub evaluated: u64,
    /// Called jobs that were sent back to waiting.
    pub sent_back: u64,
}
