// What a contestant answers about a pattern and a log, and an order query about a log.

pub const THREADS: usize = 16;
pub const VARIABLES: usize = 32;
pub const LOCKS: usize = 16;
pub const SLOTS: usize = 5;
pub const EVENTS: usize = 65535;

/// How many places an order has, and so the most events of a log whose orders are gone through.
pub const PLACES: usize = 8;

/// A refusal's number and offset.
#[derive(Clone, Copy, PartialEq, Eq, Debug)]
pub struct Refusal {
    pub number: u8,
    pub offset: usize,
}

#[derive(Clone, Copy, PartialEq, Eq, Debug)]
pub enum Outcome {
    Match { count: usize },
    None,
    PatternRefused(Refusal),
    LogRefused(Refusal),
}

/// How one event of a log stands to another.
#[derive(Clone, Copy, PartialEq, Eq, Debug)]
pub enum Relation {
    Same,
    Before,
    After,
    Free,
}

/// The outcome, with the event named for each slot (0 where there is none).
#[derive(Clone, Copy, PartialEq, Eq, Debug)]
pub struct Judged {
    pub outcome: Outcome,
    pub numbers: [u16; SLOTS],
}

/// Why there is no match: the first slot that can't be filled, the last event that fits it, the lowest slot before it whose event that one comes before or
/// is, and the first events for the slots before it. All count from 1, and 0 stands where there is none.
#[derive(Clone, Copy, PartialEq, Eq, Debug, Default)]
pub struct Reason {
    pub slot: usize,
    pub last: usize,
    pub earlier: usize,
    pub events: [u16; SLOTS],
}

/// Match or none by the count, which is 0 without a match.
pub fn found(count: usize) -> Outcome {
    if count == 0 {
        return Outcome::None;
    }
    Outcome::Match { count }
}
