// The five that are compared, each from a pattern and a log as bytes to an outcome.
use crate::decode::{self, Operation, Step};
use crate::ffi::{self, Event, Session};
use crate::greedy;
use crate::patterntrack;
use crate::verdict::{Outcome, Refusal};

pub type Contestant = fn(&[u8], &[u8]) -> Outcome;

pub const MANY: usize = 5;

/// In the order of the table's columns.
pub const ALL: [(&str, Contestant); MANY] =
    [("a", run), ("b", patterntrack::run), ("c", floor), ("d", by_session), ("e", by_greedy_choice)];

/// (a) The proved run, from bytes.
fn run(pattern: &[u8], log: &[u8]) -> Outcome {
    ffi::run(pattern, log).outcome
}

/// (c) Every check of the log; the pattern is not looked at.
fn floor(_: &[u8], log: &[u8]) -> Outcome {
    decode::floor(log)
}

/// The byte, the object and the height of an operation, as a session takes them.
#[inline(always)]
fn numbers(operation: Operation) -> (u8, u16, i32) {
    match operation {
        Operation::Read { variable } => (1, variable as u16, 0),
        Operation::Write { variable, height } => (2, variable as u16, height),
        Operation::Acquire { lock } => (3, lock as u16, 0),
        Operation::Release { lock } => (4, lock as u16, 0),
        Operation::Fork { child } => (5, child as u16, 0),
        Operation::Join { child } => (6, child as u16, 0),
        Operation::Mark { mark } => (7, mark, 0),
    }
}

/// Takes each command of a log apart by its form and hands it over as one event; stops at the first that is refused, by its form or when
/// it is handed over.
#[inline(always)]
pub fn each_event(log: &[u8], mut hand: impl FnMut(Event) -> u8) -> Result<(), Refusal> {
    let mut at = 0;
    loop {
        match decode::command_at(log, at) {
            Step::Command { event, next } => {
                let (operation, object, height) = numbers(event.operation);
                let number = hand(Event::new(event.thread, operation, object, height));
                if number != 0 {
                    return Err(Refusal { number, offset: at });
                }
                at = next;
            }
            Step::End => return Ok(()),
            Step::Refused(refusal) => return Err(refusal),
        }
    }
}

/// (d) The proved session, which is handed one event at a time.
#[inline(never)]
fn by_session(pattern: &[u8], log: &[u8]) -> Outcome {
    let (mut session, answer) = Session::open(pattern);
    if let Err(refusal) = answer {
        return Outcome::PatternRefused(refusal);
    }
    match each_event(log, |event| session.take(event)) {
        Ok(()) => session.verdict().outcome,
        Err(refusal) => Outcome::LogRefused(refusal),
    }
}

/// (e) The run's algorithm, unproved.
fn by_greedy_choice(pattern: &[u8], log: &[u8]) -> Outcome {
    greedy::run(pattern, log).outcome
}
