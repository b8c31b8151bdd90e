// The run's algorithm in Rust, unproved: for slot after slot the first event that fits and comes before none of those chosen, nor is one of
// them. One pass, with a return to the start only for the clock of a chosen event, or where an event that has passed fills the next slot.
use crate::clocks::{join, key, key_of_slot, Clock, Clocks};
use crate::decode::{self, Event, Step};
use crate::reference::{self, Label};
use crate::verdict::{found, Judged, Outcome, SLOTS, THREADS};

/// The events chosen so far, and what decides whether one that comes is the next. Slots count from 0, events from 1.
struct Choice {
    slots: usize,
    keys: [u32; SLOTS],
    threads: [u8; SLOTS],
    /// The event of each slot, 0 where none is chosen yet.
    numbers: [u16; SLOTS],
    /// How many are chosen, which is the slot looked for.
    chosen: usize,
    /// The key of the slot looked for; 0, which no event has, where every slot has its event.
    wanted: u32,
    /// For each thread how many of its events come before or are a chosen one: those that can fill no later slot.
    barred: Clock,
    /// From the first chosen event to the last but one; before and after, an event needs no clock.
    clocks: Option<Clocks>,
    /// For each slot the place in its thread of the last event that fits it, kept up as long as the clocks.
    last: [u16; SLOTS],
}

/// The events of a log that have passed every check.
#[inline(always)]
fn events(log: &[u8]) -> impl Iterator<Item = Event> + '_ {
    let mut at = 0;
    std::iter::from_fn(move || match decode::command_at(log, at) {
        Step::Command { event, next } => {
            at = next;
            Some(event)
        }
        _ => None,
    })
}

/// The first event with the key and a place in its thread above the one given; there is one.
#[inline(never)]
fn first_above(log: &[u8], wanted: u32, above: u16) -> usize {
    let thread = (wanted >> 16) as u8;
    let mut place = 0;
    let fills = |e: Event| {
        place += u16::from(e.thread == thread);
        key(e) == wanted && place > above
    };
    1 + events(log).position(fills).expect("an event has passed that fills the slot")
}

/// The clock of an event that has passed.
#[inline(never)]
fn clock_of(log: &[u8], number: usize) -> Clock {
    let mut clocks = Clocks::new();
    events(log).take(number).fold([0; THREADS], |_, e| clocks.advance(e))
}

impl Choice {
    fn new(pattern: &[Label]) -> Choice {
        let mut choice = Choice {
            slots: pattern.len(),
            keys: [0; SLOTS],
            threads: [0; SLOTS],
            numbers: [0; SLOTS],
            chosen: 0,
            wanted: 0,
            barred: [0; THREADS],
            clocks: None,
            last: [0; SLOTS],
        };
        for (k, &slot) in pattern.iter().enumerate() {
            choice.keys[k] = key_of_slot(slot);
            choice.threads[k] = slot.thread;
        }
        choice.wanted = choice.keys[0];
        choice
    }

    /// Takes the next event of the log, by its number. It comes before none of those chosen, so that it has but to fit.
    #[inline(always)]
    fn take(&mut self, log: &[u8], number: usize, e: Event) {
        let key = key(e);
        let clock = self.clocks.as_mut().map(|clocks| clocks.advance(e));
        if let Some(clock) = clock {
            self.note(key, clock[e.thread as usize]);
        }
        if key == self.wanted {
            self.choose(log, number, clock);
        }
    }

    /// Notes the place of an event for each slot that it fits.
    #[inline(always)]
    fn note(&mut self, key: u32, place: u16) {
        for slot in 0..SLOTS {
            if self.keys[slot] == key {
                self.last[slot] = place;
            }
        }
    }

    /// Chooses the newest event for the slot looked for, and for the slots after it events that have passed, as far as they fill them.
    #[inline(never)]
    fn choose(&mut self, log: &[u8], newest: usize, clock: Option<Clock>) {
        if self.fill(newest) {
            return;
        }
        let clock = clock.unwrap_or_else(|| self.start(log, newest));
        let mut above = self.look_on(&clock);
        while self.last[self.chosen] > above {
            let number = first_above(log, self.wanted, above);
            if self.fill(number) {
                return;
            }
            above = self.look_on(&clock_of(log, number));
        }
    }

    /// Whether the slot looked for was the last.
    fn fill(&mut self, number: usize) -> bool {
        self.numbers[self.chosen] = number as u16;
        self.chosen += 1;
        self.wanted = self.keys.get(self.chosen).copied().unwrap_or(0);
        self.chosen == self.slots
    }

    /// The clock of the first chosen event, by a pass from the start, after which the clocks and the last places are kept up.
    #[inline(never)]
    fn start(&mut self, log: &[u8], newest: usize) -> Clock {
        let mut clocks = Clocks::new();
        let mut clock = [0; THREADS];
        for e in events(log).take(newest) {
            clock = clocks.advance(e);
            self.note(key(e), clock[e.thread as usize]);
        }
        self.clocks = Some(clocks);
        clock
    }

    /// Goes on to the next slot, the event of that clock being chosen for the one before; the place above which an event can fill it.
    fn look_on(&mut self, clock: &Clock) -> u16 {
        join(&mut self.barred, clock);
        if self.chosen + 1 == self.slots {
            self.clocks = None;
        }
        self.barred[self.threads[self.chosen] as usize]
    }

    /// A match where every slot has its event; its count is the greatest number chosen.
    fn judged(&self) -> Judged {
        if self.chosen < self.slots {
            return without_events(Outcome::None);
        }
        let count = self.numbers.into_iter().max().unwrap_or(0);
        Judged { outcome: found(count as usize), numbers: self.numbers }
    }
}

fn without_events(outcome: Outcome) -> Judged {
    Judged { outcome, numbers: [0; SLOTS] }
}

/// Judges a log from bytes: the first list and its count, none, or the refusal.
#[inline(never)]
pub fn run(pattern: &[u8], log: &[u8]) -> Judged {
    let slots = match reference::read_pattern(pattern) {
        Ok(slots) => slots,
        Err(refusal) => return without_events(Outcome::PatternRefused(refusal)),
    };
    let mut choice = Choice::new(&slots);
    match decode::each(log, |number, e| choice.take(log, number, e)) {
        Ok(_) => choice.judged(),
        Err(refusal) => without_events(Outcome::LogRefused(refusal)),
    }
}
