// What (b) and (e) have in common: the vector clock of each event, and operation, thread and object as one number.
use crate::decode::{Event, Operation};
use crate::reference::Label;
use crate::verdict::{LOCKS, THREADS, VARIABLES};

/// For each thread how many of its events come before or are the event.
pub type Clock = [u16; THREADS];

/// The newest clocks, from which that of the next event is made.
pub struct Clocks {
    threads: [Clock; THREADS],
    reads: [Clock; VARIABLES],
    writes: [Clock; VARIABLES],
    locks: [Clock; LOCKS],
}

#[inline(always)]
pub fn join(a: &mut Clock, b: &Clock) {
    for i in 0..THREADS {
        a[i] = a[i].max(b[i]);
    }
}

impl Clocks {
    pub fn new() -> Clocks {
        let none = [0; THREADS];
        Clocks { threads: [none; THREADS], reads: [none; VARIABLES], writes: [none; VARIABLES], locks: [none; LOCKS] }
    }

    /// The clock of the next event.
    #[inline(always)]
    pub fn advance(&mut self, e: Event) -> Clock {
        let t = e.thread as usize;
        let mut own = self.threads[t];
        own[t] += 1;
        match e.operation {
            Operation::Read { variable } => {
                join(&mut own, &self.writes[variable as usize]);
                join(&mut self.reads[variable as usize], &own);
            }
            Operation::Write { variable, .. } => {
                join(&mut own, &self.writes[variable as usize]);
                join(&mut own, &self.reads[variable as usize]);
                self.writes[variable as usize] = own;
            }
            Operation::Acquire { lock } | Operation::Release { lock } => {
                join(&mut own, &self.locks[lock as usize]);
                self.locks[lock as usize] = own;
            }
            Operation::Fork { child } | Operation::Join { child } => {
                join(&mut own, &self.threads[child as usize]);
                self.threads[child as usize] = own;
            }
            Operation::Mark { .. } => {}
        }
        self.threads[t] = own;
        own
    }
}

/// Operation, thread and object of an event in one number, which is not 0.
#[inline(always)]
pub fn key(e: Event) -> u32 {
    let (op, object) = match e.operation {
        Operation::Read { variable } => (1, variable as u32),
        Operation::Write { variable, .. } => (2, variable as u32),
        Operation::Acquire { lock } => (3, lock as u32),
        Operation::Release { lock } => (4, lock as u32),
        Operation::Fork { child } => (5, child as u32),
        Operation::Join { child } => (6, child as u32),
        Operation::Mark { mark } => (7, mark as u32),
    };
    op << 24 | (e.thread as u32) << 16 | object
}

/// The number of the events that fit a slot.
pub fn key_of_slot(slot: Label) -> u32 {
    (slot.op as u32) << 24 | (slot.thread as u32) << 16 | slot.object as u32
}
