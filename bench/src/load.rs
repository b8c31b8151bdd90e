// The inputs that are timed: six loads, each with patterns of 1, 3 and 5 slots that match late or never.
use crate::ffi::{self, ENOUGH};
use crate::verdict::EVENTS;

/// A pattern and a log, both as bytes.
pub struct Input {
    pub load: &'static str,
    pub slots: usize,
    pub ending: &'static str,
    pub pattern: Vec<u8>,
    pub log: Vec<u8>,
    pub events: usize,
}

pub const LOADS: [&str; 6] = ["Note 11", "dense", "staged", "locks", "sparse", "no fit"];
pub const SIZES: [usize; 3] = [1, 3, 5];
pub const ENDINGS: [&str; 2] = ["late", "never"];

/// The mark of every pattern's last slot. But for the staged load, a log that matches late passes it in its last event alone, and one that
/// never matches passes it nowhere.
const PLANTED: u16 = 1000;

/// A row of bytes, command by command.
#[derive(Default)]
pub struct Bytes(pub Vec<u8>);

impl Bytes {
    /// A command with one-byte operands.
    pub fn plain(&mut self, op: u8, thread: u8, object: u8) {
        self.0.extend([op, thread, object]);
    }

    pub fn write(&mut self, thread: u8, variable: u8, height: i32) {
        self.plain(2, thread, variable);
        self.0.extend(height.to_le_bytes());
    }

    pub fn mark(&mut self, thread: u8, mark: u16) {
        self.0.extend([7, thread]);
        self.0.extend(mark.to_le_bytes());
    }

    pub fn close(mut self) -> Vec<u8> {
        self.0.push(0);
        self.0
    }
}

/// Numbers drawn for the other loads, by the step of Note 11.
pub struct Steps(pub u32);

impl Steps {
    pub fn next(&mut self) -> u32 {
        self.0 = self.0.wrapping_mul(1664525).wrapping_add(1013904223);
        self.0
    }

    /// A number below `n` from the high bits of one step.
    pub fn below(&mut self, n: u32) -> u32 {
        ((self.next() as u64 * n as u64) >> 32) as u32
    }
}

/// The load of Note 11 by the library's own call, not closed.
pub fn note_11(seed: u32, count: usize) -> Bytes {
    let mut log = vec![0; ENOUGH];
    let length = ffi::load(seed, count, &mut log).expect("a buffer of that size has room for every load");
    log.truncate(length - 1);
    Bytes(log)
}

/// Puts the event of a slot, counted from 0 among five. A pattern has the last ones.
fn put_slot(load: &str, slot: usize, height: i32, bytes: &mut Bytes) {
    let write = |bytes: &mut Bytes, thread, variable| match height {
        i32::MIN => bytes.plain(2, thread, variable),
        _ => bytes.write(thread, variable, height),
    };
    match (load, slot) {
        ("locks", 0) => bytes.plain(3, 1, 3),
        ("locks", 1) => bytes.plain(1, 2, 2),
        ("locks", 2) => write(bytes, 3, 1),
        ("locks", 3) => bytes.mark(4, 4),
        (_, 0) => bytes.mark(0, 1),
        (_, 1) => write(bytes, 1, 2),
        (_, 2) => bytes.plain(1, 2, 3),
        (_, 3) => bytes.mark(3, 4),
        _ => bytes.mark(4, PLANTED),
    }
}

fn pattern(load: &str, size: usize) -> Vec<u8> {
    let mut whole = Bytes::default();
    for slot in 5 - size..5 {
        put_slot(load, slot, i32::MIN, &mut whole);
    }
    whole.close()
}

/// The slots before the last. A pattern of one slot has none, so there they are those of three slots.
fn before_last(size: usize) -> Vec<usize> {
    (5 - size.max(3)..4).collect()
}

/// Nine of ten events fit one of the slots given; the rest are reads and writes by any thread.
fn dense_event(steps: &mut Steps, slots: &[usize], log: &mut Bytes) {
    let height = steps.below(4096) as i32 - 2048;
    if steps.below(10) > 0 {
        return put_slot("dense", slots[steps.below(slots.len() as u32) as usize], height, log);
    }
    let thread = steps.below(5) as u8;
    let variable = 8 + steps.below(8) as u8;
    match steps.below(2) {
        0 => log.plain(1, thread, variable),
        _ => log.write(thread, variable, height),
    }
}

/// Every slot but the last is filled again and again.
fn dense(size: usize, count: usize) -> Bytes {
    let mut steps = Steps(7);
    let mut log = Bytes::default();
    let slots = before_last(size);
    for _ in 0..count {
        dense_event(&mut steps, &slots, &mut log);
    }
    log
}

/// Every slot is filled again and again, and still there is no match: one stage per slot, in which that slot alone is not filled, and
/// between two stages each of the five threads writes one variable twice, so that all events of a stage come before all of the next.
fn staged(size: usize, count: usize) -> Bytes {
    let mut steps = Steps(7);
    let mut log = Bytes::default();
    let size = size.max(3);
    let part = count / size + 1;
    for n in 0..count {
        let stage = 5 - size + n / part;
        if n % part < 10 {
            log.write((n % part % 5) as u8, 31, 0);
            continue;
        }
        let slots: Vec<usize> = (5 - size..5).filter(|&slot| slot != stage).collect();
        dense_event(&mut steps, &slots, &mut log);
    }
    log
}

/// One event in a hundred fits one of the slots given, and none where none is given; the rest are reads, writes and marks by any thread.
fn mostly_unfit(slots: &[usize], count: usize) -> Bytes {
    let mut steps = Steps(13);
    let mut log = Bytes::default();
    for _ in 0..count {
        let height = steps.below(4096) as i32 - 2048;
        if !slots.is_empty() && steps.below(100) == 0 {
            put_slot("sparse", slots[steps.below(slots.len() as u32) as usize], height, &mut log);
            continue;
        }
        let thread = steps.below(5) as u8;
        let object = 8 + steps.below(8) as u8;
        match steps.below(3) {
            0 => log.plain(1, thread, object),
            1 => log.write(thread, object, height),
            _ => log.mark(thread, object as u16),
        }
    }
    log
}

/// A crew of eight under the rules: threads 4 to 7 are forked by 0 one after another, 5 to 7 are joined near the end, locks are held for a
/// few events.
struct Crew {
    steps: Steps,
    held: [Option<u8>; 8],
    free: [bool; 16],
    running: u8,
}

impl Crew {
    /// One event of a thread that runs: it takes a lock, gives it back, or does its work.
    fn act(&mut self, log: &mut Bytes) {
        let thread = self.steps.below(self.running as u32) as u8;
        let lock = self.steps.below(16) as u8;
        match (self.held[thread as usize], self.steps.below(4)) {
            (Some(held), 0) => {
                log.plain(4, thread, held);
                self.held[thread as usize] = None;
                self.free[held as usize] = true;
            }
            (None, 0 | 1) if self.free[lock as usize] => {
                log.plain(3, thread, lock);
                self.held[thread as usize] = Some(lock);
                self.free[lock as usize] = false;
            }
            _ => self.work(thread, log),
        }
    }

    fn work(&mut self, thread: u8, log: &mut Bytes) {
        let object = self.steps.below(8) as u8;
        match self.steps.below(4) {
            0 | 1 => log.plain(1, thread, object),
            2 => log.write(thread, object, self.steps.below(4096) as i32 - 2048),
            _ => log.mark(thread, object as u16),
        }
    }
}

fn locks(count: usize) -> Bytes {
    let mut log = Bytes::default();
    let mut crew = Crew { steps: Steps(11), held: [None; 8], free: [true; 16], running: 4 };
    let part = count / 16 + 1;
    for n in 1..=count {
        let due = n % part == 0;
        if due && n / part <= 4 {
            log.plain(5, 0, crew.running);
            crew.running += 1;
        } else if due && n / part >= 12 && crew.running > 5 {
            crew.running -= 1;
            log.plain(6, 0, crew.running);
        } else {
            crew.act(&mut log);
        }
    }
    log
}

/// One input: `count` events, of which the last fits the last slot where the ending is late.
pub fn input(load: &'static str, slots: usize, ending: &'static str, count: usize) -> Input {
    let late = ending == "late";
    let before = count - usize::from(late);
    let mut log = match load {
        "Note 11" => note_11(0, before),
        "dense" => dense(slots, before),
        "staged" => staged(slots, before),
        "sparse" => mostly_unfit(&before_last(slots), before),
        "no fit" => mostly_unfit(&[], before),
        _ => locks(before),
    };
    if late {
        log.mark(4, PLANTED);
    }
    Input { load, slots, ending, pattern: pattern(load, slots), log: log.close(), events: count }
}

/// Every input of the table. A staged load with one slot would match at its first stage. Where no event is to fit, none is planted either,
/// so that nothing matches late.
pub fn inputs() -> Vec<Input> {
    let mut all = Vec::new();
    for load in LOADS {
        for slots in SIZES {
            for ending in ENDINGS {
                let early = load == "staged" && slots == 1;
                let planted = load == "no fit" && ending == "late";
                if !early && !planted {
                    all.push(input(load, slots, ending, EVENTS));
                }
            }
        }
    }
    all
}
