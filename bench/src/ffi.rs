// The functions of the proved static library, declared as its C header has them, with one safe wrapper each.
use crate::verdict::{found, Judged, Outcome, Reason, Refusal, Relation, EVENTS, LOCKS, PLACES, SLOTS, THREADS, VARIABLES};

#[repr(C)]
struct Judgement {
    kind: u8,
    number: u8,
    events: [u16; SLOTS],
    count: usize,
    offset: usize,
}

#[repr(C)]
struct Reasoned {
    judgement: Judgement,
    slot: usize,
    last: usize,
    earlier: usize,
    events: [u16; SLOTS],
}

#[repr(C)]
struct Replayed {
    judgement: Judgement,
    length: usize,
}

#[repr(C)]
struct Ordering {
    kind: u8,
    number: u8,
    offset: usize,
}

#[repr(C)]
struct Answer {
    number: u8,
    offset: usize,
}

#[repr(C)]
struct Load {
    number: u8,
    offset: usize,
    length: usize,
}

/// An event in numbers, whatever they are.
#[repr(C)]
#[derive(Clone, Copy, Debug)]
pub struct Event {
    pub thread: u32,
    pub operation: u32,
    pub object: u32,
    pub height: i32,
}

impl Event {
    /// Of numbers as wide as those of a log.
    #[inline(always)]
    pub fn new(thread: u8, operation: u8, object: u16, height: i32) -> Event {
        Event { thread: thread as u32, operation: operation as u32, object: object as u32, height }
    }
}

/// How many numbers the parts of a session have that grow with the threads: clocks of each thread, of the reads and writes of each variable, and of each
/// lock; of the rules an entry for each thread, and two for each lock.
const CLOCKS: usize = (THREADS + 2 * VARIABLES + LOCKS) * THREADS;
const STATE: usize = THREADS + 2 * LOCKS;

/// The most sessions that a row has.
pub const ROW: usize = 16;

/// Enough bytes for every load.
pub const ENOUGH: usize = 7 * EVENTS + 1;

/// What became of an event in a row: how many sessions refused it, the lowest place, from 1, that did, and the number of its refusal.
#[repr(C)]
#[derive(PartialEq, Eq, Debug)]
pub struct RowReport {
    pub number: u8,
    pub offset: usize,
    pub count: usize,
    pub place: usize,
}

/// What is answered about the orders of a log: an order by the event numbers at its places, that the given one was the last, or a refusal.
#[repr(C)]
#[derive(Clone, Copy, PartialEq, Eq, Debug)]
pub struct OrderRow {
    kind: u8,
    number: u8,
    pub events: [u8; PLACES],
    offset: usize,
}

impl OrderRow {
    pub const LAST: OrderRow = OrderRow { kind: 10, number: 0, events: [0; PLACES], offset: 0 };

    pub fn order(events: [u8; PLACES]) -> OrderRow {
        OrderRow { kind: 9, number: 0, events, offset: 0 }
    }

    pub fn is_order(&self) -> bool {
        self.kind == 9
    }

    pub fn log_refused(r: Refusal) -> OrderRow {
        OrderRow { kind: 3, number: r.number, events: [0; PLACES], offset: r.offset }
    }

    pub fn query_refused(number: u8) -> OrderRow {
        OrderRow { kind: 4, number, events: [0; PLACES], offset: 0 }
    }
}

/// A session as the library lays it out. No byte of it is padding, so that two are equal where their bytes are.
#[repr(C)]
#[derive(Clone, PartialEq, Eq)]
pub struct Session {
    slots: [u32; SLOTS],
    size: u32,
    clocks: [u16; CLOCKS],
    table: [u16; 512],
    taken: u16,
    count: u16,
    state: [u8; STATE],
}

#[repr(C)]
struct Opening {
    number: u8,
    offset: usize,
    slots: usize,
    session: Session,
}

const _: () = assert!(size_of::<Session>() == 4172 && size_of::<Opening>() == 4200);
const _: () = assert!(size_of::<Event>() == 16 && size_of::<RowReport>() == 32);
const _: () = assert!(size_of::<Load>() == 24 && size_of::<OrderRow>() == 24);
const _: () = assert!(size_of::<Reasoned>() == 72);

extern "C" {
    fn bilguzor_run(pattern: *const u8, pattern_size: usize, log: *const u8, log_size: usize) -> Judgement;
    fn bilguzor_reason(pattern: *const u8, pattern_size: usize, log: *const u8, log_size: usize) -> Reasoned;
    fn bilguzor_replay(
        pattern: *const u8,
        pattern_size: usize,
        log: *const u8,
        log_size: usize,
        buffer: *mut u8,
        buffer_size: usize,
    ) -> Replayed;
    fn bilguzor_order(log: *const u8, log_size: usize, first: usize, second: usize) -> Ordering;
    fn bilguzor_load(seed: u32, count: usize, buffer: *mut u8, buffer_size: usize) -> Load;
    fn bilguzor_first_order(log: *const u8, log_size: usize) -> OrderRow;
    fn bilguzor_next_order(log: *const u8, log_size: usize, order: *const u8, order_size: usize) -> OrderRow;
    fn bilguzor_open(pattern: *const u8, pattern_size: usize) -> Opening;
    fn bilguzor_take(
        slots: *const u32,
        size: u32,
        clocks: *mut u16,
        table: *mut u16,
        taken: *mut u16,
        count: *mut u16,
        state: *mut u8,
        thread: u32,
        operation: u32,
        object: u32,
        height: i32,
    ) -> Answer;
    fn bilguzor_take_all(row: *mut Session, row_size: usize, event: Event) -> RowReport;
    fn bilguzor_verdict(size: u32, table: *const u16, count: u16) -> Judgement;
}

fn judged(j: Judgement) -> Judged {
    let refusal = Refusal { number: j.number, offset: j.offset };
    let outcome = match j.kind {
        0 | 1 => found(j.count),
        2 => Outcome::PatternRefused(refusal),
        _ => Outcome::LogRefused(refusal),
    };
    Judged { outcome, numbers: j.events }
}

/// A run over a whole log.
pub fn run(pattern: &[u8], log: &[u8]) -> Judged {
    // Safe: both slices are lent for the call with their lengths, and the library only reads them.
    judged(unsafe { bilguzor_run(pattern.as_ptr(), pattern.len(), log.as_ptr(), log.len()) })
}

/// A run over a whole log and, without a match, why.
pub fn reason(pattern: &[u8], log: &[u8]) -> (Judged, Reason) {
    // Safe: both slices are lent for the call with their lengths, and the library only reads them.
    let r = unsafe { bilguzor_reason(pattern.as_ptr(), pattern.len(), log.as_ptr(), log.len()) };
    (judged(r.judgement), Reason { slot: r.slot, last: r.last, earlier: r.earlier, events: r.events })
}

/// A run over a whole log and, with a match, the log that shows it at the start of the buffer: how many bytes it has.
pub fn replay(pattern: &[u8], log: &[u8], buffer: &mut [u8]) -> (Judged, usize) {
    // Safe: the slices are lent for the call with their lengths, and the library writes to the buffer alone.
    let replayed = unsafe {
        bilguzor_replay(pattern.as_ptr(), pattern.len(), log.as_ptr(), log.len(), buffer.as_mut_ptr(), buffer.len())
    };
    (judged(replayed.judgement), replayed.length)
}

/// How event `first` of the log stands to event `second`.
pub fn order(log: &[u8], first: usize, second: usize) -> Result<Relation, Refusal> {
    // Safe: the slice is lent for the call with its length, and the library only reads it.
    let answer = unsafe { bilguzor_order(log.as_ptr(), log.len(), first, second) };
    match answer.kind {
        5 => Ok(Relation::Same),
        6 => Ok(Relation::Before),
        7 => Ok(Relation::After),
        8 => Ok(Relation::Free),
        _ => Err(Refusal { number: answer.number, offset: answer.offset }),
    }
}

/// The load of a seed and a count at the start of the buffer: how many bytes it has.
pub fn load(seed: u32, count: usize, buffer: &mut [u8]) -> Result<usize, Refusal> {
    // Safe: the slice is lent for the call with its length.
    let load = unsafe { bilguzor_load(seed, count, buffer.as_mut_ptr(), buffer.len()) };
    match load.number {
        0 => Ok(load.length),
        number => Err(Refusal { number, offset: load.offset }),
    }
}

/// The first order of a log.
pub fn first_order(log: &[u8]) -> OrderRow {
    // Safe: the slice is lent for the call with its length, and the library only reads it.
    unsafe { bilguzor_first_order(log.as_ptr(), log.len()) }
}

/// The order of a log after a given one.
pub fn next_order(log: &[u8], order: &[u8]) -> OrderRow {
    // Safe: both slices are lent for the call with their lengths, and the library only reads them.
    unsafe { bilguzor_next_order(log.as_ptr(), log.len(), order.as_ptr(), order.len()) }
}

/// Hands over one event to each session of a row.
#[inline(always)]
pub fn take_all(row: &mut [Session], event: Event) -> RowReport {
    // Safe: the slice is lent for the call with its length, and its sessions came from openings.
    unsafe { bilguzor_take_all(row.as_mut_ptr(), row.len(), event) }
}

impl Session {
    /// A session on the pattern, on the lone slot where it is refused; how many slots it has, or the refusal.
    pub fn open(pattern: &[u8]) -> (Session, Result<usize, Refusal>) {
        // Safe: the slice is lent for the call with its length, and the library only reads it.
        let opening = unsafe { bilguzor_open(pattern.as_ptr(), pattern.len()) };
        let refusal = Refusal { number: opening.number, offset: opening.offset };
        let answer = if opening.number == 0 { Ok(opening.slots) } else { Err(refusal) };
        (opening.session, answer)
    }

    /// Hands over one event: 0 where it is taken, else the number of its refusal.
    #[inline(always)]
    pub fn take(&mut self, event: Event) -> u8 {
        // Safe: the parts are arrays of the sizes that the library was compiled with, no two overlap, and they came from an opening.
        let answer = unsafe {
            bilguzor_take(
                self.slots.as_ptr(),
                self.size,
                self.clocks.as_mut_ptr(),
                self.table.as_mut_ptr(),
                &mut self.taken,
                &mut self.count,
                self.state.as_mut_ptr(),
                event.thread,
                event.operation,
                event.object,
                event.height,
            )
        };
        answer.number
    }

    /// What the session has found in the events taken so far.
    pub fn verdict(&self) -> Judged {
        // Safe: as above, and the library only reads the parts.
        judged(unsafe { bilguzor_verdict(self.size, self.table.as_ptr(), self.count) })
    }
}
