// A session that is handed its events one by one, rows of sessions, runs over whole logs, reasons, a replay, order queries, loads, and all orders of short
// logs, through libbilguzor.a and the three libraries beside it.
// `bilguzor.h` says what each function answers; the declarations below are the same.
#[repr(C)]
struct Judgement {
    kind: u8,
    number: u8,
    events: [u16; 5],
    count: usize,
    offset: usize,
}

#[repr(C)]
struct Reasoned {
    judgement: Judgement,
    slot: usize,
    last: usize,
    earlier: usize,
    events: [u16; 5],
}

#[repr(C)]
struct Replayed {
    judgement: Judgement,
    length: usize,
}

#[repr(C)]
struct Ordering {
    kind: u8,
    number: u8,
    offset: usize,
}

#[repr(C)]
struct Answer {
    number: u8,
    offset: usize,
}

#[repr(C)]
#[derive(Clone, Copy)]
struct Event {
    thread: u32,
    operation: u32,
    object: u32,
    height: i32,
}

#[repr(C)]
struct RowReport {
    number: u8,
    offset: usize,
    count: usize,
    place: usize,
}

#[repr(C)]
struct LoadMade {
    number: u8,
    offset: usize,
    length: usize,
}

// How many places an order has.
const PLACES: usize = 8;

#[repr(C)]
struct OrderRow {
    kind: u8,
    number: u8,
    events: [u8; PLACES],
    offset: usize,
}

// The limits of threads, variables and locks, and with them how many numbers the parts of a session have.
const THREADS: usize = 16;
const VARIABLES: usize = 32;
const LOCKS: usize = 16;
const CLOCKS: usize = (THREADS + 2 * VARIABLES + LOCKS) * THREADS;
const STATE: usize = THREADS + 2 * LOCKS;
const TABLE: usize = 512;

// No byte of it is padding, so that two are equal where their bytes are.
#[repr(C)]
#[derive(Clone, PartialEq)]
struct Session {
    slots: [u32; 5],
    size: u32,
    clocks: [u16; CLOCKS],
    table: [u16; TABLE],
    taken: u16,
    count: u16,
    state: [u8; STATE],
}

#[repr(C)]
struct Opening {
    number: u8,
    offset: usize,
    slots: usize,
    session: Session,
}

// The sizes that the library was compiled with.
const _: () = assert!(std::mem::size_of::<Judgement>() == 32);
const _: () = assert!(std::mem::size_of::<Reasoned>() == 72);
const _: () = assert!(std::mem::size_of::<Replayed>() == 40);
const _: () = assert!(std::mem::size_of::<Ordering>() == 16);
const _: () = assert!(std::mem::size_of::<Answer>() == 16);
const _: () = assert!(std::mem::size_of::<Event>() == 16);
const _: () = assert!(std::mem::size_of::<RowReport>() == 32);
const _: () = assert!(std::mem::size_of::<LoadMade>() == 24);
const _: () = assert!(std::mem::size_of::<OrderRow>() == 24);
const _: () = assert!(std::mem::size_of::<Session>() == 4172);
const _: () = assert!(std::mem::size_of::<Opening>() == 4200);

extern "C" {
    fn bilguzor_run(pattern: *const u8, pattern_size: usize, log: *const u8, log_size: usize) -> Judgement;
    fn bilguzor_reason(pattern: *const u8, pattern_size: usize, log: *const u8, log_size: usize) -> Reasoned;
    fn bilguzor_replay(
        pattern: *const u8,
        pattern_size: usize,
        log: *const u8,
        log_size: usize,
        buffer: *mut u8,
        buffer_size: usize,
    ) -> Replayed;
    fn bilguzor_order(log: *const u8, log_size: usize, first: usize, second: usize) -> Ordering;
    fn bilguzor_open(pattern: *const u8, pattern_size: usize) -> Opening;
    fn bilguzor_take(
        slots: &[u32; 5],
        size: u32,
        clocks: &mut [u16; CLOCKS],
        table: &mut [u16; TABLE],
        taken: &mut u16,
        count: &mut u16,
        state: &mut [u8; STATE],
        thread: u32,
        operation: u32,
        object: u32,
        height: i32,
    ) -> Answer;
    fn bilguzor_take_all(row: *mut Session, row_size: usize, event: Event) -> RowReport;
    fn bilguzor_load(seed: u32, count: usize, buffer: *mut u8, buffer_size: usize) -> LoadMade;
    fn bilguzor_first_order(log: *const u8, log_size: usize) -> OrderRow;
    fn bilguzor_next_order(log: *const u8, log_size: usize, order: *const u8, order_size: usize) -> OrderRow;
    fn bilguzor_verdict(size: u32, table: &[u16; TABLE], count: u16) -> Judgement;
    fn bilguzor_version() -> u32;
}

const VERSION: u32 = 6;

// The most sessions that a row has.
const ROW: usize = 16;

// The most events that a log has, and enough bytes for every load.
const EVENTS: usize = 65535;
const LOAD_SIZE: usize = 7 * EVENTS + 1;

const NO: u8 = 0;
const YES: u8 = 1;
const PATTERN_REFUSED: u8 = 2;
const LOG_REFUSED: u8 = 3;
const SAME: u8 = 5;
const BEFORE: u8 = 6;
const AFTER: u8 = 7;
const FREE: u8 = 8;
const ORDER: u8 = 9;
const LAST: u8 = 10;

const WRITE: u32 = 2;
const ACQUIRE: u32 = 3;
const RELEASE: u32 = 4;
const JOIN: u32 = 6;
const MARK: u32 = 7;

// A slice's pointer is never null, so each call below is within what the header asks.
fn run(pattern: &[u8], log: &[u8]) -> Judgement {
    unsafe { bilguzor_run(pattern.as_ptr(), pattern.len(), log.as_ptr(), log.len()) }
}

fn reason(pattern: &[u8], log: &[u8]) -> Reasoned {
    unsafe { bilguzor_reason(pattern.as_ptr(), pattern.len(), log.as_ptr(), log.len()) }
}

fn replay(pattern: &[u8], log: &[u8], buffer: &mut [u8]) -> Replayed {
    unsafe { bilguzor_replay(pattern.as_ptr(), pattern.len(), log.as_ptr(), log.len(), buffer.as_mut_ptr(), buffer.len()) }
}

fn order(log: &[u8], first: usize, second: usize) -> Ordering {
    unsafe { bilguzor_order(log.as_ptr(), log.len(), first, second) }
}

fn open(pattern: &[u8]) -> Opening {
    unsafe { bilguzor_open(pattern.as_ptr(), pattern.len()) }
}

fn take_all(row: &mut [Session], event: Event) -> RowReport {
    unsafe { bilguzor_take_all(row.as_mut_ptr(), row.len(), event) }
}

fn load(seed: u32, count: usize, buffer: &mut [u8]) -> LoadMade {
    unsafe { bilguzor_load(seed, count, buffer.as_mut_ptr(), buffer.len()) }
}

fn first_order(log: &[u8]) -> OrderRow {
    unsafe { bilguzor_first_order(log.as_ptr(), log.len()) }
}

fn next_order(log: &[u8], order: &[u8]) -> OrderRow {
    unsafe { bilguzor_next_order(log.as_ptr(), log.len(), order.as_ptr(), order.len()) }
}

impl Session {
    fn take(&mut self, thread: u32, operation: u32, object: u32, height: i32) -> Answer {
        unsafe {
            bilguzor_take(
                &self.slots,
                self.size,
                &mut self.clocks,
                &mut self.table,
                &mut self.taken,
                &mut self.count,
                &mut self.state,
                thread,
                operation,
                object,
                height,
            )
        }
    }

    fn verdict(&self) -> Judgement {
        unsafe { bilguzor_verdict(self.size, &self.table, self.count) }
    }
}

fn words(events: [u16; 5]) -> String {
    events.map(|e| e.to_string()).join(" ")
}

fn print_judgement(what: &str, j: &Judgement) {
    match j.kind {
        YES => println!("{what}: match at {}, events {}", j.count, words(j.events)),
        NO => println!("{what}: no match"),
        kind => {
            let whose = if kind == PATTERN_REFUSED { "pattern" } else { "log" };
            println!("{what}: {whose} refused {} at {}", j.number, j.offset);
        }
    }
}

fn print_reason(what: &str, r: &Reasoned) {
    print_judgement(what, &r.judgement);
    println!("{what}: slot {}, last event {}, earlier slot {}, events {}", r.slot, r.last, r.earlier, words(r.events));
}

fn print_ordering(what: &str, o: &Ordering) {
    match o.kind {
        SAME => println!("{what}: same"),
        BEFORE => println!("{what}: before"),
        AFTER => println!("{what}: after"),
        FREE => println!("{what}: free"),
        kind => {
            let whose = if kind == LOG_REFUSED { "log" } else { "query" };
            println!("{what}: {whose} refused {} at {}", o.number, o.offset);
        }
    }
}

fn print_order(what: &str, r: &OrderRow) {
    match r.kind {
        ORDER => print!("{what}: order"),
        LAST => print!("{what}: last,"),
        kind => {
            let whose = if kind == LOG_REFUSED { "log" } else { "query" };
            print!("{what}: {whose} refused {} at {},", r.number, r.offset);
        }
    }
    for e in r.events {
        print!(" {e}");
    }
    println!();
}

fn hand(session: &mut Session, thread: u32, operation: u32, object: u32, height: i32) {
    let a = session.take(thread, operation, object, height);
    print!("thread {thread} operation {operation} object {object}: ");
    if a.number != 0 {
        print!("refused {} at {}, ", a.number, a.offset);
    }
    print!("{} taken", session.taken);
    print_judgement("", &session.verdict());
}

fn open_session(what: &str, pattern: &[u8]) -> Session {
    let o = open(pattern);
    if o.number == 0 {
        println!("{what}: {} slots", o.slots);
    } else {
        println!("{what}: refused {} at {}", o.number, o.offset);
    }
    o.session
}

fn sessions() {
    // thread 1 mark 10, thread 0 mark 20, thread 0 mark 21, thread 1 mark 11
    let marks = [7, 1, 10, 0, 7, 0, 20, 0, 7, 0, 21, 0, 7, 1, 11, 0, 0];
    let mut session = open_session("four marks", &marks);
    hand(&mut session, 1, MARK, 10, 0);
    hand(&mut session, 1, MARK, 11, 0);
    hand(&mut session, THREADS as u32, MARK, 20, 0);
    hand(&mut session, 0, 0, 20, 0);
    hand(&mut session, 0, MARK, 65536, 0);
    hand(&mut session, 0, WRITE, 32, -400);
    hand(&mut session, 0, WRITE, 31, -400);
    hand(&mut session, 0, MARK, 20, 0);
    hand(&mut session, 0, MARK, 21, 0);
    hand(&mut session, 0, RELEASE, 3, 0);
    let mut lone = open_session("no slot", &[0]);
    hand(&mut lone, 0, MARK, 0, 0);
}

// Thread 0 takes lock 2 as deep as it can be held, and once more.
fn locks() {
    let mut session = open_session("a mark", &[7, 1, 11, 0, 0]);
    for _ in 0..254 {
        session.take(0, ACQUIRE, 2, 0);
    }
    hand(&mut session, 0, ACQUIRE, 2, 0);
    hand(&mut session, 0, ACQUIRE, 2, 0);
    hand(&mut session, 1, ACQUIRE, 2, 0);
}

// Hands one event to a row, and by itself to a copy of each session, which must end with the same bytes; too long a row must stay as it was.
fn hand_row(row: &mut [Session], e: Event) {
    let mut copies = row.to_vec();
    let fits = row.len() <= ROW;
    let r = take_all(row, e);
    for session in copies.iter_mut().filter(|_| fits) {
        session.take(e.thread, e.operation, e.object, e.height);
    }
    let bytes = if row == copies { "each session" } else { "NOT each session" };
    print!("row of {}, thread {} operation {} object {}: ", row.len(), e.thread, e.operation, e.object);
    print!("number {} at {}, {} refused, lowest place {}, ", r.number, r.offset, r.count, r.place);
    println!("{bytes} as {}", if fits { "alone" } else { "it was" });
}

const MARK_3: Event = Event { thread: 2, operation: MARK, object: 3, height: 0 };
const NO_OPERATION: Event = Event { thread: 2, operation: 0, object: 3, height: 0 };
const LOCK_5: Event = Event { thread: 2, operation: ACQUIRE, object: 5, height: 0 };

// Place 16 is full; then thread 1 holds lock 5 at place 8; then thread 2 is joined at place 1.
fn row_refusals(row: &mut [Session]) {
    while row[15].take(0, MARK, 0, 0).number == 0 {}
    hand_row(row, MARK_3);
    row[7].take(1, ACQUIRE, 5, 0);
    hand_row(row, LOCK_5);
    row[0].take(1, JOIN, 2, 0);
    hand_row(row, LOCK_5);
}

// The session of each place looks for thread 2's mark of that number.
fn rows() {
    let mut row: Vec<Session> = (1..=ROW as u8 + 1).map(|place| open(&[7, 2, place, 0, 0]).session).collect();
    for size in [0, 1, ROW, ROW + 1] {
        hand_row(&mut row[..size], MARK_3);
        hand_row(&mut row[..size], NO_OPERATION);
    }
    row_refusals(&mut row[..ROW]);
    print_judgement("place 2", &row[1].verdict());
    print_judgement("place 3", &row[2].verdict());
}

// thread 1 mark 11; thread 0 writes variable 0, height -400 mm
const SIGN_LOG: [u8; 12] = [7, 1, 11, 0, 2, 0, 0, 0x70, 0xFE, 0xFF, 0xFF, 0];

// thread 0 acquires lock 2, thread 1 acquires it
const HELD_LOG: [u8; 7] = [3, 0, 2, 3, 1, 2, 0];

// thread 0 writes variable 0, thread 1 mark 11
const SIGN: [u8; 8] = [2, 0, 0, 7, 1, 11, 0, 0];

const OTHER: [u8; 5] = [7, 1, 12, 0, 0];
const OPEN_ENDED: [u8; 4] = [7, 1, 12, 0];

fn runs() {
    print_judgement("run", &run(&SIGN, &SIGN_LOG));
    print_judgement("run", &run(&OTHER, &SIGN_LOG));
    print_judgement("run", &run(&OTHER, &HELD_LOG));
    print_judgement("run", &run(&OPEN_ENDED, &HELD_LOG));
}

fn reasons() {
    // thread 1 acquires lock 3, marks 10 and 11 and releases it; thread 0 acquires it, writes variable 0 and releases it
    let panel_log = [3, 1, 3, 7, 1, 10, 0, 7, 1, 11, 0, 4, 1, 3, 3, 0, 3, 2, 0, 0, 0x70, 0xFE, 0xFF, 0xFF, 4, 0, 3, 0];
    // thread 1 mark 10, thread 0 writes variable 0, thread 1 mark 11
    let panel = [7, 1, 10, 0, 2, 0, 0, 7, 1, 11, 0, 0];
    print_reason("panel with the lock", &reason(&panel, &panel_log));
    print_ordering("3 and 6", &order(&panel_log, 3, 6));
    print_reason("no such event", &reason(&OTHER, &SIGN_LOG));
    print_reason("a match", &reason(&SIGN, &SIGN_LOG));
    print_reason("held lock", &reason(&OTHER, &HELD_LOG));
    print_reason("open end", &reason(&OPEN_ENDED, &HELD_LOG));
}

fn replays() {
    let mut buffer = [0; SIGN_LOG.len()];
    let r = replay(&SIGN, &SIGN_LOG, &mut buffer);
    print_judgement("replay", &r.judgement);
    let written = &buffer[..r.length];
    let bytes: Vec<String> = written.iter().map(|b| format!("{b:02X}")).collect();
    println!("replay of {} bytes: {}", r.length, bytes.join(" "));
    print_judgement("run over the replay", &run(&SIGN, written));
    let r = replay(&SIGN, &SIGN_LOG, &mut buffer[1..]);
    print_judgement("replay, a byte too short", &r.judgement);
}

fn orders() {
    // thread 0 writes variable 3, thread 1 reads it, thread 1 marks 5
    let log = [2, 0, 3, 0, 0, 0, 0, 1, 1, 3, 7, 1, 5, 0, 0];
    print_ordering("1 and 3", &order(&log, 1, 3));
    print_ordering("3 and 1", &order(&log, 3, 1));
    print_ordering("2 and 2", &order(&log, 2, 2));
    print_ordering("1 and 2, independent", &order(&SIGN_LOG, 1, 2));
    print_ordering("1 and 4", &order(&log, 1, 4));
    print_ordering("1 and 2", &order(&HELD_LOG, 1, 2));
}

fn print_load(seed: u32, count: usize, buffer: &mut [u8]) -> usize {
    let l = load(seed, count, buffer);
    print!("load of seed {seed}, count {count} in {} bytes: ", buffer.len());
    if l.number != 0 {
        print!("refused {} at {}, ", l.number, l.offset);
    }
    print!("{} written:", l.length);
    for b in buffer[..l.length].iter().take(12) {
        print!(" {b:02X}");
    }
    println!();
    l.length
}

fn loads() {
    // thread 1 mark 7, thread 0 mark 6
    let marks = [7, 1, 7, 0, 7, 0, 6, 0, 0];
    let mut buffer = vec![0; LOAD_SIZE];
    print_load(0, 0, &mut buffer[..1]);
    print_load(0, 1, &mut buffer[..5]);
    print_load(0, 1, &mut buffer[..4]);
    print_load(u32::MAX, 2, &mut buffer[..100]);
    print_load(0, EVENTS + 1, &mut buffer[..0]);
    let length = print_load(0, EVENTS, &mut buffer);
    print_judgement("run over the load", &run(&marks, &buffer[..length]));
}

// Prints every order of a log and what is answered after the last.
fn go_through(what: &str, log: &[u8]) {
    let mut r = first_order(log);
    print_order(what, &r);
    while r.kind == ORDER {
        r = next_order(log, &r.events);
        print_order(what, &r);
    }
}

// Eight threads mark 1: how many orders there are, and the last of them.
fn eight_marks() {
    let log = [7, 0, 1, 0, 7, 1, 1, 0, 7, 2, 1, 0, 7, 3, 1, 0, 7, 4, 1, 0, 7, 5, 1, 0, 7, 6, 1, 0, 7, 7, 1, 0, 0];
    let mut last = first_order(&log);
    let mut next = next_order(&log, &last.events);
    let mut count = 1;
    while next.kind == ORDER {
        last = next;
        next = next_order(&log, &last.events);
        count += 1;
    }
    println!("eight marks: {count} orders");
    print_order("eight marks", &last);
}

// thread 0 acquires lock 2 and releases it, thread 1 marks 11 and acquires lock 2
const LOCK_LOG: [u8; 14] = [3, 0, 2, 4, 0, 2, 7, 1, 11, 0, 3, 1, 2, 0];

// thread 0 marks 1, nine times
const NINE_LOG: [u8; 37] =
    [7, 0, 1, 0, 7, 0, 1, 0, 7, 0, 1, 0, 7, 0, 1, 0, 7, 0, 1, 0, 7, 0, 1, 0, 7, 0, 1, 0, 7, 0, 1, 0, 7, 0, 1, 0, 0];

fn all_orders() {
    go_through("lock and mark", &LOCK_LOG);
    go_through("no event", &[0]);
    eight_marks();
    go_through("nine marks", &NINE_LOG);
    go_through("held lock", &HELD_LOG);
}

// One order, and lists that are none: with dependent events turned round, with an event twice, with one too many, with seven and with nine places.
fn given_orders() {
    let order = [1, 3, 2, 4, 0, 0, 0, 0, 0];
    print_order("after 1 3 2 4", &next_order(&LOCK_LOG, &order[..PLACES]));
    print_order("after 1 3 4 2", &next_order(&LOCK_LOG, &[1, 3, 4, 2, 0, 0, 0, 0]));
    print_order("after 1 3 2 2", &next_order(&LOCK_LOG, &[1, 3, 2, 2, 0, 0, 0, 0]));
    print_order("after 1 3 2 4 5", &next_order(&LOCK_LOG, &[1, 3, 2, 4, 5, 0, 0, 0]));
    print_order("after seven places", &next_order(&LOCK_LOG, &order[..PLACES - 1]));
    print_order("after nine places", &next_order(&LOCK_LOG, &order));
    print_order("nine marks, after nine places", &next_order(&NINE_LOG, &order));
    print_order("held lock, after nine places", &next_order(&HELD_LOG, &order));
}

fn main() {
    let version = unsafe { bilguzor_version() };
    println!("version {version}{}", if version == VERSION { "" } else { ", which is not the header's" });
    sessions();
    locks();
    rows();
    runs();
    reasons();
    replays();
    orders();
    loads();
    all_orders();
    given_orders();
}
