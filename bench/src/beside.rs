// Times what stands beside the run alone: a reason, a replay and an order query, a row of sessions, making a load, and going through orders.
use crate::contest;
use crate::ffi::{self, Session};
use crate::load::{self, Bytes, Input};
use crate::reference;
use crate::time::{thread_time, ROUNDS};
use crate::verdict::{Outcome, EVENTS, PLACES};
use std::hint::black_box;

/// How many patterns are looked for at once.
const PATTERNS: usize = 12;

/// The time of a call in ns, for each of so many.
fn per<T>(count: usize, call: impl FnOnce() -> T) -> f64 {
    let start = thread_time();
    black_box(call());
    (thread_time() - start) as f64 / count as f64
}

/// The time of a call in ns an event.
fn per_event<T>(input: &Input, call: impl FnOnce() -> T) -> f64 {
    per(input.events, call)
}

/// The least time of each in ns an event, the three in turns, as Markdown, on the inputs whose match is the last event: each group's pass then
/// goes as far as it can. The query is about the first event and the last.
fn replays_and_queries() {
    println!("\n| load | slots | match | run | replay | replay to run | query | query to run |\n|---|---|---|---|---|---|---|---|");
    for input in load::inputs().iter().filter(|input| input.ending == "late") {
        let (pattern, log) = (&input.pattern[..], &input.log[..]);
        let mut buffer = vec![0; log.len()];
        let mut least = [f64::MAX; 3];
        for _ in 0..ROUNDS {
            let run = per_event(input, || ffi::run(black_box(pattern), black_box(log)));
            let replay = per_event(input, || ffi::replay(black_box(pattern), black_box(log), &mut buffer));
            let query = per_event(input, || ffi::order(black_box(log), 1, input.events));
            least = [least[0].min(run), least[1].min(replay), least[2].min(query)];
        }
        let [run, replay, query] = least;
        let (load, slots, ending) = (input.load, input.slots, input.ending);
        println!("| {load} | {slots} | {ending} | {run:.1} | {replay:.1} | {:.2} | {query:.1} | {:.2} |", replay / run, query / run);
    }
}

/// The least time of a run and of a reason in ns an event, the two in turns, as Markdown, on the inputs that never match. Where the last event that fits is
/// too early, a pass more stamps the events of the slots before.
fn reasons() {
    println!("\n| load | slots | match | no event fits, or too early | run | reason | reason to run |\n|---|---|---|---|---|---|---|");
    for input in load::inputs().iter().filter(|input| input.ending == "never") {
        let (pattern, log) = (&input.pattern[..], &input.log[..]);
        let case = if ffi::reason(pattern, log).1.last == 0 { "no event fits" } else { "too early" };
        let mut least = [f64::MAX; 2];
        for _ in 0..ROUNDS {
            let run = per_event(input, || ffi::run(black_box(pattern), black_box(log)));
            let reason = per_event(input, || ffi::reason(black_box(pattern), black_box(log)));
            least = [least[0].min(run), least[1].min(reason)];
        }
        let [run, reason] = least;
        let (load, slots, ending) = (input.load, input.slots, input.ending);
        println!("| {load} | {slots} | {ending} | {case} | {run:.1} | {reason:.1} | {:.2} |", reason / run);
    }
}

/// The input's pattern of three slots, and the same with other objects of the load in the first two; the last slot, which decides whether
/// there is a match, stays.
fn patterns(input: &Input) -> Vec<Vec<u8>> {
    let mut patterns = vec![input.pattern.clone(); PATTERNS];
    for (pattern, k) in patterns.iter_mut().zip(0..) {
        pattern[2] = (pattern[2] + k) % 8;
        pattern[5] = (pattern[5] + k / 4) % 8;
    }
    patterns
}

/// A session on each pattern, and what they have found once `hand` has handed every event of the log to all of them.
#[inline(always)]
fn by_sessions(patterns: &[Vec<u8>], log: &[u8], hand: impl Fn(&mut [Session], ffi::Event) -> u8) -> Vec<Outcome> {
    let mut row: Vec<Session> = patterns.iter().map(|pattern| Session::open(pattern).0).collect();
    let end = contest::each_event(log, |event| hand(&mut row, event));
    assert_eq!(end, Ok(()), "an event is refused");
    row.iter().map(|session| session.verdict().outcome).collect()
}

/// One call an event.
#[inline(never)]
fn by_row(patterns: &[Vec<u8>], log: &[u8]) -> Vec<Outcome> {
    by_sessions(patterns, log, |row, event| ffi::take_all(row, event).number)
}

/// One call an event and session.
#[inline(never)]
fn by_takes(patterns: &[Vec<u8>], log: &[u8]) -> Vec<Outcome> {
    by_sessions(patterns, log, |row, event| row.iter_mut().fold(0, |number, session| number | session.take(event)))
}

/// One call a pattern.
#[inline(never)]
fn by_runs(patterns: &[Vec<u8>], log: &[u8]) -> Vec<Outcome> {
    patterns.iter().map(|pattern| ffi::run(pattern, log).outcome).collect()
}

fn by_one_run(patterns: &[Vec<u8>], log: &[u8]) -> Vec<Outcome> {
    by_runs(&patterns[..1], log)
}

/// The least time of each in ns an event, the four in turns, as Markdown. Each time all must find the same.
fn rows() {
    println!("\n| load | patterns | slots | match | row | takes | runs | one run | row to takes | row to runs | row to one run |");
    println!("|---|---|---|---|---|---|---|---|---|---|---|");
    for ending in load::ENDINGS {
        let input = load::input("Note 11", 3, ending, EVENTS);
        let patterns = patterns(&input);
        let found = by_runs(&patterns, &input.log);
        let mut least = [f64::MAX; 4];
        for _ in 0..ROUNDS {
            for (least, call) in least.iter_mut().zip([by_row, by_takes, by_runs, by_one_run]) {
                let call = || call(black_box(&patterns), black_box(&input.log));
                *least = least.min(per_event(&input, || assert!(found.starts_with(&call()))));
            }
        }
        let [row, takes, runs, one] = least;
        print!("| Note 11 | {PATTERNS} | 3 | {ending} | {row:.1} | {takes:.1} | {runs:.1} | {one:.1} ");
        println!("| {:.2} | {:.2} | {:.2} |", row / takes, row / runs, row / one);
    }
}

/// The least time of making the load in ns an event, by the library's call and by the rule in plain Rust, and of a run over it, the three in turns, as
/// Markdown.
fn loads() {
    println!("\n| load | library | plain Rust | run | library to Rust | library to run |\n|---|---|---|---|---|---|");
    let input = load::input("Note 11", 3, "never", EVENTS);
    let mut buffer = vec![0; ffi::ENOUGH];
    let mut least = [f64::MAX; 3];
    for _ in 0..ROUNDS {
        let library = per_event(&input, || ffi::load(black_box(0), black_box(EVENTS), &mut buffer));
        let rust = per_event(&input, || reference::load(black_box(0), black_box(EVENTS)));
        let run = per_event(&input, || ffi::run(black_box(&input.pattern), black_box(&input.log)));
        least = [least[0].min(library), least[1].min(rust), least[2].min(run)];
    }
    let [library, rust, run] = least;
    println!("| Note 11 | {library:.1} | {rust:.1} | {run:.1} | {:.2} | {:.2} |", library / rust, library / run);
}

/// How many orders the library's calls give, one after the other.
#[inline(never)]
fn by_calls(log: &[u8]) -> usize {
    let mut row = ffi::first_order(log);
    let mut count = 0;
    while row.is_order() {
        count += 1;
        row = ffi::next_order(log, &row.events);
    }
    count
}

/// A log that fills all places with marks of so many threads, in turns.
fn marks(threads: usize) -> Vec<u8> {
    let mut log = Bytes::default();
    for n in 0..PLACES {
        log.mark((n % threads) as u8, n as u16);
    }
    log.close()
}

/// The least time of going through all orders of a log in ns an order, by the library's calls and by swaps in plain Rust, which keeps them all, the two in
/// turns, as Markdown.
fn orders() {
    println!("\n| threads | events | orders | library | plain Rust | library to Rust |\n|---|---|---|---|---|---|");
    for threads in [2, 4, 8] {
        let log = marks(threads);
        let list: Vec<_> = reference::read_log(&log).expect("the log is a good one").iter().map(|e| e.label).collect();
        let count = reference::orders(&list).len();
        let mut least = [f64::MAX; 2];
        for _ in 0..ROUNDS {
            let library = per(count, || assert_eq!(by_calls(black_box(&log)), count));
            let rust = per(count, || reference::orders(black_box(&list)));
            least = [least[0].min(library), least[1].min(rust)];
        }
        let [library, rust] = least;
        println!("| {threads} | {PLACES} | {count} | {library:.1} | {rust:.1} | {:.2} |", library / rust);
    }
}

pub fn print() {
    replays_and_queries();
    reasons();
    rows();
    loads();
    orders();
}
