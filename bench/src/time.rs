// Times the contestants on the same buffers, in turns within one process, and keeps the least time of each.
use crate::contest::{self, Contestant, MANY};
use crate::load::{self, Input};
use crate::verdict::Outcome;
use std::hint::black_box;

pub const ROUNDS: usize = 51;

/// An input with the least time of each contestant, in ns an event.
pub struct Row {
    pub input: Input,
    pub least: [f64; MANY],
}

#[repr(C)]
struct TimeSpec {
    seconds: i64,
    nanoseconds: i64,
}

/// Linux's clock of the processor time that the calling thread has used.
const THREAD_TIME: i32 = 3;

extern "C" {
    fn clock_gettime(clock: i32, time: *mut TimeSpec) -> i32;
}

/// The processor time of this thread in ns: what passes while other work has the processor does not count.
pub fn thread_time() -> i64 {
    let mut time = TimeSpec { seconds: 0, nanoseconds: 0 };
    // Safe: the C library writes one struct of this layout.
    let status = unsafe { clock_gettime(THREAD_TIME, &mut time) };
    assert_eq!(status, 0, "no clock of processor time");
    time.seconds * 1_000_000_000 + time.nanoseconds
}

/// One call, in ns. The call sets up all that it needs itself, and nothing is cleared before it.
fn once(contestant: Contestant, input: &Input) -> f64 {
    let start = thread_time();
    let outcome: Outcome = contestant(black_box(&input.pattern), black_box(&input.log));
    let spent = thread_time() - start;
    black_box(outcome);
    spent as f64
}

/// For each input the least time of each contestant, in ns an event. A round goes through all inputs, so that a noisy while of the machine
/// falls on all of them; and it starts with another contestant than the last, so that none always follows the same one.
pub fn least(inputs: &[Input]) -> Vec<[f64; MANY]> {
    let mut least = vec![[f64::MAX; MANY]; inputs.len()];
    for round in 0..ROUNDS {
        for (input, least) in inputs.iter().zip(&mut least) {
            for turn in 0..MANY {
                let who = (round + turn) % MANY;
                let time = once(contest::ALL[who].1, input) / input.events as f64;
                least[who] = least[who].min(time);
            }
        }
    }
    least
}

/// Every input of the table, timed.
pub fn rows() -> Vec<Row> {
    let inputs = load::inputs();
    let least = least(&inputs);
    inputs.into_iter().zip(least).map(|(input, least)| Row { input, least }).collect()
}

/// The table, as Markdown.
pub fn print(rows: &[Row]) {
    println!("| load | slots | match | (a) run | (b) PATTERNTRACK | (c) decode | (d) session | (e) unproved | a/c | b/a | d/a | a/e |");
    println!("|---|---|---|---|---|---|---|---|---|---|---|---|");
    for Row { input, least: [a, b, c, d, e] } in rows {
        let Input { load, slots, ending, .. } = input;
        print!("| {load} | {slots} | {ending} | {a:.1} | {b:.1} | {c:.1} | {d:.1} | {e:.1} ");
        println!("| {:.2} | {:.2} | {:.2} | {:.2} |", a / c, b / a, d / a, a / e);
    }
}

/// One call and no more, for a tool that counts instructions from this function's start to its end.
#[no_mangle]
#[inline(never)]
pub fn bench_counted(contestant: Contestant, input: &Input) -> Outcome {
    contestant(&input.pattern, &input.log)
}
