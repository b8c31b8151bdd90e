// What the proved run and the proved session are to reach beside the others, and how far they are from each goal at worst.
use crate::contest;
use crate::load::Input;
use crate::time::Row;
use Limit::{Above, AtLeast, AtMost};

/// What a goal asks of a ratio.
#[derive(Clone, Copy)]
enum Limit {
    AtMost(f64),
    AtLeast(f64),
    Above(f64),
}

impl Limit {
    fn holds(self, ratio: f64) -> bool {
        match self {
            AtMost(limit) => ratio <= limit,
            AtLeast(limit) => ratio >= limit,
            Above(limit) => ratio > limit,
        }
    }

    /// Whether one ratio is further from the goal than another.
    fn worse(self, ratio: f64, other: f64) -> bool {
        match self {
            AtMost(_) => ratio > other,
            AtLeast(_) | Above(_) => ratio < other,
        }
    }
}

/// A limit for the ratio of two contestants on one load (on every load where none is named) and number of slots (on each where it is 0).
struct Goal {
    words: &'static str,
    load: &'static str,
    slots: usize,
    ratio: [usize; 2],
    limit: Limit,
}

/// The places of contestants in a row.
const A: usize = 0;
const B: usize = 1;
const C: usize = 2;
const D: usize = 3;
const E: usize = 4;

const GOALS: [Goal; 15] = [
    Goal { words: "(a) below (b) on every input", load: "", slots: 0, ratio: [B, A], limit: Above(1.0) },
    Goal { words: "(a) at least 5 times as fast as (b), dense, 5 slots", load: "dense", slots: 5, ratio: [B, A], limit: AtLeast(5.0) },
    Goal { words: "(a) at least 5 times as fast as (b), staged, 5 slots", load: "staged", slots: 5, ratio: [B, A], limit: AtLeast(5.0) },
    Goal { words: "(a) at most 1.5 times (c), Note 11", load: "Note 11", slots: 0, ratio: [A, C], limit: AtMost(1.5) },
    Goal { words: "(a) at most 1.5 times (c), dense", load: "dense", slots: 0, ratio: [A, C], limit: AtMost(1.5) },
    Goal { words: "(a) at most 1.5 times (c), no fit", load: "no fit", slots: 0, ratio: [A, C], limit: AtMost(1.5) },
    Goal { words: "(a) at most 2.5 times (c), staged", load: "staged", slots: 0, ratio: [A, C], limit: AtMost(2.5) },
    Goal { words: "(a) at most 1.25 times (e) on every input", load: "", slots: 0, ratio: [A, E], limit: AtMost(1.25) },
    Goal { words: "(d) at most 8 times (a), Note 11", load: "Note 11", slots: 0, ratio: [D, A], limit: AtMost(8.0) },
    Goal { words: "(d) at most 2 times (b), Note 11, 1 slot", load: "Note 11", slots: 1, ratio: [D, B], limit: AtMost(2.0) },
    Goal { words: "(d) at most 2 times (b), Note 11, 3 slots", load: "Note 11", slots: 3, ratio: [D, B], limit: AtMost(2.0) },
    Goal { words: "(d) at most 1.5 times (b), Note 11, 5 slots", load: "Note 11", slots: 5, ratio: [D, B], limit: AtMost(1.5) },
    Goal { words: "(d) at most 4 times (c), no fit", load: "no fit", slots: 0, ratio: [D, C], limit: AtMost(4.0) },
    Goal { words: "(d) below (b), dense, 5 slots", load: "dense", slots: 5, ratio: [B, D], limit: Above(1.0) },
    Goal { words: "(d) below (b), staged, 5 slots", load: "staged", slots: 5, ratio: [B, D], limit: Above(1.0) },
];

impl Goal {
    fn speaks_of(&self, input: &Input) -> bool {
        (self.load.is_empty() || self.load == input.load) && (self.slots == 0 || self.slots == input.slots)
    }

    fn ratio_in(&self, row: &Row) -> f64 {
        let [over, under] = self.ratio;
        row.least[over] / row.least[under]
    }

    /// The row whose ratio is the worst of those that the goal speaks of.
    fn worst<'a>(&self, rows: &'a [Row]) -> &'a Row {
        let worse = |one, other| if self.limit.worse(self.ratio_in(other), self.ratio_in(one)) { other } else { one };
        rows.iter().filter(|row| self.speaks_of(&row.input)).reduce(worse).expect("every goal speaks of a row")
    }

    fn print(&self, rows: &[Row]) {
        let row = self.worst(rows);
        let ratio = self.ratio_in(row);
        let Input { load, slots, ending, .. } = row.input;
        let [over, under] = self.ratio.map(|who| contest::ALL[who].0);
        let reached = if self.limit.holds(ratio) { "yes" } else { "NO" };
        println!("| {} | {over}/{under} {ratio:.2} | {load}, {slots}, {ending} | {reached} |", self.words);
    }
}

/// Each goal with the worst ratio of the rows that it speaks of, and where that is.
pub fn print(rows: &[Row]) {
    println!("\n| goal | worst ratio in this run | at load, slots, match | reached |");
    println!("|---|---|---|---|");
    for goal in GOALS {
        goal.print(rows);
    }
}
