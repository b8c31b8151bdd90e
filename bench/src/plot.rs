// Draws time against the number of events, up to the most that a log holds, as an SVG.
use crate::contest::MANY;
use crate::load;
use crate::time;
use crate::verdict::EVENTS;
use std::fmt::Write;

const POINTS: usize = 16;
const WIDTH: f64 = 420.0;
const HEIGHT: f64 = 300.0;
const LEFT: f64 = 60.0;
const TOP: f64 = 40.0;
const COLOURS: [&str; MANY] = ["#c0392b", "#2c6fbb", "#777777", "#2e8b57", "#b9770e"];
const NAMES: [&str; MANY] = ["(a) run", "(b) PATTERNTRACK", "(c) decode", "(d) session", "(e) unproved"];

/// For each number of events, the least time of each contestant in ms.
struct Growth {
    load: &'static str,
    events: Vec<usize>,
    times: Vec<[f64; MANY]>,
}

fn measure(load: &'static str) -> Growth {
    let events: Vec<usize> = (1..=POINTS).map(|k| k * (EVENTS + 1) / POINTS - 1).collect();
    let inputs: Vec<_> = events.iter().map(|&n| load::input(load, 5, "never", n)).collect();
    let least = time::least(&inputs);
    let times = events.iter().zip(least).map(|(&n, least)| least.map(|ns| ns * n as f64 / 1e6));
    Growth { load, times: times.collect(), events }
}

impl Growth {
    fn highest(&self) -> f64 {
        self.times.iter().flatten().copied().fold(0.0, f64::max) * 1.05
    }

    /// One contestant's times as points of a line.
    fn line(&self, who: usize) -> String {
        let mut points = String::new();
        for (n, times) in self.events.iter().zip(&self.times) {
            let x = LEFT + WIDTH * *n as f64 / EVENTS as f64;
            let y = TOP + HEIGHT * (1.0 - times[who] / self.highest());
            let _ = write!(points, "{x:.1},{y:.1} ");
        }
        points
    }

    fn axes(&self) -> String {
        let mut s = String::new();
        let bottom = TOP + HEIGHT;
        let _ = writeln!(s, "<path d=\"M{LEFT},{TOP}V{bottom}H{}\" fill=\"none\" stroke=\"black\"/>", LEFT + WIDTH);
        let title = format!("{}, 5 slots, never matching", self.load);
        let _ = writeln!(s, "<text x=\"{}\" y=\"{}\" text-anchor=\"middle\">{title}</text>", LEFT + WIDTH / 2.0, TOP - 14.0);
        for part in 0..=4 {
            let share = part as f64 / 4.0;
            let (x, y) = (LEFT + WIDTH * share, bottom - HEIGHT * share);
            let (events, ms) = (EVENTS as f64 * share, self.highest() * share);
            let _ = writeln!(s, "<text x=\"{x}\" y=\"{}\" text-anchor=\"middle\">{events:.0}</text>", bottom + 16.0);
            let _ = writeln!(s, "<text x=\"{}\" y=\"{}\" text-anchor=\"end\">{ms:.2}</text>", LEFT - 6.0, y + 4.0);
        }
        let _ = writeln!(s, "<text x=\"{}\" y=\"{}\" text-anchor=\"middle\">events</text>", LEFT + WIDTH / 2.0, bottom + 34.0);
        let _ = writeln!(s, "<text x=\"8\" y=\"{}\">ms</text>", TOP - 14.0);
        s
    }

    /// The panel, moved `right`.
    fn panel(&self, right: f64) -> String {
        let mut s = format!("<g transform=\"translate({right},0)\">\n{}", self.axes());
        for who in 0..MANY {
            let (colour, y) = (COLOURS[who], TOP + 14.0 + 18.0 * who as f64);
            let _ = writeln!(s, "<polyline points=\"{}\" fill=\"none\" stroke=\"{colour}\" stroke-width=\"1.5\"/>", self.line(who));
            let _ = writeln!(s, "<text x=\"{}\" y=\"{y}\" fill=\"{colour}\">{}</text>", LEFT + 12.0, NAMES[who]);
        }
        s + "</g>\n"
    }

    /// ns an event at the fewest and at the most events: equal where the growth is linear.
    fn say(&self) {
        let per_event = |at: usize, who: usize| self.times[at][who] * 1e6 / self.events[at] as f64;
        for who in 0..MANY {
            let (few, many) = (per_event(0, who), per_event(POINTS - 1, who));
            println!("| {} | {} | {few:.1} | {many:.1} | {:.2} |", self.load, NAMES[who], many / few);
        }
    }
}

/// Measures, prints how far the growth is from linear, and gives the drawing.
pub fn growth() -> String {
    let panels = [measure("Note 11"), measure("staged")];
    println!("\n| load, 5 slots, never | who | ns an event at {} events | at {EVENTS} | ratio |", (EVENTS + 1) / POINTS - 1);
    println!("|---|---|---|---|---|");
    panels.iter().for_each(Growth::say);
    let (wide, high) = (2.0 * (LEFT + WIDTH) + 40.0, TOP + HEIGHT + 50.0);
    let mut svg =
        format!("<svg xmlns=\"http://www.w3.org/2000/svg\" viewBox=\"0 0 {wide} {high}\" font-family=\"sans-serif\" font-size=\"12\">\n");
    svg += &format!("<rect width=\"{wide}\" height=\"{high}\" fill=\"white\"/>\n");
    for (n, panel) in panels.iter().enumerate() {
        svg += &panel.panel(n as f64 * (LEFT + WIDTH + 20.0));
    }
    svg + "</svg>\n"
}
