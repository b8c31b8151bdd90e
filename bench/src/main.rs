// Compares the proved run with a port of PATTERNTRACK, with decoding alone, with a session and with its own algorithm in unproved Rust, on
// the same inputs in one process.
//
// With no word: agreement, the table, the goals, what is timed beside runs, the plot (to the file that BENCH_PLOT names, else growth.svg).
// `agree`: agreement alone. `beside`: reasons, replays, order queries, rows of sessions, loads and orders beside runs alone. `once WHO LOAD SLOTS ENDING`:
// one call, for a tool that counts instructions.
mod agree;
mod beside;
mod clocks;
mod contest;
mod decode;
mod ffi;
mod goals;
mod greedy;
mod load;
mod patterntrack;
mod plot;
mod reference;
mod time;
mod verdict;

/// The word of a list that was given as an argument.
fn chosen<const N: usize>(words: [&'static str; N], given: &str) -> &'static str {
    words.into_iter().find(|w| *w == given).unwrap_or_else(|| panic!("{given} is none of {words:?}"))
}

fn once(words: &[String]) {
    let (_, contestant) = contest::ALL.into_iter().find(|(name, _)| *name == words[0]).expect("a, b, c, d or e");
    let slots = words[2].parse().expect("1, 3 or 5");
    let input = load::input(chosen(load::LOADS, &words[1]), slots, chosen(load::ENDINGS, &words[3]), verdict::EVENTS);
    println!("{:?}", time::bench_counted(contestant, &input));
}

fn table() {
    println!(
        "ns of processor time an event, the least of {} runs, the five in turns on the same buffers; each call sets up its own state,",
        time::ROUNDS
    );
    println!("nothing else is cleared. {} events. (d) is handed one event at a time.\n", verdict::EVENTS);
    let rows = time::rows();
    time::print(&rows);
    goals::print(&rows);
    beside::print();
    let file = std::env::var("BENCH_PLOT").unwrap_or("growth.svg".into());
    std::fs::write(&file, plot::growth()).expect("the plot can't be written");
    println!("\nThe plot is in {file}.");
}

fn main() {
    let words: Vec<String> = std::env::args().skip(1).collect();
    match words.first().map(String::as_str) {
        Some("once") => once(&words[1..]),
        Some("agree") => agree::all(),
        Some("beside") => beside::print(),
        _ => {
            agree::all();
            table();
        }
    }
}
