//! How calls are timed, and how their times are printed: Markdown tables.
use std::hint::black_box;
use std::time::Instant;

/// How often each call is timed, and about how many seconds the calls of one sample take together.
#[derive(Clone, Copy)]
pub struct Effort {
    pub repetitions: usize,
    sample: f64,
}

/// The effort of a run, and that of a quick try.
pub const WHOLE: Effort = Effort { repetitions: 21, sample: 1e-3 };
pub const QUICK: Effort = Effort { repetitions: 3, sample: 1e-5 };

/// The most calls of a sample.
const MOST_CALLS: f64 = 1_000.0;

/// A call that gives the seconds that it took.
pub type Turn<'a> = &'a mut dyn FnMut() -> f64;

/// The times of a call in seconds: ours, which is checked, our core, and the Rust.
pub struct Row {
    pub call: String,
    pub checked: f64,
    pub core: f64,
    pub rust: f64,
}

/// The seconds that a call takes; what it gives is released afterwards.
pub fn seconds<T>(call: impl FnOnce() -> T) -> f64 {
    let begin = Instant::now();
    let result = black_box(call());
    let seconds = begin.elapsed().as_secs_f64();
    drop(result);
    seconds
}

/// The seconds that one of our calls takes, which must not refuse.
pub fn answered(call: impl FnOnce() -> u32) -> f64 {
    let mut number = 0;
    let seconds = seconds(|| number = call());
    assert_eq!(number, 0, "a call is refused");
    seconds
}

/// The median.
fn median(mut times: Vec<f64>) -> f64 {
    times.sort_by(f64::total_cmp);
    times[times.len() / 2]
}

impl Effort {
    /// The median of each call, all timed in turn; a sample is the mean of several calls where one is short.
    pub fn medians<const N: usize>(self, mut turns: [Turn; N]) -> [f64; N] {
        let counts = turns.each_mut().map(|turn| (self.sample / turn()).clamp(1.0, MOST_CALLS) as usize);
        let mut samples = [const { Vec::new() }; N];
        for _ in 0..self.repetitions {
            for ((turn, count), samples) in turns.iter_mut().zip(counts).zip(&mut samples) {
                samples.push((0..count).map(|_| turn()).sum::<f64>() / count as f64);
            }
        }
        samples.map(median)
    }

    /// The times of our call, checked and core, and of the Rust's.
    pub fn row<T>(
        self,
        call: String,
        mut checked: impl FnMut() -> u32,
        mut core: impl FnMut() -> u32,
        mut rust: impl FnMut() -> T,
    ) -> Row {
        let (checked, core) = (&mut || answered(&mut checked), &mut || answered(&mut core));
        let [checked, core, rust] = self.medians([checked, core, &mut || seconds(&mut rust)]);
        Row { call, checked, core, rust }
    }
}

/// A number in words, with three figures where it is not below 1, else with two.
fn figures(value: f64) -> String {
    let places = match value {
        100.0.. => 0,
        10.0.. => 1,
        1.0.. => 2,
        _ => 2 + (-value.log10()) as usize,
    };
    format!("{value:.places$}")
}

/// A time in words.
pub fn time(seconds: f64) -> String {
    let (value, unit) = match seconds {
        1.0.. => (seconds, "s"),
        1e-3.. => (seconds * 1e3, "ms"),
        1e-6.. => (seconds * 1e6, "µs"),
        _ => (seconds * 1e9, "ns"),
    };
    format!("{} {unit}", figures(value))
}

/// How often a time goes into another, in words.
pub fn ratio(other: f64, time: f64) -> String {
    figures(other / time)
}

/// A number with commas between thousands.
pub fn grouped(number: usize) -> String {
    let digits = number.to_string();
    let comma = |place: usize| if place > 0 && (digits.len() - place) % 3 == 0 { "," } else { "" };
    digits.chars().enumerate().map(|(place, digit)| format!("{}{digit}", comma(place))).collect()
}

/// Prints a table; every column but the first is of numbers.
pub fn print_table(title: &str, heading: &[&str], rows: &[Vec<String>]) {
    println!("\n### {title}\n\n| {} |", heading.join(" | "));
    println!("|---{}|", "|---:".repeat(heading.len() - 1));
    for row in rows {
        println!("| {} |", row.join(" | "));
    }
}

/// Prints the table of calls that are there checked, as cores and in Rust.
pub fn print_rows(title: &str, rows: &[Row]) {
    let cells = |row: &Row| {
        let ratios = [row.checked, row.core].map(|ours| ratio(row.rust, ours));
        [row.call.clone()].into_iter().chain([row.checked, row.core, row.rust].map(time)).chain(ratios).collect()
    };
    let heading = ["call", "ours, checked", "ours, core", "Rust", "Rust / checked", "Rust / core"];
    print_table(title, &heading, &rows.iter().map(cells).collect::<Vec<_>>());
}
