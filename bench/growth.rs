//! How the time of our calls grows with the number of pentachorons.
use crate::builder::Builder;
use crate::check::Checked;
use crate::hinges::{self, Hinges};
use crate::inputs::Input;
use crate::local::{self, Local, some_edges};
use crate::retouch::{self, Retouch};
use crate::tables::{Effort, answered, grouped, print_table, time};

/// The lattices, small to large.
const SIZES: [(usize, usize); 8] = [(2, 2), (3, 2), (2, 3), (3, 3), (2, 4), (5, 3), (4, 4), (5, 4)];

/// How many pentachorons are drawn at random, each over half as many vertices.
const COUNTS: [usize; 6] = [256, 512, 1_024, 2_048, 4_096, 8_192];

/// How many free edges the local gradient has.
const FREE: usize = 10;

/// The calls: the first four are over the whole complex, the others over a part.
const CALLS: [&str; 6] =
    ["builder", "check", "deficits, core", "gradient, core", "local gradient, 10 free, core", "retouch, core"];
const WHOLE: usize = 4;

/// The times of the calls, after their answers were compared with the Rust's.
fn times(effort: Effort, input: &Input) -> [f64; 6] {
    let (mut builder, mut checked) = (Builder::new(input.given.clone()), Checked::new(&input.complex));
    let (mut deficits, mut gradient) = (Hinges::new(input), Hinges::new(input));
    let free = &some_edges(&input.complex, FREE);
    let (mut local, mut retouch) = (Local::new(input, free), Retouch::new(input));
    builder.verify(&input.complex);
    checked.verify();
    hinges::verify(input, &mut gradient, &mut deficits);
    local::verify(input, free, &mut Local::new(input, free), &mut local);
    retouch::verify(input, &mut Retouch::new(input), &mut retouch);
    effort.medians([
        &mut || answered(|| builder.make()),
        &mut || answered(|| checked.make()),
        &mut || answered(|| deficits.deficits_core()),
        &mut || answered(|| gradient.gradient_core()),
        &mut || answered(|| local.gradient_core()),
        &mut || answered(|| retouch.make_core()),
    ])
}

/// The power of the number of pentachorons with which times grow: the slope of their logarithms, by least squares.
fn power(points: impl Iterator<Item = (f64, f64)>) -> f64 {
    let logs: Vec<(f64, f64)> = points.map(|(x, y)| (x.ln(), y.ln())).collect();
    let mean = |part: fn(&(f64, f64)) -> f64| logs.iter().map(part).sum::<f64>() / logs.len() as f64;
    let (x, y) = (mean(|log| log.0), mean(|log| log.1));
    let above: f64 = logs.iter().map(|log| (log.0 - x) * (log.1 - y)).sum();
    let below: f64 = logs.iter().map(|log| (log.0 - x) * (log.0 - x)).sum();
    above / below
}

/// Prints a table: of calls over the whole complex the time a pentachoron too, and last the powers.
fn print_growth(effort: Effort, title: &str, inputs: impl Iterator<Item = (String, Input)>) {
    let (mut rows, mut measured) = (Vec::new(), Vec::new());
    for (name, input) in inputs {
        let (count, times) = (input.given.1.len(), times(effort, &input));
        let each = |call| if call < WHOLE { format!(" ({})", time(times[call] / count as f64)) } else { "".into() };
        let cells = (0..CALLS.len()).map(|call| format!("{}{}", time(times[call]), each(call)));
        rows.push([name, grouped(count)].into_iter().chain(cells).collect());
        measured.push((count as f64, times));
    }
    let powers = (0..CALLS.len()).map(|call| power(measured.iter().map(|(count, times)| (*count, times[call]))));
    let cells = powers.map(|power| format!("{power:.2}"));
    rows.push(["power of the number".into(), "".into()].into_iter().chain(cells).collect());
    print_table(title, &[&["", "pentachorons"][..], &CALLS].concat(), &rows);
}

/// Prints the tables.
pub fn print(effort: Effort) {
    let lattices = SIZES.into_iter().map(|size| (format!("({}, {})", size.0, size.1), Input::lattice(size)));
    print_growth(effort, "Growth: lattices", lattices);
    let random = COUNTS.into_iter().map(|count| {
        let n_vertices = count / 2;
        (format!("{} vertices", grouped(n_vertices)), Input::random(n_vertices, count))
    });
    print_growth(effort, "Growth: random pentachorons", random);
}
