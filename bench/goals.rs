//! The goals for the largest lattice, and for the stack, beside what was measured.
use crate::tables::{Row, print_table, ratio};

/// What a ratio is to be at least: of a checked call over all hinges, a local core, the builder, the check, and the core of the retouch.
const CHECKED: f64 = 2.5;
const LOCAL: f64 = 3.0;
const BUILDER: f64 = 4.0;
const CHECK: f64 = 10.0;
const RETOUCH: f64 = 3.0;

/// How many MiB of stack a public call is to stay below.
const STACK: f64 = 1.75;

/// What was measured: the builder's times, the check's, those of the calls over the complex, and the most bytes of stack.
pub struct Measured {
    pub builder: [f64; 3],
    pub check: [f64; 2],
    pub calls: Vec<Row>,
    pub stack: usize,
}

/// A line of the table.
fn line(call: &str, asked: String, measured: String, reached: bool) -> Vec<String> {
    vec![call.into(), asked, measured, if reached { "yes" } else { "no" }.into()]
}

/// The line of a ratio.
fn line_of(call: &str, goal: f64, other: f64, ours: f64) -> Vec<String> {
    line(call, format!("at least {goal}"), ratio(other, ours), other / ours >= goal)
}

/// The line of a call over the complex, if it has a goal.
fn line_of_call(row: &Row) -> Option<Vec<String>> {
    let call = row.call.split(';').next()?;
    let (checked, core) = (format!("{call}, checked"), format!("{call}, core"));
    match call.split(' ').next()? {
        "deficits" | "action" | "gradient" => Some(line_of(&checked, CHECKED, row.rust, row.checked)),
        "local" => Some(line_of(&core, LOCAL, row.rust, row.core)),
        "retouch" => Some(line_of(&core, RETOUCH, row.rust, row.core)),
        _ => None,
    }
}

/// Prints the table.
pub fn print(measured: &Measured) {
    let ([builder, rust, gudhi], [check, deficits]) = (measured.builder, measured.check);
    let mut lines = vec![
        line_of("from_pentachorons; Rust", BUILDER, rust, builder),
        line_of("from_pentachorons; GUDHI's least", 1.0, gudhi, builder),
        line_of("check_built; the Rust's deficits", CHECK, deficits, check),
    ];
    lines.extend(measured.calls.iter().filter_map(line_of_call));
    let mib = measured.stack as f64 / (1 << 20) as f64;
    lines.push(line("stack of any public call", format!("below {STACK} MiB"), format!("{mib:.2} MiB"), mib < STACK));
    print_table("Goals: ratios on lattice (5, 4), and the stack", &["", "asked", "measured", "reached"], &lines);
}
