//! Times our library beside the Rust, GUDHI and fdlibm's C on the same inputs, measures the stack of our calls, and prints Markdown tables.
#[macro_use]
#[allow(dead_code)]
#[path = "../bindings/rust/src/ffi.rs"]
mod ffi;

mod builder;
mod check;
#[path = "../oracle/checked.rs"]
mod checked;
mod floats;
mod goals;
mod growth;
mod hinges;
mod inputs;
mod lattices;
mod local;
mod near;
mod pentachoron;
mod profile;
#[path = "../oracle/fdlibm/reference.rs"]
mod reference;
mod retouch;
mod rust_crate;
mod small;
mod stack;
mod tables;

use goals::Measured;
use inputs::Input;
use stack::Stack;
use std::process::ExitCode;
use tables::{Effort, QUICK, Row, WHOLE, print_rows};

/// Prints the table of calls over an input's complex, and gives their times.
fn print_calls(effort: Effort, input: &Input) -> Vec<Row> {
    let calls = [hinges::rows(effort, input), local::rows(effort, input), retouch::rows(effort, input).into()];
    let rows: Vec<Row> = calls.into_iter().flatten().collect();
    print_rows(&input.name, &rows);
    rows
}

/// Prints all tables.
fn print(effort: Effort) {
    println!("Medians of {} samples.", effort.repetitions);
    let inputs = Input::all();
    let (builder, check) = (builder::print(effort, &inputs), check::print(effort, &inputs));
    let calls = inputs.iter().map(|input| print_calls(effort, input)).collect::<Vec<_>>().swap_remove(0);
    lattices::print(effort, &inputs[0]);
    rust_crate::print(effort, &inputs[0]);
    pentachoron::print(effort, &[&inputs[0], &inputs[2]]);
    floats::print(effort);
    growth::print(effort);
    let stack = Stack::of_all_calls();
    stack.print();
    goals::print(&Measured { builder, check, calls, stack: stack.most() });
}

/// Chooses the mode.
fn main() -> ExitCode {
    let arguments: Vec<String> = std::env::args().skip(1).collect();
    match arguments.iter().map(String::as_str).collect::<Vec<_>>()[..] {
        [] => print(WHOLE),
        ["quick"] => print(QUICK),
        ["stack"] => Stack::of_all_calls().print_all(),
        ["profile", call] => profile::run(call),
        _ => {
            eprintln!("usage: bench [quick | stack | profile CALL]");
            return ExitCode::from(2);
        }
    }
    ExitCode::SUCCESS
}
