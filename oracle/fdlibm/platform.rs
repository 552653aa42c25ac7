//! Measures how far Rust's own functions, those of the platform, are from our answers, a dump of which is read from standard input.
#[path = "../regge/distance.rs"]
mod distance;
#[allow(dead_code)]
#[path = "../table.rs"]
mod table;

use distance::Distance;
use std::io::{Read, Result, stdin};

/// Rust's function of our name.
fn named(name: &str) -> fn(f64) -> f64 {
    match name {
        "root" => f64::sqrt,
        "log" => f64::ln,
        "log1p" => f64::ln_1p,
        "acos" => f64::acos,
        "acosh" => f64::acosh,
        "asinh" => f64::asinh,
        "abs" => f64::abs,
        "signum" => f64::signum,
        "clamp_unit" => |x| x.clamp(-1.0, 1.0),
        _ => panic!("Rust has no {name}"),
    }
}

/// Reads pairs of an input and our answer and prints the distance of the function that the argument names.
fn main() -> Result<()> {
    let name = std::env::args().nth(1).expect("the function's name");
    let (theirs, mut dump, mut distance) = (named(&name), Vec::new(), Distance::default());
    stdin().read_to_end(&mut dump)?;
    let (pairs, rest) = dump.as_chunks::<16>();
    assert!(!pairs.is_empty() && rest.is_empty(), "no whole dump");
    for pair in pairs {
        let [input, ours] = [0, 8].map(|start| f64::from_be_bytes(pair[start..start + 8].try_into().unwrap()));
        distance.add((ours, 0), (theirs(input), 0));
    }
    distance.print(&format!("Rust's own {name}"));
    table::distance(&name, table::OTHERS, &distance);
    Ok(())
}
