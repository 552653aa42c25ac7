//! A sample's files: what a replay reads, and what it must print.
use std::process::ExitCode;

/// How many bytes a replay reads at most.
const READ: usize = 65_536;

/// A double as text.
pub fn double(bits: u64) -> String {
    if f64::from_bits(bits).is_nan() { "nan".to_string() } else { format!("{bits:016x}") }
}

/// Doubles as text.
pub fn doubles(list: &[u64]) -> String {
    list.iter().map(|&bits| format!(" {}", double(bits))).collect()
}

/// Writes the sample and its answers to the two files that the program's arguments name.
pub fn write(inputs: &str, answers: &str) -> ExitCode {
    let paths: Vec<String> = std::env::args().skip(1).collect();
    let [inputs_path, answers_path] = &paths[..] else {
        eprintln!("usage: freeze STDIN STDOUT");
        return ExitCode::from(2);
    };
    assert!(inputs.len() < READ, "the replay reads no more");
    for (path, text) in [(inputs_path, inputs), (answers_path, answers)] {
        if let Err(error) = std::fs::write(path, text) {
            eprintln!("{path}: {error}");
            return ExitCode::from(2);
        }
    }
    ExitCode::SUCCESS
}
