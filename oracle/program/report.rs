//! How many inputs of each kind were to be answered and to be refused, what occurred among them, and how many differ.
use crate::expected::{Refusal, Verdict};
use crate::facts::Facts;
use calls::differences::Differences;
use calls::table;
use std::process::Output;

/// What is due to an input: an answer, or a refusal by its cause, in the order of the checks; and the number of the refusal.
const OUTCOMES: [(&str, u32); 9] = [
    ("answered", 0),
    ("refused with 12, header short", 12),
    ("refused with 13", 13),
    ("refused with 12, vertices cut short", 12),
    ("refused with 1", 1),
    ("refused with 3", 3),
    ("refused with 4", 4),
    ("refused with 12, pad bit set", 12),
    ("refused with 12, lengths don't end the input", 12),
];

/// How many bytes of an input are printed at most, and how many lines of an output.
const BYTES: usize = 6_000;
const LINES: usize = 5;

/// How many inputs had each outcome.
type Counts = [u64; OUTCOMES.len()];

/// What was compared, what occurred and what differs; kinds are in the order of their first input.
#[derive(Default)]
pub struct Report {
    kinds: Vec<(String, Counts)>,
    facts: Facts,
    differences: Differences,
}

/// The place of an outcome.
fn outcome(verdict: &Verdict) -> usize {
    match verdict {
        Ok(_) => 0,
        Err(Refusal::HeaderShort) => 1,
        Err(Refusal::ManyPents) => 2,
        Err(Refusal::VerticesShort) => 3,
        Err(Refusal::Builder(1, _)) => 4,
        Err(Refusal::Builder(3, _)) => 5,
        Err(Refusal::Builder(_, _)) => 6,
        Err(Refusal::PadBit) => 7,
        Err(Refusal::Lengths) => 8,
    }
}

/// The outcomes that occurred, with their counts.
fn shown(counts: &Counts) -> String {
    let occurred = OUTCOMES.iter().zip(counts).filter(|(_, count)| **count != 0);
    occurred.map(|((name, _), count)| format!("{count} {name}")).collect::<Vec<_>>().join("; ")
}

/// An input in hexadecimal digits.
fn hex(input: &[u8]) -> String {
    let digits: String = input.iter().take(BYTES).map(|byte| format!("{byte:02x}")).collect();
    let rest = if input.len() > BYTES { " and so on" } else { "" };
    format!("{} bytes {digits}{rest}", input.len())
}

/// Some lines of an output from one on.
fn lines(output: &str, first: usize) -> String {
    let some: Vec<String> =
        output.split_inclusive('\n').skip(first).take(LINES).map(|line| format!("{line:?}")).collect();
    format!("{} lines, from line {} on: {}", output.lines().count(), first + 1, some.join(" "))
}

/// How the program's output differs from what must be printed, if it does.
fn difference(ours: &Output, expected: &str) -> Option<String> {
    let printed = String::from_utf8_lossy(&ours.stdout);
    if ours.stdout == expected.as_bytes() && ours.status.success() {
        return None;
    }
    let same = printed.split_inclusive('\n').zip(expected.split_inclusive('\n')).take_while(|(a, b)| a == b).count();
    let [printed, expected] = [lines(&printed, same), lines(expected, same)];
    Some(format!("  program, {}: {printed}\n  expected: {expected}", ours.status))
}

impl Report {
    /// Counts an input of a kind, with what is due to it and what the program printed.
    pub fn add(&mut self, kind: &str, input: &[u8], verdict: &Verdict, expected: &str, ours: &Output) {
        let place = self.kinds.iter().position(|(name, _)| name == kind).unwrap_or(self.kinds.len());
        if place == self.kinds.len() {
            self.kinds.push((kind.to_string(), Counts::default()));
        }
        self.kinds[place].1[outcome(verdict)] += 1;
        self.facts.add(input, verdict, expected);
        if let Some(difference) = difference(ours, expected) {
            self.differences.add(&format!("{kind}: {}\n{difference}", hex(input)));
        }
    }

    /// Prints the counts; how many inputs differ, and how many outcomes and facts don't occur.
    pub fn print(&self) -> [u64; 2] {
        let mut all = Counts::default();
        for (kind, counts) in &self.kinds {
            println!("{kind}: {}", shown(counts));
            all.iter_mut().zip(counts).for_each(|(all, count)| *all += count);
        }
        let inputs = all.iter().sum::<u64>();
        println!("{inputs} inputs: {}", shown(&all));
        table::calls("workbench", inputs, all[0], self.differences.0);
        for refusal in [1, 3, 4, 12, 13] {
            let counts = OUTCOMES.iter().zip(all).filter(|((_, number), _)| *number == refusal);
            println!("refused with {refusal}: {}", counts.map(|(_, count)| count).sum::<u64>());
        }
        let missing = all.iter().filter(|&&count| count == 0).count() as u64 + self.facts.print();
        [self.differences.0, missing]
    }
}
