//! The Rust's answers and the table's refusals on a small sample, as the input and the output of a replay.
mod changes;

use calls::checks::{self, Check, OUTPUTS};
use calls::complexes::KINDS;
use calls::expected::{self, Answer, Lent};
use calls::random::Random;
use calls::{Call, Complex, LISTS, Pent, defects, frozen, rooms};
use changes::Change;
use std::fmt::Write;
use std::process::ExitCode;

/// The bound on the numbers of a drawn call's pentachorons.
const DRAWN: usize = 24;

const FIRST: Pent = [0, 1, 2, 3, 4];
const NEXT: Pent = [1, 2, 3, 4, 5];

/// P5 to P8, twelve pentachorons around an edge, and calls without pentachorons.
fn chosen() -> Vec<Complex> {
    let around_edge = (0..12).map(|k| [12, k, (k + 1) % 12, 13, (k + 2) % 12]).collect();
    vec![
        (6, vec![FIRST, NEXT]),
        (5, vec![[4, 3, 2, 1, 0]; 2]),
        (5, vec![[0, 1, 2, 3, 5]]),
        (5, vec![[0, 0, 1, 2, 3]]),
        (14, around_edge),
        (1, vec![]),
        (4_096, vec![]),
    ]
}

/// A call on lists of exactly their rooms.
fn exact(complex: Complex) -> Call {
    Call::new(complex, || 0)
}

/// Each list too short: by one place, and empty; where there is no pentachoron only the starts can be.
fn short() -> Vec<Call> {
    let mut calls = Vec::new();
    for (complex, kept) in [((6, vec![FIRST, NEXT]), 1), ((5, vec![FIRST]), 0), ((5, vec![]), 0)] {
        let call = exact(complex);
        for list in (0..10).filter(|&list| call.lengths[list] != 0) {
            let mut short = call.clone();
            short.lengths[list] = kept * (call.lengths[list] - 1);
            calls.push(short);
        }
    }
    calls
}

/// Vertex counts that are refused, with a pentachoron and without.
fn wrong_counts() -> Vec<Call> {
    let counts = [0, 4_097, 1 << 32, usize::MAX];
    counts.into_iter().flat_map(|count| [exact((count, vec![])), exact((count, vec![FIRST]))]).collect()
}

/// Lengths that are no multiple of 5.
fn wrong_lengths() -> Vec<Call> {
    let ragged = |length: usize| {
        let pents = (0..length as u32).map(|place| place % 5).collect();
        Call { n_vertices: 5, pents, lengths: rooms(length) }
    };
    [1, 2, 3, 4, 6, 9, 99].map(ragged).into()
}

/// Three pentachorons over nine vertices, with these vertices put at these places.
fn three_with(put: &[(usize, u32)]) -> Call {
    let mut call = exact((9, vec![FIRST, NEXT, [8, 4, 6, 2, 0]]));
    put.iter().for_each(|&(place, vertex)| call.pents[place] = vertex);
    call
}

/// Vertices outside, and a vertex twice at each pair of places, in the first, second and third pentachoron.
fn wrong_vertices() -> Vec<Call> {
    let mut calls = Vec::new();
    for first in [0, 5, 10] {
        calls.extend([(0, 9), (3, 10), (4, u32::MAX)].map(|(slot, vertex)| three_with(&[(first + slot, vertex)])));
    }
    for (number, (a, b)) in (0..5).flat_map(|a| (0..a).map(move |b| (a, b))).enumerate() {
        let first = 5 * (number % 3);
        calls.push(three_with(&[(first + a, 7), (first + b, 7)]));
    }
    calls
}

/// Several wrong pentachorons, the earliest of which counts, and one that is wrong in both ways.
fn several_wrong() -> Vec<Call> {
    let put: [&[(usize, u32)]; 6] = [
        &[(4, 0), (7, 9)],
        &[(4, 9), (7, 1)],
        &[(5, 9), (7, 4)],
        &[(5, 9), (7, 9)],
        &[(8, 9), (11, 9)],
        &[(8, 1), (14, 8)],
    ];
    put.map(three_with).into()
}

/// A call that is drawn anew until it is small.
fn small(mut draw: impl FnMut() -> Call) -> Call {
    loop {
        let call = draw();
        if call.pents.len() <= DRAWN {
            return call;
        }
    }
}

/// Two small calls of each kind of which 400 or more are compared, over 7 and over 4096 vertices as a rule, and one with each choice of defects.
fn drawn() -> Vec<Call> {
    let mut random = Random(300);
    let mut calls = Vec::new();
    for kind in KINDS.iter().filter(|kind| kind.count >= 400) {
        for number in [2, 9] {
            calls.push(small(|| Call::new((kind.draw)(&mut random, number), || number % 2)));
        }
    }
    for (number, defects) in defects::choices().enumerate() {
        calls.push(small(|| defects::call(&mut random, number, &defects)));
    }
    calls
}

/// All calls of the builder that are frozen for themselves; those chosen also with rooms one longer.
fn sample() -> Vec<Call> {
    let mut calls: Vec<Call> = chosen().into_iter().map(exact).collect();
    calls.extend(chosen().into_iter().map(|complex| Call::new(complex, || 1)));
    calls.extend([short(), wrong_counts(), wrong_lengths(), wrong_vertices(), several_wrong(), drawn()].concat());
    calls
}

/// Calls with changes to what they built: every kind of damage to one of these complexes, done and undone.
fn damaged() -> Vec<(Call, Vec<Change>)> {
    let complexes = [(6, vec![FIRST, NEXT]), (5, vec![FIRST; 2]), (9, vec![FIRST, NEXT, [0, 2, 4, 6, 8]])];
    let mut lines: Vec<(Call, Vec<Change>)> = complexes.map(|complex| (exact(complex), vec![])).into();
    changes::damage(&mut lines, |call| check(call, &builder_answer(call)).unwrap());
    lines
}

/// A line: how many numbers the pentachorons have, the vertex count, the lists' lengths, how many changes there are, those numbers, the changes.
fn line((call, changes): &(Call, Vec<Change>)) -> String {
    let head = [call.pents.len(), call.n_vertices].into_iter().chain(call.lengths).chain([changes.len()]);
    let numbers = head.chain(call.pents.iter().map(|&vertex| vertex as usize));
    let words: Vec<String> =
        numbers.chain(changes.iter().map(Change::packed)).map(|number| format!("{number:016x}")).collect();
    words.join(" ") + "\n"
}

/// What a list of so many places holds before a call.
fn before(length: usize) -> Vec<u32> {
    (0..length as u32).map(|place| 50_000 + place).collect()
}

/// A list's line.
fn list_line(name: &str, content: &[u32]) -> String {
    let numbers: String = content.iter().map(|number| format!(" {number}")).collect();
    format!("{name}{numbers}\n")
}

/// The builder's answer to a call.
fn builder_answer(call: &Call) -> Answer {
    expected::answer(call, Lent { lists: call.lengths.map(before), counts: [0; 5] })
}

/// The check of what a call built, if it did.
fn check(call: &Call, answer: &Answer) -> Option<Check> {
    let Lent { lists, counts } = answer.lent.clone();
    (answer.number == 0).then_some(Check { counts, lists, lengths: call.lengths, outputs: [2 * call.pents.len(); 2] })
}

/// The lines of the builder's answer.
fn answer_lines(answer: &Answer) -> String {
    let [vertices, pents, edges, triangles, tets] = answer.lent.counts;
    let mut lines = match answer.number {
        0 => format!("vertices {vertices} pentachorons {pents} edges {edges} triangles {triangles} tets {tets}\n"),
        number => format!("refused {number} {}\n", answer.place),
    };
    lines.extend(LISTS.iter().zip(&answer.lent.lists).map(|(list, content)| list_line(list.name, content)));
    lines
}

/// The lines of a check.
fn check_lines(check: &Check) -> String {
    let checked = checks::answer(check, check.outputs.map(before));
    let mut lines = String::new();
    writeln!(lines, "checked {}", checked.number).unwrap();
    lines.extend(OUTPUTS.iter().zip(&checked.outputs).map(|(name, output)| list_line(name, output)));
    lines
}

/// All lines that answer a line.
fn answer((call, changes): &(Call, Vec<Change>)) -> String {
    let answer = builder_answer(call);
    let mut lines = answer_lines(&answer);
    if let Some(mut check) = check(call, &answer) {
        lines += &check_lines(&check);
        for change in changes {
            change.make(&mut check);
            lines += &check_lines(&check);
        }
    }
    lines
}

/// Writes the sample and its answers to the two files that are named.
fn main() -> ExitCode {
    let calls: Vec<_> = sample().into_iter().map(|call| (call, vec![])).chain(damaged()).collect();
    let inputs: String = calls.iter().map(line).collect();
    let answers: String = calls.iter().map(answer).collect();
    let checks = answers.lines().filter(|line| line.starts_with("checked")).count();
    println!("{} calls and {checks} checks frozen, {} and {} bytes", calls.len(), inputs.len(), answers.len());
    frozen::write(&inputs, &answers)
}
