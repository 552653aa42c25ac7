//! The altered Rust's answers and the table's refusals on a small sample, as the input and the output of a replay.
use calls::checks::Check;
use calls::frozen;
use calls::random::Random;
use lattices::expected::{self, Lattices};
use lattices::sizes::{self, Size};
use lattices::units::{self, Units};
use phyz_regge::complex::SimplicialComplex;
use std::fmt::Write;
use std::process::ExitCode;

/// The most cells of a lattice that the replay builds, and the length of its lists: the longest room.
const MOST_CELLS: usize = 81;
const LENGTH: usize = 30 * 24 * MOST_CELLS;

/// Up to how many places a list, or an output, is printed whole.
const WHOLE_LIST: usize = 2_000;
const WHOLE_OUTPUT: usize = 400;

/// The count before a call of foliated_hypercubic.
const COUNT: usize = 77;

/// A number put at a place of one of the ten lists that are built, of the counts for 10, of the pentachorons before they are built for 11; 12 is no change.
#[derive(Clone, Copy)]
struct Change {
    list: usize,
    place: usize,
    number: u32,
}

const NONE: Change = Change { list: 12, place: 0, number: 0 };

/// A call of edge_types and one of flat_minkowski_sq_lengths: the size that is asked for, the lattice that is built with a vertex count and then changed, and the length of the outputs.
#[derive(Clone, Copy)]
struct Asked {
    size: Size,
    built: Size,
    n_vertices: usize,
    room: usize,
    units: Units,
    change: Change,
}

/// A line of the replay.
enum Line {
    Listing(Size, usize),
    Edges(Asked),
}

impl Line {
    /// The line's text: a letter and the numbers, 16 digits each.
    fn text(&self) -> String {
        let (letter, numbers) = match *self {
            Line::Listing((n_t, n_s), room) => ('l', vec![n_t, n_s, room]),
            Line::Edges(Asked { size, built, n_vertices, room, units, change }) => {
                let packed = change.list << 48 | change.place << 32 | change.number as usize;
                let bits = [units.0, units.1].map(|unit| unit.to_bits() as usize);
                ('f', vec![size.0, size.1, built.0, built.1, n_vertices, room, bits[0], bits[1], packed])
            }
        };
        let words: String = numbers.iter().map(|number| format!(" {number:016x}")).collect();
        format!("{letter}{words}\n")
    }

    /// The lines that answer it.
    fn answer(&self, lattices: &Lattices) -> String {
        match self {
            Line::Listing(size, room) => listing_lines(lattices, *size, *room),
            Line::Edges(asked) => edges_lines(lattices, asked),
        }
    }
}

/// The checksum with a number of 32 bits added.
fn mixed(sum: u64, n: u64) -> u64 {
    (sum * 1_000_003 + n) % 4_294_967_291
}

/// A list's line: its numbers unless there are too many, and the checksum over both words of each, or over one.
fn list_line(head: &str, whole: usize, words: usize, numbers: &[u64], text: impl Fn(u64) -> String) -> String {
    let mut line = head.to_string();
    let mut sum = 0;
    for &number in numbers {
        if numbers.len() <= whole {
            line += &format!(" {}", text(number));
        }
        sum = if words == 2 { mixed(mixed(sum, number >> 32), number & 0xffff_ffff) } else { mixed(sum, number) };
    }
    line + &format!(" sum {sum}\n")
}

/// What place i of a list holds before a call.
fn before(room: usize) -> Vec<u32> {
    (0..room as u32).map(|place| 50_000 + place % 10_000).collect()
}

/// The lines that answer a call of foliated_hypercubic.
fn listing_lines(lattices: &Lattices, size: Size, room: usize) -> String {
    let listed = expected::listed(lattices, size, before(room), COUNT);
    let numbers: Vec<u64> = listed.pents.iter().map(|&number| number.into()).collect();
    let list = list_line("pents", WHOLE_LIST, 1, &numbers, |number| number.to_string());
    format!("listed {} {}\n{list}", listed.number, listed.count)
}

/// What is built in lists of that length, with the change.
fn check(lattices: &Lattices, asked: &Asked) -> Check {
    let Change { list, place, number } = asked.change;
    let mut pents = lattices.get(asked.built).unwrap().complex.pents.clone();
    if list == 11 {
        pents.as_flattened_mut()[place] = number as usize;
    }
    let mut check = Check::new(&SimplicialComplex::from_pentachorons(asked.n_vertices, &pents));
    check.lists.iter_mut().for_each(|list| list.resize(LENGTH, 0));
    check.lengths = [LENGTH; 10];
    match list {
        0..10 => check.lists[list][place] = number,
        10 => check.counts[place] = number as usize,
        _ => (),
    }
    check
}

/// The lines that answer the two calls over a complex.
fn edges_lines(lattices: &Lattices, asked: &Asked) -> String {
    let over = expected::over(lattices, asked.size, &check(lattices, asked));
    let types = (0..asked.room).map(|place| 100 + (place % 100) as u8).collect();
    let (number, types) = expected::filled(over, expected::types, types);
    let types: Vec<u64> = types.into_iter().map(u64::from).collect();
    let mut lines = list_line(&format!("types {number}"), WHOLE_OUTPUT, 1, &types, |byte| byte.to_string());
    let lengths = before(asked.room).into_iter().map(u64::from).collect();
    let (number, lengths) = expected::filled(over, |lattice| expected::lengths(lattice, asked.units), lengths);
    let text = |bits: u64| if f64::from_bits(bits).is_nan() { "nan".to_string() } else { format!("{bits:016x}") };
    lines += &list_line(&format!("lengths {number}"), WHOLE_OUTPUT, 2, &lengths, text);
    lines
}

/// Lists of every lawful size, some too long, too short or empty, and sizes that aren't lawful.
fn listings() -> Vec<Line> {
    let listing = |(size, room): (Size, usize)| Line::Listing(size, room);
    let lawful = sizes::lawful().into_iter().map(|size| (size, sizes::room(size).unwrap()));
    let others = [
        ((2, 2), 1_921),
        ((2, 2), 1_919),
        ((2, 2), 960),
        ((3, 2), 0),
        ((3, 3), 9_719),
        ((3, 3), 9_727),
        ((5, 4), 38_399),
        ((5, 4), 50_000),
        ((6, 4), 46_080),
        ((6, 4), 3),
        ((1, 3), 3_240),
        ((3, 1), 3_000),
        ((0, 2), 0),
        ((2, 0), 5),
        ((9, 2), 8_640),
        ((2, 9), 50_000),
        ((2, 6), 50_000),
        ((3, 5), 45_000),
        ((8, 4), 0),
        ((8, 8), 50_000),
        (((1 << 32) + 2, 2), 2_500),
        ((2, (1 << 32) + 2), 2_500),
        ((1 << 61, 2), 2_500),
        (((1 << 61) + 2, 2), 2_500),
        ((2, 1 << 63), 2_500),
        ((usize::MAX, usize::MAX), 2_500),
    ];
    lawful.chain(others).map(listing).collect()
}

/// Units that are always frozen.
const UNITS: [Units; 12] = [
    (1.0, 1.0),
    (1.0, 0.5),
    (0.1, 0.3),
    (-1.5, 2.5),
    (0.0, -0.0),
    (-0.0, 1.0),
    (f64::NAN, 1.0),
    (1.0, f64::INFINITY),
    (f64::NEG_INFINITY, f64::INFINITY),
    (1e-200, 1e-162),
    (5e-324, 1e200),
    (1.3e154, -1e154),
];

/// The calls over a lattice itself, with outputs of just its edges.
fn exact(lattices: &Lattices, size: Size, units: Units) -> Asked {
    let complex = &lattices.get(size).unwrap().complex;
    let (n_vertices, room) = (complex.n_vertices, complex.edges.len());
    Asked { size, built: size, n_vertices, room, units, change: NONE }
}

/// Every lattice of at most 81 cells, the two smallest with many units, and outputs that are longer, short or empty.
fn answered(lattices: &Lattices) -> Vec<Asked> {
    let mut random = Random(900);
    let mut asked: Vec<Asked> = UNITS.map(|units| exact(lattices, (2, 2), units)).into();
    asked.extend(UNITS[1..4].iter().map(|&units| exact(lattices, (3, 2), units)));
    for (size, _) in lattices.0.iter().filter(|(size, _)| sizes::cells(*size).unwrap() <= MOST_CELLS) {
        asked.extend([UNITS[2], units::drawn(&mut random)].map(|units| exact(lattices, *size, units)));
    }
    for (size, more) in [((2, 2), 1), ((3, 3), 100), ((2, 2), -1), ((2, 2), -120), ((3, 3), -1)] {
        let call = exact(lattices, size, UNITS[1]);
        asked.push(Asked { room: call.room.saturating_add_signed(more), ..call });
    }
    asked
}

/// Changes to what is built of the smallest lattice: the first number of each list, one in its middle, its last and one past it; each count; a vertex of the first, the middle and the last pentachoron.
fn changes(lattices: &Lattices) -> Vec<Change> {
    let check = Check::new(&lattices.get((2, 2)).unwrap().complex);
    let mut changes = Vec::new();
    for (list, numbers) in check.lists.iter().enumerate() {
        let change = |place: usize| Change { list, place, number: numbers[place] ^ 1 };
        changes.extend([0, numbers.len() / 2, numbers.len() - 1].map(change));
        changes.push(Change { list, place: numbers.len(), number: 1 });
    }
    for (place, &count) in check.counts.iter().enumerate() {
        changes.extend([count + 1, count - 1].map(|count| Change { list: 10, place, number: count as u32 }));
    }
    for pent in [0, check.counts[1] / 2, check.counts[1] - 1] {
        let vertices = &check.lists[0][5 * pent..5 * pent + 5];
        let other = (0..16).find(|vertex| !vertices.contains(vertex)).unwrap();
        changes.push(Change { list: 11, place: 5 * pent + 2, number: other });
    }
    changes
}

/// What isn't that lattice's: the changes, with outputs that are short in half of them, another lattice, another vertex count.
fn not_built(lattices: &Lattices) -> Vec<Asked> {
    let call = exact(lattices, (2, 2), UNITS[1]);
    let rooms = [call.room, 3].into_iter().cycle();
    let changed = changes(lattices).into_iter().zip(rooms).map(|(change, room)| Asked { room, change, ..call });
    let mut asked: Vec<Asked> = changed.collect();
    asked.extend([(3, 2), (2, 3), (8, 2), (5, 4)].map(|size| Asked { size, room: 5, ..call }));
    asked.extend([17, 4_096].map(|n_vertices| Asked { n_vertices, room: 5, ..call }));
    asked
}

/// Sizes that aren't lawful, with lists that are some lattice's, with a change, and with outputs that are short.
fn unlawful(lattices: &Lattices) -> Vec<Asked> {
    let call = exact(lattices, (2, 2), UNITS[1]);
    let sizes =
        [(1, 2), (2, 1), (16, 1), (9, 2), (2, 9), (6, 4), ((1 << 32) + 2, 2), (2, (1 << 61) + 2), (0, usize::MAX)];
    let change = Change { list: 1, place: 0, number: 7 };
    sizes
        .into_iter()
        .flat_map(|size| {
            let call = Asked { size, room: 5, ..call };
            [call, Asked { change, ..call }, Asked { change, room: 0, ..call }]
        })
        .collect()
}

/// Writes the sample and its answers to the two files that are named.
fn main() -> ExitCode {
    let lattices = &Lattices::new();
    let edges = [answered(lattices), not_built(lattices), unlawful(lattices)].concat();
    let lines: Vec<Line> = listings().into_iter().chain(edges.into_iter().map(Line::Edges)).collect();
    let inputs: String = lines.iter().map(Line::text).collect();
    let mut answers = String::new();
    lines.iter().for_each(|line| write!(answers, "{}", line.answer(lattices)).unwrap());
    println!("{} lines frozen, {} and {} bytes", lines.len(), inputs.len(), answers.len());
    frozen::write(&inputs, &answers)
}
