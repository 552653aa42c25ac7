//! The altered Rust's answers and the table's refusals on a small sample, as the input and the output of a replay.
use calls::checks::Check;
use calls::complexes::shuffle;
use calls::frozen::{self, double, doubles};
use calls::random::Random;
use calls::{Pent, as_rust};
use hinges::expected;
use hinges::facts::Facts;
use hinges::lengths::{self, AREA_LIMIT, P2};
use hinges::local::{self, Free, Hinges};
use hinges::local_facts;
use hinges::simplexes::step;
use phyz_regge::complex::SimplicialComplex;
use std::fmt::Write;
use std::process::ExitCode;

/// How many pentachorons, lengths, places of an output and free edges the replay has room for, and the length of its lists.
const MOST_PENTS: usize = 8;
const MOST_LENGTHS: usize = 80;
const MOST_ROOM: usize = 100;
const MOST_FREE: usize = 12;
const LENGTH: usize = 30 * MOST_PENTS;

/// The bits of a refused hinge's deficit and of a refused action, a refused count, and place 0 of an output before a call, or its bits.
const BEFORE: u64 = 50_000;

/// A byte that is no kind.
const NO_KIND: u8 = 9;

/// Lengths with which an area's derivative by the second is an eighth of it.
const SMALL_DERIVATIVE: [f64; 10] = [1.0, 0.0, 1.0, 1.0, -1.0, 0.5, 2.0, 2.0, 1.5, 3.0];

/// A number put at a place of one of the ten lists, or of the counts for 10; 11 is no change.
#[derive(Clone, Copy)]
struct Change {
    list: usize,
    place: usize,
    number: u32,
}

const NONE: Change = Change { list: 11, place: 0, number: 0 };

/// A line of the replay: a complex that is built and changed, its lengths, the lengths of the three outputs, a triangle, free edges, and the lengths of their five outputs.
#[derive(Clone)]
struct Line {
    n_vertices: usize,
    pents: Vec<Pent>,
    lengths: Vec<f64>,
    rooms: [usize; 3],
    tri: u32,
    change: Change,
    free: Free,
    local_rooms: [usize; 5],
}

/// The five vertices in 12 bits each.
fn packed(pent: &Pent) -> usize {
    pent.iter().fold(0, |packed, &vertex| packed << 12 | vertex as usize)
}

/// A kind as text.
fn letter(kind: u8) -> char {
    ['S', 'T'].get(kind as usize).copied().unwrap_or('-')
}

/// Kinds as text.
fn letters(kinds: &[u8]) -> String {
    kinds.iter().map(|&kind| format!(" {}", letter(kind))).collect()
}

/// The bits of an output of so many doubles before a call.
fn before(room: usize) -> Vec<u64> {
    (BEFORE..).take(room).collect()
}

impl Line {
    /// All calls on a complex with outputs of just their room.
    fn new(n_vertices: usize, pents: &[Pent], lengths: impl FnOnce(&SimplicialComplex) -> Vec<f64>, tri: u32) -> Line {
        let complex = SimplicialComplex::from_pentachorons(n_vertices, &as_rust(pents));
        let (triangles, edges) = (complex.triangles.len(), complex.edges.len());
        let (pents, rooms) = (pents.to_vec(), [triangles, triangles, edges]);
        let free = Free { edges: vec![], fd_eps: 0.0 };
        Line { n_vertices, pents, lengths: lengths(&complex), rooms, tri, change: NONE, free, local_rooms: [0; 5] }
    }

    /// The line with free edges, and outputs of just their room.
    fn with_free(self, edges: &[u32], fd_eps: f64) -> Line {
        let free = Free { edges: edges.to_vec(), fd_eps };
        let (tris, n) = (local::altered(&self.complex(), &self.lengths, &free).tris.len(), edges.len());
        Line { free, local_rooms: [tris, tris, tris, n, n * n], ..self }
    }

    /// The complex before its change.
    fn complex(&self) -> SimplicialComplex {
        SimplicialComplex::from_pentachorons(self.n_vertices, &as_rust(&self.pents))
    }

    /// The line's text: the numbers, 16 digits each.
    fn text(&self) -> String {
        let Line { n_vertices, pents, lengths, rooms, tri, change, free, local_rooms } = self;
        assert!(pents.len() <= MOST_PENTS && lengths.len() <= MOST_LENGTHS && free.edges.len() <= MOST_FREE);
        assert!(rooms.iter().chain(local_rooms).all(|&room| room <= MOST_ROOM));
        let change = change.list << 48 | change.place << 32 | change.number as usize;
        let local = local_rooms.iter().rfold(0, |local, room| local << 8 | room) << 8 | free.edges.len();
        let mut numbers = vec![*n_vertices, pents.len(), lengths.len(), rooms[0], rooms[1], rooms[2], *tri as usize];
        numbers.extend([change, local, free.fd_eps.to_bits() as usize]);
        numbers.extend(pents.iter().map(packed));
        numbers.extend(lengths.iter().map(|length| length.to_bits() as usize));
        numbers.extend(free.edges.iter().map(|&edge| edge as usize));
        let words: Vec<String> = numbers.iter().map(|number| format!("{number:016x}")).collect();
        words.join(" ") + "\n"
    }

    /// What is built in the replay's lists, with the change.
    fn check(&self) -> Check {
        let Change { list, place, number } = self.change;
        let mut check = Check::new(&self.complex());
        check.lists.iter_mut().for_each(|list| list.resize(LENGTH, 0));
        check.lengths = [LENGTH; 10];
        match list {
            0..10 => check.lists[list][place] = number,
            10 => check.counts[place] = number as usize,
            _ => (),
        }
        check
    }

    /// The lines that answer it.
    fn answer(&self) -> String {
        let accepted = expected::accepted(&self.check(), &self.lengths);
        let over = expected::over(&accepted, &self.lengths);
        let (number, deficits, kinds) = expected::table(&over, before(self.rooms[0]), vec![NO_KIND; self.rooms[1]]);
        let mut lines = format!("deficits {number}{}\nkinds{}\n", doubles(&deficits), letters(&kinds));
        let (number, deficit, kind) = expected::hinge(&over, self.tri, (BEFORE, 1));
        lines += &format!("hinge {number} {} {}\n", double(deficit), letter(kind));
        let (number, action) = expected::action(&over, BEFORE);
        lines += &format!("action {number} {}\n", double(action));
        let (number, grad) = expected::gradient(&over, before(self.rooms[2]));
        lines += &format!("grad {number}{}\n", doubles(&grad));
        let [timelike, null, spacelike] = expected::signs(&self.lengths);
        lines += &format!("timelike {timelike} null {null} spacelike {spacelike}\n");
        lines + &self.local_answer(&local::over(&accepted, &self.lengths, &self.free))
    }

    /// The lines that answer it for the free edges.
    fn local_answer(&self, over: &Result<local::Answers, u32>) -> String {
        let [tris, deficits, kinds, grad, hessian] = self.local_rooms;
        let tris = (BEFORE as u32..).take(tris).collect();
        let outputs = Hinges { tris, deficits: before(deficits), kinds: vec![NO_KIND; kinds], count: BEFORE as usize };
        let (number, Hinges { tris, deficits, kinds, count }) = local::hinges(over, outputs);
        let tris: String = tris.into_iter().map(|tri| format!(" {tri}")).collect();
        let deficits = doubles(&deficits);
        let mut lines = format!("local {number} {count}{tris}\ndeficits{deficits}\nkinds{}\n", letters(&kinds));
        let (number, grad) = local::gradient(over, before(grad));
        lines += &format!("local grad {number}{}\n", doubles(&grad));
        let (number, hessian) = local::hessian(over, before(hessian));
        lines + &format!("hessian {number}{}\n", doubles(&hessian))
    }
}

/// The complexes that are answered: one pentachoron, two neighbours, one twice, three and four around a triangle, four of six vertices, none.
fn complexes() -> Vec<(usize, Vec<Pent>)> {
    vec![
        (5, vec![[0, 1, 2, 3, 4]]),
        (6, vec![[0, 1, 2, 3, 4], [1, 2, 3, 4, 5]]),
        (5, vec![[4, 3, 2, 1, 0], [0, 1, 2, 3, 4]]),
        (4_096, vec![[4_095, 7, 4_094, 12, 300]]),
        (6, vec![[0, 1, 2, 3, 4], [0, 1, 2, 4, 5], [0, 1, 2, 3, 5]]),
        (7, vec![[2, 1, 0, 3, 4], [0, 1, 2, 4, 5], [0, 1, 2, 5, 6], [6, 0, 1, 2, 3]]),
        (6, vec![[0, 1, 2, 3, 4], [0, 1, 2, 3, 5], [0, 1, 2, 4, 5], [0, 1, 3, 4, 5], [0, 1, 2, 3, 4]]),
        (9, vec![]),
    ]
}

/// How lengths are drawn.
type Draw = fn(&mut Random, &SimplicialComplex) -> Vec<f64>;

/// Lengths drawn until a triangle has just the area that is no longer skipped.
fn at_limit(random: &mut Random, complex: &SimplicialComplex, draw: Draw) -> Vec<f64> {
    loop {
        let lengths = draw(random, complex);
        if (0..complex.triangles.len()).any(|tri| lengths::area(complex, tri, &lengths) == AREA_LIMIT) {
            return lengths;
        }
    }
}

/// A line with one pentachoron, whose free edges are the triangle's, descending, and the one opposite to it.
fn one(lengths: [f64; 10], tri: u32) -> Line {
    let line = Line::new(5, &[[0, 1, 2, 3, 4]], |_| lengths.to_vec(), tri);
    let mut edges = line.complex().tri_edge_indices(tri as usize).to_vec();
    edges.sort_unstable();
    edges.insert(0, 9 - tri as usize);
    let edges: Vec<u32> = edges.into_iter().rev().map(|edge| edge as u32).collect();
    line.with_free(&edges, 1e-6)
}

/// Chosen lengths for one pentachoron: those of 01-scope.md, and one that isn't finite or isn't zero among zeros.
fn chosen() -> Vec<Line> {
    let with = |base: [f64; 10], edge: usize, length: f64| {
        let mut lengths = base;
        lengths[edge] = length;
        one(lengths, 9 - edge as u32)
    };
    vec![
        one([1.0; 10], 0),
        one([-1.0; 10], 9),
        one([0.0; 10], 4),
        one([-0.0; 10], 5),
        one(P2, 1),
        one(P2.map(|length| -length), 3),
        one([1e-30; 10], 6),
        one([1e-15; 10], 6),
        one([1e100; 10], 2),
        with([0.0; 10], 0, f64::NAN),
        with([1.0; 10], 3, f64::NAN),
        with([0.0; 10], 9, f64::INFINITY),
        with(P2, 4, f64::NEG_INFINITY),
        with(P2, 7, 1e300),
        with(SMALL_DERIVATIVE, 1, 1e-40),
        with(SMALL_DERIVATIVE, 1, 8.0 * AREA_LIMIT),
    ]
}

/// Up to so many edges of a complex in any order.
fn some_edges(random: &mut Random, complex: &SimplicialComplex, most: usize) -> Vec<u32> {
    let mut edges: Vec<u32> = (0..complex.edges.len() as u32).collect();
    shuffle(random, &mut edges);
    edges.truncate(random.below(most + 1));
    edges
}

/// An area at the limit, by small lengths and by three of them alone, with all edges free, and every complex with lengths of every kind in turn, the smaller ones with more, some edges free and every step.
fn answered(random: &mut Random) -> Vec<Line> {
    let mut lines: Vec<Line> = Vec::new();
    for (draw, fd_eps) in [(lengths::at_area as Draw, 1e-33), (lengths::triangle_at_limit, 1e-6)] {
        let line = Line::new(5, &[[0, 1, 2, 3, 4]], |complex| at_limit(random, complex, draw), 7);
        lines.push(line.with_free(&[8, 1, 9, 0, 2, 5, 3, 7, 6, 4], fd_eps));
    }
    let mut number = 0;
    for ((n_vertices, pents), rounds) in complexes().into_iter().zip([16, 10, 9, 2, 9, 6, 6, 1]) {
        for _ in 0..rounds {
            let tri = random.below(10) as u32;
            let mut pents = pents.clone();
            pents.iter_mut().for_each(|pent| shuffle(random, pent));
            let line = Line::new(n_vertices, &pents, |complex| lengths::drawn(random, number, complex).1, tri);
            let edges = some_edges(random, &line.complex(), 7);
            lines.push(line.with_free(&edges, step(random, number)));
            number += 1;
        }
    }
    lines
}

/// The line with other free edges, or with some that aren't lawful, and the outputs as they were.
fn freed(line: &Line, edges: &[u32]) -> Line {
    Line { free: Free { edges: edges.to_vec(), ..line.free.clone() }, ..line.clone() }
}

/// Outputs that are longer, one short and empty, triangles from the count on, free edges from the count on or twice, and lengths of a wrong number, by themselves and together.
fn refused(line: &Line) -> Vec<Line> {
    let rooms = [[11, 12, 13], [100, 10, 10], [9, 10, 9], [10, 9, 0], [0, 0, 1], [10, 0, 10]];
    let [tris, _, _, n, entries] = line.local_rooms;
    let local_rooms = [
        [tris + 1, tris + 2, tris + 3, n + 1, entries + 2],
        [tris - 1, tris, tris, n - 1, entries - 1],
        [tris, tris - 1, 100, 100, n],
        [100, tris, tris - 1, 0, 0],
        [0; 5],
        [tris, 0, tris, n, 100],
    ];
    let mut lines: Vec<Line> = Vec::new();
    lines.extend(rooms.into_iter().zip(local_rooms).map(|(rooms, local_rooms)| Line {
        rooms,
        local_rooms,
        ..line.clone()
    }));
    let free: [&[u32]; 5] = [&[3, 0, 10], &[u32::MAX, 2], &[4, 10, 4], &[5, 1, 5], &[10, 10]];
    let tris = [9, 10, 11, 1 << 16, u32::MAX];
    lines.extend(tris.into_iter().zip(free).map(|(tri, edges)| Line { tri, ..freed(line, edges) }));
    for (count, edges) in [(0, [0, 10]), (9, [1, 1]), (11, [2, 11]), (20, [3, 3])] {
        let lengths: Vec<f64> = line.lengths.iter().cycle().take(count).copied().collect();
        lines.push(Line { lengths: lengths.clone(), ..line.clone() });
        lines.push(Line { lengths, rooms: [9, 10, 9], local_rooms: [0; 5], tri: 10, ..freed(line, &edges) });
    }
    let short = [[0, 2, 10], [6, 2, 6]].map(|edges| Line { local_rooms: [1; 5], ..freed(line, &edges) });
    lines.extend(short);
    lines.extend([line.clone().with_free(&[9, 8, 7, 6, 5, 4, 3, 2, 1, 0], 1e-3), line.clone().with_free(&[], 1e-6)]);
    lines
}

/// Changes to what is built: the first number of each list, its last and one past it; each count, one more and one fewer. Every fourth has outputs that are short, a triangle and a free edge outside, another fourth lengths of a wrong number, another a free edge twice.
fn changed(line: &Line) -> Vec<Line> {
    let check = Check::new(&line.complex());
    let mut changes = Vec::new();
    for (list, numbers) in check.lists.iter().enumerate() {
        let change = |place: usize| Change { list, place, number: numbers.get(place).unwrap_or(&0) ^ 1 };
        changes.extend([0, numbers.len() - 1, numbers.len()].map(change));
    }
    for (place, &count) in check.counts.iter().enumerate() {
        changes.extend([count + 1, count - 1].map(|count| Change { list: 10, place, number: count as u32 }));
    }
    let few = line.lengths[1..].to_vec();
    let with = |(number, change): (usize, Change)| match number % 4 {
        1 => Line { change, rooms: [0, 9, 9], local_rooms: [0; 5], tri: 10, ..freed(line, &[7, 10]) },
        2 => Line { change, lengths: few.clone(), ..line.clone() },
        3 => Line { change, ..freed(line, &[2, 2]) },
        _ => Line { change, ..line.clone() },
    };
    changes.into_iter().enumerate().map(with).collect()
}

/// How many facts don't occur in the sample; each is printed with its count.
fn missing(lines: &[Line]) -> u64 {
    let (mut facts, mut local_facts) = (Facts::default(), local_facts::Facts::default());
    for line in lines {
        let accepted = expected::accepted(&line.check(), &line.lengths);
        if let (Ok(complex), Ok(answers)) = (&accepted, expected::over(&accepted, &line.lengths)) {
            facts.add(complex, &line.lengths, &answers);
        }
        if let (Ok(complex), Ok(answers)) = (&accepted, local::over(&accepted, &line.lengths, &line.free)) {
            local_facts.add(complex, &line.lengths, &line.free, &answers);
        }
    }
    facts.print() + local_facts.print()
}

/// Writes the sample and its answers to the two files that are named.
fn main() -> ExitCode {
    let mut random = Random(1_500);
    let plain = Line::new(5, &[[3, 0, 4, 1, 2]], |_| P2.to_vec(), 2).with_free(&[7, 2, 5], 1e-6);
    let lines = [chosen(), answered(&mut random), refused(&plain), changed(&plain)].concat();
    assert_eq!(missing(&lines), 0, "facts that don't occur");
    let inputs: String = lines.iter().map(Line::text).collect();
    let mut answers = String::new();
    lines.iter().for_each(|line| write!(answers, "{}", line.answer()).unwrap());
    println!("{} lines frozen, {} and {} bytes", lines.len(), inputs.len(), answers.len());
    frozen::write(&inputs, &answers)
}
