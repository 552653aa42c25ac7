//! The altered Rust's answers and the table's refusals on a small sample of retouches, as the input and the output of a replay.
mod expected;
mod facts;
mod step;
mod steps;

use calls::checks::Check;
use calls::complexes::shuffle;
use calls::frozen::{self, doubles};
use calls::random::Random;
use calls::{Pent, as_rust};
use expected::{Change, Table};
use facts::Facts;
use hinges::expected::{accepted, bits};
use hinges::lengths::{self, P2};
use phyz_regge::complex::SimplicialComplex;
use std::process::ExitCode;
use step::{Step, around};
use steps::Steps;

/// How many vertices of pentachorons, lengths, retouches and places of a table the replay has room for, and the length of its lists.
const MOST_VERTICES: usize = 40;
const MOST_LENGTHS: usize = 80;
const MOST_RETOUCHES: usize = 12;
const MOST_ROOM: usize = 100;
const LENGTH: usize = 240;

/// How many records the replay's other table has.
const RECORDS: usize = 640;

/// The bits of a deficit and a byte for a kind that aren't worked out first.
const DEFICIT: u64 = 50_000;
const KIND: u8 = 100;

/// The kinds of records.
const SPACELIKE: u8 = 0;
const TIMELIKE: u8 = 1;

/// The list of pentachorons around edges, which a line may change.
const EDGE_TO_PENTS: usize = 8;

/// A record that is put at a place of a table.
#[derive(Clone, Copy)]
struct Put {
    place: usize,
    deficit: u64,
    kind: u8,
}

/// A line of the replay: a complex and the vertex count of the calls, its lengths, how many deficits and kinds the table has and whether it is worked out first, a number that is put at a place of a list, a record that is put into the table, and the retouches.
#[derive(Clone)]
struct Line {
    n_vertices: usize,
    called: usize,
    pents: Vec<Pent>,
    lengths: Vec<f64>,
    rooms: [usize; 2],
    is_worked_out: bool,
    item: (usize, u32),
    record: Put,
    changes: Vec<Change>,
}

/// What stands in lengths and in the first places of a table, so many of its deficits and kinds, as text.
fn shown(lengths: &[f64], table: &Table, rooms: [usize; 2]) -> String {
    let (lengths, deficits) = (doubles(&bits(lengths)), doubles(&table.deficits[..rooms[0]]));
    let kinds: String = table.kinds[..rooms[1]].iter().map(|kind| format!(" {kind}")).collect();
    format!("lengths{lengths}\ndeficits{deficits}\nkinds{kinds}\n")
}

impl Line {
    /// A complex with lengths, a table of just its room that is worked out first, and no retouches.
    fn new(n_vertices: usize, pents: &[Pent], lengths: impl FnOnce(&SimplicialComplex) -> Vec<f64>) -> Line {
        let complex = SimplicialComplex::from_pentachorons(n_vertices, &as_rust(pents));
        let (pents, lengths, rooms) = (pents.to_vec(), lengths(&complex), [complex.triangles.len(); 2]);
        let (item, record) = ((LENGTH, 0), Put { place: MOST_ROOM, deficit: 0, kind: 0 });
        let (called, is_worked_out, changes) = (n_vertices, true, vec![]);
        Line { n_vertices, called, pents, lengths, rooms, is_worked_out, item, record, changes }
    }

    /// The complex that is built.
    fn complex(&self) -> SimplicialComplex {
        SimplicialComplex::from_pentachorons(self.n_vertices, &as_rust(&self.pents))
    }

    /// The line's text: the numbers, 16 digits each.
    fn text(&self) -> String {
        let Line { n_vertices, called, pents, lengths, rooms, is_worked_out, item, record, changes } = self;
        let vertices = pents.as_flattened();
        assert!(vertices.len() <= MOST_VERTICES && lengths.len() <= MOST_LENGTHS);
        assert!(changes.len() <= MOST_RETOUCHES && rooms.iter().all(|&room| room <= MOST_ROOM));
        let mut numbers = vec![*n_vertices, *called, vertices.len(), lengths.len(), changes.len(), rooms[0], rooms[1]];
        numbers.extend([usize::from(!is_worked_out), item.0, item.1 as usize]);
        numbers.extend([record.place, record.deficit as usize, record.kind as usize]);
        numbers.extend(vertices.iter().map(|&vertex| vertex as usize));
        numbers.extend(bits(lengths).into_iter().map(|bits| bits as usize));
        numbers.extend(changes.iter().flat_map(|change| [change.edge as usize, change.length.to_bits() as usize]));
        let words: Vec<String> = numbers.iter().map(|number| format!("{number:016x}")).collect();
        words.join(" ") + "\n"
    }

    /// What the calls are given: what is built in the replay's lists, with the number that is put there and the vertex count.
    fn check(&self) -> Check {
        let mut check = Check::new(&self.complex());
        check.lists.iter_mut().for_each(|list| list.resize(LENGTH, 0));
        check.lengths = [LENGTH; 10];
        check.counts[0] = self.called;
        if let Some(place) = check.lists[EDGE_TO_PENTS].get_mut(self.item.0) {
            *place = self.item.1;
        }
        check
    }

    /// The table that the retouches begin with: this one, worked out first if the line says so, with a record that is put there.
    fn first(&self, accepted: &Result<SimplicialComplex, u32>, mut table: Table, record: Put) -> Table {
        if let (true, Ok(complex)) = (self.is_worked_out && expected::number(accepted, 0, &table) == 0, accepted) {
            let all: Vec<usize> = (0..complex.triangles.len()).collect();
            table = expected::left(&table, &all, &expected::anew(complex, &self.lengths));
        }
        if let Some(deficit) = table.deficits.get_mut(record.place) {
            *deficit = record.deficit;
        }
        if let Some(kind) = table.kinds.get_mut(record.place) {
            *kind = record.kind;
        }
        table
    }

    /// The lines of its retouches on a table with a record that is put there, each with a name; so many deficits and kinds are shown. What occurs is counted.
    fn retouches(&self, name: &str, table: Table, record: Put, rooms: [usize; 2], facts: &mut Facts) -> String {
        let accepted = accepted(&self.check(), &self.lengths);
        let (mut table, mut lengths) = (self.first(&accepted, table, record), self.lengths.clone());
        let mut lines = String::new();
        for &change in &self.changes {
            let number = expected::number(&accepted, change.edge, &table);
            if let (0, Ok(complex)) = (number, &accepted) {
                table = answered(complex, change, &mut lengths, &table, facts);
            }
            lines += &format!("{name} {number}\n{}", shown(&lengths, &table, rooms));
        }
        lines
    }

    /// The lines that answer it, on plain lists and on records, where a byte that is no kind is Spacelike; what occurs on plain lists is counted.
    fn answer(&self, facts: &mut Facts) -> String {
        let (rooms, record) = (self.rooms, self.record);
        let plain = Table { deficits: vec![DEFICIT; rooms[0]], kinds: vec![KIND; rooms[1]] };
        let records = Table { deficits: vec![DEFICIT; RECORDS], kinds: vec![SPACELIKE; RECORDS] };
        let kind = if record.kind == TIMELIKE { TIMELIKE } else { SPACELIKE };
        let other = Put { kind, ..record };
        self.retouches("retouch", plain, record, rooms, facts)
            + &self.retouches("records", records, other, [rooms[0]; 2], &mut Facts::default())
    }
}

/// Stores a length; the table that an answered retouch leaves. What occurs is counted.
fn answered(
    complex: &SimplicialComplex,
    change: Change,
    lengths: &mut [f64],
    before: &Table,
    facts: &mut Facts,
) -> Table {
    let (old, old_length) = (expected::anew(complex, lengths), lengths[change.edge as usize]);
    lengths[change.edge as usize] = change.length;
    let (new, (holders, touched)) = (expected::anew(complex, lengths), around(complex, change));
    let left = expected::left(before, &touched, &new);
    let (after, old, new) = (&left, &old, &new);
    let step = Step { complex, change, old_length, holders, touched, before, after, old, new };
    assert!(step.complaint().is_none(), "demand 3");
    facts.add(&step);
    left
}

/// The complexes that are answered: one pentachoron, two and three neighbours, one twice, four around a triangle, two with a common edge, two apart, none.
fn complexes() -> Vec<(usize, Vec<Pent>)> {
    vec![
        (5, vec![[3, 0, 4, 1, 2]]),
        (6, vec![[0, 1, 2, 3, 4], [1, 2, 3, 4, 5]]),
        (7, vec![[6, 5, 4, 3, 2], [1, 2, 3, 4, 5], [0, 1, 2, 3, 4]]),
        (6, vec![[4, 3, 2, 1, 0], [0, 1, 2, 3, 5], [0, 1, 2, 3, 4]]),
        (7, vec![[2, 1, 0, 3, 4], [0, 1, 2, 4, 5], [0, 1, 2, 5, 6], [6, 0, 1, 2, 3]]),
        (4_096, vec![[4_095, 7, 4_094, 12, 300], [1, 2, 3, 4_095, 7]]),
        (10, vec![[0, 1, 2, 3, 4], [9, 8, 7, 6, 5]]),
        (9, vec![]),
    ]
}

/// Every complex with lengths of every kind in turn and retouches of every kind, its table worked out first or not, and longer or not.
fn answered_lines(random: &mut Random) -> Vec<Line> {
    let (mut lines, mut number) = (Vec::new(), 0);
    for ((n_vertices, pents), rounds) in complexes().into_iter().zip([8, 5, 4, 4, 4, 3, 3, 1]) {
        for round in 0..rounds {
            let mut pents = pents.clone();
            pents.iter_mut().for_each(|pent| shuffle(random, pent));
            let mut line = Line::new(n_vertices, &pents, |complex| lengths::drawn(random, number, complex).1);
            line.is_worked_out = round % 4 != 3;
            line.rooms = line.rooms.map(|room| room + random.pick(&[0, 0, 1, 5]));
            line.changes = changes(random, number, &line);
            lines.push(line);
            number += 1;
        }
    }
    lines
}

/// Successive retouches of a line's complex; one of edge 0 where there are no edges.
fn changes(random: &mut Random, number: usize, line: &Line) -> Vec<Change> {
    let (complex, mut lengths, mut steps) = (line.complex(), line.lengths.clone(), Steps::new(number).1);
    if lengths.is_empty() {
        return vec![Change { edge: 0, length: 1.0 }];
    }
    let next = |_| {
        let change = steps.next(random, &complex, &lengths);
        lengths[change.edge as usize] = change.length;
        change
    };
    (0..6).map(next).collect()
}

/// Chosen lengths in turn at the edges of P2: those that stand out, the old one, the other zero.
fn chosen() -> Vec<Line> {
    let plain = Line::new(5, &[[0, 1, 2, 3, 4]], |_| P2.to_vec());
    let at = |edge: u32, length: f64| Change { edge, length };
    let [low, high] = [f64::NEG_INFINITY, f64::INFINITY];
    let out =
        [at(0, f64::NAN), at(0, -1.0), at(3, high), at(3, low), at(3, 1.0), at(9, 1e300), at(9, 2.0), at(4, 5e-324)];
    let zeros = [at(4, -0.0), at(4, 0.0), at(4, 0.0), at(1, 1.0), at(1, 0.25), at(1, -1.0), at(1, 1.0)];
    [&out[..], &zeros].map(|changes| Line { changes: changes.to_vec(), ..plain.clone() }).to_vec()
}

/// Two neighbours.
fn neighbours() -> Line {
    Line::new(6, &[[0, 1, 2, 3, 4], [1, 2, 3, 4, 5]], |complex| {
        complex.edges.iter().map(|&[a, b]| if a == 0 { -1.0 } else { (a + b) as f64 }).collect()
    })
}

/// Two neighbours with a record that doesn't match: its deficit, its kind, or a byte that is no kind; of each triangle that the first retouch leaves, and the second writes.
fn stale() -> Vec<Line> {
    let mut plain = neighbours();
    let complex = plain.complex();
    let table = expected::anew(&complex, &plain.lengths);
    plain.changes = [0, 13].map(|edge| Change { edge, length: 0.75 }).to_vec();
    let touched = around(&complex, plain.changes[0]).1;
    let left = (0..table.kinds.len()).filter(|tri| !touched.contains(tri));
    let record = |place: usize| {
        let (deficit, kind) = (table.deficits[place], table.kinds[place]);
        let record = |deficit: u64, kind: u8| Put { place, deficit, kind };
        [record(deficit ^ 1, kind), record(deficit, 1 - kind), record(deficit, 2 + place as u8)][place % 3]
    };
    left.map(|place| Line { record: record(place), ..plain.clone() }).collect()
}

/// Each refusal by itself and with every choice of the others; answered calls stand between.
fn refused() -> Vec<Line> {
    let plain = neighbours();
    let (items, mut lines) = (Check::new(&plain.complex()).lists[EDGE_TO_PENTS].clone(), Vec::new());
    for choice in 0..8 {
        let mut line = plain.clone();
        if choice & 1 == 1 {
            line.called = [5, 4_097, 0, 5][choice >> 1];
        }
        if choice & 2 == 2 {
            line.lengths.truncate([13, 0][choice & 1]);
        }
        if choice & 4 == 4 {
            line.rooms[choice & 1] = [15, 0][choice >> 1 & 1];
        }
        line.changes = [3, 14, u32::MAX, 13].map(|edge| Change { edge, length: 0.5 }).to_vec();
        lines.push(line);
    }
    let change = Change { edge: 2, length: 3.0 };
    for place in [0, items.len() - 1, items.len()] {
        let item = (place, items.get(place).unwrap_or(&0) ^ 1);
        lines.push(Line { item, changes: vec![change], ..plain.clone() });
    }
    let many = plain.lengths.iter().cycle().take(15).copied().collect();
    lines.push(Line { lengths: many, changes: vec![change], ..plain });
    lines
}

/// Writes the sample and its answers to the two files that are named.
fn main() -> ExitCode {
    let (mut random, mut facts) = (Random(3_500), Facts::default());
    let lines = [chosen(), answered_lines(&mut random), stale(), refused()].concat();
    let inputs: String = lines.iter().map(Line::text).collect();
    let answers: String = lines.iter().map(|line| line.answer(&mut facts)).collect();
    assert_eq!(facts.print(), 0, "facts that don't occur");
    println!("{} lines frozen, {} and {} bytes", lines.len(), inputs.len(), answers.len());
    frozen::write(&inputs, &answers)
}
