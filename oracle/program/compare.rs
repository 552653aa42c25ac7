//! Compares what the program prints, byte for byte, with the altered Rust's answers and with the refusals in the order of 01-scope.md.
mod any;
mod defects;
mod expected;
mod facts;
mod fields;
mod lawful;
mod program;
mod refused;
mod report;

use calls::complexes;
use calls::end::end;
use calls::random::Random;
use expected::Verdict;
use fields::{Fields, LARGEST_VERTEX};
use program::{Program, Way};
use report::Report;
use std::io::Result;
use std::path::PathBuf;
use std::process::ExitCode;
use std::time::Instant;

/// How many complexes of each kind of complex/ are drawn.
const COMPLEXES: usize = 300;

/// How many inputs come in pieces, and how many as a file.
const PIECES: usize = 200;
const FILES: usize = 300;

/// The vertices of the example of 01-scope.md, 80 zero bytes follow; and the lines for its hinges and its gradient.
const EXAMPLE: [u8; 11] = [0x00, 0x28, 0x00, 0x20, 0x00, 0x00, 0x20, 0x04, 0x00, 0x60, 0x08];
const HINGE: &str = "S 401921fb54442d18";
const ENTRY: &str = "0000000000000000";

/// The program, what was compared, and how many lists of lengths of each kind there were.
struct Compare {
    program: Program,
    random: Random,
    report: Report,
    lengths: Vec<(String, usize)>,
}

impl Compare {
    /// Gives the program an input, to which this verdict is due, if it is known; reading the input must come to the same.
    fn input(&mut self, kind: &str, input: &[u8], due: Option<Verdict>, way: Way) -> Result<()> {
        let verdict = expected::read(input);
        assert!(due.is_none_or(|due| due == verdict), "{kind}: {input:02x?} is read otherwise than it was made");
        let expected = expected::output(&verdict);
        let ours = self.program.run(&mut self.random, input, way)?;
        self.report.add(kind, input, &verdict, &expected, &ours);
        Ok(())
    }

    /// Gives the program what fields say, which is to be answered.
    fn answered(&mut self, kind: &str, fields: Fields) -> Result<()> {
        self.input(kind, &fields.packed(), Some(Ok(fields)), Way::Whole)
    }

    /// The example of 01-scope.md, whose packing and lines must be those that stand there.
    fn example(&mut self) -> Result<()> {
        let fields = Fields::new((5, vec![[0, 1, 2, 3, 4]]), vec![0; 10]);
        let input = [&EXAMPLE[..], &[0; 80]].concat();
        let mut lines = "edges 10 triangles 10 tets 5\ntimelike 0 null 10 spacelike 0\n".to_string();
        (0..10).for_each(|number| lines += &format!("hinge {number} {HINGE}\n"));
        (0..10).for_each(|number| lines += &format!("grad {number} {ENTRY}\n"));
        assert!(fields.packed() == input && expected::output(&Ok(fields.clone())) == lines, "another example");
        self.answered("the example of 01-scope.md", fields)
    }

    /// Complexes of every kind of complex/, with lengths of every kind.
    fn complexes(&mut self) -> Result<()> {
        let mut drawn = 0;
        for (seed, kind) in complexes::KINDS.iter().enumerate() {
            let mut random = Random::of_round(4_000 + seed as u64);
            for number in 0..COMPLEXES {
                let complex = lawful::complex(&mut random, kind, number);
                let (name, fields) = lawful::with_lengths(&mut random, drawn, complex);
                drawn += 1;
                match self.lengths.iter_mut().find(|(known, _)| *known == name) {
                    Some((_, count)) => *count += 1,
                    None => self.lengths.push((name, 1)),
                }
                self.answered(&format!("complexes, {}", kind.name), fields)?;
            }
        }
        Ok(())
    }

    /// Every lawful vertex count, and every vertex in every slot.
    fn vertices(&mut self) -> Result<()> {
        let mut random = Random::of_round(4_100);
        for n_vertices in 1..=LARGEST_VERTEX + 1 {
            let fields = lawful::of_vertex_count(&mut random, n_vertices);
            self.answered("every vertex count, with the last vertex", fields)?;
        }
        for number in 0..lawful::EVERY_VERTEX {
            let fields = lawful::of_every_vertex(&mut random, number);
            self.answered("every vertex in each slot, 64 pentachorons apart", fields)?;
        }
        Ok(())
    }

    /// Every kind of refused inputs.
    fn refused(&mut self) -> Result<()> {
        for (seed, kind) in refused::KINDS.iter().enumerate() {
            let mut random = Random::of_round(4_200 + seed as u64);
            for number in 0..kind.count {
                let (input, refusal) = (kind.draw)(&mut random, number);
                self.input(kind.name, &input, Some(Err(refusal)), Way::Whole)?;
            }
        }
        Ok(())
    }

    /// Every kind of inputs that are known by their bytes alone.
    fn any(&mut self) -> Result<()> {
        for (seed, kind) in any::KINDS.iter().enumerate() {
            let mut random = Random::of_round(4_300 + seed as u64);
            for number in 0..kind.count {
                let input = (kind.draw)(&mut random, number);
                self.input(kind.name, &input, None, Way::Whole)?;
            }
        }
        Ok(())
    }

    /// Inputs that come in pieces or as a file: one in three is lawful, one is refused, one is known by its bytes alone.
    fn ways(&mut self) -> Result<()> {
        let mut random = Random::of_round(4_400);
        for (name, count, way) in [("in pieces", PIECES, Way::Pieces), ("as a file", FILES, Way::File)] {
            for number in 0..count {
                let (refused, any) = (random.below(refused::KINDS.len()), random.below(any::KINDS.len()));
                let input = match number % 3 {
                    0 => lawful::any(&mut random).packed(),
                    1 => (refused::KINDS[refused].draw)(&mut random, number % refused::KINDS[refused].count).0,
                    _ => (any::KINDS[any].draw)(&mut random, number),
                };
                self.input(name, &input, None, way)?;
            }
        }
        Ok(())
    }

    /// Prints the report; how many inputs differ, and how much doesn't occur that must.
    fn print(&self) -> [u64; 2] {
        self.lengths.iter().for_each(|(name, count)| println!("lengths of complexes, {name}: {count}"));
        self.report.print()
    }
}

/// Compares everything with the program that is named; the exit status is 1 on any difference, and where something that must occur doesn't.
fn main() -> Result<ExitCode> {
    let begin = Instant::now();
    let path = PathBuf::from(std::env::args_os().nth(1).expect("the program's path"));
    let (program, random) = (Program::new(&path)?, Random::of_round(4_500));
    let mut compare = Compare { program, random, report: Report::default(), lengths: vec![] };
    compare.example()?;
    compare.complexes()?;
    compare.vertices()?;
    compare.refused()?;
    compare.any()?;
    compare.ways()?;
    let [differences, missing] = compare.print();
    Ok(end(differences, missing, begin))
}
