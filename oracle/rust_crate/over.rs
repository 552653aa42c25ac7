//! The crate's calls over a complex beside the altered Rust's, and their refusals beside the table.
use crate::programs;
use crate::report::{Refused, Report, all_bits, bits};
use calls::random::Random;
use cjapthumi::Complex;
use cjapthumi::complex::{EdgeNumber, TriangleNumber};
use cjapthumi::hinge_table::HingeTable;
use cjapthumi::length_signs::length_signs;
use cjapthumi::lorentzian::HingeType;
use cjapthumi::lorentzian_regge as regge;
use cjapthumi::retouch::retouch;
use hinges::local::{self, Free};
use hinges::simplexes::SORTS;
use hinges::{expected, free_edges};
use phyz_regge::complex::SimplicialComplex;

/// A hinge's bits and kind.
type Record = (u64, u8);

/// Our hinge.
fn record((deficit, kind): (f64, HingeType)) -> Record {
    (bits(deficit), u8::from(kind == HingeType::Timelike))
}

/// All that our table tells, by each of its methods.
fn told(table: HingeTable) -> (Vec<Record>, Vec<Option<Record>>, Vec<u64>, (usize, bool)) {
    let records = table.iter().map(record).collect();
    let each = (0..=table.len()).map(|tri| table.get(TriangleNumber(tri)).map(record)).collect();
    (records, each, all_bits(table.deficits()), (table.len(), table.is_empty()))
}

/// The same of the Rust's hinges.
fn due_told(records: &[Record]) -> (Vec<Record>, Vec<Option<Record>>, Vec<u64>, (usize, bool)) {
    let each = records.iter().copied().map(Some).chain([None]).collect();
    let deficits = records.iter().map(|(deficit, _)| *deficit).collect();
    (records.to_vec(), each, deficits, (records.len(), records.is_empty()))
}

/// The Rust's hinges.
fn records(deficits: &[f64], kinds: &[u8]) -> Vec<Record> {
    deficits.iter().zip(kinds).map(|(&deficit, &kind)| (bits(deficit), kind)).collect()
}

/// The table that a retouch is given.
#[derive(Clone, Copy, Debug, PartialEq)]
enum Given {
    /// The one worked out anew.
    WorkedOut,
    /// The same, with every third record another.
    Stale,
    /// The one worked out anew without its last record.
    Short,
    /// The one worked out anew, and a length too many.
    Lengths,
}

/// Our complex and the Rust's, with lengths.
pub struct Over<'a> {
    pub ours: &'a Complex,
    pub rust: &'a SimplicialComplex,
    pub lengths: Vec<f64>,
}

impl Over<'_> {
    /// The refusal that lengths of this number get, if any.
    fn refused(&self, lengths: &[f64]) -> Result<(), Refused> {
        if lengths.len() == self.rust.edges.len() { Ok(()) } else { Err((8, 0)) }
    }

    /// Compares the calls over all hinges with these lengths, of any number, and the hinge of a triangle of any number.
    fn global(&self, report: &mut Report, lengths: &[f64], tri: usize) {
        let refused = self.refused(lengths);
        let due = refused.map(|()| expected::altered(self.rust, lengths));
        let due = due.as_ref().map_err(|refused| *refused);
        let about = || format!("lengths {lengths:?}, triangle {tri}");
        let table = due.map(|answers| records(&answers.deficits, &answers.kinds));
        let ours = regge::lorentzian_deficit_angles(self.ours, lengths);
        let ours = ours.map(|hinges| hinges.into_iter().map(record).collect());
        report.call("lorentzian_deficit_angles", about, ours, table.clone());
        let ours = HingeTable::worked_out(self.ours, lengths).map(told);
        report.call("HingeTable", about, ours, table.as_ref().map(|table| due_told(table)).map_err(|refused| *refused));
        let hinge = table.and_then(|table| table.get(tri).copied().ok_or((11, 0)));
        let ours = regge::lorentzian_deficit_angle(self.ours, lengths, TriangleNumber(tri)).map(record);
        report.call("lorentzian_deficit_angle", about, ours, hinge);
        let ours = regge::lorentzian_regge_action(self.ours, lengths).map(bits);
        report.call("lorentzian_regge_action", about, ours, due.map(|answers| bits(answers.action)));
        let ours = regge::lorentzian_regge_action_grad(self.ours, lengths).map(|grad| all_bits(&grad));
        report.call("lorentzian_regge_action_grad", about, ours, due.map(|answers| all_bits(&answers.grad)));
        let signs = length_signs(lengths);
        let signs = [signs.timelike, signs.null, signs.spacelike];
        report.plain("length_signs", about, signs, expected::signs(lengths));
    }

    /// Compares the calls over free edges, which may be too large or stand twice, with these lengths.
    fn local(&self, report: &mut Report, lengths: &[f64], free: &[usize], fd_eps: f64) {
        let about = || format!("lengths {lengths:?}, free {free:?}, step {fd_eps:?}");
        let cut = |edge: &usize| u32::try_from(*edge).unwrap_or(u32::MAX);
        let edges = Free { edges: free.iter().map(cut).collect(), fd_eps };
        let accepted = self.refused(lengths).map(|()| self.rust.clone()).map_err(|(number, _)| number);
        let due = local::over(&accepted, lengths, &edges).map_err(|number| (number, 0));
        let due = due.as_ref().map_err(|refused| *refused);
        let hinges = due.map(|answers| {
            let tris = answers.tris.iter().map(|&tri| tri as usize);
            tris.zip(records(&answers.deficits, &answers.kinds)).collect::<Vec<_>>()
        });
        let ours = regge::local_deficit_angles(self.ours, lengths, free);
        let ours = ours.map(|hinges| hinges.into_iter().map(|(tri, hinge)| (tri, record(hinge))).collect());
        report.call("local_deficit_angles", about, ours, hinges);
        let ours = regge::local_lorentzian_regge_action_grad(self.ours, lengths, free).map(|grad| all_bits(&grad));
        let grad = due.map(|answers| all_bits(&answers.grad));
        report.call("local_lorentzian_regge_action_grad", about, ours, grad);
        let ours = regge::local_lorentzian_regge_hessian(self.ours, lengths, free, fd_eps);
        let hessian = due.map(|answers| all_bits(&answers.hessian));
        if let (Ok(ours), Ok(hessian)) = (&ours, &hessian) {
            let told = ((ours.nrows(), ours.ncols()), all_bits(ours.as_row_slice()));
            report.plain("DMat", about, told, ((free.len(), free.len()), hessian.clone()));
        }
        let ours = ours.map(|hessian| {
            let places = (0..free.len()).flat_map(|row| (0..free.len()).map(move |col| (row, col)));
            places.map(|place| bits(hessian[place])).collect()
        });
        report.call("local_lorentzian_regge_hessian", about, ours, hessian);
    }

    /// Whether a triangle lies in a pentachoron with an edge, by their vertices.
    fn is_touched(&self, edge: usize, tri: usize) -> bool {
        let holds = |pent: &[usize; 5], face: &[usize]| face.iter().all(|vertex| pent.contains(vertex));
        let with_edge = |pent: &&[usize; 5]| holds(pent, &self.rust.edges[edge]);
        self.rust.pents.iter().filter(with_edge).any(|pent| holds(pent, &self.rust.triangles[tri]))
    }

    /// The table that a retouch is given.
    fn given(&self, given: Given) -> HingeTable {
        let table = HingeTable::worked_out(self.ours, &self.lengths).unwrap();
        let stale = |(tri, (deficit, kind)): (usize, (f64, HingeType))| match (given, tri % 3) {
            (Given::Stale, 1) => (deficit + 1.5, HingeType::Spacelike),
            _ => (deficit, kind),
        };
        let records = table.len() - usize::from(given == Given::Short);
        table.iter().take(records).enumerate().map(stale).collect()
    }

    /// Compares a retouch: the lengths and the table afterwards, and whether our tables are equal where the Rust's are.
    fn retouch(&self, report: &mut Report, edge: usize, new: f64, given: Given) {
        let (mut lengths, mut table) = (self.lengths.clone(), self.given(given));
        if given == Given::Lengths {
            lengths.push(1.0);
        }
        let (mut changed, before) = (lengths.clone(), table.iter().map(record).collect::<Vec<Record>>());
        let answer = retouch(self.ours, &mut lengths, EdgeNumber(edge), new, &mut table);
        let left = (all_bits(&lengths), table.iter().map(record).collect::<Vec<_>>());
        let refused = match (edge >= self.lengths.len(), given) {
            (_, Given::Lengths) => Err((8, 0)),
            (true, _) => Err((9, 0)),
            (_, Given::Short) => Err((5, 0)),
            _ => Ok(()),
        };
        let mut due = before;
        if refused.is_ok() {
            changed[edge] = new;
            let anew = expected::altered(self.rust, &changed);
            let anew = records(&anew.deficits, &anew.kinds);
            for tri in (0..due.len()).filter(|&tri| self.is_touched(edge, tri)) {
                due[tri] = anew[tri];
            }
            let equal = table == HingeTable::worked_out(self.ours, &changed).unwrap();
            report.plain("HingeTable", || format!("equality after a retouch of edge {edge}"), equal, due == anew);
        }
        let about = || format!("edge {edge} to {new:?}, table {given:?}, lengths {:?}", self.lengths);
        report.lent("retouch", about, (answer, left), (refused, (all_bits(&changed), due)));
    }

    /// Compares every call, also with lengths of a wrong number, free edges and triangles that are too large, and edges that stand twice.
    pub fn compare(&self, report: &mut Report, random: &mut Random, number: usize) {
        let (edges, triangles) = (self.rust.edges.len(), self.rust.triangles.len());
        let (_, Free { edges: free, fd_eps }) = free_edges::drawn(random, number, self.rust);
        let free: Vec<usize> = free.into_iter().map(|edge| edge as usize).collect();
        let outside = random.pick(&[edges, edges + 1, 1 << 32, usize::MAX]);
        let wrong: Vec<f64> = [&self.lengths[..], &[1.0]].concat();
        self.global(report, &self.lengths, random.below(triangles.max(1)));
        self.global(report, &self.lengths, random.pick(&[triangles, triangles + 7, 1 << 32, usize::MAX]));
        self.global(report, &wrong, 0);
        self.local(report, &self.lengths, &free, fd_eps);
        self.local(report, &wrong, &free, fd_eps);
        programs::compare(report, (self.ours, self.rust), &self.lengths, &free, fd_eps);
        self.local(report, &self.lengths, &[&free[..], &free[..], &[outside]].concat(), fd_eps);
        if edges > 0 {
            self.local(report, &self.lengths, &[&free[..], &[0], &free[..], &[0]].concat(), fd_eps);
            let (edge, new) = (random.below(edges), random.pick(&SORTS)(random));
            for given in [Given::WorkedOut, Given::Stale, Given::Short, Given::Lengths] {
                self.retouch(report, edge, new, given);
                self.retouch(report, outside, new, given);
            }
        }
    }
}
