//! What the Rust does with particular lengths and free edges, counted so that none of it goes without inputs. The Hessian's summands are worked out here by themselves.
use crate::distance::agree;
use crate::facts::{self, dihedrals};
use crate::lengths::AREA_LIMIT;
use crate::local::{Answers, Free};
use crate::simplexes::EDGES;
use altered::lorentzian::{all_lorentzian_dihedrals_jacobian, triangle_area_sq_grad, triangle_area_sq_lorentzian};
use phyz_regge::complex::SimplicialComplex;

/// What is counted, in this order.
const NAMES: [&str; 22] = [
    "first term: triangles of area below 1e-30, which are skipped",
    "first term: triangles of area 1e-30, which aren't",
    "first term: triangles of NaN area",
    "first term: triangles of negative squared area",
    "first term: summands off the diagonal",
    "second term: triangles of area below 1e-30, which are skipped",
    "second term: triangles of area 1e-30, which aren't",
    "second term: triangles of NaN area",
    "second term: triangles of negative squared area",
    "second term: rows skipped for a derivative that is below 1e-30 and not zero",
    "second term: rows skipped for a zero derivative beside Jacobian entries NaN or infinite",
    "second term: summands -0.0",
    "entries of two edges in one pentachoron and no triangle",
    "entries of two edges in no pentachoron",
    "entries that are others if both terms are summed up in one matrix",
    "entries that are others if triangles come from the last",
    "entries that are others if pentachorons come from the last",
    "entries that are others if rows and columns are exchanged",
    "gradient entries that are others if triangles come from the last",
    "second term: rows not skipped for a derivative of 1e-30",
    "second term: rows of a triangle of area 1e-30 beside Jacobian entries that aren't zero",
    "hinges on free edges with a later pentachoron of another kind than the first",
];

/// The counts.
#[derive(Default)]
pub struct Facts([u64; NAMES.len()]);

/// What is added to an entry, which is the row's start and the column.
type Summand = (usize, f64);

/// A triangle's squared area, its derivatives, and its absolute area.
struct Area {
    squared: f64,
    derivatives: [f64; 3],
    absolute: f64,
}

impl Area {
    /// The area of three squared lengths.
    fn new([s01, s02, s12]: [f64; 3]) -> Area {
        let squared = triangle_area_sq_lorentzian(s01, s02, s12);
        Area { squared, derivatives: triangle_area_sq_grad(s01, s02, s12), absolute: squared.abs().sqrt() }
    }

    /// 1, or -1 below zero and for NaN.
    fn sign(&self) -> f64 {
        if self.squared >= 0.0 { 1.0 } else { -1.0 }
    }

    /// What the derivatives of the squared area are multiplied by.
    fn factor(&self) -> f64 {
        self.sign() / (2.0 * self.absolute)
    }
}

/// How many entries of two lists don't agree.
fn others(a: &[f64], b: &[f64]) -> u64 {
    a.iter().zip(b).filter(|(a, b)| !agree(**a, **b)).count() as u64
}

/// A list of so many zeros to which summands are added in turn.
fn summed<'a>(room: usize, summands: impl Iterator<Item = &'a Summand>) -> Vec<f64> {
    let mut sums = vec![0.0; room];
    summands.for_each(|(place, summand)| sums[*place] += summand);
    sums
}

/// The sums of two lists.
fn added(a: &[f64], b: &[f64]) -> Vec<f64> {
    a.iter().zip(b).map(|(a, b)| a + b).collect()
}

/// A call: a complex, lengths, free edges, and the places of these.
struct Call<'a> {
    complex: &'a SimplicialComplex,
    lengths: &'a [f64],
    free: &'a Free,
    places: Vec<Option<usize>>,
}

impl<'a> Call<'a> {
    /// The call, whose free edges are lawful.
    fn new(complex: &'a SimplicialComplex, lengths: &'a [f64], free: &'a Free) -> Self {
        let mut places = vec![None; complex.edges.len()];
        free.edges.iter().enumerate().for_each(|(place, &edge)| places[edge as usize] = Some(place));
        Call { complex, lengths, free, places }
    }

    /// The place of an entry, if both edges are free.
    fn entry(&self, row: usize, column: usize) -> Option<usize> {
        Some(self.places[row]? * self.free.edges.len() + self.places[column]?)
    }

    /// The pentachorons of the free edges, ascending.
    fn pents(&self) -> Vec<usize> {
        let pents = self.free.edges.iter().flat_map(|&edge| &self.complex.edge_to_pents[edge as usize]);
        let mut pents: Vec<usize> = pents.copied().collect();
        pents.sort_unstable();
        pents.dedup();
        pents
    }
}

impl Facts {
    /// Counts an area below the limit, at it, NaN, negative; whether it is skipped.
    fn skipped(&mut self, area: &Area, names: [usize; 4]) -> bool {
        let Area { squared, absolute, .. } = area;
        let facts = [*absolute < AREA_LIMIT, *absolute == AREA_LIMIT, absolute.is_nan(), *squared < 0.0];
        names.into_iter().zip(facts).for_each(|(name, fact)| self.0[name] += u64::from(fact));
        *absolute < AREA_LIMIT
    }

    /// The summands of the first term, and those of the gradient.
    fn first(&mut self, call: &Call, answers: &Answers) -> [Vec<Summand>; 2] {
        let (mut summands, mut slopes) = (Vec::new(), Vec::new());
        for (&tri, deficit) in answers.tris.iter().zip(&answers.deficits) {
            let area = Area::new(call.complex.tri_edge_lengths(tri as usize, call.lengths));
            if self.skipped(&area, [0, 1, 2, 3]) {
                continue;
            }
            let (half, cube) = (1.0 / (2.0 * area.absolute), 4.0 * area.absolute * area.absolute * area.absolute);
            let edges = call.complex.tri_edge_indices(tri as usize);
            for i in 0..3 {
                let slope = area.factor() * area.derivatives[i] * deficit;
                slopes.extend(call.places[edges[i]].map(|place| (place, slope)));
                for j in 0..3 {
                    let second = if i == j { -0.125 } else { 0.125 };
                    let product = area.derivatives[i] * area.derivatives[j];
                    let summand = (area.sign() * second * half - product * (1.0 / cube)) * deficit;
                    let entry = call.entry(edges[i], edges[j]);
                    self.0[4] += u64::from(i != j && entry.is_some());
                    summands.extend(entry.map(|entry| (entry, summand)));
                }
            }
        }
        [summands, slopes]
    }

    /// The summands of the second term in a pentachoron.
    fn second(&mut self, call: &Call, pent: usize) -> Vec<Summand> {
        let lengths = call.complex.pent_edge_lengths(pent, call.lengths);
        let edges = call.complex.pent_edge_indices(pent);
        let jacobian = all_lorentzian_dihedrals_jacobian(&lengths, call.free.fd_eps);
        let mut summands = Vec::new();
        for (pair, row) in jacobian.iter().enumerate() {
            let sides = opposite_sides(pair);
            let area = Area::new(sides.map(|side| lengths[side]));
            if self.skipped(&area, [5, 6, 7, 8]) {
                continue;
            }
            for e in (0..10).filter(|&e| call.places[edges[e]].is_some()) {
                let derivative = sides.iter().position(|&side| side == e).map_or(0.0, |side| area.derivatives[side]);
                let derivative = area.factor() * derivative;
                if derivative.abs() < AREA_LIMIT {
                    self.0[9] += u64::from(derivative != 0.0);
                    self.0[10] += u64::from(derivative == 0.0 && row.iter().any(|entry| !entry.is_finite()));
                    continue;
                }
                self.0[19] += u64::from(derivative.abs() == AREA_LIMIT);
                self.0[20] += u64::from(area.absolute == AREA_LIMIT && row.iter().any(|entry| *entry != 0.0));
                let entries = (0..10).filter_map(|f| Some((call.entry(edges[e], edges[f])?, derivative * -row[f])));
                summands.extend(entries);
            }
        }
        self.0[11] +=
            summands.iter().filter(|(_, summand)| *summand == 0.0 && summand.is_sign_negative()).count() as u64;
        summands
    }

    /// Counts entries by what their two edges have in common.
    fn pairs(&mut self, call: &Call) {
        let common = |a: &[usize], b: &[usize]| a.iter().any(|number| b.contains(number));
        let free: Vec<usize> = call.free.edges.iter().map(|&edge| edge as usize).collect();
        for (row, column) in free.iter().flat_map(|&row| free.iter().map(move |&column| (row, column))) {
            let SimplicialComplex { edge_to_tris, edge_to_pents, .. } = call.complex;
            let pents = common(&edge_to_pents[row], &edge_to_pents[column]);
            self.0[12] += u64::from(pents && !common(&edge_to_tris[row], &edge_to_tris[column]));
            self.0[13] += u64::from(!pents);
        }
    }

    /// Counts the entries that another order would change; the order of these sums must give the answers.
    fn orders(&mut self, call: &Call, answers: &Answers) {
        let Answers { grad, hessian, .. } = answers;
        let (free, room) = (grad.len(), hessian.len());
        let [first, slopes] = self.first(call, answers);
        let second: Vec<Vec<Summand>> = call.pents().into_iter().map(|pent| self.second(call, pent)).collect();
        let sums = [summed(room, first.iter()), summed(room, second.iter().flatten())];
        assert_eq!(others(&added(&sums[0], &sums[1]), hessian), 0, "the Hessian is another sum");
        assert_eq!(others(&summed(free, slopes.iter()), grad), 0, "the gradient is another sum");
        let one = summed(room, first.iter().chain(second.iter().flatten()));
        let triangles = added(&summed(room, first.iter().rev()), &sums[1]);
        let pents = added(&sums[0], &summed(room, second.iter().rev().flatten()));
        let exchanged: Vec<f64> = (0..room).map(|place| hessian[place % free * free + place / free]).collect();
        let changed = [one, triangles, pents, exchanged].map(|other| others(&other, hessian));
        changed.into_iter().enumerate().for_each(|(place, count)| self.0[14 + place] += count);
        self.0[18] += others(&summed(free, slopes.iter().rev()), grad);
    }

    /// Counts the hinges whose kinds differ among their pentachorons.
    fn kinds(&mut self, call: &Call, answers: &Answers) {
        let mut others = vec![false; call.complex.triangles.len()];
        let place = |tri: usize| answers.tris.binary_search(&(tri as u32)).ok();
        let pents = answers.tris.iter().flat_map(|&tri| &call.complex.tri_to_pents[tri as usize]);
        let mut pents: Vec<usize> = pents.copied().collect();
        pents.sort_unstable();
        pents.dedup();
        for (tri, _, kind) in pents.into_iter().flat_map(|pent| dihedrals(call.complex, pent, call.lengths)) {
            others[tri] |= place(tri).is_some_and(|place| kind as u8 != answers.kinds[place]);
        }
        self.0[21] += others.into_iter().filter(|&other| other).count() as u64;
    }

    /// Counts what occurs in an answer.
    pub fn add(&mut self, complex: &SimplicialComplex, lengths: &[f64], free: &Free, answers: &Answers) {
        let call = Call::new(complex, lengths, free);
        self.pairs(&call);
        self.orders(&call, answers);
        self.kinds(&call, answers);
    }

    /// Prints the counts; how many are 0.
    pub fn print(&self) -> u64 {
        facts::print(&self.0, &NAMES)
    }
}

/// The sides of the triangle that a pair of a pentachoron's vertices leaves, as places of its edges.
fn opposite_sides(pair: usize) -> [usize; 3] {
    let (l, m) = EDGES[pair];
    let sides = (0..10).filter(|&side| {
        let (a, b) = EDGES[side];
        ![a, b].contains(&l) && ![a, b].contains(&m)
    });
    sides.collect::<Vec<usize>>().try_into().unwrap()
}
