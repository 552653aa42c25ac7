//! What the Rust does with particular lengths, counted so that none of it goes without inputs.
use crate::distance::agree;
use crate::expected::Answers;
use crate::lengths::{AREA_LIMIT, area};
use altered::geometry::cofactor_6x6;
use altered::lorentzian::{HingeType, cm_matrix_signed};
use altered::lorentzian_regge::compute_dihedral;
use phyz_regge::complex::SimplicialComplex;

/// What is counted, in this order.
const NAMES: [&str; 8] = [
    "Timelike hinges with the deficit -0.0",
    "triangles of area below 1e-30, which the gradient skips",
    "actions that are others if these are skipped",
    "triangles of area 1e-30, which the gradient doesn't skip",
    "triangles of NaN area",
    "hinges with a later pentachoron of another kind than the first",
    "pentachorons with one length NaN or infinite: the opposite triangle's angle 0, Spacelike",
    "pentachorons with one length NaN or infinite: all else NaN, Timelike",
];

/// The counts.
#[derive(Default)]
pub struct Facts([u64; NAMES.len()]);

/// Prints each name's count; how many are 0.
pub fn print(counts: &[u64], names: &[&str]) -> u64 {
    counts.iter().zip(names).for_each(|(count, name)| println!("{name}: {count}"));
    counts.iter().filter(|&&count| count == 0).count() as u64
}

/// The triangles of a pentachoron with their dihedrals and kinds there, in the order of the pairs of vertices that they leave.
pub fn dihedrals(complex: &SimplicialComplex, pent: usize, lengths: &[f64]) -> Vec<(usize, f64, HingeType)> {
    let matrix = cm_matrix_signed(&complex.pent_edge_lengths(pent, lengths));
    let diagonal: [f64; 5] = std::array::from_fn(|l| cofactor_6x6(&matrix, l + 1, l + 1));
    let pairs = (0..5).flat_map(|l| (l + 1..5).map(move |m| (l, m)));
    let dihedral = |(l, m): (usize, usize)| {
        let left: Vec<usize> = (0..5).filter(|&v| v != l && v != m).map(|v| complex.pents[pent][v]).collect();
        let tri: [usize; 3] = left.try_into().unwrap();
        let (value, kind) = compute_dihedral(cofactor_6x6(&matrix, l + 1, m + 1), diagonal[l], diagonal[m]);
        (complex.tri_index[&tri], value, kind)
    };
    pairs.map(dihedral).collect()
}

impl Facts {
    /// Counts the areas, and the action without the small ones.
    fn areas(&mut self, complex: &SimplicialComplex, lengths: &[f64], answers: &Answers) {
        let mut action = 0.0;
        for (tri, deficit) in answers.deficits.iter().enumerate() {
            let area = area(complex, tri, lengths);
            self.0[1] += u64::from(area < AREA_LIMIT);
            self.0[3] += u64::from(area == AREA_LIMIT);
            self.0[4] += u64::from(area.is_nan());
            if area >= AREA_LIMIT || area.is_nan() {
                action += area * deficit;
            }
        }
        self.0[2] += u64::from(!agree(action, answers.action));
    }

    /// Counts a pentachoron that has one length NaN or infinite.
    fn not_finite(&mut self, lengths: [f64; 10], dihedrals: &[(usize, f64, HingeType)]) {
        let others: Vec<usize> = (0..10).filter(|&edge| !lengths[edge].is_finite()).collect();
        if let [edge] = others[..] {
            let is_nan = |place: usize| dihedrals[place].1.is_nan() && dihedrals[place].2 == HingeType::Timelike;
            self.0[6] += u64::from(dihedrals[edge].1 == 0.0 && dihedrals[edge].2 == HingeType::Spacelike);
            self.0[7] += u64::from((0..10).all(|place| place == edge || is_nan(place)));
        }
    }

    /// Counts the pentachorons, and the hinges whose kinds differ among them.
    fn kinds(&mut self, complex: &SimplicialComplex, lengths: &[f64], answers: &Answers) {
        let mut others = vec![false; answers.kinds.len()];
        for pent in 0..complex.pents.len() {
            let dihedrals = dihedrals(complex, pent, lengths);
            self.not_finite(complex.pent_edge_lengths(pent, lengths), &dihedrals);
            dihedrals.iter().for_each(|(tri, _, kind)| others[*tri] |= *kind as u8 != answers.kinds[*tri]);
        }
        self.0[5] += others.into_iter().filter(|&other| other).count() as u64;
    }

    /// Counts what occurs in an answer.
    pub fn add(&mut self, complex: &SimplicialComplex, lengths: &[f64], answers: &Answers) {
        let negative_zero = (-0.0_f64).to_bits();
        let hinges = answers.deficits.iter().zip(&answers.kinds);
        self.0[0] += hinges.filter(|(deficit, kind)| **kind == 1 && deficit.to_bits() == negative_zero).count() as u64;
        self.areas(complex, lengths, answers);
        self.kinds(complex, lengths, answers);
    }

    /// Prints the counts; how many are 0.
    pub fn print(&self) -> u64 {
        print(&self.0, &NAMES)
    }
}
