//! Series of retouches: each leaves the table worked out anew from the changed lengths just where the table before matched the old ones
//! at every triangle that lies in no pentachoron with the edge, and nothing else changes.
use cjapthumi::Complex;
use cjapthumi::complex::{EdgeNumber, TriangleNumber};
use cjapthumi::foliation::{flat_minkowski_sq_lengths, foliated_hypercubic};
use cjapthumi::hinge_table::HingeTable;
use cjapthumi::lorentzian::HingeType;
use cjapthumi::retouch::retouch;

/// A generator of fixed seed, splitmix64.
struct Random(u64);

impl Random {
    /// A number below the limit.
    fn below(&mut self, limit: usize) -> usize {
        self.0 = self.0.wrapping_add(0x9e37_79b9_7f4a_7c15);
        let z = (self.0 ^ self.0 >> 30).wrapping_mul(0xbf58_476d_1ce4_e5b9);
        let z = (z ^ z >> 27).wrapping_mul(0x94d0_49bb_1331_11eb);
        ((z ^ z >> 31) % limit as u64) as usize
    }

    /// A new squared length: near the old one, of another sort, or not finite.
    fn length(&mut self, old: f64) -> f64 {
        let near = self.below(2_001) as f64 / 1e5 - 0.01;
        match self.below(8) {
            0 => self.below(7) as f64 - 3.0,
            1 => -old,
            2 => 0.0,
            3 => [f64::NAN, f64::INFINITY, f64::NEG_INFINITY, 5e-324, -1e300][self.below(5)],
            _ => old + near,
        }
    }
}

/// Whether each triangle lies in a pentachoron with the edge, by their vertices.
fn touched(complex: &Complex, edge: usize) -> Vec<bool> {
    let around = |pent: &&[usize; 5]| complex.edges[edge].iter().all(|end| pent.contains(end));
    let pents: Vec<&[usize; 5]> = complex.pents.iter().filter(around).collect();
    let lies = |tri: &[usize; 3]| pents.iter().any(|pent| tri.iter().all(|vertex| pent.contains(vertex)));
    complex.triangles.iter().map(lies).collect()
}

/// Whether two records agree: the kinds are the same, the deficits have the same bits or are both NaN.
fn agree((a, kind): (f64, HingeType), (b, other): (f64, HingeType)) -> bool {
    kind == other && (a.to_bits() == b.to_bits() || (a.is_nan() && b.is_nan()))
}

/// Retouches an edge and holds what is left to the rule; whether the table left is the one worked out anew.
fn step(complex: &Complex, lengths: &mut [f64], edge: usize, new: f64, table: &mut HingeTable) -> bool {
    let (old_lengths, old_table) = (lengths.to_vec(), table.clone());
    let old_anew = HingeTable::worked_out(complex, &old_lengths).unwrap();
    retouch(complex, lengths, EdgeNumber(edge), new, table).unwrap();

    let bits = |lengths: &[f64]| lengths.iter().map(|length| length.to_bits()).collect::<Vec<u64>>();
    let mut due = old_lengths;
    due[edge] = new;
    assert_eq!(bits(lengths), bits(&due), "the new length is stored, and no other");

    let anew = HingeTable::worked_out(complex, lengths).unwrap();
    let mut matched = true;
    for (tri, touched) in touched(complex, edge).into_iter().enumerate() {
        let at = |table: &HingeTable| table.get(TriangleNumber(tri)).unwrap();
        if touched {
            assert!(agree(at(table), at(&anew)), "triangle {tri} is worked out anew");
        } else {
            assert!(agree(at(table), at(&old_table)), "triangle {tri} is kept");
            matched &= agree(at(&old_table), at(&old_anew));
        }
    }
    assert_eq!(*table == anew, matched);
    matched
}

/// A series on a complex: from the table worked out anew, then with a record that is stale.
fn series(complex: &Complex, mut lengths: Vec<f64>, steps: usize) {
    let mut random = Random(steps as u64);
    let mut table = HingeTable::worked_out(complex, &lengths).unwrap();
    for _ in 0..steps {
        let edge = random.below(complex.n_edges());
        let new = random.length(lengths[edge]);
        assert!(step(complex, &mut lengths, edge, new, &mut table), "every retouch of a series does its work");
    }
    let stale = random.below(complex.n_triangles());
    let spoiled = |(tri, record)| if tri == stale { (12.5, HingeType::Spacelike) } else { record };
    table = table.iter().enumerate().map(spoiled).collect();
    let mended = |edge: usize| touched(complex, edge)[stale];
    let (far, near) = ((0..complex.n_edges()).find(|&edge| !mended(edge)), (0..complex.n_edges()).find(|&e| mended(e)));
    if let Some(far) = far {
        assert!(!step(complex, &mut lengths, far, 1.5, &mut table), "a stale record stays stale");
    }
    assert!(step(complex, &mut lengths, near.unwrap(), 0.75, &mut table), "a stale record is mended");
}

#[test]
fn on_lattices() {
    for (size, steps) in [((2, 2), 60), ((3, 2), 40), ((3, 3), 12)] {
        let lattice = foliated_hypercubic(size.0, size.1).unwrap();
        series(&lattice.complex, flat_minkowski_sq_lengths(&lattice, 1.0, 0.5), steps);
    }
}

#[test]
fn on_shared_faces_and_a_repeated_pentachoron() {
    let pents = [[0, 1, 2, 3, 4], [1, 2, 3, 4, 5], [7, 5, 3, 1, 2], [4, 3, 2, 1, 0], [2, 6, 7, 8, 9]];
    let complex = Complex::from_pentachorons(10, &pents).unwrap();
    let lengths = (0..complex.n_edges()).map(|edge| 1.0 + edge as f64 / 16.0).collect();
    series(&complex, lengths, 200);
}

#[test]
fn records_past_the_last_triangle_are_kept() {
    let complex = Complex::from_pentachorons(5, &[[0, 1, 2, 3, 4]]).unwrap();
    let mut lengths = [1.0; 10];
    let table = HingeTable::worked_out(&complex, &lengths).unwrap();
    let mut longer: HingeTable = table.iter().chain([(7.0, HingeType::Timelike)]).collect();
    retouch(&complex, &mut lengths, EdgeNumber(9), 2.0, &mut longer).unwrap();
    assert_eq!(longer.get(TriangleNumber(10)), Some((7.0, HingeType::Timelike)));
    let anew = HingeTable::worked_out(&complex, &lengths).unwrap();
    assert_eq!(longer.iter().take(10).collect::<HingeTable>(), anew);
}

#[test]
fn tables_are_equal_by_kinds_and_bits() {
    let table = |deficit, kind| HingeTable::from_iter([(1.0, HingeType::Spacelike), (deficit, kind)]);
    let zero = table(0.0, HingeType::Timelike);
    assert_eq!(zero, zero);
    assert_ne!(zero, table(-0.0, HingeType::Timelike));
    assert_ne!(zero, table(0.0, HingeType::Spacelike));
    assert_ne!(zero, zero.iter().take(1).collect());
    assert_eq!(table(f64::NAN, HingeType::Timelike), table(-f64::NAN, HingeType::Timelike));
    assert_eq!((zero.len(), zero.is_empty(), zero.deficits()), (2, false, &[1.0, 0.0][..]));
    assert!(HingeTable::from_iter([]).is_empty());
}
