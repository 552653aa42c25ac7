//! The crate's geometry of one pentachoron beside the altered Rust's.
use crate::report::{Report, all_bits, bits};
use calls::random::Random;
use cjapthumi::lorentzian::HingeType;
use cjapthumi::{geometry, lorentzian, lorentzian_regge};
use hinges::simplexes::{KINDS, Simplex, step};

/// One in so many simplexes of each kind is compared.
const SHARE: usize = 20;

/// Our dihedral as bits and kind.
fn ours((value, kind): (f64, HingeType)) -> (u64, u8) {
    (bits(value), u8::from(kind == HingeType::Timelike))
}

/// The Rust's dihedral as bits and kind.
macro_rules! due {
    ($dihedral:expr) => {{
        let (value, kind) = $dihedral;
        (bits(value), kind as u8)
    }};
}

/// Compares the cofactors at all places, and a place outside.
fn cofactors(report: &mut Report, s: &Simplex) {
    let about = || format!("{s:?}");
    let m = altered::lorentzian::cm_matrix_signed(s);
    let matrix = lorentzian::cm_matrix_signed(s);
    report.plain("cm_matrix_signed", about, all_bits(matrix.as_flattened()), all_bits(m.as_flattened()));
    for (row, col) in (0..49).map(|place| (place / 7, place % 7)) {
        let lawful = row < 6 && col < 6;
        let due = if lawful { Ok(bits(altered::geometry::cofactor_6x6(&m, row, col))) } else { Err((11, 0)) };
        report.call("cofactor_6x6", about, geometry::cofactor_6x6(&m, row, col).map(bits), due);
    }
    let places = (1..6).flat_map(|row| (row..6).map(move |col| (row, col)));
    let due: Vec<f64> = places.map(|(row, col)| altered::geometry::cofactor_6x6(&m, row, col)).collect();
    report.plain("cm_cofactors", about, all_bits(&lorentzian::cm_cofactors(s)), all_bits(&due));
}

/// Compares a triangle's area and gradient, and the gradient of the triangle of three vertices, also of some that are none.
fn triangles(report: &mut Report, s: &Simplex) {
    let about = || format!("{s:?}");
    let [a, b, c] = [s[0], s[1], s[4]];
    let due = bits(altered::lorentzian::triangle_area_sq_lorentzian(a, b, c));
    report.plain("triangle_area_sq_lorentzian", about, bits(lorentzian::triangle_area_sq_lorentzian(a, b, c)), due);
    let due = all_bits(&altered::lorentzian::triangle_area_sq_grad(a, b, c));
    report.plain("triangle_area_sq_grad", about, all_bits(&lorentzian::triangle_area_sq_grad(a, b, c)), due);
    for tri @ [a, b, c] in [[0, 1, 2], [4, 1, 3], [2, 2, 1], [0, 5, 1], [usize::MAX, 0, 1]] {
        let lawful = a != b && a != c && b != c && tri.iter().all(|&vertex| vertex < 5);
        let due = || all_bits(&altered::lorentzian::tri_area_sq_grad_in_pent(s, tri));
        let ours = lorentzian::tri_area_sq_grad_in_pent(s, tri).map(|grad| all_bits(&grad));
        report.call("tri_area_sq_grad_in_pent", about, ours, if lawful { Ok(due()) } else { Err((11, 0)) });
    }
}

/// Compares the dihedrals by both rules, and the Jacobian.
fn dihedrals(report: &mut Report, s: &Simplex, eps: f64) {
    let about = || format!("{s:?}, step {eps:?}");
    let m = altered::lorentzian::cm_matrix_signed(s);
    let c = |row: usize, col: usize| altered::geometry::cofactor_6x6(&m, row + 1, col + 1);
    for (l, k) in (0..36).map(|pair| (pair / 6, pair % 6)) {
        let lawful = l < 5 && k < 5 && l != k;
        let due = || due!(altered::lorentzian::lorentzian_dihedral(s, l, k));
        let found = lorentzian::lorentzian_dihedral(s, l, k).map(ours);
        report.call("lorentzian_dihedral", about, found, if lawful { Ok(due()) } else { Err((11, 0)) });
        if lawful {
            let due = due!(altered::lorentzian_regge::compute_dihedral(c(l, k), c(l, l), c(k, k)));
            let found = ours(lorentzian_regge::compute_dihedral(c(l, k), c(l, l), c(k, k)));
            report.plain("compute_dihedral", about, found, due);
        }
    }
    let due = altered::lorentzian::all_lorentzian_dihedrals(s).map(|dihedral| due!(dihedral));
    report.plain("all_lorentzian_dihedrals", about, lorentzian::all_lorentzian_dihedrals(s).map(ours), due);
    let due = altered::lorentzian::all_lorentzian_dihedrals_jacobian(s, eps);
    let found = lorentzian::all_lorentzian_dihedrals_jacobian(s, eps);
    report.plain(
        "all_lorentzian_dihedrals_jacobian",
        about,
        all_bits(found.as_flattened()),
        all_bits(due.as_flattened()),
    );
}

/// Compares simplexes of every kind.
pub fn compare(report: &mut Report) {
    for (seed, kind) in KINDS.iter().enumerate() {
        let mut random = Random::of_round(2_000 + seed as u64);
        for number in (0..kind.count).step_by(SHARE) {
            let s = (kind.draw)(&mut random, number);
            let eps = step(&mut random, number);
            cofactors(report, &s);
            triangles(report, &s);
            dihedrals(report, &s, eps);
        }
    }
}
