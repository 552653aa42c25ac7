//! Compares our library with the two copies of the Rust, and freezes the altered copy's answers for a replay.
mod distance;
#[path = "../end.rs"]
mod end;
mod exact;
#[allow(dead_code)]
#[path = "../../bindings/rust/src/ffi.rs"]
mod ffi;
mod freeze;
mod ours;
mod random;
mod simplexes;
#[allow(dead_code)]
#[path = "../table.rs"]
mod table;
mod tally;
mod triples;

use end::end;
use exact::Exact;
use ours::{KIND_PATTERN, VALUE_PATTERN};
use random::Random;
use simplexes::{EDGES, KINDS, SORTS, Simplex, step};
use std::process::ExitCode;
use std::time::Instant;
use tally::{Tally, hex};
use triples::Triple;

/// How many general matrices, and how many random triples of each kind.
const MATRICES: usize = 20_000;
const TRIPLES: usize = 100_000;

/// Calls a function of the altered and of the unaltered Rust.
macro_rules! both {
    ($module:ident::$name:ident($($argument:expr),*)) => {
        (altered::$module::$name($($argument),*), unaltered::$module::$name($($argument),*))
    };
}

/// A dihedral of the Rust, its kind as a number.
macro_rules! angle {
    ($dihedral:expr) => {{
        let (value, kind) = $dihedral;
        (value, kind as u8)
    }};
}

/// The counts of each function.
struct Report {
    matrix: Tally,
    cofactor: Tally,
    cofactors: Tally,
    area: Tally,
    grad: Tally,
    grad_in_pent: Tally,
    compute: Tally,
    dihedral: Tally,
    all: Tally,
    jacobian: Tally,
    jacobian_other_steps: Tally,
}

impl Report {
    /// No counts yet.
    fn new() -> Report {
        Report {
            matrix: Tally::new("cm_matrix_signed"),
            cofactor: Tally::new("cofactor_6x6"),
            cofactors: Tally::new("cm_cofactors"),
            area: Tally::new("triangle_area_sq_lorentzian"),
            grad: Tally::new("triangle_area_sq_grad"),
            grad_in_pent: Tally::new("tri_area_sq_grad_in_pent"),
            compute: Tally::new("compute_dihedral"),
            dihedral: Tally::new("lorentzian_dihedral"),
            all: Tally::new("all_lorentzian_dihedrals"),
            jacobian: Tally::new("all_lorentzian_dihedrals_jacobian, step 1e-6 or 1e-3"),
            jacobian_other_steps: Tally::new("all_lorentzian_dihedrals_jacobian, other steps"),
        }
    }

    /// The counts in the order in which they are printed.
    fn tallies(&self) -> [&Tally; 11] {
        [
            &self.matrix,
            &self.cofactor,
            &self.cofactors,
            &self.area,
            &self.grad,
            &self.grad_in_pent,
            &self.compute,
            &self.dihedral,
            &self.all,
            &self.jacobian,
            &self.jacobian_other_steps,
        ]
    }

    /// All cofactors of a matrix, and rows and columns that are refused.
    fn matrix(&mut self, random: &mut Random, m: &[[f64; 6]; 6]) {
        for row in 0..6 {
            for col in 0..6 {
                let (number, value) = ours::cofactor_6x6(m, row, col);
                let (altered, unaltered) = both!(geometry::cofactor_6x6(m, row, col));
                let place = || format!("row {row} col {col} of {}", hex(m.as_flattened()));
                self.cofactor.numbers(place, (number, &value), &[altered], &[unaltered]);
            }
        }
        let (good, bad) = (random.below(6), outside(random, 6));
        for (row, col) in [(good, bad), (bad, good), (bad, outside(random, 6))] {
            let (number, value) = ours::cofactor_6x6(m, row, col);
            self.cofactor.refusal(|| format!("row {row} col {col}"), number, value == [VALUE_PATTERN]);
        }
    }

    /// The Cayley-Menger matrix and the fifteen cofactors.
    fn cofactors(&mut self, s: &Simplex) -> [[f64; 6]; 6] {
        let (altered, unaltered) = both!(lorentzian::cm_matrix_signed(s));
        let entries = ours::cm_matrix_signed(s);
        self.matrix.numbers(|| hex(s), (0, &entries), altered.as_flattened(), unaltered.as_flattened());
        let mut rust = ([0.0; 15], [0.0; 15]);
        let places = (1..6).flat_map(|row| (row..6).map(move |col| (row, col)));
        for (k, (row, col)) in places.enumerate() {
            (rust.0[k], rust.1[k]) = both!(geometry::cofactor_6x6(&altered, row, col));
        }
        self.cofactors.numbers(|| hex(s), (0, &ours::cm_cofactors(s)), &rust.0, &rust.1);
        altered
    }

    /// The area and the gradient of a triangle.
    fn triangle(&mut self, s01: f64, s02: f64, s12: f64) {
        let place = || hex(&[s01, s02, s12]);
        let (altered, unaltered) = both!(lorentzian::triangle_area_sq_lorentzian(s01, s02, s12));
        let area = ours::triangle_area_sq_lorentzian(s01, s02, s12);
        self.area.numbers(place, (0, &[area]), &[altered], &[unaltered]);
        let (altered, unaltered) = both!(lorentzian::triangle_area_sq_grad(s01, s02, s12));
        let gradient = ours::triangle_area_sq_grad(s01, s02, s12);
        self.grad.numbers(place, (0, &gradient), &altered, &unaltered);
    }

    /// The areas and gradients of a simplex's triangles, in every order of their vertices, and triangles that are refused.
    fn triangles(&mut self, random: &mut Random, s: &Simplex) {
        for code in 0..125 {
            let tri @ [a, b, c] = [code / 25, code / 5 % 5, code % 5];
            let (number, gradient) = ours::tri_area_sq_grad_in_pent(s, tri);
            let place = || format!("vertices {a} {b} {c} of {}", hex(s));
            if a == b || a == c || b == c {
                self.grad_in_pent.refusal(place, number, gradient == [VALUE_PATTERN; 10]);
                continue;
            }
            let (altered, unaltered) = both!(lorentzian::tri_area_sq_grad_in_pent(s, tri));
            self.grad_in_pent.numbers(place, (number, &gradient), &altered, &unaltered);
            self.triangle(s[edge(a, b)], s[edge(a, c)], s[edge(b, c)]);
        }
        let first = random.below(5);
        let mut tri = [first, first + 1, first + 2].map(|vertex| vertex % 5);
        tri[random.below(3)] = outside(random, 5);
        let (number, gradient) = ours::tri_area_sq_grad_in_pent(s, tri);
        self.grad_in_pent.refusal(|| format!("vertices {tri:?}"), number, gradient == [VALUE_PATTERN; 10]);
    }

    /// The dihedral of a triple of cofactors.
    fn triple(&mut self, [c_lm, c_ll, c_mm]: Triple) {
        let (altered, unaltered) = both!(lorentzian_regge::compute_dihedral(c_lm, c_ll, c_mm));
        let dihedral = ours::compute_dihedral(c_lm, c_ll, c_mm);
        let place = || hex(&[c_lm, c_ll, c_mm]);
        self.compute.angles(place, (0, &[dihedral]), &[angle!(altered)], &[angle!(unaltered)]);
    }

    /// The dihedrals of all pairs of vertices, by both rules; equal and outside vertices are refused.
    fn dihedrals(&mut self, random: &mut Random, s: &Simplex, m: &[[f64; 6]; 6]) {
        let c = |row: usize, col: usize| altered::geometry::cofactor_6x6(m, row + 1, col + 1);
        for (l, k) in (0..25).map(|code| (code / 5, code % 5)) {
            self.triple([c(l, k), c(l, l), c(k, k)]);
            if l != k {
                let (number, dihedral) = ours::lorentzian_dihedral(s, l, k);
                let (altered, unaltered) = both!(lorentzian::lorentzian_dihedral(s, l, k));
                let place = || format!("l {l} m {k} of {}", hex(s));
                self.dihedral.angles(place, (number, &dihedral), &[angle!(altered)], &[angle!(unaltered)]);
            }
        }
        let (good, bad) = (random.below(5), outside(random, 5));
        let equal = (0..5).map(|l| (l, l));
        for (l, k) in equal.chain([(good, bad), (bad, good), (bad, bad), (bad, outside(random, 5))]) {
            let (number, dihedral) = ours::lorentzian_dihedral(s, l, k);
            let kept = dihedral == [(VALUE_PATTERN, KIND_PATTERN)];
            self.dihedral.refusal(|| format!("l {l} m {k}"), number, kept);
        }
    }

    /// The ten dihedrals at once, and their Jacobian.
    fn at_once(&mut self, s: &Simplex, eps: f64) {
        let (altered, unaltered) = both!(lorentzian::all_lorentzian_dihedrals(s));
        let dihedrals = ours::all_lorentzian_dihedrals(s);
        let (altered, unaltered) = (altered.map(|d| angle!(d)), unaltered.map(|d| angle!(d)));
        self.all.angles(|| hex(s), (0, &dihedrals), &altered, &unaltered);
        let (altered, unaltered) = both!(lorentzian::all_lorentzian_dihedrals_jacobian(s, eps));
        let jacobian = ours::all_lorentzian_dihedrals_jacobian(s, eps);
        let place = || format!("eps {} at {}", hex(&[eps]), hex(s));
        let tally = if [1e-6, 1e-3].contains(&eps) { &mut self.jacobian } else { &mut self.jacobian_other_steps };
        tally.numbers(place, (0, &jacobian), altered.as_flattened(), unaltered.as_flattened());
    }

    /// Every function on a simplex.
    fn simplex(&mut self, random: &mut Random, s: &Simplex, eps: f64) {
        let m = self.cofactors(s);
        self.matrix(random, &m);
        self.triangles(random, s);
        self.dihedrals(random, s, &m);
        self.at_once(s, eps);
    }

    /// The simplexes of every kind.
    fn simplexes(&mut self) {
        for (seed, kind) in KINDS.iter().enumerate() {
            let mut random = Random::of_round(seed as u64);
            for number in 0..kind.count {
                let s = (kind.draw)(&mut random, number);
                let eps = step(&mut random, number);
                self.simplex(&mut random, &s, eps);
            }
            println!("simplexes, {}: {}", kind.name, kind.count);
        }
        println!("simplexes: {}", KINDS.iter().map(|kind| kind.count).sum::<usize>());
    }

    /// General matrices: of one sort, with some entries of another, of all sorts.
    fn matrices(&mut self, random: &mut Random) {
        for number in 0..MATRICES {
            let (first, second) = (random.pick(&SORTS), random.pick(&SORTS));
            let one_in = random.pick(&[2, 9, 36]);
            let m = [(); 6].map(|()| {
                [(); 6].map(|()| match number % 3 {
                    0 => first(random),
                    1 if random.below(one_in) == 0 => second(random),
                    1 => random.between(-2.0, 2.0),
                    _ => random.pick(&SORTS)(random),
                })
            });
            self.matrix(random, &m);
        }
        println!("general matrices: {MATRICES}");
    }

    /// The triples of cofactors of every kind.
    fn triples(&mut self, random: &mut Random) {
        let numerators = [0.0, -0.0, 1e-31, -1e-31, 1e-30, -1e-30, 2e-30, 1.0, -1.0, f64::INFINITY, f64::NAN];
        let mut random_ones = |draw: fn(&mut Random) -> Triple| (0..TRIPLES).map(|_| draw(random)).collect();
        let kinds: [(&str, Vec<Triple>); 6] = [
            ("ratio at 1 or 1 + 1e-12", triples::at_ratio(20, &[-99, -90, -1, 0, 1, 50, 300, 509])),
            ("product at 1e-60", triples::at_product(20, &numerators, &[-500, -100, -1, 0, 1, 100, 500])),
            ("special numbers", triples::special()),
            ("near a ratio", random_ones(triples::near_ratio)),
            ("near a product", random_ones(triples::near_product)),
            ("mixed", random_ones(triples::mixed)),
        ];
        for (name, triples) in kinds {
            println!("triples, {name}: {}", triples.len());
            triples.into_iter().for_each(|triple| self.triple(triple));
        }
    }
}

/// The number of an edge.
fn edge(a: usize, b: usize) -> usize {
    EDGES.iter().position(|&pair| pair == (a.min(b), a.max(b))).unwrap()
}

/// A number that isn't below the limit: the next ones, powers of two, the largest ones, any.
fn outside(random: &mut Random, limit: usize) -> usize {
    let any = random.word() as usize | 8;
    random.pick(&[limit, limit + 1, limit + 2, 255, 256, 1 << 32, 1 << 63, usize::MAX - 1, usize::MAX, any])
}

/// Compares everything; the exit status is 1 on any difference.
fn compare() -> ExitCode {
    let begin = Instant::now();
    let (mut report, mut exact) = (Report::new(), Exact::default());
    report.simplexes();
    report.matrices(&mut Random::of_round(100));
    report.triples(&mut Random::of_round(101));
    exact.compare(&mut Random::of_round(102));
    report.tallies().into_iter().for_each(Tally::print);
    exact.print();
    println!("distance of the unaltered Rust from us, no pass mark:");
    report.tallies().into_iter().for_each(Tally::print_distance);
    report.tallies().into_iter().for_each(Tally::print_table);
    exact.print_table();
    let differences = report.tallies().iter().map(|tally| tally.differences).sum::<u64>() + exact.differences();
    end(differences, 0, begin)
}

/// Chooses the mode.
fn main() -> ExitCode {
    let arguments: Vec<String> = std::env::args().skip(1).collect();
    match &arguments[..] {
        [] => compare(),
        [mode, inputs, answers] if mode == "--freeze" => freeze::freeze(inputs, answers),
        _ => {
            eprintln!("usage: compare [--freeze STDIN STDOUT]");
            ExitCode::from(2)
        }
    }
}
