//! Whole lengths: our cofactors and areas against exact integers, by a sum over permutations and not by the Rust's expansion.
use crate::ours;
use crate::random::Random;
use crate::simplexes::{EDGES, Simplex, whole};
use crate::table;
use crate::tally::hex;

/// The largest length of a simplex whose cofactors are exact.
const SIMPLEX_LIMIT: f64 = 32_768.0;

/// The largest length of a triangle whose area is exact.
const TRIANGLE_LIMIT: usize = 16_777_216;

/// A permutation of five and its sign.
type Permutation = ([usize; 5], i128);

/// The functions that are compared with exact integers.
const NAMES: [&str; 4] = ["cofactor_6x6", "cm_cofactors", "triangle_area_sq_lorentzian", "triangle_area_sq_grad"];
const COFACTOR: usize = 0;
const COFACTORS: usize = 1;
const AREA: usize = 2;
const GRADIENT: usize = 3;

/// How many simplexes and triangles there were, and of each function the calls, the values and those that differ.
#[derive(Default)]
pub struct Exact {
    simplexes: u64,
    triangles: u64,
    calls: [u64; NAMES.len()],
    values: [u64; NAMES.len()],
    differences: [u64; NAMES.len()],
}

/// All permutations of five.
fn permutations() -> Vec<Permutation> {
    let digits = |code: usize| [0, 1, 2, 3, 4].map(|k| code / 5usize.pow(k) % 5);
    let whole = |p: &[usize; 5]| (0..5).all(|k| p.contains(&k));
    (0..5usize.pow(5)).map(digits).filter(whole).map(|p| (p, sign(&p))).collect()
}

/// 1 where the number of inversions is even, else -1.
fn sign(p: &[usize; 5]) -> i128 {
    let inversions = (0..5).flat_map(|j| (0..j).map(move |i| (i, j))).filter(|&(i, j)| p[i] > p[j]).count();
    if inversions % 2 == 0 { 1 } else { -1 }
}

/// The Cayley-Menger matrix in integers.
fn matrix(simplex: &Simplex) -> [[i128; 6]; 6] {
    let mut m = [[1; 6]; 6];
    for (k, row) in m.iter_mut().enumerate() {
        row[k] = 0;
    }
    for (length, (a, b)) in simplex.iter().zip(EDGES) {
        m[a + 1][b + 1] = *length as i128;
        m[b + 1][a + 1] = *length as i128;
    }
    m
}

/// A cofactor in integers.
fn cofactor(permutations: &[Permutation], m: &[[i128; 6]; 6], row: usize, col: usize) -> i128 {
    let minor = |i: usize, j: usize| m[i + usize::from(i >= row)][j + usize::from(j >= col)];
    let product = |p: &[usize; 5]| minor(0, p[0]) * minor(1, p[1]) * minor(2, p[2]) * minor(3, p[3]) * minor(4, p[4]);
    let sum: i128 = permutations.iter().map(|(p, sign)| sign * product(p)).sum();
    if (row + col).is_multiple_of(2) { sum } else { -sum }
}

/// Whether a double is the integer; zero may have either sign.
fn is(x: f64, integer: i128) -> bool {
    x == integer as f64 && (integer as f64) as i128 == integer
}

impl Exact {
    /// Counts a value of a function, which must be the integer, and prints the first few that aren't.
    fn expect(&mut self, function: usize, x: f64, integer: i128, place: &str, lengths: &[f64]) {
        self.values[function] += 1;
        if !is(x, integer) || ours::has_strayed() {
            self.differences[function] += 1;
            if self.differences[function] <= 5 {
                println!("{}{place} of {}: ours {x:e}, exact {integer}", NAMES[function], hex(lengths));
            }
        }
    }

    /// Compares a simplex's 25 cofactors of rows and columns 1 to 5, and the fifteen of cm_cofactors.
    fn simplex(&mut self, permutations: &[Permutation], simplex: &Simplex) {
        let integers = matrix(simplex);
        let doubles = integers.map(|row| row.map(|x| x as f64));
        let mut fifteen = ours::cm_cofactors(simplex).into_iter();
        self.calls[COFACTORS] += 1;
        for row in 1..6 {
            for col in 1..6 {
                let exact = cofactor(permutations, &integers, row, col);
                let (place, (_, [value])) = (format!(" {row} {col}"), ours::cofactor_6x6(&doubles, row, col));
                self.calls[COFACTOR] += 1;
                self.expect(COFACTOR, value, exact, &place, simplex);
                if col >= row {
                    self.expect(COFACTORS, fifteen.next().unwrap(), exact, &place, simplex);
                }
            }
        }
        self.simplexes += 1;
    }

    /// Compares a triangle's squared area and gradient, times 16 and 8.
    fn triangle(&mut self, lengths: [f64; 3]) {
        let [a, b, c] = lengths.map(|x| x as i128);
        let area = ours::triangle_area_sq_lorentzian(lengths[0], lengths[1], lengths[2]);
        self.calls[AREA] += 1;
        self.expect(AREA, 16.0 * area, 4 * a * b - (a + b - c) * (a + b - c), ", times 16,", &lengths);
        let gradient = ours::triangle_area_sq_grad(lengths[0], lengths[1], lengths[2]);
        self.calls[GRADIENT] += 1;
        for (value, exact) in gradient.into_iter().zip([b + c - a, a + c - b, a + b - c]) {
            self.expect(GRADIENT, 8.0 * value, exact, ", times 8,", &lengths);
        }
        self.triangles += 1;
    }

    /// Compares all simplexes and triangles: every choice of -limit, 0 and limit, then random ones.
    pub fn compare(&mut self, random: &mut Random) {
        let permutations = permutations();
        let digit = |code: usize, k: usize| (code / 3usize.pow(k as u32) % 3) as f64 - 1.0;
        for code in 0..3usize.pow(10) {
            self.simplex(&permutations, &std::array::from_fn(|k| SIMPLEX_LIMIT * digit(code, k)));
        }
        for _ in 0..50_000 {
            self.simplex(&permutations, &whole(random));
        }
        for code in 0..3usize.pow(3) {
            self.triangle(std::array::from_fn(|k| TRIANGLE_LIMIT as f64 * digit(code, k)));
        }
        for _ in 0..120_000 {
            let limit = random.pick(&[3, 1000, TRIANGLE_LIMIT]);
            self.triangle([(); 3].map(|()| random.whole(limit)));
        }
    }

    /// How many values differ.
    pub fn differences(&self) -> u64 {
        self.differences.iter().sum()
    }

    /// Prints the counts.
    pub fn print(&self) {
        let (cofactors, differences) = (self.values[COFACTOR] + self.values[COFACTORS], self.differences());
        let Exact { simplexes, triangles, .. } = self;
        println!(
            "exact integers: {simplexes} simplexes, {cofactors} cofactors, {triangles} triangles, {differences} differences"
        );
    }

    /// Prints the lines of the table.
    pub fn print_table(&self) {
        for (function, name) in NAMES.iter().enumerate() {
            table::calls(name, self.calls[function], self.calls[function], self.differences[function]);
        }
    }
}
