//! How answers are compared before they are timed.

/// How far an answer may be from the Rust's, whose angle functions and order of sums are others: this part of the largest number, or of 1
/// if all are smaller.
const APART: f64 = 1e-6;

/// Makes sure that numbers have the same bits.
pub fn assert_same(ours: &[f64], others: &[f64]) {
    let bits = |numbers: &[f64]| numbers.iter().map(|number| number.to_bits()).collect::<Vec<_>>();
    assert!(bits(ours) == bits(others), "answers differ");
}

/// Makes sure that numbers are finite and about those of the Rust.
pub fn assert_near(ours: &[f64], rust: &[f64]) {
    assert_eq!(ours.len(), rust.len(), "the Rust gives more or fewer numbers");
    let largest = rust.iter().fold(1.0_f64, |largest, number| largest.max(number.abs()));
    for (ours, rust) in ours.iter().zip(rust) {
        assert!((ours - rust).abs() <= APART * largest, "{ours} where the Rust has {rust}");
    }
}
