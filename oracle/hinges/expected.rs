//! What the calls must answer: the refusals by the table of 01-scope.md, the rest by the altered Rust.
use calls::checks::{self, Check};
use phyz_regge::complex::SimplicialComplex;

/// What the Rust answers to a complex and lengths; a kind is 0 for Spacelike and 1 for Timelike.
pub struct Answers {
    pub deficits: Vec<f64>,
    pub kinds: Vec<u8>,
    pub action: f64,
    pub grad: Vec<f64>,
}

/// The answers of a copy of the Rust.
macro_rules! answers {
    ($rust:ident, $complex:expr, $lengths:expr) => {{
        let hinges = $rust::lorentzian_regge::lorentzian_deficit_angles($complex, $lengths);
        let (deficits, kinds) = hinges.into_iter().map(|(deficit, kind)| (deficit, kind as u8)).unzip();
        let action = $rust::lorentzian_regge::lorentzian_regge_action($complex, $lengths);
        let grad = $rust::lorentzian_regge::lorentzian_regge_action_grad($complex, $lengths);
        Answers { deficits, kinds, action, grad }
    }};
}

/// The altered Rust's answers.
pub fn altered(complex: &SimplicialComplex, lengths: &[f64]) -> Answers {
    answers!(altered, complex, lengths)
}

/// The unaltered Rust's answers.
pub fn unaltered(complex: &SimplicialComplex, lengths: &[f64]) -> Answers {
    answers!(phyz_regge, complex, lengths)
}

/// The complex that counts and lists are, with lengths of the right number, or 7 or 8.
pub fn accepted(check: &Check, lengths: &[f64]) -> Result<SimplicialComplex, u32> {
    let complex = checks::built(check).ok_or(7_u32)?;
    if lengths.len() == complex.edges.len() { Ok(complex) } else { Err(8) }
}

/// The altered Rust's answers to a complex and lengths, if they are accepted.
pub fn over(accepted: &Result<SimplicialComplex, u32>, lengths: &[f64]) -> Result<Answers, u32> {
    accepted.as_ref().map(|complex| altered(complex, lengths)).map_err(|number| *number)
}

/// The bits of some numbers.
pub fn bits(numbers: &[f64]) -> Vec<u64> {
    numbers.iter().map(|number| number.to_bits()).collect()
}

/// Puts values at the start of an output.
pub fn put<T: Copy>(output: &mut [T], values: &[T]) {
    output[..values.len()].copy_from_slice(values);
}

/// What a call of lorentzian_deficit_angles leaves: its number, the bits of the deficits, and the kinds, given their content before it.
pub fn table(over: &Result<Answers, u32>, mut deficits: Vec<u64>, mut kinds: Vec<u8>) -> (u32, Vec<u64>, Vec<u8>) {
    let number = match over {
        Err(number) => *number,
        Ok(answers) if deficits.len().min(kinds.len()) < answers.kinds.len() => 5,
        Ok(answers) => {
            put(&mut deficits, &bits(&answers.deficits));
            put(&mut kinds, &answers.kinds);
            0
        }
    };
    (number, deficits, kinds)
}

/// What a call of lorentzian_deficit_angle leaves, given the deficit's bits and the kind before it.
pub fn hinge(over: &Result<Answers, u32>, tri: u32, (deficit, kind): (u64, u8)) -> (u32, u64, u8) {
    match over {
        Err(number) => (*number, deficit, kind),
        Ok(answers) => match answers.deficits.get(tri as usize) {
            None => (11, deficit, kind),
            Some(deficit) => (0, deficit.to_bits(), answers.kinds[tri as usize]),
        },
    }
}

/// What a call of lorentzian_regge_action leaves, given the action's bits before it.
pub fn action(over: &Result<Answers, u32>, action: u64) -> (u32, u64) {
    match over {
        Err(number) => (*number, action),
        Ok(answers) => (0, answers.action.to_bits()),
    }
}

/// What a call of lorentzian_regge_action_grad leaves, given the gradient's bits before it.
pub fn gradient(over: &Result<Answers, u32>, mut grad: Vec<u64>) -> (u32, Vec<u64>) {
    let number = match over {
        Err(number) => *number,
        Ok(answers) if grad.len() < answers.grad.len() => 5,
        Ok(answers) => {
            put(&mut grad, &bits(&answers.grad));
            0
        }
    };
    (number, grad)
}

/// How many lengths are timelike, null and spacelike.
pub fn signs(lengths: &[f64]) -> [usize; 3] {
    let timelike = lengths.iter().filter(|&&length| length < 0.0).count();
    let null = lengths.iter().filter(|&&length| length == 0.0).count();
    [timelike, null, lengths.len() - timelike - null]
}
