//! What the calls over free edges must answer: the refusals by the table of 01-scope.md, the rest by the altered Rust.
use crate::expected::{bits, put};
use phyz_regge::complex::SimplicialComplex;

/// What the Rust answers to a complex, lengths, free edges and a step: the triangles ascending, with deficits and kinds; the gradient; the Hessian row after row.
pub struct Answers {
    pub tris: Vec<u32>,
    pub deficits: Vec<f64>,
    pub kinds: Vec<u8>,
    pub grad: Vec<f64>,
    pub hessian: Vec<f64>,
}

/// The free edges of a call, and the step of its Jacobians.
#[derive(Clone)]
pub struct Free {
    pub edges: Vec<u32>,
    pub fd_eps: f64,
}

/// The content of the outputs of local_deficit_angles, the deficits as bits.
#[derive(Clone)]
pub struct Hinges {
    pub tris: Vec<u32>,
    pub deficits: Vec<u64>,
    pub kinds: Vec<u8>,
    pub count: usize,
}

/// The answers of a copy of the Rust; a hash map's hinges are sorted by triangle.
macro_rules! answers {
    ($rust:ident, $complex:expr, $lengths:expr, $free:expr) => {{
        let free: Vec<usize> = $free.edges.iter().map(|&edge| edge as usize).collect();
        let hinges = $rust::lorentzian_regge::local_deficit_angles($complex, $lengths, &free);
        let mut hinges: Vec<_> = hinges.into_iter().collect();
        hinges.sort_by_key(|(tri, _)| *tri);
        let tris = hinges.iter().map(|(tri, _)| *tri as u32).collect();
        let (deficits, kinds) = hinges.into_iter().map(|(_, (deficit, kind))| (deficit, kind as u8)).unzip();
        let grad = $rust::lorentzian_regge::local_lorentzian_regge_action_grad($complex, $lengths, &free);
        let matrix = $rust::lorentzian_regge::local_lorentzian_regge_hessian($complex, $lengths, &free, $free.fd_eps);
        let places = (0..free.len()).flat_map(|row| (0..free.len()).map(move |column| (row, column)));
        let hessian = places.map(|place| matrix[place]).collect();
        Answers { tris, deficits, kinds, grad, hessian }
    }};
}

/// The altered Rust's answers.
pub fn altered(complex: &SimplicialComplex, lengths: &[f64], free: &Free) -> Answers {
    answers!(altered, complex, lengths, free)
}

/// The unaltered Rust's answers.
pub fn unaltered(complex: &SimplicialComplex, lengths: &[f64], free: &Free) -> Answers {
    answers!(phyz_regge, complex, lengths, free)
}

/// The altered Rust's answers over a complex that is accepted with its lengths, or 9 or 10; or the number with which it isn't.
pub fn over(accepted: &Result<SimplicialComplex, u32>, lengths: &[f64], free: &Free) -> Result<Answers, u32> {
    let complex = accepted.as_ref().map_err(|number| *number)?;
    if free.edges.iter().any(|&edge| edge as usize >= complex.edges.len()) {
        return Err(9);
    }
    let mut sorted = free.edges.clone();
    sorted.sort_unstable();
    if sorted.windows(2).any(|two| two[0] == two[1]) { Err(10) } else { Ok(altered(complex, lengths, free)) }
}

/// What a call of local_deficit_angles leaves: its number and the outputs, given their content before it.
pub fn hinges(over: &Result<Answers, u32>, mut outputs: Hinges) -> (u32, Hinges) {
    let room = outputs.tris.len().min(outputs.deficits.len()).min(outputs.kinds.len());
    let number = match over {
        Err(number) => *number,
        Ok(answers) if room < answers.tris.len() => 5,
        Ok(answers) => {
            put(&mut outputs.tris, &answers.tris);
            put(&mut outputs.deficits, &bits(&answers.deficits));
            put(&mut outputs.kinds, &answers.kinds);
            outputs.count = answers.tris.len();
            0
        }
    };
    (number, outputs)
}

/// What a call with one output leaves, given the output's bits before it, where this is of the answers.
fn one_output(over: &Result<Answers, u32>, mut output: Vec<u64>, part: fn(&Answers) -> &[f64]) -> (u32, Vec<u64>) {
    let number = match over.as_ref().map(part) {
        Err(number) => *number,
        Ok(answer) if output.len() < answer.len() => 5,
        Ok(answer) => {
            put(&mut output, &bits(answer));
            0
        }
    };
    (number, output)
}

/// What a call of local_lorentzian_regge_action_grad leaves, given the gradient's bits before it.
pub fn gradient(over: &Result<Answers, u32>, grad: Vec<u64>) -> (u32, Vec<u64>) {
    one_output(over, grad, |answers| &answers.grad)
}

/// What a call of local_lorentzian_regge_hessian leaves, given the Hessian's bits before it.
pub fn hessian(over: &Result<Answers, u32>, hessian: Vec<u64>) -> (u32, Vec<u64>) {
    one_output(over, hessian, |answers| &answers.hessian)
}
