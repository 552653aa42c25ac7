//! What the program must print: the refusals in the order of 01-scope.md, the lines by the altered Rust.
use crate::fields::{self, Fields, MOST_PENTS};
use calls::expected::built;
use calls::{Call, as_rust};
use hinges::expected::{altered, signs};
use phyz_regge::complex::SimplicialComplex;

/// Why an input is refused, in the order of the checks; the builder's reason is its number and its place.
#[derive(Clone, Copy, Debug, PartialEq)]
pub enum Refusal {
    HeaderShort,
    ManyPents,
    VerticesShort,
    Builder(u32, usize),
    PadBit,
    Lengths,
}

impl Refusal {
    /// The number of the refusal and its place.
    pub fn printed(self) -> (u32, usize) {
        match self {
            Refusal::ManyPents => (13, 0),
            Refusal::Builder(number, place) => (number, place),
            Refusal::HeaderShort | Refusal::VerticesShort | Refusal::PadBit | Refusal::Lengths => (12, 0),
        }
    }
}

/// What an input says, or why it is refused.
pub type Verdict = Result<Fields, Refusal>;

/// Reads an input check by check.
pub fn read(input: &[u8]) -> Verdict {
    let (n_vertices, n_pents) = fields::header(input).ok_or(Refusal::HeaderShort)?;
    if n_pents > MOST_PENTS {
        return Err(Refusal::ManyPents);
    }
    let (pents, padding) = fields::pents(input, n_pents).ok_or(Refusal::VerticesShort)?;
    let call = Call::new((n_vertices, pents.clone()), || 0);
    let complex = built(&call).map_err(|(number, place)| Refusal::Builder(number, place))?;
    if padding != 0 {
        return Err(Refusal::PadBit);
    }
    let lengths = fields::lengths(input, n_pents).filter(|lengths| lengths.len() == complex.edges.len());
    let lengths = lengths.ok_or(Refusal::Lengths)?;
    Ok(Fields { n_vertices, n_pents, pents, padding, lengths })
}

/// The bits of a number, or `nan`.
fn shown(number: f64) -> String {
    if number.is_nan() { "nan".to_string() } else { format!("{:016x}", number.to_bits()) }
}

/// The lines of an answer.
fn answer(Fields { n_vertices, pents, lengths, .. }: &Fields) -> String {
    let complex = SimplicialComplex::from_pentachorons(*n_vertices, &as_rust(pents));
    let lengths: Vec<f64> = lengths.iter().map(|&bits| f64::from_bits(bits)).collect();
    let (answers, [timelike, null, spacelike]) = (altered(&complex, &lengths), signs(&lengths));
    let [edges, triangles, tets] = [complex.edges.len(), complex.triangles.len(), complex.tets.len()];
    let mut lines = format!("edges {edges} triangles {triangles} tets {tets}\n");
    lines += &format!("timelike {timelike} null {null} spacelike {spacelike}\n");
    for (number, (deficit, kind)) in answers.deficits.iter().zip(&answers.kinds).enumerate() {
        lines += &format!("hinge {number} {} {}\n", ["S", "T"][usize::from(*kind)], shown(*deficit));
    }
    for (number, entry) in answers.grad.iter().enumerate() {
        lines += &format!("grad {number} {}\n", shown(*entry));
    }
    lines
}

/// What must be printed.
pub fn output(verdict: &Verdict) -> String {
    match verdict {
        Ok(fields) => answer(fields),
        Err(refusal) => {
            let (number, place) = refusal.printed();
            format!("refused {number} {place}\n")
        }
    }
}
