//! The program's input as 01-scope.md has it: its fields, and how they are packed.
use calls::{Complex, Pent};

/// How many bits the vertex count, the pentachoron count, a vertex and a length have.
const VERTEX_COUNT: usize = 13;
const PENT_COUNT: usize = 14;
const VERTEX: usize = 12;
const LENGTH: usize = 64;

/// The largest vertex count and pentachoron count that can be packed, and the largest vertex.
pub const LARGEST_VERTEX_COUNT: usize = (1 << VERTEX_COUNT) - 1;
pub const LARGEST_PENT_COUNT: usize = (1 << PENT_COUNT) - 1;
pub const LARGEST_VERTEX: usize = (1 << VERTEX) - 1;

/// The most pentachorons that aren't refused.
pub const MOST_PENTS: usize = 64;

/// The bytes of the shortest input whose header isn't short, and of the longest that is answered.
pub const HEADER_BYTES: usize = 4;
pub const LONGEST: usize = 5_604;

/// What an input says. The pentachoron count need not be the number of pentachorons; the padding is what stands between the vertices and the lengths, which are given by their bits.
#[derive(Clone, Debug, PartialEq)]
pub struct Fields {
    pub n_vertices: usize,
    pub n_pents: usize,
    pub pents: Vec<Pent>,
    pub padding: usize,
    pub lengths: Vec<u64>,
}

/// How many bits there are up to the last vertex of so many pentachorons.
fn vertex_bits(n_pents: usize) -> usize {
    VERTEX_COUNT + PENT_COUNT + 5 * VERTEX * n_pents
}

/// How many bytes have the vertices of so many pentachorons and the padding.
pub fn vertex_bytes(n_pents: usize) -> usize {
    vertex_bits(n_pents).div_ceil(8)
}

/// How many bits the padding after so many pentachorons has.
pub fn padding_bits(n_pents: usize) -> usize {
    8 * vertex_bytes(n_pents) - vertex_bits(n_pents)
}

/// Puts a number of so many bits, the most significant first.
fn put(bits: &mut Vec<bool>, width: usize, number: u64) {
    bits.extend((0..width).rev().map(|place| number >> place & 1 == 1));
}

/// The number that so many bits from this one on spell, the first of them the most significant.
fn number(input: &[u8], from: usize, width: usize) -> usize {
    let bit = |place: usize| usize::from(input[place / 8] >> (7 - place % 8) & 1);
    (from..from + width).fold(0, |number, place| 2 * number + bit(place))
}

impl Fields {
    /// A complex with the bits of its lengths.
    pub fn new((n_vertices, pents): Complex, lengths: Vec<u64>) -> Self {
        Fields { n_vertices, n_pents: pents.len(), pents, padding: 0, lengths }
    }

    /// The input that says this.
    pub fn packed(&self) -> Vec<u8> {
        let mut bits = Vec::new();
        put(&mut bits, VERTEX_COUNT, self.n_vertices as u64);
        put(&mut bits, PENT_COUNT, self.n_pents as u64);
        self.pents.as_flattened().iter().for_each(|&vertex| put(&mut bits, VERTEX, vertex.into()));
        put(&mut bits, padding_bits(self.pents.len()), self.padding as u64);
        self.lengths.iter().for_each(|&length| put(&mut bits, LENGTH, length));
        bits.chunks(8).map(|byte| byte.iter().fold(0, |byte, &bit| byte << 1 | u8::from(bit))).collect()
    }
}

/// The vertex count and the pentachoron count of an input, if it has both in full.
pub fn header(input: &[u8]) -> Option<(usize, usize)> {
    let full = 8 * input.len() >= VERTEX_COUNT + PENT_COUNT;
    full.then(|| (number(input, 0, VERTEX_COUNT), number(input, VERTEX_COUNT, PENT_COUNT)))
}

/// So many pentachorons of an input, and the padding after them, if it has them in full.
pub fn pents(input: &[u8], n_pents: usize) -> Option<(Vec<Pent>, usize)> {
    let end = vertex_bits(n_pents);
    let vertex = |place: usize| number(input, VERTEX_COUNT + PENT_COUNT + VERTEX * place, VERTEX) as u32;
    let pent = |pent: usize| std::array::from_fn(|slot| vertex(5 * pent + slot));
    let full = 8 * input.len() >= end;
    full.then(|| ((0..n_pents).map(pent).collect(), number(input, end, padding_bits(n_pents))))
}

/// The bits of the lengths that stand after so many pentachorons, if they end the input.
pub fn lengths(input: &[u8], n_pents: usize) -> Option<Vec<u64>> {
    let (lengths, rest) = input[vertex_bytes(n_pents)..].as_chunks();
    rest.is_empty().then(|| lengths.iter().map(|length| u64::from_be_bytes(*length)).collect())
}
