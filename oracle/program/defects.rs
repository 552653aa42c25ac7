//! The defects of an input, and the reason for which each is refused.
use crate::expected::Refusal;
use crate::fields::{
    Fields, LARGEST_PENT_COUNT, LARGEST_VERTEX, LARGEST_VERTEX_COUNT, MOST_PENTS, padding_bits, vertex_bytes,
};
use calls::random::Random;

/// Some bytes: zeros, ones, any.
pub fn bytes(random: &mut Random, count: usize) -> Vec<u8> {
    let [set, drawn] = random.pick(&[[0, 0], [0xff, 0], [0, 0xff]]);
    (0..count).map(|_| set | random.word() as u8 & drawn).collect()
}

/// A pentachoron count above 64: the least, the largest, some that are few after a cut to 7 to 13 bits, any.
pub fn many_pents(random: &mut Random) -> usize {
    let least = MOST_PENTS + 1;
    let cut = (1 << (7 + random.below(7))) + random.below(least);
    let any = least + random.below(LARGEST_PENT_COUNT - MOST_PENTS);
    random.pick(&[least, LARGEST_PENT_COUNT, cut, cut, any])
}

/// 0, or a vertex count above 4096.
pub fn wrong_vertex_count(random: &mut Random) -> usize {
    let least = LARGEST_VERTEX + 2;
    let any = least + random.below(LARGEST_VERTEX_COUNT - LARGEST_VERTEX - 1);
    random.pick(&[0, 0, least, least + 1, LARGEST_VERTEX_COUNT, any, any])
}

/// A vertex that isn't below the count, which isn't 4096: the next ones, the largest, any.
pub fn vertex_outside(random: &mut Random, n_vertices: usize) -> u32 {
    let any = n_vertices + random.below(LARGEST_VERTEX + 1 - n_vertices);
    let next = LARGEST_VERTEX.min(n_vertices + 1);
    random.pick(&[n_vertices, n_vertices, next, LARGEST_VERTEX, any]) as u32
}

/// Puts a pentachoron's vertex of this slot into another slot too.
fn repeat(random: &mut Random, fields: &mut Fields, pent: usize, slot: usize) {
    fields.pents[pent][(slot + 1 + random.below(4)) % 5] = fields.pents[pent][slot];
}

/// Puts a vertex outside into one pentachoron and a vertex twice into another, or only one of these; where both are one pentachoron, the vertex outside may itself be there twice. Why this is refused.
pub fn spoil_pents(
    random: &mut Random,
    fields: &mut Fields,
    outside: Option<usize>,
    twice: Option<usize>,
) -> Option<Refusal> {
    let slots = [random.below(5), random.below(5)];
    if let Some(pent) = twice {
        repeat(random, fields, pent, slots[0]);
    }
    if let Some(pent) = outside {
        fields.pents[pent][slots[1]] = vertex_outside(random, fields.n_vertices);
        if twice == outside && random.below(2) == 0 {
            repeat(random, fields, pent, slots[1]);
        }
    }
    match (outside, twice) {
        (Some(outside), Some(twice)) if twice < outside => Some(Refusal::Builder(4, twice)),
        (Some(outside), _) => Some(Refusal::Builder(3, outside)),
        (None, twice) => twice.map(|twice| Refusal::Builder(4, twice)),
    }
}

/// Gives an input any defects that are looked for after the pentachoron count.
pub fn spoil(random: &mut Random, fields: &mut Fields) {
    let count = fields.pents.len();
    if count != 0 && fields.n_vertices <= LARGEST_VERTEX {
        let [outside, twice] = [(); 2].map(|()| Some(random.below(2 * count)).filter(|&pent| pent < count));
        spoil_pents(random, fields, outside, twice);
    }
    if random.below(2) == 0 {
        fields.n_vertices = wrong_vertex_count(random);
    }
    fields.padding = random.below(1 << padding_bits(count));
}

/// Another number of bytes than the lengths have, of these kinds in turn: a byte or a length more or fewer, half a length, some bytes, half of all, none, as if no two pentachorons had a common edge, any.
pub fn wrong_size(random: &mut Random, number: usize, fields: &Fields) -> usize {
    let right = 8 * fields.lengths.len();
    let fewer = |bytes: usize| right.saturating_sub(bytes);
    let (any, some, apart) = (random.below(2 * right + 20), 1 + random.below(16), 80 * fields.n_pents);
    let [byte, length, half] = [1, 8, 4].map(|bytes| [fewer(bytes), right + bytes]);
    let sizes = [byte, length, half, [fewer(some), right + some], [right / 2, 0], [apart, any]];
    let size = sizes.as_flattened()[number % (2 * sizes.len())];
    if size == right { right + 1 } else { size }
}

/// An input with so many bytes after the vertices: the lengths, cut short or with more bytes after them.
pub fn sized(random: &mut Random, fields: &Fields, size: usize) -> Vec<u8> {
    let mut input = fields.packed();
    input.extend(bytes(random, size));
    input.truncate(vertex_bytes(fields.pents.len()) + size);
    input
}
