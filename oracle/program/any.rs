//! Inputs of which only their bytes say what is due: random ones, and such as could be answered with something changed.
use crate::fields::{Fields, LARGEST_VERTEX, MOST_PENTS, padding_bits, vertex_bytes};
use crate::lawful;
use calls::complexes::VERTICES;
use calls::random::Random;

/// A kind of inputs: how many are compared, and how the one of a number is drawn.
pub struct Kind {
    pub name: &'static str,
    pub count: usize,
    pub draw: fn(&mut Random, usize) -> Vec<u8>,
}

pub const KINDS: [Kind; 4] = [
    Kind { name: "random bytes", count: 1_000, draw: |random, _| bytes_of_any_size(random) },
    Kind { name: "random vertices", count: 1_000, draw: |random, _| vertices(random) },
    Kind { name: "random bytes after a header", count: 500, draw: |random, _| after_header(random) },
    Kind { name: "a lawful input changed", count: 2_000, draw: changed },
];

/// So many random bytes.
fn bytes(random: &mut Random, count: usize) -> Vec<u8> {
    (0..count).map(|_| random.word() as u8).collect()
}

/// Random bytes of a random number.
fn bytes_of_any_size(random: &mut Random) -> Vec<u8> {
    let limit = random.pick(&[9, 40, 600, 6_000, 20_000]);
    let count = random.below(limit);
    bytes(random, count)
}

/// Random vertices of up to four pentachorons over any vertex count, lawful or not, the padding zero or not, and mostly as many random lengths as ten for each.
fn vertices(random: &mut Random) -> Vec<u8> {
    let (count, any) = (random.below(5), 1 + random.below(LARGEST_VERTEX + 1));
    let n_vertices = random.pick(&[LARGEST_VERTEX + 1, LARGEST_VERTEX + 1, any]);
    let pents = (0..count).map(|_| [(); 5].map(|()| random.below(LARGEST_VERTEX + 1) as u32)).collect();
    let n_lengths = 10 * count + random.pick(&[0, 0, 0, 0, 1]);
    let mut fields = Fields::new((n_vertices, pents), (0..n_lengths).map(|_| random.word()).collect());
    let any = random.below(1 << padding_bits(count));
    fields.padding = random.pick(&[0, 0, 0, any]);
    fields.packed()
}

/// Random bytes after a vertex count and a pentachoron count that are lawful, about as many as the vertices take.
fn after_header(random: &mut Random) -> Vec<u8> {
    let (n_vertices, n_pents) = (random.pick(&VERTICES), random.below(MOST_PENTS + 1));
    let mut fields = Fields::new((n_vertices, vec![]), vec![]);
    fields.n_pents = n_pents;
    fields.padding = random.below(1 << padding_bits(0));
    let count = random.below(2 * vertex_bytes(n_pents));
    [fields.packed(), bytes(random, count)].concat()
}

/// An input that could be answered, with a change of one of these kinds in turn: a bit, a bit of the first sixteen bytes, a byte, a byte taken out, put in or repeated, two bytes swapped, the end cut off.
fn changed(random: &mut Random, number: usize) -> Vec<u8> {
    let mut input = lawful::any(random).packed();
    let (place, other, byte) = (random.below(input.len()), random.below(input.len()), random.word() as u8);
    let first = random.below(input.len().min(16));
    match number % 8 {
        0 => input[place] ^= 1 << (byte % 8),
        1 => input[first] ^= 1 << (byte % 8),
        2 => input[place] = byte,
        3 => drop(input.remove(place)),
        4 => input.insert(place, byte),
        5 => input.insert(place, input[place]),
        6 => input.swap(place, other),
        _ => input.truncate(place),
    }
    input
}
