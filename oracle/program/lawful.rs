//! Inputs that are answered: complexes of up to 64 pentachorons and their lengths.
use crate::fields::{Fields, LARGEST_VERTEX, MOST_PENTS};
use calls::complexes::{self, KINDS, VERTICES, shuffle};
use calls::random::Random;
use calls::{Complex, as_rust};
use hinges::expected::bits;
use hinges::lengths;
use phyz_regge::complex::SimplicialComplex;

/// A sort of lengths: its name, and how one is drawn.
type Sort = (&'static str, fn(&mut Random) -> f64);

/// The sorts of which all of a complex's lengths are, besides those of hinges/.
const SORTS: [Sort; 4] = [
    ("all zero", |_| 0.0),
    ("all one", |_| 1.0),
    ("NaN of several payloads", |random| f64::from_bits(random.pick(&NANS) | random.word() << 63)),
    ("infinities", Random::infinite),
];

/// The bits of NaNs: quiet and signalling, of the least payload and of the largest.
const NANS: [u64; 5] =
    [0x7ff8_0000_0000_0000, 0x7ff0_0000_0000_0001, 0x7ff7_ffff_ffff_ffff, 0x7fff_ffff_ffff_ffff, 0x7ffc_0000_dead_beef];

/// The kinds of complexes that are drawn for any input: all but whole lattices and 8,192 pentachorons, which take long.
const QUICK: [usize; 12] = [0, 1, 2, 3, 4, 5, 6, 7, 8, 10, 11, 12];

/// How many inputs it takes to have every vertex in each of a pentachoron's five slots: in a fifth of them each vertex is in one.
pub const EVERY_VERTEX: usize = 5 * EACH_VERTEX;
const EACH_VERTEX: usize = (LARGEST_VERTEX + 1).div_ceil(5 * MOST_PENTS);

/// The complex of the number of a kind of complex/, or a part of it that has up to 64 successive pentachorons.
pub fn complex(random: &mut Random, kind: &complexes::Kind, number: usize) -> Complex {
    let (n_vertices, mut pents) = (kind.draw)(random, number % kind.count);
    if pents.len() > MOST_PENTS {
        let any = random.below(MOST_PENTS + 1);
        let count = random.pick(&[MOST_PENTS, MOST_PENTS, MOST_PENTS - 1, any]);
        let start = random.below(pents.len() - count + 1);
        pents = pents[start..start + count].to_vec();
    }
    (n_vertices, pents)
}

/// A complex with lengths of the kinds in turn, and the name of their kind.
pub fn with_lengths(random: &mut Random, number: usize, complex: Complex) -> (String, Fields) {
    let built = SimplicialComplex::from_pentachorons(complex.0, &as_rust(&complex.1));
    let (name, lengths) = match SORTS.get(number % (SORTS.len() + lengths::COUNT)) {
        Some((name, draw)) => (name.to_string(), built.edges.iter().map(|_| draw(random)).collect()),
        None => lengths::drawn(random, number % (SORTS.len() + lengths::COUNT) - SORTS.len(), &built),
    };
    (name, Fields::new(complex, bits(&lengths)))
}

/// Any complex with any lengths.
pub fn any(random: &mut Random) -> Fields {
    let (kind, number) = (random.pick(&QUICK), random.below(1_000));
    let complex = complex(random, &KINDS[kind], number);
    let number = random.below(1_000);
    with_lengths(random, number, complex).1
}

/// Any complex of at least so many pentachorons and fewer than 4096 vertices, so that a vertex can be outside.
pub fn any_with(random: &mut Random, least: usize) -> Fields {
    loop {
        let fields = any(random);
        if fields.n_pents >= least && fields.n_vertices <= LARGEST_VERTEX {
            return fields;
        }
    }
}

/// So many pentachorons over these vertices, with any lengths.
fn over(random: &mut Random, n_vertices: usize, count: usize) -> Fields {
    let pents = complexes::scattered(random, n_vertices, count);
    let number = random.below(1_000);
    with_lengths(random, number, (n_vertices, pents)).1
}

/// So many pentachorons over any vertex count.
pub fn of_count(random: &mut Random, count: usize) -> Fields {
    let n_vertices = random.pick(&VERTICES);
    over(random, n_vertices, count)
}

/// So many pentachorons over any vertex count below 4096, so that a vertex can be outside.
pub fn of_count_below(random: &mut Random, count: usize) -> Fields {
    let n_vertices = random.pick(&VERTICES).min(LARGEST_VERTEX);
    over(random, n_vertices, count)
}

/// As many vertices as the number says, and from five on a pentachoron with the last.
pub fn of_vertex_count(random: &mut Random, n_vertices: usize) -> Fields {
    let mut pents = complexes::scattered(random, n_vertices, usize::from(n_vertices >= 5));
    for pent in &mut pents {
        let last = n_vertices as u32 - 1;
        if !pent.contains(&last) {
            pent[random.below(5)] = last;
        }
    }
    with_lengths(random, n_vertices, (n_vertices, pents)).1
}

/// 64 pentachorons of successive vertices, of which no two have a common one; the slots turn with the number.
pub fn of_every_vertex(random: &mut Random, number: usize) -> Fields {
    let (part, turn) = (number % EACH_VERTEX, number / EACH_VERTEX);
    let vertex = |pent: usize, slot: usize| 5 * (MOST_PENTS * part + pent) + (slot + turn) % 5;
    let pent = |pent| std::array::from_fn(|slot| (vertex(pent, slot) & LARGEST_VERTEX) as u32);
    let mut pents: Vec<_> = (0..MOST_PENTS).map(pent).collect();
    shuffle(random, &mut pents);
    with_lengths(random, number, (LARGEST_VERTEX + 1, pents)).1
}
