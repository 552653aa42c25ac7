//! The tables that are lent to a retouch: worked out anew, stale, garbage; of just their room or longer.
use crate::expected::{Table, anew};
use calls::random::Random;
use hinges::simplexes::SORTS;
use phyz_regge::complex::SimplicialComplex;

/// How the records of a complex with lengths are drawn.
type Draw = fn(&mut Random, &SimplicialComplex, &[f64]) -> Table;

/// Worked out anew, but for no record, one or some; stale by one length or some; garbage.
const KINDS: [Draw; 6] = [
    |_, complex, lengths| anew(complex, lengths),
    |random, complex, lengths| some(random, complex, lengths, 1),
    |random, complex, lengths| some(random, complex, lengths, 9),
    |random, complex, lengths| stale(random, complex, lengths, 1),
    |random, complex, lengths| stale(random, complex, lengths, 9),
    |random, complex, _| garbage(random, complex.triangles.len()),
];

/// How many kinds there are.
pub const COUNT: usize = KINDS.len();

/// The table of a complex with lengths, the kinds in turn, longer by some places or not.
pub fn drawn(random: &mut Random, number: usize, complex: &SimplicialComplex, lengths: &[f64]) -> Table {
    let mut table = KINDS[number % COUNT](random, complex, lengths);
    let [deficits, kinds] = [(); 2].map(|()| random.pick(&[0, 0, 1, 7, 100]));
    table.deficits.extend(garbage(random, deficits).deficits);
    table.kinds.extend(garbage(random, kinds).kinds);
    table
}

/// So many records: NaN of any payload or any bits, and bytes that are no kind.
fn garbage(random: &mut Random, places: usize) -> Table {
    let deficit = |random: &mut Random| random.pick(&[Random::nan, Random::nan, Random::bits])(random).to_bits();
    let deficits = (0..places).map(|_| deficit(random)).collect();
    Table { deficits, kinds: (0..places).map(|_| 2 + random.below(254) as u8).collect() }
}

/// Changes the deficit of a record, its kind, or both: to a neighbour, the other zero, any number, NaN, the other kind, no kind.
pub fn spoil(random: &mut Random, table: &mut Table, tri: usize) {
    let which = random.below(3);
    if which != 0 {
        let (old, any) = (table.deficits[tri], random.bits().to_bits());
        table.deficits[tri] = random.pick(&[old ^ 1, old ^ 1, old ^ 1 << 63, any, random.0 | 0x7ff8 << 48]);
    }
    if which != 1 {
        let none = 2 + random.below(254) as u8;
        table.kinds[tri] = random.pick(&[table.kinds[tri] ^ 1, none]);
    }
}

/// The table worked out anew, but for up to so many records.
fn some(random: &mut Random, complex: &SimplicialComplex, lengths: &[f64], most: usize) -> Table {
    let mut table = anew(complex, lengths);
    let places = table.kinds.len();
    for _ in 0..(1 + random.below(most)).min(places) {
        let tri = random.below(places);
        spoil(random, &mut table, tri);
    }
    table
}

/// The table worked out anew from lengths of which up to so many are others.
fn stale(random: &mut Random, complex: &SimplicialComplex, lengths: &[f64], most: usize) -> Table {
    let mut others = lengths.to_vec();
    for _ in 0..(1 + random.below(most)).min(lengths.len()) {
        let edge = random.below(lengths.len());
        others[edge] = random.pick(&SORTS)(random);
    }
    anew(complex, &others)
}
