//! Complexes that are built but aren't the lattice's that they are made from. Whether one is it all the same isn't for them to say.
use calls::complexes::shuffle;
use calls::random::Random;
use phyz_regge::complex::SimplicialComplex;

/// Pentachorons in the Rust's numbers.
type Pents = Vec<[usize; 5]>;

/// A way to make another complex: its name, and what it does to the vertex count and the pentachorons.
pub struct Other {
    pub name: &'static str,
    change: fn(&mut Random, &mut usize, &mut Pents),
}

impl Other {
    /// What the Rust builds after the change.
    pub fn make(&self, random: &mut Random, lattice: &SimplicialComplex) -> SimplicialComplex {
        let (mut n_vertices, mut pents) = (lattice.n_vertices, lattice.pents.clone());
        (self.change)(random, &mut n_vertices, &mut pents);
        SimplicialComplex::from_pentachorons(n_vertices, &pents)
    }
}

pub const OTHERS: [Other; 13] = [
    Other { name: "two neighbours exchanged", change: |random, _, pents| exchange(random, pents, true) },
    Other { name: "two pentachorons exchanged", change: |random, _, pents| exchange(random, pents, false) },
    Other { name: "the order turned round", change: |_, _, pents| pents.reverse() },
    Other { name: "the first moved to the end", change: |_, _, pents| pents.rotate_left(1) },
    Other { name: "any order", change: |random, _, pents| shuffle(random, pents) },
    Other { name: "ascending order", change: |_, _, pents| pents.sort_unstable() },
    Other { name: "all but one", change: all_but_one },
    Other { name: "one twice, at the end", change: |random, _, pents| pents.push(pents[place(random, pents.len())]) },
    Other { name: "one in place of another", change: in_place },
    Other { name: "another at the end", change: another },
    Other { name: "another vertex count", change: vertex_count },
    Other { name: "vertices numbered one further", change: further },
    Other { name: "two vertices exchanged", change: two_vertices },
];

/// The first place, the last or any.
fn place(random: &mut Random, end: usize) -> usize {
    let any = random.below(end);
    random.pick(&[0, end - 1, any, any])
}

/// Two pentachorons exchanged, neighbours or not.
fn exchange(random: &mut Random, pents: &mut Pents, neighbours: bool) {
    let a = place(random, pents.len() - 1);
    let b = if neighbours { a + 1 } else { random.below(pents.len()) };
    pents.swap(a, b);
}

/// One taken away.
fn all_but_one(random: &mut Random, _: &mut usize, pents: &mut Pents) {
    pents.remove(place(random, pents.len()));
}

/// One stands in place of another too.
fn in_place(random: &mut Random, _: &mut usize, pents: &mut Pents) {
    let (from, to) = (place(random, pents.len()), place(random, pents.len()));
    pents[to] = pents[from];
}

/// One more, of any vertices.
fn another(random: &mut Random, n_vertices: &mut usize, pents: &mut Pents) {
    let mut vertices: Vec<usize> = (0..*n_vertices).collect();
    shuffle(random, &mut vertices);
    pents.push(std::array::from_fn(|place| vertices[place]));
}

/// More vertices, of which no pentachoron has the last.
fn vertex_count(random: &mut Random, n_vertices: &mut usize, _: &mut Pents) {
    let any = *n_vertices + 1 + random.below(4_096 - *n_vertices);
    *n_vertices = random.pick(&[*n_vertices + 1, *n_vertices + 1, 2 * *n_vertices, 4_096, any]);
}

/// Every vertex is the next one, the last the first: the lattice's, moved.
fn further(_: &mut Random, n_vertices: &mut usize, pents: &mut Pents) {
    pents.iter_mut().for_each(|pent| *pent = pent.map(|vertex| (vertex + 1) % *n_vertices));
}

/// Two vertices have each other's number.
fn two_vertices(random: &mut Random, n_vertices: &mut usize, pents: &mut Pents) {
    let a = place(random, *n_vertices);
    let b = (a + 1 + random.below(*n_vertices - 1)) % *n_vertices;
    let exchanged = |vertex: usize| {
        if vertex == a {
            b
        } else if vertex == b {
            a
        } else {
            vertex
        }
    };
    pents.iter_mut().for_each(|pent| *pent = pent.map(exchanged));
}
